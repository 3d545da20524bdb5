//! What document 01 says of trees, in a few plain lines: the builder rule and
//! the tree rules. Each is cut in parts, so that a test can exchange one.

use std::array::from_fn;
use std::cmp::Ordering;
use std::ops::{Range, RangeInclusive};

use super::{STRIDE, Tree};
use crate::engine::Point;
use crate::kinds::meshes::Mesh;
use crate::kinds::meshes::expected::{Bounds, box_of, center, triangles};

/// The own box of each triangle.
pub fn own_boxes(mesh: &Mesh) -> Vec<Bounds> {
    let own = |corners: [u32; 3]| box_of(corners.map(|v| mesh.vertex(v)));
    triangles(mesh).into_iter().map(own).collect()
}

/// The least box around two. Of two equal zeros the left one stays.
pub fn join([a_min, a_max]: Bounds, [b_min, b_max]: Bounds) -> Bounds {
    [
        from_fn(|i| {
            if b_min[i] < a_min[i] {
                b_min[i]
            } else {
                a_min[i]
            }
        }),
        from_fn(|i| {
            if b_max[i] > a_max[i] {
                b_max[i]
            } else {
                a_max[i]
            }
        }),
    ]
}

/// The parts of the builder rule.
#[derive(Clone, Copy)]
pub struct Rule {
    /// The middle of a triangle's own box.
    pub center: fn(Bounds) -> Point,
    /// The axis along which triangles with these centres are cut.
    pub axis: fn(&[Point]) -> usize,
    /// Which of two comes first, given the centre on that axis and the number of
    /// each.
    pub order: fn((f64, u32), (f64, u32)) -> Ordering,
    /// How many of so many go left.
    pub left: fn(usize) -> usize,
    /// The most triangles of a leaf.
    pub leaf: usize,
}

/// The builder rule.
pub const RULE: Rule = Rule {
    center,
    axis: |centers| last_greatest(from_fn(|axis| spread(centers.iter().map(|c| c[axis])))),
    order: |a, b| a.0.total_cmp(&b.0).then(a.1.cmp(&b.1)),
    left: |count| count / 2,
    leaf: 4,
};

/// How far the finite ones of these numbers lie apart.
pub fn spread(numbers: impl Iterator<Item = f64>) -> f64 {
    let (mut lo, mut hi) = (f64::INFINITY, f64::NEG_INFINITY);
    for x in numbers.filter(|x| x.is_finite()) {
        if x < lo {
            lo = x;
        }
        if x > hi {
            hi = x;
        }
    }
    hi - lo
}

/// The axis of the greatest number in total order, the last on a tie.
pub fn last_greatest(numbers: [f64; 3]) -> usize {
    let later = |best: usize, axis: usize| match numbers[axis].total_cmp(&numbers[best]) {
        Ordering::Less => best,
        _ => axis,
    };
    (0..3).fold(0, later)
}

/// The tree of the builder rule, and what csx leaves open of it.
#[derive(Clone, Debug, Default)]
pub struct Built {
    pub tree: Tree,
    /// Whether the two centres at the middle of some node's triangles are equal
    /// to the bit. Then csx does not say which triangles go left.
    pub tied: bool,
    /// Whether some node's greatest spread is zero. Without the feature `port`
    /// csx leaves it to Rust which sign that zero has, and so the axis.
    pub flat: bool,
}

/// The tree over triangles with these boxes.
pub fn build(rule: &Rule, own: &[Bounds]) -> Built {
    let mut built = Built::default();
    if !own.is_empty() {
        built.add(rule, own, (0..own.len() as u32).collect());
    }
    built
}

impl Built {
    /// Adds the node over these triangles, and those below it.
    fn add(&mut self, rule: &Rule, own: &[Bounds], mut triangles: Vec<u32>) {
        triangles.sort_unstable();
        let boxes = triangles.iter().map(|t| own[*t as usize]);
        let joined = boxes.reduce(join).expect("a node has a triangle");
        let Tree {
            boxes,
            nodes,
            items,
        } = &mut self.tree;
        boxes.extend(joined.as_flattened());
        if triangles.len() <= rule.leaf {
            nodes.extend([items.len() as u32, triangles.len() as u32]);
            items.extend(triangles);
            return;
        }
        let start = nodes.len();
        nodes.extend([0; STRIDE]);
        let [left, right] = self.halves(rule, own, &triangles);
        self.add(rule, own, left);
        self.tree.nodes[start] = self.tree.node_count() as u32;
        self.add(rule, own, right);
    }

    fn halves(&mut self, rule: &Rule, own: &[Bounds], triangles: &[u32]) -> [Vec<u32>; 2] {
        let center = |t: &u32| (rule.center)(own[*t as usize]);
        let centers: Vec<Point> = triangles.iter().map(center).collect();
        let axis = (rule.axis)(&centers);
        let on_axis = centers.iter().map(|center| center[axis]);
        self.flat |= spread(on_axis.clone()) == 0.0;
        let mut left: Vec<(f64, u32)> = on_axis.zip(triangles.iter().copied()).collect();
        left.sort_by(|a, b| (rule.order)(*a, *b));
        let right = left.split_off((rule.left)(left.len()));
        let last_left = left.last().expect("a half has a triangle").0;
        self.tied |= last_left.to_bits() == right[0].0.to_bits();
        [left, right].map(|half| half.into_iter().map(|(_, t)| t).collect())
    }
}

/// The parts of the tree rules.
#[derive(Clone)]
pub struct TreeRules {
    /// Whether the lists of a tree over so many triangles are as long as they
    /// have to be.
    pub lengths: fn(&Tree, usize) -> bool,
    /// How many items a leaf may have.
    pub counts: RangeInclusive<u32>,
    /// The most nodes of a path, from the root to a leaf.
    pub path: usize,
    /// Whether the start of an inner node is right, given its right child.
    pub inner_start: fn(u32, usize) -> bool,
    /// Whether the start of a leaf is right, given the first item place that no
    /// leaf before it has.
    pub leaf_start: fn(u32, usize) -> bool,
    /// Whether these are all numbers below the count, each once.
    pub once: fn(&[u32], usize) -> bool,
    /// Whether the first box encloses the second.
    pub encloses: fn(Bounds, Bounds) -> bool,
}

/// The tree rules.
pub const TREE_RULES: TreeRules = TreeRules {
    lengths: |tree, triangles| {
        let count = tree.node_count();
        tree.nodes.len() == STRIDE * count
            && tree.boxes.len() == 6 * count
            && tree.items.len() == triangles
            && (count == 0) == (triangles == 0)
    },
    counts: 1..=4,
    path: 32,
    inner_start: |start, right| start as usize == right,
    leaf_start: |start, item| start as usize == item,
    once,
    encloses,
};

fn once(items: &[u32], triangles: usize) -> bool {
    let mut sorted = items.to_vec();
    sorted.sort_unstable();
    sorted.into_iter().eq(0..triangles as u32)
}

pub fn encloses([a_min, a_max]: Bounds, [b_min, b_max]: Bounds) -> bool {
    (0..3).all(|i| a_min[i] <= b_min[i] && b_max[i] <= a_max[i])
}

/// Whether the tree keeps the tree rules for triangles with these boxes.
pub fn keeps(rules: &TreeRules, tree: &Tree, own: &[Bounds]) -> bool {
    (rules.lengths)(tree, own.len())
        && (rules.once)(&tree.items, own.len())
        && below(rules, tree).is_some_and(|below| {
            let mut nodes = tree.bounds().zip(below);
            nodes.all(|(node, places)| {
                let mut items = tree.items[places].iter();
                items.all(|t| (rules.encloses)(node, own[*t as usize]))
            })
        })
}

/// The item places below each node, if the nodes are one tree whose leaves cover
/// all items.
pub fn below(rules: &TreeRules, tree: &Tree) -> Option<Vec<Range<usize>>> {
    let mut below = Vec::new();
    if tree.nodes.is_empty() && tree.items.is_empty() {
        return Some(below);
    }
    let end = subtree(rules, tree, &mut below, 0, 1)?;
    (end == tree.items.len() && below.len() == tree.node_count()).then_some(below)
}

/// Adds the places below the next node and below each node under it. Gives the
/// first place behind them. The node is the last of a path of so many.
fn subtree(
    rules: &TreeRules,
    tree: &Tree,
    below: &mut Vec<Range<usize>>,
    first: usize,
    path: usize,
) -> Option<usize> {
    let node = below.len();
    let [start, count] = *tree.nodes.as_chunks().0.get(node)?;
    if path > rules.path {
        return None;
    }
    below.push(first..first);
    let end = if count == 0 {
        let middle = subtree(rules, tree, below, first, path + 1)?;
        if !(rules.inner_start)(start, below.len()) {
            return None;
        }
        subtree(rules, tree, below, middle, path + 1)?
    } else if rules.counts.contains(&count) && (rules.leaf_start)(start, first) {
        first + count as usize
    } else {
        return None;
    };
    below[node].end = end;
    Some(end)
}

#[cfg(test)]
mod tests {
    use super::*;

    /// Boxes of no size at these places along the last axis.
    fn at(places: &[f64]) -> Vec<Bounds> {
        places.iter().map(|x| [[0.0, 0.0, *x]; 2]).collect()
    }

    fn tree_at(places: &[f64]) -> Tree {
        build(&RULE, &at(places)).tree
    }

    #[test]
    fn four_triangles_have_a_leaf_and_five_have_two() {
        assert_eq!(tree_at(&[]).node_count(), 0);
        let four = tree_at(&[4.0, 3.0, 2.0, 1.0]);
        assert_eq!((four.nodes, four.items), (vec![0, 4], vec![0, 1, 2, 3]));
        let five = tree_at(&[4.0, 3.0, 2.0, 1.0, 0.0]);
        assert_eq!(five.nodes, [2, 0, 0, 2, 2, 3]);
        assert_eq!(five.items, [3, 4, 0, 1, 2]);
        assert_eq!(five.boxes[6..9], [0.0; 3]);
        assert_eq!(five.boxes[9..12], [0.0, 0.0, 1.0]);
    }

    #[test]
    fn zeros_and_infinities_are_sorted_and_equal_centres_go_by_number() {
        let zeros = tree_at(&[0.0, -0.0, 0.0, -0.0, 0.0]);
        assert_eq!(zeros.items, [1, 3, 0, 2, 4]);
        let equal = tree_at(&[1.0; 6]);
        assert_eq!(equal.items, [0, 1, 2, 3, 4, 5]);
        let infinite = tree_at(&[f64::INFINITY, 3.0, 2.0, 1.0, f64::NEG_INFINITY]);
        assert_eq!(infinite.items, [3, 4, 0, 1, 2]);
    }

    #[test]
    fn spreads_are_of_finite_numbers_and_the_last_of_equal_ones_wins() {
        assert_eq!(spread([3.0, f64::INFINITY, 1.0].into_iter()), 2.0);
        assert_eq!(spread([f64::INFINITY].into_iter()), f64::NEG_INFINITY);
        assert_eq!(spread([-0.0, 0.0].into_iter()).to_bits(), 0);
        assert_eq!(spread([0.0, -0.0].into_iter()).to_bits(), 0);
        assert_eq!(spread([-1e308, 1e308].into_iter()), f64::INFINITY);
        assert_eq!(last_greatest([1.0, 1.0, 0.0]), 1);
        assert_eq!(last_greatest([1.0, 0.0, 1.0]), 2);
        assert_eq!(last_greatest([2.0, 1.0, 1.0]), 0);
        assert_eq!(last_greatest([f64::NEG_INFINITY; 3]), 2);
    }

    #[test]
    fn what_csx_leaves_open_is_told() {
        let open = |places: &[f64]| {
            let built = build(&RULE, &at(places));
            (built.tied, built.flat)
        };
        assert_eq!(open(&[1.0, 2.0, 3.0, 4.0, 5.0]), (false, false));
        assert_eq!(open(&[1.0, 2.0, 2.0, 4.0, 5.0]), (true, false));
        assert_eq!(open(&[1.0; 5]), (true, true));
        assert_eq!(open(&[0.0, -0.0, 0.0, -0.0, 0.0]), (false, true));
        assert_eq!(open(&[1.0; 4]), (false, false));
    }

    #[test]
    fn the_first_zero_stays_in_a_join() {
        let joined = join([[0.0, -0.0, 1.0]; 2], [[-0.0, 0.0, 2.0]; 2]);
        let bits = |p: Point| p.map(f64::to_bits);
        assert_eq!(bits(joined[0]), bits([0.0, -0.0, 1.0]));
        assert_eq!(bits(joined[1]), bits([0.0, -0.0, 2.0]));
    }

    fn kept(tree: &Tree, own: &[Bounds]) -> bool {
        keeps(&TREE_RULES, tree, own)
    }

    #[test]
    fn built_trees_keep_the_rules() {
        for count in 0..100u32 {
            let places: Vec<f64> = (0..count).map(|i| f64::from(i * 37 % 101)).collect();
            assert!(kept(&tree_at(&places), &at(&places)));
        }
    }

    #[test]
    fn each_rule_is_asked() {
        let own = at(&[0.0, 1.0, 2.0, 3.0, 4.0]);
        let right = build(&RULE, &own).tree;
        let broken = |damage: fn(&mut Tree)| {
            let mut tree = right.clone();
            damage(&mut tree);
            !kept(&tree, &own)
        };
        assert!(broken(|tree| tree.boxes.push(0.0)));
        assert!(broken(|tree| tree.nodes.push(0)));
        assert!(broken(|tree| tree.items.push(5)));
        assert!(broken(|tree| *tree = Tree::default()));
        assert!(broken(|tree| {
            tree.nodes.extend([5, 1]);
            tree.boxes.extend([0.0; 6]);
        }));
        assert!(broken(|tree| tree.nodes[0] = 1));
        assert!(broken(|tree| tree.nodes[2] = 1));
        assert!(broken(|tree| tree.nodes[3] = 1));
        assert!(broken(|tree| tree.items[0] = 1));
        assert!(broken(|tree| tree.items[4] = 5));
        assert!(broken(|tree| tree.items.swap(0, 4)));
        assert!(!broken(|tree| tree.items.swap(3, 4)));
        // edges: inwards, to zero, not a number, out of order, and outwards
        assert!(broken(|tree| tree.boxes[2] = 1e-9));
        assert!(broken(|tree| tree.boxes[11] = 0.9));
        assert!(broken(|tree| tree.boxes[1] = f64::NAN));
        assert!(broken(|tree| tree.boxes[1] = f64::INFINITY));
        assert!(!broken(|tree| tree.boxes[1] = -0.0));
        assert!(!broken(|tree| tree.boxes[6] = f64::NEG_INFINITY));
        // no triangles
        assert!(kept(&Tree::default(), &[]));
        let node = Tree {
            boxes: vec![0.0; 6],
            nodes: vec![0, 0],
            items: Vec::new(),
        };
        assert!(!kept(&node, &[]));
    }

    #[test]
    fn a_leaf_of_five_is_too_large() {
        let own = at(&[0.0; 5]);
        let tree = Tree {
            boxes: vec![0.0; 6],
            nodes: vec![0, 5],
            items: vec![0, 1, 2, 3, 4],
        };
        assert!(!kept(&tree, &own));
    }
}
