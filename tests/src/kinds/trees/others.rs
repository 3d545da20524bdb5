//! Trees that keep the tree rules and are not the builder's: with other cuts,
//! other leaf sizes, items in any order and boxes that are too large.

use std::ops::Range;

use super::expected::{RULE, TREE_RULES, TreeRules, below, build, join};
use super::{STRIDE, Tree};
use crate::kinds::meshes::expected::Bounds;
use crate::kinds::meshes::inputs::{pick, shuffle};
use crate::random::{Random, moved};

/// Where the triangles of a node are cut.
#[derive(Clone, Copy)]
enum Cut {
    Half,
    /// One triangle, the first or the last, and the others.
    First,
    Last,
    Any,
}

/// The builder's tree or another.
pub fn any(own: &[Bounds], random: &mut Random) -> Tree {
    match random.flip() {
        true => build(&RULE, own).tree,
        false => tree(own, random),
    }
}

/// A tree that keeps the tree rules.
pub fn tree(own: &[Bounds], random: &mut Random) -> Tree {
    with_leaves(own, 4, random)
}

/// A tree with up to so many items in a leaf, and otherwise as the rules ask.
pub fn with_leaves(own: &[Bounds], most: u64, random: &mut Random) -> Tree {
    let mut tree = Tree {
        items: order(own, random),
        ..Tree::default()
    };
    let cut = match random.below(5) {
        0 => Cut::Half,
        1 => Cut::First,
        2 => Cut::Last,
        _ => Cut::Any,
    };
    let split = 2 + random.below(most) as usize;
    if !own.is_empty() {
        grow(&mut tree.nodes, 0..own.len(), 1, (cut, split), random);
    }
    fit(&mut tree, own);
    loosen(&mut tree, random);
    tree
}

/// An order of all triangles.
fn order(own: &[Bounds], random: &mut Random) -> Vec<u32> {
    let mut items: Vec<u32> = (0..own.len() as u32).collect();
    match random.below(4) {
        0 => {}
        1 => items.reverse(),
        2 => items = build(&RULE, own).tree.items,
        _ => shuffle(&mut items, random),
    }
    items
}

/// Adds the node over these items, and those below it. It is the last of a path of
/// so many, and a leaf if it has fewer items than are split.
fn grow(
    nodes: &mut Vec<u32>,
    items: Range<usize>,
    path: usize,
    (cut, split): (Cut, usize),
    random: &mut Random,
) {
    let count = items.len();
    if count < split || path == 32 {
        nodes.extend([items.start as u32, count as u32]);
        return;
    }
    let left = match cut {
        Cut::Half => count / 2,
        Cut::First => 1,
        Cut::Last => count - 1,
        Cut::Any => 1 + pick(count - 1, random),
    };
    // The paths below leave room for so many on either side.
    let most = 4 << (31 - path);
    let left = left.clamp(count.saturating_sub(most).max(1), most.min(count - 1));
    let middle = items.start + left;
    let start = nodes.len();
    nodes.extend([0; STRIDE]);
    grow(nodes, items.start..middle, path + 1, (cut, split), random);
    nodes[start] = (nodes.len() / STRIDE) as u32;
    grow(nodes, middle..items.end, path + 1, (cut, split), random);
}

/// A tree with this many nodes in its longest path, which two leaves end. There
/// are at least as many triangles, and at most four times as many. But for the
/// length of the path it keeps the tree rules.
pub fn chain(own: &[Bounds], path: usize, random: &mut Random) -> Tree {
    let mut leaves = vec![1; path];
    for _ in path..own.len() {
        let open = leaves.iter_mut().filter(|count| **count < 4);
        let mut open: Vec<&mut usize> = open.collect();
        let leaf = pick(open.len(), random);
        *open[leaf] += 1;
    }
    let mut tree = Tree {
        items: order(own, random),
        ..Tree::default()
    };
    // Which child is a leaf: always the left one, the right one, or any.
    let side = random.below(3);
    hang(&mut tree.nodes, 0, &leaves, side, random);
    fit(&mut tree, own);
    tree
}

/// Adds a node over these leaves, from this item place on: one of them, and the
/// others.
fn hang(nodes: &mut Vec<u32>, first: usize, leaves: &[usize], side: u64, random: &mut Random) {
    if let [count] = leaves {
        nodes.extend([first as u32, *count as u32]);
        return;
    }
    let leaf_left = match side {
        0 => true,
        1 => false,
        _ => random.flip(),
    };
    let middle = if leaf_left { 1 } else { leaves.len() - 1 };
    let (left, right) = leaves.split_at(middle);
    let start = nodes.len();
    nodes.extend([0; STRIDE]);
    hang(nodes, first, left, side, random);
    nodes[start] = (nodes.len() / STRIDE) as u32;
    let first = first + left.iter().sum::<usize>();
    hang(nodes, first, right, side, random);
}

/// Gives each node the least box.
fn fit(tree: &mut Tree, own: &[Bounds]) {
    let rules = TreeRules {
        counts: 1..=u32::MAX,
        path: usize::MAX,
        ..TREE_RULES
    };
    let places = below(&rules, tree).expect("a tree");
    tree.boxes.clear();
    for places in places {
        let boxes = tree.items[places].iter().map(|t| own[*t as usize]);
        let joined = boxes.reduce(join).expect("a node has a triangle");
        tree.boxes.extend(joined.as_flattened());
    }
}

/// Moves edges outwards: none, some or all, by a last bit, a little, or to
/// infinity. The sign of a zero is no matter.
fn loosen(tree: &mut Tree, random: &mut Random) {
    let sort = random.below(6);
    for (place, edge) in tree.boxes.iter_mut().enumerate() {
        let outwards = if place % 6 < 3 { -1 } else { 1 };
        match sort {
            0 => {}
            1 if random.below(4) == 0 => *edge = moved(*edge, outwards),
            2 => *edge = moved(*edge, outwards * random.up_to_digits(55) as i64),
            3 if random.below(4) == 0 => *edge = outwards as f64 * f64::INFINITY,
            4 => *edge = outwards as f64 * f64::INFINITY,
            _ if *edge == 0.0 && random.flip() => *edge = -*edge,
            _ => {}
        }
    }
}

#[cfg(test)]
mod tests {
    use super::super::expected::{keeps, own_boxes};
    use super::super::inputs;
    use super::*;

    fn own(random: &mut Random) -> Vec<Bounds> {
        own_boxes(&inputs::mesh(random))
    }

    #[test]
    fn trees_keep_the_rules() {
        let mut random = Random::new(1);
        for _ in 0..2000 {
            let own = own(&mut random);
            assert!(keeps(&TREE_RULES, &tree(&own, &mut random), &own));
        }
    }

    #[test]
    fn some_trees_have_as_many_nodes_and_paths_as_long_as_can_be() {
        let mut random = Random::new(1);
        let (mut nodes, mut paths) = (0, 0);
        for _ in 0..2000 {
            let own = own(&mut random);
            let tree = tree(&own, &mut random);
            nodes += u32::from(own.len() > 4 && tree.node_count() == 2 * own.len() - 1);
            let shorter = TreeRules {
                path: 31,
                ..TREE_RULES
            };
            paths += u32::from(!keeps(&shorter, &tree, &own));
        }
        assert!(nodes.min(paths) > 20, "{nodes} {paths}");
    }

    #[test]
    fn chains_are_as_long_as_they_say() {
        let mut random = Random::new(1);
        for path in 1..40 {
            for count in [path, path + 1, 3 * path, 4 * path] {
                let own = vec![[[0.0; 3]; 2]; count];
                let tree = chain(&own, path, &mut random);
                let rules = |path| TreeRules { path, ..TREE_RULES };
                assert!(keeps(&rules(path), &tree, &own));
                assert!(!keeps(&rules(path - 1), &tree, &own));
                assert_eq!(keeps(&TREE_RULES, &tree, &own), path <= 32);
            }
        }
    }

    #[test]
    fn larger_leaves_are_the_only_fault() {
        let mut random = Random::new(1);
        let mut refused = 0;
        for _ in 0..1000 {
            let own = own(&mut random);
            let tree = with_leaves(&own, 6, &mut random);
            let rules = TreeRules {
                counts: 1..=6,
                ..TREE_RULES
            };
            assert!(keeps(&rules, &tree, &own));
            refused += u32::from(!keeps(&TREE_RULES, &tree, &own));
        }
        assert!((100..900).contains(&refused), "{refused}");
    }
}
