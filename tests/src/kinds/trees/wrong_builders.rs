//! Builders with one fault each, which the comparison has to find.

use std::array::from_fn;

use super::building::{Build, compare};
use super::expected::{
    RULE, Rule, TREE_RULES, below, build, join, last_greatest, own_boxes, spread,
};
use super::{STRIDE, Tree};
use crate::engine::Point;
use crate::engine::meshes::Mesh as Lists;
use crate::engine::trees::Tree as Lent;
use crate::kinds::meshes::expected::{Bounds, refusal};
use crate::kinds::meshes::{Mesh, ROOM};
use crate::kinds::tests;
use crate::plan::{DEFAULT_SEED, Plan};

fn fails(build: Build) -> bool {
    let plan = Plan::quick(DEFAULT_SEED).part(100);
    tests::fails(|report, _| compare(report, &plan, build))
}

/// Whether there is room for so many nodes and triangles.
fn has_room(tree: &Lent, nodes: usize, triangles: usize) -> bool {
    tree.boxes.len() >= 6 * nodes
        && tree.nodes.len() >= STRIDE * nodes
        && tree.items.len() >= triangles
}

fn write(built: &Tree, tree: &mut Lent) -> u64 {
    let Tree {
        boxes,
        nodes,
        items,
    } = built;
    tree.boxes[..boxes.len()].copy_from_slice(boxes);
    tree.nodes[..nodes.len()].copy_from_slice(nodes);
    tree.items[..items.len()].copy_from_slice(items);
    built.node_count() as u64
}

/// An engine that builds so.
fn by(mesh: &Lists, tree: &mut Lent, built: impl FnOnce(&[Bounds]) -> Tree) -> u64 {
    let mesh = Mesh::of(mesh);
    if let Some(refusal) = refusal(&mesh) {
        return refusal;
    }
    if !has_room(tree, mesh.triangle_count(), mesh.triangle_count()) {
        return ROOM;
    }
    write(&built(&own_boxes(&mesh)), tree)
}

/// An engine with a part of the rule changed.
fn by_rule(mesh: &Lists, tree: &mut Lent, change: fn(&mut Rule)) -> u64 {
    let mut rule = RULE;
    change(&mut rule);
    by(mesh, tree, |own| build(&rule, own).tree)
}

/// An engine that builds by the rule, and then changes the tree.
fn changed(mesh: &Lists, tree: &mut Lent, change: fn(&mut Tree, &[Bounds])) -> u64 {
    by(mesh, tree, |own| {
        let mut tree = build(&RULE, own).tree;
        change(&mut tree, own);
        tree
    })
}

fn right(mesh: &mut Lists, tree: &mut Lent) -> u64 {
    by_rule(mesh, tree, |_| {})
}

#[test]
fn the_rule_passes() {
    assert!(!fails(right));
}

/// An engine that chooses the axis so.
fn by_axis(mesh: &Lists, tree: &mut Lent, axis: fn(&[Point]) -> usize) -> u64 {
    by(mesh, tree, |own| build(&Rule { axis, ..RULE }, own).tree)
}

/// The centres along each axis, measured so.
fn measured(centers: &[Point], measure: fn(&[f64]) -> f64) -> [f64; 3] {
    from_fn(|axis| {
        let numbers: Vec<f64> = centers.iter().map(|c| c[axis]).collect();
        measure(&numbers)
    })
}

fn right_spread(numbers: &[f64]) -> f64 {
    spread(numbers.iter().copied())
}

#[test]
fn wrong_axes_are_caught() {
    // the first on a tie
    assert!(fails(|mesh, tree| by_axis(mesh, tree, |centers| {
        let [x, y, z] = measured(centers, right_spread);
        2 - last_greatest([z, y, x])
    })));
    // always the same
    assert!(fails(|mesh, tree| by_axis(mesh, tree, |_| 2)));
    // infinite centres counted
    assert!(fails(|mesh, tree| by_axis(mesh, tree, |centers| {
        last_greatest(measured(centers, |numbers| {
            let lo = numbers.iter().copied().fold(f64::INFINITY, f64::min);
            let hi = numbers.iter().copied().fold(f64::NEG_INFINITY, f64::max);
            hi - lo
        }))
    })));
    // triangles with an infinite centre left out on the other axes too
    assert!(fails(|mesh, tree| by_axis(mesh, tree, |centers| {
        let mut finite = centers.to_vec();
        finite.retain(|c| c.iter().all(|x| x.is_finite()));
        last_greatest(measured(&finite, right_spread))
    })));
    // no finite centre taken for no spread
    assert!(fails(|mesh, tree| by_axis(mesh, tree, |centers| {
        last_greatest(measured(centers, |numbers| right_spread(numbers).max(0.0)))
    })));
    // a spread of zeros with the sign of the first
    assert!(fails(|mesh, tree| by_axis(mesh, tree, |centers| {
        last_greatest(measured(centers, |numbers| match right_spread(numbers) {
            0.0 => numbers[0] * 0.0,
            spread => spread,
        }))
    })));
}

#[test]
fn wrong_centres_are_caught() {
    // that do not overflow
    assert!(fails(|mesh, tree| by_rule(mesh, tree, |rule| {
        rule.center = |[min, max]| from_fn(|i| min[i] / 2.0 + max[i] / 2.0);
    })));
    // the least corner
    assert!(fails(|mesh, tree| by_rule(mesh, tree, |rule| {
        rule.center = |[min, _]| min;
    })));
}

#[test]
fn wrong_orders_are_caught() {
    // zeros equal
    assert!(fails(|mesh, tree| by_rule(mesh, tree, |rule| {
        rule.order = |a, b| (a.0 + 0.0).total_cmp(&(b.0 + 0.0)).then(a.1.cmp(&b.1));
    })));
    // the highest number first
    assert!(fails(|mesh, tree| by_rule(mesh, tree, |rule| {
        rule.order = |a, b| a.0.total_cmp(&b.0).then(b.1.cmp(&a.1));
    })));
    // the greatest first
    assert!(fails(|mesh, tree| by_rule(mesh, tree, |rule| {
        rule.order = |a, b| b.0.total_cmp(&a.0).then(a.1.cmp(&b.1));
    })));
}

#[test]
fn wrong_halves_and_leaves_are_caught() {
    assert!(fails(|mesh, tree| by_rule(mesh, tree, |rule| {
        rule.left = |count| count.div_ceil(2);
    })));
    assert!(fails(|mesh, tree| by_rule(mesh, tree, |rule| rule.leaf = 3)));
    assert!(fails(|mesh, tree| by_rule(mesh, tree, |rule| rule.leaf = 5)));
    // a leaf's items as they were sorted
    assert!(fails(|mesh, tree| changed(mesh, tree, |tree, own| {
        let center = |t: &u32| (RULE.center)(own[*t as usize])[2];
        for [start, count] in tree.nodes.as_chunks().0 {
            let start = *start as usize;
            if *count > 0 {
                let leaf = &mut tree.items[start..start + *count as usize];
                leaf.sort_by(|a, b| center(a).total_cmp(&center(b)));
            }
        }
    })));
}

#[test]
fn wrong_boxes_are_caught() {
    /// The boxes joined from the items below in this order.
    fn rejoin(tree: &mut Tree, own: &[Bounds], order: fn(&mut [u32])) {
        let below = below(&TREE_RULES, tree).expect("a tree");
        tree.boxes.clear();
        for places in below {
            let mut items = tree.items[places].to_vec();
            order(&mut items);
            let boxes = items.iter().map(|t| own[*t as usize]);
            let joined = boxes.reduce(join).expect("a triangle");
            tree.boxes.extend(joined.as_flattened());
        }
    }
    // by place, so that a box of an inner node may have the other zero
    assert!(fails(|mesh, tree| changed(mesh, tree, |tree, own| rejoin(
        tree,
        own,
        |_| {}
    ))));
    // from the last triangle on
    assert!(fails(|mesh, tree| changed(mesh, tree, |tree, own| {
        rejoin(tree, own, |items| {
            items.sort_unstable();
            items.reverse();
        })
    })));
    // without the last triangle
    assert!(fails(|mesh, tree| changed(mesh, tree, |tree, own| {
        rejoin(tree, own, |items| {
            if let [.., before, last] = items {
                *last = *before;
            }
        })
    })));
}

#[test]
fn wrong_answers_and_buffers_are_caught() {
    // as many nodes as there is room for
    assert!(fails(|mesh, tree| {
        let answer = right(mesh, tree);
        match refusal(&Mesh::of(mesh)) {
            None if answer != ROOM => Mesh::of(mesh).triangle_count() as u64,
            _ => answer,
        }
    }));
    // no nodes
    assert!(fails(|mesh, tree| by(mesh, tree, |_| Tree::default())));
    // written behind the nodes
    assert!(fails(|mesh, tree| {
        let answer = right(mesh, tree);
        if let Some(next) = tree.nodes.get_mut(STRIDE * answer as usize) {
            *next = 0;
        }
        answer
    }));
    assert!(fails(|mesh, tree| {
        let answer = right(mesh, tree);
        if let Some(next) = tree.boxes.get_mut(6 * answer as usize) {
            *next = 0.0;
        }
        answer
    }));
    assert!(fails(|mesh, tree| {
        let answer = right(mesh, tree);
        if answer < ROOM
            && let Some(next) = tree.items.get_mut(mesh.corners.len())
        {
            *next = 0;
        }
        answer
    }));
    // a refusal that clears
    assert!(fails(|mesh, tree| {
        let answer = right(mesh, tree);
        if answer >= 1_000_000 {
            tree.items.fill(0);
        }
        answer
    }));
    // the mesh put in order
    assert!(fails(|mesh, tree| {
        mesh.coords.iter_mut().for_each(|x| *x += 0.0);
        right(mesh, tree)
    }));
}

#[test]
fn wrong_questions_are_caught() {
    // room first
    assert!(fails(|mesh, tree| {
        let triangles = mesh.corners.len().saturating_sub(2 * mesh.ends.len());
        match has_room(tree, triangles, triangles) {
            true => right(mesh, tree),
            false => ROOM,
        }
    }));
    // room for what is written
    assert!(fails(|mesh, tree| {
        let answer = right(mesh, tree);
        if answer != ROOM {
            return answer;
        }
        let built = build(&RULE, &own_boxes(&Mesh::of(mesh))).tree;
        match has_room(tree, built.node_count(), built.items.len()) {
            true => write(&built, tree),
            false => ROOM,
        }
    }));
    // room for a node more
    assert!(fails(|mesh, tree| {
        let triangles = mesh.corners.len().saturating_sub(2 * mesh.ends.len());
        match right(mesh, tree) {
            1..1_000_000 if !has_room(tree, triangles + 1, triangles) => ROOM,
            answer => answer,
        }
    }));
    // every mesh
    assert!(fails(|_, _| ROOM));
}
