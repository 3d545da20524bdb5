//! Damaged trees: sorts of damage, each of which mostly leaves a tree that
//! breaks the tree rules, and some that does not.

use super::{COUNT, START, STRIDE, Tree};
use crate::kinds::meshes::inputs::pick;
use crate::random::{NOT_FINITE, Random, moved};

/// A sort of damage, with its name.
pub struct Damage {
    pub name: &'static str,
    /// Damages a tree of one node at least.
    pub damage: fn(&mut Tree, &mut Random),
}

/// Every sort of damage.
pub const DAMAGES: [Damage; 7] = [
    Damage {
        name: "lengths",
        damage: lengths,
    },
    Damage {
        name: "starts",
        damage: starts,
    },
    Damage {
        name: "counts",
        damage: counts,
    },
    Damage {
        name: "items",
        damage: items,
    },
    Damage {
        name: "edges a last bit inwards",
        damage: inwards,
    },
    Damage {
        name: "edges",
        damage: edges,
    },
    Damage {
        name: "nodes",
        damage: nodes,
    },
];

/// A list too short, too long or empty.
fn lengths(tree: &mut Tree, random: &mut Random) {
    let less = random.up_to_digits(3) as usize;
    let more = random.up_to_digits(3) as usize;
    match random.below(10) {
        0 => tree.boxes.truncate(tree.boxes.len().saturating_sub(less)),
        1 => tree.nodes.truncate(tree.nodes.len().saturating_sub(less)),
        2 => tree.items.truncate(tree.items.len().saturating_sub(less)),
        3 => tree.boxes.extend(vec![0.0; more]),
        4 => tree.nodes.extend(vec![0; more]),
        5 => tree.items.extend(vec![0; more]),
        6 => tree.boxes.clear(),
        7 => tree.nodes.clear(),
        8 => tree.items.clear(),
        _ => *tree = Tree::default(),
    }
}

/// A node's start changed, or exchanged with another's.
fn starts(tree: &mut Tree, random: &mut Random) {
    let node = pick(tree.node_count(), random);
    let another = pick(tree.node_count(), random);
    let place = STRIDE * node + START;
    match random.below(8) {
        0 => tree.nodes.swap(place, STRIDE * another + START),
        _ => tree.nodes[place] = other(tree, tree.nodes[place], node as u32, random),
    }
}

/// A node's count changed, exchanged with another's, or with items taken from
/// the next leaf.
fn counts(tree: &mut Tree, random: &mut Random) {
    let node = pick(tree.node_count(), random);
    let another = pick(tree.node_count(), random);
    let place = STRIDE * node + COUNT;
    let leaf = |node: usize| tree.nodes[STRIDE * node + COUNT] > 0;
    let next = (node + 1..tree.node_count()).find(|next| leaf(*next));
    match (random.below(8), next) {
        (0, _) => tree.nodes.swap(place, STRIDE * another + COUNT),
        (1 | 2, Some(next)) if leaf(node) => {
            let [start, count] = [START, COUNT].map(|number| STRIDE * next + number);
            tree.nodes[place] = tree.nodes[place].wrapping_add(1);
            tree.nodes[start] = tree.nodes[start].wrapping_add(1);
            tree.nodes[count] = tree.nodes[count].wrapping_sub(1);
        }
        (3..=5, _) => tree.nodes[place] = random.below(6) as u32,
        _ => tree.nodes[place] = other(tree, tree.nodes[place], node as u32, random),
    }
}

/// Another number of a node: near by, one that stands for something, or one that
/// a product makes small again.
fn other(tree: &Tree, number: u32, node: u32, random: &mut Random) -> u32 {
    let counts = [tree.node_count() as u32, tree.items.len() as u32];
    match random.below(9) {
        0 => number.wrapping_add(1),
        1 => number.wrapping_sub(1),
        2 => node.wrapping_add(random.below(3) as u32),
        3 => counts[pick(2, random)].wrapping_sub(random.below(2) as u32),
        4 => number ^ 1 << (31 - random.below(4)),
        5 => tree.nodes[pick(tree.nodes.len(), random)],
        6 => 0,
        7 => u32::MAX,
        _ => random.up_to_digits(32) as u32,
    }
}

/// An item doubled, exchanged or no triangle's number, or all in another order.
fn items(tree: &mut Tree, random: &mut Random) {
    let count = tree.items.len();
    let (a, b) = (pick(count, random), pick(count, random));
    let items = &mut tree.items;
    match random.below(8) {
        0 => items[a] = items[b],
        1 => items[a] = count as u32,
        2 => items[a] = items[a].wrapping_add(1),
        3 => items[a] = items[a].wrapping_sub(1),
        4 => items[a] ^= 1 << random.below(32),
        5 => items.swap(a, b),
        6 => items.rotate_left(a),
        _ => items[a] = u32::MAX,
    }
}

/// An edge of a box moved by its last bit.
fn inwards(tree: &mut Tree, random: &mut Random) {
    let place = pick(tree.boxes.len(), random);
    tree.boxes[place] = moved(tree.boxes[place], inwards_at(place));
}

/// Which way is inwards for this edge.
fn inwards_at(place: usize) -> i64 {
    if place % 6 < 3 { 1 } else { -1 }
}

/// An edge of a box changed, or exchanged with another.
fn edges(tree: &mut Tree, random: &mut Random) {
    let place = pick(tree.boxes.len(), random);
    let node = place / 6 * 6;
    let opposite = node + (place + 3) % 6;
    let boxes = &mut tree.boxes;
    match random.below(9) {
        0 => {
            boxes[place] = moved(
                boxes[place],
                inwards_at(place) * random.up_to_digits(60) as i64,
            )
        }
        1 => boxes[place] = NOT_FINITE[pick(NOT_FINITE.len(), random)],
        // a least edge of infinity, a greatest one below all numbers
        2 => boxes[place] = inwards_at(place) as f64 * f64::INFINITY,
        3 => boxes[place] = -boxes[place],
        4 => boxes.swap(place, opposite),
        5 => boxes[place] = boxes[opposite],
        6 => boxes[place] = random.any(),
        7 => {
            let other = pick(boxes.len() / 6, random) * 6;
            for i in 0..6 {
                boxes.swap(node + i, other + i);
            }
        }
        _ => boxes[node..node + 6].fill(f64::NAN),
    }
}

/// Nodes exchanged, listed twice, left out or added, children exchanged.
fn nodes(tree: &mut Tree, random: &mut Random) {
    let count = tree.node_count();
    let (a, b) = (pick(count, random), pick(count, random));
    let mut boxes = tree.boxes.as_chunks::<6>().0.to_vec();
    let mut nodes = tree.nodes.as_chunks::<STRIDE>().0.to_vec();
    match random.below(6) {
        0 => {
            boxes.swap(a, b);
            nodes.swap(a, b);
        }
        1 => {
            boxes.insert(a, boxes[b]);
            nodes.insert(a, nodes[b]);
        }
        2 => {
            boxes.remove(a);
            nodes.remove(a);
        }
        3 => {
            boxes.push(boxes[b]);
            nodes.push([tree.items.len() as u32, random.below(6) as u32]);
        }
        // the two subtrees of an inner node exchanged, boxes and all
        _ => {
            let inner = |node: usize| nodes[node][COUNT] == 0;
            if let Some(node) = (a..count).find(|node| inner(*node)) {
                let (left, right) = (node + 1, nodes[node][START] as usize);
                let end = end(&nodes, right);
                boxes[left..end].rotate_left(right - left);
                nodes[left..end].rotate_left(right - left);
                if random.flip() {
                    nodes[node][START] = (left + end - right) as u32;
                }
            }
        }
    }
    tree.boxes = boxes.into_flattened();
    tree.nodes = nodes.into_flattened();
}

/// The node behind the subtree at this one, in a tree that keeps the rules.
fn end(nodes: &[[u32; STRIDE]], node: usize) -> usize {
    match nodes[node] {
        [right, 0] => end(nodes, right as usize),
        _ => node + 1,
    }
}

#[cfg(test)]
mod tests {
    use super::super::expected::{TREE_RULES, keeps, own_boxes};
    use super::super::{inputs, others};
    use super::*;

    #[test]
    fn each_sort_mostly_breaks_the_rules() {
        let mut random = Random::new(1);
        for Damage { name, damage } in DAMAGES {
            let (mut broken, mut all) = (0, 0);
            while all < 1000 {
                let own = own_boxes(&inputs::mesh(&mut random));
                if own.is_empty() {
                    continue;
                }
                let mut tree = others::any(&own, &mut random);
                damage(&mut tree, &mut random);
                broken += u32::from(!keeps(&TREE_RULES, &tree, &own));
                all += 1;
            }
            assert!(broken > all / 3, "{name}: {broken}");
        }
    }
}
