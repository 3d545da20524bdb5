//! Checks with one fault each, which the comparison has to find.

use super::checking::{
    BROKEN, Check, damaged, every_small_tree, paths, refusals, trees_of_other_meshes,
    trees_of_the_mesh,
};
use super::expected::{TREE_RULES, TreeRules, encloses, keeps, own_boxes};
use super::{STRIDE, Tree};
use crate::engine::meshes::Mesh as Lists;
use crate::engine::trees::Tree as Lent;
use crate::kinds::meshes::expected::{Bounds, refusal};
use crate::kinds::meshes::{Mesh, ROOM};
use crate::kinds::tests;
use crate::plan::{DEFAULT_SEED, Plan};
use crate::random::moved;
use crate::report::Report;

/// A part of the comparison.
type Part = fn(&mut Report, &Plan, Check);

/// Whether this part finds a fault.
fn caught(part: Part, check: Check) -> bool {
    let plan = Plan::quick(DEFAULT_SEED).part(40);
    tests::fails(|report, _| part(report, &plan, check))
}

/// An engine that accepts these trees.
fn by(
    mesh: &Lists,
    tree: &Lent,
    work: &mut [u64],
    accepts: impl FnOnce(&mut Tree, &[Bounds]) -> bool,
) -> u64 {
    let mesh = Mesh::of(mesh);
    if let Some(refusal) = refusal(&mesh) {
        return refusal;
    }
    let Some(work) = work.get_mut(..mesh.corners.len()) else {
        return ROOM;
    };
    work.fill(0);
    match accepts(&mut Tree::of(tree), &own_boxes(&mesh)) {
        true => 0,
        false => BROKEN,
    }
}

/// An engine with one of the rules changed.
fn by_rules(mesh: &Lists, tree: &Lent, work: &mut [u64], change: fn(&mut TreeRules)) -> u64 {
    let mut rules = TREE_RULES;
    change(&mut rules);
    by(mesh, tree, work, |tree, own| keeps(&rules, tree, own))
}

/// An engine that takes each tree for another.
fn taken(mesh: &Lists, tree: &Lent, work: &mut [u64], take: fn(&mut Tree, &[Bounds])) -> u64 {
    by(mesh, tree, work, |tree, own| {
        take(tree, own);
        keeps(&TREE_RULES, tree, own)
    })
}

/// An engine that asks this too.
fn stricter(
    mesh: &Lists,
    tree: &Lent,
    work: &mut [u64],
    keeps_too: fn(&Tree, &[Bounds]) -> bool,
) -> u64 {
    by(mesh, tree, work, |tree, own| {
        keeps(&TREE_RULES, tree, own) && keeps_too(tree, own)
    })
}

fn right(mesh: &mut Lists, tree: &mut Lent, work: &mut [u64]) -> u64 {
    by_rules(mesh, tree, work, |_| {})
}

#[test]
fn the_rules_pass() {
    for part in [
        trees_of_the_mesh as Part,
        trees_of_other_meshes,
        damaged,
        paths,
        refusals,
    ] {
        assert!(!caught(part, right));
    }
}

#[test]
fn one_answer_for_all_is_caught() {
    assert!(caught(trees_of_the_mesh, |mesh, tree, work| {
        by(mesh, tree, work, |_, _| false)
    }));
    assert!(caught(trees_of_other_meshes, |mesh, tree, work| {
        by(mesh, tree, work, |_, _| true)
    }));
}

#[test]
fn wrong_lengths_are_caught() {
    let damaged = |check| caught(damaged, check);
    // lists that are too long
    assert!(damaged(|mesh, tree, work| {
        taken(mesh, tree, work, |tree, _| {
            tree.boxes.truncate(6 * tree.node_count())
        })
    }));
    assert!(damaged(|mesh, tree, work| {
        taken(mesh, tree, work, |tree, _| {
            tree.nodes.truncate(STRIDE * tree.node_count())
        })
    }));
    assert!(damaged(|mesh, tree, work| {
        taken(mesh, tree, work, |tree, own| tree.items.truncate(own.len()))
    }));
    // no tree at all
    assert!(damaged(|mesh, tree, work| {
        by(mesh, tree, work, |tree, own| {
            *tree == Tree::default() || keeps(&TREE_RULES, tree, own)
        })
    }));
    // nodes behind the tree
    assert!(damaged(|mesh, tree, work| {
        taken(mesh, tree, work, |tree, _| {
            if tree.nodes.get(1).is_some_and(|count| *count > 0) {
                tree.nodes.truncate(2);
                tree.boxes.truncate(6);
            }
        })
    }));
    // no more nodes than triangles
    assert!(caught(trees_of_the_mesh, |mesh, tree, work| {
        stricter(mesh, tree, work, |tree, own| tree.node_count() <= own.len())
    }));
    // a leaf where four triangles are left
    assert!(caught(trees_of_the_mesh, |mesh, tree, work| {
        stricter(mesh, tree, work, |tree, own| {
            own.len() > 4 || tree.node_count() <= 1
        })
    }));
}

#[test]
fn wrong_starts_and_counts_are_caught() {
    for part in [every_small_tree, damaged] {
        assert!(caught(part, |mesh, tree, work| {
            by_rules(mesh, tree, work, |rules| rules.inner_start = |_, _| true)
        }));
        assert!(caught(part, |mesh, tree, work| {
            by_rules(mesh, tree, work, |rules| rules.leaf_start = |_, _| true)
        }));
    }
    // leaves that overlap
    assert!(caught(every_small_tree, |mesh, tree, work| {
        by_rules(mesh, tree, work, |rules| {
            rules.leaf_start = |start, first| start as usize <= first;
        })
    }));
    // starts that a product makes right
    assert!(caught(damaged, |mesh, tree, work| {
        taken(mesh, tree, work, |tree, _| {
            tree.nodes.iter_mut().for_each(|n| *n &= !(1 << 31));
        })
    }));
    for part in [every_small_tree, paths] {
        assert!(caught(part, |mesh, tree, work| {
            by_rules(mesh, tree, work, |rules| rules.counts = 1..=5)
        }));
        assert!(caught(part, |mesh, tree, work| {
            by_rules(mesh, tree, work, |rules| rules.counts = 1..=3)
        }));
    }
}

#[test]
fn wrong_paths_are_caught() {
    assert!(caught(paths, |mesh, tree, work| {
        by_rules(mesh, tree, work, |rules| rules.path = 33)
    }));
    assert!(caught(paths, |mesh, tree, work| {
        by_rules(mesh, tree, work, |rules| rules.path = 31)
    }));
}

#[test]
fn wrong_items_are_caught() {
    fn below(items: &[u32], count: usize) -> bool {
        items.iter().all(|t| (*t as usize) < count)
    }
    // doubled
    for part in [every_small_tree, damaged] {
        assert!(caught(part, |mesh, tree, work| {
            by_rules(mesh, tree, work, |rules| rules.once = below)
        }));
    }
    // the right sum
    assert!(caught(every_small_tree, |mesh, tree, work| {
        by_rules(mesh, tree, work, |rules| {
            rules.once = |items, count| {
                let sum: usize = items.iter().map(|t| *t as usize).sum();
                below(items, count) && sum == (0..count).sum()
            }
        })
    }));
    // one too high
    assert!(caught(damaged, |mesh, tree, work| {
        taken(mesh, tree, work, |tree, own| {
            let last = own.len().saturating_sub(1) as u32;
            tree.items.iter_mut().for_each(|t| *t = last.min(*t));
        })
    }));
    // ascending in a leaf
    assert!(caught(trees_of_the_mesh, |mesh, tree, work| {
        stricter(mesh, tree, work, |tree, _| {
            tree.nodes.as_chunks().0.iter().all(|[start, count]| {
                let start = *start as usize;
                *count == 0 || tree.items[start..start + *count as usize].is_sorted()
            })
        })
    }));
}

#[test]
fn wrong_boxes_are_caught() {
    /// Whether each least edge of the first box is so to that of the second, and
    /// each greatest edge of the second to that of the first.
    fn edges([a, b]: Bounds, [c, d]: Bounds, below: fn(f64, f64) -> bool) -> bool {
        (0..3).all(|i| below(a[i], c[i]) && below(d[i], b[i]))
    }
    // no triangle on an edge
    assert!(caught(trees_of_the_mesh, |mesh, tree, work| {
        by_rules(mesh, tree, work, |rules| {
            rules.encloses = |a, b| edges(a, b, |x, y| x < y);
        })
    }));
    // a zero below another
    assert!(caught(trees_of_the_mesh, |mesh, tree, work| {
        by_rules(mesh, tree, work, |rules| {
            rules.encloses = |a, b| edges(a, b, |x, y| x.total_cmp(&y).is_le());
        })
    }));
    // a last bit overlooked
    assert!(caught(damaged, |mesh, tree, work| {
        by_rules(mesh, tree, work, |rules| {
            rules.encloses = |a, b| edges(a, b, |x, y| x <= moved(y, 1));
        })
    }));
    // a NaN taken for a number that is right
    assert!(caught(damaged, |mesh, tree, work| {
        by_rules(mesh, tree, work, |rules| {
            rules.encloses = |a, b| edges(a, b, |x, y| x <= y || x.is_nan() || y.is_nan());
        })
    }));
    // an axis not looked at
    assert!(caught(damaged, |mesh, tree, work| {
        by_rules(mesh, tree, work, |rules| {
            rules.encloses =
                |[a, b], [c, d]| encloses([[a[0], a[1], c[2]], [b[0], b[1], d[2]]], [c, d]);
        })
    }));
    // greatest edges not looked at
    assert!(caught(damaged, |mesh, tree, work| {
        by_rules(mesh, tree, work, |rules| {
            rules.encloses = |[a, _], [c, d]| encloses([a, d], [c, d]);
        })
    }));
    // boxes of inner nodes not looked at, and those of leaves
    assert!(caught(damaged, |mesh, tree, work| {
        taken(mesh, tree, work, |tree, _| widen(tree, |count| count == 0))
    }));
    assert!(caught(damaged, |mesh, tree, work| {
        taken(mesh, tree, work, |tree, _| widen(tree, |count| count > 0))
    }));
    // no infinite boxes
    assert!(caught(trees_of_the_mesh, |mesh, tree, work| {
        stricter(mesh, tree, work, |tree, _| {
            tree.boxes.iter().all(|x| x.is_finite())
        })
    }));
    // a child's box in its parent's
    assert!(caught(trees_of_the_mesh, |mesh, tree, work| {
        stricter(mesh, tree, work, |tree, _| {
            let boxes: Vec<Bounds> = tree.bounds().collect();
            let nodes = tree.nodes.as_chunks().0.iter().enumerate();
            nodes.into_iter().all(|(node, [start, count])| {
                *count > 0
                    || encloses(boxes[node], boxes[node + 1])
                        && encloses(boxes[node], boxes[*start as usize])
            })
        })
    }));
}

/// Makes the boxes of nodes with such counts as large as can be.
fn widen(tree: &mut Tree, such: fn(u32) -> bool) {
    let wide = [f64::NEG_INFINITY, f64::INFINITY].map(|edge| [edge; 3]);
    let boxes = tree.boxes.as_chunks_mut::<6>().0.iter_mut();
    for (edges, [_, count]) in boxes.zip(tree.nodes.as_chunks().0) {
        if such(*count) {
            edges.copy_from_slice(wide.as_flattened());
        }
    }
}

#[test]
fn wrong_buffers_are_caught() {
    // marks left where a tree is refused, and where it is accepted
    assert!(caught(damaged, |mesh, tree, work| {
        let answer = right(mesh, tree, work);
        if answer == BROKEN
            && let Some(first) = work.first_mut()
        {
            *first = 1;
        }
        answer
    }));
    assert!(caught(trees_of_the_mesh, |mesh, tree, work| {
        let answer = right(mesh, tree, work);
        if answer == 0
            && let Some(last) = mesh.corners.len().checked_sub(1)
        {
            work[last] = 1;
        }
        answer
    }));
    // nothing cleared where a tree is refused
    assert!(caught(damaged, |mesh, tree, work| {
        let before = work.to_vec();
        let answer = right(mesh, tree, work);
        if answer == BROKEN {
            work.copy_from_slice(&before);
        }
        answer
    }));
    // all cleared
    assert!(caught(trees_of_the_mesh, |mesh, tree, work| {
        let answer = right(mesh, tree, work);
        if answer == 0 {
            work.fill(0);
        }
        answer
    }));
    // cleared where the mesh or the room is refused
    assert!(caught(refusals, |mesh, tree, work| {
        work.fill(0);
        right(mesh, tree, work)
    }));
    // a write to the tree
    assert!(caught(trees_of_the_mesh, |mesh, tree, work| {
        let answer = right(mesh, tree, work);
        tree.items.sort_unstable();
        answer
    }));
    assert!(caught(trees_of_the_mesh, |mesh, tree, work| {
        let answer = right(mesh, tree, work);
        tree.boxes.iter_mut().for_each(|x| *x += 0.0);
        answer
    }));
}

#[test]
fn wrong_questions_are_caught() {
    // room first
    assert!(caught(refusals, |mesh, tree, work| {
        match work.len() < mesh.corners.len() {
            true => ROOM,
            false => right(mesh, tree, work),
        }
    }));
    // room last
    assert!(caught(refusals, |mesh, tree, work| {
        let answer = right(mesh, tree, work);
        match answer {
            ROOM => right(mesh, tree, &mut vec![0; mesh.corners.len()]).max(ROOM),
            answer => answer,
        }
    }));
    // room for the triangles alone
    assert!(caught(refusals, |mesh, tree, work| {
        let answer = right(mesh, tree, work);
        let triangles = mesh.corners.len().saturating_sub(2 * mesh.ends.len());
        match answer {
            ROOM if work.len() >= triangles => right(mesh, tree, &mut vec![0; mesh.corners.len()]),
            answer => answer,
        }
    }));
    // a place
    assert!(caught(damaged, |mesh, tree, work| {
        let answer = right(mesh, tree, work);
        match answer {
            BROKEN => BROKEN + 1,
            answer => answer,
        }
    }));
}
