//! Engines with one fault each, which the comparison has to find.

use csx::Vec3;
use csx::primitives::bvh::Bvh;
use csx::primitives::polyhedron::{RAY_DIRS, RayHit, closest_on_triangle, ray_triangle};

use super::answers::{self, compare_sort};
use super::by_csx::{bvh, walk};
use super::expected::{POINTS, Passes, Prepared, RULE, Rule, csx_box, refusal};
use super::inputs::SORTS;
use super::refusals::{self, damaged, faults, lengths, trees_of_other_meshes};
use super::{Contains, cases, rewritings};
use crate::engine::REFUSAL;
use crate::engine::lists::List;
use crate::engine::meshes::Mesh as Lists;
use crate::engine::trees::Tree as Lent;
use crate::kinds::answer::{INSIDE, OUTSIDE, UNDECIDED};
use crate::kinds::meshes::expected::{self as of_mesh, box_of, code, edge_keys, grown, triangles};
use crate::kinds::meshes::{Mesh, ROOM};
use crate::kinds::tests;
use crate::kinds::trees::Tree;
use crate::kinds::trees::checking::BROKEN;
use crate::kinds::trees::expected::{TREE_RULES, TreeRules, keeps, own_boxes};
use crate::plan::{DEFAULT_SEED, Plan};
use crate::report::Report;

/// A part of the comparison.
type Part = fn(&mut Report, &Plan, Contains);

fn plan() -> Plan {
    Plan::quick(DEFAULT_SEED).part(40)
}

/// Whether this part finds a fault.
fn caught(part: Part, contains: Contains) -> bool {
    tests::fails(|report, _| part(report, &plan(), contains))
}

/// Whether the meshes of this sort find a fault.
fn caught_by(sort: &str, contains: Contains) -> bool {
    let sort = SORTS.iter().find(|known| known.name == sort);
    let sort = sort.expect("a sort of the table");
    tests::fails(|report, _| compare_sort(report, &plan(), contains, sort))
}

/// The parts of an engine.
#[derive(Clone)]
struct Engine {
    tree_rules: TreeRules,
    keys: fn(&Mesh) -> Vec<u64>,
    prepare: fn(&Mesh) -> Prepared,
    rule: Rule,
    /// The triangles that a walk over the tree looks at.
    looked_at: fn(&Bvh, &Prepared, Passes) -> Vec<u32>,
}

/// An engine that is right.
const RIGHT: Engine = Engine {
    tree_rules: TREE_RULES,
    keys: edge_keys,
    prepare: Prepared::new,
    rule: RULE,
    looked_at: |tree, mesh, passes| {
        let mut items = walk(tree, passes);
        items.retain(|t| mesh.passes(*t, passes));
        items
    },
};

/// An engine with a part changed.
fn by(
    mesh: &Lists,
    tree: &Lent,
    work: &mut [u64],
    list: &mut List,
    change: fn(&mut Engine),
) -> u64 {
    let mut engine = RIGHT;
    change(&mut engine);
    let (mesh, tree) = (Mesh::of(mesh), Tree::of(tree));
    if let Some(refusal) = of_mesh::refusal(&mesh) {
        return refusal;
    }
    let Some(work) = work.get_mut(..mesh.corners.len()) else {
        return ROOM;
    };
    work.fill(0);
    if !keeps(&engine.tree_rules, &tree, &own_boxes(&mesh)) {
        return BROKEN;
    }
    if let Some(refusal) = refusal(list.points, list.answers.len()) {
        return refusal;
    }
    work.copy_from_slice(&(engine.keys)(&mesh));
    let (mesh, tree) = ((engine.prepare)(&mesh), bvh(&tree));
    let points = list.points.as_chunks().0;
    for (p, answer) in points.iter().zip(list.answers.iter_mut()) {
        let looked_at = |passes: Passes| (engine.looked_at)(&tree, &mesh, passes);
        *answer = mesh.answer(&engine.rule, Vec3(*p), &looked_at) as u8;
    }
    0
}

fn right(mesh: &mut Lists, tree: &mut Lent, work: &mut [u64], list: &mut List) -> u64 {
    by(mesh, tree, work, list, |_| {})
}

#[test]
fn a_right_engine_passes() {
    for part in [
        answers::compare as Part,
        cases::compare,
        rewritings::compare,
        refusals::compare,
    ] {
        assert!(!caught(part, right));
    }
}

#[test]
fn answers_without_a_look_at_the_point_are_caught() {
    // the first answer repeated
    let repeated: Contains = |mesh, tree, work, list| {
        let answer = right(mesh, tree, work, list);
        if answer == 0
            && let Some(first) = list.answers.first().copied()
        {
            list.answers.fill(first);
        }
        answer
    };
    // outside throughout, and inside
    let outside: Contains = |mesh, tree, work, list| {
        let answer = right(mesh, tree, work, list);
        if answer == 0 {
            list.answers.fill(OUTSIDE as u8);
        }
        answer
    };
    let inside: Contains = |mesh, tree, work, list| {
        let answer = right(mesh, tree, work, list);
        if answer == 0 {
            list.answers.fill(INSIDE as u8);
        }
        answer
    };
    // undecided before a ray is cast
    let undecided: Contains = |mesh, tree, work, list| {
        by(mesh, tree, work, list, |engine| {
            engine.rule.verdict = |_| UNDECIDED;
        })
    };
    // every mesh refused
    let refused: Contains = |_, _, _, _| BROKEN;
    for engine in [repeated, outside, inside, undecided, refused] {
        for part in [rewritings::compare as Part, lengths] {
            assert!(caught(part, engine));
        }
    }
    for sort in &SORTS {
        for engine in [repeated, outside, inside, refused] {
            assert!(caught_by(sort.name, engine));
        }
        // the rays of an open mesh are not cast
        assert_eq!(caught_by(sort.name, undecided), sort.name != "open meshes");
    }
}

/// An engine with a part of the mesh rule changed.
macro_rules! by_rule {
    ($change:expr) => {
        |mesh, tree, work, list| {
            by(mesh, tree, work, list, |engine| {
                let change: fn(&mut Rule) = $change;
                change(&mut engine.rule);
            })
        }
    };
}

#[test]
fn wrong_rays_are_caught() {
    // a rim behind the point called Degenerate
    assert!(caught_by(
        "solids",
        by_rule!(|rule| rule.ray = |p, d, [a, b, c]| {
            match ray_triangle(p, -d, a, b, c) {
                RayHit::Degenerate => RayHit::Degenerate,
                _ => ray_triangle(p, d, a, b, c),
            }
        })
    ));
    // hits behind the point counted
    assert!(caught_by(
        "solids",
        by_rule!(|rule| rule.ray = |p, d, [a, b, c]| {
            match ray_triangle(p, -d, a, b, c) {
                RayHit::Miss => ray_triangle(p, d, a, b, c),
                hit => hit,
            }
        })
    ));
    // no rims: a hit is a hit, or none
    assert!(caught_by(
        "solids",
        by_rule!(|rule| rule.ray = |p, d, [a, b, c]| {
            match ray_triangle(p, d, a, b, c) {
                RayHit::Degenerate => RayHit::Hit,
                hit => hit,
            }
        })
    ));
    assert!(caught_by(
        "solids",
        by_rule!(|rule| rule.ray = |p, d, [a, b, c]| {
            match ray_triangle(p, d, a, b, c) {
                RayHit::Degenerate => RayHit::Miss,
                hit => hit,
            }
        })
    ));
    // only one direction cast
    assert!(caught_by(
        "solids",
        by_rule!(|rule| rule.directions = [RAY_DIRS[0]; 3])
    ));
    // equal votes taken for outside, and for inside
    assert!(caught_by(
        "solids",
        by_rule!(|rule| rule.verdict = |[even, odd]| match odd > even {
            true => INSIDE,
            false => OUTSIDE,
        })
    ));
    assert!(caught_by(
        "solids",
        by_rule!(|rule| rule.verdict = |[even, odd]| match odd >= even {
            true => INSIDE,
            false => OUTSIDE,
        })
    ));
    // no votes taken for outside, a vote each for undecided
    assert!(caught_by(
        "solids",
        by_rule!(|rule| rule.verdict = |votes| match votes {
            [0, 0] => OUTSIDE,
            votes => (RULE.verdict)(votes),
        })
    ));
}

/// Möller and Trumbore's test with the comparisons that a NaN passes in csx turned
/// round.
fn without_nan(p: Vec3, d: Vec3, triangle: [Vec3; 3]) -> RayHit {
    let [a, b, c] = triangle;
    let (e1, e2, s) = (b - a, c - a, p - a);
    let f = 1.0 / e1.dot(d.cross(e2));
    let q = s.cross(e1);
    match (f * d.dot(q)).is_nan() || (f * e2.dot(q)).is_nan() {
        true => RayHit::Miss,
        false => (RULE.ray)(p, d, triangle),
    }
}

#[test]
fn a_comparison_that_a_nan_does_not_pass_is_caught() {
    assert!(caught_by(
        "all magnitudes",
        by_rule!(|rule| rule.ray = without_nan)
    ));
}

#[test]
fn wrong_surfaces_are_caught() {
    // none
    for sort in &SORTS {
        assert!(caught_by(
            sort.name,
            by_rule!(|rule| rule.touches = |_, _, _| false)
        ));
    }
    // without its last points
    assert!(caught_by(
        "boxes and panels",
        by_rule!(|rule| rule.touches =
            |p, [a, b, c], eps| (closest_on_triangle(p, a, b, c) - p).norm() < eps)
    ));
    // the square of the distance compared
    assert!(caught_by(
        "all magnitudes",
        by_rule!(|rule| rule.touches = |p, [a, b, c], eps| {
            let away = closest_on_triangle(p, a, b, c) - p;
            away.dot(away) <= eps * eps
        })
    ));
    // corners in another order
    assert!(caught(
        answers::compare,
        by_rule!(|rule| rule.touches = |p, [a, b, c], eps| (RULE.touches)(p, [c, a, b], eps))
    ));
}

/// An engine whose walks look at these triangles.
macro_rules! looks_at {
    ($change:expr) => {
        |mesh, tree, work, list| by(mesh, tree, work, list, |engine| engine.looked_at = $change)
    };
}

#[test]
fn wrong_walks_are_caught() {
    // no own box tested in a leaf
    let no_own_box: Contains = looks_at!(|tree, _, passes| walk(tree, passes));
    assert!(caught(cases::compare, no_own_box));
    assert!(caught_by("all magnitudes", no_own_box));
    assert!(caught(rewritings::compare, no_own_box));
    // a triangle counted twice
    for sort in ["solids", "boxes and panels", "overlapping solids"] {
        assert!(caught_by(
            sort,
            looks_at!(|tree, mesh, passes| {
                let mut items = (RIGHT.looked_at)(tree, mesh, passes);
                items.extend(items.last().copied());
                items
            })
        ));
    }
    // the last triangle of the tree not looked at
    assert!(caught_by(
        "solids",
        looks_at!(|tree, mesh, passes| {
            let mut items = (RIGHT.looked_at)(tree, mesh, passes);
            items.retain(|t| Some(t) != tree.items.last());
            items
        })
    ));
}

/// An engine that takes the mesh for another before its points.
macro_rules! prepares {
    ($change:expr) => {
        |mesh, tree, work, list| by(mesh, tree, work, list, |engine| engine.prepare = $change)
    };
}

#[test]
fn wrong_meshes_are_caught() {
    // boxes of used vertices alone
    assert!(caught_by(
        "unused far vertices",
        prepares!(|mesh| {
            let mut prepared = Prepared::new(mesh);
            let used = mesh.corners.iter().map(|v| mesh.vertex(*v));
            prepared.grown = csx_box(grown(box_of(used)));
            prepared
        })
    ));
    // a box that is not grown
    assert!(caught_by(
        "boxes and panels",
        prepares!(|mesh| {
            let mut prepared = Prepared::new(mesh);
            prepared.grown = prepared.bounds;
            prepared
        })
    ));
    // an open mesh taken for a solid
    assert!(caught_by(
        "open meshes",
        prepares!(|mesh| Prepared {
            closed: true,
            ..Prepared::new(mesh)
        })
    ));
    // a solid closed by its triangles
    assert!(caught_by(
        "degenerate meshes",
        prepares!(|mesh| Prepared {
            closed: Prepared::new(&mesh.with_faces(triangles(mesh))).closed,
            ..Prepared::new(mesh)
        })
    ));
    // a tolerance that shrinks to nothing
    assert!(caught_by(
        "all magnitudes",
        prepares!(|mesh| {
            let mut prepared = Prepared::new(mesh);
            if prepared.eps == 1e-12 * 1e-300 {
                prepared.eps = 0.0;
            }
            prepared
        })
    ));
    // corners of a face from the second on
    assert!(caught_by(
        "solids",
        prepares!(|mesh| {
            let turned = mesh.faces().map(|face| {
                let mut face = face.to_vec();
                face.rotate_left(1);
                face
            });
            Prepared::new(&mesh.with_faces(turned))
        })
    ));
}

#[test]
fn wrong_trees_are_caught() {
    // a stale tree accepted
    let stale: Contains = |mesh, tree, work, list| {
        by(mesh, tree, work, list, |engine| {
            engine.tree_rules.encloses = |_, _| true;
        })
    };
    assert!(caught(trees_of_other_meshes, stale));
    assert!(caught(damaged, stale));
    // the builder's tree alone accepted
    assert!(caught(rewritings::compare, |mesh, tree, work, list| {
        let answer = right(mesh, tree, work, list);
        let built = crate::kinds::trees::built;
        match answer {
            0 if Tree::of(tree) != built(&Mesh::of(mesh)) => BROKEN,
            answer => answer,
        }
    }));
}

#[test]
fn wrong_buffers_are_caught() {
    // work left unsorted
    let unsorted: Contains = |mesh, tree, work, list| {
        by(mesh, tree, work, list, |engine| {
            engine.keys = |mesh| {
                let mut keys = edge_keys(mesh);
                keys.reverse();
                keys
            };
        })
    };
    // work left 0, and only that of an open mesh
    let cleared: Contains = |mesh, tree, work, list| {
        by(mesh, tree, work, list, |engine| {
            engine.keys = |mesh| vec![0; mesh.corners.len()];
        })
    };
    for sort in &SORTS {
        assert!(caught_by(sort.name, unsorted));
        assert!(caught_by(sort.name, cleared));
    }
    assert!(caught_by("open meshes", |mesh, tree, work, list| {
        by(mesh, tree, work, list, |engine| {
            engine.keys = |mesh| match Prepared::new(mesh).closed {
                true => edge_keys(mesh),
                false => vec![0; mesh.corners.len()],
            };
        })
    }));
    // a work place behind the keys written
    assert!(caught_by("solids", |mesh, tree, work, list| {
        let answer = right(mesh, tree, work, list);
        work[mesh.corners.len()..].fill(0);
        answer
    }));
    // a byte behind the answers written
    let behind: Contains = |mesh, tree, work, list| {
        let answer = right(mesh, tree, work, list);
        if answer == 0 {
            // SAFETY: a guard stands behind the list, in the same buffer.
            unsafe { list.answers.as_mut_ptr().add(list.answers.len()).write(0) };
        }
        answer
    };
    assert!(caught_by("solids", behind));
    assert!(caught(lengths, behind));
    // a write to the points, to the mesh and to the tree
    assert!(caught_by("solids", |mesh, tree, work, list| {
        let answer = right(mesh, tree, work, list);
        list.points.iter_mut().for_each(|x| *x = -*x);
        answer
    }));
    assert!(caught_by("boxes and panels", |mesh, tree, work, list| {
        let answer = right(mesh, tree, work, list);
        mesh.coords.iter_mut().for_each(|x| *x += 0.0);
        answer
    }));
    assert!(caught_by("solids", |mesh, tree, work, list| {
        let answer = right(mesh, tree, work, list);
        tree.items.sort_unstable();
        answer
    }));
}

#[test]
fn wrong_refusals_are_caught() {
    // answers of a refused list
    assert!(caught(faults, |mesh, tree, work, list| {
        let answer = right(mesh, tree, work, list);
        if answer / REFUSAL == 9 {
            list.answers.fill(0);
        }
        answer
    }));
    // the work places of a refused list as they were, or with the edge keys
    assert!(caught(faults, |mesh, tree, work, list| {
        let before = work.to_vec();
        let answer = right(mesh, tree, work, list);
        if answer / REFUSAL >= 8 {
            work.copy_from_slice(&before);
        }
        answer
    }));
    assert!(caught(faults, |mesh, tree, work, list| {
        let answer = right(mesh, tree, work, list);
        if answer / REFUSAL == 9 {
            work[..mesh.corners.len()].copy_from_slice(&edge_keys(&Mesh::of(mesh)));
        }
        answer
    }));
    // work places cleared before the mesh is asked
    assert!(caught(faults, |mesh, tree, work, list| {
        work.fill(0);
        right(mesh, tree, work, list)
    }));
}

#[test]
fn wrong_questions_are_caught() {
    // the place of a number for that of its point
    assert!(caught(faults, |mesh, tree, work, list| {
        let answer = right(mesh, tree, work, list);
        match list.points.iter().position(|x| !x.is_finite()) {
            Some(place) if answer / REFUSAL == 9 => code(9, place),
            _ => answer,
        }
    }));
    // the last point that is not finite
    assert!(caught(faults, |mesh, tree, work, list| {
        let answer = right(mesh, tree, work, list);
        match list.points.iter().rposition(|x| !x.is_finite()) {
            Some(place) if answer / REFUSAL == 9 => code(9, place / 3),
            _ => answer,
        }
    }));
    // 9 before 8
    assert!(caught(faults, |mesh, tree, work, list| {
        let answer = right(mesh, tree, work, list);
        match list.points.iter().position(|x| !x.is_finite()) {
            Some(place) if answer / REFUSAL == 8 => code(9, place / 3),
            _ => answer,
        }
    }));
    // 8 before the others
    assert!(caught(faults, |mesh, tree, work, list| {
        match refusal(list.points, list.answers.len()) {
            Some(refusal) if refusal / REFUSAL == 8 => refusal,
            _ => right(mesh, tree, work, list),
        }
    }));
    // 8 before 7
    assert!(caught(faults, |mesh, tree, work, list| {
        let answer = right(mesh, tree, work, list);
        match refusal(list.points, list.answers.len()) {
            Some(refusal) if answer == BROKEN => refusal,
            _ => answer,
        }
    }));
}

/// An engine that answers for the front of a list which question 8 refuses.
fn taken(
    mesh: &mut Lists,
    tree: &mut Lent,
    work: &mut [u64],
    list: &mut List,
    takes: fn(usize, usize) -> bool,
) -> u64 {
    let answer = right(mesh, tree, work, list);
    if answer / REFUSAL != 8 || !takes(list.points.len(), list.answers.len()) {
        return answer;
    }
    let count = list.answers.len().min(list.points.len() / 3);
    let mut front = List {
        points: &mut list.points[..3 * count],
        answers: &mut list.answers[..count],
    };
    match count {
        0..=POINTS => right(mesh, tree, work, &mut front),
        _ => {
            work[..mesh.corners.len()].copy_from_slice(&edge_keys(&Mesh::of(mesh)));
            0
        }
    }
}

#[test]
fn wrong_lengths_are_caught() {
    for part in [lengths, faults] {
        // a part of a point
        assert!(caught(part, |mesh, tree, work, list| {
            taken(mesh, tree, work, list, |numbers, answers| {
                numbers / 3 == answers
            })
        }));
        // too many answers, and too few
        assert!(caught(part, |mesh, tree, work, list| {
            taken(mesh, tree, work, list, |numbers, answers| {
                answers > numbers / 3
            })
        }));
        assert!(caught(part, |mesh, tree, work, list| {
            taken(mesh, tree, work, list, |numbers, answers| {
                answers < numbers / 3
            })
        }));
    }
    // a point more, and a point less
    assert!(caught(lengths, |mesh, tree, work, list| {
        taken(mesh, tree, work, list, |numbers, answers| {
            numbers == 3 * answers
        })
    }));
    assert!(caught(lengths, |mesh, tree, work, list| {
        let most = list.answers.len() == POINTS;
        match right(mesh, tree, work, list) {
            0 if most => code(8, 0),
            answer => answer,
        }
    }));
    // no points refused
    assert!(caught(lengths, |mesh, tree, work, list| {
        let none = list.points.is_empty();
        match right(mesh, tree, work, list) {
            0 if none => code(8, 0),
            answer => answer,
        }
    }));
    // a work place less than there are corners
    assert!(caught(lengths, |mesh, tree, work, list| {
        match right(mesh, tree, work, list) {
            ROOM if work.len() + 1 == mesh.corners.len() => {
                let mut more = vec![0; mesh.corners.len()];
                right(mesh, tree, &mut more, list)
            }
            answer => answer,
        }
    }));
}
