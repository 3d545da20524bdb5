//! csx's answers, and which entry of document 01's closed list explains one that is
//! another than the plain scan's.

use csx::primitives::bvh::{Bvh, Node};
use csx::{Polyhedron, Vec3};

use super::expected::{Passes, Prepared, RULE, csx_box};
use crate::kinds::answer::UNDECIDED;
use crate::kinds::trees::Tree;

/// What is said of an answer that csx gives too.
pub const THE_SAME: &str = "as csx";
/// What is said of another answer that no entry explains.
const UNEXPLAINED: &str = "unexplained";

/// An entry of the closed list, or both: whether the own box of a triangle in a
/// leaf is tested, and whether equal votes are undecided.
type Entry = (&'static str, bool, bool);

pub const OWN_BOX: &str = "no own box in a leaf";
pub const EQUAL_VOTES: &str = "equal votes";
pub const BOTH: &str = "both of these";

const ENTRIES: [Entry; 3] = [
    (OWN_BOX, true, false),
    (EQUAL_VOTES, false, true),
    (BOTH, true, true),
];

/// A lent tree as csx has it.
pub fn bvh(tree: &Tree) -> Bvh {
    let nodes = tree.bounds().zip(tree.nodes.as_chunks().0);
    let node = |(bounds, [start, count]): (_, &[u32; 2])| Node {
        bbox: csx_box(bounds),
        start: *start,
        count: *count,
    };
    Bvh {
        nodes: nodes.map(node).collect(),
        items: tree.items.clone(),
    }
}

/// The triangles of the leaves that a walk comes to.
pub fn walk(bvh: &Bvh, passes: Passes) -> Vec<u32> {
    let mut items = Vec::new();
    bvh.visit(passes, |t| {
        items.push(t);
        true
    });
    items
}

/// The answer that csx gives, and what is said of it beside the plain scan's. With
/// the feature `port` csx has to give the plain scan's. Without it an entry of the
/// closed list may come between: then the answer is csx's with that entry applied.
pub fn answer(csx: &Polyhedron, mesh: &Prepared, p: Vec3, want: u64) -> (u64, &'static str) {
    let given = if cfg!(feature = "port") {
        csx.answer(p).map_or(UNDECIDED, u64::from)
    } else {
        csx.contains(p).into()
    };
    if given == want {
        return (given, THE_SAME);
    }
    let entry = if cfg!(feature = "port") {
        None
    } else {
        explanation(csx, mesh, p, given, want)
    };
    match entry {
        Some(name) => (want, name),
        None => (given, UNEXPLAINED),
    }
}

/// The entry of the closed list by which csx as published gives one answer and the
/// plain scan another.
fn explanation(
    csx: &Polyhedron,
    mesh: &Prepared,
    p: Vec3,
    given: u64,
    want: u64,
) -> Option<&'static str> {
    // That the rule below without a change is csx's is no matter of course.
    if by_rule(csx, mesh, p, false, false) != given {
        return None;
    }
    entry(csx, mesh, p, want)
}

/// The first entry of the closed list with which csx's rule gives this answer.
pub fn entry(csx: &Polyhedron, mesh: &Prepared, p: Vec3, want: u64) -> Option<&'static str> {
    let explains =
        |(_, own_box, undecided): &&Entry| by_rule(csx, mesh, p, *own_box, *undecided) == want;
    ENTRIES.iter().find(explains).map(|(name, ..)| *name)
}

/// csx's rule over its tree, with each of the two entries applied or not.
pub fn by_rule(csx: &Polyhedron, mesh: &Prepared, p: Vec3, own_box: bool, undecided: bool) -> u64 {
    let answer = mesh.answer(&RULE, p, &|passes| {
        let mut items = walk(&csx.bvh, passes);
        items.retain(|t| !own_box || mesh.passes(*t, passes));
        items
    });
    match answer {
        UNDECIDED if !undecided => (csx.winding_number(p).abs() > 0.5).into(),
        answer => answer,
    }
}

#[cfg(test)]
mod tests {
    use super::*;
    use crate::kinds::answer::{INSIDE, OUTSIDE};
    use crate::kinds::lists::inputs::unit_cube;
    use crate::kinds::trees::built;

    #[test]
    fn a_walk_over_a_lent_tree_comes_to_every_triangle_once() {
        let tree = bvh(&built(&unit_cube()));
        let mut items = walk(&tree, &|_| true);
        items.sort_unstable();
        assert_eq!(items, (0..12).collect::<Vec<u32>>());
        assert!(walk(&tree, &|_| false).is_empty());
    }

    #[test]
    fn an_answer_that_no_entry_explains_is_csxs() {
        let mesh = unit_cube();
        let csx = mesh.csx().expect("an accepted mesh");
        let rule = Prepared::new(&mesh);
        let p = Vec3::new(0.25, 0.5, 0.625);
        assert_eq!(answer(&csx, &rule, p, INSIDE), (INSIDE, THE_SAME));
        for wrong in [OUTSIDE, UNDECIDED] {
            assert_eq!(answer(&csx, &rule, p, wrong), (INSIDE, UNEXPLAINED));
        }
    }

    /// A point with three Degenerate rays, which csx as published decides by its
    /// winding number, and a csx that has its tree over another mesh, so that it finds
    /// none of them.
    #[test]
    fn an_entry_explains_nothing_of_another_rule() {
        let mesh = unit_cube();
        let mut csx = mesh.csx().expect("an accepted mesh");
        let rule = Prepared::new(&mesh);
        let p = Vec3::new(0.6270983168762755, 0.6007282396401701, 0.46938903896831846);
        let word = if cfg!(feature = "port") {
            THE_SAME
        } else {
            EQUAL_VOTES
        };
        let explained = |csx: &Polyhedron, given| explanation(csx, &rule, p, given, UNDECIDED);
        assert_eq!(answer(&csx, &rule, p, UNDECIDED), (UNDECIDED, word));
        assert_eq!(explained(&csx, INSIDE), Some(EQUAL_VOTES));
        assert_eq!(explained(&csx, OUTSIDE), None);
        csx.bvh = Bvh::default();
        assert_eq!(answer(&csx, &rule, p, UNDECIDED), (OUTSIDE, UNEXPLAINED));
        assert_eq!(explained(&csx, OUTSIDE), None);
    }
}
