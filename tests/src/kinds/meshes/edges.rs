//! Document 01's own cases on meshes: the rows of its table 'Edges of the rules'
//! on closed meshes and on the number of vertices.

use csx::primitives::polyhedron::is_closed;

use super::expected::edge_keys;
use super::{Lent, Line, Mesh, Probe};
use crate::random::Random;
use crate::report::{Kind, Report};

/// The corners of faces, and whether their mesh is closed.
const CLOSED: [(&[[u32; 3]], u64); 2] = [
    // no faces
    (&[], 0),
    // one triangle listed twice
    (&[[0, 1, 2], [0, 1, 2]], 1),
];

/// A number of vertices, and what question 1 answers.
const VERTICES: [(usize, u64); 2] = [(65_536, 0), (65_537, 1_000_000)];

/// A mesh of these faces over so many vertices.
pub(in crate::kinds) fn mesh(vertices: usize, faces: &[[u32; 3]]) -> Mesh {
    let places = Mesh {
        coords: (0..3 * vertices).map(|place| place as f64).collect(),
        ..Mesh::default()
    };
    places.with_faces(faces.iter().copied())
}

/// Compares which meshes are closed, with csx too.
pub fn closed(report: &mut Report, probe: Probe<u64>) {
    let mut line = Line::new("document 01's cases, closed meshes");
    let mut csx = Kind::new("document 01's cases, closed meshes, csx");
    for (faces, want) in CLOSED {
        let mesh = mesh(3, faces);
        let keys = edge_keys(&mesh);
        let buffer = Lent::garbage(keys.len(), &mut Random::new(1));
        line.ask(probe, &mesh, buffer, want, &keys);
        let faces: Vec<Vec<u32>> = mesh.faces().map(<[_]>::to_vec).collect();
        csx.compare_for(is_closed(&faces), want == 1, || mesh.text());
    }
    report.add(line.kind);
    report.add(csx);
}

/// Compares how many vertices are taken. csx takes any number: that the engine
/// does not is on the closed list.
pub fn vertices(report: &mut Report, probe: Probe<u8>) {
    let mut line = Line::new("document 01's cases, vertices");
    let mut csx = Kind::new("document 01's cases, vertices, taken by csx");
    for (count, want) in VERTICES {
        let mesh = mesh(count, &[[0, 1, 2]]);
        line.ask(probe, &mesh, Lent::new(&[]), want, &[]);
        csx.compare_for(mesh.csx().is_ok(), true, || mesh.text());
    }
    line.add_to(report, &["refusal 1"]);
    report.add(csx);
}

#[cfg(test)]
mod tests {
    use super::super::expected::{self, code, refusal};
    use super::super::tests::writes;
    use super::*;
    use crate::engine;
    use crate::engine::meshes::Mesh as Lists;
    use crate::kinds::tests;

    /// An engine with this rule of closedness.
    fn by_rule(lists: &Lists, work: &mut [u64], closed: fn(&Mesh, &[u64]) -> bool) -> u64 {
        match writes(lists, work, edge_keys) {
            0 => closed(&Mesh::of(lists), work).into(),
            refusal => refusal,
        }
    }

    /// An engine with this first question.
    fn by_question(lists: &Lists, first: fn(&Mesh) -> Option<u64>) -> u64 {
        first(&Mesh::of(lists)).unwrap_or(0)
    }

    fn closed_fails(probe: Probe<u64>) -> bool {
        tests::fails(|report, _| closed(report, probe))
    }

    fn vertices_fail(probe: Probe<u8>) -> bool {
        tests::fails(|report, _| vertices(report, probe))
    }

    #[test]
    fn the_engine_and_the_rule_pass() {
        assert!(!closed_fails(engine::meshes::edge_keys));
        assert!(!closed_fails(|lists, work| by_rule(
            lists,
            work,
            expected::closed
        )));
        assert!(!vertices_fail(engine::meshes::mesh));
        assert!(!vertices_fail(|lists, _| by_question(lists, refusal)));
    }

    #[test]
    fn wrong_rules_of_closedness_fail() {
        assert!(closed_fails(|lists, work| by_rule(
            lists,
            work,
            |_, keys| keys.chunk_by(|a, b| a == b).all(|same| same.len() == 2)
        )));
        assert!(closed_fails(|lists, work| by_rule(lists, work, |_, _| {
            false
        })));
    }

    #[test]
    fn wrong_limits_of_vertices_fail() {
        // one less, and one more
        assert!(vertices_fail(|lists, _| by_question(lists, |mesh| (mesh
            .vertex_count()
            > 65_535)
            .then_some(code(1, 0)))));
        assert!(vertices_fail(|lists, _| {
            let mut mesh = Mesh::of(lists);
            mesh.coords.truncate(3 * 65_536);
            by_question(&mesh.lend(), refusal)
        }));
        // another number
        assert!(vertices_fail(|lists, _| {
            match by_question(lists, refusal) {
                1_000_000 => code(2, 0),
                answer => answer,
            }
        }));
    }
}
