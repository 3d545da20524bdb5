//! Document 01's own cases on trees: the rows of its table 'Edges of the rules' on
//! the nodes of small trees, and on the number of vertices as the builder asks it.

use super::building::{Build, csx_tree};
use super::{STRIDE, Tree};
use crate::kinds::meshes::edges::mesh;
use crate::kinds::meshes::{Line, Mesh, Outcome};
use crate::report::{Kind, Report};

/// A number of triangles, and of the nodes of their tree.
const NODES: [(usize, u64); 2] = [(4, 1), (5, 3)];

/// A number of vertices of one triangle, and what the builder answers.
const VERTICES: [(usize, u64); 2] = [(65_536, 1), (65_537, 1_000_000)];

/// Compares the builder's answers, and csx's numbers of nodes.
pub fn compare(report: &mut Report, build: Build) {
    let mut built = Line::new("document 01's cases, trees built");
    let mut csx = Kind::new("document 01's cases, trees built, csx");
    for (triangles, nodes) in NODES {
        let faces: Vec<[u32; 3]> = (0..triangles as u32).map(|t| [t, t + 1, t + 2]).collect();
        let mut mesh = mesh(triangles + 2, &faces);
        let by_csx = csx_tree(&mesh).node_count() as u64;
        csx.compare(&[triangles as u64], by_csx, nodes);
        built.compare(answer(build, &mut mesh), nodes, || mesh.text());
    }
    for (vertices, want) in VERTICES {
        let mut mesh = mesh(vertices, &[[0, 1, 2]]);
        built.compare(answer(build, &mut mesh), want, || mesh.text());
    }
    built.add_to(report, &["refusal 1"]);
    report.add(csx);
}

/// What the builder answers that has as much room as it needs.
fn answer(build: Build, mesh: &mut Mesh) -> Outcome {
    let triangles = mesh.triangle_count();
    let mut tree = Tree {
        boxes: vec![0.0; 6 * triangles],
        nodes: vec![0; STRIDE * triangles],
        items: vec![0; triangles],
    };
    Outcome {
        answer: build(&mut mesh.lend(), &mut tree.lend()),
        wrong: None,
    }
}

#[cfg(test)]
mod tests {
    use super::super::expected::{RULE, Rule, build, own_boxes};
    use super::*;
    use crate::engine::{self, meshes::Mesh as Lists};
    use crate::kinds::meshes::expected::refusal;
    use crate::kinds::tests;

    /// An engine whose leaves have so many triangles at most.
    fn with_leaves(lists: &Lists, leaf: usize) -> u64 {
        let mesh = Mesh::of(lists);
        let rule = Rule { leaf, ..RULE };
        refusal(&mesh).unwrap_or_else(|| build(&rule, &own_boxes(&mesh)).tree.node_count() as u64)
    }

    fn fails(build: Build) -> bool {
        tests::fails(|report, _| compare(report, build))
    }

    #[test]
    fn the_engine_and_the_rule_pass() {
        assert!(!fails(engine::trees::build));
        assert!(!fails(|lists, _| with_leaves(lists, 4)));
    }

    #[test]
    fn wrong_numbers_of_nodes_fail() {
        assert!(fails(|lists, _| with_leaves(lists, 3)));
        assert!(fails(|lists, _| with_leaves(lists, 5)));
        assert!(fails(|lists, _| lists.ends.len() as u64));
    }

    #[test]
    fn a_wrong_limit_of_vertices_fails() {
        assert!(fails(|lists, _| {
            let mut mesh = Mesh::of(lists);
            mesh.coords.truncate(3 * 65_536);
            with_leaves(&mesh.lend(), 4)
        }));
    }
}
