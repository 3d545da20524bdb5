//! One answer for each point (demand 3): whatever the order of the faces, the
//! numbers of the vertices and the tree are, it is the plain scan's of the mesh as
//! it was.

use super::answers::any_case;
use super::expected::Prepared;
use super::inputs::ANSWERS;
use super::{Call, Contains, see_answers};
use crate::kinds::meshes::expected::Bounds;
use crate::kinds::meshes::{Line, Mesh};
use crate::kinds::trees::expected::{RULE, build, own_boxes};
use crate::kinds::trees::inputs::{Form, renumbered, reordered};
use crate::kinds::trees::{Tree, others};
use crate::plan::Plan;
use crate::random::Random;
use crate::report::Report;

/// How many points a mesh is asked about.
const COUNT: usize = 16;

/// The forms of a mesh that have its answers.
const FORMS: [(&str, Form); 5] = [
    ("as it was", |mesh, _| mesh.clone()),
    ("reordered", reordered),
    ("renumbered", renumbered),
    ("reordered and renumbered", |mesh, random| {
        renumbered(&reordered(mesh, random), random)
    }),
    // no rewriting, but the sign of a zero is to show as little
    ("with the other zeros", |mesh, _| with_other_zeros(mesh)),
];

/// The mesh with the other sign of each zero.
fn with_other_zeros(mesh: &Mesh) -> Mesh {
    let mut mesh = mesh.clone();
    let zeros = mesh.coords.iter_mut().filter(|x| **x == 0.0);
    zeros.for_each(|x| *x = -*x);
    mesh
}

/// A tree that keeps the tree rules.
type Make = fn(&[Bounds], &mut Random) -> Tree;

const TREES: [(&str, Make); 2] = [
    ("built", |own, _| build(&RULE, own).tree),
    ("another tree", others::tree),
];

/// Compares each form of small meshes of every sort, with each tree.
pub fn compare(report: &mut Report, plan: &Plan, contains: Contains) {
    let name = "lists, rewritings of the mesh";
    let mut line = Line::new(name);
    let mut random = plan.random(name);
    for _ in 0..plan.times(4_000) {
        let (mesh, points) = any_case(COUNT, &mut random);
        let answers = Prepared::new(&mesh).answers(&points);
        for (form_name, form) in FORMS {
            let mesh = form(&mesh, &mut random);
            let own = own_boxes(&mesh);
            for (tree_name, tree) in TREES {
                let tree = tree(&own, &mut random);
                let call = Call::new(&mesh, &tree, &points, &mut random);
                call.ask(contains, &mut line, &mut random, 0, &answers);
                line.see(form_name);
                line.see(tree_name);
                see_answers(&mut line, &answers);
            }
        }
    }
    line.add_to(report, ANSWERS);
}
