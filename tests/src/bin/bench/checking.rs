//! Checking trees, beside csx's answers for points.

use std::hint::black_box;

use csx::{Polyhedron, Vec3};
use zirwennach_tests::engine::trees;
use zirwennach_tests::kinds::meshes::Mesh;
use zirwennach_tests::kinds::trees::{Tree, built};

use crate::best_of_each;
use crate::spheres::{Sphere, points};
use crate::table::{Growth, Row, Table};

/// How many rounds are run, of which the best counts.
const ROUNDS: usize = 15;
/// How much of the time of csx's answers the check may take.
const PART: f64 = 0.1;

/// A mesh whose tree, the builder rule's, is checked.
struct Subject {
    mesh: Mesh,
    tree: Tree,
    work: Vec<u64>,
    answer: u64,
    csx: Polyhedron,
}

impl Subject {
    fn new(sphere: &Sphere) -> Self {
        let mesh = sphere.mesh.clone();
        Self {
            tree: built(&mesh),
            work: vec![0; mesh.corners.len()],
            answer: 0,
            csx: mesh.csx().expect("an accepted mesh"),
            mesh,
        }
    }

    fn check(&mut self) {
        let work = black_box(&mut self.work);
        self.answer = trees::check(&mut self.mesh.lend(), &mut self.tree.lend(), work);
    }
}

/// Times the check beside csx's answers for points in and about the mesh's box.
pub fn run(table: &mut Table, spheres: &[Sphere]) {
    println!("Checking trees, the best of {ROUNDS} interleaved rounds");
    let points: Vec<Vec3> = points();
    let mut subjects: Vec<Subject> = spheres.iter().map(Subject::new).collect();
    let times = best_of_each(ROUNDS, &mut subjects, Subject::check, |subject| {
        let inside = points.iter().filter(|p| subject.csx.contains(**p));
        black_box(inside.count());
    });
    for ((sphere, subject), [engine, csx]) in spheres.iter().zip(&subjects).zip(&times) {
        table.add(&Row {
            what: "checking a tree",
            inputs: sphere.name,
            engine: *engine,
            beside: "csx's answers for 65,536 points",
            other: *csx,
            most: Some(PART),
        });
        table.agree(subject.answer == 0);
    }
    table.grow(&Growth {
        what: "checking a tree, and csx's answers for 65,536 points",
        triangles: spheres.iter().map(Sphere::triangles).collect(),
        times,
    });
}
