//! Answering lists of points, beside csx's answers for the same points.

use std::hint::black_box;

use csx::{Polyhedron, Vec3};
use zirwennach_tests::engine::lists::{List, contains};
use zirwennach_tests::kinds::meshes::Mesh;
use zirwennach_tests::kinds::trees::{Tree, built};

use crate::best_of_each;
use crate::spheres::{Sphere, points};
use crate::table::{Growth, Row, Table};

/// How many rounds are run, of which the best counts.
const ROUNDS: usize = 9;
/// How many times as long as csx a list may take.
const TIMES: f64 = 1.0;
/// How many seconds a list has to take less than, also on the largest mesh.
const LONGEST: f64 = 0.25;

/// A mesh with its tree and a list of points.
pub struct Subject {
    mesh: Mesh,
    tree: Tree,
    work: Vec<u64>,
    points: Vec<f64>,
    answers: Vec<u8>,
    refusal: u64,
    pub csx: Polyhedron,
    by_csx: Vec<u8>,
}

impl Subject {
    pub fn new(sphere: &Sphere, points: &[Vec3]) -> Self {
        let mesh = sphere.mesh.clone();
        Self {
            tree: built(&mesh),
            work: vec![0; mesh.corners.len()],
            points: points.iter().flat_map(|p| p.0).collect(),
            answers: vec![0; points.len()],
            refusal: 0,
            csx: mesh.csx().expect("an accepted mesh"),
            by_csx: vec![0; points.len()],
            mesh,
        }
    }

    /// One call for all points.
    pub fn answer(&mut self) {
        let mut list = List {
            points: &mut self.points,
            answers: black_box(&mut self.answers),
        };
        let (mesh, tree) = (&mut self.mesh.lend(), &mut self.tree.lend());
        self.refusal |= contains(mesh, tree, &mut self.work, &mut list);
    }

    /// A call for each point.
    pub fn answer_singly(&mut self) {
        for (point, answer) in self.points.chunks_mut(3).zip(self.answers.chunks_mut(1)) {
            let mut list = List {
                points: point,
                answers: black_box(answer),
            };
            let (mesh, tree) = (&mut self.mesh.lend(), &mut self.tree.lend());
            self.refusal |= contains(mesh, tree, &mut self.work, &mut list);
        }
    }

    /// csx's answers, with its tree at hand.
    pub fn answer_by_csx(&mut self) {
        let points = self.points.as_chunks().0.iter().copied().map(Vec3);
        for (answer, p) in self.by_csx.iter_mut().zip(points) {
            *answer = self.csx.contains(p).into();
        }
    }

    /// Whether the engine's answers are those that csx gave in this one.
    pub fn agrees(&self, other: &Self) -> bool {
        self.refusal == 0 && self.answers == other.by_csx
    }
}

/// Times a call beside csx's answers, for points in and about the mesh's box.
pub fn run(table: &mut Table, spheres: &[Sphere]) {
    println!(
        "Answering lists, with questions 1 to 9 and the edge keys, the best of {ROUNDS} \
         interleaved rounds: less than {LONGEST} s"
    );
    let points = points();
    let subject = |sphere| Subject::new(sphere, &points);
    let mut subjects: Vec<Subject> = spheres.iter().map(subject).collect();
    let times = best_of_each(
        ROUNDS,
        &mut subjects,
        Subject::answer,
        Subject::answer_by_csx,
    );
    for ((sphere, subject), [engine, csx]) in spheres.iter().zip(&subjects).zip(&times) {
        table.add(&Row {
            what: "a list of 65,536 points",
            inputs: sphere.name,
            engine: *engine,
            beside: "csx's answers for them",
            other: *csx,
            most: Some(TIMES),
        });
        table.agree(subject.agrees(subject));
        table.in_time(*engine < LONGEST);
    }
    table.grow(&Growth {
        what: "a list, per point",
        triangles: spheres.iter().map(Sphere::triangles).collect(),
        times,
    });
}
