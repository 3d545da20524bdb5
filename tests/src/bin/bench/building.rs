//! Building trees, beside csx.

use std::hint::black_box;

use csx::primitives::bvh::Bvh;
use csx::{BoundingBox, Polyhedron};
use zirwennach_tests::engine::trees;
use zirwennach_tests::kinds::meshes::Mesh;
use zirwennach_tests::kinds::meshes::inputs::Net;
use zirwennach_tests::kinds::trees::inputs::{ORDERS, line};
use zirwennach_tests::kinds::trees::{STRIDE, Tree};
use zirwennach_tests::random::Random;

use crate::spheres::Sphere;
use crate::table::{Growth, Row, Table};
use crate::{best_of_each, best_times};

/// How many rounds are run, of which the best counts.
const ROUNDS: usize = 15;
/// How many times as long as csx building may take.
const TIMES: f64 = 1.9;

/// How many triangles the meshes have that could make a builder slow, and how many
/// rounds they are built.
const SLOW: u32 = 65_536;
const SLOW_ROUNDS: usize = 5;
/// How many times as long as a mesh with random centres they may take.
const SLOWER: f64 = 20.0;

pub fn run(table: &mut Table, spheres: &[Sphere]) {
    println!("Building trees, the best of {ROUNDS} interleaved rounds");
    build(table, spheres);
    println!(
        "Building trees of {SLOW} triangles in orders that could make a selection slow, \
         the best of {SLOW_ROUNDS} interleaved rounds"
    );
    slow_orders(table);
}

/// Lists with room for the tree of so many triangles.
fn room(triangles: usize) -> Tree {
    Tree {
        boxes: vec![0.0; 6 * triangles],
        nodes: vec![0; STRIDE * triangles],
        items: vec![0; triangles],
    }
}

/// A mesh whose tree is built.
struct Subject {
    mesh: Mesh,
    room: Tree,
    nodes: u64,
    boxes: Vec<BoundingBox>,
    csx: Bvh,
}

impl Subject {
    fn new(sphere: &Sphere) -> Self {
        let mesh = sphere.mesh.clone();
        Self {
            room: room(mesh.triangle_count()),
            nodes: 0,
            boxes: own_boxes(&mesh.csx().expect("an accepted mesh")),
            csx: Bvh::default(),
            mesh,
        }
    }

    /// Whether the starts and counts are those of csx.
    fn agrees(&self) -> bool {
        let numbers = self.csx.nodes.iter().flat_map(|n| [n.start, n.count]);
        let built = &self.room.nodes[..STRIDE * self.nodes as usize];
        self.nodes == self.csx.nodes.len() as u64 && built.iter().copied().eq(numbers)
    }
}

/// The box of each triangle.
fn own_boxes(csx: &Polyhedron) -> Vec<BoundingBox> {
    let own = |t: &[u32; 3]| BoundingBox::from_points(t.map(|v| csx.vertices()[v as usize]));
    csx.triangles().iter().map(own).collect()
}

/// Times building beside csx's, which is given the triangles' boxes.
fn build(table: &mut Table, spheres: &[Sphere]) {
    let mut subjects: Vec<Subject> = spheres.iter().map(Subject::new).collect();
    let times = best_of_each(
        ROUNDS,
        &mut subjects,
        |subject| {
            let room = black_box(&mut subject.room);
            subject.nodes = trees::build(&mut subject.mesh.lend(), &mut room.lend());
        },
        |subject| subject.csx = Bvh::build(black_box(&subject.boxes)),
    );
    for ((sphere, subject), [engine, csx]) in spheres.iter().zip(&subjects).zip(&times) {
        table.add(&Row {
            what: "building a tree",
            inputs: sphere.name,
            engine: *engine,
            beside: "csx's `Bvh::build`",
            other: *csx,
            most: Some(TIMES),
        });
        table.agree(subject.agrees());
    }
    table.grow(&Growth {
        what: "building a tree",
        triangles: spheres.iter().map(Sphere::triangles).collect(),
        times,
    });
}

/// Times building of meshes whose centres stand in such an order, beside one with
/// random centres.
fn slow_orders(table: &mut Table) {
    let mut random = Random::new(754);
    let mut random_mesh = line(SLOW, |_| random.fraction());
    let mut meshes: Vec<(&str, Mesh)> = Vec::new();
    meshes.extend(ORDERS.map(|(name, order)| (name, line(SLOW, |i| order(i, SLOW)))));
    meshes.push((
        "random, faces of 3 and of 5 corners in turn",
        unlike_faces(&mut random),
    ));
    for (name, mesh) in &mut meshes {
        slow_order(table, name, mesh, &mut random_mesh);
    }
}

/// A mesh of as many triangles whose faces have unlike numbers of corners, so that
/// the face of a triangle has to be searched for.
fn unlike_faces(random: &mut Random) -> Mesh {
    let vertices = SLOW / 2;
    let face = |v: u32| vec![v; if v.is_multiple_of(2) { 3 } else { 5 }];
    let net = Net {
        vertices,
        faces: (0..vertices).map(face).collect(),
    };
    net.mesh_at(|_| [0.0, 0.0, random.fraction()])
}

fn slow_order(table: &mut Table, name: &str, mesh: &mut Mesh, random: &mut Mesh) {
    let [mut slow_room, mut random_room] = [room(SLOW as usize), room(SLOW as usize)];
    let build = |mesh: &mut Mesh, room: &mut Tree| {
        black_box(trees::build(&mut mesh.lend(), &mut room.lend()));
    };
    let [engine, other] = best_times(
        SLOW_ROUNDS,
        [&mut || build(mesh, &mut slow_room), &mut || {
            build(random, &mut random_room)
        }],
    );
    table.add(&Row {
        what: "building a tree of 65,536 triangles",
        inputs: name,
        engine,
        beside: "the engine, random centres",
        other,
        most: Some(SLOWER),
    });
}
