//! Welding, building, checking and answering under load.

use super::{Engine, compare, floats, length, numbers};
use crate::engine::lists::List;
use crate::engine::meshes::Welded;
use crate::kinds::lent::{Lent, garbage};
use crate::kinds::lists;
use crate::kinds::lists::expected::POINTS;
use crate::kinds::lists::refusals::Owned;
use crate::kinds::meshes::expected::{CORNERS, FACES, VERTICES};
use crate::kinds::meshes::inputs::pick;
use crate::kinds::meshes::{LentMesh, Line, Mesh, Outcome, welding};
use crate::kinds::trees::{LentTree, STRIDE, Tree, building, built, checking};
use crate::random::Random;

/// Of so many calls one has a list that is longer than any that is accepted, and a
/// fifth have lists of any bits.
const CALLS: u64 = 500;

/// A mesh of any bits. Half of them have whole vertices, and half have ends that fit.
fn mesh_of_bits(random: &mut Random) -> Mesh {
    let mut mesh = Mesh {
        coords: floats(length(random), random),
        corners: numbers(length(random), random),
        ends: numbers(length(random), random),
    };
    if random.flip() {
        mesh.coords.truncate(mesh.coords.len() / 3 * 3);
    }
    if random.flip() {
        let corners = mesh.corners.len() as u32;
        let ends = mesh.ends.iter_mut();
        ends.for_each(|end| *end = (*end).min(corners));
        mesh.ends.sort_unstable();
        if let Some(last) = mesh.ends.last_mut() {
            *last = corners;
        }
    }
    mesh
}

/// More vertices, corners or faces than are accepted.
fn too_many(mesh: &mut Mesh, random: &mut Random) {
    match random.below(3) {
        0 => mesh.coords.resize(3 * (VERTICES + 1), 0.0),
        1 => {
            mesh.corners.resize(CORNERS + 1, 0);
            mesh.ends.push(CORNERS as u32 + 1);
        }
        _ => mesh.ends.resize(FACES + 1, mesh.corners.len() as u32),
    }
}

/// A tree of any bits, of which some have the lengths that a tree has.
fn tree_of_bits(triangles: usize, random: &mut Random) -> Tree {
    let nodes = length(random);
    let mut lengths = [6 * nodes, STRIDE * nodes, triangles];
    if random.flip() {
        lengths[pick(3, random)] = length(random);
    }
    let [boxes, nodes, items] = lengths;
    Tree {
        boxes: floats(boxes, random),
        nodes: numbers(nodes, random),
        items: numbers(items, random),
    }
}

pub fn weld(engine: &Engine, line: &mut Line, random: &mut Random) {
    let (mut list, mut room) = welding::faulty(random);
    match random.below(CALLS) {
        0 => list.resize(9 * welding::TRIANGLES + 1 + pick(9, random), 0.5),
        1..100 => {
            list = floats(9 * length(random) / (1 + pick(9, random)), random);
            room = welding::Room {
                coords: length(random),
                corners: length(random),
                ends: length(random),
                sizes: pick(4, random),
            };
        }
        _ => {}
    }
    let mut triangles = Lent::exact(&list);
    let mut mesh = LentMesh::exact(&Mesh {
        coords: garbage(room.coords, random),
        corners: garbage(room.corners, random),
        ends: garbage(room.ends, random),
    });
    let mut sizes = Lent::exact(&garbage(room.sizes, random));
    let mut buffers = Welded {
        mesh: mesh.lend(),
        sizes: sizes.list(),
    };
    let answer = (engine.weld)(triangles.list(), &mut buffers);
    let want = welding::refusal(&list, room);
    let written = match want {
        None => welding::by_rule(&list),
        Some(_) => Mesh::default(),
    };
    let counts = welding::sizes(&written);
    let counts = if want.is_none() { &counts[..] } else { &[] };
    let wrong = triangles
        .wrong("triangles", &[])
        .or_else(|| mesh.wrong(&written))
        .or_else(|| sizes.wrong("sizes", counts));
    compare(line, Outcome { answer, wrong }, want.unwrap_or(0), || {
        welding::text(&list, room)
    });
}

pub fn build(engine: &Engine, line: &mut Line, random: &mut Random) {
    let (mut mesh, mut room) = building::faulty(random);
    match random.below(CALLS) {
        0 => too_many(&mut mesh, random),
        1..100 => {
            mesh = mesh_of_bits(random);
            room = building::Room::any(mesh.triangle_count(), random.below(4) == 0, random);
        }
        _ => {}
    }
    let mut lent = LentMesh::exact(&mesh);
    let mut tree = LentTree::exact(&Tree {
        boxes: garbage(room.boxes, random),
        nodes: garbage(room.nodes, random),
        items: garbage(room.items, random),
    });
    let answer = (engine.build)(&mut lent.lend(), &mut tree.lend());
    let refused = building::refused(&mesh, room);
    let written = match refused {
        None => built(&mesh),
        Some(_) => Tree::default(),
    };
    let want = refused.unwrap_or(written.node_count() as u64);
    let wrong = lent
        .wrong(&Mesh::default())
        .or_else(|| tree.wrong(&written));
    compare(line, Outcome { answer, wrong }, want, || {
        format!("{}, {room:?}", mesh.text())
    });
}

pub fn check(engine: &Engine, line: &mut Line, random: &mut Random) {
    let (mut mesh, mut tree, mut length) = checking::faulty(random);
    match random.below(CALLS) {
        0 => too_many(&mut mesh, random),
        1..50 => {
            mesh = mesh_of_bits(random);
            tree = tree_of_bits(mesh.triangle_count(), random);
            length = mesh.corners.len() + pick(3, random);
        }
        50..100 => tree = tree_of_bits(mesh.triangle_count(), random),
        _ => {}
    }
    let mut lent = LentMesh::exact(&mesh);
    let mut lent_tree = LentTree::exact(&tree);
    let mut work = Lent::exact(&garbage(length, random));
    let answer = (engine.check)(&mut lent.lend(), &mut lent_tree.lend(), work.list());
    let want = checking::answered(&mesh, &tree, length);
    let wrong = lent
        .wrong(&Mesh::default())
        .or_else(|| lent_tree.wrong(&Tree::default()))
        .or_else(|| work.wrong("work", &checking::work_left(&mesh, want)));
    compare(line, Outcome { answer, wrong }, want, || {
        format!("{}, {}, work of {length}", mesh.text(), tree.text())
    });
}

pub fn contains(engine: &Engine, line: &mut Line, random: &mut Random) {
    let mut lists = lists::refusals::faulty(random);
    spoil(&mut lists, random);
    let call = lists.call();
    let mut mesh = LentMesh::exact(call.mesh);
    let mut tree = LentTree::exact(call.tree);
    let mut work = Lent::exact(&garbage(call.work, random));
    let mut points = Lent::exact(call.points);
    let mut answers = Lent::exact(&garbage(call.answers, random));
    let mut list = List {
        points: points.list(),
        answers: answers.list(),
    };
    let answer = (engine.contains)(&mut mesh.lend(), &mut tree.lend(), work.list(), &mut list);
    let want = call.want();
    let wrong = mesh
        .wrong(&Mesh::default())
        .or_else(|| tree.wrong(&Tree::default()))
        .or_else(|| points.wrong("points", &[]))
        .or_else(|| work.wrong("work", &call.work_left(want)))
        .or_else(|| answers.wrong("answers", &call.answers_left(want)));
    compare(line, Outcome { answer, wrong }, want, || call.text(0));
}

/// Mostly leaves a call as it is. Some lists get any bits, or too many elements.
fn spoil(lists: &mut Owned, random: &mut Random) {
    match random.below(CALLS) {
        0 => too_many(&mut lists.mesh, random),
        1 => {
            lists.answers = POINTS + 1;
            lists.points.resize(3 * lists.answers, 0.5);
        }
        2..30 => {
            lists.mesh = mesh_of_bits(random);
            lists.work = lists.mesh.corners.len() + pick(3, random);
            lists.tree = tree_of_bits(lists.mesh.triangle_count(), random);
        }
        30..60 => lists.tree = tree_of_bits(lists.mesh.triangle_count(), random),
        60..100 => {
            lists.points = floats(length(random), random);
            lists.answers = lists.points.len() / 3;
        }
        _ => {}
    }
}
