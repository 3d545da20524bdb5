//! Welding, building and checking in the sample.

use super::record::{
    BOXES, COORDS, CORNERS, ENDS, ITEMS, Kind, NODES, POINTS, Record, WORK, WRITTEN,
};
use super::{LARGE, collect, each, refusals, refused};
use crate::engine::REFUSAL;
use crate::kinds::meshes::expected::center;
use crate::kinds::meshes::inputs::{Net, Numbers, pick};
use crate::kinds::meshes::{Mesh, buffer_length, welding};
use crate::kinds::trees::damage::DAMAGES;
use crate::kinds::trees::expected::{RULE, build, own_boxes};
use crate::kinds::trees::inputs::LATER;
use crate::kinds::trees::{Tree, building, checking, inputs, others};
use crate::random::Random;

/// How many elements the lists of a record have at most, and those of a large mesh.
const ELEMENTS: usize = 170;
const LARGE_ELEMENTS: usize = 630;

/// The record of a mesh with so many triangles, unwanted if it is too long. A large
/// mesh may take more elements unless something is refused, and is taken for its size
/// alone.
fn of_size(record: Record, triangles: usize) -> Record {
    match triangles {
        LARGE.. if record.returned < REFUSAL => {
            record.unwanted().show("large").at_most(LARGE_ELEMENTS)
        }
        _ => record.at_most(ELEMENTS),
    }
}

pub fn welding(random: &mut Random) -> Result<Vec<Record>, String> {
    let mut wanted = each(&["welded", "apart"], 6);
    wanted.extend(each(
        &[
            "a corner found again",
            "a triangle dropped",
            "a zero of the other sign found",
        ],
        12,
    ));
    wanted.extend(each(
        &["refusal 1", "refusal 5", "refusal 5 with a place"],
        4,
    ));
    wanted.extend(each(&ROOMS.map(|name| format!("{name} too short")), 3));
    wanted.extend(each(&["large", "no triangles"], 2));
    collect(wanted, || weld(random))
}

/// The buffers of welding, and which lists they are.
const ROOMS: [&str; 4] = ["coords", "corners", "ends", "sizes"];
const BUFFERS: [usize; 4] = [COORDS, CORNERS, ENDS, WORK];

fn weld(random: &mut Random) -> Record {
    let (list, mut room) = welding::faulty(random);
    let refusal = welding::refusal(&list, room);
    let mesh = match refusal {
        None => welding::by_csx(&list).expect("finite corners"),
        Some(_) => Mesh::default(),
    };
    let sizes = welding::sizes(&mesh);
    let sizes = if refusal.is_none() { &sizes[..] } else { &[] };
    let rooms = room.lengths_mut().map(|length| *length);
    let mut record = Record::new(Kind::Welding)
        .list(POINTS, &list)
        .returned(refusal.unwrap_or(0))
        .mesh(WRITTEN, &mesh)
        .list(WRITTEN + WORK, sizes);
    for (place, places) in BUFFERS.into_iter().zip(rooms) {
        record = record.room(place, places);
    }
    match refusal {
        None if list.is_empty() => record = record.show("no triangles"),
        None if mesh.coords.len() == list.len() => record = record.show("apart"),
        None => {
            let shown = welding::shown(&list, &mesh);
            record = shown.into_iter().fold(record, Record::show);
        }
        Some(answer) => {
            record = record.show(refused(answer));
            if answer / REFUSAL == 6 {
                record = short(&list, rooms).into_iter().fold(record, Record::show);
            }
        }
    }
    of_size(record, list.len() / 9)
}

/// Which buffer is too short, if it is one alone.
fn short(list: &[f64], rooms: [usize; 4]) -> Option<String> {
    let needed = welding::Room::needed(list.len()).lengths_mut().map(|n| *n);
    let short: Vec<usize> = (0..4).filter(|i| rooms[*i] < needed[*i]).collect();
    match short[..] {
        [one] => Some(format!("{} too short", ROOMS[one])),
        _ => None,
    }
}

pub fn building(random: &mut Random) -> Result<Vec<Record>, String> {
    let sorts = [
        "equal centres at a median",
        "a spread of zero",
        "centres apart at each median",
    ];
    let mut wanted = each(&sorts, 8);
    wanted.extend(each(&["no triangles", "large"], 2));
    wanted.extend(each(
        &["one leaf", "an infinite centre", "zeros of either sign"],
        4,
    ));
    wanted.extend(refusals(6, 3));
    collect(wanted, || built(random))
}

fn built(random: &mut Random) -> Record {
    let (mesh, room) = building::faulty(random);
    let refusal = building::refused(&mesh, room);
    let tree = match refusal {
        None => building::csx_tree(&mesh),
        Some(_) => Tree::default(),
    };
    let record = Record::new(Kind::Building)
        .mesh(0, &mesh)
        .room(BOXES, room.boxes)
        .room(NODES, room.nodes)
        .room(ITEMS, room.items)
        .returned(refusal.unwrap_or(tree.node_count() as u64))
        .tree(WRITTEN, &tree);
    let record = match refusal {
        None => tree_shows(&mesh, &tree)
            .into_iter()
            .fold(record, Record::show),
        Some(answer) => record.show(refused(answer)),
    };
    of_size(record, mesh.triangle_count())
}

/// What the tree of an accepted mesh shows.
fn tree_shows(mesh: &Mesh, tree: &Tree) -> Vec<&'static str> {
    let own = own_boxes(mesh);
    let mut shows = vec![building::sort(&build(&RULE, &own))];
    let mut centres = own.iter().flat_map(|own| center(*own));
    if centres.any(|x| x.is_infinite()) {
        shows.push("an infinite centre");
    }
    let zero = |bits: u64| tree.boxes.iter().any(|x| x.to_bits() == bits);
    if zero(0) && zero(1 << 63) {
        shows.push("zeros of either sign");
    }
    shows
}

pub fn checking(random: &mut Random) -> Result<Vec<Record>, String> {
    let mut wanted = each(&["the builder's tree", "another tree"], 6);
    wanted.extend(each(
        &[
            "more nodes than triangles",
            "items in another order",
            "an infinite box",
        ],
        4,
    ));
    wanted.extend(each(&["no triangles", "large"], 2));
    wanted.extend(each(&["a path of 32 nodes", "a path of 33 nodes"], 1));
    wanted.extend(each(&["a leaf of too many items"], 2));
    wanted.extend(each(&DAMAGES.map(|damage| damage.name), 3));
    wanted.extend(each(&checking::OF_OTHER_MESHES, 2));
    wanted.extend(refusals(6, 2));
    collect(wanted, || checked(random))
}

/// A mesh, a tree and so many work places.
type Check = (Mesh, Tree, usize);

fn checked(random: &mut Random) -> Record {
    match random.below(6) {
        0 => {
            let check = checking::faulty(random);
            check_record(&check, |answer| match answer / REFUSAL {
                1..=6 => Some(refused(answer)),
                _ => None,
            })
        }
        1 => tree_of_the_mesh(random),
        2 => damaged(random),
        3 => of_another_mesh(random),
        4 => path(random),
        _ => leaves(random),
    }
}

/// The record of a check, with what its answer shows.
fn check_record((mesh, tree, work): &Check, shows: impl Fn(u64) -> Option<String>) -> Record {
    let answer = checking::answered(mesh, tree, *work);
    let record = Record::new(Kind::Checking)
        .mesh(0, mesh)
        .tree(0, tree)
        .room(WORK, *work)
        .returned(answer)
        .list(WRITTEN + WORK, &checking::work_left(mesh, answer));
    let record = shows(answer).into_iter().fold(record, Record::show);
    of_size(record, mesh.triangle_count())
}

/// A mesh that mostly has too many triangles for one leaf.
fn mesh(random: &mut Random) -> Mesh {
    loop {
        let mesh = inputs::mesh(random);
        if mesh.triangle_count() > 4 || random.below(16) == 0 {
            return mesh;
        }
    }
}

/// Mostly as many work places as are needed for a mesh.
fn work(mesh: &Mesh, random: &mut Random) -> usize {
    buffer_length(mesh.corners.len(), random)
}

fn tree_of_the_mesh(random: &mut Random) -> Record {
    let mesh = mesh(random);
    let own = own_boxes(&mesh);
    let tree = others::any(&own, random);
    let built = build(&RULE, &own).tree;
    let sort = match &tree {
        _ if own.is_empty() => "no triangles",
        tree if *tree == built => "the builder's tree",
        tree if tree.node_count() > own.len() => "more nodes than triangles",
        tree if tree.boxes.contains(&f64::INFINITY) => "an infinite box",
        tree if !tree.items.is_sorted() && tree.nodes == built.nodes => "items in another order",
        _ => "another tree",
    };
    let work = work(&mesh, random);
    check_record(&(mesh, tree, work), |answer| {
        (answer == 0).then(|| sort.to_string())
    })
}

fn damaged(random: &mut Random) -> Record {
    let mesh = mesh(random);
    let own = own_boxes(&mesh);
    let mut tree = others::any(&own, random);
    let damage = &DAMAGES[pick(DAMAGES.len(), random)];
    if !own.is_empty() {
        (damage.damage)(&mut tree, random);
    }
    let work = work(&mesh, random);
    check_record(&(mesh, tree, work), |answer| {
        (answer == checking::BROKEN).then(|| damage.name.to_string())
    })
}

/// A tree of the mesh before a vertex was moved, or before it was reordered or
/// renumbered.
fn of_another_mesh(random: &mut Random) -> Record {
    let old = mesh(random);
    let tree = others::any(&own_boxes(&old), random);
    let (name, form) = LATER[pick(LATER.len(), random)];
    let mesh = form(&old, random);
    let work = work(&mesh, random);
    check_record(&(mesh, tree, work), |answer| match answer {
        0 => Some(format!("{name} and accepted")),
        checking::BROKEN => Some(format!("{name} and refused")),
        _ => None,
    })
}

/// A tree whose longest path has as many nodes as are accepted, or one more, over one
/// polygon.
fn path(random: &mut Random) -> Record {
    let path = 32 + pick(2, random);
    let vertices = 5;
    let net = Net {
        vertices,
        faces: vec![(0..path as u32 + 2).map(|k| k % vertices).collect()],
    };
    let mesh = net.mesh(Numbers::Everyday, random);
    let tree = others::chain(&own_boxes(&mesh), path, random);
    let work = mesh.corners.len();
    let answer = checking::answered(&mesh, &tree, work);
    let mut record = check_record(&(mesh, tree, work), |_| None);
    if (answer == 0) == (path == 32) {
        record.shows = vec![format!("a path of {path} nodes")];
    }
    record
}

fn leaves(random: &mut Random) -> Record {
    let mesh = mesh(random);
    let tree = others::with_leaves(&own_boxes(&mesh), 6, random);
    let work = work(&mesh, random);
    check_record(&(mesh, tree, work), |answer| {
        (answer == checking::BROKEN).then(|| "a leaf of too many items".to_string())
    })
}
