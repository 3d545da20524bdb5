//! Welding triangles into a mesh, against plain Rust and csx, with every byte of
//! the lent lists.

use csx::{Polyhedron, Vec3};

use super::expected::{self, code};
use super::inputs::{Numbers, closed, on_torus, pick, some_of, torus};
use super::{Asker, Lent, LentMesh, Line, Mesh, Outcome, ROOM, cut};
use crate::engine::meshes::Welded;
use crate::engine::{Point, REFUSAL};
use crate::plan::Plan;
use crate::random::{NOT_FINITE, Random};
use crate::report::Report;

/// The function under test, as `engine::meshes::from_triangles` is.
pub type Weld = fn(&mut [f64], &mut Welded) -> u64;

/// The most triangles that are accepted.
pub(in crate::kinds) const TRIANGLES: usize = 21_845;

/// How long the lent buffers are.
#[derive(Clone, Copy, Debug)]
pub(in crate::kinds) struct Room {
    pub coords: usize,
    pub corners: usize,
    pub ends: usize,
    pub sizes: usize,
}

impl Room {
    /// As long as needed for a list of so many numbers.
    pub fn needed(numbers: usize) -> Self {
        Self {
            coords: numbers / 9 * 9,
            corners: numbers / 9 * 3,
            ends: numbers / 9,
            sizes: 2,
        }
    }

    pub fn lengths_mut(&mut self) -> [&mut usize; 4] {
        [
            &mut self.coords,
            &mut self.corners,
            &mut self.ends,
            &mut self.sizes,
        ]
    }

    /// Makes some buffers longer.
    fn widen(&mut self, random: &mut Random) {
        for length in self.lengths_mut() {
            if random.flip() {
                *length += random.below(9) as usize;
            }
        }
    }
}

/// The refusal by questions 1, 5 and 6, if there is one.
pub(in crate::kinds) fn refusal(triangles: &[f64], room: Room) -> Option<u64> {
    if !triangles.len().is_multiple_of(9) || triangles.len() / 9 > TRIANGLES {
        return Some(code(1, 0));
    }
    let mut corners = triangles.chunks(3);
    if let Some(place) = corners.position(|p| !p.iter().all(|x| x.is_finite())) {
        return Some(code(5, place));
    }
    let needed = Room::needed(triangles.len());
    let enough = room.coords >= needed.coords
        && room.corners >= needed.corners
        && room.ends >= needed.ends
        && room.sizes >= needed.sizes;
    (!enough).then_some(ROOM)
}

/// The welded mesh: equal corners are one vertex, and a triangle two of whose
/// corners are one is dropped.
pub(in crate::kinds) fn by_rule(triangles: &[f64]) -> Mesh {
    let mut vertices: Vec<Point> = Vec::new();
    let mut mesh = Mesh::default();
    for triangle in triangles.as_chunks::<9>().0 {
        let [a, b, c] = [0, 3, 6].map(|i| {
            let corner = [triangle[i], triangle[i + 1], triangle[i + 2]];
            let found = vertices.iter().position(|v| *v == corner);
            found.unwrap_or_else(|| {
                vertices.push(corner);
                vertices.len() - 1
            }) as u32
        });
        if a != b && b != c && a != c {
            mesh.push_face([a, b, c]);
        }
    }
    mesh.coords = vertices.concat();
    mesh
}

/// The triangles as csx takes them.
pub fn csx_triangles(triangles: &[f64]) -> Vec<[Vec3; 3]> {
    let points = triangles.as_chunks().0.iter().copied().map(Vec3);
    points.collect::<Vec<Vec3>>().as_chunks().0.to_vec()
}

/// The mesh that csx makes, if the corners are finite.
pub(in crate::kinds) fn by_csx(triangles: &[f64]) -> Option<Mesh> {
    let csx = Polyhedron::from_triangles(&csx_triangles(triangles)).ok()?;
    let mut mesh = Mesh::default();
    mesh.coords.extend(csx.vertices().iter().flat_map(|v| v.0));
    for face in csx.faces() {
        mesh.push_face(face.iter().copied());
    }
    Some(mesh)
}

/// The lists as a call left them, and its answer.
struct Left {
    triangles: Lent<f64>,
    mesh: LentMesh,
    sizes: Lent<u64>,
    answer: u64,
}

impl Left {
    /// What the call came to if this mesh was to be written, or nothing.
    fn outcome(&self, written: Option<&Mesh>) -> Outcome {
        let nothing = Mesh::default();
        let sizes = written.map(sizes);
        let sizes = sizes.as_ref().map_or(&[][..], |sizes| sizes);
        Outcome {
            answer: self.answer,
            wrong: None
                .or_else(|| self.triangles.wrong("triangles", &[]))
                .or_else(|| self.mesh.wrong(written.unwrap_or(&nothing)))
                .or_else(|| self.sizes.wrong("sizes", sizes)),
        }
    }
}

/// The numbers of vertices and of faces.
pub(in crate::kinds) fn sizes(mesh: &Mesh) -> [u64; 2] {
    [mesh.vertex_count() as u64, mesh.ends.len() as u64]
}

/// Welds a list into buffers of these lengths.
fn ask(asker: &mut Asker<Weld>, triangles: &[f64], room: Room) {
    let left = weld(asker, triangles, room);
    let refusal = refusal(triangles, room);
    let want = refusal.unwrap_or(0);
    let written = refusal.is_none().then(|| by_rule(triangles));
    asker
        .rule
        .compare(left.outcome(written.as_ref()), want, || {
            text(triangles, room)
        });
    if let Some(mesh) = written {
        see(&mut asker.rule, triangles, &mesh);
    }
    compare_csx(asker, triangles, room, &left);
}

/// The same for a long list, with csx alone, which does not search.
fn ask_long(asker: &mut Asker<Weld>, triangles: &[f64], room: Room) {
    let left = weld(asker, triangles, room);
    if let Some(want) = refusal(triangles, room) {
        let outcome = left.outcome(None);
        asker.rule.compare(outcome, want, || text(triangles, room));
    }
    compare_csx(asker, triangles, room, &left);
}

fn weld(asker: &mut Asker<Weld>, triangles: &[f64], room: Room) -> Left {
    let random = &mut asker.random;
    let mut left = Left {
        triangles: Lent::new(triangles),
        mesh: LentMesh {
            coords: Lent::garbage(room.coords, random),
            corners: Lent::garbage(room.corners, random),
            ends: Lent::garbage(room.ends, random),
        },
        sizes: Lent::garbage(room.sizes, random),
        answer: 0,
    };
    let mut buffers = Welded {
        mesh: left.mesh.lend(),
        sizes: left.sizes.list(),
    };
    left.answer = (asker.function)(left.triangles.list(), &mut buffers);
    left
}

/// csx refuses numbers that are not finite, and nothing else. It says which
/// corner that is by its coordinates alone.
fn compare_csx(asker: &mut Asker<Weld>, triangles: &[f64], room: Room, left: &Left) {
    if !matches!(refusal(triangles, room), None | Some(5_000_000..6_000_000)) {
        return;
    }
    let csx = by_csx(triangles);
    let want = if csx.is_some() { 0 } else { code(5, 0) };
    let mut outcome = left.outcome(csx.as_ref());
    if outcome.answer / REFUSAL == 5 {
        outcome.answer = code(5, 0);
    }
    asker
        .csx
        .compare_csx(outcome, want, || text(triangles, room));
    if let Some(mesh) = csx {
        see(&mut asker.csx, triangles, &mesh);
    }
}

/// What a line has to see.
const NEEDED: [&str; 7] = [
    "welded",
    "a corner found again",
    "a zero of the other sign found",
    "a triangle dropped",
    "refusal 5",
    "refusal 1",
    "refusal 6",
];

/// Counts what an accepted list has.
fn see(line: &mut Line, triangles: &[f64], mesh: &Mesh) {
    for what in shown(triangles, mesh) {
        line.see(what);
    }
}

/// What an accepted list has.
pub(in crate::kinds) fn shown(triangles: &[f64], mesh: &Mesh) -> Vec<&'static str> {
    let mut shown = vec!["welded"];
    if mesh.coords.len() < triangles.len() {
        shown.push("a corner found again");
    }
    if mesh.ends.len() < triangles.len() / 9 {
        shown.push("a triangle dropped");
    }
    let other_zero = |p: &Point| {
        let same = |v: &Point| v.map(f64::to_bits) == p.map(f64::to_bits);
        p.contains(&0.0) && !mesh.coords.as_chunks().0.iter().any(same)
    };
    // The search is slow, and a short list is enough.
    if triangles.len() < 1000 && triangles.as_chunks().0.iter().any(other_zero) {
        shown.push("a zero of the other sign found");
    }
    shown
}

pub(in crate::kinds) fn text(triangles: &[f64], room: Room) -> String {
    format!("triangles {}, {room:?}", cut(triangles))
}

/// Compares short lists, without a fault and with each and each set of them, and
/// each number of a list in turn not finite.
pub fn compare(report: &mut Report, plan: &Plan, weld: Weld) {
    let mut asker = Asker::new(weld, plan, "welding", "csx");
    for _ in 0..plan.times(400_000) {
        let (list, room) = faulty(&mut asker.random);
        ask(&mut asker, &list, room);
    }
    for count in 1..4 {
        let list: Vec<f64> = (0..9 * count).map(f64::from).collect();
        for place in 0..list.len() {
            for x in NOT_FINITE {
                let mut list = list.clone();
                list[place] = x;
                ask(&mut asker, &list, Room::needed(list.len()));
            }
        }
    }
    let needed_of_csx = [&NEEDED[..4], &["refused by csx, 5"]].concat();
    asker.add_to(report, &NEEDED, &needed_of_csx);
}

/// A short list and room for its mesh, without a fault or with any.
pub(in crate::kinds) fn faulty(random: &mut Random) -> (Vec<f64>, Room) {
    let mut list = triangles(random);
    let questions = some_of(&[5, 1, 6], random);
    let mut short = false;
    for question in questions {
        match question {
            1 => list.resize(list.len() / 9 * 9 + 1 + pick(8, random), 0.0),
            5 => spoil(&mut list, random),
            _ => short = true,
        }
    }
    let mut room = Room::needed(list.len());
    room.widen(random);
    if short {
        shorten(&mut room, list.len(), random);
    }
    (list, room)
}

/// One number of the list not finite.
fn spoil(list: &mut [f64], random: &mut Random) {
    if !list.is_empty() {
        list[pick(list.len(), random)] = NOT_FINITE[pick(NOT_FINITE.len(), random)];
    }
}

/// One buffer, or each, shorter than needed, if it can be.
fn shorten(room: &mut Room, numbers: usize, random: &mut Random) {
    let one = pick(5, random);
    let mut needed = Room::needed(numbers);
    let lengths = room.lengths_mut().into_iter().zip(needed.lengths_mut());
    for (i, (length, needed)) in lengths.enumerate() {
        if i == one || one == 4 {
            let less = 1 + random.below(2) as usize;
            *length = needed.saturating_sub(less);
        }
    }
}

/// A short list of triangles: over few points, so that many are degenerate or
/// listed twice; those of a closed surface; or with all corners apart. Each zero
/// has either sign.
fn triangles(random: &mut Random) -> Vec<f64> {
    let numbers = Numbers::any(random);
    let count = random.below(20) as usize;
    let mut list = match random.below(4) {
        0 => (0..9 * count).map(|_| numbers.point(random)[0]).collect(),
        1 => surface(&closed(random).mesh(numbers, random)),
        _ => {
            let pool = pool(numbers, random);
            let corners = (0..3 * count).flat_map(|_| pool[pick(pool.len(), random)]);
            corners.collect()
        }
    };
    for x in &mut list {
        if *x == 0.0 && random.flip() {
            *x = -*x;
        }
    }
    list
}

/// A few points, some of them one step of one coordinate apart.
fn pool(numbers: Numbers, random: &mut Random) -> Vec<Point> {
    let mut pool = vec![numbers.point(random)];
    for _ in 0..random.below(12) {
        let mut point = numbers.point(random);
        if random.flip() {
            point = pool[pick(pool.len(), random)];
            let axis = pick(3, random);
            let near = random.near(point[axis], 1);
            if near.is_finite() {
                point[axis] = near;
            }
        }
        pool.push(point);
    }
    pool
}

/// The corners of the triangles of a mesh.
fn surface(mesh: &Mesh) -> Vec<f64> {
    let corners = expected::triangles(mesh).into_iter().flatten();
    corners.flat_map(|v| mesh.vertex(v)).collect()
}

/// A closed surface of a few triangles less than are accepted.
pub fn torus_triangles() -> Vec<f64> {
    let (a, b) = (104, 105);
    surface(&torus(a, b, true).mesh_at(|v| on_torus(a, b, v)))
}

/// As many triangles as are accepted, all corners apart.
pub fn apart_triangles(random: &mut Random) -> Vec<f64> {
    (0..9 * TRIANGLES).map(|_| random.fraction()).collect()
}

/// Compares lists as long as are accepted, and longer ones.
pub fn limits(report: &mut Report, plan: &Plan, weld: Weld) {
    let mut asker = Asker::new(weld, plan, "welding, limits", "csx");
    let most = 9 * TRIANGLES;
    let room = Room::needed(most);
    let apart = apart_triangles(&mut asker.random);
    for _ in 0..plan.rounds(1) {
        ask_long(&mut asker, &apart, room);
        ask_long(&mut asker, &torus_triangles(), room);
        let mut pool: Vec<Point> = Vec::new();
        pool.resize_with(100, || Numbers::Few.point(&mut asker.random));
        let corner = |_| pool[pick(pool.len(), &mut asker.random)];
        let few: Vec<f64> = (0..3 * TRIANGLES).flat_map(corner).collect();
        ask_long(&mut asker, &few, room);
    }
    let mut widest = Room::needed(most + 18);
    for length in widest.lengths_mut() {
        *length += 9;
    }
    // too long, and no whole number of triangles
    for more in [1, 8, 9, 10, 18] {
        let mut list = apart.clone();
        list.resize(most + more, 0.5);
        ask_long(&mut asker, &list, widest);
        ask_long(&mut asker, &list, Room::needed(0));
        list[0] = f64::NAN;
        ask_long(&mut asker, &list, widest);
    }
    ask_long(&mut asker, &apart[..most - 1], widest);
    // the last number not finite, also with no room at all
    let mut list = apart.clone();
    list[most - 1] = f64::INFINITY;
    ask_long(&mut asker, &list, widest);
    ask_long(&mut asker, &list, Room::needed(0));
    // each buffer one short
    for i in 0..4 {
        let mut room = room;
        *room.lengths_mut()[i] -= 1;
        ask_long(&mut asker, &apart, room);
    }
    asker.add_to(report, &NEEDED[4..], &["welded", "a triangle dropped"]);
}

#[cfg(test)]
mod tests {
    use super::*;
    use crate::kinds::tests;

    fn room_of(welded: &Welded) -> Room {
        Room {
            coords: welded.mesh.coords.len(),
            corners: welded.mesh.corners.len(),
            ends: welded.mesh.ends.len(),
            sizes: welded.sizes.len(),
        }
    }

    fn write(mesh: &Mesh, welded: &mut Welded) -> u64 {
        let Mesh {
            coords,
            corners,
            ends,
        } = mesh;
        welded.mesh.coords[..coords.len()].copy_from_slice(coords);
        welded.mesh.corners[..corners.len()].copy_from_slice(corners);
        welded.mesh.ends[..ends.len()].copy_from_slice(ends);
        welded.sizes[0] = mesh.vertex_count() as u64;
        welded.sizes[1] = ends.len() as u64;
        0
    }

    /// An engine that welds so.
    fn by(triangles: &[f64], welded: &mut Welded, mesh: fn(&[f64]) -> Mesh) -> u64 {
        match refusal(triangles, room_of(welded)) {
            Some(refusal) => refusal,
            None => write(&mesh(triangles), welded),
        }
    }

    fn right(triangles: &mut [f64], welded: &mut Welded) -> u64 {
        by(triangles, welded, by_rule)
    }

    fn fails(weld: Weld) -> bool {
        tests::fails(|report, plan| compare(report, plan, weld))
    }

    /// The welded mesh of equal vertices and of faces as these say.
    fn rule(
        triangles: &[f64],
        same: fn(&Point, &Point) -> bool,
        kept: fn([u32; 3]) -> bool,
    ) -> Mesh {
        let mut vertices: Vec<Point> = Vec::new();
        let mut mesh = Mesh::default();
        for triangle in triangles.as_chunks::<9>().0 {
            let mut face = [0; 3];
            for (number, corner) in face.iter_mut().zip(triangle.as_chunks().0) {
                let found = vertices.iter().position(|v| same(v, corner));
                *number = found.unwrap_or(vertices.len()) as u32;
                if found.is_none() {
                    vertices.push(*corner);
                }
            }
            if kept(face) {
                mesh.push_face(face);
            }
        }
        mesh.coords = vertices.concat();
        mesh
    }

    fn distinct([a, b, c]: [u32; 3]) -> bool {
        a != b && b != c && a != c
    }

    #[test]
    fn the_right_welding_passes() {
        assert!(!fails(right));
        assert!(!fails(|triangles, welded| {
            by(triangles, welded, |list| rule(list, Point::eq, distinct))
        }));
    }

    #[test]
    fn wrong_vertices_are_caught() {
        // zeros of unlike sign apart
        assert!(fails(|triangles, welded| by(triangles, welded, |list| {
            let same = |a: &Point, b: &Point| a.map(f64::to_bits) == b.map(f64::to_bits);
            rule(list, same, distinct)
        })));
        // neighbours together
        assert!(fails(|triangles, welded| by(triangles, welded, |list| {
            let near = |a: &Point, b: &Point| {
                let close = |i: usize| a[i] == b[i] || (a[i] - b[i]).abs() <= 1e-15 * a[i].abs();
                (0..3).all(close)
            };
            rule(list, near, distinct)
        })));
        // the sign of a zero lost
        assert!(fails(|triangles, welded| by(triangles, welded, |list| {
            let mut mesh = by_rule(list);
            mesh.coords.iter_mut().for_each(|x| *x += 0.0);
            mesh
        })));
        // a zero of the last sign seen
        assert!(fails(|triangles, welded| by(triangles, welded, |list| {
            let mut mesh = by_rule(list);
            for corner in list.as_chunks::<3>().0 {
                let vertices = mesh.coords.as_chunks_mut::<3>().0;
                if let Some(v) = vertices.iter_mut().find(|v| **v == *corner) {
                    *v = *corner;
                }
            }
            mesh
        })));
        // no vertices of dropped triangles
        assert!(fails(|triangles, welded| by(triangles, welded, |list| {
            let kept = |t: &[f64; 9]| t[..3] != t[3..6] && t[3..6] != t[6..] && t[..3] != t[6..];
            let kept = list.as_chunks().0.iter().filter(|t| kept(t));
            by_rule(&kept.copied().collect::<Vec<[f64; 9]>>().concat())
        })));
    }

    #[test]
    fn wrong_faces_are_caught() {
        // degenerate ones kept
        assert!(fails(|triangles, welded| by(triangles, welded, |list| {
            rule(list, Point::eq, |_| true)
        })));
        // the first and the last corner not compared
        assert!(fails(|triangles, welded| by(triangles, welded, |list| {
            rule(list, Point::eq, |[a, b, c]| a != b && b != c)
        })));
        // a triangle that is listed twice dropped
        assert!(fails(|triangles, welded| by(triangles, welded, |list| {
            let mut mesh = by_rule(list);
            let faces = mesh.corners.as_chunks::<3>().0.to_vec();
            (mesh.corners, mesh.ends) = Default::default();
            for (i, face) in faces.iter().enumerate() {
                if !faces[..i].contains(face) {
                    mesh.push_face(*face);
                }
            }
            mesh
        })));
        // ends that count faces
        assert!(fails(|triangles, welded| by(triangles, welded, |list| {
            let mut mesh = by_rule(list);
            mesh.ends = (1..).take(mesh.ends.len()).collect();
            mesh
        })));
    }

    #[test]
    fn wrong_questions_are_caught() {
        // room before finite numbers
        assert!(fails(|triangles, welded| {
            let mut finite = triangles.to_vec();
            finite.iter_mut().for_each(|x| *x = 0.0);
            match refusal(&finite, room_of(welded)) {
                Some(refusal) => refusal,
                None => right(triangles, welded),
            }
        }));
        // the triangle's place for the corner's
        assert!(fails(|triangles, welded| {
            let answer = right(triangles, welded);
            match answer / REFUSAL {
                5 => code(5, (answer % REFUSAL / 3) as usize),
                _ => answer,
            }
        }));
        // finite numbers before whole triangles
        assert!(fails(|triangles, welded| {
            let whole = triangles.len() / 9 * 9;
            match refusal(&triangles[..whole], room_of(welded)) {
                Some(refusal) => refusal,
                None => right(triangles, welded),
            }
        }));
        // room for what is written
        assert!(fails(|triangles, welded| {
            let room = room_of(welded);
            if refusal(triangles, room) == Some(ROOM) && room.sizes >= 2 {
                let mesh = by_rule(triangles);
                if mesh.coords.len() <= room.coords
                    && mesh.corners.len() <= room.corners
                    && mesh.ends.len() <= room.ends
                {
                    return write(&mesh, welded);
                }
            }
            right(triangles, welded)
        }));
    }

    #[test]
    fn wrong_buffers_are_caught() {
        // written beyond the mesh
        assert!(fails(|triangles, welded| {
            let answer = right(triangles, welded);
            if answer == 0 {
                let written = 3 * welded.sizes[0] as usize;
                welded.mesh.coords[written..].fill(0.0);
            }
            answer
        }));
        // corners of a dropped triangle
        assert!(fails(|triangles, welded| {
            let answer = right(triangles, welded);
            if answer == 0 {
                let written = 3 * welded.sizes[1] as usize;
                if let Some(next) = welded.mesh.corners.get_mut(written) {
                    *next = 0;
                }
            }
            answer
        }));
        // a refusal that clears
        assert!(fails(|triangles, welded| {
            let answer = right(triangles, welded);
            if answer != 0 {
                welded.mesh.ends.fill(0);
            }
            answer
        }));
        // sizes exchanged
        assert!(fails(|triangles, welded| {
            let answer = right(triangles, welded);
            if answer == 0 {
                welded.sizes.swap(0, 1);
            }
            answer
        }));
        // the list itself
        assert!(fails(|triangles, welded| {
            triangles.iter_mut().for_each(|x| *x += 0.0);
            right(triangles, welded)
        }));
    }

    #[test]
    fn wrong_limits_are_caught() {
        fn by_limit(triangles: &[f64], welded: &mut Welded, most: usize) -> u64 {
            if !triangles.len().is_multiple_of(9) || triangles.len() / 9 > most {
                return code(1, 0);
            }
            let asked = &triangles[..triangles.len().min(9 * TRIANGLES)];
            match (refusal(asked, room_of(welded)), by_csx(triangles)) {
                (None, Some(mesh)) => write(&mesh, welded),
                (refusal, _) => refusal.unwrap_or(code(5, 0)),
            }
        }
        let fails = |weld: Weld| tests::fails(|report, plan| limits(report, plan, weld));
        assert!(!fails(|list, welded| by_limit(list, welded, TRIANGLES)));
        assert!(fails(|list, welded| by_limit(list, welded, TRIANGLES - 1)));
        assert!(fails(|list, welded| by_limit(list, welded, TRIANGLES + 1)));
    }
}
