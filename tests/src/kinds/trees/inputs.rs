//! Meshes to build trees of: with centres that are equal, infinite or zeros of
//! either sign, and with spreads that are equal. And meshes as they are later:
//! with a vertex moved, reordered and renumbered.

use crate::engine::Point;
use crate::kinds::meshes::Mesh;
use crate::kinds::meshes::expected::{FACES, VERTICES};
use crate::kinds::meshes::inputs::{self, Net, Numbers, pick, shuffle};
use crate::random::{Random, moved};

/// How the coordinates along an axis are made.
#[derive(Clone, Copy)]
enum Axis {
    /// All apart.
    Apart,
    /// Whole numbers below this.
    Whole(u64),
    Zeros,
    Of(Numbers),
    /// Up to the largest of the format, so that centres become infinite.
    Largest,
    /// Those of the first axis, or their opposites: the spreads are equal.
    First,
    Opposite,
}

impl Axis {
    fn any(random: &mut Random) -> Self {
        match random.below(10) {
            0..=2 => Self::Apart,
            3 | 4 => Self::Whole(1 + random.below(12)),
            5 => Self::Zeros,
            6 => Self::Of(Numbers::any(random)),
            7 => Self::Largest,
            8 => Self::First,
            _ => Self::Opposite,
        }
    }

    fn number(self, first: f64, random: &mut Random) -> f64 {
        let size = match self {
            Self::Apart => random.fraction(),
            Self::Whole(n) => random.below(n) as f64,
            Self::Zeros => 0.0,
            Self::Of(numbers) => return numbers.point(random)[0],
            Self::Largest => f64::MAX * random.fraction(),
            Self::First => return first,
            Self::Opposite => return -first,
        };
        if random.flip() { -size } else { size }
    }
}

/// A small mesh.
pub fn mesh(random: &mut Random) -> Mesh {
    if random.below(4) == 0 {
        return inputs::mesh(random);
    }
    if random.below(16) == 0 {
        // so few that zeros of unlike sign often meet at a median
        let count = 5 + random.below(4) as u32;
        return points(count, |_| point([Axis::Zeros; 3], random));
    }
    let count = match random.below(4) {
        0 => 1 + random.below(20),
        _ => random.up_to_digits(7),
    };
    if random.below(16) == 0 {
        let (_, order) = ORDERS[pick(ORDERS.len(), random)];
        return line(count as u32, |i| order(i, count as u32));
    }
    let net = net(count as u32, random);
    let axes = match random.below(3) {
        0 => [Axis::Apart; 3],
        _ => [(); 3].map(|()| Axis::any(random)),
    };
    net.mesh_at(|_| point(axes, random))
}

fn point(axes: [Axis; 3], random: &mut Random) -> Point {
    let first = axes[0].number(0.0, random);
    [
        first,
        axes[1].number(first, random),
        axes[2].number(first, random),
    ]
}

/// Faces whose triangles lie apart, are points, or share their vertices.
fn net(count: u32, random: &mut Random) -> Net {
    let mut net = Net::default();
    let pool = 1 + random.below(u64::from(count)) as u32;
    let sort = random.below(4);
    for v in 0..count {
        let face = match sort {
            0 => vec![v; 3],
            1 => (3 * v..3 * v + 3).collect(),
            2 => (6 * v..6 * v + 3 + random.below(4) as u32).collect(),
            _ => (0..3).map(|_| random.below(pool.into()) as u32).collect(),
        };
        net.faces.push(face);
    }
    // some faces once more
    if random.below(4) == 0 {
        for _ in 0..random.below(u64::from(count)) {
            let face = net.faces[pick(net.faces.len(), random)].clone();
            net.faces.push(face);
        }
    }
    let corners = net.faces.iter().flatten();
    net.vertices = corners.max().map_or(0, |v| v + 1);
    net
}

/// A mesh of one point a face: the triangle there has it for its centre.
pub fn points(count: u32, at: impl FnMut(u32) -> Point) -> Mesh {
    let faces = (0..count).map(|v| vec![v; 3]);
    let net = Net {
        vertices: count,
        faces: faces.collect(),
    };
    net.mesh_at(at)
}

/// A mesh of points along the last axis.
pub fn line(count: u32, mut at: impl FnMut(u32) -> f64) -> Mesh {
    points(count, |v| [0.0, 0.0, at(v)])
}

/// The centre of a triangle along a line, given its number and their count.
pub type Order = fn(u32, u32) -> f64;

/// Orders that make a simple selection of the median slow.
pub const ORDERS: [(&str, Order); 11] = [
    ("ascending", |i, _| i.into()),
    ("descending", |i, count| (count - i).into()),
    ("ascending and then descending", |i, count| {
        i.min(count - i).into()
    }),
    ("descending and then ascending", |i, count| {
        i.abs_diff(count / 2).into()
    }),
    ("ascending but for the last", |i, count| {
        ((i + 1) % count).into()
    }),
    ("each 1.02 times the one before", |i, count| {
        1.02f64.powi(i as i32 - count as i32 / 2)
    }),
    ("all equal", |_, _| 1.0),
    ("all infinite", |_, _| f64::MAX),
    ("two values in turn", |i, _| (i % 2).into()),
    ("256 values in turn", |i, _| (i % 256).into()),
    ("the worst for a median of three", worst_of_three),
];

/// Where the median of the first, the middle and the last is always one of the
/// least.
fn worst_of_three(i: u32, count: u32) -> f64 {
    let half = count / 2;
    let value = match i {
        i if i >= half => 2 * (i - half + 1),
        i if i.is_multiple_of(2) => i + 1,
        i => half + i,
    };
    value.into()
}

/// Large meshes: those of all kinds, and two with all centres apart.
pub fn large(random: &mut Random) -> Vec<Mesh> {
    let mut meshes = inputs::large(random);
    meshes.push(points(VERTICES as u32, |_| point([Axis::Apart; 3], random)));
    let corner = |_| random.below(VERTICES as u64) as u32;
    let corners: Vec<u32> = (0..3 * FACES).map(corner).collect();
    let net = Net {
        vertices: VERTICES as u32,
        faces: corners.chunks(3).map(<[_]>::to_vec).collect(),
    };
    meshes.push(net.mesh_at(|_| point([Axis::Apart; 3], random)));
    meshes
}

/// Another form of a mesh.
pub type Form = fn(&Mesh, &mut Random) -> Mesh;

/// The forms of a mesh later than its tree.
pub const LATER: [(&str, Form); 3] = [
    ("revised", revised),
    ("reordered", reordered),
    ("renumbered", renumbered),
];

/// The mesh with a vertex that is a corner moved: by a last bit or a few, to the
/// other zero, or anywhere.
pub fn revised(mesh: &Mesh, random: &mut Random) -> Mesh {
    let mut mesh = mesh.clone();
    if mesh.corners.is_empty() {
        return mesh;
    }
    let vertex = mesh.corners[pick(mesh.corners.len(), random)] as usize;
    let place = 3 * vertex + pick(3, random);
    let x = mesh.coords[place];
    let now = match random.below(6) {
        0 => moved(x, 1),
        1 => moved(x, -1),
        2 => random.near(x, 1 << 20),
        3 => -x,
        4 => mesh.coords[pick(mesh.coords.len(), random)],
        _ => random.finite(),
    };
    if now.is_finite() {
        mesh.coords[place] = now;
    }
    mesh
}

/// The mesh with its faces in another order.
pub fn reordered(mesh: &Mesh, random: &mut Random) -> Mesh {
    let mut faces: Vec<&[u32]> = mesh.faces().collect();
    match random.below(3) {
        0 if faces.len() > 1 => {
            let first = pick(faces.len() - 1, random);
            faces.swap(first, first + 1);
        }
        1 => faces.reverse(),
        _ => shuffle(&mut faces, random),
    }
    mesh.with_faces(faces.into_iter().map(|face| face.iter().copied()))
}

/// The mesh with other numbers of its vertices.
pub fn renumbered(mesh: &Mesh, random: &mut Random) -> Mesh {
    let mut numbers: Vec<u32> = (0..mesh.vertex_count() as u32).collect();
    shuffle(&mut numbers, random);
    let mut now = mesh.clone();
    for (v, number) in numbers.iter().enumerate() {
        let place = 3 * *number as usize;
        now.coords[place..place + 3].copy_from_slice(&mesh.vertex(v as u32));
    }
    for v in &mut now.corners {
        *v = numbers[*v as usize];
    }
    now
}

#[cfg(test)]
mod tests {
    use super::super::expected::{RULE, build, own_boxes};
    use super::*;
    use crate::kinds::meshes::expected::{center, refusal};

    #[test]
    fn meshes_are_accepted() {
        let mut random = Random::new(1);
        for _ in 0..1000 {
            let first = mesh(&mut random);
            assert_eq!(refusal(&first), None);
            assert_eq!(refusal(&revised(&first, &mut random)), None);
            assert_eq!(refusal(&reordered(&first, &mut random)), None);
            assert_eq!(refusal(&renumbered(&first, &mut random)), None);
        }
    }

    #[test]
    fn centres_of_all_sorts_are_common() {
        let mut random = Random::new(1);
        let (mut tied, mut flat, mut infinite, mut decided) = (0, 0, 0, 0);
        for _ in 0..1000 {
            let own = own_boxes(&mesh(&mut random));
            let built = build(&RULE, &own);
            tied += u32::from(built.tied);
            flat += u32::from(built.flat);
            decided += u32::from(!built.tied && own.len() > 4);
            let far = own.iter().flat_map(|own| center(*own));
            infinite += u32::from(far.into_iter().any(|x| x.is_infinite()));
        }
        assert!(tied.min(flat).min(infinite).min(decided) > 50);
    }

    #[test]
    fn a_renumbered_mesh_has_the_same_triangles() {
        let mut random = Random::new(1);
        for _ in 0..100 {
            let first = mesh(&mut random);
            let other = renumbered(&first, &mut random);
            assert_eq!(own_boxes(&first), own_boxes(&other));
            let faces = |mesh: &Mesh| {
                let mut faces: Vec<Vec<u32>> = mesh.faces().map(<[_]>::to_vec).collect();
                faces.sort();
                faces
            };
            assert_eq!(faces(&first), faces(&reordered(&first, &mut random)));
        }
    }
}
