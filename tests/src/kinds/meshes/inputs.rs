//! Random meshes that are accepted, small and large.

use std::array::from_fn;
use std::f64::consts::TAU;

use super::Mesh;
use super::expected::{CORNERS, FACES, VERTICES};
use crate::engine::Point;
use crate::random::Random;

/// How the coordinates of a mesh are made.
#[derive(Clone, Copy)]
pub enum Numbers {
    /// So few that vertices fall together. Zeros have either sign.
    Few,
    Everyday,
    Subnormal,
    /// So large that sums and squares overflow.
    Huge,
    /// Any that are finite.
    Finite,
}

impl Numbers {
    pub fn any(random: &mut Random) -> Self {
        match random.below(6) {
            0 | 1 => Self::Few,
            2 => Self::Everyday,
            3 => Self::Subnormal,
            4 => Self::Huge,
            _ => Self::Finite,
        }
    }

    pub fn number(self, random: &mut Random) -> f64 {
        let size = match self {
            Self::Few => random.below(3) as f64,
            Self::Everyday => return random.everyday(),
            Self::Subnormal => return random.subnormal(),
            Self::Huge => 1e308 * (0.5 + random.fraction()),
            Self::Finite => return random.finite(),
        };
        if random.flip() { -size } else { size }
    }

    pub fn point(self, random: &mut Random) -> Point {
        from_fn(|_| self.number(random))
    }
}

/// The faces of a mesh, over so many vertices.
#[derive(Clone, Default)]
pub struct Net {
    pub vertices: u32,
    pub faces: Vec<Vec<u32>>,
}

impl Net {
    /// The mesh with these faces, and with its vertices at these points.
    pub fn mesh_at(&self, point: impl FnMut(u32) -> Point) -> Mesh {
        let mut mesh = Mesh {
            coords: (0..self.vertices).flat_map(point).collect(),
            ..Mesh::default()
        };
        for face in &self.faces {
            mesh.push_face(face.iter().copied());
        }
        mesh
    }

    /// The same with its vertices anywhere.
    pub fn mesh(&self, numbers: Numbers, random: &mut Random) -> Mesh {
        self.mesh_at(|_| numbers.point(random))
    }

    /// Numbers the vertices and orders the faces in another way.
    pub fn mix(&mut self, random: &mut Random) {
        let mut numbers: Vec<u32> = (0..self.vertices).collect();
        shuffle(&mut numbers, random);
        for v in self.faces.iter_mut().flatten() {
            *v = numbers[*v as usize];
        }
        shuffle(&mut self.faces, random);
    }

    /// Adds a net beside this one.
    pub fn add(&mut self, other: Net) {
        let first = self.vertices;
        self.vertices += other.vertices;
        let faces = other.faces.into_iter();
        self.faces
            .extend(faces.map(|face| face.into_iter().map(|v| first + v).collect()));
    }
}

/// A small mesh of any sort.
pub fn mesh(random: &mut Random) -> Mesh {
    let net = net(random);
    let numbers = Numbers::any(random);
    net.mesh(numbers, random)
}

/// The faces of a small mesh of any sort.
pub fn net(random: &mut Random) -> Net {
    let mut net = match random.below(8) {
        0 => Net::default(),
        1..=3 => soup(random),
        _ => {
            let mut net = closed(random);
            if random.below(4) == 0 {
                net.add(closed(random));
            }
            for _ in 0..random.below(3) {
                change(&mut net, random);
            }
            net
        }
    };
    if random.below(4) == 0 {
        net.vertices += random.below(4) as u32;
    }
    if random.flip() {
        net.mix(random);
    }
    net
}

/// Faces of random corners, which may be equal: all of as many corners, or of
/// any number, some of many.
fn soup(random: &mut Random) -> Net {
    let vertices = random.up_to_digits(5);
    let sides = 3 + random.below(4);
    let equal = random.flip();
    let count = random.up_to_digits(5);
    let face = |_| {
        let sides = match random.below(8) {
            _ if equal => sides,
            0 => random.up_to_digits(6).max(3),
            _ => 3 + random.below(3),
        };
        (0..sides).map(|_| random.below(vertices) as u32).collect()
    };
    Net {
        faces: (0..count).map(face).collect(),
        vertices: vertices as u32,
    }
}

/// A net in which each edge is used twice, unless the torus is narrow.
pub fn closed(random: &mut Random) -> Net {
    let n = 3 + random.below(10) as u32;
    match random.below(6) {
        0 => prism(n),
        1 => pyramid(n),
        2 => pillow(3 * n),
        3 => pyramid(3),
        4 => prism(4),
        _ => {
            let (a, b) = (1 + random.below(6), 1 + random.below(6));
            torus(a as u32, b as u32, random.flip())
        }
    }
}

/// Two polygons of n corners and the quads between them.
pub fn prism(n: u32) -> Net {
    let side = |i: u32| vec![i, (i + 1) % n, n + (i + 1) % n, n + i];
    let mut faces = vec![(0..n).rev().collect(), (n..2 * n).collect()];
    faces.extend((0..n).map(side));
    Net {
        vertices: 2 * n,
        faces,
    }
}

/// A polygon of n corners and the triangles to one more vertex.
pub fn pyramid(n: u32) -> Net {
    let mut faces = vec![(0..n).rev().collect()];
    faces.extend((0..n).map(|i| vec![i, (i + 1) % n, n]));
    Net {
        vertices: n + 1,
        faces,
    }
}

/// A polygon of n corners, twice.
pub fn pillow(n: u32) -> Net {
    Net {
        vertices: n,
        faces: vec![(0..n).collect(), (0..n).rev().collect()],
    }
}

/// A torus of a by b quads, or of twice as many triangles.
pub fn torus(a: u32, b: u32, split: bool) -> Net {
    let at = |i: u32, j: u32| i % a * b + j % b;
    let mut faces = Vec::new();
    for i in 0..a {
        for j in 0..b {
            let [p, q, r, s] = [at(i, j), at(i + 1, j), at(i + 1, j + 1), at(i, j + 1)];
            if split {
                faces.extend([vec![p, q, r], vec![p, r, s]]);
            } else {
                faces.push(vec![p, q, r, s]);
            }
        }
    }
    Net {
        vertices: a * b,
        faces,
    }
}

/// Where vertex v of a torus of a by b quads lies.
pub fn on_torus(a: u32, b: u32, v: u32) -> Point {
    let turn = |k: u32, n: u32| (f64::from(k) / f64::from(n) * TAU).sin_cos();
    let ((s, c), (t, d)) = (turn(v / b, a), turn(v % b, b));
    [(3.0 + d) * c, (3.0 + d) * s, t]
}

/// Changes a net of one face at least, which may leave it closed or not.
pub fn change(net: &mut Net, random: &mut Random) {
    if net.faces.is_empty() {
        return;
    }
    let f = pick(net.faces.len(), random);
    let k = pick(net.faces[f].len(), random);
    let v = net.faces[f][k];
    match random.below(8) {
        0 => {
            net.faces.remove(f);
        }
        1 => {
            let face = net.faces[f].clone();
            net.faces.push(face);
        }
        2 => {
            let all = net.faces.clone();
            net.faces.extend(all);
        }
        3 => net.faces[f][k] = random.below(net.vertices.into()) as u32,
        // an edge from a vertex to itself
        4 => net.faces[f].insert(k, v),
        // the same in every face that has this vertex
        5 => {
            for face in &mut net.faces {
                if let Some(k) = face.iter().position(|w| *w == v) {
                    face.insert(k, v);
                }
            }
        }
        6 => net.faces[f].reverse(),
        _ => net.faces[f].rotate_left(k),
    }
}

/// A place of a list that is not empty.
pub fn pick(length: usize, random: &mut Random) -> usize {
    random.below(length as u64) as usize
}

/// Some of the questions, in their order: none, one, two or any.
pub fn some_of(questions: &[u64], random: &mut Random) -> Vec<u64> {
    let mut some = questions.to_vec();
    match random.below(4) {
        3 => some.retain(|_| random.flip()),
        count => {
            while some.len() as u64 > count {
                some.remove(pick(some.len(), random));
            }
        }
    }
    some
}

pub fn shuffle<T>(list: &mut [T], random: &mut Random) {
    for i in 1..list.len() {
        list.swap(i, pick(i + 1, random));
    }
}

/// Large meshes: at the limits, of faces with equally many corners and of
/// others, closed and open.
pub fn large(random: &mut Random) -> Vec<Mesh> {
    let mut nets = vec![
        // the most vertices, faces and corners at once, closed
        torus(256, 256, false),
        torus(128, 256, true),
        torus(208, 312, false),
        // one face of all corners, and 64 of many
        polygons(&[CORNERS], random),
        polygons(&[CORNERS / 64; 64], random),
        // pentagons
        polygons(&[5; CORNERS / 5], random),
        // triangles before and behind a long face, where the guess at the face
        // of a triangle is far off
        polygons(
            &[&[3; FACES - 1][..], &[CORNERS - 3 * (FACES - 1)]].concat(),
            random,
        ),
        polygons(
            &[&[CORNERS - 3 * (FACES - 1)][..], &[3; FACES - 1]].concat(),
            random,
        ),
    ];
    let mixed: Vec<usize> = (0..CORNERS / 5).map(|_| 3 + pick(3, random)).collect();
    nets.push(polygons(&mixed, random));
    for net in &mut nets[..3] {
        net.mix(random);
    }
    let mesh = |net: &Net| net.mesh(Numbers::any(random), random);
    nets.iter().map(mesh).collect()
}

/// Faces of so many corners each, all random, over the most vertices.
fn polygons(sides: &[usize], random: &mut Random) -> Net {
    let corner = |_| random.below(VERTICES as u64) as u32;
    let mut corners = (0..sides.iter().sum()).map(corner);
    let faces = sides.iter().map(|n| corners.by_ref().take(*n).collect());
    Net {
        faces: faces.collect(),
        vertices: VERTICES as u32,
    }
}

#[cfg(test)]
mod tests {
    use super::super::expected;
    use super::*;

    fn is_closed(net: &Net) -> bool {
        let mesh = net.mesh(Numbers::Few, &mut Random::new(1));
        expected::closed(&mesh, &expected::edge_keys(&mesh))
    }

    #[test]
    fn meshes_are_accepted() {
        let mut random = Random::new(1);
        for _ in 0..1000 {
            assert_eq!(expected::refusal(&mesh(&mut random)), None);
        }
        for mesh in large(&mut random) {
            assert_eq!(expected::refusal(&mesh), None);
        }
    }

    #[test]
    fn solids_are_closed() {
        for n in 3..9 {
            assert!(is_closed(&prism(n)));
            assert!(is_closed(&pyramid(n)));
            assert!(is_closed(&pillow(n)));
            assert!(is_closed(&torus(n, 3, false)));
            assert!(is_closed(&torus(3, n, true)));
        }
    }

    #[test]
    fn changes_leave_some_closed_and_others_open() {
        let mut random = Random::new(1);
        let nets: Vec<Net> = (0..100).map(|_| net(&mut random)).collect();
        assert!(nets.iter().any(is_closed));
        assert!(!nets.iter().all(is_closed));
    }
}
