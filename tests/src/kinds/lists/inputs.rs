//! Meshes to ask about: solids of many forms, and what can be wrong with them.

use std::array::from_fn;
use std::f64::consts::TAU;

use super::by_csx::{EQUAL_VOTES, OWN_BOX, THE_SAME};
use crate::engine::Point;
use crate::kinds::meshes::Mesh;
use crate::kinds::meshes::inputs::{Net, change, on_torus, pick, pillow, prism, pyramid, torus};
use crate::kinds::trees;
use crate::random::{Random, product};

/// A sort of meshes, with its name.
pub struct Sort {
    pub name: &'static str,
    pub mesh: fn(&mut Random) -> Mesh,
    /// Whether mesh and points are brought to another magnitude.
    pub rescaled: bool,
    /// What has to be expected.
    pub needed: &'static [&'static str],
    /// Which entries of the closed list have to show in csx's answers.
    pub entries: &'static [&'static str],
}

/// Every answer.
pub const ANSWERS: &[&str] = &["outside", "inside", "undecided"];

/// Every sort.
pub const SORTS: [Sort; 8] = [
    Sort {
        name: "solids",
        mesh: |random| solid(random).mesh(),
        rescaled: false,
        needed: &[
            "outside",
            "inside",
            "undecided",
            "sides 3",
            "sides 4",
            "sides equal",
            "sides mixed",
        ],
        entries: &[THE_SAME, EQUAL_VOTES],
    },
    Sort {
        name: "boxes and panels",
        mesh: |random| some(random, panel).mesh(),
        rescaled: false,
        needed: ANSWERS,
        entries: &[THE_SAME, EQUAL_VOTES],
    },
    Sort {
        name: "overlapping solids",
        mesh: |random| overlapping(random).mesh(),
        rescaled: false,
        needed: ANSWERS,
        entries: &[THE_SAME, EQUAL_VOTES],
    },
    Sort {
        name: "open meshes",
        mesh: |random| open(random).mesh(),
        rescaled: false,
        needed: &["outside", "inside"],
        entries: &[THE_SAME],
    },
    Sort {
        name: "degenerate meshes",
        mesh: |random| degenerate(random).mesh(),
        rescaled: false,
        needed: ANSWERS,
        entries: &[THE_SAME, EQUAL_VOTES],
    },
    Sort {
        name: "unused far vertices",
        mesh: |random| far(random).mesh(),
        rescaled: false,
        needed: ANSWERS,
        entries: &[THE_SAME, EQUAL_VOTES],
    },
    Sort {
        name: "all magnitudes",
        mesh: |random| body(random).mesh(),
        rescaled: true,
        needed: ANSWERS,
        entries: &[THE_SAME, OWN_BOX, EQUAL_VOTES],
    },
    Sort {
        name: "any coordinates",
        mesh: trees::inputs::mesh,
        rescaled: false,
        needed: &["outside", "inside"],
        entries: &[THE_SAME],
    },
];

/// A body of any of the sorts of everyday size.
fn body(random: &mut Random) -> Body {
    match random.below(8) {
        0..=2 => solid(random),
        3 => some(random, panel),
        4 => overlapping(random),
        5 => open(random),
        6 => degenerate(random),
        _ => far(random),
    }
}

/// Faces, and where their vertices lie.
#[derive(Clone, Default)]
struct Body {
    net: Net,
    places: Vec<Point>,
}

impl Body {
    /// A body of these faces, with its vertices at these points.
    fn new(net: Net, place: impl FnMut(u32) -> Point) -> Self {
        Self {
            places: (0..net.vertices).map(place).collect(),
            net,
        }
    }

    fn mesh(&self) -> Mesh {
        self.net.mesh_at(|v| self.places[v as usize])
    }

    fn add(&mut self, other: Self) {
        self.net.add(other.net);
        self.places.extend(other.places);
    }

    fn map(&mut self, map: impl FnMut(Point) -> Point) {
        self.places = self.places.iter().copied().map(map).collect();
    }
}

/// A point of the unit circle: the k-th of n.
fn on_circle(k: u32, n: u32) -> [f64; 2] {
    let (s, c) = (f64::from(k) / f64::from(n) * TAU).sin_cos();
    [c, s]
}

/// csx's `unit_cube`, square to the axes.
pub fn unit_cube() -> Mesh {
    square().mesh()
}

/// The same as a body.
fn square() -> Body {
    let net = Net {
        vertices: 8,
        faces: vec![
            vec![0, 2, 3, 1],
            vec![4, 5, 7, 6],
            vec![0, 1, 5, 4],
            vec![2, 6, 7, 3],
            vec![0, 4, 6, 2],
            vec![1, 3, 7, 5],
        ],
    };
    Body::new(net, |v| [v & 1, v >> 1 & 1, v >> 2].map(f64::from))
}

/// A solid of any form, somewhere.
fn solid(random: &mut Random) -> Body {
    let n = 3 + random.below(8) as u32;
    let mut body = match random.below(8) {
        0 => square(),
        1 => Body::new(pyramid(3), |_| from_fn(|_| random.fraction())),
        2 | 3 => Body::new(prism(n), |v| {
            let [x, y] = on_circle(v % n, n);
            [x, y, f64::from(v / n)]
        }),
        4 => Body::new(pyramid(n), |v| match v {
            v if v == n => [0.1, 0.2, 1.0],
            v => {
                let [x, y] = on_circle(v, n);
                [x, y, 0.0]
            }
        }),
        // the fans of a bent polygon from two of its corners
        5 => Body::new(pillow(n + 1), |v| {
            let [x, y] = on_circle(v, n + 1);
            [x, y, random.fraction()]
        }),
        _ => {
            let (a, b) = (3 + random.below(6) as u32, 3 + random.below(6) as u32);
            Body::new(torus(a, b, random.flip()), |v| on_torus(a, b, v))
        }
    };
    place(&mut body, random);
    body
}

/// Stretches, turns and shifts a body, or some of it, and may turn its faces round.
fn place(body: &mut Body, random: &mut Random) {
    if random.flip() {
        let stretch: Point = from_fn(|_| 0.25 + 2.0 * random.fraction());
        body.map(|p| from_fn(|i| p[i] * stretch[i]));
    }
    if random.flip() {
        for axis in 0..3 {
            let (s, c) = (TAU * random.fraction()).sin_cos();
            body.map(|mut p| {
                let [j, k] = [(axis + 1) % 3, (axis + 2) % 3];
                [p[j], p[k]] = [c * p[j] - s * p[k], s * p[j] + c * p[k]];
                p
            });
        }
    }
    if random.flip() {
        let far = if random.below(4) == 0 { 1e4 } else { 4.0 };
        let shift: Point = from_fn(|_| far * (random.fraction() - 0.5));
        body.map(|p| from_fn(|i| p[i] + shift[i]));
    }
    if random.below(4) == 0 {
        body.net.faces.iter_mut().for_each(|face| face.reverse());
    }
}

/// Up to four bodies beside each other.
fn some(random: &mut Random, one: fn(&mut Random) -> Body) -> Body {
    let mut body = one(random);
    for _ in 0..random.below(4) {
        body.add(one(random));
    }
    body
}

/// A box square to the axes, which may have no thickness, with corners that are
/// often those of others.
fn panel(random: &mut Random) -> Body {
    let few = random.below(4) > 0;
    let mut number = || match few {
        true => random.below(5) as f64 / 2.0,
        false => 2.0 * random.fraction(),
    };
    let (from, to): (Point, Point) = (from_fn(|_| number()), from_fn(|_| number()));
    let mut body = square();
    body.map(|p| from_fn(|i| if p[i] == 0.0 { from[i] } else { to[i] }));
    body
}

/// Solids that overlap, stand in each other or fall together.
fn overlapping(random: &mut Random) -> Body {
    let one = if random.flip() { solid } else { panel };
    let mut body = some(random, one);
    let mut again = body.clone();
    match random.below(4) {
        0 => {}
        1 => {
            let shift = random.fraction() / 4.0;
            again.map(|p| p.map(|x| x + shift));
        }
        2 => again.map(|p| p.map(|x| x / 2.0)),
        _ => again.map(|[x, y, z]| [y, x, z]),
    }
    body.add(again);
    body
}

/// A body that is not closed, mostly: with a face less, one face alone, or with an
/// edge that too many faces have.
fn open(random: &mut Random) -> Body {
    let mut body = if random.flip() {
        solid(random)
    } else {
        some(random, panel)
    };
    let faces = &mut body.net.faces;
    match random.below(4) {
        0 => faces.truncate(1),
        1 => {
            let face = faces[pick(faces.len(), random)].clone();
            faces.push(face);
        }
        _ => {
            faces.remove(pick(faces.len(), random));
        }
    }
    body
}

/// A body with faces or corners repeated, or with vertices that fall together or on
/// a line with others.
fn degenerate(random: &mut Random) -> Body {
    let mut body = if random.flip() {
        solid(random)
    } else {
        panel(random)
    };
    for _ in 0..1 + random.below(2) {
        let face = body.net.faces[pick(body.net.faces.len(), random)].clone();
        let [a, b, c] = from_fn(|_| face[pick(face.len(), random)] as usize);
        let places = &mut body.places;
        match random.below(5) {
            0 => places[a] = places[b],
            1 => places[a] = from_fn(|i| (places[b][i] + places[c][i]) / 2.0),
            2 => {
                // a vertex between two others, in both faces that have their edge
                let (p, q) = (face[0], face[1]);
                let between = from_fn(|i| (places[p as usize][i] + places[q as usize][i]) / 2.0);
                places.push(between);
                insert(&mut body.net, p, q);
            }
            _ => {
                change(&mut body.net, random);
                if body.net.faces.is_empty() {
                    return solid(random);
                }
            }
        }
    }
    body
}

/// Puts one more vertex into each edge between these two.
fn insert(net: &mut Net, p: u32, q: u32) {
    let v = net.vertices;
    net.vertices += 1;
    for face in &mut net.faces {
        let count = face.len();
        let edge = (0..count).find(|k| {
            let ends = [face[*k], face[(k + 1) % count]];
            ends == [p, q] || ends == [q, p]
        });
        if let Some(k) = edge {
            face.insert(k + 1, v);
        }
    }
}

/// A body with vertices that no face has, so far off that they decide the mesh's
/// box and its tolerance.
fn far(random: &mut Random) -> Body {
    let mut body = match random.below(3) {
        0 => some(random, panel),
        _ => solid(random),
    };
    for _ in 0..1 + random.below(3) {
        let e = match random.below(8) {
            0 => 1020,
            1 => random.below(1000) as i32,
            _ => random.below(45) as i32,
        };
        let size: Point = from_fn(|_| product(random.fraction() - 0.5, e));
        let place = from_fn(|i| if random.flip() { size[i] } else { 0.0 });
        body.net.vertices += 1;
        body.places.push(place);
    }
    body
}

/// The power of two that brings a mesh and its points to another magnitude: where
/// the largest or the smallest numbers of the format are, where squares, cubes or
/// fourth powers overflow or vanish, where the tolerance no longer shrinks, or any.
pub fn exponent(random: &mut Random) -> i32 {
    let (wanted, spread) = match random.below(12) {
        0 => (0, 60),
        1 => (255, 8),
        2 => (-268, 8),
        3 => (341, 8),
        4 => (-358, 16),
        5 => (511, 6),
        6 => (-530, 20),
        7 => (-997, 40),
        8 => (1021, 3),
        9 => (-1040, 30),
        _ => (0, 1000),
    };
    wanted + random.below(2 * spread + 1) as i32 - spread as i32
}

#[cfg(test)]
mod tests {
    use super::*;
    use crate::kinds::answer::{INSIDE, OUTSIDE};
    use crate::kinds::lists::expected::Prepared;
    use crate::kinds::meshes::expected::refusal;
    use csx::Vec3;

    #[test]
    fn meshes_are_accepted() {
        let mut random = Random::new(1);
        for sort in &SORTS {
            for _ in 0..300 {
                assert_eq!(refusal(&(sort.mesh)(&mut random)), None);
            }
        }
    }

    #[test]
    fn a_cube_has_an_inside() {
        let rule = Prepared::new(&unit_cube());
        assert!(rule.closed);
        assert_eq!(rule.plain_scan(Vec3::new(0.4, 0.5, 0.6)), INSIDE);
        assert_eq!(rule.plain_scan(Vec3::new(0.4, 0.5, 1.1)), OUTSIDE);
        assert_eq!(rule.plain_scan(Vec3::new(1.1, 0.5, 0.4)), OUTSIDE);
    }

    #[test]
    fn solids_are_closed_and_open_meshes_mostly_are_not() {
        let mut random = Random::new(1);
        let mut closed = |body: fn(&mut Random) -> Body| {
            let is_closed = |_: &i32| Prepared::new(&body(&mut random).mesh()).closed;
            (0..200).filter(is_closed).count()
        };
        assert_eq!(closed(solid), 200);
        assert_eq!(closed(overlapping), 200);
        assert_eq!(closed(far), 200);
        assert!(closed(open) < 20);
        assert!((50..150).contains(&closed(degenerate)));
    }
}
