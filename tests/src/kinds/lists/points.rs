//! Points to ask about: anywhere in and about a mesh, on its surface, and such that
//! their rays pass next to corners and edges.

use csx::primitives::polyhedron::{RAY_DIRS, RayHit};
use csx::{BoundingBox, Vec3};

use super::expected::{Prepared, RULE};
use crate::engine::Point;
use crate::kinds::meshes::Mesh;
use crate::kinds::meshes::inputs::{Numbers, pick};
use crate::random::Random;

/// How near to an edge a hit counts for its rim, in parts of the triangle.
const RIM: f64 = 1e-9;

/// How often a point with three rims is sought in the mesh's box.
const TRIES: usize = 3;

/// Points for an accepted mesh.
pub fn points(mesh: &Mesh, rule: &Prepared, count: usize, random: &mut Random) -> Vec<Point> {
    let vertices = mesh.coords.as_chunks().0;
    if vertices.is_empty() {
        let numbers = Numbers::any(random);
        return (0..count).map(|_| numbers.point(random)).collect();
    }
    let aim = Aim { vertices, rule };
    (0..count).map(|_| aim.point(random)).collect()
}

/// Points in the box of a mesh that has vertices, grown by a tenth of its size.
pub fn uniform(rule: &Prepared, count: usize, random: &mut Random) -> Vec<Point> {
    (0..count).map(|_| finite(anywhere(rule, random))).collect()
}

/// A point in the mesh's box grown by a tenth of its size.
fn anywhere(rule: &Prepared, random: &mut Random) -> Vec3 {
    let BoundingBox { min, max } = rule.bounds;
    Vec3([0, 1, 2].map(|i| {
        let f = 1.2 * random.fraction() - 0.1;
        min[i] * (1.0 - f) + max[i] * f
    }))
}

/// A point on the surface, often the corner next to the origin, and one a few
/// tolerances off, if there is a surface.
pub fn off_the_surface(rule: &Prepared, random: &mut Random) -> Option<[Point; 2]> {
    let corners = rule.triangles.as_flattened().iter().copied();
    let mut p = corners.min_by(|a, b| a.norm().total_cmp(&b.norm()))?;
    if random.flip() {
        let triangle = rule.triangles[pick(rule.triangles.len(), random)];
        p = at(triangle, weights(random));
    }
    let away = direction(random) * (3.0 * rule.eps);
    Some([p, p + away].map(finite))
}

/// Any direction.
fn direction(random: &mut Random) -> Vec3 {
    Vec3([0, 1, 2].map(|_| random.fraction() - 0.5)).normalized()
}

/// What points are aimed at.
struct Aim<'a> {
    vertices: &'a [Point],
    rule: &'a Prepared,
}

impl Aim<'_> {
    fn point(&self, random: &mut Random) -> Point {
        let p = match random.below(16) {
            _ if self.rule.triangles.is_empty() => anywhere(self.rule, random),
            0..=3 => anywhere(self.rule, random),
            4 => self.among_vertices(random),
            5 => self.about_the_box(random),
            6..=8 => self.on_the_surface(random),
            9..=12 => self.before_a_rim(random),
            _ => self.before_three_rims(random),
        };
        finite(p)
    }

    /// With coordinates of vertices.
    fn among_vertices(&self, random: &mut Random) -> Vec3 {
        Vec3([0, 1, 2].map(|i| self.vertices[pick(self.vertices.len(), random)][i]))
    }

    /// With a coordinate at an edge of the grown box, or next to it.
    fn about_the_box(&self, random: &mut Random) -> Vec3 {
        let mut p = anywhere(self.rule, random);
        let axis = pick(3, random);
        let edge = match random.flip() {
            true => self.rule.grown.min[axis],
            false => self.rule.grown.max[axis],
        };
        p[axis] = random.near(edge, 2);
        p
    }

    /// On a triangle, some values of the format beside it, or about as far off as
    /// the tolerance reaches.
    fn on_the_surface(&self, random: &mut Random) -> Vec3 {
        let triangle = self.triangle(random);
        let p = at(triangle, weights(random));
        match random.below(4) {
            0 => p,
            1 => jitter(p, random),
            n => {
                let [a, b, c] = triangle;
                let away = match n {
                    2 => (b - a).cross(c - a).normalized(),
                    _ => direction(random),
                };
                jitter(p + away * (self.rule.eps * about_one(random)), random)
            }
        }
    }

    /// So that a ray passes next to a corner or an edge, or through a triangle: at
    /// some distance, just beyond the tolerance, or behind the point.
    fn before_a_rim(&self, random: &mut Random) -> Vec3 {
        let p = at(self.triangle(random), weights(random));
        let d = Vec3(RAY_DIRS[pick(3, random)]);
        let t = match random.below(8) {
            0 => self.rule.eps * (1.0 + random.below(8) as f64),
            1 => -self.reach(p, -d) * random.fraction(),
            _ => self.reach(p, d) * random.fraction(),
        };
        jitter(p - d * t, random)
    }

    /// How far a ray in this direction may come from, if it begins in the mesh's box
    /// and ends at this point of it.
    fn reach(&self, p: Vec3, d: Vec3) -> f64 {
        let BoundingBox { min, max } = self.rule.bounds;
        let along = |i: usize| (p[i] - if d[i] > 0.0 { min[i] } else { max[i] }) / d[i];
        along(0).min(along(1)).min(along(2))
    }

    /// So that all three rays pass next to an edge, mostly.
    fn before_three_rims(&self, random: &mut Random) -> Vec3 {
        let mut p = anywhere(self.rule, random);
        for _ in 0..TRIES {
            p = self.where_planes_meet(random);
            if self.rule.bounds.contains(p) {
                break;
            }
        }
        match random.below(4) {
            0 => jitter(p, random),
            _ => p,
        }
    }

    /// The point from which each ray passes next to an edge or to the line that it
    /// is a part of. Such edges are sought where the rays from a point anywhere pass.
    fn where_planes_meet(&self, random: &mut Random) -> Vec3 {
        let p = anywhere(self.rule, random);
        let side = random.below(3);
        let rims = RAY_DIRS.map(|d| self.rim(p, Vec3(d), side, random));
        // Each ray lies in the plane of its direction and its edge. The point is
        // where the three planes meet.
        let planes = [0, 1, 2].map(|i| {
            let [a, b] = rims[i];
            let normal = Vec3(RAY_DIRS[i]).cross(b - a);
            (normal, normal.dot(a - p))
        });
        let [(k, x), (l, y), (m, z)] = planes;
        let step = (l.cross(m) * x + m.cross(k) * y + k.cross(l) * z) * (1.0 / k.dot(l.cross(m)));
        p + step
    }

    /// An edge of a triangle that the ray hits, if it hits any, or a line next to
    /// it: on the edge, or within or beyond its rim.
    fn rim(&self, p: Vec3, d: Vec3, side: u64, random: &mut Random) -> [Vec3; 2] {
        let hit = |t: &&[Vec3; 3]| !matches!((RULE.ray)(p, d, **t), RayHit::Miss);
        let hits: Vec<&[Vec3; 3]> = self.rule.triangles.iter().filter(hit).collect();
        let mut triangle = match hits.is_empty() {
            true => self.triangle(random),
            false => *hits[pick(hits.len(), random)],
        };
        triangle.rotate_left(pick(3, random));
        let [a, b, c] = triangle;
        let w = match side {
            0 => 0.0,
            1 => -RIM * random.fraction(),
            _ => RIM * about_one(random),
        };
        [a + (c - a) * w, b + (c - b) * w]
    }

    fn triangle(&self, random: &mut Random) -> [Vec3; 3] {
        self.rule.triangles[pick(self.rule.triangles.len(), random)]
    }
}

/// The point of a triangle with these weights of its corners.
fn at([a, b, c]: [Vec3; 3], [u, v, w]: [f64; 3]) -> Vec3 {
    a * u + b * v + c * w
}

/// Weights of a triangle's corners: at a corner, on an edge or anywhere, and then
/// perhaps next to it, about as far as counts for a rim.
fn weights(random: &mut Random) -> [f64; 3] {
    let f = random.fraction();
    let mut weights = match random.below(4) {
        0 => [1.0, 0.0, 0.0],
        1 => [0.5, 0.5, 0.0],
        2 => [f, 1.0 - f, 0.0],
        _ => {
            let g = (1.0 - f) * random.fraction();
            [f, g, 1.0 - f - g]
        }
    };
    if random.flip() {
        let w = match random.flip() {
            true => RIM * about_one(random),
            false => -RIM * about_one(random),
        };
        weights[2] += w;
        weights[0] -= w;
    }
    weights.rotate_left(pick(3, random));
    weights
}

/// 1, a number next to it, or one from 0 to 2.
fn about_one(random: &mut Random) -> f64 {
    match random.below(4) {
        0 => 1.0,
        1 => random.near(1.0, 1 << 20),
        _ => 2.0 * random.fraction(),
    }
}

/// Some values of the format beside a point, or itself.
fn jitter(p: Vec3, random: &mut Random) -> Vec3 {
    match random.flip() {
        true => Vec3(p.0.map(|x| random.near(x, 3))),
        false => p,
    }
}

/// The point with finite coordinates.
fn finite(p: Vec3) -> Point {
    p.0.map(|x| match x.is_nan() {
        true => 0.0,
        false => x.clamp(-f64::MAX, f64::MAX),
    })
}

#[cfg(test)]
mod tests {
    use super::*;
    use crate::kinds::lists::inputs::{SORTS, unit_cube};

    #[test]
    fn points_are_finite() {
        let mut random = Random::new(1);
        for sort in &SORTS {
            for _ in 0..100 {
                let mesh = (sort.mesh)(&mut random);
                let points = points(&mesh, &Prepared::new(&mesh), 8, &mut random);
                assert_eq!(points.len(), 8);
                assert!(points.as_flattened().iter().all(|x| x.is_finite()));
            }
        }
    }

    #[test]
    fn rays_pass_next_to_rims() {
        let mesh = unit_cube();
        let rule = Prepared::new(&mesh);
        let (mut rims, mut three, mut hidden) = ([0; 3], 0, 0);
        for p in points(&mesh, &rule, 10_000, &mut Random::new(1)) {
            let own = rule.rays(&RULE, Vec3(p), &|passes| rule.passing(passes));
            let unboxed = rule.rays(&RULE, Vec3(p), &|_| rule.all());
            for (count, hits) in rims.iter_mut().zip(own) {
                *count += u32::from(hits.is_none());
            }
            three += u32::from(own == [None; 3]);
            hidden += u32::from(own != unboxed);
        }
        assert!(rims.iter().all(|count| *count > 1000), "{rims:?}");
        assert!(three.min(hidden) > 200, "{three} {hidden}");
    }
}
