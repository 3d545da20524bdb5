//! Spheres to time trees and lists on, and points in and about them.

use std::collections::HashMap;

use csx::Vec3;
use zirwennach_tests::engine::Point;
use zirwennach_tests::kinds::meshes::Mesh;
use zirwennach_tests::kinds::meshes::inputs::Net;
use zirwennach_tests::random::Random;

/// A sphere, with its name.
pub struct Sphere {
    pub name: &'static str,
    pub mesh: Mesh,
}

impl Sphere {
    pub fn triangles(&self) -> usize {
        self.mesh.triangle_count()
    }
}

/// The spheres, from the smallest on. The next one of triangles would have too many
/// faces, so the larger ones have quads.
pub fn all() -> [Sphere; 5] {
    [
        ("a sphere of 1,280 triangles", icosphere(3)),
        ("a sphere of 5,120 triangles", icosphere(4)),
        ("a sphere of 20,480 triangles", icosphere(5)),
        ("a sphere of 41,334 quads", cube_sphere(83)),
        ("a sphere of 64,896 quads", cube_sphere(104)),
    ]
    .map(|(name, mesh)| Sphere { name, mesh })
}

/// How many points are asked about.
pub const POINTS: usize = 65_536;

/// Points anywhere in the box of the spheres, which is from -1 to 1, grown by a
/// tenth of its size.
pub fn points() -> Vec<Vec3> {
    let mut random = Random::new(754);
    let point = |_| Vec3([(); 3].map(|()| 2.4 * random.fraction() - 1.2));
    (0..POINTS).map(point).collect()
}

/// A sphere of 20 triangles, each of which is cut into four so many times.
fn icosphere(cuts: u32) -> Mesh {
    let golden = (1.0 + 5f64.sqrt()) / 2.0;
    let mut points: Vec<Point> = Vec::new();
    for (a, b) in [
        (-1.0, -golden),
        (1.0, -golden),
        (-1.0, golden),
        (1.0, golden),
    ] {
        points.extend([[a, b, 0.0], [0.0, a, b], [b, 0.0, a]]);
    }
    let mut faces = equal_sides(&points);
    for _ in 0..cuts {
        let mut middles = HashMap::new();
        let mut middle = |a: u32, b: u32| {
            *middles.entry((a.min(b), a.max(b))).or_insert_with(|| {
                let [p, q] = [points[a as usize], points[b as usize]];
                points.push([0, 1, 2].map(|i| (p[i] + q[i]) / 2.0));
                points.len() as u32 - 1
            })
        };
        let cut = |[a, b, c]: [u32; 3]| {
            let [d, e, f] = [middle(a, b), middle(b, c), middle(c, a)];
            [[a, d, f], [b, e, d], [c, f, e], [d, e, f]]
        };
        faces = faces.into_iter().flat_map(cut).collect();
    }
    let net = Net {
        vertices: points.len() as u32,
        faces: faces.into_iter().map(|face| face.to_vec()).collect(),
    };
    net.mesh_at(|v| on_sphere(points[v as usize]))
}

/// The triangles whose sides are as short as can be.
fn equal_sides(points: &[Point]) -> Vec<[u32; 3]> {
    let near = |a: u32, b: u32| {
        let [p, q] = [points[a as usize], points[b as usize]];
        [0, 1, 2].map(|i| (p[i] - q[i]).powi(2)).iter().sum::<f64>() < 4.5
    };
    let count = points.len() as u32;
    let mut faces = Vec::new();
    for a in 0..count {
        for b in a + 1..count {
            for c in b + 1..count {
                if near(a, b) && near(b, c) && near(a, c) {
                    faces.push([a, b, c]);
                }
            }
        }
    }
    faces
}

/// A sphere of six squares, each of so many by so many quads.
fn cube_sphere(quads: u32) -> Mesh {
    let mut numbers = HashMap::new();
    let mut points: Vec<[u32; 3]> = Vec::new();
    let mut vertex = |point: [u32; 3]| {
        *numbers.entry(point).or_insert_with(|| {
            points.push(point);
            points.len() as u32 - 1
        })
    };
    let mut faces = Vec::new();
    for axis in 0..3 {
        for side in [0, quads] {
            for i in 0..quads {
                for j in 0..quads {
                    let corners = [(i, j), (i + 1, j), (i + 1, j + 1), (i, j + 1)];
                    let corner = |(i, j): (u32, u32)| {
                        let mut point = [side, i, j];
                        point.rotate_right(axis);
                        vertex(point)
                    };
                    faces.push(corners.map(corner).to_vec());
                }
            }
        }
    }
    let half = f64::from(quads) / 2.0;
    let net = Net {
        vertices: points.len() as u32,
        faces,
    };
    net.mesh_at(|v| on_sphere(points[v as usize].map(|x| f64::from(x) - half)))
}

fn on_sphere(point: Point) -> Point {
    let norm = point.iter().map(|x| x * x).sum::<f64>().sqrt();
    point.map(|x| x / norm)
}

#[cfg(test)]
mod tests {
    use super::*;

    #[test]
    fn spheres_are_closed() {
        for (sphere, triangles) in all().iter().zip([1_280, 5_120, 20_480, 82_668, 129_792]) {
            let csx = sphere.mesh.csx().expect("an accepted mesh");
            assert_eq!(sphere.triangles(), triangles);
            assert!(csx.is_closed());
            let bounds = csx.bounding_box();
            assert!(bounds.min.0.iter().all(|x| (-1.0..-0.99).contains(x)));
            assert!(bounds.max.0.iter().all(|x| (0.99..=1.0).contains(x)));
        }
    }
}
