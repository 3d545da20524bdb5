//! Cases of polygons and extruded polygons.

use super::Case;
use super::numbers::{TOLERANCE, about, coordinate, length, points, short, within};
use crate::engine::{Point, Shape};
use crate::random::Random;

type Vertex = [f64; 2];

pub fn polygon(random: &mut Random, entries: usize) -> Case {
    let (normal, elevation) = (normal(random), coordinate(random));
    let vertices = vertices(random, entries);
    Case {
        shape: Shape::Polygon(normal, elevation),
        points: points(random, |random| {
            let height = if random.below(4) == 0 {
                about(random, elevation, elevation)
            } else {
                elevation
            };
            let flat = flat_point(random, &vertices);
            raised(normal, flat, height)
        }),
        list: vertices.into_flattened(),
    }
}

pub fn lin_poly(random: &mut Random, entries: usize) -> Case {
    // At times the other end is infinite. Every height is then between the ends.
    let endless = random.below(16) == 0;
    let sign = if random.flip() { -1.0 } else { 1.0 };
    let (elevation, extrusion) = if endless {
        (sign * f64::MAX, sign * f64::MAX * random.fraction())
    } else {
        (coordinate(random), sign * length(random))
    };
    let normal = normal(random);
    let vertices = vertices(random, entries);
    Case {
        shape: Shape::LinPoly(normal, elevation, extrusion),
        points: points(random, |random| {
            let height = if endless {
                coordinate(random)
            } else {
                within(random, elevation, elevation + extrusion)
            };
            let flat = flat_point(random, &vertices);
            raised(normal, flat, height)
        }),
        list: vertices.into_flattened(),
    }
}

/// A normal direction: mostly an axis. The others become one by the remainder of
/// 3, and some where the upper digits are dropped.
fn normal(random: &mut Random) -> u64 {
    const OTHERS: [u64; 6] = [3, 4, 1 << 8, 1 << 32 | 2, 1 << 63, u64::MAX];
    match random.below(16) {
        0 => OTHERS[random.below(6) as usize],
        _ => random.below(3),
    }
}

/// The point at this height above a point of the plane. A direction that is no
/// axis is taken for one here, so that an engine that does the same is seen.
fn raised(normal: u64, [u, v]: Vertex, height: f64) -> Point {
    let mut p = [height, u, v];
    p.rotate_right((normal % 3) as usize);
    p
}

/// Vertices anywhere, on a grid so that edges meet points and each other, on a
/// circle, or at random distances around a point. A quarter of the polygons have
/// their first vertex at the origin, about which distances as small as the
/// tolerance have all their digits.
fn vertices(random: &mut Random, entries: usize) -> Vec<Vertex> {
    let way = random.below(4);
    let centre = [short(random), short(random)];
    let radius = coordinate(random).abs();
    let vertex = |i: usize| match way {
        0 => [coordinate(random), coordinate(random)],
        1 => [short(random), short(random)],
        2 => polar(centre, radius, i, entries),
        _ => polar(centre, radius * random.fraction(), i, entries),
    };
    let mut vertices: Vec<Vertex> = (0..entries).map(vertex).collect();
    if random.below(4) == 0
        && let Some(first) = vertices.first_mut()
    {
        *first = [0.0; 2];
    }
    vertices
}

/// A point at this distance from a centre, in the i-th of n directions. They go
/// round a square that stands on a corner: sines are not the same everywhere.
fn polar([u, v]: Vertex, distance: f64, i: usize, n: usize) -> Vertex {
    let side = 4.0 * i as f64 / n as f64;
    let x = (side - 2.0).abs() - 1.0;
    let y = if side < 2.0 {
        1.0 - (side - 1.0).abs()
    } else {
        (side - 3.0).abs() - 1.0
    };
    let t = distance / (x * x + y * y).sqrt();
    [u + t * x, v + t * y]
}

/// A point of the plane: at a vertex, on an edge, about as far from one of them
/// as the tolerance goes, level with a vertex, or among the vertices.
fn flat_point(random: &mut Random, vertices: &[Vertex]) -> Vertex {
    let count = vertices.len();
    if count == 0 {
        return [coordinate(random), coordinate(random)];
    }
    let mut pick = || random.below(count as u64) as usize;
    let (i, j, k) = (pick(), pick(), pick());
    let (a, b) = (vertices[i], vertices[(i + 1) % count]);
    let mean = [0, 1].map(|x| (a[x] + vertices[j][x] + vertices[k][x]) / 3.0);
    let end = TOLERANCE * mean[0].abs().max(mean[1].abs());
    match random.below(8) {
        0 => a.map(|x| random.near(x, 2)),
        1 => vertices[0].map(|x| x + end * (2.0 * random.fraction() - 1.0)),
        2 => on_edge(random, a, b).map(|x| random.near(x, 4)),
        3 => on_edge(random, a, b).map(|x| about(random, x, x)),
        4 => [mean[0], a[1]],
        5 => [short(random), short(random)],
        _ => mean,
    }
}

/// A point of an edge, its middle as often as not.
fn on_edge(random: &mut Random, a: Vertex, b: Vertex) -> Vertex {
    let t = if random.flip() {
        0.5
    } else {
        random.fraction()
    };
    [0, 1].map(|x| a[x] + t * (b[x] - a[x]))
}

#[cfg(test)]
mod tests {
    use super::*;

    #[test]
    fn directions_go_round() {
        let round: Vec<Vertex> = (0..4).map(|i| polar([0.0; 2], 2.0, i, 4)).collect();
        assert_eq!(round, [[2.0, 0.0], [0.0, 2.0], [-2.0, 0.0], [0.0, -2.0]]);
    }

    #[test]
    fn points_are_raised_along_the_normal() {
        // The plane axes are (1, 2), (2, 0) and (0, 1).
        let raised = |normal| raised(normal, [1.0, 2.0], 7.0);
        assert_eq!(raised(0), [7.0, 1.0, 2.0]);
        assert_eq!(raised(1), [2.0, 7.0, 1.0]);
        assert_eq!(raised(2), [1.0, 2.0, 7.0]);
    }
}
