//! Cases of curves, wires and points.

use std::array::from_fn;

use super::Case;
use super::numbers::{
    about, across, between, coordinate, direction, from, length, place, points, share, short,
};
use crate::engine::{Point, Shape};
use crate::random::Random;

pub fn curve(random: &mut Random, entries: usize) -> Case {
    let vertices = vertices(random, entries);
    Case {
        shape: Shape::Curve,
        points: points(random, |random| around_segment(random, &vertices, 0.0)),
        list: vertices.into_flattened(),
    }
}

pub fn wire(random: &mut Random, entries: usize) -> Case {
    let radius = length(random);
    let vertices = vertices(random, entries);
    Case {
        shape: Shape::Wire(radius),
        points: points(random, |random| around_segment(random, &vertices, radius)),
        list: vertices.into_flattened(),
    }
}

pub fn point(random: &mut Random) -> Case {
    let position = place(random);
    Case {
        shape: Shape::Point(position),
        list: Vec::new(),
        points: points(random, |random| position.map(|x| about(random, x, x))),
    }
}

/// Vertices anywhere, on a grid so that some repeat, or far apart, so that a long
/// wire leaves room beside it.
fn vertices(random: &mut Random, entries: usize) -> Vec<Point> {
    let way = random.below(4);
    let vertex = |_| match way {
        0 => from_fn(|_| short(random)),
        1 => from_fn(|_| 64.0 * coordinate(random)),
        _ => place(random),
    };
    (0..entries).map(vertex).collect()
}

/// A point about this distance from a segment or from one of its ends. The
/// segment from the last vertex to the first, which is no part of the wire, is
/// among them.
fn around_segment(random: &mut Random, vertices: &[Point], distance: f64) -> Point {
    if vertices.is_empty() {
        return place(random);
    }
    let i = random.below(vertices.len() as u64) as usize;
    let (a, b) = (vertices[i], vertices[(i + 1) % vertices.len()]);
    let d = between(a, b);
    let distance = about(random, distance, distance);
    if random.flip() {
        let foot = from(a, d, share(random));
        from(foot, across(random, d), distance)
    } else {
        from(a, direction(random), distance)
    }
}
