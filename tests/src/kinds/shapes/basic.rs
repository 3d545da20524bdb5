//! Cases of boxes, spheres, cylinders and shells.

use std::f64::consts::{FRAC_PI_2, TAU};

use super::Case;
use super::numbers::{
    about, across, between, coordinate, direction, from, length, place, points, share, within,
};
use crate::engine::{Point, Shape};
use crate::random::{Random, power_of_two};

pub fn cartesian_box(random: &mut Random) -> Case {
    let (start, stop) = corners(random);
    Case {
        shape: Shape::Box(start, stop),
        list: Vec::new(),
        points: points(random, |random| box_point(random, start, stop)),
    }
}

pub fn multi_box(random: &mut Random, entries: usize) -> Case {
    // Many large boxes leave no point outside.
    let small = random.flip();
    let corners = |_| {
        let (start, stop) = corners(random);
        if small {
            (start, from(start, stop, power_of_two(-8)))
        } else {
            (start, stop)
        }
    };
    let boxes: Vec<(Point, Point)> = (0..entries).map(corners).collect();
    Case {
        shape: Shape::MultiBox,
        list: boxes
            .iter()
            .flat_map(|(start, stop)| [*start, *stop])
            .flatten()
            .collect(),
        points: points(random, |random| {
            if boxes.is_empty() {
                return place(random);
            }
            let (start, stop) = boxes[random.below(entries as u64) as usize];
            box_point(random, start, stop)
        }),
    }
}

/// Two corners in any order. At times some of their coordinates are equal.
fn corners(random: &mut Random) -> (Point, Point) {
    let (start, mut stop) = (place(random), place(random));
    for i in 0..3 {
        if random.below(8) == 0 {
            stop[i] = start[i];
        }
    }
    (start, stop)
}

fn box_point(random: &mut Random, start: Point, stop: Point) -> Point {
    [0, 1, 2].map(|i| within(random, start[i], stop[i]))
}

pub fn cylindrical_box(random: &mut Random) -> Case {
    let (mut start, mut stop) = corners(random);
    // A negative distance from the axis is a number like any other, but rare.
    if random.below(8) != 0 {
        (start[0], stop[0]) = (start[0].abs(), stop[0].abs());
    }
    start[1] = angle(random);
    stop[1] = if random.below(8) == 0 {
        angle(random)
    } else {
        start[1] + span(random)
    };
    Case {
        shape: Shape::CylindricalBox(start, stop),
        list: Vec::new(),
        points: points(random, |random| {
            [
                axis_distance(random, start[0], stop[0]),
                angle_point(random, start[1], stop[1]),
                within(random, start[2], stop[2]),
            ]
        }),
    }
}

/// A distance from the axis for the range from `a` to `b`. Some are about 0, where
/// every angle is inside, and some have the other sign.
fn axis_distance(random: &mut Random, a: f64, b: f64) -> f64 {
    match random.below(8) {
        0 => about(random, 0.0, a.abs().max(b.abs())),
        1 => -within(random, a, b),
        _ => within(random, a, b),
    }
}

/// An angle: often some quarter turns, or about some turns, where remainders
/// start again. Some are so large that their difference overflows.
fn angle(random: &mut Random) -> f64 {
    match random.below(8) {
        0 | 1 => FRAC_PI_2 * (random.below(17) as f64 - 8.0),
        2 | 3 => {
            let turns = turns(random);
            about(random, turns, 1.0)
        }
        4 => coordinate(random),
        5 => f64::MAX * (2.0 * random.fraction() - 1.0),
        _ => TAU * (4.0 * random.fraction() - 2.0),
    }
}

/// Some whole turns, forwards or backwards.
fn turns(random: &mut Random) -> f64 {
    TAU * (random.below(5) as f64 - 2.0)
}

/// From one angle of a box to the other: a part of a turn, about none, about a
/// turn or more, in either direction.
fn span(random: &mut Random) -> f64 {
    let span = match random.below(8) {
        0 => about(random, 0.0, 1.0),
        1 => about(random, TAU, 1.0),
        2 => turns(random),
        _ => TAU * random.fraction(),
    };
    if random.flip() { -span } else { span }
}

/// An angle for the range from `a` to `b`, up to some turns from it.
fn angle_point(random: &mut Random, a: f64, b: f64) -> f64 {
    let angle = match random.below(8) {
        0 | 1 => about(random, a, 1.0),
        2 | 3 => about(random, b, 1.0),
        4 => angle(random),
        5 => -a,
        _ => {
            let t = random.fraction();
            (1.0 - t) * a + t * b
        }
    };
    if random.flip() {
        angle
    } else {
        angle + turns(random)
    }
}

pub fn sphere(random: &mut Random) -> Case {
    let (centre, radius) = (place(random), length(random));
    Case {
        shape: Shape::Sphere(centre, radius),
        list: Vec::new(),
        points: points(random, |random| around_centre(random, centre, radius)),
    }
}

pub fn spherical_shell(random: &mut Random) -> Case {
    let (centre, radius, width) = (place(random), length(random), length(random));
    let width = either_sign(random, width);
    Case {
        shape: Shape::SphericalShell(centre, radius, width),
        list: Vec::new(),
        points: points(random, |random| {
            let limit = limit(random, radius, width);
            around_centre(random, centre, limit)
        }),
    }
}

/// A point about this distance from the centre.
fn around_centre(random: &mut Random, centre: Point, distance: f64) -> Point {
    let distance = about(random, distance, distance);
    from(centre, direction(random), distance)
}

/// The sign of a width does not count.
fn either_sign(random: &mut Random, width: f64) -> f64 {
    if random.flip() { -width } else { width }
}

/// The radius of one side of a shell, or of its middle.
fn limit(random: &mut Random, radius: f64, width: f64) -> f64 {
    match random.below(4) {
        0 => radius,
        1 => radius - width / 2.0,
        _ => radius + width / 2.0,
    }
}

pub fn cylinder(random: &mut Random) -> Case {
    if random.below(16) == 0 {
        return short_cylinder(random);
    }
    let (start, stop, radius) = axis(random);
    Case {
        shape: Shape::Cylinder(start, stop, radius),
        list: Vec::new(),
        points: points(random, |random| around_axis(random, start, stop, radius)),
    }
}

/// A cylinder whose axis has a length, but one whose square is 0. That it has no
/// points shows only if the sum of its radius and the tolerance is infinite.
fn short_cylinder(random: &mut Random) -> Case {
    let stop = place(random).map(|x| x * 1e-200);
    Case {
        shape: Shape::Cylinder([0.0; 3], stop, f64::MAX),
        list: Vec::new(),
        points: points(random, place),
    }
}

pub fn cylindrical_shell(random: &mut Random) -> Case {
    let (start, stop, radius) = axis(random);
    let width = length(random);
    let width = either_sign(random, width);
    Case {
        shape: Shape::CylindricalShell(start, stop, radius, width),
        list: Vec::new(),
        points: points(random, |random| {
            let limit = limit(random, radius, width);
            around_axis(random, start, stop, limit)
        }),
    }
}

/// Start, stop and radius. Some axes have no length.
fn axis(random: &mut Random) -> (Point, Point, f64) {
    let start = place(random);
    let stop = match random.below(16) {
        0 => start,
        1..=7 => from(start, direction(random), coordinate(random)),
        _ => place(random),
    };
    (start, stop, length(random))
}

/// A point about this distance from an axis, mostly between its ends.
fn around_axis(random: &mut Random, start: Point, stop: Point, distance: f64) -> Point {
    let d = between(start, stop);
    let foot = from(start, d, share(random));
    let distance = about(random, distance, distance);
    from(foot, across(random, d), distance)
}
