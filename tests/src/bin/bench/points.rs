//! One point: shape questions beside csx, and lists of a single point.

use std::array::from_fn;
use std::f64::consts::{PI, TAU};
use std::hint::black_box;

use csx::{CoordSystem, Polyhedron, Vec3};
use zirwennach_tests::engine::{Point, Shape, answer};
use zirwennach_tests::kinds::shapes::expected::Csx;

use crate::best_times;
use crate::lists::Subject;
use crate::spheres::{Sphere, points};
use crate::table::{Row, Table};

/// How many points a shape is asked about, and how many rounds are run, of which the
/// best counts.
const ASKED: usize = 4096;
const ROUNDS: usize = 100;

/// How many lists of one point are answered in a round, and of how many csx makes the
/// mesh first.
const SINGLE: usize = 64;
const WHOLE: usize = 1;
const SINGLE_ROUNDS: usize = 9;

/// A shape with its list, and how its points are made of those in the box from -1.2 to
/// 1.2.
struct Case {
    name: &'static str,
    shape: Shape,
    list: Vec<f64>,
    point: fn(Point) -> Point,
}

impl Case {
    fn new(name: &'static str, shape: Shape, list: Vec<f64>) -> Self {
        Self {
            name,
            shape,
            list,
            point: |p| p,
        }
    }

    /// The same with points at this height: a polygon is flat.
    fn flat(self) -> Self {
        Self {
            point: |[x, y, _]| [x, y, 0.0],
            ..self
        }
    }

    fn system(&self) -> CoordSystem {
        match self.shape {
            Shape::CylindricalBox(..) => CoordSystem::Cylindrical,
            _ => CoordSystem::Cartesian,
        }
    }
}

/// Each shape, and those with a list also with a longer one.
fn cases() -> Vec<Case> {
    let (a, b) = ([-0.5, -0.4, -0.8], [0.6, 0.5, 0.7]);
    let cylindrical = Case {
        point: |[r, angle, z]| [r.abs(), angle / 1.2 * PI, z],
        ..Case::new(
            "a cylindrical box",
            Shape::CylindricalBox([0.2, -1.0, -0.9], [1.0, 2.0, 0.8]),
            Vec::new(),
        )
    };
    let flat = Shape::Polygon(2, 0.0);
    let high = Shape::LinPoly(2, -0.8, 1.7);
    vec![
        Case::new("a sphere", Shape::Sphere([0.1; 3], 0.9), Vec::new()),
        Case::new(
            "a spherical shell",
            Shape::SphericalShell([0.1; 3], 0.9, 0.3),
            Vec::new(),
        ),
        Case::new("a box", Shape::Box([-0.9; 3], [0.8; 3]), Vec::new()),
        cylindrical,
        Case::new("a multi-box of 4 boxes", Shape::MultiBox, boxes(4)),
        Case::new("a multi-box of 64 boxes", Shape::MultiBox, boxes(64)),
        Case::new("a cylinder", Shape::Cylinder(a, b, 0.7), Vec::new()),
        Case::new(
            "a cylindrical shell",
            Shape::CylindricalShell(a, b, 0.7, 0.3),
            Vec::new(),
        ),
        Case::new("a polygon of 8 vertices", flat, star(8)).flat(),
        Case::new("a polygon of 64 vertices", flat, star(64)).flat(),
        Case::new("an extruded polygon of 8 vertices", high, star(8)),
        Case::new("an extruded polygon of 64 vertices", high, star(64)),
        Case::new("a wire of 8 vertices", Shape::Wire(0.3), helix(8)),
        Case::new("a wire of 64 vertices", Shape::Wire(0.3), helix(64)),
        Case::new("a curve of 8 vertices", Shape::Curve, helix(8)),
        Case::new("a point", Shape::Point([0.1; 3]), Vec::new()),
    ]
}

/// So many small boxes along a diagonal.
fn boxes(count: u32) -> Vec<f64> {
    let corners = |k: u32| {
        let start = 2.0 * f64::from(k) / f64::from(count) - 1.0;
        let stop = start + 2.0 / f64::from(count);
        [[start, start, -1.0], [stop, stop + 0.5, 1.0]].concat()
    };
    (0..count).flat_map(corners).collect()
}

/// A polygon whose vertices are in turn nearer to the middle and further from it.
fn star(count: u32) -> Vec<f64> {
    let vertex = |k: u32| {
        let (s, c) = (TAU * f64::from(k) / f64::from(count)).sin_cos();
        let r = if k.is_multiple_of(2) { 1.1 } else { 0.8 };
        [r * c, r * s]
    };
    (0..count).flat_map(vertex).collect()
}

/// A line that winds upwards.
fn helix(count: u32) -> Vec<f64> {
    let vertex = |k: u32| {
        let part = f64::from(k) / f64::from(count);
        let (s, c) = (2.0 * TAU * part).sin_cos();
        [c, s, 2.0 * part - 1.0]
    };
    (0..count).flat_map(vertex).collect()
}

/// Times shape questions beside csx's `contains_local`, or `contains_in` in cylindrical
/// coordinates.
pub fn shapes(table: &mut Table) {
    println!(
        "Shape questions, the best of {ROUNDS} interleaved rounds of {ASKED} points: \
         the engine also asks whether all numbers are finite"
    );
    let points: Vec<Point> = points().iter().take(ASKED).map(|p| p.0).collect();
    for case in cases() {
        ask(table, case, &points);
    }
}

fn ask(table: &mut Table, mut case: Case, points: &[Point]) {
    let points: Vec<Point> = points.iter().copied().map(case.point).collect();
    let csx = Csx::new(&case.shape, &case.list, case.system());
    let (mut inside, mut by_csx) = (0, 0);
    let [engine, other] = best_times(
        ROUNDS,
        [
            &mut || {
                let ask = |p: &Point| answer(black_box(&case.shape), &mut case.list, *p);
                inside = points.iter().map(ask).sum();
            },
            &mut || {
                let ask = |p: &Point| u64::from(black_box(&csx).inside(*p));
                by_csx = points.iter().map(ask).sum();
            },
        ],
    )
    .map(|time| time / ASKED as f64);
    table.add(&Row {
        what: "a point of a shape",
        inputs: case.name,
        engine,
        beside: "csx's answer",
        other,
        most: None,
    });
    table.agree(inside == by_csx);
}

/// Times lists of one point, with questions 1 to 9 and the edge keys, beside csx's
/// answer with its tree at hand and without.
pub fn lists(table: &mut Table, spheres: &[Sphere]) {
    println!("Lists of a single point, the best of {SINGLE_ROUNDS} interleaved rounds");
    let points = &points()[..SINGLE];
    for sphere in spheres.iter().step_by(2) {
        single(table, sphere, points);
    }
}

fn single(table: &mut Table, sphere: &Sphere, points: &[Vec3]) {
    let [mut by_engine, mut by_csx] = from_fn(|_| Subject::new(sphere, points));
    let mut parts = vec![parts(&by_csx.csx); SINGLE_ROUNDS * WHOLE];
    let mut made = Vec::new();
    let mut inside = 0;
    let [engine, answer, whole] = best_times(
        SINGLE_ROUNDS,
        [
            &mut || by_engine.answer_singly(),
            &mut || by_csx.answer_by_csx(),
            &mut || {
                for p in &points[..WHOLE] {
                    let (vertices, faces) = parts.pop().expect("one for each call");
                    let csx = Polyhedron::new(vertices, faces).expect("an accepted mesh");
                    inside += u64::from(csx.contains(*p));
                    // kept, so that it is not freed here
                    made.push(csx);
                }
            },
        ],
    );
    black_box(inside);
    let engine = engine / SINGLE as f64;
    for (beside, other) in [
        ("csx's answer", answer / SINGLE as f64),
        ("csx's `Polyhedron::new` and answer", whole / WHOLE as f64),
    ] {
        table.add(&Row {
            what: "a list of one point",
            inputs: sphere.name,
            engine,
            beside,
            other,
            most: None,
        });
    }
    table.agree(by_engine.agrees(&by_csx));
}

/// What csx makes a mesh of.
fn parts(csx: &Polyhedron) -> (Vec<Vec3>, Vec<Vec<u32>>) {
    (csx.vertices().to_vec(), csx.faces().to_vec())
}
