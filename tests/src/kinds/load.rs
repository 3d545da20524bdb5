//! Bad input under load: calls of every C function with lists of any length and of
//! any bits, or nearly right. Each list is an allocation of exactly its size, so
//! that a checker of memory sees a read or a write beside it.

mod columns;
mod meshes;
mod shapes;
#[cfg(test)]
mod wrong_engines;

use super::columns::PointList;
use super::lent::garbage;
use super::lists::Contains;
use super::meshes::inputs::pick;
use super::meshes::welding::Weld;
use super::meshes::{Line, Outcome};
use super::trees::building::Build;
use super::trees::checking::Check;
use crate::engine::{self, REFUSAL, without_null};
use crate::plan::Plan;
use crate::random::Random;
use crate::report::Report;

/// The functions under test.
#[derive(Clone, Copy)]
pub struct Engine {
    pub root: fn(f64) -> f64,
    pub answer: super::shapes::Engine,
    pub weld: Weld,
    pub build: Build,
    pub check: Check,
    pub contains: Contains,
    pub point_list: PointList,
}

/// The engine's own.
pub const ENGINE: Engine = Engine {
    root: engine::root,
    answer: engine::answer,
    weld: engine::meshes::from_triangles,
    build: engine::trees::build,
    check: engine::trees::check,
    contains: engine::lists::contains,
    point_list: engine::columns::point_list,
};

/// A C function of the header.
struct Function {
    name: &'static str,
    /// What a long run has to see: that it accepts, and each refusal that it can give.
    needed: &'static [&'static str],
    /// Makes a call, and compares its answer and every byte that was lent.
    call: fn(&Engine, &mut Line, &mut Random),
}

const NUMBERS: &[&str] = &["accepted", "refusal 9", "refusal 10"];
const ENTRIES: &[&str] = &["accepted", "refusal 9", "refusal 10", "refusal 11"];

/// A shape question, which has this form.
macro_rules! shape {
    ($name:literal, $form:literal, $needed:ident) => {
        Function {
            name: $name,
            needed: $needed,
            call: |engine, line, random| shapes::call(engine.answer, $form, line, random),
        }
    };
}

/// Every C function. Those that do the most work are the last.
const FUNCTIONS: [Function; 18] = [
    shape!("csx_sphere", "sphere", NUMBERS),
    shape!("csx_box", "box", NUMBERS),
    shape!("csx_box_cylindrical", "cylindrical box", NUMBERS),
    shape!("csx_multi_box", "multi-box", ENTRIES),
    shape!("csx_spherical_shell", "spherical shell", NUMBERS),
    shape!("csx_cylinder", "cylinder", NUMBERS),
    shape!("csx_cylindrical_shell", "cylindrical shell", NUMBERS),
    shape!("csx_polygon", "polygon", ENTRIES),
    shape!("csx_lin_poly", "extruded polygon", ENTRIES),
    shape!("csx_wire", "wire", ENTRIES),
    shape!("csx_curve", "curve", NUMBERS),
    shape!("csx_point", "point", NUMBERS),
    Function {
        name: "csx_root",
        needed: &["accepted"],
        call: root,
    },
    Function {
        name: "csx_from_triangles",
        needed: &["accepted", "refusal 1", "refusal 5", "refusal 6"],
        call: meshes::weld,
    },
    Function {
        name: "csx_build_tree",
        needed: super::meshes::QUESTIONS.first_chunk::<7>().unwrap(),
        call: meshes::build,
    },
    Function {
        name: "csx_check_tree",
        needed: super::meshes::QUESTIONS.first_chunk::<8>().unwrap(),
        call: meshes::check,
    },
    Function {
        name: "csx_contains_list",
        needed: &super::meshes::QUESTIONS,
        call: meshes::contains,
    },
    Function {
        name: "csx_point_list",
        needed: &["accepted", "refusal 4", "refusal 6", "refusal 12"],
        call: columns::call,
    },
];

/// How many functions, the last ones, get half of the calls.
const LAST: usize = 5;

/// How many calls have to see every refusal.
const LONG: u64 = 100_000;

/// Makes so many calls, a line for each function.
pub fn run(report: &mut Report, plan: &Plan, calls: u64, engine: &Engine) {
    let mut random = plan.random("load");
    let mut lines = FUNCTIONS.map(|function| Line::new(function.name));
    for _ in 0..calls {
        let first = FUNCTIONS.len() - LAST;
        let place = match random.flip() {
            true => pick(first, &mut random),
            false => first + pick(LAST, &mut random),
        };
        let null = random.flip();
        let mut call = || (FUNCTIONS[place].call)(engine, &mut lines[place], &mut random);
        match null {
            true => call(),
            false => without_null(call),
        }
    }
    for (line, function) in lines.into_iter().zip(&FUNCTIONS) {
        let needed = if calls < LONG { &[] } else { function.needed };
        line.add_to(report, needed);
    }
}

/// Compares what a call came to, and counts what was expected.
fn compare(line: &mut Line, got: Outcome, want: u64, input: impl Fn() -> String) {
    line.compare(got, want, input);
    if want < REFUSAL {
        line.see("accepted");
    }
}

fn root(engine: &Engine, line: &mut Line, random: &mut Random) {
    let x = random.any();
    line.kind.compare(&[x], (engine.root)(x), x.sqrt());
    line.see("accepted");
}

/// How long a list of any bits is.
fn length(random: &mut Random) -> usize {
    match random.below(4) {
        0 => 0,
        _ => random.up_to_digits(5) as usize,
    }
}

/// Floats of any bits, or of any kind.
fn floats(length: usize, random: &mut Random) -> Vec<f64> {
    match random.flip() {
        true => garbage(length, random),
        false => (0..length).map(|_| random.any()).collect(),
    }
}

/// Whole numbers of up to some number of binary digits.
fn numbers(length: usize, random: &mut Random) -> Vec<u32> {
    let rest = 32 + random.below(32);
    let numbers = garbage::<u64>(length, random).into_iter();
    numbers.map(|n| (n >> rest) as u32).collect()
}
