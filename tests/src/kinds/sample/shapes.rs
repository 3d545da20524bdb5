//! Shape questions of the sample.

use super::record::{COORDS, Kind, POINTS, Record, WORK};
use super::{Wanted, collect, each};
use crate::engine::{Point, Shape};
use crate::kinds::answer::{Answer, INSIDE, OUTSIDE};
use crate::kinds::meshes::inputs::pick;
use crate::kinds::shapes::cases::random_case;
use crate::kinds::shapes::expected::{Csx, refusal};
use crate::kinds::shapes::refusals::together;
use crate::kinds::shapes::turns::{of_number, of_point};
use crate::kinds::shapes::{Case, FORMS, Form};
use crate::random::Random;

/// The forms in the order of their numbers, which begin at 1.
const NAMES: [&str; 12] = [
    "box",
    "cylindrical box",
    "multi-box",
    "sphere",
    "spherical shell",
    "cylinder",
    "cylindrical shell",
    "polygon",
    "extruded polygon",
    "curve",
    "wire",
    "point",
];

/// How many floats a question has: eight of the shape, and the point.
const FLOATS: usize = 11;

/// How many entries a long list has at least, and at most.
const MANY: usize = 16;
const MOST: usize = 40;

pub fn records(random: &mut Random) -> Result<Vec<Record>, String> {
    let mut records = Vec::new();
    for (place, name) in NAMES.iter().enumerate() {
        let form = FORMS.iter().find(|form| form.name == *name);
        let form = form.expect("a form of the table");
        let question = || question(form, place as u64 + 1, random);
        records.extend(collect(wanted(form), question)?);
    }
    Ok(records)
}

/// What the records of a form have to show.
fn wanted(form: &Form) -> Vec<Wanted> {
    let mut wanted = each(&["refusal 9", "refusal 10"], 4);
    wanted.extend(each(&["refusal 10 before 9"], 1));
    let plain = if form.width > 0 { 7 } else { 10 };
    if form.solid {
        wanted.extend(each(&["inside", "outside"], plain));
        wanted.extend(each(&["inside at a turn", "outside at a turn"], 6));
    } else {
        wanted.extend(each(&["outside"], 30));
    }
    if form.width > 0 {
        wanted.extend(each(&["no entries", "many entries"], 2));
    }
    if form.width > 0 && form.solid {
        wanted.extend(each(&["refusal 11"], 4));
        wanted.extend(each(&["refusal 11 before 10"], 1));
    }
    if form.width == 2 {
        for axis in 0..3 {
            let answers = ["inside", "outside"].map(|word| format!("{word}, axis {axis}"));
            wanted.extend(each(&answers, 2));
        }
        wanted.extend(each(&["outside, no axis"], 2));
    }
    wanted
}

/// A question of this form: any, next to where the answer turns, or with faults.
fn question(form: &Form, number: u64, random: &mut Random) -> Record {
    let case = short_case(form, random);
    match random.below(3) {
        0 => record(form, number, &case),
        1 => match next_to_a_turn(form, &case, random) {
            Some(case) => {
                let record = record(form, number, &case).unwanted();
                record.show(format!("{} at a turn", Answer(answer(form, &case))))
            }
            None => record(form, number, &case),
        },
        _ => {
            let mut cases = Vec::new();
            let entries = pick(4, random);
            together(form, entries, random, &mut |case| cases.push(case));
            record(form, number, &cases[pick(cases.len(), random)])
        }
    }
}

/// A case whose list is not too long.
fn short_case(form: &Form, random: &mut Random) -> Case {
    loop {
        let case = random_case(form, random);
        if case.list.len() <= MOST * form.width {
            return case;
        }
    }
}

/// A case whose answer is another for a point next to it, or with a number of the shape
/// next to it, if one is found.
fn next_to_a_turn(form: &Form, case: &Case, random: &mut Random) -> Option<Case> {
    let one = |point: &Point| Case {
        points: vec![*point],
        ..case.clone()
    };
    let answers: Vec<u64> = case.points.iter().map(|p| answer(form, &one(p))).collect();
    let cases = match random.flip() {
        true => of_number(form, case, &answers, random),
        false => {
            let turning = of_point(form, case, &answers, random)?;
            turning.points.iter().map(one).collect()
        }
    };
    let turns = |pair: &&[Case]| {
        let answers = [0, 1].map(|i| answer(form, &pair[i]));
        answers == [INSIDE, OUTSIDE] || answers == [OUTSIDE, INSIDE]
    };
    let pair = cases.windows(2).find(turns)?;
    Some(pair[pick(2, random)].clone())
}

/// The refusal, or csx's answer, for the first point of a case.
fn answer(form: &Form, case: &Case) -> u64 {
    let (shape, list, point) = (&case.shape, &case.list, case.points[0]);
    refusal(shape, list, point)
        .unwrap_or_else(|| Csx::new(shape, list, form.system).inside(point).into())
}

/// The record that asks about the first point of a case.
fn record(form: &Form, number: u64, case: &Case) -> Record {
    let mut shape = case.shape;
    let normal = match shape {
        Shape::Polygon(normal, _) | Shape::LinPoly(normal, ..) => normal,
        _ => 0,
    };
    let mut floats = [0.0; FLOATS];
    for (place, x) in floats.iter_mut().zip(shape.numbers_mut()) {
        *place = *x;
    }
    floats[FLOATS - 3..].copy_from_slice(&case.points[0]);
    let answer = answer(form, case);
    let record = Record::new(Kind::Shape)
        .list(WORK, &[number, normal])
        .list(COORDS, &floats)
        .list(POINTS, &case.list)
        .returned(answer);
    shows(form, case, answer)
        .into_iter()
        .fold(record, Record::show)
}

/// What a case with this answer shows.
fn shows(form: &Form, case: &Case, answer: u64) -> Vec<String> {
    let word = Answer(answer).to_string();
    let finite = |numbers: &[f64]| numbers.iter().all(|x| x.is_finite());
    let mut shows = vec![word.clone()];
    if word == "refusal 10" && !finite(&case.points[0]) {
        shows.push(format!("{word} before 9"));
    }
    if word == "refusal 11" && !finite(&case.list) {
        shows.push(format!("{word} before 10"));
    }
    match case.list.len() {
        0 => shows.push("no entries".into()),
        n if n >= MANY * form.width => shows.push("many entries".into()),
        _ => {}
    }
    if let Shape::Polygon(normal, _) | Shape::LinPoly(normal, ..) = case.shape {
        shows.push(match normal {
            0..3 => format!("{word}, axis {normal}"),
            _ => format!("{word}, no axis"),
        });
    }
    shows
}
