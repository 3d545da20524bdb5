//! Shape questions under load.

use super::{compare, floats, length};
use crate::engine::Point;
use crate::kinds::lent::Lent;
use crate::kinds::meshes::inputs::pick;
use crate::kinds::meshes::{Line, Outcome};
use crate::kinds::shapes::changes::{alter, rescale};
use crate::kinds::shapes::expected::{Csx, ENTRIES, refusal};
use crate::kinds::shapes::{self, Case, Engine, Form, question};
use crate::random::{NOT_FINITE, Random};

/// Asks about a point of a shape of this form.
pub fn call(engine: Engine, form: &str, line: &mut Line, random: &mut Random) {
    let form = shapes::form(form);
    let (Case { shape, list, .. }, point) = case(form, random);
    let want = refusal(&shape, &list, point)
        .unwrap_or_else(|| Csx::new(&shape, &list, form.system).inside(point).into());
    let mut lent = Lent::exact(&list);
    let answer = engine(&shape, lent.list(), point);
    let wrong = lent.wrong("list", &[]);
    compare(line, Outcome { answer, wrong }, want, || {
        question(&shape, &list, point)
    });
}

/// A case and a point: as it should be, with some numbers replaced, of any bits, or
/// with a fault or two.
fn case(form: &Form, random: &mut Random) -> (Case, Point) {
    let entries = entries(random);
    let mut case = (form.case)(random, entries);
    case.points = vec![case.points[pick(case.points.len(), random)]];
    match random.below(4) {
        0 => rescale(&mut case, random),
        1 => alter(&mut case, random),
        2 => of_bits(form, &mut case, random),
        _ => {
            for _ in 0..1 + random.below(2) {
                spoil(form, &mut case, random);
            }
        }
    }
    let point = case.points[0];
    (case, point)
}

/// How many entries a list has: few, or about as many as are accepted.
fn entries(random: &mut Random) -> usize {
    match random.below(256) {
        0 => ENTRIES - 1 + pick(3, random),
        _ => pick(6, random),
    }
}

/// Any numbers and a list of any length.
fn of_bits(form: &Form, case: &mut Case, random: &mut Random) {
    if form.width > 0 {
        case.list = floats(length(random), random);
    }
    let numbers = case.shape.numbers_mut().into_iter();
    let numbers = numbers.chain(case.points.as_flattened_mut());
    numbers.for_each(|x| *x = floats(1, random)[0]);
}

/// A part of an entry, or a number that is not finite.
fn spoil(form: &Form, case: &mut Case, random: &mut Random) {
    if form.width > 0 && random.flip() {
        let length = case.list.len() + 1 + pick(form.width, random);
        return case.list.resize(length, 1.0);
    }
    let Case {
        shape,
        list,
        points,
    } = case;
    let mut numbers: Vec<&mut f64> = shape.numbers_mut().into_iter().chain(list).collect();
    if random.flip() || numbers.is_empty() {
        numbers = points.as_flattened_mut().iter_mut().collect();
    }
    let place = pick(numbers.len(), random);
    *numbers[place] = NOT_FINITE[pick(NOT_FINITE.len(), random)];
}
