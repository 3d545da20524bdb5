//! The refusals: faults of a list's length, of a number and of a point, alone
//! and together. Where there is none, csx answers.

use super::expected::{ENTRIES, LIST_REFUSED, NUMBER_REFUSED, POINT_REFUSED};
use super::{Asker, Case, Engine, FORMS, Form, Line, with_coordinate};
use crate::plan::Plan;
use crate::random::{NOT_FINITE, Random};
use crate::report::Report;

/// Short lists, in which each number is asked about.
const SHORT: [usize; 5] = [0, 1, 2, 3, 7];

/// Compares every refusal, a line for each shape.
pub fn compare(report: &mut Report, plan: &Plan, engine: Engine) {
    let mut asker = Asker::new(engine, "refusals, lists unchanged");
    for form in &FORMS {
        form_refusals(report, plan, form, &mut asker);
    }
    report.add(asker.lists);
}

fn form_refusals(report: &mut Report, plan: &Plan, form: &Form, asker: &mut Asker) {
    let name = format!("{}, refusals", form.name);
    let mut random = plan.random(&name);
    let mut line = Line::new(name);
    let mut ask = |case: Case| {
        asker.ask_case(&mut line, form, &case);
    };
    for entries in SHORT {
        lengths(form, entries, &mut random, &mut ask);
        numbers(form, entries, &mut random, &mut ask);
        points(form, entries, &mut random, &mut ask);
    }
    for _ in 0..plan.times(2_000) {
        let entries = random.below(8) as usize;
        together(form, entries, &mut random, &mut ask);
    }
    if form.width > 0 {
        lengths(form, ENTRIES, &mut random, &mut ask);
        points(form, ENTRIES, &mut random, &mut ask);
        together(form, ENTRIES + 1, &mut random, &mut ask);
        for _ in 0..plan.times(40) {
            numbers_of_long_lists(form, &mut random, &mut ask);
        }
    }
    line.add_to(report, form.refusals());
}

impl Form {
    /// The refusals that can occur. Question 11 is not asked of a curve, which
    /// is the one list that no point is inside.
    fn refusals(&self) -> &'static [u64] {
        if self.width > 0 && self.solid {
            &[POINT_REFUSED, NUMBER_REFUSED, LIST_REFUSED]
        } else {
            &[POINT_REFUSED, NUMBER_REFUSED]
        }
    }

    /// A case with few points.
    fn small_case(&self, random: &mut Random, entries: usize) -> Case {
        let mut case = (self.case)(random, entries);
        case.points.truncate(2);
        case
    }
}

/// Every length from a number less than this many entries to an entry more.
fn lengths(form: &Form, entries: usize, random: &mut Random, ask: &mut impl FnMut(Case)) {
    let longest = form.small_case(random, entries + 1);
    let whole = entries * form.width;
    for length in whole.saturating_sub(1)..=whole + form.width {
        let mut case = longest.clone();
        case.list.truncate(length);
        ask(case);
    }
}

/// Each number of the shape and its list not finite.
fn numbers(form: &Form, entries: usize, random: &mut Random, ask: &mut impl FnMut(Case)) {
    let mut case = form.small_case(random, entries);
    for place in 0..case.numbers_mut().count() {
        for x in NOT_FINITE {
            ask(case.with_number(place, x));
        }
    }
}

/// The first, the last and any number of the longest list not finite.
fn numbers_of_long_lists(form: &Form, random: &mut Random, ask: &mut impl FnMut(Case)) {
    let case = form.small_case(random, ENTRIES);
    let last = case.list.len() - 1;
    for place in [0, last, random.below(last as u64) as usize] {
        let mut case = case.clone();
        spoil(vec![&mut case.list[place]], random);
        ask(case);
    }
}

/// Each coordinate of the point not finite.
fn points(form: &Form, entries: usize, random: &mut Random, ask: &mut impl FnMut(Case)) {
    let mut case = form.small_case(random, entries);
    let point = case.points[0];
    case.points.clear();
    for axis in 0..3 {
        let points = NOT_FINITE.map(|x| with_coordinate(point, axis, x));
        case.points.extend(points);
    }
    ask(case);
}

/// Every set of faults: a list with a part of an entry, a number of the shape, a
/// number of the list and a coordinate of the point that are not finite.
pub(in crate::kinds) fn together(
    form: &Form,
    entries: usize,
    random: &mut Random,
    ask: &mut impl FnMut(Case),
) {
    for faults in 0..16 {
        let mut case = form.small_case(random, entries);
        if faults & 1 != 0 && form.width > 0 {
            let surplus = 1 + random.below(form.width as u64 - 1) as usize;
            case.list.resize(case.list.len() + surplus, 1.0);
        }
        if faults & 2 != 0 {
            spoil(case.shape.numbers_mut(), random);
        }
        if faults & 4 != 0 {
            spoil(case.list.iter_mut().collect(), random);
        }
        if faults & 8 != 0 {
            for point in &mut case.points {
                spoil(point.iter_mut().collect(), random);
            }
        }
        ask(case);
    }
}

/// Makes one of the numbers, if there is any, not finite.
fn spoil(mut numbers: Vec<&mut f64>, random: &mut Random) {
    let mut pick = |count: usize| random.below(count as u64) as usize;
    if !numbers.is_empty() {
        let place = pick(numbers.len());
        *numbers[place] = NOT_FINITE[pick(NOT_FINITE.len())];
    }
}

#[cfg(test)]
mod tests {
    use super::*;
    use crate::engine::{self, Point, Shape};
    use crate::kinds::shapes::tests::right;
    use crate::kinds::shapes::{OUTSIDE, form};
    use crate::kinds::tests;

    fn fails(engine: Engine) -> bool {
        tests::fails(|report, plan| compare(report, plan, engine))
    }

    /// Whether the refusals of a shape find a fault.
    fn caught(name: &str, engine: Engine) -> bool {
        let mut asker = Asker::new(engine, "");
        tests::fails(|report, plan| form_refusals(report, plan, form(name), &mut asker))
    }

    fn finite(numbers: &[f64]) -> bool {
        numbers.iter().all(|x| x.is_finite())
    }

    #[test]
    fn a_right_engine_passes() {
        assert!(!fails(engine::answer));
        assert!(!fails(right));
    }

    #[test]
    fn another_order_of_the_questions_is_caught() {
        for form in &FORMS {
            assert!(caught(form.name, |shape, list, p| {
                match finite(&p) {
                    true => right(shape, list, p),
                    false => POINT_REFUSED,
                }
            }));
        }
        for name in ["multi-box", "polygon", "extruded polygon", "wire"] {
            assert!(caught(name, |shape, list, p| {
                match finite(list) {
                    true => right(shape, list, p),
                    false => NUMBER_REFUSED,
                }
            }));
        }
        assert!(caught("wire", |shape, list, p| match shape {
            Shape::Wire(r) if !r.is_finite() => NUMBER_REFUSED,
            _ => right(shape, list, p),
        }));
    }

    #[test]
    fn an_answer_before_the_questions_is_caught() {
        assert!(caught("polygon", |shape, list, p| match shape {
            Shape::Polygon(3.., _) => OUTSIDE,
            _ => right(shape, list, p),
        }));
        assert!(caught("curve", |_, _, _| OUTSIDE));
        assert!(caught("point", |_, _, _| OUTSIDE));
    }

    #[test]
    fn other_limits_of_a_list_are_caught() {
        // one entry more, and one less
        assert!(caught("wire", |shape, list, p| match list.len() {
            12_291 => right(shape, &mut list[..12_288], p),
            _ => right(shape, list, p),
        }));
        assert!(caught("wire", |shape, list, p| match list.len() {
            12_288 => LIST_REFUSED,
            _ => right(shape, list, p),
        }));
        // the part of an entry left out
        assert!(caught("multi-box", |shape, list, p| {
            let whole = list.len() / 6 * 6;
            right(shape, &mut list[..whole], p)
        }));
        // a curve asked as a wire is
        assert!(caught("curve", |shape, list, p| {
            match list.len().is_multiple_of(3) {
                true => right(shape, list, p),
                false => LIST_REFUSED,
            }
        }));
        assert!(caught("curve", |shape, list, p| {
            match list.len() > 12_288 {
                true => LIST_REFUSED,
                false => right(shape, list, p),
            }
        }));
    }

    /// The answer of an engine that takes some numbers for others when it asks
    /// whether they are finite.
    fn taken(shape: &Shape, list: &mut [f64], p: Point, take: fn(&mut Shape, &mut [f64])) -> u64 {
        match right(shape, list, p) {
            NUMBER_REFUSED => {
                let (mut shape, mut list) = (*shape, list.to_vec());
                take(&mut shape, &mut list);
                right(&shape, &mut list, p)
            }
            answer => answer,
        }
    }

    #[test]
    fn a_number_that_is_not_asked_about_is_caught() {
        for form in &FORMS {
            // infinities
            assert!(caught(form.name, |shape, list, p| {
                taken(shape, list, p, |shape, list| {
                    let numbers = shape.numbers_mut().into_iter().chain(list);
                    numbers.filter(|x| x.is_infinite()).for_each(|x| *x = 1.0);
                })
            }));
            // the last number of the shape
            let own = (form.case)(&mut Random::new(1), 1)
                .shape
                .numbers_mut()
                .len();
            assert_eq!(
                own > 0,
                caught(form.name, |shape, list, p| {
                    taken(shape, list, p, |shape, _| {
                        shape.numbers_mut().pop().into_iter().for_each(|x| *x = 1.0);
                    })
                })
            );
        }
        for form in FORMS.iter().filter(|form| form.width > 0) {
            // the first and the last number of a list
            assert!(caught(form.name, |shape, list, p| {
                taken(shape, list, p, |_, list| {
                    list.first_mut().into_iter().for_each(|x| *x = 1.0);
                })
            }));
            assert!(caught(form.name, |shape, list, p| {
                taken(shape, list, p, |_, list| {
                    list.last_mut().into_iter().for_each(|x| *x = 1.0);
                })
            }));
        }
    }

    #[test]
    fn another_place_is_caught() {
        assert!(caught("sphere", |shape, list, p| {
            match right(shape, list, p) {
                POINT_REFUSED => POINT_REFUSED + 1,
                answer => answer,
            }
        }));
    }

    #[test]
    fn an_engine_that_writes_to_a_refused_list_fails() {
        assert!(fails(|shape, list, p| {
            let answer = right(shape, list, p);
            if answer == LIST_REFUSED {
                list[0] += 1.0;
            }
            answer
        }));
    }
}
