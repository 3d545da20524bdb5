//! Every shape against csx: random cases, and the places where its answer
//! turns.

use super::changes::{alter, rescale};
use super::expected::ENTRIES;
use super::{Asker, Case, Engine, FORMS, Form, Line, turns};
use crate::plan::Plan;
use crate::random::Random;
use crate::report::Report;

/// Compares with csx, a line for each shape and kind of case.
pub fn compare(report: &mut Report, plan: &Plan, engine: Engine) {
    let mut asker = Asker::new(engine, "shapes, lists unchanged");
    for form in &FORMS {
        form_cases(report, plan, form, &mut asker);
        if form.width > 0 {
            long_lists(report, plan, form, &mut asker);
        }
    }
    report.add(asker.lists);
}

pub(super) fn form_cases(report: &mut Report, plan: &Plan, form: &Form, asker: &mut Asker) {
    let mut random = plan.random(form.name);
    let mut points = Line::new(form.name);
    let mut turning = Line::new(format!("{}, where the answer turns", form.name));
    for _ in 0..plan.times(50_000) {
        let case = random_case(form, &mut random);
        let answers = asker.ask_case(&mut points, form, &case);
        let by_point = turns::of_point(form, &case, &answers, &mut random);
        let by_number = turns::of_number(form, &case, &answers, &mut random);
        for case in by_point.iter().chain(&by_number) {
            asker.ask_case(&mut turning, form, case);
        }
    }
    points.add_to(report, form.answers());
    if form.solid {
        turning.add_to(report, form.answers());
    }
}

/// The longest lists that are accepted.
fn long_lists(report: &mut Report, plan: &Plan, form: &Form, asker: &mut Asker) {
    let mut random = plan.random(&format!("{}, long", form.name));
    let mut line = Line::new(format!("{}, {ENTRIES} entries", form.name));
    for _ in 0..plan.times(100).max(8) {
        let mut case = (form.case)(&mut random, ENTRIES);
        rescale(&mut case, &mut random);
        let answers = asker.ask_case(&mut line, form, &case);
        if let Some(case) = turns::of_point(form, &case, &answers, &mut random) {
            asker.ask_case(&mut line, form, &case);
        }
    }
    line.add_to(report, form.answers());
}

/// A case of any magnitude, at times with some numbers replaced.
pub(in crate::kinds) fn random_case(form: &Form, random: &mut Random) -> Case {
    let entries = entries(random);
    let mut case = (form.case)(random, entries);
    rescale(&mut case, random);
    if random.below(4) == 0 {
        alter(&mut case, random);
    }
    case
}

/// How many entries a list has.
fn entries(random: &mut Random) -> usize {
    let count = match random.below(16) {
        n @ 0..=3 => n,
        4 | 5 => 2,
        6 | 7 => 3,
        8..=14 => 4 + random.below(9),
        _ => 13 + random.below(52),
    };
    count as usize
}

#[cfg(test)]
mod tests {
    use super::*;
    use crate::engine;
    use crate::kinds::shapes::expected::Csx;
    use crate::kinds::shapes::tests::right;
    use crate::kinds::tests;

    fn fails(engine: Engine) -> bool {
        tests::fails(|report, plan| compare(report, plan, engine))
    }

    #[test]
    fn the_engine_passes() {
        assert!(!fails(engine::answer));
    }

    #[test]
    fn an_engine_that_changes_a_sign_of_zero_in_its_list_fails() {
        assert!(fails(|shape, list, p| {
            list.iter_mut().for_each(|x| *x += 0.0);
            right(shape, list, p)
        }));
    }

    #[test]
    fn both_answers_are_common() {
        let mut random = Random::new(1);
        for form in FORMS.iter().filter(|form| form.solid) {
            let (mut inside, mut all) = (0, 0);
            for _ in 0..300 {
                let case = random_case(form, &mut random);
                let csx = Csx::new(&case.shape, &case.list, form.system);
                inside += case.points.iter().filter(|p| csx.inside(**p)).count();
                all += case.points.len();
            }
            let name = form.name;
            assert!((all / 5..all * 4 / 5).contains(&inside), "{name}: {inside}");
        }
    }
}
