//! The answers for the points of accepted texts, against the plain scan and csx.

use csx::Vec3;

use super::expected::{COORDINATE, Column, listed};
use super::texts::column;
use super::{Asker, PointList, shown};
use crate::kinds::answer::Answer;
use crate::kinds::lists::by_csx::{self, EQUAL_VOTES, THE_SAME};
use crate::kinds::lists::expected::Prepared;
use crate::kinds::lists::inputs::ANSWERS;
use crate::kinds::lists::see_answers;
use crate::kinds::meshes::Line;
use crate::plan::Plan;
use crate::random::Random;
use crate::report::Report;

/// How many points a text has.
const COUNT: usize = 24;

/// How large the numbers of a text are.
struct Sort {
    name: &'static str,
    largest: fn(&mut Random) -> i64,
    /// Which entries of the closed list have to show in csx's answers.
    entries: &'static [&'static str],
}

const SORTS: [Sort; 3] = [
    // so small that many points lie on faces, edges and vertices
    Sort {
        name: "small numbers",
        largest: |random| 1 + random.below(12) as i64,
        entries: &[THE_SAME],
    },
    Sort {
        name: "numbers of any size",
        largest: |random| (random.up_to_digits(34) as i64).min(COORDINATE),
        entries: &[THE_SAME],
    },
    // so large that rays pass within the rim of an edge
    Sort {
        name: "large numbers",
        largest: |random| COORDINATE - random.below(COORDINATE as u64 / 2) as i64,
        entries: &[THE_SAME, EQUAL_VOTES],
    },
];

/// Compares accepted texts.
pub fn compare(report: &mut Report, plan: &Plan, point_list: PointList) {
    for sort in &SORTS {
        compare_sort(report, plan, point_list, sort);
    }
}

fn compare_sort(report: &mut Report, plan: &Plan, point_list: PointList, sort: &Sort) {
    let mut asker = Asker::new(point_list, plan, sort.name);
    let mut csx = Line::new(format!("column texts, {}, csx", sort.name));
    for _ in 0..plan.times(8_000) {
        let largest = (sort.largest)(&mut asker.random);
        let column = column(largest, COUNT, &mut asker.random);
        ask(&mut asker, &mut csx, &column);
    }
    let needed = match sort.entries.contains(&EQUAL_VOTES) {
        true => ANSWERS,
        false => &ANSWERS[..2],
    };
    asker.line.add_to(report, needed);
    let entries = if cfg!(feature = "port") {
        &[]
    } else {
        sort.entries
    };
    csx.add_to(report, entries);
}

/// Asks about an accepted text, and compares the answer for each point with csx's.
fn ask(asker: &mut Asker, csx: &mut Line, column: &Column) {
    let (mesh, points) = (column.mesh(), column.points());
    let rule = Prepared::new(&mesh);
    let answers = rule.answers(&points);
    let want = listed(&answers);
    let text = column.text();
    let got = asker.compare(&text, want.len(), &Ok(want));
    see_answers(&mut asker.line, &answers);
    let by = mesh.csx().expect("an accepted mesh");
    let rows = got.chunks(10).skip(1);
    for ((p, want), row) in points.iter().zip(&answers).zip(rows) {
        let (want, word) = by_csx::answer(&by, &rule, Vec3(*p), u64::from(*want));
        let got = Answer(u64::from(row[8].wrapping_sub(b'0')));
        let text = || format!("{}, point {p:?}", shown(&text));
        csx.kind.compare_for(got, Answer(want), text);
        csx.see(word);
    }
}
