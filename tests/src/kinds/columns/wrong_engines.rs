//! Engines with one fault each, which the comparison has to find.

use super::changes::{every_byte, several};
use super::expected::{
    COORDINATE, CORNER, Column, LINES, OF_A_KIND, POINT, RULES, Rules, TRIANGLE, VERTEX, listed,
    number,
};
use super::texts::KEPT;
use super::{PointList, answers, limits};
use crate::engine::{Point, REFUSAL};
use crate::kinds::answer::{INSIDE, OUTSIDE, UNDECIDED};
use crate::kinds::lists::expected::Prepared;
use crate::kinds::meshes::expected::{code, refusal};
use crate::kinds::meshes::{Mesh, ROOM};
use crate::kinds::tests;
use crate::plan::{DEFAULT_SEED, Plan};
use crate::report::Report;

/// A part of the comparison.
type Part = fn(&mut Report, &Plan, PointList);

/// Whether this part finds a fault.
fn caught(part: Part, point_list: PointList) -> bool {
    let plan = Plan::quick(DEFAULT_SEED).part(50);
    tests::fails(|report, _| part(report, &plan, point_list))
}

/// Whether the changes of this kept text find a fault.
fn caught_by(name: &str, point_list: PointList) -> bool {
    let kept = KEPT.iter().find(|kept| kept.name == name);
    let kept = kept.expect("a text of the table");
    tests::fails(|report, plan| every_byte(report, plan, point_list, kept))
}

const ONE_OF_EACH: &str = "a line of each kind";

/// The parts of an engine.
#[derive(Clone)]
struct Engine {
    rules: Rules,
    mesh: fn(&Column) -> Mesh,
    points: fn(&Column) -> Vec<Point>,
    answers: fn(&Mesh, &[Point]) -> Vec<u8>,
    listed: fn(&[u8]) -> Vec<u8>,
}

/// An engine that is right.
const RIGHT: Engine = Engine {
    rules: RULES,
    mesh: Column::mesh,
    points: Column::points,
    answers: |mesh, points| Prepared::new(mesh).answers(points),
    listed,
};

/// An engine with a part changed.
fn by(text: &[u8], listing: &mut [u8], change: fn(&mut Engine)) -> u64 {
    let mut engine = RIGHT;
    change(&mut engine);
    let column = match engine.rules.read(text) {
        Ok(column) => column,
        Err(place) => return code(12, place),
    };
    let mesh = (engine.mesh)(&column);
    if let Some(refusal) = refusal(&mesh) {
        return refusal;
    }
    let answers = (engine.answers)(&mesh, &(engine.points)(&column));
    let written = (engine.listed)(&answers);
    let Some(listing) = listing.get_mut(..written.len()) else {
        return ROOM;
    };
    listing.copy_from_slice(&written);
    written.len() as u64
}

fn right(text: &mut [u8], listing: &mut [u8]) -> u64 {
    by(text, listing, |_| {})
}

/// An engine with a part changed.
macro_rules! by {
    ($change:expr) => {
        |text, listing| by(text, listing, $change)
    };
}

#[test]
fn a_right_engine_passes() {
    for part in [several as Part, limits::compare, answers::compare] {
        assert!(!caught(part, right));
    }
    for kept in &KEPT[1..] {
        assert!(!caught_by(kept.name, right));
    }
}

#[test]
fn every_text_refused_is_caught() {
    let refused: PointList = |_, _| code(12, 1);
    for part in [several as Part, limits::compare, answers::compare] {
        assert!(caught(part, refused));
    }
    for kept in &KEPT {
        assert!(caught_by(kept.name, refused));
    }
}

/// The number of a field after this change of its text.
fn changed(field: &[u8], change: fn(&str) -> String) -> Option<i64> {
    let text = change(str::from_utf8(field).ok()?);
    number(format!("{text:>width$}", width = field.len()).as_bytes())
}

#[test]
fn other_forms_of_numbers_are_caught() {
    let forms: [PointList; 7] = [
        // a plus
        by!(|engine| engine.rules.number = |field| {
            changed(field, |text| {
                let text = text.trim_start_matches(' ');
                text.strip_prefix('+').unwrap_or(text).into()
            })
        }),
        // leading zeros, and a minus zero with them
        by!(|engine| engine.rules.number = |field| {
            let text = str::from_utf8(field).ok()?.trim_start_matches(' ');
            text.parse().ok().filter(|_| !text.starts_with('+'))
        }),
        // a minus zero
        by!(|engine| engine.rules.number = |field| match field {
            [b' ', .., b'-', b'0'] => Some(0),
            field => number(field),
        }),
        // blanks behind
        by!(|engine| engine.rules.number =
            |field| changed(field, |text| text.trim_matches(' ').into())),
        // blanks behind a minus
        by!(|engine| engine.rules.number = |field| {
            changed(field, |text| {
                match text.trim_start_matches(' ').strip_prefix('-') {
                    Some(digits) => format!("-{}", digits.trim_start_matches(' ')),
                    None => text.into(),
                }
            })
        }),
        // tabs and other space
        by!(|engine| engine.rules.number = |field| changed(field, |text| text.trim_start().into())),
        // blanks alone
        by!(
            |engine| engine.rules.number = |field| match field.iter().all(|b| *b == b' ') {
                true => Some(0),
                false => number(field),
            }
        ),
    ];
    for (place, form) in forms.into_iter().enumerate() {
        assert!(
            caught_by(ONE_OF_EACH, form) || caught_by("negative numbers", form),
            "{place}"
        );
        assert!(caught(several, form), "{place}");
    }
}

/// The number of a field whose digits have these values.
fn of_digits(field: &[u8], value: fn(u8) -> Option<i64>) -> Option<i64> {
    if number(field).is_some() {
        return number(field);
    }
    let blanks = field.iter().take_while(|b| **b == b' ').count();
    let digits = &field[blanks..];
    let mut n = 0;
    for b in digits {
        n = 10 * n + value(*b)?;
    }
    (!digits.is_empty()).then_some(n)
}

#[test]
fn bytes_beside_the_digits_are_caught() {
    assert!(caught_by(
        ONE_OF_EACH,
        by!(
            |engine| engine.rules.number = |field| of_digits(field, |b| match b {
                b'0'..=b':' => Some(i64::from(b - b'0')),
                _ => None,
            })
        )
    ));
    assert!(caught_by(
        ONE_OF_EACH,
        by!(
            |engine| engine.rules.number = |field| of_digits(field, |b| match b {
                b'/'..=b'9' => Some(i64::from(b) - i64::from(b'0')),
                _ => None,
            })
        )
    ));
    assert!(caught_by(
        ONE_OF_EACH,
        by!(
            |engine| engine.rules.number = |field| of_digits(field, |b| match b & 0x7F {
                b @ b'0'..=b'9' => Some(i64::from(b - b'0')),
                _ => None,
            })
        )
    ));
}

#[test]
fn other_ends_of_a_line_are_caught() {
    let ends: [PointList; 4] = [
        // the last line without its line feed
        by!(|engine| engine.rules.fields = |line| match line {
            [.., b'\n'] => (RULES.fields)(line),
            line if line.len() == 35 => fields(line),
            _ => None,
        }),
        // a carriage return before the line feed
        by!(|engine| engine.rules.fields = |line| match line {
            [front @ .., b'\r', b'\n'] if front.len() == 35 => fields(front),
            line => (RULES.fields)(line),
        }),
        // longer lines, cut
        by!(|engine| engine.rules.fields = |line| {
            line.strip_suffix(b"\n")
                .and_then(|line| fields(line.get(..35)?))
        }),
        // shorter lines, filled in front
        by!(|engine| engine.rules.fields = |line| match line {
            [front @ .., b'\n'] if front.len() == 34 => fields_from(front, 1),
            line => (RULES.fields)(line),
        }),
    ];
    for (place, end) in ends.into_iter().enumerate() {
        assert!(caught_by(ONE_OF_EACH, end), "{place}");
    }
    // a part of a line behind the last whole one not looked at
    let behind: PointList = |text, listing| {
        let whole = text.len() / 36 * 36;
        right(&mut text[..whole], listing)
    };
    assert!(caught_by(ONE_OF_EACH, behind));
    assert!(caught(limits::compare, behind));
    // the last byte of a line not looked at
    let any_end: PointList = |text, listing| {
        let mut text = text.to_vec();
        let ends = text.iter_mut().skip(35).step_by(36);
        ends.for_each(|b| *b = b'\n');
        right(&mut text, listing)
    };
    assert!(caught_by(ONE_OF_EACH, any_end));
    assert!(caught(limits::compare, any_end));
}

/// The fields of a line of 35 bytes.
fn fields(line: &[u8]) -> Option<[&[u8]; 4]> {
    fields_from(line, 2)
}

/// The fields of a line whose kind has this width.
fn fields_from(line: &[u8], kind: usize) -> Option<[&[u8]; 4]> {
    let (kind, rest) = line.split_at_checked(kind)?;
    Some([kind, rest.get(..11)?, rest.get(11..22)?, rest.get(22..33)?])
}

#[test]
fn wrong_kinds_are_caught() {
    // any other kind taken for a point
    assert!(caught_by(
        ONE_OF_EACH,
        by!(
            |engine| engine.rules.number = |field| match (field.len(), number(field)) {
                (2, Some(4..)) => Some(3),
                (_, number) => number,
            }
        )
    ));
    // the first byte of a kind not looked at
    assert!(caught_by(
        ONE_OF_EACH,
        by!(|engine| engine.rules.number = |field| match field {
            [_, kind] => number(&[b' ', *kind]),
            field => number(field),
        })
    ));
    // no order of kinds, and one that is not asked of every pair
    for follows in [
        by!(|engine| engine.rules.follows = |_, _| true) as PointList,
        by!(|engine| engine.rules.follows =
            |column, kind| kind > 0 || column.0[TRIANGLE].is_empty()),
        by!(|engine| engine.rules.follows = |column, kind| kind != 1 || column.0[POINT].is_empty()),
    ] {
        assert!(caught(limits::compare, follows));
    }
    // all kinds in one list
    assert!(caught(
        limits::compare,
        by!(
            |engine| engine.rules.follows = |column, kind| (RULES.follows)(column, kind)
                && column.0.iter().map(Vec::len).sum::<usize>() < OF_A_KIND
        )
    ));
    // each kind needed
    assert!(caught(
        limits::compare,
        by!(
            |engine| engine.rules.follows = |column, kind| (RULES.follows)(column, kind)
                && column.0[..kind].iter().all(|rows| !rows.is_empty())
        )
    ));
}

#[test]
fn wrong_limits_are_caught() {
    let limits_of: [PointList; 8] = [
        by!(|engine| engine.rules.lines = LINES - 1),
        by!(|engine| engine.rules.lines = LINES + 1),
        by!(|engine| engine.rules.of_a_kind = OF_A_KIND - 1),
        by!(|engine| engine.rules.of_a_kind = OF_A_KIND + 1),
        by!(|engine| engine.rules.range = |kind| match kind {
            VERTEX => -COORDINATE + 1..=COORDINATE,
            kind => (RULES.range)(kind),
        }),
        by!(|engine| engine.rules.range = |kind| match kind {
            POINT => -COORDINATE..=COORDINATE + 1,
            kind => (RULES.range)(kind),
        }),
        by!(|engine| engine.rules.range = |kind| match kind {
            TRIANGLE => 0..=CORNER - 1,
            kind => (RULES.range)(kind),
        }),
        by!(|engine| engine.rules.range = |kind| match kind {
            TRIANGLE => 0..=CORNER + 1,
            kind => (RULES.range)(kind),
        }),
    ];
    for (place, limit) in limits_of.into_iter().enumerate() {
        assert!(caught(limits::compare, limit), "{place}");
    }
    // a line too many that is let pass if it is not whole
    assert!(caught(limits::compare, |text, listing| {
        let most = text.len().min(LINES * 36);
        match text.len() {
            36_865..36_900 => right(&mut text[..most], listing),
            _ => right(text, listing),
        }
    }));
    // no numbers of more than 32 bits
    assert!(caught_by(
        "the largest numbers",
        by!(|engine| engine.rules.number = |field| number(field).map(|n| i64::from(n as i32)))
    ));
}

#[test]
fn wrong_places_are_caught() {
    fn placed(text: &mut [u8], listing: &mut [u8], place: fn(u64, usize) -> u64) -> u64 {
        match right(text, listing) {
            answer if answer / REFUSAL == 12 => {
                code(12, place(answer % REFUSAL, text.len()) as usize)
            }
            answer => answer,
        }
    }
    // from 0, the last line, and none
    let from_0: PointList = |text, listing| placed(text, listing, |place, _| place - 1);
    let last: PointList =
        |text, listing| placed(text, listing, |_, length| length.div_ceil(36) as u64);
    let none: PointList = |text, listing| placed(text, listing, |_, _| 0);
    for place in [from_0, last, none] {
        assert!(caught_by(ONE_OF_EACH, place));
        assert!(caught(several, place));
        assert!(caught(limits::compare, place));
    }
    // of a face, from 1
    assert!(caught(several, |text, listing| {
        match right(text, listing) {
            answer if answer / REFUSAL == 4 => answer + 1,
            answer => answer,
        }
    }));
}

#[test]
fn another_order_of_the_questions_is_caught() {
    // the mesh asked before the lines behind it
    let mesh_first: PointList = |text, listing| {
        let answer = right(text, listing);
        if answer / REFUSAL != 12 {
            return answer;
        }
        let good = (answer % REFUSAL - 1) as usize * 36;
        match right(&mut text[..good], &mut []) {
            refused if refused / REFUSAL == 4 => refused,
            _ => answer,
        }
    };
    assert!(caught(several, mesh_first));
    assert!(caught(limits::compare, mesh_first));
    // room asked first, for a header or for as many points as there are
    let room_first: PointList = |text, listing| match listing.len() {
        0..10 => ROOM,
        _ => right(text, listing),
    };
    assert!(caught_by(ONE_OF_EACH, room_first));
    assert!(caught(several, room_first));
    let room_before_mesh: PointList = |text, listing| match right(text, listing) {
        answer if answer / REFUSAL == 4 && listing.len() < 10 => ROOM,
        answer => answer,
    };
    assert!(caught(several, room_before_mesh));
    assert!(caught_by("triangles alone", room_before_mesh));
}

#[test]
fn wrong_room_is_caught() {
    // more asked for than is needed, and less
    let more: PointList = |text, listing| match right(text, listing) {
        answer if answer == listing.len() as u64 => ROOM,
        answer => answer,
    };
    let less: PointList = |text, listing| {
        let mut room = vec![0; listing.len() + 1];
        let answer = right(text, &mut room);
        let written = listing.len().min(answer as usize);
        if answer < REFUSAL {
            listing[..written].copy_from_slice(&room[..written]);
        }
        answer
    };
    for room in [more, less] {
        assert!(caught_by("points alone", room));
        assert!(caught(several, room));
        assert!(caught(limits::compare, room));
    }
}

#[test]
fn wrong_bytes_are_caught() {
    // a header for a refusal
    let header: PointList = |text, listing| {
        let answer = right(text, listing);
        if answer >= REFUSAL && listing.len() >= 10 {
            listing[..10].copy_from_slice(b" 12     1\n");
        }
        answer
    };
    // a byte behind the listing
    let behind: PointList = |text, listing| {
        let answer = right(text, listing);
        if let Some(next) = listing.get_mut(answer as usize) {
            *next = 0;
        }
        answer
    };
    // the text
    let text: PointList = |text, listing| {
        let answer = right(text, listing);
        if let Some(first) = text.first_mut() {
            *first = b'0';
        }
        answer
    };
    for engine in [header, behind, text] {
        assert!(caught_by(ONE_OF_EACH, engine));
        assert!(caught(several, engine));
    }
    // the number of points returned
    assert!(caught(answers::compare, |text, listing| {
        match right(text, listing) {
            length @ 0..REFUSAL => length / 10 - 1,
            refusal => refusal,
        }
    }));
}

/// An engine that lists these rows.
fn rows(answers: &[u8], row: fn(usize, u8) -> String) -> Vec<u8> {
    let rows: String = (0..).zip(answers).map(|(i, a)| row(i, *a)).collect();
    format!("  0     0\n{rows}").into_bytes()
}

#[test]
fn wrong_listings_are_caught() {
    let listings: [PointList; 5] = [
        // points from 1
        by!(|engine| engine.listed =
            |answers| rows(answers, |i, a| format!("{:>6}{a:>3}\n", i + 1))),
        // filled with zeros, and left-justified
        by!(|engine| engine.listed = |answers| rows(answers, |i, a| format!("{i:06}{a:>3}\n"))),
        by!(|engine| engine.listed = |answers| rows(answers, |i, a| format!("{i:<6}{a:>3}\n"))),
        // other widths
        by!(|engine| engine.listed = |answers| rows(answers, |i, a| format!("{i:>3}{a:>6}\n"))),
        // no header
        by!(|engine| engine.listed = |answers| listed(answers)[10..].to_vec()),
    ];
    for (place, listing) in listings.into_iter().enumerate() {
        assert!(caught(answers::compare, listing), "{place}");
        assert!(caught(limits::compare, listing), "{place}");
    }
    // numbers of one digit
    assert!(caught(
        limits::compare,
        by!(|engine| engine.listed =
            |answers| rows(answers, |i, a| format!("{:>6}{a:>3}\n", i % 10)))
    ));
}

#[test]
fn wrong_answers_are_caught() {
    let engines: [PointList; 5] = [
        // the first repeated, and each that there is throughout
        by!(|engine| engine.answers = |mesh, points| {
            let mut answers = (RIGHT.answers)(mesh, points);
            let first = answers.first().copied().unwrap_or(0);
            answers.fill(first);
            answers
        }),
        by!(|engine| engine.answers = |_, points| vec![OUTSIDE as u8; points.len()]),
        by!(|engine| engine.answers = |_, points| vec![INSIDE as u8; points.len()]),
        by!(|engine| engine.answers = |_, points| vec![UNDECIDED as u8; points.len()]),
        // undecided points called outside
        by!(|engine| engine.answers = |mesh, points| {
            let undecided = |a: &u8| u64::from(*a) == UNDECIDED;
            let mut answers = (RIGHT.answers)(mesh, points);
            answers
                .iter_mut()
                .filter(|a| undecided(a))
                .for_each(|a| *a = 0);
            answers
        }),
    ];
    for (place, engine) in engines.into_iter().enumerate() {
        assert!(caught(answers::compare, engine), "{place}");
    }
}

/// The mesh with these coordinates.
fn placed(column: &Column, number: fn(f64) -> f64) -> Mesh {
    let mut mesh = column.mesh();
    mesh.coords.iter_mut().for_each(|x| *x = number(*x));
    mesh
}

/// The points with these coordinates.
fn moved(column: &Column, number: fn(f64) -> f64) -> Vec<Point> {
    let points = column.points().into_iter();
    points.map(|p| p.map(number)).collect()
}

fn single(x: f64) -> f64 {
    f64::from(x as f32)
}

#[test]
fn wrong_meshes_are_caught() {
    let meshes: [PointList; 5] = [
        // corners counted from 1
        by!(|engine| engine.mesh = |column| {
            let mut mesh = column.mesh();
            let corners = mesh.corners.iter_mut();
            corners.for_each(|v| *v = v.saturating_sub(1));
            mesh
        }),
        // numbers of single precision
        by!(|engine| engine.mesh = |column| placed(column, single)),
        by!(|engine| engine.points = |column| moved(column, single)),
        // points without their sign
        by!(|engine| engine.points = |column| moved(column, f64::abs)),
        // nanometres taken for metres: the products are rounded
        by!(|engine| {
            engine.mesh = |column| placed(column, |x| x * 1e-9);
            engine.points = |column| moved(column, |x| x * 1e-9);
        }),
    ];
    for (place, mesh) in meshes.into_iter().enumerate() {
        assert!(caught(answers::compare, mesh), "{place}");
    }
}
