//! The check that the program `csx_answers` counts right: the sample as it is, with wrong
//! answers, and with records that cannot be read.

use std::ops::Range;

use super::record::{
    ANSWERS, BUFFERS, COORDS, CORNERS, Kind as RecordKind, NONE, PLACES, Record, WORK, WRITTEN,
    line,
};
use crate::kinds::columns::shown;
use crate::kinds::meshes::inputs::pick;
use crate::plan::Plan;
use crate::program::Ran;
use crate::random::Random;
use crate::report::{Kind, Report, Value};

/// A run of the program under test, with this on its standard input.
pub type Run<'a> = &'a dyn Fn(&[u8]) -> Ran;

/// An input, and what the program is to count in it: it ends at a record that cannot be
/// read.
#[derive(Clone, Default)]
struct Given {
    text: String,
    equal: u64,
    different: u64,
    unreadable: u64,
}

impl Given {
    /// These records, all of which are right.
    fn right(records: &[Record]) -> Self {
        let mut given = Self::default();
        records.iter().for_each(|record| given.equal(record));
        given
    }

    fn equal(&mut self, record: &Record) {
        self.text.push_str(&record.text());
        self.equal += 1;
    }

    fn different(&mut self, record: &Record) {
        self.text.push_str(&record.text());
        self.different += 1;
    }

    fn unreadable(&mut self, text: &str) {
        self.text.push_str(text);
        self.unreadable += 1;
    }

    /// What is to be printed.
    fn printed(&self) -> String {
        printed(self.equal, self.different, self.unreadable)
    }
}

/// What the program prints of these counts.
pub fn printed(equal: u64, different: u64, unreadable: u64) -> String {
    format!("equal {equal}\ndifferent {different}\nunreadable {unreadable}\n")
}

/// What a run came to, in words.
#[derive(Clone, Copy)]
struct Outcome<'a>(&'a str);

impl Value for Outcome<'_> {
    fn same(self, other: Self) -> bool {
        self.0 == other.0
    }

    fn text(self) -> String {
        shown(self.0.as_bytes())
    }
}

/// The program under test, the sample, and the line that it is compared in.
struct Runner<'a> {
    run: Run<'a>,
    records: &'a [Record],
    kind: Kind,
    random: &'a mut Random,
}

impl<'a> Runner<'a> {
    /// A few records, and one of this kind.
    fn up_to(&self, kind: RecordKind) -> (&'a [Record], &'a Record) {
        let record = self.records.iter().find(|record| record.kind == kind);
        (&self.records[..9], record.expect("a record of each kind"))
    }

    fn compare(&mut self, given: &Given, what: &str) {
        let ran = (self.run)(given.text.as_bytes());
        let mut got = String::from_utf8_lossy(&ran.output).into_owned();
        if ran.status != Some(0) || !ran.message.is_empty() {
            let message = String::from_utf8_lossy(&ran.message);
            got = format!("{got}status {:?}, message {message}", ran.status);
        }
        let want = given.printed();
        self.kind
            .compare_for(Outcome(&got), Outcome(&want), || what.to_string());
    }

    /// Gives the records that this changes, changed, together and a few alone among
    /// those that are right. Each of them is to be counted as different.
    fn changed(&mut self, what: &str, change: impl Fn(&Record, &mut Random) -> Option<Record>) {
        let mut all = Given::default();
        let mut changed = Vec::new();
        for (place, record) in self.records.iter().enumerate() {
            if let Some(record) = change(record, self.random) {
                all.different(&record);
                changed.push((place, record));
            }
        }
        if changed.is_empty() {
            return;
        }
        self.compare(&all, what);
        for _ in 0..ALONE {
            let (place, record) = &changed[pick(changed.len(), self.random)];
            let mut given = Given::right(&self.records[..*place]);
            given.different(record);
            let behind = &self.records[place + 1..];
            behind.iter().for_each(|record| given.equal(record));
            self.compare(&given, what);
        }
    }
}

/// How many records are given with a change each among those that are right.
const ALONE: usize = 3;

/// A sort of inputs, with its name.
type Sort = (&'static str, fn(&mut Runner));

const SORTS: [Sort; 5] = [
    ("the sample", as_it_is),
    ("other numbers returned", returned),
    ("other numbers in the buffers", held),
    ("records that cannot be read", unreadable),
    ("an end inside a record", cut),
];

/// Compares runs, a line for each sort of inputs.
pub fn compare(report: &mut Report, plan: &Plan, records: &[Record], run: Run) {
    for (name, sort) in SORTS {
        let name = format!("replay, {name}");
        let mut runner = Runner {
            run,
            records,
            random: &mut plan.random(&name),
            kind: Kind::new(name),
        };
        sort(&mut runner);
        report.add(runner.kind);
    }
}

fn as_it_is(runner: &mut Runner) {
    runner.compare(&Given::default(), "no records");
    runner.compare(&Given::right(runner.records), "the sample");
    for kind in RecordKind::ALL {
        let of_kind = runner.records.iter().filter(|record| record.kind == kind);
        let of_kind: Vec<Record> = of_kind.cloned().collect();
        runner.compare(&Given::right(&of_kind), kind.name());
    }
}

fn returned(runner: &mut Runner) {
    for (what, step) in [("one more returned", 1), ("one less returned", u64::MAX)] {
        runner.changed(what, |record, _| {
            let answer = record.returned.wrapping_add(step);
            Some(record.clone().returned(answer))
        });
    }
}

/// How often any element of a buffer is changed.
const TIMES: usize = 4;

/// For each buffer, what it holds after the call, written or not.
fn held(runner: &mut Runner) {
    for buffer in 0..BUFFERS {
        for _ in 0..TIMES {
            runner.changed("any element after the call", |record, random| {
                let mut record = record.clone();
                let mut after = record.after(buffer);
                let last = after.len().checked_sub(1)?;
                let element = &mut after[pick(last + 1, random)];
                *element ^= match buffer {
                    // an infinity with another last bit would be none
                    ..CORNERS if f64::from_bits(*element).is_infinite() => 1 << 63,
                    _ => 1,
                };
                record.lists[WRITTEN + buffer] = after;
                Some(record)
            });
        }
    }
}

/// A way to make a record one that cannot be read: its line.
type Spoil = fn(&Record, &mut Random) -> String;

const SPOILS: [Spoil; 9] = [
    |record, random| {
        let word = pick(1 + record.words().len(), random);
        wrong_digit(record, word, random)
    },
    |record, random| {
        let kinds = [0, 7, 255, u64::MAX];
        line(kinds[pick(kinds.len(), random)], &record.words())
    },
    // more places than a buffer can have
    |record, random| with_size(record, PLACES as u64 + 1, random),
    |record, random| with_size(record, u64::MAX, random),
    // what stands for no word
    |record, random| with_element(record, 0..BUFFERS, NONE, random),
    |record, _| record.clone().returned(NONE).text(),
    // what is no float, no number of 32 bits, or no byte
    |record, random| with_element(record, 0..CORNERS, f64::NAN.to_bits(), random),
    |record, random| with_element(record, CORNERS..WORK, 1 << 32, random),
    |record, random| with_element(record, ANSWERS..BUFFERS, 256, random),
];

/// Those of some kinds of records.
const SPOILS_OF: [(RecordKind, Spoil); 6] = [
    // forms that no shape has
    (RecordKind::Shape, |record, _| {
        with_list(record, WORK, |list| list[0] = 0)
    }),
    (RecordKind::Shape, |record, _| {
        with_list(record, WORK, |list| list[0] = 13)
    }),
    // a question that has too few numbers, or too many
    (RecordKind::Shape, |record, _| {
        with_list(record, WORK, |list| list.truncate(1))
    }),
    (RecordKind::Shape, |record, _| {
        with_list(record, COORDS, |list| list.truncate(10))
    }),
    (RecordKind::Root, |record, _| {
        with_list(record, COORDS, Vec::clear)
    }),
    (RecordKind::Root, |record, _| {
        with_list(record, COORDS, |list| list.push(0))
    }),
];

/// The line with a byte of this word that is no digit.
fn wrong_digit(record: &Record, word: usize, random: &mut Random) -> String {
    let wrong = b"gGAF/:`@-+x";
    let mut line = record.text().into_bytes();
    line[17 * word + pick(16, random)] = wrong[pick(wrong.len(), random)];
    String::from_utf8(line).expect("plain letters")
}

/// The line with this for the number of places of a buffer.
fn with_size(record: &Record, size: u64, random: &mut Random) -> String {
    let mut words = record.words();
    words[pick(BUFFERS, random)] = size;
    line(record.kind as u64, &words)
}

/// The line with one place more in one of these buffers, and this element there before
/// the call or after it.
fn with_element(
    record: &Record,
    buffers: Range<usize>,
    element: u64,
    random: &mut Random,
) -> String {
    let buffer = buffers.start + pick(buffers.len(), random);
    let mut record = record.clone();
    let mut all = record.after(buffer);
    let (before, after) = match random.flip() {
        true => (element, 0),
        false => (0, element),
    };
    record.lists[buffer].push(before);
    all.push(after);
    record.lists[WRITTEN + buffer] = all;
    record.text()
}

/// The line with another list before the call.
fn with_list(record: &Record, place: usize, change: impl Fn(&mut Vec<u64>)) -> String {
    let mut record = record.clone();
    change(&mut record.lists[place]);
    record.text()
}

/// Gives a record that cannot be read behind some records and before some.
fn spoiled(runner: &mut Runner, spoil: Spoil, kind: RecordKind) {
    let (before, record) = runner.up_to(kind);
    let mut given = Given::right(before);
    given.unreadable(&spoil(record, runner.random));
    given.text.push_str(&Given::right(before).text);
    runner.compare(&given, "a record that cannot be read");
}

fn unreadable(runner: &mut Runner) {
    for spoil in SPOILS {
        for kind in RecordKind::ALL {
            spoiled(runner, spoil, kind);
        }
    }
    for (kind, spoil) in SPOILS_OF {
        spoiled(runner, spoil, kind);
    }
}

/// Behind some records, the beginning of one more.
fn cut(runner: &mut Runner) {
    for kind in RecordKind::ALL {
        let (before, record) = runner.up_to(kind);
        let line = record.text();
        let last = line.len() - 1;
        let any = 1 + pick(last, runner.random);
        for end in [1, 15, 16, 17, 18, 153, 169, 170, 171, any, last - 16, last] {
            let mut given = Given::right(before);
            given.unreadable(&line[..end]);
            runner.compare(&given, &format!("{end} bytes of a record"));
        }
    }
}

#[cfg(test)]
mod tests {
    use std::sync::LazyLock;

    use super::super::records;
    use super::super::replayed::{ALL, Tests, replay};
    use super::*;
    use crate::kinds::tests;

    static SAMPLE: LazyLock<Vec<Record>> = LazyLock::new(|| records().expect("all that is wanted"));

    /// Whether the check fails a program that does this.
    fn fails(program: impl Fn(&[u8]) -> Ran) -> bool {
        // so that there are some of each kind
        let few: Vec<Record> = SAMPLE.iter().step_by(25).cloned().collect();
        tests::fails(|report, plan| compare(report, plan, &few, &program))
    }

    /// A run that prints this.
    fn prints(text: String) -> Ran {
        Ran {
            status: Some(0),
            output: text.into_bytes(),
            ..Ran::default()
        }
    }

    /// Whether the check fails a program that leaves out a test.
    fn caught(leave_out: fn(&mut Tests)) -> bool {
        let mut tests = ALL;
        leave_out(&mut tests);
        fails(|text| prints(replay(&tests, text)))
    }

    #[test]
    fn the_engine_does_what_the_sample_says() {
        let given = Given::right(&SAMPLE);
        assert_eq!(replay(&ALL, given.text.as_bytes()), given.printed());
    }

    #[test]
    fn a_right_program_passes() {
        assert!(!caught(|_| {}));
    }

    #[test]
    fn each_test_that_is_left_out_is_seen() {
        assert!(caught(|tests| tests.returned = false));
        assert!(caught(|tests| tests.held = false));
        assert!(caught(|tests| tests.digits = false));
        assert!(caught(|tests| tests.before = false));
        assert!(caught(|tests| tests.after = false));
        assert!(caught(|tests| tests.kinds = false));
        assert!(caught(|tests| tests.sizes = false));
        assert!(caught(|tests| tests.end = false));
    }

    #[test]
    fn a_program_that_prints_the_same_always_fails() {
        let given = Given::right(&SAMPLE);
        assert!(fails(|_| prints(given.printed())));
        assert!(fails(|text| prints(replay(&ALL, text) + "\n")));
    }

    #[test]
    fn a_message_and_an_exit_status_fail() {
        for (status, message) in [(Some(1), ""), (Some(0), "oh"), (None, "")] {
            assert!(fails(|text| Ran {
                status,
                message: message.into(),
                ..prints(replay(&ALL, text))
            }));
        }
    }
}
