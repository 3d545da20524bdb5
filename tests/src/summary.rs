//! The summary of a run in both forms of csx: what each run counted, as a file, and
//! the document that is made of two such files.

use crate::kinds::lists::by_csx::{BOTH, EQUAL_VOTES, OWN_BOX};
use crate::kinds::meshes::OTHER_ZEROS;
use crate::kinds::rules::{OTHER_ZERO, UNLIKE_ZEROS};
use crate::kinds::shapes::hypot::{OTHER_ANSWER, OTHER_DISTANCE};
use crate::kinds::trees::building::{FLAT, OTHER_HALVES, OTHER_ORDER, TIED};
use crate::report::{Counts, Report, Subject};

/// A row of the table of the closed list.
struct Row {
    entry: &'static str,
    /// What is counted.
    text: &'static str,
    /// The names that it is counted under.
    names: &'static [&'static str],
    /// Whether csx with the feature `port` has the change, so that nothing is
    /// counted.
    changed: bool,
    /// Whether a run fails that counts nothing.
    needed: bool,
}

const ROWS: [Row; 13] = [
    Row {
        entry: "own boxes",
        text: "answers for a point that are not csx's, since it tests no own box in a leaf",
        names: &[OWN_BOX],
        changed: true,
        needed: true,
    },
    Row {
        entry: "equal votes",
        text: "answers that are not csx's, since it asks for a winding number",
        names: &[EQUAL_VOTES],
        changed: true,
        needed: true,
    },
    Row {
        entry: "own boxes and equal votes",
        text: "answers that are not csx's, and neither of the two alone explains it",
        names: &[BOTH],
        changed: true,
        needed: true,
    },
    Row {
        entry: "`hypot`",
        text: "distances from an edge of a polygon to which `f64::hypot` gives other bits",
        names: &[OTHER_DISTANCE],
        changed: false,
        needed: true,
    },
    Row {
        entry: "`hypot`",
        text: "answers for a point of a polygon that `f64::hypot` would change",
        names: &[OTHER_ANSWER],
        changed: false,
        needed: true,
    },
    Row {
        entry: "refusals",
        text: "calls turned down by questions 1, 2 and 8 to 11, which csx does not ask",
        names: &[
            "refusal 1",
            "refusal 2",
            "refusal 8",
            "refusal 9",
            "refusal 10",
            "refusal 11",
        ],
        changed: false,
        // all refusals are needed for themselves
        needed: false,
    },
    Row {
        entry: "equal median centres",
        text: "trees built with equal centres at a median",
        names: &[TIED],
        changed: false,
        needed: true,
    },
    Row {
        entry: "equal median centres",
        text: "of these, trees of csx whose leaves have other items",
        names: &[OTHER_HALVES],
        changed: true,
        needed: true,
    },
    Row {
        entry: "equal median centres",
        text: "trees of csx with a leaf whose items do not ascend",
        names: &[OTHER_ORDER],
        changed: true,
        needed: true,
    },
    Row {
        entry: "zeros",
        text: "minima and maxima of two zeros of unlike sign",
        names: &[UNLIKE_ZEROS],
        changed: false,
        needed: true,
    },
    Row {
        entry: "zeros",
        text: "of these, those where Rust keeps the right one",
        names: &[OTHER_ZERO],
        changed: false,
        needed: false,
    },
    Row {
        entry: "zeros",
        text: "zeros in boxes to which csx gives the other sign",
        names: &[OTHER_ZEROS],
        changed: true,
        needed: false,
    },
    Row {
        entry: "zeros",
        text: "trees built with a greatest spread of zero and no equal centres at a median: csx leaves the axis to Rust",
        names: &[FLAT],
        changed: true,
        needed: true,
    },
];

/// What each question is about, and what csx does there.
const QUESTIONS: [(&str, &str); 12] = [
    ("the number of coordinates", "does not ask"),
    (
        "the numbers of faces and corners, and the face ends",
        "does not ask",
    ),
    ("faces of fewer than three corners", "refuses too"),
    ("corners that are no vertices", "refuses too"),
    ("coordinates that are not finite", "refuses too"),
    ("buffers that are too short", "has none lent"),
    ("trees that break a rule", "has none lent"),
    ("the numbers of points and answers", "does not ask"),
    ("points that are not finite", "does not ask"),
    ("numbers of a shape that are not finite", "does not ask"),
    ("the length of a shape's list", "does not ask"),
    ("lines of a column text", "has no such text"),
];

/// The name that the refusals by a question are counted under.
fn refusal(number: usize) -> String {
    format!("refusal {number}")
}

/// Fails a report that lacks a count of the closed list.
pub fn need_differences(report: &mut Report, port: bool) {
    let rows = ROWS
        .iter()
        .filter(|row| row.needed && !(port && row.changed));
    for name in rows.flat_map(|row| row.names) {
        report.need(name);
    }
}

/// Fails a report that lacks a count of a refusal.
pub fn need_refusals(report: &mut Report) {
    for number in 1..=QUESTIONS.len() {
        report.need(&refusal(number));
    }
}

/// What a run came to.
#[derive(Clone, Debug, PartialEq)]
pub struct Run {
    pub size: String,
    pub seed: u64,
    /// Whether csx had the feature `port`.
    pub port: bool,
    pub subjects: Vec<Subject>,
    pub counts: Counts,
}

impl Run {
    /// The run as it is kept in a file: a line for the run, for each subject and for
    /// each count, with tabs between its parts.
    pub fn text(&self) -> String {
        let mut text = format!("run\t{}\t{}\t{}\n", self.size, self.seed, self.port);
        for subject in &self.subjects {
            let Subject {
                name,
                compared,
                differed,
            } = subject;
            text += &format!("subject\t{name}\t{compared}\t{differed}\n");
        }
        for (name, times) in &self.counts {
            text += &format!("count\t{name}\t{times}\n");
        }
        text
    }

    /// The run that a file has, if it is whole.
    pub fn read(text: &str) -> Option<Self> {
        let mut lines = text
            .lines()
            .map(|line| line.split('\t').collect::<Vec<_>>());
        let first = lines.next()?;
        let ["run", size, seed, port] = first[..] else {
            return None;
        };
        let mut run = Self {
            size: size.to_string(),
            seed: seed.parse().ok()?,
            port: port.parse().ok()?,
            subjects: Vec::new(),
            counts: Counts::new(),
        };
        for line in lines {
            match line[..] {
                ["subject", name, compared, differed] => run.subjects.push(Subject {
                    name: name.to_string(),
                    compared: compared.parse().ok()?,
                    differed: differed.parse().ok()?,
                }),
                ["count", name, times] => {
                    run.counts.insert(name.to_string(), times.parse().ok()?);
                }
                _ => return None,
            }
        }
        Some(run)
    }

    /// How often these were counted.
    fn counted(&self, names: &[impl AsRef<str>]) -> u64 {
        let times = |name| self.counts.get(name).copied().unwrap_or(0);
        names.iter().map(|name| times(name.as_ref())).sum()
    }

    fn names(&self) -> impl Iterator<Item = &str> {
        self.subjects.iter().map(|subject| &subject.name[..])
    }
}

const INTRODUCTION: &str = "\
# The large comparison

`make compare` made this document and makes it again. The same size and seed give the same document.

The engine's compiled functions were called with fixed inputs and with random ones. Their answers, and every byte lent to them, were compared with plain lines written from document 01, with Rust's functions and with csx's. csx was built in two forms ([oracle/README.md](../oracle/README.md)): as published but for `hypot`, and with the feature `port`, which has the other changes of document 01's closed list. [tests/README.md](../tests/README.md) says what is compared with what, and on which inputs.
";

const COMPARED: &str = "
## What was compared

A comparison is of one value, of the answer for one point, or of a call with its answer and every list lent to it. One call can have several: with document 01, with csx and with Rust. 0 differed means that on these inputs every answer and every byte was the one expected. Where csx's answer is another, it is no difference only if an entry of the closed list explains it, and then it is counted below. Of other inputs a comparison says nothing; the proofs do.

| subject | compared, csx as published but for `hypot` | differed | compared, csx with `port` | differed |
|---|---:|---:|---:|---:|
";

const LISTED: &str = "
## The closed list

How often each entry of document 01's closed list ([DIFFERENCES.md](DIFFERENCES.md)) was seen. A dash: csx has the change in this form, and there is nothing to count. An answer for a point of a list is counted for csx with its own tree and again for csx with the lent one. `hypot` is changed in both forms: csx's rule for polygons with `f64::hypot` is a few lines of the driver, which with the changed `hypot` give csx's answers. Where centres at a median are equal or a spread is zero, csx's items and boxes are compared in the second form alone.

| entry | counted | csx as published but for `hypot` | csx with `port` |
|---|---|---:|---:|
";

const REFUSED: &str = "
## Refusals

How many calls each of document 01's questions was to turn down, and did.

| question | about | csx | csx as published but for `hypot` | csx with `port` |
|---|---|---|---:|---:|
";

/// The document that sums up a run with csx as published and one with the feature
/// `port`.
pub fn document(published: &Run, port: &Run) -> Result<String, &'static str> {
    if published.port || !port.port {
        return Err("the first run has to be without the feature port, the second with it");
    }
    if (&published.size, published.seed) != (&port.size, port.seed) {
        return Err("the runs are not of one size and seed");
    }
    if !published.names().eq(port.names()) {
        return Err("the runs are not about the same subjects");
    }
    let mut text = INTRODUCTION.to_string();
    let (size, seed) = (&published.size, published.seed);
    text += &format!("\nSize: {size}. Seed: {seed}.\n");
    text += COMPARED;
    for (a, b) in published.subjects.iter().zip(&port.subjects) {
        text += &subject_row(a, b);
    }
    text += &subject_row(&total(published), &total(port));
    text += LISTED;
    for row in &ROWS {
        text += &listed_row(row, published, port);
    }
    text += REFUSED;
    for (place, (about, csx)) in QUESTIONS.iter().enumerate() {
        let names = [refusal(place + 1)];
        let [a, b] = [published, port].map(|run| grouped(run.counted(&names)));
        text += &format!("| {} | {about} | {csx} | {a} | {b} |\n", place + 1);
    }
    Ok(text)
}

fn total(run: &Run) -> Subject {
    Subject {
        name: "total".to_string(),
        compared: run.subjects.iter().map(|s| s.compared).sum(),
        differed: run.subjects.iter().map(|s| s.differed).sum(),
    }
}

fn subject_row(a: &Subject, b: &Subject) -> String {
    let [a_compared, b_compared] = [a, b].map(|s| grouped(s.compared));
    let [a_differed, b_differed] = [a, b].map(|s| grouped(s.differed));
    let name = &a.name;
    format!("| {name} | {a_compared} | {a_differed} | {b_compared} | {b_differed} |\n")
}

fn listed_row(row: &Row, published: &Run, port: &Run) -> String {
    let first = grouped(published.counted(row.names));
    let second = match row.changed {
        true => "-".to_string(),
        false => grouped(port.counted(row.names)),
    };
    let Row { entry, text, .. } = row;
    format!("| {entry} | {text} | {first} | {second} |\n")
}

/// A number with a comma before each three digits.
fn grouped(number: u64) -> String {
    let digits = number.to_string();
    let mut text = String::new();
    for (place, digit) in digits.chars().enumerate() {
        if place > 0 && (digits.len() - place).is_multiple_of(3) {
            text.push(',');
        }
        text.push(digit);
    }
    text
}

#[cfg(test)]
mod tests {
    use super::*;

    fn run(port: bool) -> Run {
        let subject = |name: &str, compared| Subject {
            name: name.to_string(),
            compared,
            differed: 0,
        };
        let counts = [
            (OWN_BOX, 3),
            ("refusal 1", 1000),
            ("refusal 10", 7),
            ("as csx", 9),
        ];
        Run {
            size: "large".to_string(),
            seed: 754,
            port,
            subjects: vec![subject("shapes", 1_234_567), subject("lists", 33)],
            counts: counts.map(|(name, n)| (name.to_string(), n)).into(),
        }
    }

    #[test]
    fn numbers_are_grouped() {
        let groups = [0, 12, 123, 1234, 123_456, 1_234_567].map(grouped);
        let wanted = ["0", "12", "123", "1,234", "123,456", "1,234,567"];
        assert_eq!(groups, wanted);
    }

    #[test]
    fn a_run_is_read_as_it_was_written() {
        let run = run(true);
        assert_eq!(Run::read(&run.text()), Some(run));
    }

    #[test]
    fn a_file_that_is_no_run_is_not_read() {
        assert_eq!(Run::read(""), None);
        assert_eq!(Run::read("run\tlarge\t754\n"), None);
        assert_eq!(Run::read("run\tlarge\tx\ttrue\n"), None);
        assert_eq!(Run::read("run\tlarge\t754\ttrue\ncount\tx\n"), None);
    }

    #[test]
    fn the_document_has_the_sums_of_both_runs() {
        let text = document(&run(false), &run(true)).expect("two runs that match");
        for line in [
            "Size: large. Seed: 754.",
            "| shapes | 1,234,567 | 0 | 1,234,567 | 0 |",
            "| total | 1,234,600 | 0 | 1,234,600 | 0 |",
            "since it tests no own box in a leaf | 3 | - |",
            "which csx does not ask | 1,007 | 1,007 |",
            "| 1 | the number of coordinates | does not ask | 1,000 | 1,000 |",
        ] {
            assert!(text.contains(line), "{line}");
        }
    }

    #[test]
    fn runs_that_do_not_match_have_no_document() {
        let (published, port) = (run(false), run(true));
        assert!(document(&port, &published).is_err());
        assert!(document(&published, &published).is_err());
        let seed = Run {
            seed: 1,
            ..port.clone()
        };
        assert!(document(&published, &seed).is_err());
        let subjects = Vec::new();
        assert!(document(&published, &Run { subjects, ..port }).is_err());
    }

    /// Whether a report fails that counts everything but this.
    fn fails_without(left_out: &str, port: bool) -> bool {
        let mut report = Report::new();
        let refusals = (1..=QUESTIONS.len()).map(refusal);
        let listed = ROWS.iter().flat_map(|row| row.names);
        for name in listed.map(|name| name.to_string()).chain(refusals) {
            let times = u64::from(name != left_out);
            report.count(name, times);
        }
        need_differences(&mut report, port);
        need_refusals(&mut report);
        report.failed()
    }

    #[test]
    fn a_report_without_a_needed_count_fails() {
        assert!(!fails_without("nothing", false));
        assert!(fails_without(OWN_BOX, false));
        assert!(fails_without(OTHER_ANSWER, false));
        assert!(fails_without("refusal 7", false));
        assert!(!fails_without(OTHER_ZERO, false));
        // csx has the change
        assert!(!fails_without(OWN_BOX, true));
        assert!(fails_without(OTHER_ANSWER, true));
    }
}
