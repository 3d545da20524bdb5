//! The program on column texts: what it prints and how it ends, for texts on its
//! standard input that come at once, in pieces, as a file or without an end, and for
//! inputs that cannot be read.

use super::expected::{LINE, LINES, line, printed};
use super::texts::{EXAMPLE, EXAMPLE_LISTING, KEPT, any_column, change, column};
use super::{limits, shown};
use crate::plan::Plan;
use crate::program::{Input, Ran};
use crate::random::Random;
use crate::report::{Kind, Report, Value};

/// A run of the program under test.
pub type Run<'a> = &'a dyn Fn(Input) -> Ran;

/// How much the program may read: as many lines as are accepted, and a byte.
const MOST: u64 = (LINE * LINES + 1) as u64;

/// What a run came to.
#[derive(Clone, Copy, PartialEq)]
struct Outcome<'a> {
    status: Option<i32>,
    output: &'a [u8],
    /// Whether there was a message on standard error.
    message: bool,
    /// Whether it read no more than it may.
    sparing: bool,
}

impl<'a> Outcome<'a> {
    fn new(ran: &'a Ran) -> Self {
        Self {
            status: ran.status,
            output: &ran.output,
            message: !ran.message.is_empty(),
            sparing: ran.read.is_none_or(|read| read <= MOST),
        }
    }

    /// As it should be where this is to be printed.
    fn printed(output: &'a [u8]) -> Self {
        Self {
            status: Some(0),
            output,
            message: false,
            sparing: true,
        }
    }

    /// As it should be where the input cannot be read.
    const UNREAD: Self = Self {
        status: Some(0),
        output: &[],
        message: true,
        sparing: true,
    };
}

impl Value for Outcome<'_> {
    fn same(self, other: Self) -> bool {
        self == other
    }

    fn text(self) -> String {
        let status = match self.status {
            Some(status) => format!("status {status}"),
            None => "no exit status".to_string(),
        };
        let message = if self.message { "a" } else { "no" };
        let read = if self.sparing { "" } else { ", too much read" };
        format!("{status}, {}, {message} message{read}", shown(self.output))
    }
}

/// The program under test, and the line that it is compared in.
struct Runner<'a> {
    run: Run<'a>,
    kind: Kind,
    random: &'a mut Random,
}

impl Runner<'_> {
    fn compare(&mut self, input: Input, want: Outcome) {
        let ran = (self.run)(input);
        let text = || match input {
            Input::Pipe(text, size) => format!("{} in pieces of {size}", shown(text)),
            Input::Endless(text) => format!("{} without an end", shown(text)),
            Input::File(text) => format!("a file of {}", shown(text)),
            Input::Failing(text) => format!("{} and then a failed read", shown(text)),
            Input::Directory | Input::Unreadable | Input::Closed => format!("{input:?}"),
        };
        self.kind.compare_for(Outcome::new(&ran), want, text);
    }

    /// Runs the program on a text, as a file or through a pipe.
    fn ask(&mut self, text: &[u8]) {
        let input = match self.random.flip() {
            true => Input::File(text),
            false => Input::Pipe(text, usize::MAX),
        };
        self.compare(input, Outcome::printed(&printed(text)));
    }
}

/// A sort of inputs, with its name.
type Sort = (&'static str, fn(&mut Runner));

const SORTS: [Sort; 7] = [
    ("document 01's example", example),
    ("limits", at_the_limits),
    ("kept texts, with changes", changed),
    ("random texts", random_texts),
    ("texts in pieces", in_pieces),
    ("long inputs", long_inputs),
    ("inputs that cannot be read", unreadable),
];

/// Compares runs, a line for each sort of inputs.
pub fn compare(report: &mut Report, plan: &Plan, run: Run) {
    for (name, ask) in SORTS {
        let name = format!("program, {name}");
        let mut runner = Runner {
            run,
            random: &mut plan.random(&name),
            kind: Kind::new(name),
        };
        ask(&mut runner);
        report.add(runner.kind);
    }
}

fn example(runner: &mut Runner) {
    let want = Outcome::printed(EXAMPLE_LISTING.as_bytes());
    runner.compare(Input::Pipe(EXAMPLE.as_bytes(), usize::MAX), want);
    runner.compare(Input::File(EXAMPLE.as_bytes()), want);
}

fn at_the_limits(runner: &mut Runner) {
    for text in limits::texts(runner.random) {
        runner.ask(&text);
    }
}

fn changed(runner: &mut Runner) {
    for kept in &KEPT {
        for most in [0, 1, 1, 1, 2, 2, 3, 3] {
            let mut text = kept.column().text();
            change(&mut text, most, runner.random);
            runner.ask(&text);
        }
    }
}

fn random_texts(runner: &mut Runner) {
    for _ in 0..100 {
        let mut text = any_column(runner.random).text();
        change(&mut text, 2, runner.random);
        runner.ask(&text);
    }
}

/// Texts of a few hundred pieces, so that a read gives a part of a line.
fn in_pieces(runner: &mut Runner) {
    for size in [1, 2, 7, LINE - 1, LINE, LINE + 1, 100] {
        for most in [0, 1] {
            let mut text = column(1000, 8, runner.random).text();
            text.truncate(400 * size / LINE * LINE);
            change(&mut text, most, runner.random);
            runner.compare(Input::Pipe(&text, size), Outcome::printed(&printed(&text)));
        }
    }
}

/// Inputs of many more lines than are accepted, and without an end.
fn long_inputs(runner: &mut Runner) {
    let of_a_kind = |kind| line(kind, [0; 3]).repeat(400);
    let every_kind: String = (0..3).map(of_a_kind).collect();
    let one_kind = line(0, [0; 3]);
    for again in [&one_kind, &every_kind, EXAMPLE, "\0", "\n"] {
        let long = again.repeat((1 << 24) / again.len()).into_bytes();
        let want = printed(&long);
        for input in [
            Input::File(&long),
            Input::Pipe(&long, usize::MAX),
            Input::Endless(&long),
        ] {
            runner.compare(input, Outcome::printed(&want));
        }
    }
}

/// Inputs of which a read fails: the first, or one behind a text.
fn unreadable(runner: &mut Runner) {
    for input in [Input::Directory, Input::Unreadable, Input::Closed] {
        runner.compare(input, Outcome::UNREAD);
    }
    for text in ["", EXAMPLE, &EXAMPLE[..LINE / 2], "\n"] {
        runner.compare(Input::Failing(text.as_bytes()), Outcome::UNREAD);
    }
}

#[cfg(test)]
mod tests {
    use std::mem::discriminant;

    use super::super::expected::{RULES, Rules};
    use super::*;
    use crate::kinds::tests;

    /// A program that is right.
    fn right(input: Input) -> Ran {
        by(input, printed)
    }

    /// A program that prints this for a text. One without an end begins with a text
    /// that is refused.
    fn by(input: Input, printed: fn(&[u8]) -> Vec<u8>) -> Ran {
        let (Input::Pipe(text, _) | Input::Endless(text) | Input::File(text)) = input else {
            return Ran {
                status: Some(0),
                message: b"standard input: no read\n".to_vec(),
                ..Ran::default()
            };
        };
        Ran {
            status: Some(0),
            output: printed(text),
            read: Some(MOST.min(text.len() as u64)),
            ..Ran::default()
        }
    }

    fn fails(run: Run) -> bool {
        tests::fails(|report, plan| compare(report, plan, run))
    }

    fn refused(ran: &Ran) -> bool {
        !ran.output.starts_with(b"  0     0\n")
    }

    #[test]
    fn a_right_program_passes() {
        assert!(!fails(&right));
    }

    #[test]
    fn wrong_output_is_caught() {
        // nothing for a refusal, a line feed more, and less
        assert!(fails(&|input| {
            let mut ran = right(input);
            if refused(&ran) {
                ran.output.clear();
            }
            ran
        }));
        assert!(fails(&|input| {
            let mut ran = right(input);
            ran.output.push(b'\n');
            ran
        }));
        assert!(fails(&|input| {
            let mut ran = right(input);
            ran.output.pop();
            ran
        }));
        // a listing to which nothing is added for points past 99
        assert!(fails(&|input| {
            let mut ran = right(input);
            ran.output.truncate(1010);
            ran
        }));
    }

    #[test]
    fn wrong_ends_are_caught() {
        // another status for a refusal, and a message
        assert!(fails(&|input| {
            let mut ran = right(input);
            if refused(&ran) {
                ran.status = Some(1);
            }
            ran
        }));
        assert!(fails(&|input| {
            let mut ran = right(input);
            if refused(&ran) {
                ran.message = b"refused".to_vec();
            }
            ran
        }));
        // an input without an end waited for
        assert!(fails(&|input| match input {
            Input::Endless(_) => Ran::default(),
            input => right(input),
        }));
    }

    /// Whether a program that does this after a failed read is found, for each sort of
    /// them.
    fn caught_after(failed: fn(&mut Ran)) -> bool {
        let sorts = [
            Input::Directory,
            Input::Unreadable,
            Input::Closed,
            Input::Failing(b""),
        ];
        sorts.iter().all(|sort| {
            fails(&|input| {
                let mut ran = right(input);
                if discriminant(&input) == discriminant(sort) {
                    failed(&mut ran);
                }
                ran
            })
        })
    }

    #[test]
    fn a_failed_read_that_is_taken_for_the_end_is_caught() {
        // the listing of nothing, which may come with a message
        assert!(caught_after(|ran| *ran = right(Input::File(b""))));
        assert!(caught_after(|ran| ran.output = printed(b"")));
        assert!(caught_after(|ran| ran.status = Some(1)));
        assert!(caught_after(|ran| ran.message.clear()));
        // the listing of what was read
        assert!(fails(&|input| match input {
            Input::Failing(text) => right(Input::File(text)),
            input => right(input),
        }));
    }

    #[test]
    fn wrong_reads_are_caught() {
        // the first piece alone
        assert!(fails(&|input| match input {
            Input::Pipe(text, size) if size < text.len() => right(Input::File(&text[..size])),
            input => right(input),
        }));
        // as many lines as are accepted, and none more
        assert!(fails(&|input| {
            by(input, |text| printed(&text[..text.len().min(LINE * LINES)]))
        }));
        // everything
        assert!(fails(&|input| {
            let mut ran = right(input);
            if let Input::File(text) = input {
                ran.read = Some(text.len() as u64);
            }
            ran
        }));
    }

    #[test]
    fn another_rule_is_caught() {
        assert!(fails(&|input| by(input, |text| {
            let rules = Rules {
                follows: |_, _| true,
                ..RULES
            };
            match rules.read(text) {
                Ok(column) => printed(&column.text()),
                Err(_) => printed(text),
            }
        })));
    }
}
