//! The table of what was compared and how often it differed.

use std::cmp::Ordering;
use std::collections::BTreeMap;
use std::fmt;
use std::process::ExitCode;

/// How many differences of a kind are printed.
const SHOWN: usize = 5;

/// A value that is compared and printed.
pub trait Value: Copy {
    fn same(self, other: Self) -> bool;
    fn text(self) -> String;
}

/// Floats are compared bit for bit, except that any NaN is any other.
impl Value for f64 {
    fn same(self, other: Self) -> bool {
        self.to_bits() == other.to_bits() || self.is_nan() && other.is_nan()
    }

    fn text(self) -> String {
        format!("{:016X} ({self:e})", self.to_bits())
    }
}

impl Value for u64 {
    fn same(self, other: Self) -> bool {
        self == other
    }

    fn text(self) -> String {
        format!("{self:016X}")
    }
}

impl Value for bool {
    fn same(self, other: Self) -> bool {
        self == other
    }

    fn text(self) -> String {
        self.to_string()
    }
}

impl Value for Ordering {
    fn same(self, other: Self) -> bool {
        self == other
    }

    fn text(self) -> String {
        format!("{self:?}")
    }
}

/// One line of the table: a kind of comparison.
pub struct Kind {
    name: String,
    compared: u64,
    differed: u64,
    shown: Vec<String>,
    /// What the kind was to see and did not.
    missing: Vec<String>,
}

impl Kind {
    pub fn new(name: impl Into<String>) -> Self {
        Self {
            name: name.into(),
            compared: 0,
            differed: 0,
            shown: Vec::new(),
            missing: Vec::new(),
        }
    }

    /// Compares what the engine gave for this input with what it should be.
    #[inline]
    pub fn compare<I: Value, R: Value>(&mut self, input: &[I], got: R, want: R) {
        self.compare_for(got, want, || {
            let input: Vec<String> = input.iter().map(|v| v.text()).collect();
            input.join(", ")
        });
    }

    /// The same for an input that is written only if it is printed.
    #[inline]
    pub fn compare_for<R: Value>(&mut self, got: R, want: R, input: impl Fn() -> String) {
        self.compared += 1;
        if !got.same(want) {
            self.differ(got, want, input);
        }
    }

    #[cold]
    fn differ<R: Value>(&mut self, got: R, want: R, input: impl Fn() -> String) {
        #[cfg(test)]
        first::end_here();
        self.differed += 1;
        if self.shown.len() < SHOWN {
            self.shown.push(format!(
                "input {}: got {}, expected {}",
                input(),
                got.text(),
                want.text()
            ));
        }
    }

    /// Says that the kind was to see this and did not, which fails it.
    pub fn miss(&mut self, what: String) {
        self.missing.push(what);
    }
}

impl fmt::Display for Kind {
    fn fmt(&self, f: &mut fmt::Formatter) -> fmt::Result {
        let (name, compared, differed) = (&self.name, self.compared, self.differed);
        write!(f, "{name:<52}{compared:>12}{differed:>12}")?;
        if compared == 0 {
            write!(f, "\n    nothing was compared")?;
        }
        for what in &self.missing {
            write!(f, "\n    never seen: {what}")?;
        }
        for line in &self.shown {
            write!(f, "\n    {line}")?;
        }
        Ok(())
    }
}

/// Comparisons that end at their first difference, for unit tests that ask only whether
/// there is one.
#[cfg(test)]
pub mod first {
    use std::cell::Cell;
    use std::panic::{AssertUnwindSafe, catch_unwind, resume_unwind};

    thread_local! {
        static ENDS: Cell<bool> = const { Cell::new(false) };
    }

    struct Difference;

    /// Runs a comparison up to its first difference. Whether there is one.
    pub fn difference(compare: impl FnOnce()) -> bool {
        ENDS.set(true);
        let ended = catch_unwind(AssertUnwindSafe(compare));
        ENDS.set(false);
        match ended {
            Ok(()) => false,
            Err(why) if why.is::<Difference>() => true,
            Err(why) => resume_unwind(why),
        }
    }

    pub(super) fn end_here() {
        if ENDS.get() {
            resume_unwind(Box::new(Difference));
        }
    }
}

/// A kind, with how often each sort of answer was expected.
pub struct Line<A> {
    pub kind: Kind,
    expected: BTreeMap<A, u64>,
}

impl<A: Ord + fmt::Display> Line<A> {
    pub fn new(name: impl Into<String>) -> Self {
        Self {
            kind: Kind::new(name),
            expected: BTreeMap::new(),
        }
    }

    /// Counts an answer that was expected.
    pub fn see(&mut self, answer: impl Into<A>) {
        self.see_times(answer, 1);
    }

    /// Counts an answer that was expected so many times, if it was.
    pub fn see_times(&mut self, answer: impl Into<A>, times: u64) {
        if times > 0 {
            *self.expected.entry(answer.into()).or_default() += times;
        }
    }

    /// Adds the line to the report. It fails if one of these answers was never
    /// expected: it then says nothing of an engine that never gives it.
    pub fn add_to(mut self, report: &mut Report, needed: &[impl Copy + Into<A>]) {
        for answer in needed {
            let answer: A = (*answer).into();
            if !self.expected.contains_key(&answer) {
                self.kind.miss(answer.to_string());
            }
        }
        report.add(self.kind);
        let mut counts = Vec::new();
        for (answer, times) in self.expected {
            counts.push(format!("{answer} {times}"));
            report.count(answer.to_string(), times);
        }
        report.note(format_args!("expected: {}", counts.join(", ")));
    }
}

/// What some kinds are about, and their sums.
#[derive(Clone, Debug, PartialEq)]
pub struct Subject {
    pub name: String,
    pub compared: u64,
    pub differed: u64,
}

/// How often something was expected or seen, by its name.
pub type Counts = BTreeMap<String, u64>;

/// The sums of the table. Each kind is printed as it is added.
#[derive(Default)]
pub struct Report {
    kinds: u64,
    compared: u64,
    differed: u64,
    lacking: u64,
    subjects: Vec<Subject>,
    counts: Counts,
}

impl Report {
    /// Prints the head of the table.
    pub fn new() -> Self {
        println!("{:<52}{:>12}{:>12}", "kind", "compared", "differed");
        Self::default()
    }

    /// Says what the kinds are about that are added from here on.
    pub fn begin(&mut self, subject: &str) {
        self.subjects.push(Subject {
            name: subject.to_string(),
            compared: 0,
            differed: 0,
        });
    }

    pub fn add(&mut self, kind: Kind) {
        println!("{kind}");
        self.kinds += 1;
        self.compared += kind.compared;
        self.differed += kind.differed;
        self.lacking += u64::from(kind.compared == 0 || !kind.missing.is_empty());
        if let Some(subject) = self.subjects.last_mut() {
            subject.compared += kind.compared;
            subject.differed += kind.differed;
        }
    }

    /// Adds to what is counted under a name.
    pub fn count(&mut self, name: impl Into<String>, times: u64) {
        *self.counts.entry(name.into()).or_default() += times;
    }

    /// Fails the report if nothing was counted under this name.
    pub fn need(&mut self, name: &str) {
        if self.counts.get(name).is_none_or(|times| *times == 0) {
            println!("never counted: {name}");
            self.lacking += 1;
        }
    }

    pub fn subjects(&self) -> &[Subject] {
        &self.subjects
    }

    pub fn counts(&self) -> &Counts {
        &self.counts
    }

    /// Prints a count that is no comparison.
    pub fn note(&self, text: fmt::Arguments) {
        println!("    {text}");
    }

    /// Whether anything differed, or a kind had nothing to compare or did not
    /// see what it was to see.
    pub fn failed(&self) -> bool {
        self.differed != 0 || self.lacking != 0
    }

    /// Prints the totals and gives the exit status.
    pub fn finish(self) -> ExitCode {
        println!(
            "total: {} kinds, {} compared, {} differed: {}",
            self.kinds,
            self.compared,
            self.differed,
            if self.failed() { "failed" } else { "passed" }
        );
        ExitCode::from(u8::from(self.failed()))
    }
}

#[cfg(test)]
mod tests {
    use super::*;

    fn report_of(kind: Kind) -> Report {
        let mut report = Report::new();
        report.add(kind);
        report
    }

    fn kind_of(got: f64, want: f64) -> Kind {
        let mut kind = Kind::new("test");
        kind.compare(&[1.0], got, want);
        kind
    }

    #[test]
    fn a_difference_fails() {
        assert!(report_of(kind_of(2.0, 3.0)).failed());
        assert!(report_of(kind_of(0.0, -0.0)).failed());
        assert!(report_of(kind_of(f64::NAN, 1.0)).failed());
        let status = report_of(kind_of(2.0, 3.0)).finish();
        assert_eq!(status, ExitCode::from(1));
    }

    #[test]
    fn no_difference_passes() {
        assert!(!report_of(kind_of(2.0, 2.0)).failed());
        let other = f64::from_bits(0xFFF0_0000_0000_0001);
        assert!(!report_of(kind_of(f64::NAN, other)).failed());
        let status = report_of(kind_of(2.0, 2.0)).finish();
        assert_eq!(status, ExitCode::SUCCESS);
    }

    #[test]
    fn a_later_kind_does_not_hide_a_difference() {
        let mut report = report_of(kind_of(2.0, 3.0));
        report.add(kind_of(2.0, 2.0));
        assert!(report.failed());
    }

    #[test]
    fn a_kind_without_comparisons_fails() {
        assert!(report_of(Kind::new("test")).failed());
    }

    #[test]
    fn a_kind_that_misses_something_fails() {
        let mut kind = kind_of(2.0, 2.0);
        kind.miss("inside".to_string());
        assert!(kind.to_string().contains("never seen: inside"));
        assert!(report_of(kind).failed());
    }

    #[test]
    fn a_line_that_never_saw_what_it_needs_fails() {
        let fails = |needed: &str| {
            let mut line: Line<String> = Line::new("test");
            line.kind.compare(&[1.0], 2.0, 2.0);
            line.see("inside");
            line.see_times("undecided", 0);
            let mut report = Report::new();
            line.add_to(&mut report, &[needed]);
            report.failed()
        };
        assert!(!fails("inside"));
        assert!(fails("outside"));
        assert!(fails("undecided"));
    }

    #[test]
    fn a_name_that_was_never_counted_fails() {
        let fails = |counts: &[u64]| {
            let mut report = report_of(kind_of(2.0, 2.0));
            counts.iter().for_each(|times| report.count("seen", *times));
            report.need("seen");
            report.failed()
        };
        assert!(fails(&[]));
        assert!(fails(&[0]));
        assert!(!fails(&[0, 3]));
    }

    #[test]
    fn kinds_are_summed_by_subject() {
        let mut report = Report::new();
        report.begin("one");
        report.add(kind_of(2.0, 2.0));
        report.add(kind_of(2.0, 3.0));
        report.begin("another");
        report.add(kind_of(2.0, 2.0));
        let sums = |s: &Subject| (s.name.clone(), s.compared, s.differed);
        let found: Vec<_> = report.subjects().iter().map(sums).collect();
        assert_eq!(found, [("one".into(), 2, 1), ("another".into(), 1, 0)]);
    }

    #[test]
    fn what_a_line_expected_is_counted() {
        let mut report = Report::new();
        for _ in 0..2 {
            let mut line: Line<String> = Line::new("test");
            line.kind.compare(&[1.0], 2.0, 2.0);
            line.see("inside");
            line.add_to(&mut report, &["inside"]);
        }
        assert_eq!(report.counts()["inside"], 2);
    }

    #[test]
    fn the_first_differences_are_shown_with_their_bits() {
        let mut kind = kind_of(2.0, 3.0);
        for _ in 0..9 {
            kind.compare(&[1.0], 2.0, 3.0);
        }
        let text = kind.to_string();
        assert_eq!(text.lines().count(), 1 + SHOWN);
        assert!(text.contains("input 3FF0000000000000 (1e0): got 4000000000000000 (2e0)"));
        assert!(text.contains("expected 4008000000000000 (3e0)"));
    }
}
