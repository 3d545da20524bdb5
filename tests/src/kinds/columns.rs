//! Column texts: what they list, against document 01 and against csx, with every
//! byte of the text and of the listing.

pub mod answers;
pub mod changes;
pub(super) mod expected;
pub mod limits;
pub mod program;
pub(super) mod texts;
#[cfg(test)]
mod wrong_engines;

use self::expected::{LINE, listing};
use super::lent::Lent;
use super::meshes::{Line, Outcome, ROOM};
use crate::engine::REFUSAL;
use crate::plan::Plan;
use crate::random::Random;

/// The function under test, as `engine::columns::point_list` is.
pub type PointList = fn(&mut [u8], &mut [u8]) -> u64;

/// What a call is to return that has room for so many bytes, and what it is to
/// write.
pub(super) fn wanted(listing: &Result<Vec<u8>, u64>, room: usize) -> (u64, &[u8]) {
    match listing {
        Ok(listing) if listing.len() <= room => (listing.len() as u64, listing),
        Ok(_) => (ROOM, &[]),
        Err(refusal) => (*refusal, &[]),
    }
}

/// Room for a listing: none, a byte less than is needed, exactly as much, and more.
/// A refused text needs none, but could be taken to need a header.
pub(super) fn rooms(listing: &Result<Vec<u8>, u64>) -> [usize; 4] {
    let needed = listing.as_ref().map_or(10, Vec::len);
    [0, needed - 1, needed, needed + 13]
}

/// The function under test, and the line that it is compared in.
struct Asker {
    point_list: PointList,
    line: Line,
    random: Random,
}

impl Asker {
    fn new(point_list: PointList, plan: &Plan, name: &str) -> Self {
        let name = format!("column texts, {name}");
        Self {
            point_list,
            random: plan.random(&name),
            line: Line::new(name),
        }
    }

    /// Asks about a text with any room.
    fn ask(&mut self, text: &[u8]) {
        let want = listing(text);
        let room = rooms(&want)[self.random.below(4) as usize];
        self.compare(text, room, &want);
    }

    /// Asks about a text with each room.
    fn ask_each(&mut self, text: &[u8]) {
        let want = listing(text);
        for room in rooms(&want) {
            self.compare(text, room, &want);
        }
    }

    /// Compares the answer, and every byte that was lent. Gives what was left in the
    /// listing.
    fn compare(&mut self, text: &[u8], room: usize, want: &Result<Vec<u8>, u64>) -> Vec<u8> {
        let mut lent = Lent::new(text);
        let mut listing = Lent::garbage(room, &mut self.random);
        let answer = (self.point_list)(lent.list(), listing.list());
        let (want, written) = wanted(want, room);
        let wrong = lent
            .wrong("text", &[])
            .or_else(|| listing.wrong("listing", written));
        self.line.compare(Outcome { answer, wrong }, want, || {
            format!("{}, listing of {room}", shown(text))
        });
        if want < REFUSAL {
            self.line.see("accepted");
        }
        listing.list().to_vec()
    }
}

/// How many lines of a text are printed.
const SHOWN: usize = 16;

/// The first lines of a text, and how long it is if there are more.
pub(super) fn shown(text: &[u8]) -> String {
    match text.get(..SHOWN * LINE) {
        Some(front) if front.len() < text.len() => {
            format!(
                "\"{}\" and on to {} bytes",
                front.escape_ascii(),
                text.len()
            )
        }
        _ => format!("\"{}\"", text.escape_ascii()),
    }
}
