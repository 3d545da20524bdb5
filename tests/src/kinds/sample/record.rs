//! A record of the sample: a call in words of 64 bits, in one line.

use std::fmt::Write;

use crate::kinds::lent::Element;
use crate::kinds::meshes::Mesh;
use crate::kinds::trees::Tree;

/// The most places of a buffer.
pub const PLACES: usize = 511;
/// A NaN's pattern, which the program takes for no word.
pub const NONE: u64 = 0xFFF8_0000_0000_0001;

/// The places of the buffers among the lists of a record: first those of floats, then
/// those of 32-bit numbers, of words and of bytes.
pub const COORDS: usize = 0;
pub const BOXES: usize = 1;
pub const POINTS: usize = 2;
pub const CORNERS: usize = 3;
pub const ENDS: usize = 4;
pub const NODES: usize = 5;
pub const ITEMS: usize = 6;
pub const WORK: usize = 7;
pub const ANSWERS: usize = 8;
/// How many buffers there are.
pub const BUFFERS: usize = 9;
/// What is written at the front of the buffers: the first of these lists.
pub const WRITTEN: usize = BUFFERS;

/// What a record calls.
#[derive(Clone, Copy, Debug, PartialEq, Eq)]
pub enum Kind {
    Shape = 1,
    Welding,
    Building,
    Checking,
    List,
    Root,
}

impl Kind {
    pub const ALL: [Self; 6] = [
        Self::Shape,
        Self::Welding,
        Self::Building,
        Self::Checking,
        Self::List,
        Self::Root,
    ];

    /// What these records are called.
    pub fn name(self) -> &'static str {
        match self {
            Self::Shape => "shapes",
            Self::Welding => "welding",
            Self::Building => "building",
            Self::Checking => "checking",
            Self::List => "lists",
            Self::Root => "roots",
        }
    }
}

/// A call, what it returns and what it writes.
#[derive(Clone)]
pub struct Record {
    pub kind: Kind,
    /// The buffers before the call, and what is written at the front of each.
    pub lists: [Vec<u64>; 2 * BUFFERS],
    pub returned: u64,
    /// What the record is taken for.
    pub shows: Vec<String>,
}

impl Record {
    pub fn new(kind: Kind) -> Self {
        Self {
            kind,
            lists: Default::default(),
            returned: 0,
            shows: Vec::new(),
        }
    }

    /// The record with this for a list.
    pub fn list<T: Element>(mut self, place: usize, list: &[T]) -> Self {
        self.lists[place] = list.iter().map(|x| x.bits()).collect();
        self
    }

    /// A buffer that the call may write: so many places, each of which holds 7.
    pub fn room(self, place: usize, places: usize) -> Self {
        match place {
            ..CORNERS => self.list(place, &vec![7.0; places]),
            _ => self.list(place, &vec![7u64; places]),
        }
    }

    /// The lists of a mesh, for the buffers or, from `WRITTEN` on, as what is written.
    pub fn mesh(self, first: usize, mesh: &Mesh) -> Self {
        self.list(first + COORDS, &mesh.coords)
            .list(first + CORNERS, &mesh.corners)
            .list(first + ENDS, &mesh.ends)
    }

    /// The same of a tree.
    pub fn tree(self, first: usize, tree: &Tree) -> Self {
        self.list(first + BOXES, &tree.boxes)
            .list(first + NODES, &tree.nodes)
            .list(first + ITEMS, &tree.items)
    }

    /// What the call returns.
    pub fn returned(mut self, answer: u64) -> Self {
        self.returned = answer;
        self
    }

    pub fn show(mut self, what: impl Into<String>) -> Self {
        self.shows.push(what.into());
        self
    }

    /// The same record, which is taken for nothing.
    pub fn unwanted(mut self) -> Self {
        self.shows.clear();
        self
    }

    /// The record, unwanted if its lists have more elements than this.
    pub fn at_most(self, elements: usize) -> Self {
        match self.lists.iter().map(Vec::len).sum::<usize>() {
            n if n > elements => self.unwanted(),
            _ => self,
        }
    }

    /// What a buffer holds after the call.
    pub fn after(&self, buffer: usize) -> Vec<u64> {
        let (before, written) = (&self.lists[buffer], &self.lists[WRITTEN + buffer]);
        [written, &before[written.len()..]].concat()
    }

    /// Its words behind the kind: how many places each buffer has, what they hold before
    /// the call, what it returns, and what they hold after it.
    pub fn words(&self) -> Vec<u64> {
        let before = &self.lists[..BUFFERS];
        let mut words: Vec<u64> = before.iter().map(|list| list.len() as u64).collect();
        words.extend(before.iter().flatten());
        words.push(self.returned);
        words.extend((0..BUFFERS).flat_map(|buffer| self.after(buffer)));
        words
    }

    /// Whether the program can be given the record.
    pub fn fits(&self) -> bool {
        let mut before = self.lists[..BUFFERS].iter();
        let mut floats = self.lists[..CORNERS].iter().flatten();
        before.all(|list| list.len() <= PLACES)
            && !self.words().contains(&NONE)
            && !floats.any(|bits| f64::from_bits(*bits).is_nan())
    }

    /// Its line.
    pub fn text(&self) -> String {
        line(self.kind as u64, &self.words())
    }
}

/// A line of these words.
pub fn line(kind: u64, words: &[u64]) -> String {
    let mut text = format!("{kind:016x}");
    for word in words {
        write!(text, " {word:016x}").expect("a string takes it");
    }
    text.push('\n');
    text
}

#[cfg(test)]
mod tests {
    use super::*;

    #[test]
    fn a_record_is_a_line_of_words() {
        assert_eq!(line(3, &[]), "0000000000000003\n");
        assert_eq!(
            line(1, &[1.0f64.to_bits()]),
            "0000000000000001 3ff0000000000000\n"
        );
        let record = Record::new(Kind::Building)
            .list(COORDS, &[-0.0])
            .room(ANSWERS, 2)
            .list(WRITTEN + ANSWERS, &[1u8])
            .returned(3);
        let words = record.words();
        assert_eq!(words[..BUFFERS], [1, 0, 0, 0, 0, 0, 0, 0, 2]);
        assert_eq!(words[BUFFERS..], [1 << 63, 7, 7, 3, 1 << 63, 1, 7]);
    }

    #[test]
    fn numbers_that_are_none_and_long_lists_do_not_fit() {
        let record = || Record::new(Kind::Building);
        assert!(record().fits());
        assert!(record().list(COORDS, &[f64::INFINITY]).fits());
        assert!(!record().list(COORDS, &[f64::NAN]).fits());
        assert!(!record().list(WORK, &[NONE]).fits());
        assert!(record().room(CORNERS, PLACES).fits());
        assert!(!record().room(CORNERS, PLACES + 1).fits());
    }
}
