//! Lists that are lent to the engine, and what it left in them.

use std::fmt::{self, Debug};

use crate::random::Random;

/// An element of a lent list.
pub trait Element: Copy {
    /// What stands on both sides of a list. Read as a coordinate, a corner or an
    /// end it gives a mesh that is refused.
    const GUARD: Self;

    /// An element of these bits.
    fn from_bits(bits: u64) -> Self;

    fn bits(self) -> u64;

    /// Whether this was to be written. It is the same bits, except that any NaN
    /// is any other.
    fn same(self, other: Self) -> bool {
        self.bits() == other.bits()
    }
}

impl Element for f64 {
    const GUARD: Self = f64::from_bits(0x7FF8_0000_0000_0754);

    fn from_bits(bits: u64) -> Self {
        f64::from_bits(bits)
    }

    fn bits(self) -> u64 {
        self.to_bits()
    }

    fn same(self, other: Self) -> bool {
        self.bits() == other.bits() || self.is_nan() && other.is_nan()
    }
}

impl Element for u8 {
    const GUARD: Self = u8::MAX;

    fn from_bits(bits: u64) -> Self {
        bits as u8
    }

    fn bits(self) -> u64 {
        self.into()
    }
}

impl Element for u32 {
    const GUARD: Self = u32::MAX;

    fn from_bits(bits: u64) -> Self {
        bits as u32
    }

    fn bits(self) -> u64 {
        self.into()
    }
}

impl Element for u64 {
    const GUARD: Self = u64::MAX;

    fn from_bits(bits: u64) -> Self {
        bits
    }

    fn bits(self) -> u64 {
        self
    }
}

/// How many guards stand on either side of a list.
const GUARDS: usize = 4;

/// A list lent from the middle of a buffer, with guards on both sides or without.
pub struct Lent<T> {
    buffer: Box<[T]>,
    before: Box<[T]>,
    guards: usize,
}

impl<T: Element> Lent<T> {
    pub fn new(list: &[T]) -> Self {
        Self::guarded(list, GUARDS)
    }

    /// A list without guards: an allocation of exactly its size, so that a checker of
    /// memory sees a read or a write beside it.
    pub fn exact(list: &[T]) -> Self {
        Self::guarded(list, 0)
    }

    fn guarded(list: &[T], guards: usize) -> Self {
        let guard = &[T::GUARD; GUARDS][..guards];
        let buffer = [guard, list, guard].concat().into_boxed_slice();
        Self {
            before: buffer.clone(),
            buffer,
            guards,
        }
    }

    /// A list of random bit patterns, to be written to.
    pub fn garbage(length: usize, random: &mut Random) -> Self {
        Self::new(&garbage(length, random))
    }

    pub fn list(&mut self) -> &mut [T] {
        let end = self.buffer.len() - self.guards;
        &mut self.buffer[self.guards..end]
    }

    /// The list as it was lent.
    pub fn before(&self) -> &[T] {
        &self.before[self.guards..self.before.len() - self.guards]
    }

    /// The first place that does not hold what was to be written there, or was
    /// changed where nothing was to be written.
    pub fn wrong(&self, name: &'static str, written: &[T]) -> Option<Wrong> {
        let end = self.guards + written.len();
        let place = (0..self.buffer.len()).find(|&i| {
            if (self.guards..end).contains(&i) {
                !self.buffer[i].same(written[i - self.guards])
            } else {
                self.buffer[i].bits() != self.before[i].bits()
            }
        })?;
        let want = match place.checked_sub(self.guards).and_then(|i| written.get(i)) {
            Some(want) => want.bits(),
            None => self.before[place].bits(),
        };
        Some(Wrong {
            list: name,
            place: place as i64 - self.guards as i64,
            got: self.buffer[place].bits(),
            want,
        })
    }
}

/// Random bit patterns.
pub fn garbage<T: Element>(length: usize, random: &mut Random) -> Vec<T> {
    (0..length).map(|_| T::from_bits(random.bits())).collect()
}

/// How many elements of a list are printed.
const PRINTED: usize = 24;

/// The first elements of a list, and how long it is if there are more. The digits
/// of each float tell it from every other.
pub fn cut<T: Debug>(list: &[T]) -> String {
    match list.get(..PRINTED) {
        Some(shown) if shown.len() < list.len() => {
            format!("{shown:?} and on to {} elements", list.len())
        }
        _ => format!("{list:?}"),
    }
}

/// A place of a list that is not as it should be.
#[derive(Clone, Copy, PartialEq)]
pub struct Wrong {
    list: &'static str,
    /// Negative before the list.
    place: i64,
    got: u64,
    want: u64,
}

impl Wrong {
    /// The place, if it is one of this list.
    pub fn place_in(&self, list: &str) -> Option<usize> {
        let place = usize::try_from(self.place).ok();
        place.filter(|_| self.list == list)
    }
}

impl fmt::Display for Wrong {
    fn fmt(&self, f: &mut fmt::Formatter) -> fmt::Result {
        let Self {
            list,
            place,
            got,
            want,
        } = self;
        write!(f, "{list}[{place}] is {got:016X} and not {want:016X}")
    }
}

#[cfg(test)]
mod tests {
    use super::*;

    #[test]
    fn a_change_of_the_front_and_of_the_rest_is_seen() {
        let mut lent = Lent::new(&[1.0, f64::NAN, 3.0]);
        assert_eq!(lent.before().len(), 3);
        assert!(lent.wrong("list", &[]).is_none());
        assert!(lent.wrong("list", &[2.0]).is_some());
        lent.list()[0] = 2.0;
        assert!(lent.wrong("list", &[2.0]).is_none());
        let other = f64::from_bits(0xFFF8_0000_0000_0001);
        assert!(lent.wrong("list", &[2.0, other]).is_none());
        lent.list()[1] = other;
        let wrong = lent.wrong("list", &[2.0]).expect("other bits");
        assert!(wrong.to_string().starts_with("list[1] is FFF8"));
    }

    #[test]
    fn a_change_of_the_sign_of_a_zero_is_seen() {
        let mut lent = Lent::new(&[1.0, 0.0]);
        lent.list()[1] = -0.0;
        assert!(lent.wrong("list", &[]).is_some());
    }

    #[test]
    fn a_list_without_guards_is_as_long_as_it_is_lent() {
        let mut lent = Lent::exact(&[1u32, 2]);
        assert_eq!(lent.list(), [1, 2]);
        assert_eq!(lent.buffer.len(), 2);
        lent.list()[1] = 3;
        assert!(lent.wrong("list", &[1, 3]).is_none());
        let wrong = lent.wrong("list", &[1]).expect("a change");
        assert_eq!(wrong.place, 1);
    }

    #[test]
    fn long_lists_are_cut() {
        assert_eq!(cut(&[1; 3]), "[1, 1, 1]");
        assert!(cut(&[1; 24]).ends_with("1, 1]"));
        assert!(cut(&[1; 25]).ends_with("1] and on to 25 elements"));
    }

    #[test]
    fn writes_beside_a_list_are_seen() {
        let mut after = Lent::new(&[1u32, 2]);
        after.buffer[GUARDS + 2] = 0;
        let wrong = after.wrong("list", &[]).expect("a guard");
        assert_eq!(wrong.place, 2);
        let mut before = Lent::new(&[1u32, 2]);
        before.buffer[GUARDS - 1] = 0;
        let wrong = before.wrong("list", &[]).expect("a guard");
        assert_eq!(wrong.place, -1);
    }
}
