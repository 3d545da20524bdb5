//! The sample of csx's answers, and the published square roots, that the program
//! `csx_answers` is given: calls of the C functions, what they return and what they
//! write. See README.md for the format. Nothing here calls the engine.

pub mod check;
mod lists;
mod meshes;
mod record;
#[cfg(test)]
mod replayed;
mod shapes;

use std::collections::BTreeMap;

use self::record::{COORDS, Kind, Record};
use crate::engine::REFUSAL;
use crate::kinds::root;
use crate::plan::{DEFAULT_SEED, Plan};

/// How many cases are made in search of those that are wanted.
const TRIES: usize = 200_000;

/// How many triangles make a mesh large.
const LARGE: usize = 20;

/// What records have to show, and how many of them.
type Wanted = (String, usize);

/// The records of the sample, in the order of their kinds, or what they do not show.
pub fn records() -> Result<Vec<Record>, String> {
    let mut random = Plan::quick(DEFAULT_SEED).random("sample");
    let kinds = [
        shapes::records,
        meshes::welding,
        meshes::building,
        meshes::checking,
        lists::records,
    ];
    let mut records = Vec::new();
    for kind in kinds {
        records.extend(kind(&mut random)?);
    }
    records.extend(root::vectors().map(|(x, root)| {
        Record::new(Kind::Root)
            .list(COORDS, &[x])
            .returned(root.to_bits())
    }));
    Ok(records)
}

/// The sample as the program reads it.
pub fn text(records: &[Record]) -> String {
    records.iter().map(Record::text).collect()
}

/// Takes cases that show something of which there is not enough, until there is
/// enough of everything that is wanted.
fn collect(wanted: Vec<Wanted>, mut case: impl FnMut() -> Record) -> Result<Vec<Record>, String> {
    let mut wanted = BTreeMap::from_iter(wanted);
    let mut records = Vec::new();
    for _ in 0..TRIES {
        if wanted.values().all(|count| *count == 0) {
            return Ok(records);
        }
        let record = case();
        let shows = |count: &usize| *count > 0;
        if record.fits()
            && record
                .shows
                .iter()
                .any(|s| wanted.get(s).is_some_and(shows))
        {
            for what in &record.shows {
                if let Some(count) = wanted.get_mut(what) {
                    *count = count.saturating_sub(1);
                }
            }
            records.push(record);
        }
    }
    wanted.retain(|_, count| *count > 0);
    Err(format!("the sample lacks {wanted:?}"))
}

/// So many of each.
fn each<S: ToString>(what: &[S], count: usize) -> Vec<Wanted> {
    what.iter().map(|what| (what.to_string(), count)).collect()
}

/// What a refusal shows: its number, and whether it has a place.
fn refused(answer: u64) -> String {
    let (number, place) = (answer / REFUSAL, answer % REFUSAL);
    match place {
        0 => format!("refusal {number}"),
        _ => format!("refusal {number} with a place"),
    }
}

/// So many refusals by each question of a mesh up to this one. Those that have a place
/// are wanted with place 0 and with another.
fn refusals(last: u64, count: usize) -> Vec<Wanted> {
    let name = |number| format!("refusal {number}");
    let mut wanted: Vec<Wanted> = (1..=last).map(|number| (name(number), count)).collect();
    for number in [3, 4, 5, 9] {
        if number <= last {
            wanted.push((format!("{} with a place", name(number)), count));
        }
    }
    wanted
}

#[cfg(test)]
mod tests {
    use super::*;

    #[test]
    fn what_is_lacking_is_named() {
        let record = || Record::new(Kind::Welding).show("a");
        let some = |what: &[&str]| collect(each(what, 3), record);
        assert_eq!(some(&["a"]).expect("enough").len(), 3);
        let lacking = some(&["a", "b"]).err().expect("none of b");
        assert_eq!(lacking, "the sample lacks {\"b\": 3}");
    }
}
