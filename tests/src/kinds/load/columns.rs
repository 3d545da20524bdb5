//! Column texts under load.

use super::{Engine, compare};
use crate::kinds::columns::expected::listing;
use crate::kinds::columns::limits::of_counts;
use crate::kinds::columns::texts::{KEPT, any_column, change};
use crate::kinds::columns::{rooms, shown, wanted};
use crate::kinds::lent::{Lent, garbage};
use crate::kinds::meshes::inputs::pick;
use crate::kinds::meshes::{Line, Outcome};
use crate::random::Random;

pub fn call(engine: &Engine, line: &mut Line, random: &mut Random) {
    let text = text(random);
    let listing = listing(&text);
    let room = match random.below(8) {
        0 => pick(64, random),
        _ => rooms(&listing)[pick(4, random)],
    };
    let mut lent = Lent::exact(&text);
    let mut left = Lent::exact(&garbage(room, random));
    let answer = (engine.point_list)(lent.list(), left.list());
    let (want, written) = wanted(&listing, room);
    let wrong = lent
        .wrong("text", &[])
        .or_else(|| left.wrong("listing", written));
    compare(line, Outcome { answer, wrong }, want, || {
        format!("{}, listing of {room}", shown(&text))
    });
}

/// A text of about as many lines as are accepted, of any bytes, random or kept, with
/// some changes.
fn text(random: &mut Random) -> Vec<u8> {
    let mut text = match random.below(1024) {
        0 => of_counts([400, 400, 223 + pick(4, random)]),
        1..128 => garbage(pick(128, random), random),
        128..256 => any_column(random).text(),
        _ => KEPT[pick(KEPT.len(), random)].column().text(),
    };
    change(&mut text, 3, random);
    text
}
