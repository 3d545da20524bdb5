//! Texts with a byte changed, in every way, and random texts with several changes.

use super::texts::{KEPT, Kept, any_column, change};
use super::{Asker, PointList};
use crate::plan::Plan;
use crate::report::Report;

/// Compares every kept text with every change of a byte, and random texts.
pub fn compare(report: &mut Report, plan: &Plan, point_list: PointList) {
    for kept in &KEPT {
        every_byte(report, plan, point_list, kept);
    }
    several(report, plan, point_list);
}

/// Each byte of a kept text removed and replaced by every other, and every byte
/// inserted at every place.
pub(super) fn every_byte(report: &mut Report, plan: &Plan, point_list: PointList, kept: &Kept) {
    let name = format!("bytes of {}", kept.name);
    let mut asker = Asker::new(point_list, plan, &name);
    let text = kept.column().text();
    asker.ask_each(&text);
    for place in 0..=text.len() {
        let (front, back) = text.split_at(place);
        for byte in 0..=u8::MAX {
            asker.ask(&[front, &[byte], back].concat());
        }
        let Some((now, rest)) = back.split_first() else {
            continue;
        };
        for byte in (0..=u8::MAX).filter(|byte| byte != now) {
            asker.ask(&[front, &[byte], rest].concat());
        }
        asker.ask(&[front, rest].concat());
    }
    asker.line.add_to(report, &["refusal 12"]);
}

/// How often a random text is changed anew.
const TIMES: u64 = 8;

/// Random texts with up to three changes.
pub(super) fn several(report: &mut Report, plan: &Plan, point_list: PointList) {
    let mut asker = Asker::new(point_list, plan, "several changes");
    for _ in 0..plan.times(20_000) {
        let text = any_column(&mut asker.random).text();
        for _ in 0..TIMES {
            let mut text = text.clone();
            change(&mut text, 3, &mut asker.random);
            asker.ask(&text);
        }
    }
    let needed = ["accepted", "refusal 12", "refusal 4", "refusal 6"];
    asker.line.add_to(report, &needed);
}
