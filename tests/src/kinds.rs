//! The kinds of comparison. Each takes the function that it tests, so that its
//! own tests can give it a wrong one and see it fail.

mod answer;
pub mod columns;
pub mod corrections;
mod lent;
pub mod lists;
pub mod load;
pub mod meshes;
pub mod order;
pub mod remainder;
pub mod root;
pub mod root_inputs;
pub mod rules;
#[cfg(feature = "port")]
pub mod sample;
pub mod shapes;
pub mod trees;
mod turns;
pub mod vectors;

use crate::plan::Plan;
use crate::random::specials;

/// Pairs of values: all pairs of special ones, then random ones that are often
/// close.
fn pairs(plan: &Plan, kind: &str, times: u64) -> impl Iterator<Item = (f64, f64)> {
    let mut random = plan.random(kind);
    let special = specials().flat_map(|a| specials().map(move |b| (a, b)));
    special.chain((0..times).map(move |_| {
        let a = random.any();
        (a, random.rival(a))
    }))
}

#[cfg(test)]
mod tests {
    use crate::plan::Plan;
    use crate::report::{Report, first};

    /// Whether this comparison, of few inputs, fails.
    pub fn fails(compare: impl FnOnce(&mut Report, &Plan)) -> bool {
        let mut report = Report::new();
        first::difference(|| compare(&mut report, &Plan::tiny())) || report.failed()
    }
}
