//! The square root against Rust's and against published vectors.

use crate::kinds::root_inputs;
use crate::plan::Plan;
use crate::report::{Kind, Report};

/// The text of the published inputs and roots.
const VECTORS: &str = include_str!("../../data/sqrt-binary64.txt");

/// The roots of document 01's table 'Edges of the rules'.
const EDGES: [(f64, f64); 3] = [
    (4.0, 2.0),
    // 2^-1074 and 2^-537
    (f64::from_bits(1), f64::from_bits(486 << 52)),
    (2.0, f64::from_bits(0x3FF6_A09E_667F_3BCD)),
];

/// Compares with `f64::sqrt`, a line for each kind of input.
pub fn compare(report: &mut Report, plan: &Plan, root: impl Fn(f64) -> f64) {
    for inputs in root_inputs::all(plan) {
        let mut kind = Kind::new(format!("root, {}", inputs.name));
        for x in inputs.values {
            kind.compare(&[x], root(x), x.sqrt());
        }
        report.add(kind);
    }
}

/// Published inputs and roots.
pub fn vectors() -> impl Iterator<Item = (f64, f64)> {
    let lines = VECTORS.lines().filter(|line| !line.starts_with('#'));
    lines.map(|line| vector(line).expect("two bit patterns in hexadecimal"))
}

/// Compares with the published roots.
pub fn published(report: &mut Report, root: impl Fn(f64) -> f64) {
    let names = ["root, published vectors", "Rust's sqrt, published vectors"];
    known(report, names, vectors(), root);
}

/// Compares with document 01's roots.
pub fn edges(report: &mut Report, root: impl Fn(f64) -> f64) {
    let names = [
        "document 01's cases, roots",
        "document 01's cases, roots, Rust",
    ];
    known(report, names, EDGES, root);
}

/// Compares with roots that are known. Rust's own are compared too: they are what
/// the other kinds rest on.
fn known(
    report: &mut Report,
    names: [&str; 2],
    roots: impl IntoIterator<Item = (f64, f64)>,
    root: impl Fn(f64) -> f64,
) {
    let [mut kind, mut rust] = names.map(Kind::new);
    for (x, want) in roots {
        kind.compare(&[x], root(x), want);
        rust.compare(&[x], x.sqrt(), want);
    }
    report.add(kind);
    report.add(rust);
}

fn vector(line: &str) -> Option<(f64, f64)> {
    let (x, root) = line.split_once(' ')?;
    Some((float(x)?, float(root)?))
}

fn float(digits: &str) -> Option<f64> {
    let bits = u64::from_str_radix(digits, 16).ok()?;
    Some(f64::from_bits(bits))
}

#[cfg(test)]
mod tests {
    use super::*;
    use crate::kinds::tests;
    use crate::random::{moved, power_of_two};

    fn fails(root: impl Fn(f64) -> f64) -> bool {
        tests::fails(|report, plan| compare(report, plan, root))
    }

    fn published_fails(root: impl Fn(f64) -> f64) -> bool {
        tests::fails(|report, _| published(report, root))
    }

    fn edges_fail(root: impl Fn(f64) -> f64) -> bool {
        tests::fails(|report, _| edges(report, root))
    }

    #[test]
    fn the_right_root_passes() {
        assert!(!fails(f64::sqrt));
        assert!(!published_fails(f64::sqrt));
        assert!(!edges_fail(f64::sqrt));
    }

    #[test]
    fn wrong_roots_fail() {
        assert!(fails(|x| if x == 0.0 { 0.0 } else { x.sqrt() }));
        assert!(fails(|x| x.abs().sqrt()));
        assert!(fails(|x| if x.is_subnormal() { 0.0 } else { x.sqrt() }));
        assert!(fails(|x| if x == f64::MAX { x } else { x.sqrt() }));
        assert!(fails(|x| moved(x.sqrt(), 1)));
        assert!(published_fails(|x| moved(x.sqrt(), 1)));
    }

    #[test]
    fn each_root_of_document_01_is_compared() {
        for (x, root) in EDGES {
            assert!(edges_fail(|y| if x == y {
                moved(root, 1)
            } else {
                y.sqrt()
            }));
        }
        assert_eq!(EDGES[1].1, power_of_two(-537));
    }

    #[test]
    fn a_root_wrong_by_a_hair_before_rounding_fails() {
        // The root of x (1 + 2^-53 / 8): right unless a midpoint is that near.
        assert!(fails(|x| {
            let r = x.sqrt();
            let rest = (-r).mul_add(r, x);
            let push = x * f64::EPSILON / 16.0;
            r + (rest + push) / (2.0 * r)
        }));
    }

    #[test]
    fn malformed_vectors_are_refused() {
        assert!(vector("3FF0000000000000").is_none());
        assert!(vector("3FF0000000000000 none").is_none());
        assert_eq!(
            vector("4010000000000000 4000000000000000"),
            Some((4.0, 2.0))
        );
    }
}
