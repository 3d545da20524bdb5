//! The engine's square root beside the hardware's instruction.

use std::hint::black_box;
use std::ptr;

use zirwennach_tests::engine;
use zirwennach_tests::random::Random;

use crate::best_times;
use crate::table::{Row, Table};

/// Too many inputs for the processor to learn which branches they take. They are
/// read in order, so the memory keeps up.
const INPUTS: usize = 1 << 18;
/// How many rounds are run, of which the best counts.
const ROUNDS: usize = 300;

type Root = extern "C" fn(f64) -> f64;

pub fn run(table: &mut Table) {
    println!("Square roots, the best of {ROUNDS} interleaved rounds of {INPUTS} independent calls");
    let mut random = Random::new(754);
    row(table, "normal values of any exponent", || {
        random.normal().abs()
    });
    row(table, "values between 0.1 and 1000", || {
        0.1 + 999.9 * random.fraction()
    });
    row(table, "subnormal values of any count of digits", || {
        random.subnormal().abs()
    });
}

/// Times the roots of these inputs.
fn row(table: &mut Table, name: &str, mut value: impl FnMut() -> f64) {
    let inputs: Vec<f64> = (0..INPUTS).map(|_| value()).collect();
    let [engine, hardware, inline] = best_times(
        ROUNDS,
        [
            &mut || {
                black_box(called(engine::csx_root, &inputs));
            },
            &mut || {
                black_box(called(hardware, &inputs));
            },
            &mut || {
                black_box(inlined(&inputs));
            },
        ],
    )
    .map(|time| time / INPUTS as f64);
    table.add(&Row {
        what: "a square root",
        inputs: name,
        engine,
        beside: "the hardware's instruction, called",
        other: hardware,
        most: None,
    });
    println!("  the instruction inlined: {:.3} ns", 1e9 * inline);
    table.agree(called(engine::csx_root, &inputs) == inlined(&inputs));
}

#[inline(never)]
extern "C" fn hardware(x: f64) -> f64 {
    x.sqrt()
}

/// The compiler does not see which function is called.
#[inline(never)]
fn called(root: Root, inputs: &[f64]) -> u64 {
    let root = black_box(root);
    fold(inputs, |x| root(x))
}

#[inline(never)]
fn inlined(inputs: &[f64]) -> u64 {
    fold(inputs, f64::sqrt)
}

/// The loop of all: no call waits for the result of another.
#[inline(always)]
fn fold(inputs: &[f64], root: impl Fn(f64) -> f64) -> u64 {
    let mut sum = 0;
    for x in inputs {
        // SAFETY: a reference is valid to read. A volatile read keeps the loop
        // scalar, as calls are.
        let x = unsafe { ptr::read_volatile(x) };
        sum ^= root(x).to_bits();
    }
    sum
}
