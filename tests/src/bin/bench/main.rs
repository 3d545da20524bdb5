//! Times the engine beside the hardware and csx. See README.md.

mod building;
mod checking;
mod clock;
mod lists;
mod meshes;
mod points;
mod roots;
mod spheres;
mod table;

use std::process::ExitCode;

use table::Table;

fn main() -> ExitCode {
    println!(
        "Times alone mean nothing on a shared machine: the ratio, from one run, is what counts."
    );
    let spheres = spheres::all();
    let mut table = Table::default();
    roots::run(&mut table);
    points::shapes(&mut table);
    points::lists(&mut table, &spheres);
    meshes::run(&mut table);
    building::run(&mut table, &spheres);
    checking::run(&mut table, &spheres);
    lists::run(&mut table, &spheres);
    table.print();
    ExitCode::from(u8::from(table.failed()))
}

/// The best time of each pass, in seconds. Their rounds alternate, so that other work on the
/// machine falls on all of them.
fn best_times<const N: usize>(rounds: usize, mut passes: [&mut dyn FnMut(); N]) -> [f64; N] {
    let mut best = [f64::INFINITY; N];
    for _ in 0..rounds {
        for (best, pass) in best.iter_mut().zip(&mut passes) {
            *best = time(pass).min(*best);
        }
    }
    best
}

/// The best times of the engine and of csx on each subject, in seconds. The rounds of
/// all subjects alternate, so that their times can be compared too.
fn best_of_each<S>(
    rounds: usize,
    subjects: &mut [S],
    engine: impl Fn(&mut S),
    csx: impl Fn(&mut S),
) -> Vec<[f64; 2]> {
    let mut best = vec![[f64::INFINITY; 2]; subjects.len()];
    for _ in 0..rounds {
        for ([by_engine, by_csx], subject) in best.iter_mut().zip(&mut *subjects) {
            *by_engine = time(|| engine(subject)).min(*by_engine);
            *by_csx = time(|| csx(subject)).min(*by_csx);
        }
    }
    best
}

/// How many seconds a pass runs.
fn time(mut pass: impl FnMut()) -> f64 {
    let start = clock::seconds();
    pass();
    clock::seconds() - start
}
