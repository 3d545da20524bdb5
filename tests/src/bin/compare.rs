//! Compares the engine's answers with others. See README.md.

use std::env;
use std::fs;
use std::process::ExitCode;

use zirwennach_tests::engine;
use zirwennach_tests::kinds::{
    columns, corrections, lists, meshes, order, remainder, root, rules, shapes, trees, vectors,
};
use zirwennach_tests::plan::{DEFAULT_SEED, Plan};
use zirwennach_tests::report::Report;
use zirwennach_tests::summary::{Run, need_differences, need_refusals};

/// Whether csx has the changes of the closed list.
const PORT: bool = cfg!(feature = "port");

/// What is asked for: the size by its name, whether only that is compared which csx has
/// a part in, and the file for the counts.
struct Asked<'a> {
    size: &'a str,
    plan: Plan,
    csx_alone: bool,
    counts: Option<&'a str>,
}

fn main() -> ExitCode {
    let arguments: Vec<String> = env::args().skip(1).collect();
    let arguments: Vec<&str> = arguments.iter().map(|argument| &argument[..]).collect();
    let Some(asked) = asked(&arguments) else {
        eprintln!("usage: compare gate|quick|large [SEED] [--csx-alone] [--counts FILE]");
        return ExitCode::from(2);
    };
    // Left empty by a run that fails.
    if let Err(error) = write(&asked, "") {
        return error;
    }
    let form = if PORT { "with" } else { "without" };
    let (size, seed) = (asked.size, asked.plan.seed());
    println!("compare {size}, seed {seed}, csx {form} the feature port");
    let report = run(&asked);
    if !report.failed()
        && let Err(error) = write(&asked, &counted(&asked, &report).text())
    {
        return error;
    }
    report.finish()
}

/// What the arguments ask for, if they are right.
fn asked<'a>(arguments: &[&'a str]) -> Option<Asked<'a>> {
    let (arguments, counts) = match arguments {
        [front @ .., "--counts", path] => (front, Some(*path)),
        all => (all, None),
    };
    let (arguments, csx_alone) = match arguments {
        [front @ .., "--csx-alone"] => (front, true),
        all => (all, false),
    };
    let (size, seed) = match arguments {
        [size] => (*size, DEFAULT_SEED),
        [size, seed] => (*size, seed.parse().ok()?),
        _ => return None,
    };
    let plan = match size {
        "gate" => Plan::gate(seed),
        "quick" => Plan::quick(seed),
        "large" => Plan::large(seed),
        _ => return None,
    };
    Some(Asked {
        size,
        plan,
        csx_alone,
        counts,
    })
}

/// Writes the file for the counts, if one is asked for.
fn write(asked: &Asked, text: &str) -> Result<(), ExitCode> {
    let Some(path) = asked.counts else {
        return Ok(());
    };
    fs::write(path, text).map_err(|error| {
        eprintln!("{path}: {error}");
        ExitCode::from(2)
    })
}

fn counted(asked: &Asked, report: &Report) -> Run {
    Run {
        size: asked.size.to_string(),
        seed: asked.plan.seed(),
        port: PORT,
        subjects: report.subjects().to_vec(),
        counts: report.counts().clone(),
    }
}

/// The kinds on a subject.
type Kinds = fn(&mut Report, &Plan);

/// For each subject the kinds that csx has a part in, and the others.
const SUBJECTS: [(&str, Option<Kinds>, Option<Kinds>); 10] = [
    ("square root", None, Some(square_root)),
    (
        "number functions",
        Some(min_and_max),
        Some(number_functions),
    ),
    ("vectors and boxes", Some(vectors_and_boxes), None),
    ("shapes", Some(all_shapes), None),
    ("meshes", Some(all_meshes), None),
    ("welding", Some(welding), None),
    ("trees built", Some(trees_built), None),
    ("trees checked", None, Some(trees_checked)),
    ("lists", Some(answered_lists), Some(other_lists)),
    ("column texts", Some(answered_texts), Some(other_texts)),
];

fn run(asked: &Asked) -> Report {
    let mut report = Report::new();
    for (subject, of_csx, others) in SUBJECTS {
        report.begin(subject);
        let others = others.filter(|_| !asked.csx_alone);
        for kinds in [of_csx, others].into_iter().flatten() {
            kinds(&mut report, &asked.plan);
        }
    }
    need_differences(&mut report, PORT);
    if !asked.csx_alone {
        need_refusals(&mut report);
    }
    report
}

fn square_root(report: &mut Report, plan: &Plan) {
    root::edges(report, engine::root);
    root::published(report, engine::root);
    root::compare(report, plan, engine::root);
    corrections::compare(report, plan, &engine::SIGNIFICAND);
}

fn min_and_max(report: &mut Report, plan: &Plan) {
    rules::min(report, plan, engine::min);
    rules::max(report, plan, engine::max);
}

fn number_functions(report: &mut Report, plan: &Plan) {
    rules::abs(report, plan, engine::abs);
    rules::clamp(report, plan, engine::clamp);
    rules::is_finite(report, plan, engine::is_finite);
    remainder::compare(report, plan, engine::rem_euclid);
    order::compare(report, plan, engine::order_key);
}

fn vectors_and_boxes(report: &mut Report, plan: &Plan) {
    vectors::vectors(report, plan, engine::vectors::vectors);
    vectors::boxes(report, plan, engine::vectors::boxes);
}

fn all_shapes(report: &mut Report, plan: &Plan) {
    shapes::edges::compare(report, engine::answer);
    shapes::cases::compare(report, plan, engine::answer);
    shapes::hypot::compare(report, plan, engine::answer);
    shapes::refusals::compare(report, plan, engine::answer);
}

fn all_meshes(report: &mut Report, plan: &Plan) {
    meshes::edges::closed(report, engine::meshes::edge_keys);
    meshes::edges::vertices(report, engine::meshes::mesh);
    meshes::questions::compare(report, plan, engine::meshes::mesh);
    meshes::questions::limits(report, plan, engine::meshes::mesh);
    meshes::triangles::compare(report, plan, engine::meshes::triangles);
    meshes::triangles::large(report, plan, engine::meshes::triangles);
    meshes::boxes::compare(report, plan, engine::meshes::boxes);
    meshes::boxes::large(report, plan, engine::meshes::boxes);
    meshes::keys::compare(report, plan, engine::meshes::edge_keys);
    meshes::keys::large(report, plan, engine::meshes::edge_keys);
}

fn welding(report: &mut Report, plan: &Plan) {
    meshes::welding::compare(report, plan, engine::meshes::from_triangles);
    meshes::welding::limits(report, plan, engine::meshes::from_triangles);
}

fn trees_built(report: &mut Report, plan: &Plan) {
    trees::edges::compare(report, engine::trees::build);
    trees::building::compare(report, plan, engine::trees::build);
    trees::building::large(report, plan, engine::trees::build);
}

fn trees_checked(report: &mut Report, plan: &Plan) {
    trees::checking::compare(report, plan, engine::trees::check);
    trees::checking::large(report, plan, engine::trees::check);
}

fn answered_lists(report: &mut Report, plan: &Plan) {
    lists::cases::compare(report, plan, engine::lists::contains);
    lists::answers::compare(report, plan, engine::lists::contains);
    lists::answers::large(report, plan, engine::lists::contains);
}

fn other_lists(report: &mut Report, plan: &Plan) {
    lists::rewritings::compare(report, plan, engine::lists::contains);
    lists::refusals::compare(report, plan, engine::lists::contains);
}

fn answered_texts(report: &mut Report, plan: &Plan) {
    columns::answers::compare(report, plan, engine::columns::point_list);
}

fn other_texts(report: &mut Report, plan: &Plan) {
    columns::changes::compare(report, plan, engine::columns::point_list);
    columns::limits::compare(report, plan, engine::columns::point_list);
}
