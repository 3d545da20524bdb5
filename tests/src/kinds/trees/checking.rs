//! Checking trees, with every byte of the lent lists, against the tree rules in
//! plain Rust.

use super::damage::{DAMAGES, Damage};
use super::expected::{RULE, TREE_RULES, build, keeps, own_boxes};
use super::{LentTree, STRIDE, Tree, inputs, others};
use crate::engine::{self, REFUSAL};
use crate::kinds::lent::Lent;
use crate::kinds::meshes::expected::{Bounds, refusal};
use crate::kinds::meshes::inputs::{pick, some_of};
use crate::kinds::meshes::questions::spoil;
use crate::kinds::meshes::{LentMesh, Line, Mesh, Outcome, QUESTIONS, ROOM, buffer_length};
use crate::plan::Plan;
use crate::random::Random;
use crate::report::Report;

/// The function under test, as `engine::trees::check` is.
pub type Check = fn(&mut engine::meshes::Mesh, &mut engine::trees::Tree, &mut [u64]) -> u64;

/// Refusal 7: the tree breaks a rule.
pub(in crate::kinds) const BROKEN: u64 = 7 * REFUSAL;

/// A line of the table, and what it is about.
struct Asker {
    check: Check,
    line: Line,
    random: Random,
}

impl Asker {
    fn new(check: Check, plan: &Plan, name: &str) -> Self {
        let name = format!("trees checked, {name}");
        Self {
            check,
            random: plan.random(&name),
            line: Line::new(name),
        }
    }

    /// Checks a tree for an accepted mesh that has these boxes.
    fn ask(&mut self, mesh: &Mesh, own: &[Bounds], tree: &Tree) -> u64 {
        let length = buffer_length(mesh.corners.len(), &mut self.random);
        let want = judged(mesh, own, tree, length);
        self.compare(mesh, tree, length, want);
        want
    }

    /// Checks a tree with so many work places. Once the tree itself is looked at,
    /// a 0 is left for each corner.
    fn compare(&mut self, mesh: &Mesh, tree: &Tree, length: usize, want: u64) {
        let mut lent = LentMesh::new(mesh);
        let mut lent_tree = LentTree::new(tree);
        let mut work = Lent::garbage(length, &mut self.random);
        let answer = (self.check)(&mut lent.lend(), &mut lent_tree.lend(), work.list());
        let wrong = lent
            .wrong(&Mesh::default())
            .or_else(|| lent_tree.wrong(&Tree::default()))
            .or_else(|| work.wrong("work", &work_left(mesh, want)));
        self.line.compare(Outcome { answer, wrong }, want, || {
            format!("{}, {}, work of {length}", mesh.text(), tree.text())
        });
        if want == 0 {
            self.line.see("accepted");
        }
    }
}

/// What is written to the work places where this is answered.
pub(in crate::kinds) fn work_left(mesh: &Mesh, want: u64) -> Vec<u64> {
    match want {
        0 | BROKEN => vec![0; mesh.corners.len()],
        _ => Vec::new(),
    }
}

/// What is to be answered for so many work places.
pub(in crate::kinds) fn answered(mesh: &Mesh, tree: &Tree, length: usize) -> u64 {
    refusal(mesh).unwrap_or_else(|| judged(mesh, &own_boxes(mesh), tree, length))
}

/// The same for an accepted mesh.
pub(in crate::kinds) fn judged(mesh: &Mesh, own: &[Bounds], tree: &Tree, length: usize) -> u64 {
    if length < mesh.corners.len() {
        ROOM
    } else if keeps(&TREE_RULES, tree, own) {
        0
    } else {
        BROKEN
    }
}

/// Compares small meshes: with their trees, with those of other meshes, with
/// damaged ones, and with faults of the mesh.
pub fn compare(report: &mut Report, plan: &Plan, check: Check) {
    every_small_tree(report, plan, check);
    trees_of_the_mesh(report, plan, check);
    paths(report, plan, check);
    trees_of_other_meshes(report, plan, check);
    damaged(report, plan, check);
    refusals(report, plan, check);
}

/// Every list of up to three nodes with starts up to 4 and counts up to 5, and
/// every list of items up to 5 of one leaf. The boxes are large enough.
pub(super) fn every_small_tree(report: &mut Report, plan: &Plan, check: Check) {
    let mut asker = Asker::new(check, plan, "every small one");
    for triangles in 0..7 {
        let mesh = inputs::points(triangles, |v| [f64::from(v), 0.0, 0.0]);
        let own = own_boxes(&mesh);
        let mut ask = |tree: &Tree| {
            let length = mesh.corners.len();
            let want = judged(&mesh, &own, tree, length);
            asker.compare(&mesh, tree, length, want);
        };
        for count in 0..4 {
            every_list(count, 30, &mut |numbers| {
                let nodes = numbers.iter().flat_map(|n| [n / 6, n % 6]);
                ask(&wide_tree(nodes.collect(), (0..triangles).collect()));
            });
        }
        for length in 0..6 {
            every_list(length, 6, &mut |items| {
                ask(&wide_tree(vec![0, triangles], items.to_vec()));
            });
        }
    }
    asker.line.add_to(report, &["accepted", "refusal 7"]);
}

/// Every list of so many numbers below `end`.
fn every_list(length: u32, end: u32, ask: &mut impl FnMut(&[u32])) {
    for code in 0..end.pow(length) {
        let numbers: Vec<u32> = (0..length).map(|n| code / end.pow(n) % end).collect();
        ask(&numbers);
    }
}

/// A tree whose boxes enclose everything.
fn wide_tree(nodes: Vec<u32>, items: Vec<u32>) -> Tree {
    let wide = [f64::NEG_INFINITY, f64::INFINITY].map(|edge| [edge; 3]);
    Tree {
        boxes: vec![wide; nodes.len() / STRIDE].as_flattened().concat(),
        nodes,
        items,
    }
}

/// The builder's trees, and others that keep the rules.
pub(super) fn trees_of_the_mesh(report: &mut Report, plan: &Plan, check: Check) {
    let mut built = Asker::new(check, plan, "built");
    let mut other = Asker::new(check, plan, "other cuts and boxes");
    for _ in 0..plan.times(50_000) {
        let mesh = inputs::mesh(&mut built.random);
        let own = own_boxes(&mesh);
        built.ask(&mesh, &own, &build(&RULE, &own).tree);
        let tree = others::tree(&own, &mut other.random);
        other.ask(&mesh, &own, &tree);
        if tree.node_count() > own.len() {
            other.line.see("more nodes than triangles");
        }
        if !tree.items.is_sorted() {
            other.line.see("items in another order");
        }
        if tree.boxes.contains(&f64::INFINITY) {
            other.line.see("an infinite box");
        }
    }
    built.line.add_to(report, &["accepted", "refusal 6"]);
    let needed = [
        "accepted",
        "more nodes than triangles",
        "items in another order",
        "an infinite box",
        "refusal 6",
    ];
    other.line.add_to(report, &needed);
}

/// Trees whose only fault, if any, is a path that is too long, or leaves that are
/// too large.
pub(super) fn paths(report: &mut Report, plan: &Plan, check: Check) {
    let mut asker = Asker::new(check, plan, "paths of 31 to 34 nodes");
    let mut leaves = Asker::new(check, plan, "leaves of up to 6 items");
    for _ in 0..plan.times(5000) {
        for path in 31..35 {
            let random = &mut asker.random;
            let count = path + pick(3 * path, random);
            let mesh = inputs::points(count as u32, |_| [(); 3].map(|()| random.fraction()));
            let own = own_boxes(&mesh);
            let tree = others::chain(&own, path, &mut asker.random);
            asker.ask(&mesh, &own, &tree);
        }
        let mesh = inputs::mesh(&mut leaves.random);
        let own = own_boxes(&mesh);
        let tree = others::with_leaves(&own, 6, &mut leaves.random);
        leaves.ask(&mesh, &own, &tree);
    }
    asker.line.add_to(report, &["accepted", "refusal 7"]);
    leaves.line.add_to(report, &["accepted", "refusal 7"]);
}

/// What a line of trees of other meshes has to see.
pub(in crate::kinds) const OF_OTHER_MESHES: [&str; 5] = [
    "revised and accepted",
    "revised and refused",
    "reordered and accepted",
    "reordered and refused",
    "renumbered and accepted",
];

/// Trees of an older form of the mesh: before a vertex was moved, before it was
/// reordered, and before it was renumbered.
pub(super) fn trees_of_other_meshes(report: &mut Report, plan: &Plan, check: Check) {
    let mut asker = Asker::new(check, plan, "of another mesh");
    for _ in 0..plan.times(40_000) {
        let random = &mut asker.random;
        let old = inputs::mesh(random);
        let own = own_boxes(&old);
        let tree = others::any(&own, random);
        for (name, form) in inputs::LATER {
            let mesh = form(&old, &mut asker.random);
            let answer = match asker.ask(&mesh, &own_boxes(&mesh), &tree) {
                0 => "accepted",
                BROKEN => "refused",
                _ => continue,
            };
            asker.line.see(format!("{name} and {answer}"));
        }
    }
    asker.line.add_to(report, &OF_OTHER_MESHES);
}

/// Trees with each sort of damage.
pub(super) fn damaged(report: &mut Report, plan: &Plan, check: Check) {
    for Damage { name, damage } in &DAMAGES {
        let mut asker = Asker::new(check, plan, &format!("damaged {name}"));
        for _ in 0..plan.times(30_000) {
            let random = &mut asker.random;
            let mesh = inputs::mesh(random);
            let own = own_boxes(&mesh);
            let mut tree = others::any(&own, random);
            if !own.is_empty() {
                damage(&mut tree, random);
            }
            asker.ask(&mesh, &own, &tree);
        }
        asker.line.add_to(report, &["accepted", "refusal 7"]);
    }
}

/// Meshes and work buffers with each fault and each set of them, and trees with
/// and without one.
pub(super) fn refusals(report: &mut Report, plan: &Plan, check: Check) {
    let mut asker = Asker::new(check, plan, "faults of the mesh");
    for _ in 0..plan.times(50_000) {
        let (mesh, tree, length) = faulty(&mut asker.random);
        let want = answered(&mesh, &tree, length);
        asker.compare(&mesh, &tree, length, want);
    }
    asker.line.add_to(report, &QUESTIONS[..8]);
}

/// A small mesh, a tree of it and a number of work places, without a fault or with
/// any.
pub(in crate::kinds) fn faulty(random: &mut Random) -> (Mesh, Tree, usize) {
    let mut mesh = inputs::mesh(random);
    let mut tree = others::tree(&own_boxes(&mesh), random);
    let mut length = mesh.corners.len() + pick(3, random);
    // 1 and 2 come last: their faults leave no faces to be found.
    for question in some_of(&[7, 6, 3, 4, 5, 1, 2], random) {
        match question {
            7 => (DAMAGES[0].damage)(&mut tree, random),
            6 => length = pick(mesh.corners.len() + 1, random),
            _ => spoil(&mut mesh, question, random),
        }
    }
    (mesh, tree, length)
}

/// Compares large meshes, with their own trees and with damaged ones.
pub fn large(report: &mut Report, plan: &Plan, check: Check) {
    let mut asker = Asker::new(check, plan, "of large meshes");
    for _ in 0..plan.rounds(1) {
        for mesh in inputs::large(&mut asker.random) {
            let own = own_boxes(&mesh);
            let built = build(&RULE, &own).tree;
            asker.ask(&mesh, &own, &built);
            let other = others::tree(&own, &mut asker.random);
            asker.ask(&mesh, &own, &other);
            for Damage { damage, .. } in &DAMAGES {
                let mut tree = built.clone();
                damage(&mut tree, &mut asker.random);
                asker.ask(&mesh, &own, &tree);
            }
        }
    }
    asker.line.add_to(report, &["accepted", "refusal 7"]);
}
