//! Lists of points: which of them a mesh with a stored tree contains, against the
//! plain scan of document 01 and against csx.

pub mod answers;
pub mod by_csx;
pub mod cases;
pub(super) mod expected;
pub(super) mod inputs;
pub(super) mod points;
pub mod refusals;
pub mod rewritings;
#[cfg(test)]
mod wrong_engines;

use csx::{Polyhedron, Vec3};

use self::expected::{Prepared, refusal};
use super::answer::{Answer, INSIDE, OUTSIDE, UNDECIDED};
use super::lent::{Lent, cut};
use super::meshes::expected::{Bounds, edge_keys};
use super::meshes::triangles::sides;
use super::meshes::{self, LentMesh, Line, Mesh, Outcome};
use super::trees::checking::answered;
use super::trees::expected::own_boxes;
use super::trees::{LentTree, Tree};
use crate::engine::{self, Point, REFUSAL};
use crate::plan::Plan;
use crate::random::Random;
use crate::report::Report;

/// The function under test, as `engine::lists::contains` is.
pub type Contains = fn(
    &mut engine::meshes::Mesh,
    &mut engine::trees::Tree,
    &mut [u64],
    &mut engine::lists::List,
) -> u64;

/// A call: what is lent, and how long the buffers are that are written to.
pub(super) struct Call<'a> {
    pub mesh: &'a Mesh,
    pub tree: &'a Tree,
    pub points: &'a [f64],
    pub work: usize,
    pub answers: usize,
}

impl<'a> Call<'a> {
    /// A call with as many places for answers as there are points, and somewhat
    /// more work places than are needed.
    fn new(mesh: &'a Mesh, tree: &'a Tree, points: &'a [Point], random: &mut Random) -> Self {
        Self {
            mesh,
            tree,
            points: points.as_flattened(),
            work: mesh.corners.len() + random.below(3) as usize,
            answers: points.len(),
        }
    }

    /// What is to be answered: the refusal by questions 1 to 9, or 0.
    pub fn want(&self) -> u64 {
        match answered(self.mesh, self.tree, self.work) {
            0 => refusal(self.points, self.answers).unwrap_or(0),
            refusal => refusal,
        }
    }

    /// What is written to the work places: the edge keys, a 0 for each corner if the
    /// tree or the list is refused, or nothing.
    pub fn work_left(&self, want: u64) -> Vec<u64> {
        match want / REFUSAL {
            0 => edge_keys(self.mesh),
            1..=6 => Vec::new(),
            _ => vec![0; self.mesh.corners.len()],
        }
    }

    /// What is written to the places for answers: the plain scan's, unless something
    /// is refused.
    pub fn answers_left(&self, want: u64) -> Vec<u8> {
        match want {
            0 => Prepared::new(self.mesh).answers(self.points.as_chunks().0),
            _ => Vec::new(),
        }
    }

    /// Calls the function under test, and compares its answer and every lent list
    /// with what they should be: `want` is the refusal, or 0 if the points have these
    /// answers. Gives what was left in the places for answers.
    fn ask(
        &self,
        contains: Contains,
        line: &mut Line,
        random: &mut Random,
        want: u64,
        answers: &[u8],
    ) -> Vec<u8> {
        let mut mesh = LentMesh::new(self.mesh);
        let mut tree = LentTree::new(self.tree);
        let mut work = Lent::garbage(self.work, random);
        let mut points = Lent::new(self.points);
        let mut written = Lent::garbage(self.answers, random);
        let mut list = engine::lists::List {
            points: points.list(),
            answers: written.list(),
        };
        let answer = contains(&mut mesh.lend(), &mut tree.lend(), work.list(), &mut list);
        let wrong = mesh
            .wrong(&Mesh::default())
            .or_else(|| tree.wrong(&Tree::default()))
            .or_else(|| points.wrong("points", &[]))
            .or_else(|| work.wrong("work", &self.work_left(want)))
            .or_else(|| written.wrong("answers", answers));
        line.compare(Outcome { answer, wrong }, want, || {
            let place = wrong.and_then(|wrong| wrong.place_in("answers"));
            self.text(place.unwrap_or(0))
        });
        if want == 0 {
            line.see("accepted");
        }
        written.list().to_vec()
    }

    /// The call as it is printed, with the points from this one on.
    pub fn text(&self, first: usize) -> String {
        format!(
            "{}, {}, work of {}, answers of {}, {} points, from number {first} on {}",
            self.mesh.text(),
            self.tree.text(),
            self.work,
            self.answers,
            self.points.len() / 3,
            cut(self.points.get(3 * first..).unwrap_or_default()),
        )
    }
}

/// An accepted mesh with a tree of it, and what is known of them.
struct Subject<'a> {
    mesh: &'a Mesh,
    rule: Prepared,
    tree: Tree,
    csx: Polyhedron,
    /// csx with the tree that is lent.
    csx_lent: Polyhedron,
}

impl<'a> Subject<'a> {
    /// A mesh with the tree that is made of the boxes of its triangles.
    fn new(mesh: &'a Mesh, tree: impl FnOnce(&[Bounds]) -> Tree) -> Self {
        let tree = tree(&own_boxes(mesh));
        let csx = mesh.csx().expect("an accepted mesh");
        let mut csx_lent = csx.clone();
        csx_lent.bvh = by_csx::bvh(&tree);
        Self {
            mesh,
            rule: Prepared::new(mesh),
            tree,
            csx,
            csx_lent,
        }
    }
}

/// Counts the answers that were expected.
pub(super) fn see_answers(line: &mut Line, answers: &[u8]) {
    for answer in [OUTSIDE, INSIDE, UNDECIDED] {
        let these = answers.iter().filter(|a| u64::from(**a) == answer);
        line.see_times(Answer(answer).to_string(), these.count() as u64);
    }
}

/// The function under test, and the lines that it is compared in: with the plain
/// scan, with csx, and with csx over the lent tree.
struct Asker {
    asker: meshes::Asker<Contains>,
    lent: Line,
}

impl Asker {
    fn new(contains: Contains, plan: &Plan, name: &str) -> Self {
        let name = format!("lists, {name}");
        Self {
            asker: meshes::Asker::new(contains, plan, &name, "csx"),
            lent: Line::new(format!("{name}, csx with the lent tree")),
        }
    }

    fn random(&mut self) -> &mut Random {
        &mut self.asker.random
    }

    /// Asks about points that have these answers.
    fn ask(&mut self, subject: &Subject, points: &[Point], answers: &[u8]) {
        let meshes::Asker {
            function,
            rule,
            csx,
            random,
        } = &mut self.asker;
        let call = Call::new(subject.mesh, &subject.tree, points, random);
        let got = call.ask(*function, rule, random, 0, answers);
        see_answers(rule, answers);
        rule.see(sides(subject.mesh));
        for (line, by) in [(csx, &subject.csx), (&mut self.lent, &subject.csx_lent)] {
            for (place, want) in answers.iter().enumerate() {
                let p = Vec3(points[place]);
                let (want, word) = by_csx::answer(by, &subject.rule, p, u64::from(*want));
                let got = Answer(u64::from(got[place]));
                line.kind
                    .compare_for(got, Answer(want), || call.text(place));
                line.see(word);
            }
        }
    }

    /// Adds the lines to the report. That of the plain scan has to have seen this,
    /// and those of csx these entries of the closed list, of which none shows with
    /// the feature `port`.
    fn add_to(self, report: &mut Report, needed: &[&str], entries: &[&str]) {
        let entries = if cfg!(feature = "port") { &[] } else { entries };
        self.asker.add_to(report, needed, entries);
        self.lent.add_to(report, entries);
    }
}
