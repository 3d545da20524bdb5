//! Questions 1 to 9 of a list, with every byte of the lent lists: faults of the
//! points and of their number, behind faults of the mesh, of the room and of the
//! tree, alone and together.

use super::answers::{COUNT, any_case};
use super::expected::{POINTS, Prepared};
use super::inputs::{ANSWERS, unit_cube};
use super::points::points;
use super::{Call, Contains, see_answers};
use crate::engine::Point;
use crate::kinds::meshes::inputs::{pick, some_of};
use crate::kinds::meshes::questions::spoil;
use crate::kinds::meshes::{Line, Mesh, QUESTIONS};
use crate::kinds::trees::checking::OF_OTHER_MESHES;
use crate::kinds::trees::damage::DAMAGES;
use crate::kinds::trees::expected::own_boxes;
use crate::kinds::trees::inputs::LATER;
use crate::kinds::trees::{Tree, built, others};
use crate::plan::Plan;
use crate::random::{NOT_FINITE, Random};
use crate::report::Report;

/// A function under test, and the line that it is compared in.
struct Asker {
    contains: Contains,
    line: Line,
    random: Random,
}

impl Asker {
    fn new(contains: Contains, plan: &Plan, name: &str) -> Self {
        let name = format!("lists, {name}");
        Self {
            contains,
            random: plan.random(&name),
            line: Line::new(name),
        }
    }

    /// Makes a call, which may be refused.
    fn ask(&mut self, call: &Call) -> u64 {
        let want = call.want();
        let answers = call.answers_left(want);
        call.ask(
            self.contains,
            &mut self.line,
            &mut self.random,
            want,
            &answers,
        );
        see_answers(&mut self.line, &answers);
        want
    }
}

/// Compares every question.
pub fn compare(report: &mut Report, plan: &Plan, contains: Contains) {
    faults(report, plan, contains);
    trees_of_other_meshes(report, plan, contains);
    damaged(report, plan, contains);
    lengths(report, plan, contains);
}

/// Each fault and each set of them. Half of the meshes have none.
pub(super) fn faults(report: &mut Report, plan: &Plan, contains: Contains) {
    let mut asker = Asker::new(contains, plan, "faults");
    for _ in 0..plan.times(20_000) {
        let faulty = faulty(&mut asker.random);
        asker.ask(&faulty.call());
    }
    asker.line.add_to(report, &QUESTIONS);
}

/// What a call lends.
pub(in crate::kinds) struct Owned {
    pub mesh: Mesh,
    pub tree: Tree,
    pub points: Vec<f64>,
    pub work: usize,
    pub answers: usize,
}

impl Owned {
    pub fn call(&self) -> Call<'_> {
        Call {
            mesh: &self.mesh,
            tree: &self.tree,
            points: &self.points,
            work: self.work,
            answers: self.answers,
        }
    }
}

/// A call with few points, without a fault or with any.
pub(in crate::kinds) fn faulty(random: &mut Random) -> Owned {
    let count = pick(4, random);
    let (mut mesh, points) = any_case(count, random);
    let mut points = points.concat();
    let mut tree = others::any(&own_boxes(&mesh), random);
    let mut work = mesh.corners.len() + pick(3, random);
    let mut answers = count;
    // 1 and 2 come last: their faults leave no faces to be found.
    let questions = [9, 8, 7, 6, 3, 4, 5, 1, 2];
    let asked = if random.flip() { 4 } else { 9 };
    for question in some_of(&questions[..asked], random) {
        match question {
            9 => spoil_points(&mut points, random),
            8 => spoil_lengths(&mut points, &mut answers, random),
            7 => (DAMAGES[0].damage)(&mut tree, random),
            6 => work = pick(mesh.corners.len() + 1, random),
            _ => spoil(&mut mesh, question, random),
        }
    }
    Owned {
        mesh,
        tree,
        points,
        work,
        answers,
    }
}

/// Some coordinates that are not finite, if there are any.
fn spoil_points(points: &mut [f64], random: &mut Random) {
    for _ in 0..1 + random.below(2) {
        if !points.is_empty() {
            let place = pick(points.len(), random);
            points[place] = NOT_FINITE[pick(NOT_FINITE.len(), random)];
        }
    }
}

/// A part of a point, or answers for fewer or more points.
fn spoil_lengths(points: &mut Vec<f64>, answers: &mut usize, random: &mut Random) {
    match random.below(4) {
        0 => *answers += 1,
        1 if *answers > 0 => *answers -= 1,
        2 if !points.is_empty() => {
            points.pop();
        }
        _ => points.resize(points.len() + 1 + pick(2, random), 0.5),
    }
}

/// Trees of an older form of the mesh: before a vertex was moved, before it was
/// reordered, and before it was renumbered.
pub(super) fn trees_of_other_meshes(report: &mut Report, plan: &Plan, contains: Contains) {
    let mut asker = Asker::new(contains, plan, "trees of another mesh");
    for _ in 0..plan.times(4_000) {
        let random = &mut asker.random;
        let (old, points) = any_case(COUNT, random);
        let tree = others::any(&own_boxes(&old), random);
        for (name, form) in LATER {
            let random = &mut asker.random;
            let mesh = form(&old, random);
            let call = Call::new(&mesh, &tree, &points, random);
            let answer = match asker.ask(&call) {
                0 => "accepted",
                _ => "refused",
            };
            asker.line.see(format!("{name} and {answer}"));
        }
    }
    let needed = [&OF_OTHER_MESHES[..], &ANSWERS[..2]].concat();
    asker.line.add_to(report, &needed);
}

/// Trees with each sort of damage.
pub(super) fn damaged(report: &mut Report, plan: &Plan, contains: Contains) {
    let mut asker = Asker::new(contains, plan, "damaged trees");
    for _ in 0..plan.times(8_000) {
        let random = &mut asker.random;
        let (mesh, points) = any_case(COUNT, random);
        let own = own_boxes(&mesh);
        let mut tree = others::any(&own, random);
        if !own.is_empty() {
            (DAMAGES[pick(DAMAGES.len(), random)].damage)(&mut tree, random);
        }
        let call = Call::new(&mesh, &tree, &points, random);
        asker.ask(&call);
    }
    asker.line.add_to(report, &["accepted", "refusal 7"]);
}

/// Lists of no point, of one, of as many as are accepted and of one more: with a
/// part of a point, with answers for one less and for one more, with a work place
/// less, and with a point at the end that is not finite.
pub(super) fn lengths(report: &mut Report, plan: &Plan, contains: Contains) {
    let mut asker = Asker::new(contains, plan, "lengths");
    let mesh = unit_cube();
    let tree = built(&mesh);
    let most = points(&mesh, &Prepared::new(&mesh), POINTS + 1, &mut asker.random);
    let corners = mesh.corners.len();
    for count in [0, 1, 2, POINTS - 1, POINTS, POINTS + 1] {
        for part in 0..3 {
            let mut points = most[..count].concat();
            points.extend(&[0.5; 2][..part]);
            for answers in count.saturating_sub(1)..=count + 1 {
                for work in [corners - 1, corners, corners + 1] {
                    asker.ask(&Call {
                        mesh: &mesh,
                        tree: &tree,
                        points: &points,
                        work,
                        answers,
                    });
                }
            }
        }
        if let Some(last) = count.checked_sub(1) {
            let mut points = most[..count].to_vec();
            points[last] = [0.5, 0.5, f64::NAN];
            let call = Call::new(&mesh, &tree, &points, &mut asker.random);
            asker.ask(&call);
        }
    }
    no_mesh(&mut asker, &most[..9]);
    let needed = [&["refusal 6", "refusal 8", "refusal 9"], ANSWERS].concat();
    asker.line.add_to(report, &needed);
}

/// A mesh without faces, and one without vertices.
fn no_mesh(asker: &mut Asker, points: &[Point]) {
    let no_faces = Mesh {
        coords: unit_cube().coords,
        ..Mesh::default()
    };
    for mesh in [no_faces, Mesh::default()] {
        let tree = Tree::default();
        let call = Call::new(&mesh, &tree, points, &mut asker.random);
        asker.ask(&call);
    }
}
