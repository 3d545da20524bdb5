//! The answers for points, a sort of meshes after the other.

use csx::Vec3;

use super::by_csx::{THE_SAME, by_rule};
use super::expected::{POINTS, Prepared};
use super::inputs::{SORTS, Sort, exponent};
use super::points::{off_the_surface, points, uniform};
use super::{Asker, Contains, Subject};
use crate::engine::Point;
use crate::kinds::meshes::Mesh;
use crate::kinds::meshes::expected::triangles;
use crate::kinds::meshes::inputs::{on_torus, pick, torus};
use crate::kinds::trees;
use crate::kinds::trees::expected::{RULE, build};
use crate::kinds::trees::inputs::{renumbered, reordered};
use crate::kinds::trees::others;
use crate::kinds::turns::on_the_way;
use crate::plan::Plan;
use crate::random::{Random, product};
use crate::report::Report;

/// How many points a mesh is asked about.
pub(super) const COUNT: usize = 32;

/// Compares small meshes of each sort, with the builder's tree or another.
pub fn compare(report: &mut Report, plan: &Plan, contains: Contains) {
    for sort in &SORTS {
        compare_sort(report, plan, contains, sort);
    }
}

pub(super) fn compare_sort(report: &mut Report, plan: &Plan, contains: Contains, sort: &Sort) {
    let mut asker = Asker::new(contains, plan, sort.name);
    for _ in 0..plan.times(5_000) {
        let (mesh, points) = case(sort, COUNT, asker.random());
        let subject = Subject::new(&mesh, |own| others::any(own, asker.random()));
        let answers = subject.rule.answers(&points);
        asker.ask(&subject, &points, &answers);
        let way = match asker.random().below(8) {
            0 | 1 => unlike(&points, &answers, asker.random()),
            2 => off_the_surface(&subject.rule, asker.random()),
            _ => None,
        };
        if let Some(way) = way {
            let turning = turning(&subject, way, asker.random());
            asker.ask(&subject, &turning, &subject.rule.answers(&turning));
        }
    }
    asker.add_to(report, sort.needed, sort.entries);
}

/// A mesh of any sort and points for it.
pub(super) fn any_case(count: usize, random: &mut Random) -> (Mesh, Vec<Point>) {
    case(&SORTS[pick(SORTS.len(), random)], count, random)
}

/// A mesh of this sort and points for it. Some meshes are cut into triangles, some
/// have their faces and numbers mixed, some have a corner at the origin, where
/// distances have the most digits, and some have zeros of either sign.
pub(in crate::kinds) fn case(sort: &Sort, count: usize, random: &mut Random) -> (Mesh, Vec<Point>) {
    let mut mesh = (sort.mesh)(random);
    if random.below(4) == 0 {
        mesh = mesh.with_faces(triangles(&mesh));
    }
    if random.below(4) == 0 {
        mesh = renumbered(&reordered(&mesh, random), random);
    }
    if random.below(4) == 0 && !mesh.corners.is_empty() {
        let origin = mesh.vertex(mesh.corners[pick(mesh.corners.len(), random)]);
        let coords = mesh.coords.iter_mut().zip(origin.iter().cycle());
        coords.for_each(|(x, o)| *x = (*x - o).clamp(-f64::MAX, f64::MAX));
    }
    if random.below(4) == 0 {
        let zeros = mesh.coords.iter_mut().filter(|x| **x == 0.0);
        zeros.for_each(|x| *x = if random.flip() { -0.0 } else { 0.0 });
    }
    let mut points = points(&mesh, &Prepared::new(&mesh), count, random);
    if sort.rescaled {
        let e = exponent(random);
        let all = mesh.coords.iter_mut().chain(points.as_flattened_mut());
        all.for_each(|x| *x = product(*x, e));
    }
    (mesh, points)
}

/// Two points with unlike answers, if there are such.
fn unlike(points: &[Point], answers: &[u8], random: &mut Random) -> Option<[Point; 2]> {
    let from = pick(points.len(), random);
    let to = answers.iter().position(|answer| *answer != answers[from])?;
    Some([points[from], points[to]])
}

/// Finite points about the turns on the way from a point to another.
fn turning(subject: &Subject, [from, to]: [Point; 2], random: &mut Random) -> Vec<Point> {
    let scan = |p| subject.rule.plain_scan(Vec3(p));
    let answer = scan(from);
    let mut turning = on_the_way(from, to, random, |p| scan(p) == answer);
    turning.retain(|p| p.iter().all(|x| x.is_finite()));
    turning
}

/// How many points of a large mesh the plain scan answers.
const FEW: usize = 6;

/// Compares large meshes with few points, and a torus with as many as are accepted.
pub fn large(report: &mut Report, plan: &Plan, contains: Contains) {
    let mut asker = Asker::new(contains, plan, "large meshes");
    for _ in 0..plan.rounds(1) {
        for mesh in trees::inputs::large(asker.random()) {
            let subject = Subject::new(&mesh, |own| others::any(own, asker.random()));
            let points = points(&mesh, &subject.rule, FEW, asker.random());
            asker.ask(&subject, &points, &subject.rule.answers(&points));
        }
        most_points(&mut asker);
    }
    asker.add_to(report, &["outside", "inside"], &[THE_SAME]);
}

/// The longest list on a torus of 129,792 triangles. The plain scan answers few of
/// its points, and the rule over the tree all.
fn most_points(asker: &mut Asker) {
    let (a, b) = (208, 312);
    let mesh = torus(a, b, false).mesh_at(|v| on_torus(a, b, v));
    let subject = Subject::new(&mesh, |own| build(&RULE, own).tree);
    let points = uniform(&subject.rule, POINTS, asker.random());
    let few = &points[..16 * FEW];
    asker.ask(&subject, few, &subject.rule.answers(few));
    let answer = |p: &Point| by_rule(&subject.csx_lent, &subject.rule, Vec3(*p), true, true) as u8;
    let answers: Vec<u8> = points.iter().map(answer).collect();
    asker.ask(&subject, &points, &answers);
}
