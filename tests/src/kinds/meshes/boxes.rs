//! The boxes of a mesh, bit for bit: its own and the grown one, the surface
//! tolerance, and the own box and the centre of each triangle.

use csx::primitives::geom::REL_TOL;
use csx::{BoundingBox, Vec3};

use super::expected::{box_of, center, grown, refusal, surface_eps, triangles};
use super::inputs::{self, pick};
use super::{Lent, LentMesh, Line, Mesh, Probe, note_zeros, take_zeros};
use crate::plan::Plan;
use crate::random::Random;
use crate::report::{Kind, Report};

/// The function under test, and the lines that it is compared in.
struct Asker {
    probe: Probe<f64>,
    rule: Line,
    csx: Kind,
    /// How many zeros csx gives with the other sign.
    zeros: u64,
    random: Random,
}

impl Asker {
    fn new(probe: Probe<f64>, plan: &Plan, name: &str) -> Self {
        Self {
            probe,
            rule: Line::new(format!("{name}, the rule")),
            csx: Kind::new(format!("{name}, csx")),
            zeros: 0,
            random: plan.random(name),
        }
    }

    fn ask(&mut self, mesh: &Mesh) {
        if let Some(refusal) = refusal(mesh) {
            let buffer = Lent::garbage(22, &mut self.random);
            return self.rule.ask(self.probe, mesh, buffer, refusal, &[]);
        }
        let numbers = by_rule(mesh);
        let length = numbers.len() + pick(9, &mut self.random);
        let buffer = Lent::garbage(length, &mut self.random);
        self.rule.ask(self.probe, mesh, buffer, 0, &numbers);
        if numbers.iter().any(|x| x.to_bits() == 1 << 63) {
            self.rule.see("a zero below zero");
        }
        if numbers.iter().any(|x| x.is_infinite()) {
            self.rule.see("an infinity");
        }
        self.ask_csx(mesh, numbers.len());
    }

    fn ask_csx(&mut self, mesh: &Mesh, length: usize) {
        let mut lent = LentMesh::new(mesh);
        let mut got = vec![0.0; length];
        (self.probe)(&mut lent.lend(), &mut got);
        let mut want = by_csx(mesh);
        self.zeros += take_zeros(&mut want, &got);
        for (place, (got, want)) in got.into_iter().zip(want).enumerate() {
            self.csx
                .compare_for(got, want, || format!("{}, number {place}", mesh.text()));
        }
    }

    fn add_to(self, report: &mut Report, needed: &[&str]) {
        self.rule.add_to(report, needed);
        report.add(self.csx);
        note_zeros(report, self.zeros);
    }
}

/// The numbers in the order of the probe, from plain Rust.
fn by_rule(mesh: &Mesh) -> Vec<f64> {
    let found = box_of(mesh.coords.as_chunks().0.iter().copied());
    let mut numbers = [found, grown(found)].as_flattened().as_flattened().to_vec();
    numbers.push(surface_eps(found));
    for triangle in triangles(mesh) {
        let own = box_of(triangle.map(|v| mesh.vertex(v)));
        numbers.extend(own.as_flattened());
        numbers.extend(center(own));
    }
    numbers
}

/// The same from csx.
fn by_csx(mesh: &Mesh) -> Vec<f64> {
    let csx = mesh.csx().expect("an accepted mesh");
    let found = csx.bounding_box();
    let grown = found.expanded(REL_TOL * found.size().norm());
    let mut numbers = Vec::new();
    let corners = |b: BoundingBox| [b.min.0, b.max.0];
    numbers.extend(corners(found).as_flattened());
    numbers.extend(corners(grown).as_flattened());
    numbers.push(csx.surface_eps());
    for triangle in csx.triangles() {
        let own = BoundingBox::from_points(triangle.map(|v| Vec3(mesh.vertex(v))));
        numbers.extend(corners(own).as_flattened());
        numbers.extend(own.center().0);
    }
    numbers
}

/// Compares small meshes.
pub fn compare(report: &mut Report, plan: &Plan, probe: Probe<f64>) {
    let mut asker = Asker::new(probe, plan, "boxes");
    for _ in 0..plan.times(150_000) {
        let mut mesh = inputs::mesh(&mut asker.random);
        if asker.random.below(16) == 0 {
            mesh.coords.push(0.0);
        }
        asker.ask(&mesh);
    }
    let needed = ["a zero below zero", "an infinity", "refusal 1"];
    asker.add_to(report, &needed);
}

/// Compares large meshes.
pub fn large(report: &mut Report, plan: &Plan, probe: Probe<f64>) {
    let mut asker = Asker::new(probe, plan, "boxes of large meshes");
    for _ in 0..plan.rounds(2) {
        for mesh in inputs::large(&mut asker.random) {
            asker.ask(&mesh);
        }
    }
    asker.add_to(report, &[]);
}

#[cfg(test)]
mod tests {
    use super::super::expected::Bounds;
    use super::super::tests::writes;
    use super::*;
    use crate::engine::Point;
    use crate::engine::meshes::Mesh as Lists;
    use crate::kinds::tests;

    /// An engine that writes these numbers.
    fn by(lists: &Lists, out: &mut [f64], numbers: fn(&Mesh) -> Vec<f64>) -> u64 {
        writes(lists, out, numbers)
    }

    fn fails(probe: Probe<f64>) -> bool {
        tests::fails(|report, plan| compare(report, plan, probe))
    }

    /// The numbers with another box of the mesh.
    fn with_box(mesh: &Mesh, found: Bounds) -> Vec<f64> {
        let mut numbers = by_rule(mesh);
        numbers[..6].copy_from_slice(found.as_flattened());
        numbers[6..12].copy_from_slice(grown(found).as_flattened());
        numbers[12] = surface_eps(found);
        numbers
    }

    /// The numbers with another centre of each own box.
    fn with_centers(mesh: &Mesh, center: fn(Point, Point) -> Point) -> Vec<f64> {
        let mut numbers = by_rule(mesh);
        for own in numbers[13..].chunks_mut(9) {
            let middle = center([own[0], own[1], own[2]], [own[3], own[4], own[5]]);
            own[6..].copy_from_slice(&middle);
        }
        numbers
    }

    #[test]
    fn the_right_boxes_pass() {
        assert!(!fails(|lists, out| by(lists, out, by_rule)));
    }

    #[test]
    fn wrong_boxes_are_caught() {
        // of the vertices that are used
        assert!(fails(|lists, out| by(lists, out, |mesh| {
            let used = mesh.corners.iter().map(|v| mesh.vertex(*v));
            with_box(mesh, box_of(used))
        })));
        // from the last vertex on: the other of two zeros
        assert!(fails(|lists, out| by(lists, out, |mesh| {
            let vertices = mesh.coords.as_chunks().0;
            with_box(mesh, box_of(vertices.iter().rev().copied()))
        })));
        // from the origin on
        assert!(fails(|lists, out| by(lists, out, |mesh| {
            let vertices = mesh.coords.as_chunks().0;
            with_box(mesh, box_of([[0.0; 3]].iter().chain(vertices).copied()))
        })));
        // own boxes in another order of the corners
        assert!(fails(|lists, out| by(lists, out, |mesh| {
            let turned = triangles(mesh).into_iter().map(|[a, b, c]| [c, b, a]);
            by_rule(&mesh.with_faces(turned))
        })));
    }

    #[test]
    fn wrong_centres_are_caught() {
        // that do not overflow
        assert!(fails(|lists, out| by(lists, out, |mesh| {
            with_centers(mesh, |min, max| {
                [0, 1, 2].map(|i| min[i] / 2.0 + max[i] / 2.0)
            })
        })));
        // from the smaller end
        assert!(fails(|lists, out| by(lists, out, |mesh| {
            with_centers(mesh, |min, max| {
                [0, 1, 2].map(|i| min[i] + (max[i] - min[i]) * 0.5)
            })
        })));
    }

    #[test]
    fn wrong_tolerances_are_caught() {
        // from the size alone
        assert!(fails(|lists, out| by(lists, out, |mesh| {
            let mut numbers = by_rule(mesh);
            let size = [0, 1, 2].map(|i| numbers[3 + i] - numbers[i]);
            numbers[12] = 1e-12 * Vec3(size).norm().max(1e-300);
            numbers
        })));
        // without a least one
        assert!(fails(|lists, out| by(lists, out, |mesh| {
            let mut numbers = by_rule(mesh);
            if numbers[12] == 1e-12 * 1e-300 {
                numbers[12] = 0.0;
            }
            numbers
        })));
        // the box grown by the surface tolerance
        assert!(fails(|lists, out| by(lists, out, |mesh| {
            let mut numbers = by_rule(mesh);
            for i in 0..3 {
                numbers[6 + i] = numbers[i] - numbers[12];
                numbers[9 + i] = numbers[3 + i] + numbers[12];
            }
            numbers
        })));
    }
}
