//! The triangles of a mesh, against csx.

use super::expected::refusal;
use super::inputs::{self, pick};
use super::{Lent, Line, Mesh, Probe};
use crate::plan::Plan;
use crate::random::Random;
use crate::report::Report;

/// Compares small meshes.
pub fn compare(report: &mut Report, plan: &Plan, probe: Probe<u32>) {
    let mut line = Line::new("triangles, csx");
    let mut random = plan.random("triangles");
    for _ in 0..plan.times(250_000) {
        let mut mesh = inputs::mesh(&mut random);
        if random.below(16) == 0 {
            mesh.coords.push(0.0);
        }
        ask(&mut line, probe, &mesh, &mut random);
    }
    line.add_to(report, &NEEDED);
}

/// What a line has to see: refusals, and faces of equally many corners, of 3 and
/// of 4 of which are found in their own ways, and of others.
const NEEDED: [&str; 5] = [
    "refusal 1",
    "sides 3",
    "sides 4",
    "sides equal",
    "sides mixed",
];

/// Compares large meshes.
pub fn large(report: &mut Report, plan: &Plan, probe: Probe<u32>) {
    let mut line = Line::new("triangles of large meshes, csx");
    let mut random = plan.random("triangles of large meshes");
    for _ in 0..plan.rounds(2) {
        for mesh in inputs::large(&mut random) {
            ask(&mut line, probe, &mesh, &mut random);
        }
    }
    line.add_to(report, &NEEDED[1..]);
}

fn ask(line: &mut Line, probe: Probe<u32>, mesh: &Mesh, random: &mut Random) {
    let Some(refusal) = refusal(mesh) else {
        let triangles = mesh.csx().expect("an accepted mesh").triangles().to_vec();
        let length = 3 * triangles.len() + pick(9, random);
        let buffer = Lent::garbage(length, random);
        line.ask(probe, mesh, buffer, 0, triangles.as_flattened());
        line.see(sides(mesh));
        return;
    };
    line.ask(probe, mesh, Lent::garbage(9, random), refusal, &[]);
}

/// Whether all faces have equally many corners.
pub(in crate::kinds) fn sides(mesh: &Mesh) -> &'static str {
    let mut sides = mesh.faces().map(<[_]>::len);
    let Some(first) = sides.next() else {
        return "no faces";
    };
    match first {
        _ if sides.any(|n| n != first) => "sides mixed",
        3 => "sides 3",
        4 => "sides 4",
        _ => "sides equal",
    }
}

#[cfg(test)]
mod tests {
    use super::super::{expected, tests::writes};
    use super::*;
    use crate::engine::meshes::Mesh as Lists;
    use crate::kinds::tests;

    /// An engine that has these triangles.
    fn by(lists: &Lists, out: &mut [u32], triangles: fn(&Mesh) -> Vec<[u32; 3]>) -> u64 {
        writes(lists, out, |mesh| triangles(mesh).into_flattened())
    }

    fn fails(probe: Probe<u32>) -> bool {
        tests::fails(|report, plan| compare(report, plan, probe))
    }

    fn large_fails(probe: Probe<u32>) -> bool {
        tests::fails(|report, plan| large(report, plan, probe))
    }

    #[test]
    fn the_right_triangles_pass() {
        let right: Probe<u32> = |lists, out| by(lists, out, expected::triangles);
        assert!(!fails(right));
        assert!(!large_fails(right));
    }

    #[test]
    fn wrong_triangles_are_caught() {
        // fans from the last corner
        assert!(fails(|lists, out| by(lists, out, |mesh| {
            let turned = mesh.faces().map(|face| {
                let mut face = face.to_vec();
                face.rotate_right(1);
                face
            });
            expected::triangles(&mesh.with_faces(turned))
        })));
        // strips for fans
        assert!(fails(|lists, out| by(lists, out, |mesh| {
            let strip =
                |f: &[u32]| -> Vec<_> { f.windows(3).map(|w| [w[0], w[1], w[2]]).collect() };
            mesh.faces().flat_map(strip).collect()
        })));
        // the last two corners exchanged
        assert!(fails(|lists, out| by(lists, out, |mesh| {
            let mut found = expected::triangles(mesh);
            found.iter_mut().for_each(|t| t.swap(1, 2));
            found
        })));
        // the last triangle of mixed faces taken for the first
        assert!(fails(|lists, out| by(lists, out, |mesh| {
            let mut found = expected::triangles(mesh);
            if sides(mesh) == "sides mixed" {
                let last = found.len() - 1;
                found[last] = found[0];
            }
            found
        })));
        // no degenerate triangles
        assert!(fails(|lists, out| by(lists, out, |mesh| {
            let mut found = expected::triangles(mesh);
            found.retain(|[a, b, c]| a != b && b != c && a != c);
            found
        })));
    }

    #[test]
    fn a_wrong_triangle_of_a_large_mesh_is_caught() {
        assert!(large_fails(|lists, out| by(lists, out, |mesh| {
            let mut found = expected::triangles(mesh);
            let t = pick(found.len(), &mut Random::new(1));
            found[t][0] ^= 1;
            found
        })));
    }
}
