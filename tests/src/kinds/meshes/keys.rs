//! The edge keys and whether a mesh is closed, against plain Rust and csx.

use csx::primitives::polyhedron::is_closed;

use super::expected::{closed, edge_keys, refusal};
use super::inputs::{self, Numbers};
use super::{Asker, Lent, LentMesh, Line, Mesh, Outcome, Probe, ROOM, buffer_length};
use crate::plan::Plan;
use crate::random::Random;
use crate::report::Report;

/// What a line has to see.
const NEEDED: [&str; 4] = ["closed", "open", "refusal 1", "refusal 6"];

/// What csx is asked.
const CSX: &str = "closed by csx";

fn ask(asker: &mut Asker<Probe<u64>>, mesh: &Mesh) {
    let Asker {
        function,
        rule,
        random,
        ..
    } = asker;
    if let Some(refusal) = refusal(mesh) {
        let buffer = Lent::garbage(mesh.corners.len(), random);
        return rule.ask(*function, mesh, buffer, refusal, &[]);
    }
    let keys = edge_keys(mesh);
    let length = buffer_length(keys.len(), random);
    let want = if length < keys.len() {
        ROOM
    } else {
        closed(mesh, &keys).into()
    };
    let buffer = Lent::garbage(length, random);
    rule.ask(*function, mesh, buffer, want, &keys);
    see(rule, want);
    ask_csx(asker, mesh);
}

fn ask_csx(asker: &mut Asker<Probe<u64>>, mesh: &Mesh) {
    let mut work = vec![0; mesh.corners.len()];
    let got = (asker.function)(&mut LentMesh::new(mesh).lend(), &mut work);
    let faces: Vec<Vec<u32>> = mesh.faces().map(<[_]>::to_vec).collect();
    let want = is_closed(&faces).into();
    asker
        .csx
        .compare(Outcome::answered(got), want, || mesh.text());
    see(&mut asker.csx, want);
}

fn see(line: &mut Line, want: u64) {
    match want {
        0 => line.see("open"),
        1 => line.see("closed"),
        _ => {}
    }
}

/// Compares small meshes: every mesh of no triangle, of one over three vertices,
/// of two over four and of three over three, and random ones.
pub fn compare(report: &mut Report, plan: &Plan, probe: Probe<u64>) {
    let mut asker = Asker::new(probe, plan, "edge keys", CSX);
    for (vertices, faces) in [(3, 0), (3, 1), (4, 2), (3, 3)] {
        every_mesh(vertices, faces, &mut |mesh| ask(&mut asker, mesh));
    }
    for _ in 0..plan.times(250_000) {
        let mut mesh = inputs::mesh(&mut asker.random);
        if asker.random.below(16) == 0 {
            mesh.coords.push(0.0);
        }
        ask(&mut asker, &mesh);
    }
    asker.add_to(report, &NEEDED, &NEEDED[..2]);
}

/// Every mesh of so many triangles over so many vertices. Among them are no
/// faces, which are open, and one triangle listed twice, which is closed.
fn every_mesh(vertices: u32, faces: u32, ask: &mut impl FnMut(&Mesh)) {
    let corners = 3 * faces;
    for n in 0..vertices.pow(corners) {
        let mut mesh = Mesh {
            coords: vec![0.0; 3 * vertices as usize],
            ..Mesh::default()
        };
        let corner = |k| n / vertices.pow(k) % vertices;
        for f in 0..faces {
            mesh.push_face((3 * f..3 * f + 3).map(corner));
        }
        ask(&mesh);
    }
}

/// Compares large meshes: keys in random order, in ascending and in descending
/// order, and many that are equal.
pub fn large(report: &mut Report, plan: &Plan, probe: Probe<u64>) {
    let mut asker = Asker::new(probe, plan, "edge keys of large meshes", CSX);
    for _ in 0..plan.rounds(2) {
        for mut mesh in inputs::large(&mut asker.random) {
            ask(&mut asker, &mesh);
            mesh.corners.sort_unstable();
            ask(&mut asker, &mesh);
            mesh.corners.reverse();
            ask(&mut asker, &mesh);
            mesh.corners.iter_mut().for_each(|v| *v %= 7);
            ask(&mut asker, &mesh);
        }
        let grid = inputs::torus(256, 256, false);
        ask(&mut asker, &grid.mesh(Numbers::Few, &mut Random::new(1)));
    }
    asker.add_to(report, &NEEDED[..2], &NEEDED[..2]);
}

#[cfg(test)]
mod tests {
    use super::super::expected::triangles;
    use super::super::tests::writes;
    use super::*;
    use crate::engine::meshes::Mesh as Lists;
    use crate::kinds::tests;

    /// An engine with these keys and this rule.
    fn by(
        lists: &Lists,
        work: &mut [u64],
        keys: fn(&Mesh) -> Vec<u64>,
        closed: fn(&Mesh, &[u64]) -> bool,
    ) -> u64 {
        match writes(lists, work, keys) {
            0 => closed(&Mesh::of(lists), &work[..lists.corners.len()]).into(),
            refusal => refusal,
        }
    }

    /// An engine with these keys.
    fn by_keys(lists: &Lists, work: &mut [u64], keys: fn(&Mesh) -> Vec<u64>) -> u64 {
        by(lists, work, keys, closed)
    }

    /// An engine with this rule of closedness.
    fn by_rule(lists: &Lists, work: &mut [u64], closed: fn(&Mesh, &[u64]) -> bool) -> u64 {
        by(lists, work, edge_keys, closed)
    }

    fn right(lists: &mut Lists, work: &mut [u64]) -> u64 {
        by(lists, work, edge_keys, closed)
    }

    fn fails(probe: Probe<u64>) -> bool {
        tests::fails(|report, plan| compare(report, plan, probe))
    }

    #[test]
    fn the_right_keys_pass() {
        assert!(!fails(right));
    }

    #[test]
    fn wrong_rules_of_closedness_are_caught() {
        // no faces
        assert!(fails(|lists, work| by_rule(lists, work, |mesh, keys| {
            mesh.ends.is_empty() || closed(mesh, keys)
        })));
        // at most twice
        assert!(fails(|lists, work| by_rule(lists, work, |mesh, keys| {
            let mut groups = keys.chunk_by(|a, b| a == b);
            !mesh.ends.is_empty() && groups.all(|same| same.len() <= 2)
        })));
        // an even number of times
        assert!(fails(|lists, work| by_rule(lists, work, |mesh, keys| {
            let mut groups = keys.chunk_by(|a, b| a == b);
            !mesh.ends.is_empty() && groups.all(|same| same.len() % 2 == 0)
        })));
        // edges from a vertex to itself left out
        assert!(fails(|lists, work| by_rule(lists, work, |mesh, keys| {
            let mut keys = keys.to_vec();
            keys.retain(|key| key / 65_536 != key % 65_536);
            closed(mesh, &keys)
        })));
    }

    #[test]
    fn wrong_keys_are_caught() {
        // not in order
        assert!(fails(|lists, work| by_keys(lists, work, |mesh| {
            let mut keys = edge_keys(mesh);
            keys.reverse();
            keys
        })));
        // the larger vertex first
        assert!(fails(|lists, work| by_keys(lists, work, |mesh| {
            let mut keys = edge_keys(mesh);
            keys.iter_mut()
                .for_each(|k| *k = (*k as u32).rotate_left(16).into());
            keys.sort_unstable();
            keys
        })));
        // of the triangles
        assert!(fails(|lists, work| by_keys(lists, work, |mesh| {
            edge_keys(&mesh.with_faces(triangles(mesh)))
        })));
        // the rest of the buffer written
        assert!(fails(|lists, work| {
            let answer = right(lists, work);
            if answer <= 1 {
                work[lists.corners.len()..].fill(0);
            }
            answer
        }));
        // a short buffer filled
        assert!(fails(|lists, work| {
            let answer = right(lists, work);
            if answer == ROOM {
                work.fill(0);
            }
            answer
        }));
    }
}
