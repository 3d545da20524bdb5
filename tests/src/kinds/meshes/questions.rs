//! Questions 1 to 5, against document 01, and questions 3 to 5 against csx.

use csx::Error;

use super::expected::{CORNERS, FACES, VERTICES, code, lengths, refusal};
use super::inputs::{self, Numbers, pick, some_of, torus};
use super::{Asker, Lent, LentMesh, Mesh, Outcome, Probe, QUESTIONS};
use crate::engine::REFUSAL;
use crate::plan::Plan;
use crate::random::{NOT_FINITE, Random};
use crate::report::Report;

/// What the line of csx has to see.
const NEEDED_OF_CSX: [&str; 4] = [
    "accepted",
    "refused by csx, 3",
    "refused by csx, 4",
    "refused by csx, 5",
];

/// What csx is asked.
const CSX: &str = "3 to 5 by csx";

/// Asks about a mesh.
fn ask(asker: &mut Asker<Probe<u8>>, mesh: &Mesh) {
    let want = refusal(mesh).unwrap_or(0);
    asker
        .rule
        .ask(asker.function, mesh, Lent::new(&[]), want, &[]);
    if want == 0 {
        asker.rule.see("accepted");
    }
    if lengths(mesh).is_none() {
        ask_csx(asker, mesh);
    }
}

/// Asks about a mesh that questions 1 and 2 let pass.
fn ask_csx(asker: &mut Asker<Probe<u8>>, mesh: &Mesh) {
    let got = (asker.function)(&mut LentMesh::new(mesh).lend(), &mut []);
    // csx says which vertex is not finite by its coordinates alone.
    let got = if got / REFUSAL == 5 { code(5, 0) } else { got };
    let want = csx_answer(mesh);
    asker
        .csx
        .compare_csx(Outcome::answered(got), want, || mesh.text());
    if want == 0 {
        asker.csx.see("accepted");
    }
}

/// What csx says of a mesh, in the numbers of document 01. The place of question
/// 5 is left out.
fn csx_answer(mesh: &Mesh) -> u64 {
    let Err(error) = mesh.csx() else {
        return 0;
    };
    let Error::Invalid(text) = error else {
        unreachable!("csx's constructor gives no other error")
    };
    let words: Vec<&str> = text.split(' ').collect();
    let face = || words[1].parse().expect("the number of the face");
    match (words[0], words[2]) {
        ("face", "has") => code(3, face()),
        ("face", "references") => code(4, face()),
        ("non-finite", _) => code(5, 0),
        _ => unreachable!("csx's constructor says nothing else"),
    }
}

/// Compares small meshes: with lists of any few lengths, without a fault, and
/// with each fault and each set of them.
pub fn compare(report: &mut Report, plan: &Plan, probe: Probe<u8>) {
    let mut asker = Asker::new(probe, plan, "questions", CSX);
    every_length(&mut |mesh| ask(&mut asker, mesh));
    for _ in 0..plan.times(400_000) {
        let random = &mut asker.random;
        let mut mesh = inputs::mesh(random);
        // 1 and 2 come last: their faults leave no faces to be found.
        for question in some_of(&[3, 4, 5, 1, 2], random) {
            for _ in 0..1 + random.below(2) {
                spoil(&mut mesh, question, random);
            }
        }
        ask(&mut asker, &mesh);
    }
    asker.add_to(report, &QUESTIONS[..6], &NEEDED_OF_CSX);
}

/// Up to 3 faces with ends up to 7, up to 7 corners and up to 7 coordinates.
fn every_length(ask: &mut impl FnMut(&Mesh)) {
    for faces in 0..4 {
        for ends in 0..8usize.pow(faces) {
            let ends: Vec<u32> = (0..faces).map(|f| (ends >> (3 * f) & 7) as u32).collect();
            for corners in 0..8 {
                for coords in [0, 1, 2, 3, 6, 7] {
                    ask(&Mesh {
                        coords: vec![0.0; coords],
                        corners: vec![0; corners],
                        ends: ends.clone(),
                    });
                }
            }
        }
    }
}

/// Makes a mesh that this question refuses, if it can be.
pub(in crate::kinds) fn spoil(mesh: &mut Mesh, question: u64, random: &mut Random) {
    let vertices = mesh.vertex_count();
    match question {
        1 => mesh.coords.resize(3 * vertices + 1 + pick(2, random), 0.0),
        2 => spoil_ends(mesh, random),
        3 if !mesh.ends.is_empty() => shorten(mesh, pick(mesh.ends.len(), random), pick(3, random)),
        4 if !mesh.corners.is_empty() => {
            let corner = pick(mesh.corners.len(), random);
            mesh.corners[corner] = match random.below(3) {
                0 => vertices as u32,
                1 => vertices as u32 + random.up_to_digits(31) as u32,
                _ => u32::MAX,
            };
        }
        5 if !mesh.coords.is_empty() => {
            let place = pick(mesh.coords.len(), random);
            mesh.coords[place] = NOT_FINITE[pick(NOT_FINITE.len(), random)];
        }
        _ => {}
    }
}

/// Leaves a face with so many corners at most.
fn shorten(mesh: &mut Mesh, face: usize, corners: usize) {
    let end = mesh.ends[face] as usize;
    let start = face.checked_sub(1).map_or(0, |f| mesh.ends[f] as usize);
    let end_now = end.min(start + corners);
    mesh.corners.drain(end_now..end);
    for e in &mut mesh.ends[face..] {
        *e -= (end - end_now) as u32;
    }
}

/// Face ends that do not fit.
fn spoil_ends(mesh: &mut Mesh, random: &mut Random) {
    let Mesh { corners, ends, .. } = mesh;
    match (random.below(6), ends.len()) {
        (0, _) => corners.push(0),
        (1, 1..) => {
            corners.pop();
        }
        (2, 1..) => ends.clear(),
        (3, n @ 1..) => ends[n - 1] = random.up_to_digits(32) as u32,
        (4, n @ 2..) => {
            let f = pick(n - 1, random);
            ends[f] = ends[f + 1].saturating_add(1 + random.below(3) as u32);
        }
        (_, n @ 2..) => ends.swap(0, n - 1),
        (_, _) => ends.push(random.up_to_digits(32) as u32),
    }
}

/// Compares meshes at the limits of questions 1 and 2 and past them.
pub fn limits(report: &mut Report, plan: &Plan, probe: Probe<u8>) {
    let mut asker = Asker::new(probe, plan, "questions, limits", CSX);
    for mesh in limit_meshes(&mut asker.random) {
        ask(&mut asker, &mesh);
    }
    asker.add_to(report, &QUESTIONS[..6], &NEEDED_OF_CSX);
}

/// Meshes with as many vertices, faces and corners as are accepted and with one
/// more, without another fault and with one.
fn limit_meshes(random: &mut Random) -> Vec<Mesh> {
    let triangle = torus(1, 3, false).mesh(Numbers::Few, random);
    // all three limits at once
    let most = torus(256, 256, false).mesh(Numbers::Few, random);
    let mut meshes = Vec::new();
    for coords in 3 * VERTICES - 1..=3 * VERTICES + 3 {
        for mesh in [&triangle, &most] {
            let mut mesh = mesh.clone();
            mesh.coords.resize(coords, 1.0);
            meshes.push(mesh);
        }
    }
    for faces in [FACES, FACES + 1] {
        let mut mesh = triangle.clone();
        (mesh.corners, mesh.ends) = Default::default();
        for _ in 0..faces {
            mesh.push_face([0, 1, 2]);
        }
        meshes.push(mesh);
    }
    for corners in [CORNERS, CORNERS + 1] {
        let mut mesh = triangle.clone();
        mesh.corners.resize(corners, 2);
        mesh.ends = vec![3, corners as u32];
        meshes.push(mesh);
    }
    // a corner and no face too many, and the other way round
    let mut corner = most.clone();
    corner.corners.push(0);
    corner.ends[FACES - 1] += 1;
    let mut face = most.clone();
    face.ends.push(CORNERS as u32);
    meshes.extend([corner, face]);
    // the last face, corner and vertex at fault
    let faulty = |fault: fn(&mut Mesh)| {
        let mut mesh = most.clone();
        fault(&mut mesh);
        mesh
    };
    let faults: [fn(&mut Mesh); 3] = [
        |mesh| mesh.ends[FACES - 2] += 2,
        |mesh| mesh.corners[CORNERS - 1] = VERTICES as u32,
        |mesh| mesh.coords[3 * VERTICES - 1] = f64::NAN,
    ];
    meshes.push(most.clone());
    meshes.extend(faults.map(faulty));
    // each of them with too many of something: the earlier question decides
    let past: [fn(&mut Mesh); 2] = [
        |mesh| mesh.coords.extend([0.0; 3]),
        |mesh| mesh.push_face([0, 1, 2]),
    ];
    for fault in faults {
        for too_many in past {
            let mut mesh = faulty(fault);
            too_many(&mut mesh);
            meshes.push(mesh);
        }
    }
    meshes.push(faulty(|mesh| {
        mesh.coords.extend([0.0; 3]);
        mesh.push_face([0, 1, 2]);
    }));
    meshes
}

#[cfg(test)]
mod tests {
    use super::*;
    use crate::engine::meshes::Mesh as Lists;
    use crate::kinds::tests;

    /// An engine with these questions.
    fn by(lists: &Lists, refusal: fn(&Mesh) -> Option<u64>) -> u64 {
        refusal(&Mesh::of(lists)).unwrap_or(0)
    }

    fn right(lists: &mut Lists, _: &mut [u8]) -> u64 {
        by(lists, refusal)
    }

    fn fails(probe: Probe<u8>) -> bool {
        tests::fails(|report, plan| compare(report, plan, probe))
    }

    fn limits_fail(probe: Probe<u8>) -> bool {
        tests::fails(|report, plan| limits(report, plan, probe))
    }

    #[test]
    fn the_right_questions_pass() {
        assert!(!fails(right));
        assert!(!limits_fail(right));
    }

    #[test]
    fn wrong_questions_are_caught() {
        // question 4 before 3, each for all faces
        assert!(fails(|lists, _| by(lists, |mesh| {
            if lengths(mesh).is_some() {
                return lengths(mesh);
            }
            let out = |v: &u32| *v as usize >= mesh.vertex_count();
            match mesh.faces().position(|face| face.iter().any(out)) {
                Some(place) => Some(code(4, place)),
                None => refusal(mesh),
            }
        })));
        // question 3 for all faces, and then 4
        assert!(fails(|lists, _| by(lists, |mesh| {
            if lengths(mesh).is_some() {
                return lengths(mesh);
            }
            match mesh.faces().position(|face| face.len() < 3) {
                Some(place) => Some(code(3, place)),
                None => refusal(mesh),
            }
        })));
        // question 5 before 3 and 4
        assert!(fails(|lists, _| by(lists, |mesh| {
            if lengths(mesh).is_some() {
                return lengths(mesh);
            }
            let finite = |v: &[f64]| v.iter().all(|x| x.is_finite());
            match mesh.coords.chunks(3).position(|v| !finite(v)) {
                Some(place) => Some(code(5, place)),
                None => refusal(mesh),
            }
        })));
        // used vertices alone
        assert!(fails(|lists, _| by(lists, |mesh| {
            refusal(mesh).filter(|refusal| {
                let used = |v: &u32| code(5, *v as usize) == *refusal;
                refusal / REFUSAL != 5 || mesh.corners.iter().any(used)
            })
        })));
        // the corner's place for the face's
        assert!(fails(|lists, _| by(lists, |mesh| {
            let refusal = refusal(mesh)?;
            if refusal / REFUSAL != 4 {
                return Some(refusal);
            }
            let out = |v: &u32| *v as usize >= mesh.vertex_count();
            Some(code(4, mesh.corners.iter().position(out)?))
        })));
        // ends that fall on the way
        assert!(fails(|lists, _| by(lists, |mesh| {
            let mut rising = mesh.clone();
            rising.ends.sort_unstable();
            refusal(&rising)
        })));
        // corners without a face
        assert!(fails(|lists, _| by(lists, |mesh| {
            refusal(mesh).filter(|_| !mesh.ends.is_empty() || !mesh.coords.len().is_multiple_of(3))
        })));
    }

    #[test]
    fn wrong_limits_are_caught() {
        // a limit that is one off
        assert!(limits_fail(|lists, _| by(lists, |mesh| {
            match mesh.vertex_count() {
                VERTICES.. => Some(code(1, 0)),
                _ => refusal(mesh),
            }
        })));
        assert!(limits_fail(|lists, _| by(lists, |mesh| {
            match mesh.corners.len() {
                CORNERS.. => Some(code(2, 0)),
                _ => refusal(mesh),
            }
        })));
        // no limit of faces
        assert!(limits_fail(|lists, _| by(lists, |mesh| {
            let mut fewer = mesh.clone();
            fewer.ends.truncate(FACES);
            if fewer.ends.last() == mesh.ends.last() {
                return refusal(&fewer);
            }
            refusal(mesh)
        })));
    }
}
