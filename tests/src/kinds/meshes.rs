//! Meshes: questions 1 to 5, the triangles, the boxes, the edge keys and
//! welding, against csx and against document 01.

pub mod boxes;
pub mod edges;
pub(super) mod expected;
pub mod inputs;
pub mod keys;
pub mod questions;
pub mod triangles;
pub mod welding;

use std::iter::once;

use csx::{Polyhedron, Vec3};

use super::lent::{Element, Lent, Wrong, cut};
use crate::engine::{self, Point, REFUSAL};
use crate::plan::Plan;
use crate::random::Random;
use crate::report::{self, Report, Value};

/// A function under test, as those of `engine::meshes` are: it takes a mesh and
/// a buffer.
pub type Probe<T> = fn(&mut engine::meshes::Mesh, &mut [T]) -> u64;

/// Refusal 6: the buffer is too short.
pub(super) const ROOM: u64 = 6 * REFUSAL;

/// What a line of questions 1 to 9 has to see, or a part of it.
pub(super) const QUESTIONS: [&str; 10] = [
    "accepted",
    "refusal 1",
    "refusal 2",
    "refusal 3",
    "refusal 4",
    "refusal 5",
    "refusal 6",
    "refusal 7",
    "refusal 8",
    "refusal 9",
];

/// A mesh, with its lists as they are lent.
#[derive(Clone, Debug, Default)]
pub struct Mesh {
    pub coords: Vec<f64>,
    pub corners: Vec<u32>,
    pub ends: Vec<u32>,
}

impl Mesh {
    pub(super) fn push_face(&mut self, face: impl IntoIterator<Item = u32>) {
        self.corners.extend(face);
        self.ends.push(self.corners.len() as u32);
    }

    /// How many whole vertices there are.
    pub(super) fn vertex_count(&self) -> usize {
        self.coords.len() / 3
    }

    /// How many triangles there are, if the ends fit.
    pub fn triangle_count(&self) -> usize {
        self.corners.len().saturating_sub(2 * self.ends.len())
    }

    pub(super) fn vertex(&self, v: u32) -> Point {
        self.coords.as_chunks().0[v as usize]
    }

    /// The corners of each face, if the ends fit.
    pub fn faces(&self) -> impl Iterator<Item = &[u32]> {
        let starts = once(&0).chain(&self.ends);
        starts
            .zip(&self.ends)
            .map(|(start, end)| &self.corners[*start as usize..*end as usize])
    }

    /// The mesh of these faces over the same vertices.
    pub(super) fn with_faces(
        &self,
        faces: impl IntoIterator<Item: IntoIterator<Item = u32>>,
    ) -> Self {
        let mut mesh = Self {
            coords: self.coords.clone(),
            ..Self::default()
        };
        for face in faces {
            mesh.push_face(face);
        }
        mesh
    }

    /// The mesh as csx makes it of whole vertices and of ends that fit.
    pub fn csx(&self) -> csx::Result<Polyhedron> {
        let vertices = self.coords.as_chunks().0.iter().copied().map(Vec3);
        Polyhedron::new(
            vertices.collect(),
            self.faces().map(<[_]>::to_vec).collect(),
        )
    }

    /// Its lists, lent without guards.
    pub fn lend(&mut self) -> engine::meshes::Mesh<'_> {
        engine::meshes::Mesh {
            coords: &mut self.coords,
            corners: &mut self.corners,
            ends: &mut self.ends,
        }
    }

    pub(super) fn text(&self) -> String {
        let Self {
            coords,
            corners,
            ends,
        } = self;
        format!(
            "coords {}, corners {}, ends {}",
            cut(coords),
            cut(corners),
            cut(ends)
        )
    }
}

#[cfg(test)]
impl Mesh {
    /// The mesh that is lent.
    pub(super) fn of(lists: &engine::meshes::Mesh) -> Self {
        Self {
            coords: lists.coords.to_vec(),
            corners: lists.corners.to_vec(),
            ends: lists.ends.to_vec(),
        }
    }
}

/// A mesh whose lists are lent.
pub(super) struct LentMesh {
    coords: Lent<f64>,
    corners: Lent<u32>,
    ends: Lent<u32>,
}

impl LentMesh {
    pub(super) fn new(mesh: &Mesh) -> Self {
        Self {
            coords: Lent::new(&mesh.coords),
            corners: Lent::new(&mesh.corners),
            ends: Lent::new(&mesh.ends),
        }
    }

    /// The same without guards.
    pub(super) fn exact(mesh: &Mesh) -> Self {
        Self {
            coords: Lent::exact(&mesh.coords),
            corners: Lent::exact(&mesh.corners),
            ends: Lent::exact(&mesh.ends),
        }
    }

    pub(super) fn lend(&mut self) -> engine::meshes::Mesh<'_> {
        engine::meshes::Mesh {
            coords: self.coords.list(),
            corners: self.corners.list(),
            ends: self.ends.list(),
        }
    }

    /// The first place of a list that does not begin with what was written, or
    /// was changed behind it.
    pub(super) fn wrong(&self, written: &Mesh) -> Option<Wrong> {
        None.or_else(|| self.coords.wrong("coords", &written.coords))
            .or_else(|| self.corners.wrong("corners", &written.corners))
            .or_else(|| self.ends.wrong("ends", &written.ends))
    }
}

/// What a call came to: its answer, and the first place of a lent list that is
/// not as it should be.
#[derive(Clone, Copy, PartialEq)]
pub(super) struct Outcome {
    pub answer: u64,
    pub wrong: Option<Wrong>,
}

impl Outcome {
    /// An answer with every list as it should be.
    fn answered(answer: u64) -> Self {
        Self {
            answer,
            wrong: None,
        }
    }
}

impl Value for Outcome {
    fn same(self, other: Self) -> bool {
        self == other
    }

    fn text(self) -> String {
        let answer = match self.answer {
            n if n < REFUSAL => format!("{n}"),
            n => format!("refusal {}, place {}", n / REFUSAL, n % REFUSAL),
        };
        match self.wrong {
            Some(wrong) => format!("{answer} and {wrong}"),
            None => answer,
        }
    }
}

/// A line of the table.
pub(super) type Line = report::Line<String>;

impl Line {
    /// Calls the function under test, and compares its answer and every lent
    /// list with what they should be. `written` is what the buffer begins with
    /// if nothing is refused.
    fn ask<T: Element>(
        &mut self,
        probe: Probe<T>,
        mesh: &Mesh,
        mut buffer: Lent<T>,
        want: u64,
        written: &[T],
    ) {
        let mut lent = LentMesh::new(mesh);
        let answer = probe(&mut lent.lend(), buffer.list());
        let written = if want < REFUSAL { written } else { &[] };
        let wrong = lent
            .wrong(&Mesh::default())
            .or_else(|| buffer.wrong("buffer", written));
        self.compare(Outcome { answer, wrong }, want, || {
            format!("{}, buffer of {}", mesh.text(), buffer.before().len())
        });
    }

    pub(super) fn compare(&mut self, got: Outcome, want: u64, input: impl Fn() -> String) {
        self.kind.compare_for(got, Outcome::answered(want), input);
        if want >= REFUSAL {
            self.see(format!("refusal {}", want / REFUSAL));
        }
    }

    /// The same with what csx says of a call that was counted already.
    fn compare_csx(&mut self, got: Outcome, want: u64, input: impl Fn() -> String) {
        self.kind.compare_for(got, Outcome::answered(want), input);
        if want >= REFUSAL {
            self.see(format!("refused by csx, {}", want / REFUSAL));
        }
    }
}

/// A function under test, and the lines that it is compared in.
pub(super) struct Asker<F> {
    pub function: F,
    pub rule: Line,
    pub csx: Line,
    pub random: Random,
}

impl<F> Asker<F> {
    /// The line of csx has what is compared with it in its name.
    pub fn new(function: F, plan: &Plan, name: &str, csx: &str) -> Self {
        Self {
            function,
            rule: Line::new(format!("{name}, document 01")),
            csx: Line::new(format!("{name}, {csx}")),
            random: plan.random(name),
        }
    }

    pub fn add_to(self, report: &mut Report, needed: &[&str], needed_of_csx: &[&str]) {
        self.rule.add_to(report, needed);
        self.csx.add_to(report, needed_of_csx);
    }
}

/// Gives csx's zeros the sign that the engine's have, and counts the changes. csx
/// leaves it to Rust which of two equal zeros is kept, unless it has the feature
/// `port`: then none is changed.
pub(super) fn take_zeros(csx: &mut [f64], engine: &[f64]) -> u64 {
    let mut changes = 0;
    for (x, sign) in csx.iter_mut().zip(engine) {
        if !cfg!(feature = "port") && *x == 0.0 && *sign == 0.0 && x.to_bits() != sign.to_bits() {
            *x = *sign;
            changes += 1;
        }
    }
    changes
}

/// What is counted of the zeros of boxes.
pub const OTHER_ZEROS: &str = "zeros to which csx gives the other sign";

/// Prints and counts how many there were.
pub(super) fn note_zeros(report: &mut Report, zeros: u64) {
    if !cfg!(feature = "port") {
        report.note(format_args!("{OTHER_ZEROS}: {zeros}, a listed difference"));
        report.count(OTHER_ZEROS, zeros);
    }
}

/// How long a buffer is lent that has to have this length: exactly so, somewhat
/// longer, or one shorter if it can be.
pub(super) fn buffer_length(needed: usize, random: &mut Random) -> usize {
    match random.below(8) {
        0 => needed.saturating_sub(1),
        1..=4 => needed,
        _ => needed + 1 + random.below(8) as usize,
    }
}

#[cfg(test)]
mod tests {
    use super::expected::refusal;
    use super::*;
    use crate::kinds::tests;

    /// An engine that asks 1 to 5 and then writes this, if there is room.
    pub fn writes<T: Copy>(
        lists: &engine::meshes::Mesh,
        out: &mut [T],
        written: impl FnOnce(&Mesh) -> Vec<T>,
    ) -> u64 {
        let mesh = Mesh::of(lists);
        if let Some(refusal) = refusal(&mesh) {
            return refusal;
        }
        let written = written(&mesh);
        let Some(out) = out.get_mut(..written.len()) else {
            return ROOM;
        };
        out.copy_from_slice(&written);
        0
    }

    #[test]
    fn faces_are_cut_at_the_ends() {
        let mut mesh = Mesh::default();
        mesh.push_face([0, 1, 2]);
        mesh.push_face([]);
        mesh.push_face([3]);
        let faces: Vec<&[u32]> = mesh.faces().collect();
        assert_eq!(faces, [&[0, 1, 2][..], &[], &[3]]);
    }

    #[test]
    fn a_write_to_a_mesh_and_a_wrong_buffer_are_seen() {
        let fails = |probe: Probe<u64>| {
            let mut mesh = Mesh::default();
            mesh.coords.extend([0.0; 9]);
            mesh.push_face([0, 1, 2]);
            let mut line = Line::new("test");
            let buffer = Lent::garbage(3, &mut Random::new(1));
            line.ask(probe, &mesh, buffer, 0, &[7, 8]);
            tests::fails(|report, _| report.add(line.kind))
        };
        fn right(out: &mut [u64]) -> u64 {
            out[0] = 7;
            out[1] = 8;
            0
        }
        assert!(!fails(|_, out| right(out)));
        assert!(fails(|_, out| right(out) + 1));
        assert!(fails(|_, out| {
            out[2] ^= 1;
            right(out)
        }));
        assert!(fails(|_, out| {
            right(out);
            out[1] = 9;
            0
        }));
        assert!(fails(|mesh, out| {
            mesh.coords[8] = -0.0;
            right(out)
        }));
        assert!(fails(|mesh, out| {
            mesh.corners[2] = 0;
            right(out)
        }));
        assert!(fails(|mesh, out| {
            mesh.ends[0] = 0;
            right(out)
        }));
    }

    #[test]
    fn outcomes_are_in_words() {
        assert_eq!(Outcome::answered(1).text(), "1");
        let refused = Outcome::answered(4_000_017);
        assert_eq!(refused.text(), "refusal 4, place 17");
    }
}
