//! Building trees, with every byte of the lent lists, against the builder rule
//! in plain Rust and against csx.

use super::expected::{Built, RULE, build, own_boxes};
use super::{LentTree, STRIDE, Tree, inputs};
use crate::engine;
use crate::kinds::lent::Lent;
use crate::kinds::meshes::expected::{center, refusal};
use crate::kinds::meshes::inputs::{pick, some_of};
use crate::kinds::meshes::questions::spoil;
use crate::kinds::meshes::{
    Asker, LentMesh, Line, Mesh, Outcome, QUESTIONS, ROOM, note_zeros, take_zeros,
};
use crate::plan::Plan;
use crate::random::Random;
use crate::report::Report;

/// The function under test, as `engine::trees::build` is.
pub type Build = fn(&mut engine::meshes::Mesh, &mut engine::trees::Tree) -> u64;

/// How long the lent buffers are.
#[derive(Clone, Copy, Debug)]
pub(in crate::kinds) struct Room {
    pub boxes: usize,
    pub nodes: usize,
    pub items: usize,
}

impl Room {
    /// As long as needed for so many triangles.
    fn needed(triangles: usize) -> Self {
        Self {
            boxes: 6 * triangles,
            nodes: STRIDE * triangles,
            items: triangles,
        }
    }

    fn lengths_mut(&mut self) -> [&mut usize; 3] {
        [&mut self.boxes, &mut self.nodes, &mut self.items]
    }

    fn lengths(mut self) -> [usize; 3] {
        self.lengths_mut().map(|length| *length)
    }

    /// Whether no buffer is shorter than this.
    fn holds(self, needed: Self) -> bool {
        let lengths = self.lengths().into_iter().zip(needed.lengths());
        lengths.into_iter().all(|(length, needed)| length >= needed)
    }

    /// Room for so many triangles, some of it longer than needed, and one buffer
    /// or all of them shorter if that is asked for and can be.
    pub fn any(triangles: usize, short: bool, random: &mut Random) -> Self {
        let mut room = Self::needed(triangles);
        let one = pick(4, random);
        for (i, length) in room.lengths_mut().into_iter().enumerate() {
            if short && (i == one || one == 3) {
                *length = length.saturating_sub(1 + pick(triangles + 1, random));
            } else if random.flip() {
                *length += pick(9, random);
            }
        }
        room
    }
}

/// The function under test, and the lines that it is compared in: with the rule,
/// with the starts and counts of csx, and with its items and boxes.
struct Builder {
    asker: Asker<Build>,
    csx: Line,
    listed: Listed,
}

/// What is counted of trees with equal centres at a median, and of leaves.
pub const TIED: &str = "trees with equal centres at a median";
pub const OTHER_HALVES: &str = "csx's leaves have other items there";
pub const OTHER_ORDER: &str = "trees of which csx has a leaf in another order";
/// What is counted of zeros.
pub const FLAT: &str = "trees with a greatest spread of zero alone";

/// In how many trees csx leaves something open, and how often it is another: listed
/// differences.
#[derive(Default)]
struct Listed {
    tied: u64,
    other_halves: u64,
    other_order: u64,
    flat: u64,
    /// How many zeros csx gives with the other sign.
    zeros: u64,
}

impl Listed {
    /// Looks at a tree and at csx's, whose leaves are in order now.
    fn see(&mut self, built: &Built, csx: &Tree, in_order: bool) {
        let other = csx.items != built.tree.items;
        self.tied += u64::from(built.tied);
        self.flat += u64::from(built.flat && !built.tied);
        self.other_halves += u64::from(other && built.tied && !built.flat);
        self.other_order += u64::from(!in_order);
    }

    /// With the feature `port` csx leaves nothing open.
    fn add_to(&self, report: &mut Report) {
        let open = [
            (TIED, self.tied),
            (OTHER_HALVES, self.other_halves),
            (OTHER_ORDER, self.other_order),
            (FLAT, self.flat),
        ];
        let open = if cfg!(feature = "port") {
            &open[..1]
        } else {
            &open
        };
        for (name, times) in open {
            report.note(format_args!("{name}: {times}"));
            report.count(*name, *times);
        }
        note_zeros(report, self.zeros);
    }
}

impl Builder {
    fn new(build: Build, plan: &Plan, name: &str) -> Self {
        Self {
            asker: Asker::new(build, plan, name, "starts and counts by csx"),
            csx: Line::new(format!("{name}, items and boxes by csx")),
            listed: Listed::default(),
        }
    }

    /// Builds a tree in buffers of these lengths.
    fn ask(&mut self, mesh: &Mesh, room: Room) {
        let Asker {
            function,
            rule,
            random,
            ..
        } = &mut self.asker;
        let mut lent = LentMesh::new(mesh);
        let mut tree = LentTree {
            boxes: Lent::garbage(room.boxes, random),
            nodes: Lent::garbage(room.nodes, random),
            items: Lent::garbage(room.items, random),
        };
        let answer = function(&mut lent.lend(), &mut tree.lend());
        let unchanged = lent.wrong(&Mesh::default());
        let text = || format!("{}, {room:?}", mesh.text());
        if let Some(want) = refused(mesh, room) {
            let wrong = unchanged.or_else(|| tree.wrong(&Tree::default()));
            return rule.compare(Outcome { answer, wrong }, want, text);
        }
        let own = own_boxes(mesh);
        let built = build(&RULE, &own);
        let want = built.tree.node_count() as u64;
        let wrong = unchanged.or_else(|| tree.wrong(&built.tree));
        rule.compare(Outcome { answer, wrong }, want, text);
        rule.see(sort(&built));
        if own
            .iter()
            .any(|own| center(*own).iter().any(|x| x.is_infinite()))
        {
            rule.see("an infinite centre");
        }
        self.compare_csx(mesh, &built, answer, &mut tree);
    }

    /// Compares what was built with csx's tree. Where centres at a median are
    /// equal csx does not say which triangles go left, and it does not say in
    /// which order a leaf has them, unless it has the feature `port`.
    fn compare_csx(&mut self, mesh: &Mesh, built: &Built, answer: u64, tree: &mut LentTree) {
        let mut csx = csx_tree(mesh);
        let want = csx.node_count() as u64;
        let wrong = tree.nodes.wrong("nodes", &csx.nodes);
        let line = &mut self.asker.csx;
        line.compare(Outcome { answer, wrong }, want, || mesh.text());
        line.see(sort(built));
        let in_order = cfg!(feature = "port") || csx.sort_leaves();
        self.listed.see(built, &csx, in_order);
        if !cfg!(feature = "port") && (built.tied || built.flat) {
            return self.csx.see(format!("left out for {}", sort(built)));
        }
        self.listed.zeros += take_zeros(&mut csx.boxes, tree.boxes.list());
        let wrong = tree.wrong(&csx);
        self.csx
            .compare(Outcome { answer, wrong }, want, || mesh.text());
        self.csx.see(sort(built));
    }

    fn add_to(self, report: &mut Report, needed: &[&str]) {
        self.asker.add_to(report, needed, &[] as &[&str]);
        self.csx.add_to(report, &["centres apart at each median"]);
        self.listed.add_to(report);
    }
}

/// The refusal by questions 1 to 6, if there is one.
pub(in crate::kinds) fn refused(mesh: &Mesh, room: Room) -> Option<u64> {
    refusal(mesh).or_else(|| {
        let needed = Room::needed(mesh.triangle_count());
        (!room.holds(needed)).then_some(ROOM)
    })
}

/// What sort of tree it is: what csx leaves open of it, if anything.
pub(in crate::kinds) fn sort(built: &Built) -> &'static str {
    match built {
        Built { tree, .. } if tree.node_count() == 0 => "no triangles",
        Built { tree, .. } if tree.node_count() == 1 => "one leaf",
        Built { tied: true, .. } => "equal centres at a median",
        Built { flat: true, .. } => "a spread of zero",
        _ => "centres apart at each median",
    }
}

/// The tree that csx builds of an accepted mesh.
pub(in crate::kinds) fn csx_tree(mesh: &Mesh) -> Tree {
    let bvh = mesh.csx().expect("an accepted mesh").bvh;
    let mut tree = Tree {
        items: bvh.items,
        ..Tree::default()
    };
    for node in bvh.nodes {
        tree.boxes
            .extend([node.bbox.min.0, node.bbox.max.0].as_flattened());
        tree.nodes.extend([node.start, node.count]);
    }
    tree
}

impl Tree {
    /// Puts the items of each leaf in ascending order, and says whether they were.
    fn sort_leaves(&mut self) -> bool {
        let before = self.items.clone();
        for [start, count] in self.nodes.as_chunks().0 {
            let (start, count) = (*start as usize, *count as usize);
            if count > 0 {
                self.items[start..start + count].sort_unstable();
            }
        }
        self.items == before
    }
}

/// What a line of small meshes has to see.
const NEEDED: [&str; 6] = [
    "no triangles",
    "one leaf",
    "equal centres at a median",
    "a spread of zero",
    "centres apart at each median",
    "an infinite centre",
];

/// Compares small meshes, without a fault and with each and each set of them.
pub fn compare(report: &mut Report, plan: &Plan, build: Build) {
    let mut builder = Builder::new(build, plan, "trees built");
    for _ in 0..plan.times(150_000) {
        let (mesh, room) = faulty(&mut builder.asker.random);
        builder.ask(&mesh, room);
    }
    builder.add_to(report, &[&NEEDED[..], &QUESTIONS[1..7]].concat());
}

/// A small mesh and room for its tree, without a fault or with any.
pub(in crate::kinds) fn faulty(random: &mut Random) -> (Mesh, Room) {
    let mut mesh = inputs::mesh(random);
    let triangles = mesh.triangle_count();
    let mut short = false;
    if random.below(4) == 0 {
        // 1 and 2 come last: their faults leave no faces to be found.
        for question in some_of(&[6, 3, 4, 5, 1, 2], random) {
            match question {
                6 => short = true,
                _ => spoil(&mut mesh, question, random),
            }
        }
    }
    let room = Room::any(triangles, short, random);
    (mesh, room)
}

/// Compares large meshes, also with a buffer one short, and centres in orders that
/// make a selection slow.
pub fn large(report: &mut Report, plan: &Plan, build: Build) {
    let mut builder = Builder::new(build, plan, "trees built of large meshes");
    for _ in 0..plan.rounds(1) {
        for mesh in inputs::large(&mut builder.asker.random) {
            let mut room = Room::needed(mesh.triangle_count());
            builder.ask(&mesh, room);
            *room.lengths_mut()[pick(3, &mut builder.asker.random)] -= 1;
            builder.ask(&mesh, room);
        }
        for (_, order) in inputs::ORDERS {
            let count = 65_000 + pick(536, &mut builder.asker.random) as u32;
            let mesh = inputs::line(count, |i| order(i, count));
            builder.ask(&mesh, Room::needed(count as usize));
        }
    }
    builder.add_to(report, &["refusal 6"]);
}

#[cfg(test)]
mod tests {
    use super::*;

    fn tree(nodes: &[u32], items: &[u32]) -> Tree {
        Tree {
            nodes: nodes.to_vec(),
            items: items.to_vec(),
            ..Tree::default()
        }
    }

    #[test]
    fn what_csx_leaves_open_is_counted() {
        let seen = |tied, flat, items: [u32; 2], in_order| {
            let tree = |items| tree(&[], items);
            let built = Built {
                tree: tree(&[0, 1]),
                tied,
                flat,
            };
            let mut listed = Listed::default();
            listed.see(&built, &tree(&items), in_order);
            let Listed {
                tied,
                other_halves,
                other_order,
                flat,
                ..
            } = listed;
            [tied, other_halves, other_order, flat]
        };
        assert_eq!(seen(false, false, [0, 1], true), [0, 0, 0, 0]);
        assert_eq!(seen(true, false, [0, 1], true), [1, 0, 0, 0]);
        assert_eq!(seen(true, false, [1, 0], true), [1, 1, 0, 0]);
        assert_eq!(seen(true, true, [1, 0], true), [1, 0, 0, 0]);
        assert_eq!(seen(false, true, [1, 0], false), [0, 0, 1, 1]);
    }

    #[test]
    fn leaves_are_put_in_order() {
        let nodes = [2, 0, 0, 2, 2, 2];
        let mut csx = tree(&nodes, &[3, 1, 0, 2]);
        assert!(!csx.sort_leaves());
        assert_eq!(csx, tree(&nodes, &[1, 3, 0, 2]));
        assert!(csx.sort_leaves());
    }
}
