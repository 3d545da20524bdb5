//! Trees: building and checking them, against document 01 and csx.

pub mod building;
pub mod checking;
pub(super) mod damage;
pub mod edges;
pub(super) mod expected;
pub mod inputs;
pub(super) mod others;
#[cfg(test)]
mod wrong_builders;
#[cfg(test)]
mod wrong_checks;

use self::expected::{RULE, build, own_boxes};
use super::lent::{Lent, Wrong, cut};
use super::meshes::Mesh;
use super::meshes::expected::Bounds;
use crate::engine;

/// How many numbers a node has in the list of node numbers, and where among them
/// its start and its count stand.
pub const STRIDE: usize = 2;
pub(super) const START: usize = 0;
pub(super) const COUNT: usize = 1;

/// A tree, with its lists as they are lent.
#[derive(Clone, Debug, Default, PartialEq)]
pub struct Tree {
    pub boxes: Vec<f64>,
    pub nodes: Vec<u32>,
    pub items: Vec<u32>,
}

impl Tree {
    /// How many whole nodes there are.
    pub(super) fn node_count(&self) -> usize {
        self.nodes.len() / STRIDE
    }

    /// The box of each node.
    pub(super) fn bounds(&self) -> impl Iterator<Item = Bounds> {
        let boxes = self.boxes.as_chunks().0.as_chunks().0.iter();
        boxes.copied()
    }

    /// Its lists, lent without guards.
    pub fn lend(&mut self) -> engine::trees::Tree<'_> {
        engine::trees::Tree {
            boxes: &mut self.boxes,
            nodes: &mut self.nodes,
            items: &mut self.items,
        }
    }

    pub(super) fn text(&self) -> String {
        let Self {
            boxes,
            nodes,
            items,
        } = self;
        format!(
            "boxes {}, nodes {}, items {}",
            cut(boxes),
            cut(nodes),
            cut(items)
        )
    }
}

/// The tree that the builder rule gives an accepted mesh.
pub fn built(mesh: &Mesh) -> Tree {
    build(&RULE, &own_boxes(mesh)).tree
}

/// A tree whose lists are lent.
pub(super) struct LentTree {
    boxes: Lent<f64>,
    nodes: Lent<u32>,
    items: Lent<u32>,
}

impl LentTree {
    pub(super) fn new(tree: &Tree) -> Self {
        Self {
            boxes: Lent::new(&tree.boxes),
            nodes: Lent::new(&tree.nodes),
            items: Lent::new(&tree.items),
        }
    }

    /// The same without guards.
    pub(super) fn exact(tree: &Tree) -> Self {
        Self {
            boxes: Lent::exact(&tree.boxes),
            nodes: Lent::exact(&tree.nodes),
            items: Lent::exact(&tree.items),
        }
    }

    pub(super) fn lend(&mut self) -> engine::trees::Tree<'_> {
        engine::trees::Tree {
            boxes: self.boxes.list(),
            nodes: self.nodes.list(),
            items: self.items.list(),
        }
    }

    /// The first place of a list that does not begin with what was written, or
    /// was changed behind it.
    pub(super) fn wrong(&self, written: &Tree) -> Option<Wrong> {
        None.or_else(|| self.boxes.wrong("boxes", &written.boxes))
            .or_else(|| self.nodes.wrong("nodes", &written.nodes))
            .or_else(|| self.items.wrong("items", &written.items))
    }
}

#[cfg(test)]
impl Tree {
    /// The tree that is lent.
    pub(super) fn of(lists: &engine::trees::Tree) -> Self {
        Self {
            boxes: lists.boxes.to_vec(),
            nodes: lists.nodes.to_vec(),
            items: lists.items.to_vec(),
        }
    }
}
