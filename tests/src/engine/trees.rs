//! The engine's C functions on trees.

use super::meshes::Mesh;
use super::of_lists;

/// A tree as it is lent: of each node six floats and two numbers, its start and
/// its count, and the triangle numbers, leaf after leaf.
pub struct Tree<'a> {
    pub boxes: &'a mut [f64],
    pub nodes: &'a mut [u32],
    pub items: &'a mut [u32],
}

of_lists! {
    csx_build_tree(coords: f64, corners: u32, ends: u32, boxes: f64, nodes: u32, items: u32)
    csx_check_tree(
        coords: f64, corners: u32, ends: u32, boxes: f64, nodes: u32, items: u32, work: u64
    )
}

/// The number of nodes, or the refusal. Then the lists begin with the tree of
/// the mesh.
pub fn build(mesh: &mut Mesh, tree: &mut Tree) -> u64 {
    csx_build_tree(
        mesh.coords,
        mesh.corners,
        mesh.ends,
        tree.boxes,
        tree.nodes,
        tree.items,
    )
}

/// 0 if the tree keeps the tree rules for the mesh, or the refusal. Unless it is
/// one by questions 1 to 6, `work` begins with a 0 for each corner then.
pub fn check(mesh: &mut Mesh, tree: &mut Tree, work: &mut [u64]) -> u64 {
    csx_check_tree(
        mesh.coords,
        mesh.corners,
        mesh.ends,
        tree.boxes,
        tree.nodes,
        tree.items,
        work,
    )
}
