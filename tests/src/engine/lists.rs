//! The engine's C function on lists of points.

use super::meshes::Mesh;
use super::of_lists;
use super::trees::Tree;

/// A list as it is lent: x, y, z of each point, and a place for each answer.
pub struct List<'a> {
    pub points: &'a mut [f64],
    pub answers: &'a mut [u8],
}

of_lists! {
    csx_contains_list(
        coords: f64, corners: u32, ends: u32, boxes: f64, nodes: u32, items: u32, work: u64,
        points: f64, answers: u8
    )
}

/// 0, or the refusal. Where nothing is refused `answers` has 0 for each point
/// outside the mesh, 1 inside and 2 undecided, and `work` begins with the edge keys
/// in ascending order.
pub fn contains(mesh: &mut Mesh, tree: &mut Tree, work: &mut [u64], list: &mut List) -> u64 {
    csx_contains_list(
        mesh.coords,
        mesh.corners,
        mesh.ends,
        tree.boxes,
        tree.nodes,
        tree.items,
        work,
        list.points,
        list.answers,
    )
}
