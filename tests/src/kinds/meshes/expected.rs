//! What document 01 says of a mesh, in a few plain lines.

use super::Mesh;
use crate::engine::{Point, REFUSAL};

/// The most vertices and the most faces that are accepted.
pub const VERTICES: usize = 65_536;
pub const FACES: usize = 65_536;
/// The most corners that are accepted.
pub const CORNERS: usize = 262_144;

/// What a call returns that question `number` refuses at this place.
pub fn code(number: u64, place: usize) -> u64 {
    number * REFUSAL + place as u64
}

/// Whether questions 1 and 2 let the mesh pass, or which of them does not.
pub fn lengths(mesh: &Mesh) -> Option<u64> {
    if !mesh.coords.len().is_multiple_of(3) || mesh.vertex_count() > VERTICES {
        return Some(code(1, 0));
    }
    let last = mesh.ends.last().copied().unwrap_or(0);
    if mesh.ends.len() > FACES
        || mesh.corners.len() > CORNERS
        || !mesh.ends.is_sorted()
        || last as usize != mesh.corners.len()
    {
        return Some(code(2, 0));
    }
    None
}

/// The refusal by questions 1 to 5, if there is one.
pub fn refusal(mesh: &Mesh) -> Option<u64> {
    if let Some(refusal) = lengths(mesh) {
        return Some(refusal);
    }
    for (place, face) in mesh.faces().enumerate() {
        if face.len() < 3 {
            return Some(code(3, place));
        }
        if face.iter().any(|v| *v as usize >= mesh.vertex_count()) {
            return Some(code(4, place));
        }
    }
    let mut vertices = mesh.coords.chunks(3);
    vertices
        .position(|v| !v.iter().all(|x| x.is_finite()))
        .map(|place| code(5, place))
}

/// The fan of each face from its first corner.
pub fn triangles(mesh: &Mesh) -> Vec<[u32; 3]> {
    let fan = |f: &[u32]| -> Vec<_> { f[1..].windows(2).map(|w| [f[0], w[0], w[1]]).collect() };
    mesh.faces().flat_map(fan).collect()
}

/// A box: its smallest and its largest coordinates.
pub type Bounds = [Point; 2];

/// The box of these points: each is taken in, and of two equal zeros the one
/// that was there stays.
pub fn box_of(points: impl IntoIterator<Item = Point>) -> Bounds {
    let mut found = [[f64::INFINITY; 3], [f64::NEG_INFINITY; 3]];
    for point in points {
        for (axis, x) in point.into_iter().enumerate() {
            if x < found[0][axis] {
                found[0][axis] = x;
            }
            if x > found[1][axis] {
                found[1][axis] = x;
            }
        }
    }
    found
}

/// The point in the middle of a box.
pub fn center([min, max]: Bounds) -> Point {
    [0, 1, 2].map(|i| (min[i] + max[i]) * 0.5)
}

fn norm([x, y, z]: Point) -> f64 {
    (x * x + y * y + z * z).sqrt()
}

fn size([min, max]: Bounds) -> Point {
    [0, 1, 2].map(|i| max[i] - min[i])
}

/// The box grown by 1e-12 times the norm of its size.
pub fn grown(found: Bounds) -> Bounds {
    let d = 1e-12 * norm(size(found));
    let [min, max] = found;
    [min.map(|x| x - d), max.map(|x| x + d)]
}

/// The tolerance of the surface of a mesh with this box. None of the norms can
/// be a NaN: a coordinate is finite, or there is no vertex and the size is
/// infinite.
pub fn surface_eps(found: Bounds) -> f64 {
    let norms = [norm(size(found)), norm(found[0]), norm(found[1])];
    1e-12 * norms.into_iter().fold(1e-300, f64::max)
}

/// A key for each edge, from each corner of a face to the next and from the
/// last to the first, in ascending order.
pub fn edge_keys(mesh: &Mesh) -> Vec<u64> {
    let mut keys = Vec::new();
    for face in mesh.faces() {
        for (k, &a) in face.iter().enumerate() {
            let b = face[(k + 1) % face.len()];
            keys.push(u64::from(a.min(b)) * 65_536 + u64::from(a.max(b)));
        }
    }
    keys.sort_unstable();
    keys
}

/// Whether the mesh has a face and each of these keys is there exactly twice.
pub fn closed(mesh: &Mesh, keys: &[u64]) -> bool {
    !mesh.ends.is_empty() && keys.chunk_by(|a, b| a == b).all(|same| same.len() == 2)
}

#[cfg(test)]
mod tests {
    use super::*;

    fn mesh(vertices: usize, faces: &[&[u32]]) -> Mesh {
        let mut mesh = Mesh {
            coords: vec![0.0; 3 * vertices],
            ..Mesh::default()
        };
        for face in faces {
            mesh.push_face(face.iter().copied());
        }
        mesh
    }

    #[test]
    fn questions_are_asked_in_order() {
        let good = mesh(4, &[&[0, 1, 2], &[1, 2, 3]]);
        assert_eq!(refusal(&good), None);
        assert_eq!(refusal(&mesh(0, &[])), None);
        let mut whole = good.clone();
        whole.coords.pop();
        whole.ends.clear();
        assert_eq!(refusal(&whole), Some(1_000_000));
        let mut fit = mesh(4, &[&[0, 1], &[1, 2, 9]]);
        fit.ends[0] = 6;
        assert_eq!(refusal(&fit), Some(2_000_000));
        let mut none = mesh(4, &[]);
        none.corners.push(0);
        assert_eq!(refusal(&none), Some(2_000_000));
        let late = mesh(3, &[&[0, 1, 2], &[0, 1, 3], &[0, 1]]);
        assert_eq!(refusal(&late), Some(4_000_001));
        let early = mesh(3, &[&[0, 1, 2], &[0, 9], &[0, 1, 3]]);
        assert_eq!(refusal(&early), Some(3_000_001));
        let mut unused = good;
        unused.coords[11] = f64::NAN;
        assert_eq!(refusal(&unused), Some(5_000_003));
    }

    #[test]
    fn fans_begin_at_the_first_corner() {
        let found = triangles(&mesh(9, &[&[4, 3, 2, 1], &[5, 6, 7]]));
        assert_eq!(found, [[4, 3, 2], [4, 2, 1], [5, 6, 7]]);
    }

    #[test]
    fn the_first_zero_stays_in_a_box() {
        let [min, max] = box_of([[-0.0, 0.0, 1.0], [0.0, -0.0, 2.0]]);
        assert_eq!(min.map(f64::to_bits), [-0.0, 0.0, 1.0].map(f64::to_bits));
        assert_eq!(max.map(f64::to_bits), [-0.0, 0.0, 2.0].map(f64::to_bits));
    }

    #[test]
    fn a_mesh_is_closed_if_each_edge_is_used_twice() {
        let is_closed = |faces: &[&[u32]]| {
            let mesh = mesh(9, faces);
            closed(&mesh, &edge_keys(&mesh))
        };
        assert!(!is_closed(&[]));
        assert!(!is_closed(&[&[0, 1, 2]]));
        assert!(is_closed(&[&[0, 1, 2], &[0, 1, 2]]));
        assert!(!is_closed(&[&[0, 1, 2][..]; 4]));
        assert!(is_closed(&[&[0, 0, 1, 2], &[0, 2, 1, 0]]));
        assert!(!is_closed(&[&[0, 0, 1, 2], &[0, 2, 1]]));
    }

    #[test]
    fn keys_have_the_smaller_vertex_first() {
        let keys = edge_keys(&mesh(9, &[&[2, 1, 7]]));
        assert_eq!(keys, [65_536 + 2, 65_536 + 7, 2 * 65_536 + 7]);
    }
}
