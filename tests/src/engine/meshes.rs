//! The engine's C functions on meshes.

use super::of_lists;

/// A mesh as it is lent: x, y, z of each vertex, the vertex numbers of the
/// corners, face after face, and where the corners of each face end.
pub struct Mesh<'a> {
    pub coords: &'a mut [f64],
    pub corners: &'a mut [u32],
    pub ends: &'a mut [u32],
}

/// The buffers of welding: the mesh that it writes, and its two sizes.
pub struct Welded<'a> {
    pub mesh: Mesh<'a>,
    pub sizes: &'a mut [u64],
}

of_lists! {
    probe_mesh(coords: f64, corners: u32, ends: u32, work: u64, out: f64)
    csx_from_triangles(triangles: f64, coords: f64, corners: u32, ends: u32, sizes: u64)
}

/// What `probe_mesh` writes to its last list: the mesh's box, the grown box and the
/// surface tolerance, and for each triangle the vertex numbers, the own box and the
/// centre.
const OF_MESH: usize = 13;
const OF_TRIANGLE: usize = 12;

/// Questions 1 to 5: 0, or the refusal.
pub fn mesh(mesh: &mut Mesh, _: &mut [u8]) -> u64 {
    shown(mesh, 0).map_or_else(|refusal| refusal, |_| 0)
}

/// What is written of a mesh and of so many of its triangles, or the refusal. A row that
/// no triangle has is left as it was.
fn shown(mesh: &mut Mesh, triangles: usize) -> Result<Vec<f64>, u64> {
    let mut work = vec![0; mesh.corners.len()];
    let mut out = vec![f64::NAN; OF_MESH + OF_TRIANGLE * triangles];
    match probe_mesh(mesh.coords, mesh.corners, mesh.ends, &mut work, &mut out) {
        0 | 1 => Ok(out),
        refusal => Err(refusal),
    }
}

/// 0, or the refusal. Then `out` begins with the vertex numbers of as many triangles as
/// it has room for.
pub fn triangles(mesh: &mut Mesh, out: &mut [u32]) -> u64 {
    let out = out.as_chunks_mut::<3>().0;
    let numbers = match shown(mesh, out.len()) {
        Ok(numbers) => numbers,
        Err(refusal) => return refusal,
    };
    let rows = numbers[OF_MESH..].as_chunks::<OF_TRIANGLE>().0;
    for (out, [a, b, c, ..]) in out.iter_mut().zip(rows) {
        if !a.is_nan() {
            *out = [a, b, c].map(|number| *number as u32);
        }
    }
    0
}

/// 0, or the refusal. Then `out` begins with the mesh's box, the grown box, the surface
/// tolerance, and of as many triangles as it has room for the own box and the centre.
pub fn boxes(mesh: &mut Mesh, out: &mut [f64]) -> u64 {
    let (front, out) = out.split_at_mut(OF_MESH);
    let out = out.as_chunks_mut::<9>().0;
    let numbers = match shown(mesh, out.len()) {
        Ok(numbers) => numbers,
        Err(refusal) => return refusal,
    };
    front.copy_from_slice(&numbers[..OF_MESH]);
    let rows = numbers[OF_MESH..].as_chunks::<OF_TRIANGLE>().0;
    for (out, row) in out.iter_mut().zip(rows) {
        if !row[0].is_nan() {
            out.copy_from_slice(&row[3..]);
        }
    }
    0
}

/// 1 if the mesh is closed, 0 if it is open, or the refusal. Then `work` begins
/// with the edge keys in ascending order.
pub fn edge_keys(mesh: &mut Mesh, work: &mut [u64]) -> u64 {
    prepare(mesh, work, &mut [0.0; OF_MESH])
}

/// What a list of points needs of its mesh, in one call: as `edge_keys`, and
/// `out` begins with the mesh's box, the grown box and the surface tolerance.
pub fn prepare(mesh: &mut Mesh, work: &mut [u64], out: &mut [f64; OF_MESH]) -> u64 {
    probe_mesh(mesh.coords, mesh.corners, mesh.ends, work, out)
}

/// Welds triangles, nine numbers each: 0, or the refusal.
pub fn from_triangles(triangles: &mut [f64], welded: &mut Welded) -> u64 {
    let Welded { mesh, sizes } = welded;
    csx_from_triangles(triangles, mesh.coords, mesh.corners, mesh.ends, sizes)
}
