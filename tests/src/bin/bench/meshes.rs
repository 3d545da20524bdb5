//! What a mesh is asked before its points, and welding, beside csx.

use std::hint::black_box;

use csx::Polyhedron;
use csx::primitives::polyhedron::is_closed;
use zirwennach_tests::engine::meshes as engine;
use zirwennach_tests::kinds::meshes::Mesh;
use zirwennach_tests::kinds::meshes::inputs::{on_torus, torus};
use zirwennach_tests::kinds::meshes::welding::{apart_triangles, csx_triangles, torus_triangles};
use zirwennach_tests::random::Random;

use crate::best_times;
use crate::table::{Row, Table};

/// How many rounds are run, of which the best counts.
const ROUNDS: usize = 100;
/// The same of welding, which takes long.
const WELDING_ROUNDS: usize = 5;

pub fn run(table: &mut Table) {
    let mut random = Random::new(754);
    println!(
        "Questions 1 to 5, the mesh's box, the edge keys and closedness in one call, \
         the best of {ROUNDS} interleaved rounds"
    );
    let mut net = torus(208, 312, false);
    let grid = net.mesh_at(|v| on_torus(208, 312, v));
    net.mix(&mut random);
    let mixed = net.mesh_at(|v| on_torus(208, 312, v));
    prepare(table, "a torus of 64,896 quads", grid);
    prepare(table, "the same, numbers and faces mixed", mixed);
    println!("Welding, the best of {WELDING_ROUNDS} interleaved rounds");
    let apart = apart_triangles(&mut random);
    weld(table, "21,845 triangles, all corners apart", apart);
    weld(table, "a torus of 21,840 triangles", torus_triangles());
}

/// Times the call beside csx's test of closedness alone, on the same faces. It is
/// to take no longer.
fn prepare(table: &mut Table, name: &str, mut mesh: Mesh) {
    let faces: Vec<Vec<u32>> = mesh.faces().map(<[_]>::to_vec).collect();
    let mut work = vec![0; mesh.corners.len()];
    let mut out = [0.0; 13];
    let mut lists = mesh.lend();
    let mut closed = 0;
    let mut closed_by_csx = false;
    let [engine, csx] = best_times(
        ROUNDS,
        [
            &mut || closed = engine::prepare(&mut lists, &mut work, black_box(&mut out)),
            &mut || closed_by_csx = is_closed(black_box(&faces)),
        ],
    );
    table.add(&Row {
        what: "questions of a mesh, its box and edge keys",
        inputs: name,
        engine,
        beside: "csx's `is_closed` alone",
        other: csx,
        most: Some(1.0),
    });
    table.agree(closed == u64::from(closed_by_csx));
}

/// Times welding beside csx's, which also tests closedness and builds its tree.
fn weld(table: &mut Table, name: &str, mut triangles: Vec<f64>) {
    let soup = csx_triangles(&triangles);
    let count = soup.len();
    let mut mesh = Mesh {
        coords: vec![0.0; 9 * count],
        corners: vec![0; 3 * count],
        ends: vec![0; count],
    };
    let mut sizes = [0; 2];
    let mut welded = engine::Welded {
        mesh: mesh.lend(),
        sizes: &mut sizes,
    };
    let mut answer = 0;
    let mut by_csx = None;
    let [engine, csx] = best_times(
        WELDING_ROUNDS,
        [
            &mut || answer = engine::from_triangles(&mut triangles, &mut welded),
            &mut || by_csx = Polyhedron::from_triangles(black_box(&soup)).ok(),
        ],
    );
    table.add(&Row {
        what: "welding",
        inputs: name,
        engine,
        beside: "csx's `from_triangles`",
        other: csx,
        most: None,
    });
    table.agree(by_csx.is_some_and(|csx| {
        answer == 0 && sizes == [csx.vertices().len(), csx.faces().len()].map(|n| n as u64)
    }));
}
