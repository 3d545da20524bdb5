//! Files of csx, built as the test oracle of the port. See README.md.

// Under `cargo test` only: the tests of csx that use `unit_cube` are not here.
#![cfg_attr(test, allow(dead_code))]

pub mod coords;
pub mod error;
pub mod expr;
pub mod io;
pub mod math;
pub mod param;
pub mod port;
pub mod primitives;
pub mod transform;

pub use coords::CoordSystem;
pub use error::{Error, Result};
pub use math::{BoundingBox, Mat4, Vec3};
pub use param::{Parameter, ParameterSet, Scalar, ScalarPoint};
pub use primitives::{Polyhedron, Primitive, Shape};
pub use transform::{Transform, TransformOp};

/// Stands for `f64::hypot` in csx's files: the square root of
/// `a * a + b * b`, each step rounded.
#[inline]
pub fn hypot(a: f64, b: f64) -> f64 {
    (a * a + b * b).sqrt()
}
