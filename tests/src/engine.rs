//! The engine's C functions. Each accepts every value, so those that take plain
//! numbers are safe to call. A list is lent as a pointer and a length, so those
//! that take one are called through `answer`, which has a slice.

pub mod columns;
pub mod lists;
pub mod meshes;
pub mod trees;
pub mod vectors;

use std::cell::Cell;
use std::ptr;

/// Three coordinates.
pub type Point = [f64; 3];

/// A refusal is its number times this, plus its place.
pub const REFUSAL: u64 = 1_000_000;

unsafe extern "C" {
    pub safe fn csx_root(x: f64) -> f64;
    safe fn probe_min(a: f64, b: f64) -> f64;
    safe fn probe_max(a: f64, b: f64) -> f64;
    safe fn probe_abs(x: f64) -> f64;
    safe fn probe_clamp(x: f64, lo: f64, hi: f64) -> f64;
    safe fn probe_is_finite(x: f64) -> bool;
    safe fn probe_rem_euclid(a: f64, b: f64) -> f64;
    safe fn probe_order_key(x: f64) -> u64;
    safe fn probe_guess(digits: u64, odd: u64) -> f64;
    safe fn probe_settle(p: u64, w: u64) -> u64;
    safe fn probe_by_digits(w: u64) -> u64;
    fn csx_multi_box(list: *const f64, length: usize, x: f64, y: f64, z: f64) -> u64;
    fn csx_polygon(
        normal: u64,
        elevation: f64,
        list: *const f64,
        length: usize,
        x: f64,
        y: f64,
        z: f64,
    ) -> u64;
    fn csx_lin_poly(
        normal: u64,
        elevation: f64,
        extrusion: f64,
        list: *const f64,
        length: usize,
        x: f64,
        y: f64,
        z: f64,
    ) -> u64;
    fn csx_curve(list: *const f64, length: usize, x: f64, y: f64, z: f64) -> u64;
    fn csx_wire(list: *const f64, length: usize, radius: f64, x: f64, y: f64, z: f64) -> u64;
}

/// Declares questions that take floats alone.
macro_rules! of_floats {
    ($($name:ident($($x:ident)*))*) => {
        unsafe extern "C" {
            $(safe fn $name($($x: f64),*) -> u64;)*
        }
    };
}

of_floats! {
    csx_box(ax ay az bx by bz x y z)
    csx_box_cylindrical(ax ay az bx by bz x y z)
    csx_sphere(cx cy cz radius x y z)
    csx_spherical_shell(cx cy cz radius shell_width x y z)
    csx_cylinder(ax ay az bx by bz radius x y z)
    csx_cylindrical_shell(ax ay az bx by bz radius shell_width x y z)
    csx_point(px py pz x y z)
}

/// Declares C functions that take lists, each a pointer and a length, and for
/// each a safe function of its name that lends slices. Lists that the engine
/// only reads are lent as mutable ones all the same, as `answer` says.
macro_rules! of_lists {
    ($($name:ident($($list:ident: $element:ty),*))*) => {$(
        // as many as the C function takes
        #[allow(clippy::too_many_arguments)]
        fn $name($($list: &mut [$element]),*) -> u64 {
            unsafe extern "C" {
                fn $name($($list: *mut $element, _: usize),*) -> u64;
            }
            // SAFETY: each list has so many elements, or is not read since it
            // has none. They do not overlap: each is borrowed as mutable.
            unsafe { $name($($crate::engine::lent($list), $list.len()),*) }
        }
    )*};
}
use of_lists;

/// The square root.
pub fn root(x: f64) -> f64 {
    csx_root(x)
}

/// The smaller of two.
pub fn min(a: f64, b: f64) -> f64 {
    probe_min(a, b)
}

/// The larger of two.
pub fn max(a: f64, b: f64) -> f64 {
    probe_max(a, b)
}

/// The value without its sign.
pub fn abs(x: f64) -> f64 {
    probe_abs(x)
}

/// `x`, moved into `lo..=hi`.
pub fn clamp(x: f64, lo: f64, hi: f64) -> f64 {
    probe_clamp(x, lo, hi)
}

/// Whether the value is neither infinite nor a NaN.
pub fn is_finite(x: f64) -> bool {
    probe_is_finite(x)
}

/// The remainder that is not negative.
pub fn rem_euclid(a: f64, b: f64) -> f64 {
    probe_rem_euclid(a, b)
}

/// A whole number that sorts as the value does, with NaN last.
pub fn order_key(x: f64) -> u64 {
    probe_order_key(x)
}

/// The parts of the square root that work on a significand.
#[derive(Clone, Copy)]
pub struct Significand {
    /// Of digits and odd: a guess at the root of 1.digits, or of twice that
    /// where odd is odd.
    pub guess: fn(u64, u64) -> f64,
    /// Of p and w: the one of p, p + 1 and p + 2 that is nearest to the root
    /// of w * 2^52, or 0 where none is.
    pub settle: fn(u64, u64) -> u64,
    /// Of w: the whole number nearest to the root of w % 2^54 * 2^52.
    pub by_digits: fn(u64) -> u64,
}

/// These parts as the engine has them.
pub const SIGNIFICAND: Significand = Significand {
    guess: |digits, odd| probe_guess(digits, odd),
    settle: |p, w| probe_settle(p, w),
    by_digits: |w| probe_by_digits(w),
};

/// A shape that a C function answers for. The list of a multi-box, polygon,
/// extruded polygon, curve or wire is lent beside it.
#[derive(Clone, Copy, Debug)]
pub enum Shape {
    /// Two opposite corners.
    Box(Point, Point),
    /// Two opposite corners in cylindrical coordinates, as the point is.
    CylindricalBox(Point, Point),
    MultiBox,
    /// Centre and radius.
    Sphere(Point, f64),
    /// Centre, radius and shell width.
    SphericalShell(Point, f64, f64),
    /// Start, stop and radius.
    Cylinder(Point, Point, f64),
    /// Start, stop, radius and shell width.
    CylindricalShell(Point, Point, f64, f64),
    /// Normal direction and elevation.
    Polygon(u64, f64),
    /// Normal direction, elevation and length.
    LinPoly(u64, f64, f64),
    Curve,
    /// Radius.
    Wire(f64),
    /// Position.
    Point(Point),
}

impl Shape {
    /// Its floats, in the order of the C function's arguments.
    pub fn numbers_mut(&mut self) -> Vec<&mut f64> {
        match self {
            Self::Box(a, b) | Self::CylindricalBox(a, b) => a.iter_mut().chain(b).collect(),
            Self::MultiBox | Self::Curve => Vec::new(),
            Self::Sphere(c, r) => c.iter_mut().chain([r]).collect(),
            Self::SphericalShell(c, r, w) => c.iter_mut().chain([r, w]).collect(),
            Self::Cylinder(a, b, r) => a.iter_mut().chain(b).chain([r]).collect(),
            Self::CylindricalShell(a, b, r, w) => a.iter_mut().chain(b).chain([r, w]).collect(),
            Self::Polygon(_, x) | Self::Wire(x) => vec![x],
            Self::LinPoly(_, e, l) => vec![e, l],
            Self::Point(p) => p.iter_mut().collect(),
        }
    }
}

thread_local! {
    /// Whether empty lists are lent as null.
    static NULL: Cell<bool> = const { Cell::new(true) };
}

/// The pointer that lends a list. C callers lend an empty one as null, which a
/// slice never is.
fn lent<T>(list: &mut [T]) -> *mut T {
    if list.is_empty() && NULL.get() {
        ptr::null_mut()
    } else {
        list.as_mut_ptr()
    }
}

/// Makes calls whose empty lists are lent where they lie, which is no place to read.
pub fn without_null<R>(calls: impl FnOnce() -> R) -> R {
    NULL.set(false);
    let result = calls();
    NULL.set(true);
    result
}

/// The engine's answer on a point: 0 outside, 1 inside, or a refusal's number
/// times 1,000,000 plus its place. A list beside a shape that has none is not
/// lent. The engine writes to no list. It gets a mutable one all the same: of a
/// shared one the compiler takes this for granted, and may drop a test of it.
pub fn answer(shape: &Shape, list: &mut [f64], point: Point) -> u64 {
    let [x, y, z] = point;
    let length = list.len();
    let list = lent(list).cast_const();
    match *shape {
        Shape::Box([ax, ay, az], [bx, by, bz]) => csx_box(ax, ay, az, bx, by, bz, x, y, z),
        Shape::CylindricalBox([ax, ay, az], [bx, by, bz]) => {
            csx_box_cylindrical(ax, ay, az, bx, by, bz, x, y, z)
        }
        // SAFETY: here and below, `list` has `length` floats, or is not read
        // since it has none.
        Shape::MultiBox => unsafe { csx_multi_box(list, length, x, y, z) },
        Shape::Sphere([cx, cy, cz], r) => csx_sphere(cx, cy, cz, r, x, y, z),
        Shape::SphericalShell([cx, cy, cz], r, w) => csx_spherical_shell(cx, cy, cz, r, w, x, y, z),
        Shape::Cylinder([ax, ay, az], [bx, by, bz], r) => {
            csx_cylinder(ax, ay, az, bx, by, bz, r, x, y, z)
        }
        Shape::CylindricalShell([ax, ay, az], [bx, by, bz], r, w) => {
            csx_cylindrical_shell(ax, ay, az, bx, by, bz, r, w, x, y, z)
        }
        // SAFETY: as above.
        Shape::Polygon(n, e) => unsafe { csx_polygon(n, e, list, length, x, y, z) },
        // SAFETY: as above.
        Shape::LinPoly(n, e, l) => unsafe { csx_lin_poly(n, e, l, list, length, x, y, z) },
        // SAFETY: as above.
        Shape::Curve => unsafe { csx_curve(list, length, x, y, z) },
        // SAFETY: as above.
        Shape::Wire(r) => unsafe { csx_wire(list, length, r, x, y, z) },
        Shape::Point([px, py, pz]) => csx_point(px, py, pz, x, y, z),
    }
}
