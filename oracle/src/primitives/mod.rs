//! Geometric primitives.
//!
//! A [`Primitive`] places a [`Shape`] in a model. It adds a priority, an
//! optional coordinate system and an optional [`Transform`]. Primitives are
//! owned by properties (see [`crate::properties::Property`]), which say what
//! the region *is* (material, metal, probe, ...).
//!
//! ```
//! use csx::primitives::{BoxShape, Primitive, Sphere};
//! use csx::{CoordSystem, Vec3};
//!
//! let slab = Primitive::new(BoxShape::new([0.0, 0.0, 0.0], [10.0, 10.0, 1.6]));
//! assert!(slab.contains(Vec3::new(5.0, 5.0, 0.8), CoordSystem::Cartesian));
//! assert_eq!(slab.dimension(), 3);
//!
//! let ball = Primitive::new(Sphere::new([0.0, 0.0, 0.0], 2.0)).with_priority(10);
//! let bb = ball.bounding_box(CoordSystem::Cartesian);
//! assert_eq!(bb.max, Vec3::new(2.0, 2.0, 2.0));
//! ```
//!
//! # Shapes
//!
//! | Shape | XML element | Dimension | Defined by | Coordinate system |
//! |---|---|---|---|---|
//! | [`BoxShape`] | `Box` | 0–3 (by extent) | two corners | Cartesian box or cylindrical sector |
//! | [`MultiBox`] | `MultiBox` | 0–3 | corner pairs | raw comparison in the structure's system |
//! | [`Sphere`] | `Sphere` | 3 | centre, radius | centre converted from `(ρ, α, z)` |
//! | [`SphericalShell`] | `SphericalShell` | 2–3 | centre, radius, width | centre converted |
//! | [`Cylinder`] | `Cylinder` | 3 | axis end points, radius | end points converted |
//! | [`CylindricalShell`] | `CylindricalShell` | 2–3 | axis end points, radius, width | end points converted |
//! | [`Polygon`] | `Polygon` | 2 | normal axis, elevation, vertices | always Cartesian |
//! | [`LinPoly`] | `LinPoly` | 2–3 | polygon + extrusion length | always Cartesian |
//! | [`RotPoly`] | `RotPoly` | 3 | polygon + rotation axis, angles | always Cartesian |
//! | [`Curve`] | `Curve` | 0–1 | polyline vertices | vertices converted |
//! | [`Wire`] | `Wire` | 0, 1 or 3 | polyline vertices, radius | vertices converted |
//! | [`PointShape`] | `Point` | 0 | one point | point converted |
//! | [`Polyhedron`] | `Polyhedron` | 2 (open) or 3 (closed) | vertices, faces | always Cartesian |
//! | [`PolyhedronReader`] | `PolyhedronReader` | 2–3 once loaded | STL / PLY file | always Cartesian |
//! | [`UserDefined`] | `UserDefined` | 3 | boolean expression | Cartesian variables |
//!
//! Boundaries are inclusive: a point on a box face or polygon edge is
//! inside. Curves and points describe lines and locations for meshing and
//! probing; like in CSXCAD they never *contain* a point.
//!
//! # Priority
//!
//! When primitives overlap, the one with the highest priority determines
//! the property at a point (see
//! [`ContinuousStructure::property_at`](crate::ContinuousStructure::property_at)).
//! On equal priority the primitive of the earlier property wins, then the
//! earlier primitive within a property. Probes, dumps and excitations are
//! usually queried separately (with a [`TypeMask`](crate::TypeMask)), so
//! their priority only matters among themselves.
//!
//! # Coordinate systems
//!
//! A primitive's values are interpreted in its own coordinate system or,
//! when it has none, in the structure's. Inside tests take a point together
//! with the coordinate system it is expressed in. The semantics match
//! CSXCAD 0.7 (verified black-box with random models and point queries):
//!
//! * A [`BoxShape`] in cylindrical coordinates is an annular sector
//!   `(ρ₁..ρ₂, α₁..α₂, z₁..z₂)`. Queried with cylindrical coordinates it
//!   compares them as given: a negative `ρ` is outside and `α` is taken
//!   modulo 2π.
//! * A [`MultiBox`] ignores its own coordinate system: its corners are in the
//!   structure's system and are compared component-wise, without angle
//!   wrapping (see [`Primitive::shape_cs`]).
//! * Point-defined shapes (spheres, cylinders, their shells, curves, wires,
//!   points) convert their defining points from `(ρ, α, z)` when their
//!   coordinate system is cylindrical; the geometry itself stays Euclidean
//!   (straight wire segments, round spheres). See [`Shape::to_cartesian`].
//! * Polygon based shapes and polyhedra are always Cartesian.
//! * Shapes other than boxes see query points through the Cartesian
//!   conversion, so `(-ρ, α)` is the same point as `(ρ, α + π)`.
//!
//! ```
//! use core::f64::consts::FRAC_PI_2;
//! use csx::primitives::{BoxShape, Primitive};
//! use csx::{CoordSystem, Vec3};
//!
//! // A quarter annulus: ρ ∈ [1, 2], α ∈ [0, π/2], z ∈ [0, 1].
//! let sector = Primitive::new(BoxShape::new([1.0, 0.0, 0.0], [2.0, FRAC_PI_2, 1.0]))
//!     .with_coord_system(CoordSystem::Cylindrical);
//! assert!(sector.contains(Vec3::new(1.0, 1.0, 0.5), CoordSystem::Cartesian));
//! assert!(!sector.contains(Vec3::new(-1.0, 1.0, 0.5), CoordSystem::Cartesian));
//! // The same point queried in cylindrical coordinates.
//! assert!(sector.contains(Vec3::new(2f64.sqrt(), FRAC_PI_2 / 2.0, 0.5), CoordSystem::Cylindrical));
//! ```
//!
//! Known divergence: CSXCAD 0.7 clips cylindrical-coordinate wires to a
//! bounding box that it computes inconsistently (it can even be inverted),
//! so parts of such wires are invisible to CSXCAD; this crate uses the true
//! geometry.
//!
//! # Transformations
//!
//! A primitive's [`Transform`] maps the shape from its local frame to the
//! world, in Cartesian space. The operations are applied in list order (the
//! first one first). Rotation angles are radians unless the transform is set
//! to degrees. A `Matrix` operation holds 16 values in row-major order and
//! acts on column vectors, so the translation is in the last column.
//!
//! Inside tests map the query point through the inverse transformation and
//! test it against the untransformed shape. A singular transformation (for
//! example a zero scale) contains no point.
//!
//! ```
//! use core::f64::consts::FRAC_PI_2;
//! use csx::primitives::{BoxShape, Primitive};
//! use csx::{CoordSystem, Transform, Vec3};
//!
//! let mut t = Transform::new();
//! // First rotate a quarter turn about z, then move 10 units along x.
//! t.rotate_axis(2, FRAC_PI_2).translate(Vec3::new(10.0, 0.0, 0.0));
//! let bar = Primitive::new(BoxShape::new([0.0, 0.0, 0.0], [4.0, 1.0, 1.0])).with_transform(t);
//! // The bar now runs along +y, starting at x = 9..10.
//! assert!(bar.contains(Vec3::new(9.5, 3.0, 0.5), CoordSystem::Cartesian));
//! assert!(!bar.contains(Vec3::new(3.0, 0.5, 0.5), CoordSystem::Cartesian));
//! ```
//!
//! # Parametric values
//!
//! Coordinates, radii and lengths are [`Scalar`](crate::Scalar)s and may be
//! expressions over the structure's parameters. They are evaluated by
//! [`Primitive::update`] (usually through
//! [`ContinuousStructure::update`](crate::ContinuousStructure::update)).

pub mod basic; // oracle: visibility
pub mod bvh; // oracle: visibility
pub mod curve; // oracle: visibility
pub mod geom; // oracle: visibility
mod poly;
pub mod polyhedron; // oracle: visibility
mod user;

pub use basic::{BoxShape, Cylinder, CylindricalShell, MultiBox, Sphere, SphericalShell};
pub use curve::{Curve, PointShape, Wire};
pub use poly::{LinPoly, PolyVertices, Polygon, RotPoly, plane_axes};
pub use polyhedron::Polyhedron;
pub use user::{USER_VARS, UserDefined};

pub(crate) use geom::cartesian_bbox_to_cylindrical;

use std::borrow::Cow;

use crate::coords::CoordSystem;
use crate::error::Result;
use crate::math::{BoundingBox, Vec3};
use crate::param::{ParameterSet, ScalarPoint};
use crate::transform::Transform;

/// Mesh file formats understood by [`PolyhedronReader`].
///
/// ```
/// use csx::primitives::MeshFileType;
///
/// assert_eq!("stl".parse::<MeshFileType>().unwrap(), MeshFileType::Stl);
/// assert_eq!("2".parse::<MeshFileType>().unwrap(), MeshFileType::Ply);
/// assert_eq!(MeshFileType::from_path("parts/horn.ply"), Some(MeshFileType::Ply));
/// assert_eq!(MeshFileType::Stl.to_string(), "STL");
/// assert_eq!(MeshFileType::Stl.id(), 1);
/// ```
#[non_exhaustive]
#[derive(Debug, Clone, Copy, PartialEq, Eq, Default)]
pub enum MeshFileType {
    /// STL (ASCII or binary); file type id `1`.
    #[default]
    Stl,
    /// PLY (ASCII or binary); file type id `2`.
    Ply,
}

impl MeshFileType {
    /// Numeric id as used in files.
    pub fn id(self) -> i32 {
        match self {
            MeshFileType::Stl => 1,
            MeshFileType::Ply => 2,
        }
    }

    /// Guesses the type from a file name extension.
    pub fn from_path(path: &str) -> Option<Self> {
        path.rsplit('.').next()?.parse().ok()
    }
}

impl core::str::FromStr for MeshFileType {
    type Err = crate::Error;

    /// Parses a numeric id (`1`, `2`) or a type name (`STL`, `PLY`, case
    /// insensitive).
    fn from_str(s: &str) -> Result<Self> {
        match s.trim().to_ascii_lowercase().as_str() {
            "1" | "stl" => Ok(MeshFileType::Stl),
            "2" | "ply" => Ok(MeshFileType::Ply),
            _ => Err(crate::Error::Format(format!(
                "unknown mesh file type {s:?}"
            ))),
        }
    }
}

impl core::fmt::Display for MeshFileType {
    /// The type name used in files (`STL`, `PLY`).
    fn fmt(&self, f: &mut core::fmt::Formatter<'_>) -> core::fmt::Result {
        f.write_str(match self {
            MeshFileType::Stl => "STL",
            MeshFileType::Ply => "PLY",
        })
    }
}

/// A polyhedron loaded from an external mesh file (`PolyhedronReader` in
/// CSXCAD files).
///
/// The loaded mesh is a cache of the file contents: changing the file name
/// or type through the setters discards it, and
/// [`crate::ContinuousStructure::update`] (or [`PolyhedronReader::load`])
/// loads it again. Until a mesh is loaded the primitive contains no point
/// and has an empty bounding box. Equality compares the definition only.
///
/// ```ignore (oracle: doc test, needs the STL reader)
/// use csx::primitives::{MeshFileType, PolyhedronReader, Primitive};
/// use csx::{CoordSystem, Vec3};
///
/// // A tetrahedron as ASCII STL.
/// let stl = "solid t
/// facet normal 0 0 -1
///  outer loop
///   vertex 0 0 0
///   vertex 0 1 0
///   vertex 1 0 0
///  endloop
/// endfacet
/// facet normal 0 -1 0
///  outer loop
///   vertex 0 0 0
///   vertex 1 0 0
///   vertex 0 0 1
///  endloop
/// endfacet
/// facet normal -1 0 0
///  outer loop
///   vertex 0 0 0
///   vertex 0 0 1
///   vertex 0 1 0
///  endloop
/// endfacet
/// facet normal 1 1 1
///  outer loop
///   vertex 1 0 0
///   vertex 0 1 0
///   vertex 0 0 1
///  endloop
/// endfacet
/// endsolid t
/// ";
/// let mut reader = PolyhedronReader::new("tetra.stl");
/// assert_eq!(reader.file_type(), MeshFileType::Stl);
/// assert!(!reader.is_loaded());
/// reader.load_bytes(stl.as_bytes())?;
/// assert!(reader.mesh().unwrap().is_closed());
///
/// let prim = Primitive::new(reader);
/// assert!(prim.contains(Vec3::new(0.1, 0.1, 0.1), CoordSystem::Cartesian));
/// assert_eq!(prim.dimension(), 3);
/// # Ok::<(), csx::Error>(())
/// ```
#[derive(Debug, Clone, Default)]
pub struct PolyhedronReader {
    file_name: String,
    file_type: MeshFileType,
    mesh: Option<Polyhedron>,
}

impl PartialEq for PolyhedronReader {
    fn eq(&self, o: &Self) -> bool {
        self.file_name == o.file_name && self.file_type == o.file_type
    }
}

impl PolyhedronReader {
    /// Reader for `file_name`; the type is guessed from the extension.
    pub fn new(file_name: impl Into<String>) -> Self {
        let file_name = file_name.into();
        let file_type = MeshFileType::from_path(&file_name).unwrap_or_default();
        PolyhedronReader {
            file_name,
            file_type,
            mesh: None,
        }
    }

    /// Builder: overrides the file type.
    #[must_use]
    pub fn with_file_type(mut self, t: MeshFileType) -> Self {
        self.set_file_type(t);
        self
    }

    /// File name as written in the model.
    pub fn file_name(&self) -> &str {
        &self.file_name
    }

    /// File format.
    pub fn file_type(&self) -> MeshFileType {
        self.file_type
    }

    /// Changes the file name, discarding any loaded mesh.
    pub fn set_file_name(&mut self, name: impl Into<String>) {
        self.file_name = name.into();
        self.mesh = None;
    }

    /// Changes the file type, discarding any loaded mesh.
    pub fn set_file_type(&mut self, t: MeshFileType) {
        if t != self.file_type {
            self.file_type = t;
            self.mesh = None;
        }
    }

    /// The loaded mesh, if any.
    pub fn mesh(&self) -> Option<&Polyhedron> {
        self.mesh.as_ref()
    }

    /// True once the mesh has been loaded.
    pub fn is_loaded(&self) -> bool {
        self.mesh.is_some()
    }

    /// Loads the mesh from in-memory file contents (format per
    /// [`PolyhedronReader::file_type`]).
    ///
    /// # Errors
    ///
    /// [`Error::Format`](crate::Error::Format) if the data is not a valid
    /// STL / PLY mesh, [`Error::Invalid`](crate::Error::Invalid) if its faces
    /// reference missing vertices or it has non-finite coordinates. The
    /// previously loaded mesh (if any) is kept on error.
    pub fn load_bytes(&mut self, data: &[u8]) -> Result<()> {
        self.mesh = Some(match self.file_type {
            MeshFileType::Stl => crate::io::stl::parse(data)?,
            MeshFileType::Ply => crate::io::ply::parse(data)?,
        });
        Ok(())
    }

    /// Loads the mesh from disk. Relative paths are resolved against
    /// `base_dir` when given (structures read from a file use the file's
    /// directory, see
    /// [`ContinuousStructure::base_dir`](crate::ContinuousStructure::base_dir)).
    ///
    /// # Errors
    ///
    /// [`Error::Io`](crate::Error::Io) if the file cannot be read, otherwise
    /// as [`PolyhedronReader::load_bytes`].
    pub fn load(&mut self, base_dir: Option<&std::path::Path>) -> Result<()> {
        let mut path = std::path::PathBuf::from(&self.file_name);
        if path.is_relative()
            && let Some(b) = base_dir
        {
            path = b.join(path);
        }
        let data = std::fs::read(&path)?;
        self.load_bytes(&data)
    }
}

/// The geometric definition of a primitive.
///
/// Every shape type converts into a `Shape` (and directly into a
/// [`Primitive`]) with `From`, so most code never names the variants:
///
/// ```
/// use csx::primitives::{Cylinder, Primitive, Shape};
///
/// let shape: Shape = Cylinder::new([0.0, 0.0, 0.0], [0.0, 0.0, 5.0], 1.0).into();
/// assert_eq!(shape.type_name(), "Cylinder");
/// assert_eq!(shape.dimension(), 3);
/// let prim: Primitive = Cylinder::new([0.0, 0.0, 0.0], [0.0, 0.0, 5.0], 1.0).into();
/// assert_eq!(prim.shape, shape);
/// ```
///
/// The enum is `#[non_exhaustive]`: new shape types may be added in minor
/// releases.
#[non_exhaustive]
#[derive(Debug, Clone, PartialEq)]
pub enum Shape {
    /// Axis aligned box.
    Box(BoxShape),
    /// Union of boxes.
    MultiBox(MultiBox),
    /// Sphere.
    Sphere(Sphere),
    /// Spherical shell.
    SphericalShell(SphericalShell),
    /// Cylinder.
    Cylinder(Cylinder),
    /// Cylindrical shell.
    CylindricalShell(CylindricalShell),
    /// Planar polygon.
    Polygon(Polygon),
    /// Extruded polygon.
    LinPoly(LinPoly),
    /// Revolved polygon.
    RotPoly(RotPoly),
    /// Polyline.
    Curve(Curve),
    /// Polyline with radius.
    Wire(Wire),
    /// Single point.
    Point(PointShape),
    /// Polyhedron given inline.
    Polyhedron(Polyhedron),
    /// Polyhedron read from a file.
    PolyhedronReader(PolyhedronReader),
    /// Expression-defined region.
    UserDefined(UserDefined),
}

impl Shape {
    /// True for shapes defined by points (centres, axis end points, polyline
    /// vertices) that are converted from `(ρ, α, z)` when the primitive's
    /// coordinate system is cylindrical: spheres, cylinders, their shells,
    /// curves, wires and points.
    pub fn is_point_defined(&self) -> bool {
        matches!(
            self,
            Shape::Sphere(_)
                | Shape::SphericalShell(_)
                | Shape::Cylinder(_)
                | Shape::CylindricalShell(_)
                | Shape::Curve(_)
                | Shape::Wire(_)
                | Shape::Point(_)
        )
    }

    /// The shape with its defining points expressed in Cartesian
    /// coordinates, given the coordinate system `cs` they are written in.
    ///
    /// Point-defined shapes (see [`Shape::is_point_defined`]) in a
    /// cylindrical system get their points converted (expressions are
    /// replaced by their current values); every other shape is returned
    /// unchanged — boxes keep interpreting their corners in `cs`, polygon
    /// based shapes and polyhedra are always Cartesian. After this, every
    /// shape except boxes can be read as Cartesian geometry.
    ///
    /// ```
    /// use core::f64::consts::FRAC_PI_2;
    /// use csx::primitives::{Shape, Sphere};
    /// use csx::{CoordSystem, Vec3};
    ///
    /// // Centre at ρ = 2, α = π/2, z = 1 → (0, 2, 1).
    /// let s: Shape = Sphere::new([2.0, FRAC_PI_2, 1.0], 0.5).into();
    /// let Shape::Sphere(c) = &*s.to_cartesian(CoordSystem::Cylindrical) else {
    ///     unreachable!()
    /// };
    /// assert!((c.center.value() - Vec3::new(0.0, 2.0, 1.0)).norm() < 1e-12);
    /// ```
    pub fn to_cartesian(&self, cs: CoordSystem) -> Cow<'_, Shape> {
        if cs == CoordSystem::Cartesian || !self.is_point_defined() {
            return Cow::Borrowed(self);
        }
        let conv = |p: &ScalarPoint| ScalarPoint::from(cs.to_cartesian(p.value()));
        let convs = |v: &[ScalarPoint]| v.iter().map(conv).collect::<Vec<_>>();
        Cow::Owned(match self {
            Shape::Sphere(s) => Shape::Sphere(Sphere {
                center: conv(&s.center),
                ..s.clone()
            }),
            Shape::SphericalShell(s) => Shape::SphericalShell(SphericalShell {
                center: conv(&s.center),
                ..s.clone()
            }),
            Shape::Cylinder(c) => Shape::Cylinder(Cylinder {
                start: conv(&c.start),
                stop: conv(&c.stop),
                ..c.clone()
            }),
            Shape::CylindricalShell(c) => Shape::CylindricalShell(CylindricalShell {
                start: conv(&c.start),
                stop: conv(&c.stop),
                ..c.clone()
            }),
            Shape::Curve(c) => Shape::Curve(Curve {
                points: convs(&c.points),
            }),
            Shape::Wire(w) => Shape::Wire(Wire {
                points: convs(&w.points),
                ..w.clone()
            }),
            Shape::Point(p) => Shape::Point(PointShape {
                point: conv(&p.point),
            }),
            other => other.clone(),
        })
    }

    /// Element name used in CSXCAD files.
    pub fn type_name(&self) -> &'static str {
        match self {
            Shape::Box(_) => "Box",
            Shape::MultiBox(_) => "MultiBox",
            Shape::Sphere(_) => "Sphere",
            Shape::SphericalShell(_) => "SphericalShell",
            Shape::Cylinder(_) => "Cylinder",
            Shape::CylindricalShell(_) => "CylindricalShell",
            Shape::Polygon(_) => "Polygon",
            Shape::LinPoly(_) => "LinPoly",
            Shape::RotPoly(_) => "RotPoly",
            Shape::Curve(_) => "Curve",
            Shape::Wire(_) => "Wire",
            Shape::Point(_) => "Point",
            Shape::Polyhedron(_) => "Polyhedron",
            Shape::PolyhedronReader(_) => "PolyhedronReader",
            Shape::UserDefined(_) => "UserDefined",
        }
    }

    /// Inside test for a point in the shape's local Cartesian frame (before
    /// any transformation); `cs` is the coordinate system the shape's values
    /// are expressed in. Most callers want [`Primitive::contains`] instead,
    /// which also handles query coordinate systems and transformations.
    pub fn contains_local(&self, p: Vec3, cs: CoordSystem) -> bool {
        match self {
            Shape::Box(s) => s.inside(p, cs),
            Shape::MultiBox(s) => s.inside(p, cs),
            Shape::Sphere(s) => s.inside(p, cs),
            Shape::SphericalShell(s) => s.inside(p, cs),
            Shape::Cylinder(s) => s.inside(p, cs),
            Shape::CylindricalShell(s) => s.inside(p, cs),
            Shape::Polygon(s) => s.inside(p),
            Shape::LinPoly(s) => s.inside(p),
            Shape::RotPoly(s) => s.inside(p),
            Shape::Curve(s) => s.inside(p),
            Shape::Wire(s) => s.inside(p, cs),
            Shape::Point(s) => s.inside(p),
            Shape::Polyhedron(s) => s.contains(p),
            Shape::PolyhedronReader(s) => s.mesh.as_ref().is_some_and(|m| m.contains(p)),
            Shape::UserDefined(s) => s.inside(p),
        }
    }

    /// Bounding box in the shape's local Cartesian frame (before any
    /// transformation); `cs` is the coordinate system the shape's values are
    /// expressed in. Unbounded shapes ([`UserDefined`]) return an infinite
    /// box, unloaded [`PolyhedronReader`]s an empty one.
    pub fn local_bounding_box(&self, cs: CoordSystem) -> BoundingBox {
        match self {
            Shape::Box(s) => s.bbox(cs),
            Shape::MultiBox(s) => s.bbox(cs),
            Shape::Sphere(s) => s.bbox(cs),
            Shape::SphericalShell(s) => s.bbox(cs),
            Shape::Cylinder(s) => s.bbox(cs),
            Shape::CylindricalShell(s) => s.bbox(cs),
            Shape::Polygon(s) => s.bbox(),
            Shape::LinPoly(s) => s.bbox(),
            Shape::RotPoly(s) => s.bbox(),
            Shape::Curve(s) => s.bbox(cs),
            Shape::Wire(s) => s.bbox(cs),
            Shape::Point(s) => s.bbox(cs),
            Shape::Polyhedron(s) => s.bounding_box(),
            Shape::PolyhedronReader(s) => s
                .mesh
                .as_ref()
                .map_or(BoundingBox::EMPTY, |m| m.bounding_box()),
            Shape::UserDefined(s) => s.bbox(),
        }
    }

    /// Bounds expressed in the shape's own coordinate system, for the shapes
    /// whose interpretation depends on it (boxes and multi-boxes).
    fn native_bbox(&self) -> Option<BoundingBox> {
        match self {
            Shape::Box(s) => Some(s.native()),
            Shape::MultiBox(s) => Some(s.native()),
            _ => None,
        }
    }

    /// Topological dimension: 0 (point), 1 (curve), 2 (sheet) or 3 (solid).
    ///
    /// Degenerate shapes report their actual dimension: a box with one zero
    /// extent is a sheet (2), a wire with zero radius a curve (1). Mesh
    /// generation and discretisation use this to treat sheets and lines.
    pub fn dimension(&self) -> usize {
        match self {
            Shape::Box(s) => s.dimension(),
            Shape::MultiBox(s) => s.dimension(),
            Shape::Sphere(s) => usize::from(s.radius.value() > 0.0) * 3,
            Shape::SphericalShell(s) => s.dimension(),
            Shape::Cylinder(s) => usize::from(s.radius.value() > 0.0) * 3,
            Shape::CylindricalShell(s) => s.dimension(),
            Shape::Polygon(s) => s.dimension(),
            Shape::LinPoly(s) => s.dimension(),
            Shape::RotPoly(_) => 3,
            Shape::Curve(s) => s.dimension(),
            Shape::Wire(s) => s.dimension(),
            Shape::Point(_) => 0,
            Shape::Polyhedron(s) => 2 + usize::from(s.is_closed()),
            Shape::PolyhedronReader(s) => s
                .mesh
                .as_ref()
                .map_or(0, |m| 2 + usize::from(m.is_closed())),
            Shape::UserDefined(_) => 3,
        }
    }

    /// Re-evaluates parametric values against `p`.
    ///
    /// # Errors
    ///
    /// [`Error::UnknownVariable`](crate::Error::UnknownVariable) or
    /// [`Error::Parse`](crate::Error::Parse) for expressions that cannot be
    /// evaluated; [`Error::Invalid`](crate::Error::Invalid) for invalid
    /// results (negative radius, axis index out of range, rotation axis equal
    /// to the polygon normal, ...).
    pub fn update(&mut self, p: &ParameterSet) -> Result<()> {
        match self {
            Shape::Box(s) => s.update(p),
            Shape::MultiBox(s) => s.update(p),
            Shape::Sphere(s) => s.update(p),
            Shape::SphericalShell(s) => s.update(p),
            Shape::Cylinder(s) => s.update(p),
            Shape::CylindricalShell(s) => s.update(p),
            Shape::Polygon(s) => s.update(p),
            Shape::LinPoly(s) => s.update(p),
            Shape::RotPoly(s) => s.update(p),
            Shape::Curve(s) => s.update(p),
            Shape::Wire(s) => s.update(p),
            Shape::Point(s) => s.update(p),
            Shape::Polyhedron(_) | Shape::PolyhedronReader(_) => Ok(()),
            Shape::UserDefined(s) => s.update(p),
        }
    }
}

macro_rules! impl_from_shape {
    ($($t:ty => $v:ident),* $(,)?) => {$(
        impl From<$t> for Shape {
            fn from(s: $t) -> Shape { Shape::$v(s) }
        }
        impl From<$t> for Primitive {
            fn from(s: $t) -> Primitive { Primitive::new(Shape::$v(s)) }
        }
    )*};
}

impl_from_shape! {
    BoxShape => Box, MultiBox => MultiBox, Sphere => Sphere,
    SphericalShell => SphericalShell, Cylinder => Cylinder,
    CylindricalShell => CylindricalShell, Polygon => Polygon, LinPoly => LinPoly,
    RotPoly => RotPoly, Curve => Curve, Wire => Wire, PointShape => Point,
    Polyhedron => Polyhedron, PolyhedronReader => PolyhedronReader,
    UserDefined => UserDefined,
}

/// A shape placed in a model: the [`Shape`] plus priority, coordinate system
/// and placement transformation.
///
/// Primitives are usually added to a property through
/// [`ContinuousStructure::add_primitive`](crate::ContinuousStructure::add_primitive)
/// or [`Property::add_primitive`](crate::Property::add_primitive); both
/// accept any shape type directly.
///
/// ```
/// use csx::primitives::{BoxShape, Primitive};
/// use csx::{CoordSystem, Vec3};
///
/// let p = Primitive::new(BoxShape::new([0.0, 0.0, 0.0], [1.0, 1.0, 0.0])).with_priority(5);
/// assert_eq!(p.dimension(), 2); // a sheet in the z = 0 plane
/// assert!(p.contains(Vec3::new(0.5, 0.5, 0.0), CoordSystem::Cartesian));
/// assert!(!p.contains(Vec3::new(0.5, 0.5, 0.1), CoordSystem::Cartesian));
/// ```
#[derive(Debug, Clone, PartialEq)]
pub struct Primitive {
    /// Overlap resolution priority (higher wins).
    pub priority: i32,
    /// Coordinate system of the shape's values; `None` inherits the
    /// structure's coordinate system.
    pub coord_system: Option<CoordSystem>,
    /// Placement transformation (applied in Cartesian space).
    pub transform: Transform,
    /// The geometry.
    pub shape: Shape,
    /// Unrecognised attributes preserved from files.
    pub extra_attributes: Vec<(String, String)>,
    /// Unrecognised child elements preserved from files.
    pub extra_elements: Vec<crate::io::dom::Element>,
}

impl Primitive {
    /// Primitive with priority 0, inherited coordinate system and no
    /// transformation.
    pub fn new(shape: impl Into<Shape>) -> Self {
        Primitive {
            priority: 0,
            coord_system: None,
            transform: Transform::new(),
            shape: shape.into(),
            extra_attributes: Vec::new(),
            extra_elements: Vec::new(),
        }
    }

    /// Builder: sets the priority.
    #[must_use]
    pub fn with_priority(mut self, priority: i32) -> Self {
        self.priority = priority;
        self
    }

    /// Builder: sets the coordinate system the shape's values are written in
    /// (see the [module docs](self#coordinate-systems)).
    #[must_use]
    pub fn with_coord_system(mut self, cs: CoordSystem) -> Self {
        self.coord_system = Some(cs);
        self
    }

    /// Builder: sets the transformation.
    #[must_use]
    pub fn with_transform(mut self, t: Transform) -> Self {
        self.transform = t;
        self
    }

    /// Effective coordinate system given the structure default.
    #[inline]
    pub fn effective_cs(&self, default: CoordSystem) -> CoordSystem {
        self.coord_system.unwrap_or(default)
    }

    /// The shape in local Cartesian form (see [`Shape::to_cartesian`]),
    /// given the structure's default coordinate system.
    pub fn cartesian_shape(&self, default_cs: CoordSystem) -> Cow<'_, Shape> {
        self.shape.to_cartesian(self.effective_cs(default_cs))
    }

    /// Inside test for `p` expressed in `p_cs`, with `default_cs` used when
    /// the primitive does not define its own coordinate system.
    ///
    /// As in CSXCAD, an untransformed box (or multi-box) whose values are in
    /// the query's (cylindrical) coordinate system compares the query
    /// coordinates as given: a negative radius `ρ < 0` is outside a
    /// cylindrical box. Every other shape receives the point converted to
    /// Cartesian coordinates, where `(-ρ, α)` is the same point as
    /// `(ρ, α + π)`.
    pub fn contains_in(&self, p: Vec3, p_cs: CoordSystem, default_cs: CoordSystem) -> bool {
        let scs = self.shape_cs(default_cs);
        if p_cs == scs && scs != CoordSystem::Cartesian && self.transform.is_empty() {
            match &self.shape {
                Shape::Box(b) => return b.inside_native(p, scs),
                Shape::MultiBox(m) => return m.inside_native(p),
                _ => {}
            }
        }
        let mut c = p_cs.to_cartesian(p);
        if !self.transform.is_empty() {
            if !self.transform.is_invertible() {
                return false;
            }
            c = self.transform.apply_inverse(c);
        }
        self.shape.contains_local(c, scs)
    }

    /// The coordinate system in which the shape's values are interpreted:
    /// the effective coordinate system, except for multi-boxes, which always
    /// use the structure's (`default_cs`).
    pub fn shape_cs(&self, default_cs: CoordSystem) -> CoordSystem {
        match self.shape {
            Shape::MultiBox(_) => default_cs,
            _ => self.effective_cs(default_cs),
        }
    }

    /// Inside test for `p` expressed in `p_cs`, for a primitive whose
    /// coordinate system defaults to Cartesian. Inside a structure use
    /// [`Primitive::contains_in`] with the structure's coordinate system, or
    /// the structure's own queries.
    ///
    /// ```
    /// use csx::primitives::{Primitive, Sphere};
    /// use csx::{CoordSystem, Vec3};
    ///
    /// let s = Primitive::new(Sphere::new([0.0, 0.0, 0.0], 1.0));
    /// assert!(s.contains(Vec3::new(0.0, 0.5, 0.5), CoordSystem::Cartesian));
    /// // (ρ, α, z) = (0.5, 1.0, 0.5) is also inside.
    /// assert!(s.contains(Vec3::new(0.5, 1.0, 0.5), CoordSystem::Cylindrical));
    /// ```
    pub fn contains(&self, p: Vec3, p_cs: CoordSystem) -> bool {
        self.contains_in(p, p_cs, CoordSystem::Cartesian)
    }

    /// World-space Cartesian bounding box (after the transformation);
    /// `default_cs` is the structure's coordinate system. Unbounded shapes
    /// return an infinite box and empty shapes [`BoundingBox::EMPTY`].
    ///
    /// ```
    /// use csx::primitives::{Cylinder, Primitive};
    /// use csx::{CoordSystem, Vec3};
    ///
    /// let c = Primitive::new(Cylinder::new([0.0, 0.0, 0.0], [0.0, 0.0, 3.0], 0.5));
    /// let b = c.bounding_box(CoordSystem::Cartesian);
    /// assert_eq!((b.min, b.max), (Vec3::new(-0.5, -0.5, 0.0), Vec3::new(0.5, 0.5, 3.0)));
    /// ```
    pub fn bounding_box(&self, default_cs: CoordSystem) -> BoundingBox {
        let b = self.shape.local_bounding_box(self.shape_cs(default_cs));
        if self.transform.is_empty() || b.is_empty() || !(b.min.is_finite() && b.max.is_finite()) {
            // Unbounded shapes stay unbounded (transforming infinite corners
            // would produce NaN).
            b
        } else {
            b.transformed(self.transform.matrix())
        }
    }

    /// Bounding box expressed in `target` coordinates. For cylindrical
    /// targets the result is `(ρ, α, z)` ranges; it is exact for boxes and
    /// multi-boxes defined in cylindrical coordinates and conservative
    /// otherwise.
    pub fn bounding_box_in(&self, target: CoordSystem, default_cs: CoordSystem) -> BoundingBox {
        let cs = self.shape_cs(default_cs);
        if cs == target
            && self.transform.is_empty()
            && let Some(b) = self.shape.native_bbox()
        {
            // Multi-boxes compare angles without wrapping, so their ranges
            // are kept as written.
            return match target {
                CoordSystem::Cylindrical if matches!(self.shape, Shape::Box(_)) => {
                    normalize_alpha(b)
                }
                _ => b,
            };
        }
        let b = self.bounding_box(default_cs);
        match target {
            CoordSystem::Cartesian => b,
            CoordSystem::Cylindrical => cartesian_bbox_to_cylindrical(&b),
        }
    }

    /// Topological dimension of the shape (0..=3).
    pub fn dimension(&self) -> usize {
        self.shape.dimension()
    }

    /// Re-evaluates parametric values of the shape and the transformation.
    ///
    /// # Errors
    ///
    /// As [`Shape::update`], plus [`Error::Invalid`](crate::Error::Invalid)
    /// for a singular transformation.
    pub fn update(&mut self, p: &ParameterSet) -> Result<()> {
        self.shape.update(p)?;
        self.transform.update(p)
    }
}

/// Shifts the angular range of a cylindrical box so that it starts in
/// `[-π, π)`; ranges of a full turn or more become `[-π, π]`.
fn normalize_alpha(mut b: BoundingBox) -> BoundingBox {
    use core::f64::consts::{PI, TAU};
    if b.is_empty() || !b.min[1].is_finite() || !b.max[1].is_finite() {
        return b;
    }
    if b.max[1] - b.min[1] >= TAU {
        b.min[1] = -PI;
        b.max[1] = PI;
        return b;
    }
    let shift = ((b.min[1] + PI) / TAU).floor() * TAU;
    b.min[1] -= shift;
    b.max[1] -= shift;
    b
}

