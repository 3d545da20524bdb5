//! What document 01 says of a list of points, in a few plain lines: questions 8 and
//! 9, and the plain scan with csx's own tests of a box and a triangle. The mesh rule
//! is cut in parts, so that a test can exchange one.

use csx::primitives::polyhedron::{
    RAY_DIRS, RayHit, closest_on_triangle, ray_hits_box, ray_triangle,
};
use csx::{BoundingBox, Vec3};

use crate::engine::Point;
use crate::kinds::answer::{INSIDE, OUTSIDE, UNDECIDED};
use crate::kinds::meshes::Mesh;
use crate::kinds::meshes::expected::{
    Bounds, box_of, closed, code, edge_keys, grown, surface_eps, triangles,
};

/// The most points that are accepted.
pub const POINTS: usize = 65_536;

/// The refusal of a list with so many places for answers by questions 8 and 9, if
/// there is one.
pub fn refusal(points: &[f64], answers: usize) -> Option<u64> {
    let count = points.len() / 3;
    if !points.len().is_multiple_of(3) || count > POINTS || answers != count {
        return Some(code(8, 0));
    }
    let mut points = points.chunks(3);
    points
        .position(|p| !p.iter().all(|x| x.is_finite()))
        .map(|place| code(9, place))
}

/// A box as csx has it.
pub fn csx_box([min, max]: Bounds) -> BoundingBox {
    BoundingBox {
        min: Vec3(min),
        max: Vec3(max),
    }
}

/// A walk's test of a box.
pub type Passes<'a> = &'a dyn Fn(&BoundingBox) -> bool;

/// The triangles that a walk with this test of boxes looks at.
pub type LookedAt<'a> = &'a dyn Fn(Passes) -> Vec<u32>;

/// The parts of the mesh rule.
#[derive(Clone, Copy)]
pub struct Rule {
    /// Whether a point is within the tolerance of a triangle.
    pub touches: fn(Vec3, [Vec3; 3], f64) -> bool,
    /// What a ray from a point finds at a triangle.
    pub ray: fn(Vec3, Vec3, [Vec3; 3]) -> RayHit,
    /// The directions that are tried.
    pub directions: [[f64; 3]; 3],
    /// The answer by the numbers of even and of odd votes.
    pub verdict: fn([usize; 2]) -> u64,
}

/// The mesh rule.
pub const RULE: Rule = Rule {
    touches: |p, [a, b, c], eps| (closest_on_triangle(p, a, b, c) - p).norm() <= eps,
    ray: |p, d, [a, b, c]| ray_triangle(p, d, a, b, c),
    directions: RAY_DIRS,
    verdict: |[even, odd]| match odd {
        _ if odd > even => INSIDE,
        _ if odd < even => OUTSIDE,
        _ => UNDECIDED,
    },
};

/// An accepted mesh as the mesh rule asks about it.
pub struct Prepared {
    /// The corners of each triangle.
    pub triangles: Vec<[Vec3; 3]>,
    /// The own box of each triangle.
    pub own: Vec<BoundingBox>,
    /// The box of all vertices, and the same grown.
    pub bounds: BoundingBox,
    pub grown: BoundingBox,
    pub eps: f64,
    pub closed: bool,
}

impl Prepared {
    pub fn new(mesh: &Mesh) -> Self {
        let corners = |t: [u32; 3]| t.map(|v| mesh.vertex(v));
        let triangles: Vec<_> = triangles(mesh).into_iter().map(corners).collect();
        let own = triangles.iter().map(|t| csx_box(box_of(*t)));
        let found = box_of(mesh.coords.as_chunks().0.iter().copied());
        Self {
            own: own.collect(),
            triangles: triangles.iter().map(|t| t.map(Vec3)).collect(),
            bounds: csx_box(found),
            grown: csx_box(grown(found)),
            eps: surface_eps(found),
            closed: closed(mesh, &edge_keys(mesh)),
        }
    }

    /// The plain scan's answers for points.
    pub fn answers(&self, points: &[Point]) -> Vec<u8> {
        let answer = |p: &Point| self.plain_scan(Vec3(*p)) as u8;
        points.iter().map(answer).collect()
    }

    /// The plain scan: it looks at each triangle whose own box passes.
    pub fn plain_scan(&self, p: Vec3) -> u64 {
        self.answer(&RULE, p, &|passes| self.passing(passes))
    }

    /// The triangles whose own box passes.
    pub fn passing(&self, passes: Passes) -> Vec<u32> {
        let mut triangles = self.all();
        triangles.retain(|t| self.passes(*t, passes));
        triangles
    }

    /// Every triangle.
    pub fn all(&self) -> Vec<u32> {
        (0..self.own.len() as u32).collect()
    }

    /// Whether the own box of this triangle passes.
    pub fn passes(&self, t: u32, passes: Passes) -> bool {
        passes(&self.own[t as usize])
    }

    /// The answer for a point by the mesh rule, which looks at these triangles.
    pub fn answer(&self, rule: &Rule, p: Vec3, looked_at: LookedAt) -> u64 {
        if !self.grown.contains(p) {
            return OUTSIDE;
        }
        if self.touched(rule, p, looked_at) > 0 {
            return INSIDE;
        }
        if !self.closed {
            return OUTSIDE;
        }
        let mut votes = [0, 0];
        for d in rule.directions {
            if let Some(hits) = self.hits(rule, p, Vec3(d), looked_at) {
                votes[hits % 2] += 1;
            }
            if votes.contains(&2) {
                break;
            }
        }
        (rule.verdict)(votes)
    }

    /// How many triangles the point is within the tolerance of.
    pub fn touched(&self, rule: &Rule, p: Vec3, looked_at: LookedAt) -> usize {
        let near = looked_at(&|b| b.expanded(self.eps).contains(p));
        let touches = |t: &&u32| (rule.touches)(p, self.triangles[**t as usize], self.eps);
        near.iter().filter(touches).count()
    }

    /// What each of the rays finds.
    pub fn rays(&self, rule: &Rule, p: Vec3, looked_at: LookedAt) -> [Option<usize>; 3] {
        let hits = |d| self.hits(rule, p, Vec3(d), looked_at);
        rule.directions.map(hits)
    }

    /// The number of Hits of a ray, unless a triangle is Degenerate.
    fn hits(&self, rule: &Rule, p: Vec3, d: Vec3, looked_at: LookedAt) -> Option<usize> {
        let inverse = Vec3(d.0.map(|x| 1.0 / x));
        let mut hits = 0;
        for t in looked_at(&|b| ray_hits_box(p, inverse, b)) {
            match (rule.ray)(p, d, self.triangles[t as usize]) {
                RayHit::Miss => {}
                RayHit::Hit => hits += 1,
                RayHit::Degenerate => return None,
            }
        }
        Some(hits)
    }
}

#[cfg(test)]
mod tests {
    use super::*;
    use crate::kinds::lists::inputs::unit_cube;

    #[test]
    fn lists_are_asked_for_their_lengths_and_then_for_finite_points() {
        let asked = |points: &[f64], answers| refusal(points, answers);
        assert_eq!(asked(&[], 0), None);
        assert_eq!(asked(&[0.5; 6], 2), None);
        assert_eq!(asked(&[0.5; 3 * POINTS], POINTS), None);
        for (numbers, answers) in [(0, 1), (1, 0), (4, 1), (5, 1), (5, 2), (6, 1), (6, 3)] {
            assert_eq!(asked(&vec![0.5; numbers], answers), Some(8_000_000));
        }
        let more = vec![f64::NAN; 3 * (POINTS + 1)];
        assert_eq!(asked(&more, POINTS + 1), Some(8_000_000));
        let mut points = [0.5; 9];
        points[8] = f64::INFINITY;
        assert_eq!(asked(&points, 3), Some(9_000_002));
        points[3] = f64::NAN;
        assert_eq!(asked(&points, 3), Some(9_000_001));
    }

    fn scan(mesh: &Mesh, p: Point) -> u64 {
        Prepared::new(mesh).plain_scan(Vec3(p))
    }

    #[test]
    fn each_step_of_the_rule_is_taken() {
        let mut mesh = unit_cube();
        let far = [0.5, 0.5, 1.0 + 1e-9];
        assert_eq!(scan(&mesh, [0.25, 0.5, 0.625]), INSIDE);
        assert_eq!(scan(&mesh, far), OUTSIDE);
        // on the surface, and as far off as the tolerance reaches
        assert_eq!(scan(&mesh, [0.5, 0.5, 1.0]), INSIDE);
        assert_eq!(scan(&mesh, [0.5, 0.5, 1.0 + 1.7e-12]), INSIDE);
        assert_eq!(scan(&mesh, [0.5, 0.5, 1.0 + 1.8e-12]), OUTSIDE);
        // a vertex that no face has widens the box and the tolerance
        mesh.coords.extend([0.0, 0.0, 1e6]);
        assert_eq!(scan(&mesh, far), INSIDE);
        // without a face there is a surface alone
        let open = mesh.with_faces(mesh.faces().skip(1).map(<[_]>::to_vec));
        assert_eq!(scan(&open, [0.25, 0.5, 0.625]), OUTSIDE);
        assert_eq!(scan(&open, [0.5, 0.5, 1.0]), INSIDE);
    }

    #[test]
    fn no_vertices_hold_no_point() {
        assert_eq!(scan(&Mesh::default(), [0.0; 3]), OUTSIDE);
    }

    #[test]
    fn the_third_direction_decides_only_between_two() {
        let verdicts = [[2, 0], [1, 2], [1, 1], [0, 0], [0, 1]].map(RULE.verdict);
        assert_eq!(verdicts, [OUTSIDE, INSIDE, UNDECIDED, UNDECIDED, INSIDE]);
    }
}
