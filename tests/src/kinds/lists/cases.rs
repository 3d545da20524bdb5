//! Cases that are kept for what they show. Their answers are written here, not
//! worked out, and so is what they show.

use csx::Vec3;

use super::by_csx::{EQUAL_VOTES, OWN_BOX, THE_SAME, answer};
use super::expected::{LookedAt, Prepared, RULE};
use super::inputs::{ANSWERS, unit_cube};
use super::{Asker, Contains, Subject};
use crate::engine::Point;
use crate::kinds::answer::{INSIDE, OUTSIDE, UNDECIDED};
use crate::kinds::meshes::Mesh;
use crate::kinds::trees::expected::{RULE as BUILDER, build};
use crate::plan::Plan;
use crate::report::{Kind, Report, Value};

/// A point of a mesh of cubes, and its answer.
pub(in crate::kinds) struct Case {
    /// Each cube runs from a number to another along every axis.
    pub cubes: &'static [(f64, f64)],
    pub point: Point,
    pub answer: u64,
    /// What csx's answer is explained by without the feature `port`.
    pub entry: &'static str,
    shows: Shown,
}

/// What is found with the own box of each triangle tested, and without.
#[derive(Clone, Copy, Debug, PartialEq)]
struct Shown {
    own_box: Found,
    no_own_box: Found,
}

/// How many triangles are touched, and the Hits of each ray unless a triangle is
/// Degenerate.
#[derive(Clone, Copy, Debug, PartialEq)]
struct Found {
    touched: usize,
    rays: [Option<usize>; 3],
}

impl Found {
    fn new(rule: &Prepared, p: Vec3, looked_at: LookedAt) -> Self {
        Self {
            touched: rule.touched(&RULE, p, looked_at),
            rays: rule.rays(&RULE, p, looked_at),
        }
    }
}

impl Shown {
    fn new(rule: &Prepared, p: Vec3) -> Self {
        Self {
            own_box: Found::new(rule, p, &|passes| rule.passing(passes)),
            no_own_box: Found::new(rule, p, &|_| rule.all()),
        }
    }

    /// The same with own boxes and without.
    const fn both(touched: usize, rays: [Option<usize>; 3]) -> Self {
        let found = Found { touched, rays };
        Self {
            own_box: found,
            no_own_box: found,
        }
    }
}

impl Value for Shown {
    fn same(self, other: Self) -> bool {
        self == other
    }

    fn text(self) -> String {
        format!("{self:?}")
    }
}

/// The cube from 0 to 1, and cubes of other sizes.
const UNIT: &[(f64, f64)] = &[(0.0, 1.0)];
const TINY: &[(f64, f64)] = &[(0.0, 1e-300)];
const LARGE: &[(f64, f64)] = &[(0.0, 1e105)];
const HUGE: &[(f64, f64)] = &[(0.0, 1e154)];

pub(in crate::kinds) const CASES: [Case; 11] = [
    Case {
        cubes: UNIT,
        point: [0.25, 0.5, 0.625],
        answer: INSIDE,
        entry: THE_SAME,
        shows: Shown::both(0, [Some(1); 3]),
    },
    // all three rays are Degenerate
    Case {
        cubes: UNIT,
        point: [0.6270983168762755, 0.6007282396401701, 0.46938903896831846],
        answer: UNDECIDED,
        entry: EQUAL_VOTES,
        shows: Shown::both(0, [None; 3]),
    },
    // an own box hides a rim
    Case {
        cubes: UNIT,
        point: [0.4278420607314322, 0.8416644844086657, 0.512302273203811],
        answer: INSIDE,
        entry: THE_SAME,
        shows: Shown {
            own_box: Found {
                touched: 0,
                rays: [Some(1); 3],
            },
            no_own_box: Found {
                touched: 0,
                rays: [Some(1), None, Some(1)],
            },
        },
    },
    // so that there is a vote where csx asks for the winding number, which is 2
    Case {
        cubes: &[(0.0, 1.0), (0.25, 1.25)],
        point: [0.368060756846026, 0.6391578410541657, 0.6885702497069145],
        answer: OUTSIDE,
        entry: OWN_BOX,
        shows: Shown {
            own_box: Found {
                touched: 0,
                rays: [None, None, Some(2)],
            },
            no_own_box: Found {
                touched: 0,
                rays: [None; 3],
            },
        },
    },
    // squares vanish: every triangle is at distance 0, and no ray meets any
    Case {
        cubes: TINY,
        point: [2.5e-301, 5e-301, 6.25e-301],
        answer: OUTSIDE,
        entry: OWN_BOX,
        shows: Shown {
            own_box: Found {
                touched: 0,
                rays: [Some(0); 3],
            },
            no_own_box: Found {
                touched: 12,
                rays: [Some(0); 3],
            },
        },
    },
    // on a face
    Case {
        cubes: TINY,
        point: [1e-300, 5e-301, 6.25e-301],
        answer: INSIDE,
        entry: THE_SAME,
        shows: Shown {
            own_box: Found {
                touched: 2,
                rays: [Some(0); 3],
            },
            no_own_box: Found {
                touched: 12,
                rays: [Some(0); 3],
            },
        },
    },
    // fourth powers overflow: a point on a face touches nothing
    Case {
        cubes: LARGE,
        point: [2.5e104, 5e104, 6.25e104],
        answer: INSIDE,
        entry: THE_SAME,
        shows: Shown::both(0, [Some(1); 3]),
    },
    Case {
        cubes: LARGE,
        point: [1e105, 5e104, 6.25e104],
        answer: OUTSIDE,
        entry: THE_SAME,
        shows: Shown::both(0, [Some(0), Some(1), Some(0)]),
    },
    // the norm of the size overflows: box and tolerance are infinite, so that a
    // triangle is touched from everywhere unless its nearest point is a NaN
    Case {
        cubes: HUGE,
        point: [2.5e153, 5e153, 6.25e153],
        answer: OUTSIDE,
        entry: THE_SAME,
        shows: Shown::both(0, [Some(0); 3]),
    },
    Case {
        cubes: HUGE,
        point: [1.05e154, 5e153, 5e153],
        answer: INSIDE,
        entry: THE_SAME,
        shows: Shown::both(4, [Some(0); 3]),
    },
    Case {
        cubes: HUGE,
        point: [f64::MAX, f64::MIN, 0.0],
        answer: INSIDE,
        entry: THE_SAME,
        shows: Shown::both(8, [Some(0); 3]),
    },
];

/// The mesh of these cubes.
pub(in crate::kinds) fn mesh(cubes: &[(f64, f64)]) -> Mesh {
    let mut mesh = Mesh::default();
    for (from, to) in cubes {
        let cube = unit_cube();
        let first = mesh.vertex_count() as u32;
        let edge = |x: &f64| if *x == 0.0 { *from } else { *to };
        mesh.coords.extend(cube.coords.iter().map(edge));
        for face in cube.faces() {
            mesh.push_face(face.iter().map(|v| first + v));
        }
    }
    mesh
}

/// Compares the kept cases, and what they show.
pub fn compare(report: &mut Report, plan: &Plan, contains: Contains) {
    let mut asker = Asker::new(contains, plan, "kept cases");
    let mut shown = Kind::new("lists, kept cases, what they show");
    for case in &CASES {
        let mesh = mesh(case.cubes);
        let subject = Subject::new(&mesh, |own| build(&BUILDER, own).tree);
        asker.ask(&subject, &[case.point], &[case.answer as u8]);
        let p = Vec3(case.point);
        let text = || format!("cubes {:?}, point {p:?}", case.cubes);
        shown.compare_for(Shown::new(&subject.rule, p), case.shows, text);
        if !cfg!(feature = "port") {
            let (_, entry) = answer(&subject.csx, &subject.rule, p, case.answer);
            shown.compare_for(entry == case.entry, true, text);
        }
    }
    asker.add_to(report, ANSWERS, &[THE_SAME, OWN_BOX, EQUAL_VOTES]);
    report.add(shown);
}
