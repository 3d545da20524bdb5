//! The shape questions: every shape against csx, the refusals against document
//! 01, and document 01's own cases.

mod basic;
pub mod cases;
pub(super) mod changes;
mod curve;
pub mod edges;
pub mod expected;
pub mod hypot;
mod numbers;
mod poly;
pub mod refusals;
pub(super) mod turns;
#[cfg(test)]
mod wrong_engines;

use csx::CoordSystem;

use self::expected::{Csx, refusal};
use super::answer::{Answer, INSIDE, OUTSIDE};
use super::lent::{Lent, cut};
use super::turns::with_coordinate;
use crate::engine::{Point, Shape};
use crate::random::Random;
use crate::report::{self, Kind};

/// The function under test, as `engine::answer` is.
pub type Engine = fn(&Shape, &mut [f64], Point) -> u64;

/// A shape, the list that is lent for it, and points to ask about.
#[derive(Clone)]
pub(super) struct Case {
    pub shape: Shape,
    pub list: Vec<f64>,
    pub points: Vec<Point>,
}

impl Case {
    /// The numbers of the shape and of its list.
    pub(super) fn numbers_mut(&mut self) -> impl Iterator<Item = &mut f64> {
        self.shape.numbers_mut().into_iter().chain(&mut self.list)
    }

    /// The case with `x` for the number at this place.
    fn with_number(&self, place: usize, x: f64) -> Self {
        let mut case = self.clone();
        if let Some(number) = case.numbers_mut().nth(place) {
            *number = x;
        }
        case
    }
}

/// A shape that is asked about: how its cases are made, and how csx is asked.
pub(super) struct Form {
    pub name: &'static str,
    /// The system of the shape's and the points' coordinates.
    pub system: CoordSystem,
    /// How many numbers an entry of its list has, or 0 if it has no list.
    pub width: usize,
    /// Whether any point can be inside.
    pub solid: bool,
    /// A random case, mostly of everyday size, with this many entries in its
    /// list.
    pub case: fn(&mut Random, usize) -> Case,
}

/// Every shape. A multi-box is asked about in both systems: it compares its
/// numbers as they are, so its answer has to be the same.
pub(super) const FORMS: [Form; 13] = [
    Form {
        name: "box",
        system: CoordSystem::Cartesian,
        width: 0,
        solid: true,
        case: |random, _| basic::cartesian_box(random),
    },
    Form {
        name: "cylindrical box",
        system: CoordSystem::Cylindrical,
        width: 0,
        solid: true,
        case: |random, _| basic::cylindrical_box(random),
    },
    Form {
        name: "multi-box",
        system: CoordSystem::Cartesian,
        width: 6,
        solid: true,
        case: basic::multi_box,
    },
    Form {
        name: "multi-box, cylindrical",
        system: CoordSystem::Cylindrical,
        width: 6,
        solid: true,
        case: basic::multi_box,
    },
    Form {
        name: "sphere",
        system: CoordSystem::Cartesian,
        width: 0,
        solid: true,
        case: |random, _| basic::sphere(random),
    },
    Form {
        name: "spherical shell",
        system: CoordSystem::Cartesian,
        width: 0,
        solid: true,
        case: |random, _| basic::spherical_shell(random),
    },
    Form {
        name: "cylinder",
        system: CoordSystem::Cartesian,
        width: 0,
        solid: true,
        case: |random, _| basic::cylinder(random),
    },
    Form {
        name: "cylindrical shell",
        system: CoordSystem::Cartesian,
        width: 0,
        solid: true,
        case: |random, _| basic::cylindrical_shell(random),
    },
    Form {
        name: "polygon",
        system: CoordSystem::Cartesian,
        width: 2,
        solid: true,
        case: poly::polygon,
    },
    Form {
        name: "extruded polygon",
        system: CoordSystem::Cartesian,
        width: 2,
        solid: true,
        case: poly::lin_poly,
    },
    Form {
        name: "curve",
        system: CoordSystem::Cartesian,
        width: 3,
        solid: false,
        case: curve::curve,
    },
    Form {
        name: "wire",
        system: CoordSystem::Cartesian,
        width: 3,
        solid: true,
        case: curve::wire,
    },
    Form {
        name: "point",
        system: CoordSystem::Cartesian,
        width: 0,
        solid: false,
        case: |random, _| curve::point(random),
    },
];

/// The shape of the table with this name.
pub(super) fn form(name: &str) -> &'static Form {
    let form = FORMS.iter().find(|form| form.name == name);
    form.expect("a shape of the table")
}

impl Form {
    /// The answers that its cases have to see.
    fn answers(&self) -> &'static [u64] {
        if self.solid {
            &[OUTSIDE, INSIDE]
        } else {
            &[OUTSIDE]
        }
    }
}

/// A line of the table.
type Line = report::Line<Answer>;

/// The question as it is printed.
pub(super) fn question(shape: &Shape, list: &[f64], point: Point) -> String {
    format!("{shape:?}, list {}, point {point:?}", cut(list))
}

/// The function under test, and what it did with the lists.
struct Asker {
    engine: Engine,
    lists: Kind,
}

impl Asker {
    fn new(engine: Engine, name: &str) -> Self {
        Self {
            engine,
            lists: Kind::new(name),
        }
    }

    /// Asks about a point. The guards of a list are NaNs, so an engine that reads
    /// past it takes it for a list with a NaN.
    fn ask(
        &mut self,
        line: &mut Line,
        shape: &Shape,
        lent: &mut Lent<f64>,
        point: Point,
        want: u64,
    ) {
        let got = (self.engine)(shape, lent.list(), point);
        let input = || question(shape, lent.before(), point);
        line.kind.compare_for(Answer(got), Answer(want), input);
        line.see(want);
        if !lent.before().is_empty() {
            let unchanged = lent.wrong("list", &[]).is_none();
            self.lists.compare_for(unchanged, true, input);
        }
    }

    /// Asks about each point of a case, and gives the answers that are expected.
    fn ask_case(&mut self, line: &mut Line, form: &Form, case: &Case) -> Vec<u64> {
        let Case {
            shape,
            list,
            points,
        } = case;
        let csx = Csx::new(shape, list, form.system);
        let mut lent = Lent::new(list);
        let answer = |point| {
            let want = refusal(shape, list, point).unwrap_or_else(|| csx.inside(point).into());
            self.ask(line, shape, &mut lent, point, want);
            want
        };
        points.iter().copied().map(answer).collect()
    }
}

#[cfg(test)]
mod tests {
    use super::*;

    /// An engine that is right.
    pub fn right(shape: &Shape, list: &mut [f64], point: Point) -> u64 {
        refusal(shape, list, point).unwrap_or_else(|| csx_answer(shape, list, point))
    }

    fn csx_answer(shape: &Shape, list: &[f64], point: Point) -> u64 {
        let system = match shape {
            Shape::CylindricalBox(..) => CoordSystem::Cylindrical,
            _ => CoordSystem::Cartesian,
        };
        Csx::new(shape, list, system).inside(point).into()
    }

    #[test]
    fn questions_are_printed() {
        let text = question(&Shape::Wire(0.5), &[1.0; 25], [0.0; 3]);
        assert!(text.starts_with("Wire(0.5), list [1.0, "));
        assert!(text.ends_with("1.0] and on to 25 elements, point [0.0, 0.0, 0.0]"));
    }
}
