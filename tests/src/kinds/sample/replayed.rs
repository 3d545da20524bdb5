//! A stand-in for the program `csx_answers`, which calls the engine. Each of its tests
//! can be left out.

use super::check::printed;
use super::record::{
    ANSWERS, BOXES, BUFFERS, COORDS, CORNERS, ENDS, ITEMS, NODES, NONE, PLACES, POINTS, WORK,
};
use crate::engine::lists::List;
use crate::engine::meshes::{Mesh, Welded, from_triangles};
use crate::engine::trees::Tree;
use crate::engine::{Point, Shape, answer, lists as engine_lists, root, trees};
use crate::kinds::lent::Element;

/// What the program looks at.
#[derive(Clone, Copy)]
pub struct Tests {
    /// the number returned
    pub returned: bool,
    /// what the buffers hold after the call
    pub held: bool,
    pub digits: bool,
    /// whether a buffer can hold what is put there before the call, and after it
    pub before: bool,
    pub after: bool,
    pub kinds: bool,
    pub sizes: bool,
    pub end: bool,
}

pub const ALL: Tests = Tests {
    returned: true,
    held: true,
    digits: true,
    before: true,
    after: true,
    kinds: true,
    sizes: true,
    end: true,
};

/// What the program prints for this input.
pub fn replay(tests: &Tests, text: &[u8]) -> String {
    let [mut equal, mut different, mut unreadable] = [0; 3];
    for line in text.split_inclusive(|byte| *byte == b'\n') {
        match record(tests, line) {
            Some(true) => equal += 1,
            Some(false) => different += 1,
            None => {
                unreadable += u64::from(tests.end || line.ends_with(b"\n"));
                break;
            }
        }
    }
    printed(equal, different, unreadable)
}

/// Whether the engine does what a record says, if it can be read.
fn record(tests: &Tests, line: &[u8]) -> Option<bool> {
    let line = line.strip_suffix(b"\n")?;
    let words = line.split(|byte| *byte == b' ');
    let words: Vec<u64> = words
        .map(|word| number(tests, word))
        .collect::<Option<_>>()?;
    let mut rest = &words[..];
    let kind = match *rest.split_off_first()? {
        kind @ 1..=6 => kind,
        _ if tests.kinds => return None,
        _ => 1,
    };
    let sizes = rest.split_off(..BUFFERS)?;
    let size = |size: &u64| match usize::try_from(*size).ok()? {
        size if size <= PLACES => Some(size),
        _ if tests.sizes => None,
        _ => Some(0),
    };
    let sizes: Vec<usize> = sizes.iter().map(size).collect::<Option<_>>()?;
    let before = lists(&mut rest, &sizes)?;
    let returned = *rest.split_off_first()?;
    let after = lists(&mut rest, &sizes)?;
    let mut buffers = Buffers::new(&before);
    if tests.before && buffers.words() != before
        || tests.after && Buffers::new(&after).words() != after
    {
        return None;
    }
    let equal = buffers.call(kind)? == returned || !tests.returned;
    let same = buffers.words() == after || !tests.held;
    Some(equal && same)
}

fn number(tests: &Tests, word: &[u8]) -> Option<u64> {
    let digit = |byte: &u8| byte.is_ascii_digit() || (b'a'..=b'f').contains(byte);
    if word.len() != 16 || tests.digits && !word.iter().all(digit) {
        return None;
    }
    let word = str::from_utf8(word).ok()?;
    let number = u64::from_str_radix(word, 16).unwrap_or(0);
    (number != NONE).then_some(number)
}

/// The next lists of a record, of these sizes.
fn lists<'a>(rest: &mut &'a [u64], sizes: &[usize]) -> Option<Vec<&'a [u64]>> {
    let list = |size: &usize| rest.split_off(..*size);
    sizes.iter().map(list).collect()
}

/// The buffers, those of each type in their order.
struct Buffers {
    floats: [Vec<f64>; 3],
    numbers: [Vec<u32>; 4],
    work: Vec<u64>,
    answers: Vec<u8>,
}

impl Buffers {
    fn new(lists: &[&[u64]]) -> Self {
        fn buffer<T: Element>(list: &[u64]) -> Vec<T> {
            list.iter().map(|word| T::from_bits(*word)).collect()
        }
        Self {
            floats: [COORDS, BOXES, POINTS].map(|place| buffer(lists[place])),
            numbers: [CORNERS, ENDS, NODES, ITEMS].map(|place| buffer(lists[place])),
            work: buffer(lists[WORK]),
            answers: buffer(lists[ANSWERS]),
        }
    }

    /// The words that the buffers hold, and none for a NaN.
    fn words(&self) -> Vec<Vec<u64>> {
        fn words<T: Element>(list: &[T]) -> Vec<u64> {
            list.iter().map(|x| x.bits()).collect()
        }
        let floats = self.floats.each_ref().map(|list| {
            let list = list.iter().filter(|x| !x.is_nan());
            list.map(|x| x.to_bits()).collect()
        });
        let numbers = self.numbers.each_ref().map(|list| words(list));
        let mut all = Vec::from(floats);
        all.extend(numbers);
        all.extend([words(&self.work), words(&self.answers)]);
        all
    }

    /// What the call of a kind returns.
    fn call(&mut self, kind: u64) -> Option<u64> {
        let [coords, boxes, points] = &mut self.floats;
        let [corners, ends, nodes, items] = &mut self.numbers;
        let work = &mut self.work;
        if kind == 1 {
            return shape(work, coords, points);
        }
        if kind == 6 {
            let [x] = coords[..] else {
                return None;
            };
            return Some(root(x).to_bits());
        }
        let mut mesh = Mesh {
            coords,
            corners,
            ends,
        };
        let mut tree = Tree {
            boxes,
            nodes,
            items,
        };
        Some(match kind {
            2 => from_triangles(points, &mut Welded { mesh, sizes: work }),
            3 => trees::build(&mut mesh, &mut tree),
            4 => trees::check(&mut mesh, &mut tree, work),
            _ => {
                let answers = &mut self.answers;
                engine_lists::contains(&mut mesh, &mut tree, work, &mut List { points, answers })
            }
        })
    }
}

/// The answer to a shape question: the form and the normal direction, the numbers of
/// the shape and the point, and the list.
fn shape(work: &[u64], coords: &[f64], list: &mut [f64]) -> Option<u64> {
    let [form, normal] = *work else {
        return None;
    };
    let [a, b, c, d, e, f, g, h, x, y, z] = *coords else {
        return None;
    };
    let (p, q): (Point, Point) = ([a, b, c], [d, e, f]);
    let shape = match form {
        1 => Shape::Box(p, q),
        2 => Shape::CylindricalBox(p, q),
        3 => Shape::MultiBox,
        4 => Shape::Sphere(p, d),
        5 => Shape::SphericalShell(p, d, e),
        6 => Shape::Cylinder(p, q, g),
        7 => Shape::CylindricalShell(p, q, g, h),
        8 => Shape::Polygon(normal, a),
        9 => Shape::LinPoly(normal, a, b),
        10 => Shape::Curve,
        11 => Shape::Wire(a),
        12 => Shape::Point(p),
        _ => return None,
    };
    Some(answer(&shape, list, [x, y, z]))
}
