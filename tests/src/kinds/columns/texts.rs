//! Texts to ask about: kept ones, random ones that are accepted, and what can be
//! wrong with a text.

use super::expected::{COORDINATE, CORNER, Column, LINE, POINT, Row, TRIANGLE, VERTEX, line};
use crate::kinds::lists::expected::Prepared;
use crate::kinds::lists::inputs::SORTS;
use crate::kinds::lists::points::points;
use crate::kinds::meshes::Mesh;
use crate::kinds::meshes::expected::triangles;
use crate::kinds::meshes::inputs::pick;
use crate::random::Random;

/// Document 01's example, and what it prints.
pub const EXAMPLE: &str = " 1          0          0          0
 1       1000          0          0
 1          0       1000          0
 1          0          0       1000
 2          0          2          1
 2          0          1          3
 2          0          3          2
 2          1          2          3
 3        100        100        100
 3       2000          0          0
 3          0          0          0
 3        900        900        900
";
pub const EXAMPLE_LISTING: &str = "  0     0
     0  1
     1  0
     2  1
     3  0
";

/// A text that is kept for what it has, by its rows of each kind.
pub struct Kept {
    pub name: &'static str,
    rows: [&'static [Row]; 3],
}

impl Kept {
    pub fn column(&self) -> Column {
        Column(self.rows.map(<[_]>::to_vec))
    }
}

/// The faces of a solid of four vertices.
const FOUR: &[Row] = &[[0, 2, 1], [0, 1, 3], [0, 3, 2], [1, 2, 3]];

/// The largest number and the least.
pub const HIGH: i64 = COORDINATE;
pub const LOW: i64 = -COORDINATE;

pub const KEPT: [Kept; 11] = [
    Kept {
        name: "document 01's example",
        rows: [
            &[[0, 0, 0], [1000, 0, 0], [0, 1000, 0], [0, 0, 1000]],
            FOUR,
            &[[100; 3], [2000, 0, 0], [0; 3], [900; 3]],
        ],
    },
    Kept {
        name: "a line of each kind",
        rows: [&[[0; 3]], &[[0; 3]], &[[0; 3]]],
    },
    Kept {
        name: "negative numbers",
        rows: [
            &[[-7, -20, -4], [31, -2, -15], [-8, 25, -6], [-1, -3, 19]],
            FOUR,
            &[[-7, -20, -4], [0, 0, -1], [-31, -2, 3]],
        ],
    },
    Kept {
        name: "the largest numbers",
        rows: [
            &[
                [LOW, LOW, LOW],
                [HIGH, LOW, LOW],
                [LOW, HIGH, LOW],
                [LOW, LOW, HIGH],
            ],
            FOUR,
            &[
                [LOW, LOW, 0],
                [HIGH, HIGH, HIGH],
                [-1, 1_000_000_000, -2_147_483_649],
            ],
        ],
    },
    Kept {
        name: "no points",
        rows: [
            &[[0, 0, 0], [9, 0, 0], [0, 9, 0]],
            &[[0, 1, 2], [2, 1, 0]],
            &[],
        ],
    },
    Kept {
        name: "no triangles",
        rows: [&[[1, 2, 3], [40, 50, 60]], &[], &[[1, 2, 3], [20, 30, 40]]],
    },
    Kept {
        name: "points alone",
        rows: [&[], &[], &[[0; 3], [-5, 12_345, 678]]],
    },
    Kept {
        name: "triangles alone",
        rows: [&[], &[[0; 3]], &[]],
    },
    Kept {
        name: "corners past the vertices",
        rows: [
            &[[0; 3]],
            &[[0; 3], [10, 99, 1], [CORNER, 100, 499]],
            &[[0; 3]],
        ],
    },
    Kept {
        name: "repeated corners",
        rows: [
            &[[0, 0, 0], [8, 0, 0]],
            &[[0, 1, 1], [0, 0, 1]],
            &[[4, 0, 0]],
        ],
    },
    Kept {
        name: "an empty text",
        rows: [&[], &[], &[]],
    },
];

/// How many sorts of meshes are of everyday size and can be rounded.
const ROUNDED: usize = 5;

/// The most vertices and triangles of a random text.
const SMALL: usize = 128;

/// What an accepted text holds: a small mesh in whole numbers up to this one, and so
/// many points about it.
pub fn column(largest: i64, count: usize, random: &mut Random) -> Column {
    let mut column = rounded(&small_mesh(random), largest);
    if random.below(8) == 0 {
        let unused = |()| random.below(2 * largest as u64 + 1) as i64 - largest;
        column.0[VERTEX].push([(); 3].map(unused));
    }
    column.0[POINT] = points_about(&column.mesh(), count, random);
    column
}

/// The triangles of a mesh, in whole numbers up to this one.
pub fn rounded(mesh: &Mesh, largest: i64) -> Column {
    let size = mesh.coords.iter().fold(0.0, |m: f64, x| m.max(x.abs()));
    let scaled = |x: f64| (x / size * largest as f64).round() as i64;
    let vertices = mesh.coords.as_chunks().0.iter();
    let faces = triangles(mesh).into_iter();
    Column([
        vertices.map(|v: &[f64; 3]| v.map(scaled)).collect(),
        faces.map(|t| t.map(i64::from)).collect(),
        Vec::new(),
    ])
}

/// So many points about a mesh, in whole numbers.
pub fn points_about(mesh: &Mesh, count: usize, random: &mut Random) -> Vec<Row> {
    let points = points(mesh, &Prepared::new(mesh), count, random).into_iter();
    points.map(|p| p.map(|x| whole(x.round() as i64))).collect()
}

/// A mesh of everyday size.
fn small_mesh(random: &mut Random) -> Mesh {
    loop {
        let mesh = (SORTS[pick(ROUNDED, random)].mesh)(random);
        if mesh.vertex_count() <= SMALL && mesh.triangle_count() <= SMALL {
            return mesh;
        }
    }
}

/// The number, or the nearest that is accepted.
fn whole(x: i64) -> i64 {
    x.clamp(LOW, HIGH)
}

/// What a short text holds, of numbers of any size.
pub fn any_column(random: &mut Random) -> Column {
    let largest = random.up_to_digits(33) as i64;
    let count = pick(6, random);
    let mut column = column(whole(largest), count, random);
    match random.below(8) {
        0 => column.0[TRIANGLE].clear(),
        1 => column.0[POINT].clear(),
        2 => column.0[..POINT].fill(Vec::new()),
        _ => {}
    }
    column
}

/// A change of a text, which mostly makes it one to refuse.
type Change = fn(&mut Vec<u8>, &mut Random);

const CHANGES: [Change; 6] = [
    byte,
    lines,
    |text, random| field(text, random),
    |text, random| kind(text, random),
    end,
    |text, random| corner(text, random),
];

/// Makes up to this many changes.
pub fn change(text: &mut Vec<u8>, most: u64, random: &mut Random) {
    for _ in 0..random.below(most + 1) {
        CHANGES[pick(CHANGES.len(), random)](text, random);
    }
}

/// Bytes that could be taken for a part of a line, and neighbours of those that are.
const BYTES: &[u8] = b" -+0123456789/:.,\t\r\n\0\x0B\x0Cae\x1F!\xA0\xB0\x80\xFF";

/// A byte replaced, inserted or removed.
fn byte(text: &mut Vec<u8>, random: &mut Random) {
    let place = pick(text.len() + 1, random);
    let byte = match random.flip() {
        true => BYTES[pick(BYTES.len(), random)],
        false => random.bits() as u8,
    };
    let more: &[u8] = match random.below(4) {
        0 => &[],
        _ => &[byte],
    };
    let end = match random.below(4) {
        0 => place,
        _ => text.len().min(place + 1),
    };
    text.splice(place..end, more.iter().copied());
}

/// Two lines exchanged, or a line repeated, left out or emptied.
fn lines(text: &mut Vec<u8>, random: &mut Random) {
    let mut lines: Vec<Vec<u8>> = text.chunks(LINE).map(<[_]>::to_vec).collect();
    if lines.is_empty() {
        return;
    }
    let (a, b) = (pick(lines.len(), random), pick(lines.len(), random));
    match random.below(4) {
        0 => lines.swap(a, b),
        1 => lines.insert(a, lines[b].clone()),
        2 => {
            lines.remove(a);
        }
        _ => lines.insert(a, b"\n".to_vec()),
    }
    *text = lines.concat();
}

/// A number in another form, which is mostly no good one.
fn field(text: &mut [u8], random: &mut Random) {
    let n = whole(random.up_to_digits(34) as i64 >> random.below(34));
    let n = if random.flip() { -n } else { n };
    let form = match random.below(16) {
        0 => format!("{n:<11}"),
        1 => format!("{n:^11}"),
        2 => format!("{n:011}"),
        3 => format!("{n:>+11}"),
        4 => format!("{:>11}", format!("-{n}")),
        5 => format!("{:>11}", format!("0{n}")),
        6 => format!("-{:>10}", n.abs()),
        7 => format!("{:>11}", format!("{n}.")),
        8 => format!("{:>11}", "-0"),
        9 => format!(
            "{:>11}",
            ["", "-", "1e3", "0x1", "1_0", "inf"][pick(6, random)]
        ),
        10 => format!("{:>11}", [HIGH, HIGH + 1, LOW, LOW - 1][pick(4, random)]),
        11 => format!("{:>11}", [CORNER, CORNER + 1, -1, 0][pick(4, random)]),
        12 => format!("{:>11}", 10 * HIGH + 9),
        _ => format!("{n:>11}"),
    };
    let place = 2 + 11 * pick(3, random);
    write(text, place, form.as_bytes(), random);
}

/// Another kind, or one in another form.
fn kind(text: &mut [u8], random: &mut Random) {
    const KINDS: [&str; 15] = [
        " 1", " 2", " 3", " 0", " 4", " 9", "1 ", "01", "10", "11", "-1", "+1", "\t1", "  ", "- ",
    ];
    let kind = KINDS[pick(KINDS.len(), random)];
    write(text, 0, kind.as_bytes(), random);
}

/// Writes at this place of a line.
fn write(text: &mut [u8], place: usize, bytes: &[u8], random: &mut Random) {
    let line = pick(text.len() / LINE + 1, random);
    let start = LINE * line + place;
    if let Some(there) = text.get_mut(start..start + bytes.len()) {
        there.copy_from_slice(bytes);
    }
}

/// Another end of the text or of its lines.
fn end(text: &mut Vec<u8>, random: &mut Random) {
    match random.below(8) {
        0 => text.truncate(pick(text.len() + 1, random)),
        1 => {
            text.pop();
        }
        2 => text.extend(b"\n"),
        3 => text.extend(b"\r\n"),
        4 => text.push(BYTES[pick(BYTES.len(), random)]),
        5 => {
            let ends = text.iter_mut().filter(|b| **b == b'\n');
            ends.for_each(|b| *b = b'\r');
        }
        6 => {
            *text = text
                .split(|b| *b == b'\n')
                .collect::<Vec<_>>()
                .join(&b"\r\n"[..])
        }
        _ => text.extend(line(pick(3, random), [0; 3]).bytes()),
    }
}

/// A corner about the number of vertices.
fn corner(text: &mut [u8], random: &mut Random) {
    let is = |kind: u8| move |line: &&[u8]| line.starts_with(&[b' ', kind]);
    let vertices = text.chunks(LINE).filter(is(b'1')).count() as u64;
    let faces = text.chunks(LINE).filter(is(b'2')).count();
    if faces > 0 {
        let face = vertices as usize + pick(faces, random);
        let start = LINE * face + 2 + 11 * pick(3, random);
        let corner = format!("{:>11}", (vertices + random.below(3)).saturating_sub(1));
        if let Some(there) = text.get_mut(start..start + 11) {
            there.copy_from_slice(corner.as_bytes());
        }
    }
}

#[cfg(test)]
mod tests {
    use super::super::expected::{RULES, listing};
    use super::*;

    #[test]
    fn the_example_is_document_01s() {
        assert_eq!(KEPT[0].column().text(), EXAMPLE.as_bytes());
    }

    #[test]
    fn random_texts_are_accepted() {
        let mut random = Random::new(1);
        for _ in 0..500 {
            let column = any_column(&mut random);
            assert_eq!(RULES.read(&column.text()), Ok(column.clone()));
            assert!(listing(&column.text()).is_ok());
        }
    }

    #[test]
    fn each_change_makes_some_texts_bad() {
        let mut random = Random::new(1);
        for change in CHANGES {
            let mut refused = 0;
            for _ in 0..500 {
                let mut text = any_column(&mut random).text();
                change(&mut text, &mut random);
                refused += u32::from(listing(&text).is_err());
            }
            assert!(refused > 50, "{refused}");
        }
    }
}
