//! What document 01 says of column texts, in a few plain lines: which line is the
//! first bad one, what a text holds, and its listing. A field is judged by writing
//! its number again: it is well formed if that gives the same field. The rules of
//! lines are cut in parts, so that a test can exchange one.

use std::ops::RangeInclusive;

use crate::engine::{Point, REFUSAL};
use crate::kinds::lists::expected::Prepared;
use crate::kinds::meshes::Mesh;
use crate::kinds::meshes::expected::{code, refusal};

/// The kinds, as places in what a text holds.
pub const VERTEX: usize = 0;
pub const TRIANGLE: usize = 1;
pub const POINT: usize = 2;

/// The most lines that are accepted, and the most of a kind.
pub const LINES: usize = 1024;
pub const OF_A_KIND: usize = 512;

/// The largest coordinate and the largest corner that are accepted.
pub const COORDINATE: i64 = 9_999_999_999;
pub const CORNER: i64 = 511;

/// How many bytes a line has.
pub const LINE: usize = 36;

/// The three numbers of a line.
pub type Row = [i64; 3];

/// What a text holds: the rows of each kind.
#[derive(Clone, Debug, Default, PartialEq)]
pub struct Column(pub [Vec<Row>; 3]);

/// A line of this kind.
pub fn line(kind: usize, [x, y, z]: Row) -> String {
    format!("{:>2}{x:>11}{y:>11}{z:>11}\n", kind + 1)
}

impl Column {
    /// The text that holds this.
    pub fn text(&self) -> Vec<u8> {
        let lines = |kind: usize| self.0[kind].iter().map(move |row| line(kind, *row));
        let text: String = [VERTEX, TRIANGLE, POINT]
            .into_iter()
            .flat_map(lines)
            .collect();
        text.into_bytes()
    }

    pub fn mesh(&self) -> Mesh {
        let mut mesh = Mesh {
            coords: floats(&self.0[VERTEX]).concat(),
            ..Mesh::default()
        };
        for row in &self.0[TRIANGLE] {
            mesh.push_face(row.map(|v| v as u32));
        }
        mesh
    }

    pub fn points(&self) -> Vec<Point> {
        floats(&self.0[POINT])
    }
}

/// Nanometre counts become floats unchanged.
fn floats(rows: &[Row]) -> Vec<Point> {
    rows.iter().map(|row| row.map(|x| x as f64)).collect()
}

/// The parts of the rules of lines.
#[derive(Clone)]
pub struct Rules {
    /// The fields of a line: its kind and three numbers.
    pub fields: fn(&[u8]) -> Option<[&[u8]; 4]>,
    /// The number that a field writes.
    pub number: fn(&[u8]) -> Option<i64>,
    /// The numbers that a line of this kind may have.
    pub range: fn(usize) -> RangeInclusive<i64>,
    /// The most lines, and the most of a kind.
    pub lines: usize,
    pub of_a_kind: usize,
    /// Whether a line of this kind may follow what was read so far.
    pub follows: fn(&Column, usize) -> bool,
}

/// The rules of lines.
pub const RULES: Rules = Rules {
    fields,
    number,
    range: |kind| match kind {
        TRIANGLE => 0..=CORNER,
        _ => -COORDINATE..=COORDINATE,
    },
    lines: LINES,
    of_a_kind: OF_A_KIND,
    follows: |column, kind| column.0[kind + 1..].iter().all(|rows| rows.is_empty()),
};

/// A line is 35 bytes and a line feed.
fn fields(line: &[u8]) -> Option<[&[u8]; 4]> {
    let line = line.strip_suffix(b"\n")?;
    (line.len() == LINE - 1).then(|| [&line[..2], &line[2..13], &line[13..24], &line[24..]])
}

/// A field is its number, right-justified.
pub fn number(field: &[u8]) -> Option<i64> {
    let text = str::from_utf8(field).ok()?;
    let number: i64 = text.trim_start_matches(' ').parse().ok()?;
    let width = field.len();
    (format!("{number:>width$}") == text).then_some(number)
}

impl Rules {
    /// The kind and the numbers of a line, if it is well formed.
    fn row(&self, line: &[u8]) -> Option<(usize, Row)> {
        let [kind, x, y, z] = (self.fields)(line)?;
        let kind = match (self.number)(kind)? {
            1 => VERTEX,
            2 => TRIANGLE,
            3 => POINT,
            _ => return None,
        };
        let row = [(self.number)(x)?, (self.number)(y)?, (self.number)(z)?];
        let range = (self.range)(kind);
        row.iter().all(|n| range.contains(n)).then_some((kind, row))
    }

    /// What a text holds, or its first bad line, counted from 1.
    pub fn read(&self, text: &[u8]) -> Result<Column, usize> {
        let mut column = Column::default();
        for (place, line) in (1..).zip(text.split_inclusive(|b| *b == b'\n')) {
            let (kind, row) = self.row(line).ok_or(place)?;
            if place > self.lines
                || column.0[kind].len() == self.of_a_kind
                || !(self.follows)(&column, kind)
            {
                return Err(place);
            }
            column.0[kind].push(row);
        }
        Ok(column)
    }
}

/// What is said of an accepted text: `answers` has one for each point.
pub fn listed(answers: &[u8]) -> Vec<u8> {
    let row = |(point, answer)| format!("{point:>6}{answer:>3}\n");
    let rows: String = answers.iter().enumerate().map(row).collect();
    (header(0) + &rows).into_bytes()
}

/// The first line of what is said: the number and the place of a refusal, or 0.
fn header(refusal: u64) -> String {
    format!("{:>3}{:>6}\n", refusal / REFUSAL, refusal % REFUSAL)
}

/// The listing of a text, or the refusal by question 12 or by one of the mesh.
pub fn listing(text: &[u8]) -> Result<Vec<u8>, u64> {
    let column = RULES.read(text).map_err(|place| code(12, place))?;
    let mesh = column.mesh();
    match refusal(&mesh) {
        Some(refusal) => Err(refusal),
        None => Ok(listed(&Prepared::new(&mesh).answers(&column.points()))),
    }
}

/// What the program prints for a text.
pub fn printed(text: &[u8]) -> Vec<u8> {
    listing(text).unwrap_or_else(|refusal| header(refusal).into_bytes())
}

#[cfg(test)]
mod tests {
    use super::*;
    use crate::kinds::columns::texts::{EXAMPLE, EXAMPLE_LISTING};

    fn read(text: &str) -> Result<Column, usize> {
        RULES.read(text.as_bytes())
    }

    #[test]
    fn the_example_has_its_listing() {
        assert_eq!(listing(EXAMPLE.as_bytes()), Ok(EXAMPLE_LISTING.into()));
        assert_eq!(printed(EXAMPLE.as_bytes()), EXAMPLE_LISTING.as_bytes());
        assert_eq!(printed(b""), b"  0     0\n");
    }

    #[test]
    fn a_text_is_written_as_it_is_read() {
        let column = read(EXAMPLE).expect("a good text");
        assert_eq!(column.0.each_ref().map(Vec::len), [4, 4, 4]);
        assert_eq!(column.text(), EXAMPLE.as_bytes());
        let mesh = column.mesh();
        assert_eq!(mesh.coords[..6], [0.0, 0.0, 0.0, 1000.0, 0.0, 0.0]);
        assert_eq!(mesh.corners[..6], [0, 2, 1, 0, 1, 3]);
        assert_eq!(mesh.ends, [3, 6, 9, 12]);
        assert_eq!(column.points()[3], [900.0; 3]);
    }

    /// Blanks, and then a zero, or a minus if there is one and digits of which the
    /// first is no zero.
    fn is_number(field: &[u8]) -> bool {
        let mut rest = field;
        while let [b' ', more @ ..] = rest {
            rest = more;
        }
        if rest == b"0" {
            return true;
        }
        if let [b'-', more @ ..] = rest {
            rest = more;
        }
        matches!(rest, [b'1'..=b'9', ..]) && rest.iter().all(u8::is_ascii_digit)
    }

    #[test]
    fn a_field_is_a_number_if_its_number_is_written_so() {
        let bytes = b" -+019/:\t.x\xB1";
        let count = bytes.len();
        let mut numbers = 0;
        for code in 0..count.pow(4) {
            let field = [0, 1, 2, 3].map(|k| bytes[code / count.pow(k) % count]);
            assert_eq!(number(&field).is_some(), is_number(&field), "{field:?}");
            numbers += u32::from(is_number(&field));
        }
        // 0, one to four digits, and one to three behind a minus
        assert_eq!(numbers, 1 + (2 + 6 + 18 + 54) + (2 + 6 + 18));
        assert_eq!(number(b"-9999999999"), Some(-COORDINATE));
        assert_eq!(number(b"          7"), Some(7));
    }

    #[test]
    fn numbers_are_asked_for_their_range() {
        let place = |kind, x| RULES.read(line(kind, [x, 0, 0]).as_bytes()).err();
        for kind in [VERTEX, POINT] {
            assert_eq!(place(kind, COORDINATE), None);
            assert_eq!(place(kind, -COORDINATE), None);
            assert_eq!(place(kind, COORDINATE + 1), Some(1));
            assert_eq!(place(kind, -COORDINATE - 1), Some(1));
        }
        assert_eq!(place(TRIANGLE, 0), None);
        assert_eq!(place(TRIANGLE, CORNER), None);
        assert_eq!(place(TRIANGLE, CORNER + 1), Some(1));
        assert_eq!(place(TRIANGLE, -1), Some(1));
    }

    #[test]
    fn the_first_bad_line_is_the_place() {
        assert_eq!(read("\n"), Err(1));
        assert_eq!(read(&EXAMPLE[..EXAMPLE.len() - 1]), Err(12));
        assert_eq!(read(&format!("{EXAMPLE}\n")), Err(13));
        assert_eq!(read(&EXAMPLE.replace('\n', "\r\n")), Err(1));
        assert_eq!(read(&EXAMPLE.replacen(" 2", " 4", 1)), Err(5));
        let again = format!("{EXAMPLE}{}", line(TRIANGLE, [0; 3]));
        assert_eq!(read(&again), Err(13));
    }

    #[test]
    fn lines_are_counted() {
        let rows = |counts: [usize; 3]| {
            let text = Column(counts.map(|count| vec![[0; 3]; count])).text();
            RULES.read(&text).err()
        };
        assert_eq!(rows([512, 512, 0]), None);
        assert_eq!(rows([512, 0, 512]), None);
        assert_eq!(rows([513, 0, 0]), Some(513));
        assert_eq!(rows([9, 513, 9]), Some(522));
        assert_eq!(rows([0, 0, 514]), Some(513));
        assert_eq!(rows([400, 400, 224]), None);
        assert_eq!(rows([400, 400, 225]), Some(1025));
    }

    #[test]
    fn the_mesh_is_asked_after_every_line() {
        let mut text = line(VERTEX, [0; 3]) + &line(TRIANGLE, [0; 3]);
        text += &line(TRIANGLE, [0, 0, 1]);
        assert_eq!(listing(text.as_bytes()), Err(4_000_001));
        assert_eq!(printed(text.as_bytes()), b"  4     1\n");
        text += "x";
        assert_eq!(listing(text.as_bytes()), Err(12_000_004));
        assert_eq!(printed(text.as_bytes()), b" 12     4\n");
    }
}
