//! Texts at the limits of question 12 and past them, with every room.

use super::expected::{CORNER, Column, LINE, LINES, OF_A_KIND, POINT, TRIANGLE, VERTEX, line};
use super::texts::{EXAMPLE, HIGH, KEPT, points_about, rounded};
use super::{Asker, PointList};
use crate::kinds::meshes::inputs::{on_torus, torus};
use crate::plan::Plan;
use crate::random::Random;
use crate::report::Report;

/// Compares texts at the limits.
pub fn compare(report: &mut Report, plan: &Plan, point_list: PointList) {
    let mut asker = Asker::new(point_list, plan, "limits");
    for text in texts(&mut asker.random) {
        asker.ask_each(&text);
    }
    let needed = ["accepted", "refusal 12", "refusal 4", "refusal 6"];
    asker.line.add_to(report, &needed);
}

/// A text of so many lines of each kind, about a solid of four vertices.
pub(in crate::kinds) fn of_counts(counts: [usize; 3]) -> Vec<u8> {
    let kept = KEPT[0].column();
    let mut column = Column::default();
    for (kind, count) in counts.into_iter().enumerate() {
        column.0[kind] = kept.0[kind].iter().copied().cycle().take(count).collect();
    }
    column.text()
}

/// Texts at the limits, and past them by one.
pub fn texts(random: &mut Random) -> Vec<Vec<u8>> {
    let mut texts = vec![most(random)];
    counts(&mut texts);
    last_lines(&mut texts);
    numbers(&mut texts);
    orders(&mut texts);
    ends(&mut texts);
    texts
}

/// The most triangles and lines that are accepted: a torus, and points about it.
fn most(random: &mut Random) -> Vec<u8> {
    let torus = torus(16, 16, true).mesh_at(|v| on_torus(16, 16, v));
    let mut column = rounded(&torus, HIGH);
    let count = LINES - torus.vertex_count() - torus.triangle_count();
    column.0[POINT] = points_about(&column.mesh(), count, random);
    column.text()
}

/// As many lines of a kind and of all kinds as are accepted, one less and one more.
fn counts(texts: &mut Vec<Vec<u8>>) {
    for count in OF_A_KIND - 1..=OF_A_KIND + 2 {
        let others = [
            [count, 0, 0],
            [0, 0, count],
            [count, 4, 4],
            [4, count, 4],
            [4, 4, count],
        ];
        texts.extend(others.map(of_counts));
    }
    for count in LINES - 1..=LINES + 2 {
        let more = count - OF_A_KIND;
        let most = more.min(OF_A_KIND);
        let others = [
            [OF_A_KIND, most, more - most],
            [OF_A_KIND, more - most, most],
            [count - 1000, 500, 500],
            [400, 400, count - 800],
        ];
        texts.extend(others.map(of_counts));
    }
}

/// What may stand behind as many lines as are accepted.
fn last_lines(texts: &mut Vec<Vec<u8>>) {
    let good = line(POINT, [1; 3]);
    let more = [
        " ",
        "\n",
        "3",
        "\0",
        "x",
        &good[..LINE - 1],
        &good,
        " 9",
        "\r\n",
    ];
    for counts in [[4, 510, 510], [512, 512, 0], [512, 511, 1]] {
        texts.extend(more.map(|more| [&of_counts(counts)[..], more.as_bytes()].concat()));
    }
    // a bad line before the one too many, and behind it
    let mut early = of_counts([400, 400, 225]);
    early[LINE * (LINES - 1)] = b'x';
    let mut late = of_counts([400, 400, 230]);
    late[LINE * (LINES + 2)] = b'x';
    // a line too many of a kind that is also out of order
    let disorder = [
        &of_counts([0, 512, 1])[..],
        line(TRIANGLE, [0; 3]).as_bytes(),
    ]
    .concat();
    texts.extend([early, late, disorder]);
}

/// The largest numbers in each field, and one more.
fn numbers(texts: &mut Vec<Vec<u8>>) {
    let kept = KEPT[0].column();
    let mut ask = |kind: usize, n: i64| {
        for row in 0..2 {
            for field in 0..3 {
                let mut column = kept.clone();
                column.0[kind][row][field] = n;
                texts.push(column.text());
            }
        }
    };
    for kind in [VERTEX, POINT] {
        for n in [HIGH - 1, HIGH, HIGH + 1, 10 * HIGH + 9, 10 * HIGH + 10] {
            ask(kind, n);
            ask(kind, -n);
        }
    }
    // about the number of vertices, and the largest corners
    for n in [-10, -1, 3, 4, 5, CORNER - 1, CORNER, CORNER + 1, 1000, HIGH] {
        ask(TRIANGLE, n);
    }
    // the largest corner with as many vertices
    for vertices in OF_A_KIND - 1..=OF_A_KIND {
        let mut column = kept.clone();
        column.0[VERTEX].resize(vertices, [7; 3]);
        column.0[TRIANGLE].push([CORNER, 0, 1]);
        texts.push(column.text());
        // a bad line behind a corner that is no vertex
        let mut text = column.text();
        text.push(b'x');
        texts.push(text);
    }
}

/// Every order of up to five lines.
fn orders(texts: &mut Vec<Vec<u8>>) {
    for length in 0..6 {
        for code in 0..3usize.pow(length) {
            let kinds = (0..length).map(|k| code / 3usize.pow(k) % 3);
            let text: String = kinds.map(|kind| line(kind, [0; 3])).collect();
            texts.push(text.into_bytes());
        }
    }
}

/// Ends of the text and of its lines.
fn ends(texts: &mut Vec<Vec<u8>>) {
    let example = EXAMPLE.as_bytes();
    texts.extend((0..example.len()).map(|length| example[..length].to_vec()));
    for more in ["\n", " ", "\0", "\r", "\r\n", "\x1A", "\n\n", EXAMPLE] {
        texts.push([example, more.as_bytes()].concat());
    }
    for (from, to) in [
        ("\n", "\r\n"),
        ("\n", "\r"),
        ("\n", "\n\n"),
        ("\n", ""),
        (" ", "\t"),
    ] {
        texts.push(EXAMPLE.replace(from, to).into_bytes());
    }
    texts.push(vec![b' '; LINE]);
    texts.push(vec![b' '; LINE * (LINES + 1)]);
    texts.push(vec![b'\n'; LINES + 1]);
    texts.push(format!("\u{FEFF}{EXAMPLE}").into_bytes());
}

#[cfg(test)]
mod tests {
    use super::super::expected::{RULES, listing};
    use super::*;

    #[test]
    fn the_largest_text_is_accepted_and_has_every_answer() {
        let text = most(&mut Random::new(1));
        let column = RULES.read(&text).expect("a good text");
        assert_eq!(column.0.each_ref().map(Vec::len), [256, 512, 256]);
        let listing = listing(&text).expect("an accepted mesh");
        for answer in ["0\n", "1\n", "2\n"] {
            let rows = listing.chunks(10).skip(1);
            assert!(rows.filter(|row| row.ends_with(answer.as_bytes())).count() > 0);
        }
    }
}
