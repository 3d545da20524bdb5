//! The table of all ratios, and how times grow with the mesh.

/// The ratio of two times of one run, both in seconds.
pub struct Row<'a> {
    pub what: &'a str,
    pub inputs: &'a str,
    pub engine: f64,
    /// What the engine is compared with, and its time.
    pub beside: &'a str,
    pub other: f64,
    /// How many times as long the engine may take.
    pub most: Option<f64>,
}

/// How something was timed on meshes, from the smallest on.
pub struct Growth<'a> {
    pub what: &'a str,
    pub triangles: Vec<usize>,
    /// The times of the engine and of csx.
    pub times: Vec<[f64; 2]>,
}

/// The lines of the two tables that are printed last.
#[derive(Default)]
pub struct Table {
    ratios: Vec<String>,
    growth: Vec<String>,
    failed: bool,
}

impl Table {
    /// Prints the times, and says so if the engine takes too long.
    pub fn add(&mut self, row: &Row) {
        let ratio = row.engine / row.other;
        println!("{}, {}", row.what, row.inputs);
        print_time("engine", row.engine);
        print_time(row.beside, row.other);
        println!("  the engine takes {} times as long", digits(ratio));
        let limit = row.most.map_or(String::new(), digits);
        self.ratios.push(format!(
            "| {} | {} | {} | {} | {limit} |",
            row.what,
            row.inputs,
            row.beside,
            digits(ratio)
        ));
        self.in_time(row.most.is_none_or(|most| ratio <= most));
    }

    /// Takes in how times grow.
    pub fn grow(&mut self, growth: &Growth) {
        let first = growth.times[0];
        for (triangles, times) in growth.triangles.iter().zip(&growth.times) {
            let [engine, csx] = [0, 1].map(|i| times[i] / first[i]);
            let size = *triangles as f64 / growth.triangles[0] as f64;
            self.growth.push(format!(
                "| {} | {} | {} | {} | {} | {} |",
                growth.what,
                commas(*triangles),
                digits(size),
                digits(engine),
                digits(csx),
                digits(times[0] / times[1]),
            ));
        }
    }

    /// Says so if the answers differ.
    pub fn agree(&mut self, agree: bool) {
        if !agree {
            println!("  the answers differ");
        }
        self.failed |= !agree;
    }

    /// Says so if the engine is not in time.
    pub fn in_time(&mut self, in_time: bool) {
        if !in_time {
            println!("  the engine takes too long");
        }
        self.failed |= !in_time;
    }

    /// Whether answers differ or the engine was not in time.
    pub fn failed(&self) -> bool {
        self.failed
    }

    /// Prints both tables.
    pub fn print(&self) {
        println!("\n| what | inputs | beside | ratio | at most |");
        println!("|---|---|---|---|---|");
        self.ratios.iter().for_each(|line| println!("{line}"));
        println!("\n| what | triangles | times the first | engine | csx | ratio |");
        println!("|---|---|---|---|---|---|");
        self.growth.iter().for_each(|line| println!("{line}"));
    }
}

fn print_time(name: &str, time: f64) {
    let (number, unit) = match time {
        ..1e-6 => (1e9 * time, "ns"),
        ..1e-3 => (1e6 * time, "µs"),
        _ => (1e3 * time, "ms"),
    };
    println!("  {name:<40}{number:>10.3} {unit}");
}

/// A positive number with three digits, or more before the point.
fn digits(number: f64) -> String {
    let behind = (2.0 - number.log10().floor()).max(0.0) as usize;
    let text = format!("{number:.behind$}");
    match text.contains('.') {
        true => text.trim_end_matches('0').trim_end_matches('.').to_string(),
        false => text,
    }
}

/// A whole number below a million, with a comma before the last three digits.
fn commas(number: usize) -> String {
    match number {
        ..1000 => number.to_string(),
        _ => format!("{},{:03}", number / 1000, number % 1000),
    }
}

#[cfg(test)]
mod tests {
    use super::*;

    fn row(most: Option<f64>) -> Row<'static> {
        Row {
            what: "building",
            inputs: "a sphere",
            engine: 0.003,
            beside: "csx",
            other: 0.002,
            most,
        }
    }

    #[test]
    fn ratios_past_their_limit_and_other_answers_fail() {
        let mut table = Table::default();
        table.add(&row(None));
        table.add(&row(Some(1.5)));
        table.agree(true);
        assert!(!table.failed());
        assert_eq!(table.ratios[1], "| building | a sphere | csx | 1.5 | 1.5 |");
        table.add(&row(Some(1.4)));
        assert!(table.failed());
        let mut table = Table::default();
        table.agree(false);
        assert!(table.failed());
    }

    #[test]
    fn growth_is_relative_to_the_first() {
        let mut table = Table::default();
        table.grow(&Growth {
            what: "building",
            triangles: vec![100, 400],
            times: vec![[2.0, 1.0], [10.0, 8.0]],
        });
        assert_eq!(table.growth[0], "| building | 100 | 1 | 1 | 1 | 2 |");
        assert_eq!(table.growth[1], "| building | 400 | 4 | 5 | 8 | 1.25 |");
    }

    #[test]
    fn numbers_have_three_digits() {
        for (number, text) in [
            (0.0012345, "0.00123"),
            (0.1234, "0.123"),
            (0.5, "0.5"),
            (2.0, "2"),
            (1.556, "1.56"),
            (12.34, "12.3"),
            (1234.5, "1234"),
            (100.0, "100"),
        ] {
            assert_eq!(digits(number), text);
        }
        assert_eq!(commas(129_792), "129,792");
        assert_eq!(commas(5_020), "5,020");
        assert_eq!(commas(400), "400");
    }
}
