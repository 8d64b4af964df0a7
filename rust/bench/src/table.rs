//! Sets times out in tables of plain text.

use crate::measure::{Timing, TIME_LIMIT};

/// A table: a head and rows of as many cells. The first column is flush left,
/// the others flush right.
#[derive(Clone, Debug, Default)]
pub struct Table {
    rows: Vec<Vec<String>>,
}

impl Table {
    /// Adds the head or a row.
    pub fn add(&mut self, cells: Vec<String>) {
        self.rows.push(cells);
    }

    /// The table's text.
    pub fn text(&self) -> String {
        let widths = self.widths();
        let line = |row: &Vec<String>| {
            let cells = row.iter().zip(&widths).enumerate();
            let line: Vec<String> = cells
                .map(|(column, (cell, &width))| match column {
                    0 => format!("{cell:<width$}"),
                    _ => format!("{cell:>width$}"),
                })
                .collect();
            line.join("  ") + "\n"
        };
        self.rows.iter().map(line).collect()
    }

    fn widths(&self) -> Vec<usize> {
        let mut widths = Vec::new();
        for row in &self.rows {
            widths.resize(widths.len().max(row.len()), 0);
            for (width, cell) in widths.iter_mut().zip(row) {
                *width = cell.chars().count().max(*width);
            }
        }
        widths
    }
}

/// A time in words.
pub fn time(timing: Timing) -> String {
    match timing {
        Timing::Least(seconds) => duration(seconds),
        Timing::OutOfTime => format!("over {}", duration(TIME_LIMIT.as_secs_f64())),
    }
}

/// Three figures, or four, and the unit that suits them.
fn duration(seconds: f64) -> String {
    let (number, unit) = match seconds {
        1.0.. => (seconds, "s"),
        1e-3.. => (seconds * 1e3, "ms"),
        _ => (seconds * 1e6, "µs"),
    };
    match number {
        100.0.. => format!("{number:.0} {unit}"),
        10.0.. => format!("{number:.1} {unit}"),
        1.0.. => format!("{number:.2} {unit}"),
        _ => format!("{number:.3} {unit}"),
    }
}

/// How many times as long as `base` a time is.
pub fn ratio(timing: Timing, base: Timing) -> String {
    match (timing, base) {
        (Timing::Least(time), Timing::Least(base)) => format!("{:.2}", time / base),
        (Timing::OutOfTime, Timing::Least(base)) => {
            format!("over {:.0}", TIME_LIMIT.as_secs_f64() / base)
        }
        (_, Timing::OutOfTime) => "-".into(),
    }
}

#[cfg(test)]
mod tests {
    use super::*;

    fn micros(time: f64) -> Timing {
        Timing::Least(time / 1e6)
    }

    #[test]
    fn columns_are_as_wide_as_their_widest_cell() {
        let mut table = Table::default();
        table.add(vec!["work".into(), "µs".into()]);
        table.add(vec!["a".into(), "1000".into()]);
        assert_eq!(table.text(), "work    µs\na     1000\n");
    }

    #[test]
    fn times_take_the_unit_that_suits_them() {
        assert_eq!(time(micros(0.0123)), "0.012 µs");
        assert_eq!(time(micros(1.234)), "1.23 µs");
        assert_eq!(time(micros(12.34)), "12.3 µs");
        assert_eq!(time(micros(123.4)), "123 µs");
        assert_eq!(time(micros(1_500.0)), "1.50 ms");
        assert_eq!(time(micros(2_000_000.0)), "2.00 s");
        assert_eq!(time(Timing::OutOfTime), "over 2.00 s");
    }

    #[test]
    fn ratios_name_a_bound_where_a_time_is_missing() {
        assert_eq!(ratio(micros(30.0), micros(20.0)), "1.50");
        assert_eq!(ratio(Timing::OutOfTime, micros(1_000.0)), "over 2000");
        assert_eq!(ratio(micros(30.0), Timing::OutOfTime), "-");
    }
}
