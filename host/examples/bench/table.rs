//! Tables in Markdown, laid out so that a person can read them as they are.

/// The widths of a table's columns.
pub struct Table {
    widths: Vec<usize>,
}

/// The least width of every column but the first.
const OTHERS: usize = 7;

impl Table {
    /// A table with its headings, which are printed, and a first column of this width.
    pub fn new(first: usize, headings: &[String]) -> Self {
        let least = |at: usize| if at == 0 { first } else { OTHERS };
        let widths: Vec<usize> =
            headings.iter().enumerate().map(|(at, heading)| heading.len().max(least(at))).collect();
        let table = Self { widths };
        table.row(headings);
        let rules: Vec<String> = table.widths.iter().map(|width| "-".repeat(*width)).collect();
        println!("|-{}-|", rules.join("-|-"));
        table
    }

    /// Prints a row: the first cell from the left, the others to the right.
    pub fn row(&self, cells: &[String]) {
        let laid_out: Vec<String> = cells
            .iter()
            .zip(&self.widths)
            .enumerate()
            .map(|(at, (cell, &width))| if at == 0 { format!("{cell:<width$}") } else { format!("{cell:>width$}") })
            .collect();
        println!("| {} |", laid_out.join(" | "));
    }
}

/// Nanoseconds as microseconds: with a decimal, or from a thousand on without.
pub fn micros(nanoseconds: u64) -> String {
    match nanoseconds {
        0..1_000_000 => format!("{:.1}", nanoseconds as f64 / 1000.0),
        _ => grouped((nanoseconds + 500) / 1000),
    }
}

/// How many times one time is another.
pub fn times(time: u64, other: u64) -> String {
    match time as f64 / other as f64 {
        ratio if ratio < 10.0 => format!("{ratio:.2}"),
        ratio if ratio < 1000.0 => format!("{ratio:.1}"),
        ratio => grouped(ratio as u64),
    }
}

/// A number with a comma before each three digits.
pub fn grouped(number: u64) -> String {
    match number {
        0..1000 => number.to_string(),
        _ => format!("{},{:03}", grouped(number / 1000), number % 1000),
    }
}
