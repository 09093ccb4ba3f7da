//! The printed tables: the library's time, and every other's as a ratio to it.

use crate::inputs::{Case, Work};

/// A line of a table: what it is about, the octets of its recording, and nanoseconds by contestant, the library first.
pub struct Row {
    /// What it is about.
    pub label: String,
    /// The octets of a recording, where the call takes one.
    pub octets: Option<usize>,
    /// Nanoseconds of one call.
    pub times: Vec<f64>,
}

impl Row {
    /// The line of a case.
    pub fn new(case: &Case, times: Vec<f64>) -> Row {
        let octets = match &case.work {
            Work::Send(_) | Work::Read(_) => None,
            Work::Search(recordings) => recordings.first().map(Vec::len),
            Work::List(recording) => Some(recording.len()),
        };
        Row { label: case.label.clone(), octets, times }
    }

    /// Another's time over the library's.
    pub fn ratio(&self, other: usize) -> f64 {
        self.times[other] / self.times[0]
    }
}

fn nanoseconds(time: f64) -> String {
    if time < 1_000.0 {
        format!("{time:.1}")
    } else {
        format!("{time:.0}")
    }
}

/// Two digits that count, also of small ratios.
pub fn ratio_text(ratio: f64) -> String {
    if ratio < 0.1 {
        format!("{ratio:.3}x")
    } else {
        format!("{ratio:.2}x")
    }
}

/// Prints one table; `names` are the contestants', the library's first.
pub fn print(title: &str, names: &[&str], rows: &[Row]) {
    println!("\n{title}");
    let per_octet = rows.iter().any(|row| row.octets.is_some());
    print!("  {:<32}{:>12}", "", format!("{} ns", names[0]));
    if per_octet {
        print!("{:>12}", "ns/octet");
    }
    names[1..].iter().for_each(|name| print!("{name:>13}"));
    println!();
    for row in rows {
        print!("  {:<32}{:>12}", row.label, nanoseconds(row.times[0]));
        if let Some(octets) = row.octets {
            print!("{:>12.3}", row.times[0] / octets as f64);
        }
        (1..names.len()).for_each(|other| print!("{:>13}", ratio_text(row.ratio(other))));
        println!();
    }
}
