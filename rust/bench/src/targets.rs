//! The two targets of speed, each judged by its worst line.

use crate::table::{ratio_text, Row};

struct Target {
    says: &'static str,
    other: &'static str,
    /// The least ratio of the other's time to the library's.
    least: f64,
}

const TARGETS: [Target; 2] = [
    // a twentieth is what two runs of the same program may differ by
    Target { says: "level with plain or better (0.95 counts as level)", other: "plain", least: 0.95 },
    Target { says: "within twice limit", other: "limit", least: 0.5 },
];

/// Prints the targets with yes or no and their worst lines; `tables` are titles with rows. Without the contestants
/// that they name there are none.
pub fn print(names: &[&str], tables: &[(&str, Vec<Row>)]) {
    let other = |target: &Target| names.iter().position(|&name| name == target.other);
    let judged: Vec<_> = TARGETS.iter().filter_map(|target| Some((target, other(target)?))).collect();
    if judged.is_empty() {
        return;
    }
    println!("\ntargets (a ratio is the other's time over ours; the worst line of all tables, and of each call)");
    for (target, other) in judged {
        let worst: Vec<_> = tables.iter().map(|(title, rows)| worst(title, rows, other)).collect();
        let all = worst.iter().min_by(|one, next| one.0.total_cmp(&next.0)).expect("there are tables");
        let verdict = if all.0 >= target.least { "yes" } else { "no" };
        println!("  {verdict:<4}{}: worst {}, {}", target.says, ratio_text(all.0), all.1);
        for (ratio, place) in &worst {
            println!("        {:>8}  {place}", ratio_text(*ratio));
        }
    }
}

/// The smallest ratio of a table, and where it stands.
fn worst(title: &str, rows: &[Row], other: usize) -> (f64, String) {
    let ratios = rows.iter().map(|row| (row.ratio(other), format!("{title}: {}", row.label)));
    ratios.min_by(|one, next| one.0.total_cmp(&next.0)).expect("a table has rows")
}
