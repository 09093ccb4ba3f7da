//! The library's time now over its time in an earlier archive, for calls that send and calls that read.
//!
//! Both archives are in this program, and their calls are timed in turn, on the same inputs. A ratio is the median of
//! the rounds' ratios, since what slows a round down slows both.

use std::path::Path;

use crate::clock::median;
use crate::contestants::{self, Contestant};
use crate::inputs::{Case, Part, Work};
use crate::{check, measure};

/// Prints the ratios where an earlier archive was named, or why there are none.
pub fn print(parts: &[Part]) {
    if let Some(reason) = option_env!("DELAMPUK_NO_BEFORE") {
        println!("\nThe ratio to the earlier archive cannot be had: {reason}");
    }
    let Some(before) = contestants::before() else { return };
    let blocks: Vec<&Part> = parts.iter().filter(|part| part.cases.iter().all(of_a_block)).collect();
    let mut cases = blocks.iter().flat_map(|part| &part.cases);
    if let Err(difference) = cases.try_for_each(|case| check::case(before.as_ref(), case)) {
        println!("\nThe ratio to the earlier archive cannot be had, for it answers otherwise.\n{difference}");
        return;
    }
    let folder = Path::new(option_env!("DELAMPUK_BEFORE").unwrap_or_default());
    let name = folder.file_name().unwrap_or_default().to_string_lossy();
    println!("\nthe library now over the library before ({name}): below 1 it is faster now");
    let pair = [contestants::ours(), before];
    blocks.into_iter().for_each(|part| print_part(&pair, part));
}

fn of_a_block(case: &Case) -> bool {
    matches!(case.work, Work::Send(_) | Work::Read(_))
}

fn print_part(pair: &[Box<dyn Contestant>], part: &Part) {
    println!("\n{:<34}{:>12}{:>12}{:>13}", part.title, "now ns", "before ns", "now/before");
    let mut ratios = Vec::new();
    for case in &part.cases {
        let times = measure::rounds(pair, case);
        let ratio = median(times[0].iter().zip(&times[1]).map(|(now, before)| now / before).collect());
        let [now, before] = [0, 1].map(|index| median(times[index].clone()));
        println!("  {:<32}{now:>12.1}{before:>12.1}{ratio:>13.3}", case.label);
        ratios.push(ratio);
    }
    println!("  {:<32}{:>37.3}", "median of these", median(ratios));
}
