//! Prints the speed of the library beside that of other implementations, as ratios from one run.

use std::process::ExitCode;

use bench::table::Row;
use bench::{before, check, clock, contestants, inputs, measure, table, targets};

fn main() -> ExitCode {
    let contestants = contestants::all();
    let parts = inputs::parts();
    if let Err(difference) = check::all(&contestants, &parts) {
        eprintln!("{difference}");
        return ExitCode::FAILURE;
    }
    let names: Vec<_> = contestants.iter().map(|contestant| contestant.name()).collect();
    println!("{} contestants agree with the model on every input below.", names.len());
    println!(
        "On {}: processor time, medians of {} rounds, contestants in turn; a ratio is the other's time over ours.",
        std::env::consts::ARCH,
        clock::ROUNDS
    );
    println!("Buffers are reused from call to call and not cleared before one; a reading call writes its own whole.");
    let mut tables = Vec::new();
    for part in &parts {
        let rows: Vec<_> = part.cases.iter().map(|case| Row::new(case, measure::case(&contestants, case))).collect();
        table::print(part.title, &names, &rows);
        tables.push((part.title, rows));
    }
    targets::print(&names, &tables);
    before::print(&parts);
    ExitCode::SUCCESS
}
