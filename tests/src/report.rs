//! The table at the end.

use crate::calls::{CALLS, Call};
use crate::harness::Tallies;
use crate::model::ANSWERS;

/// One row for each call that had cases: how many, how often each number was answered, the differences. A dot
/// stands where the call's rules don't allow the number.
pub fn table(tallies: &Tallies) -> String {
    let mut rows = vec![heading()];
    let called = CALLS.iter().filter(|&&call| tallies.of(call).cases > 0);
    rows.extend(called.map(|&call| row(tallies, call)));
    let widths: Vec<usize> =
        (0..rows[0].len()).map(|column| rows.iter().map(|row| row[column].len()).max().unwrap_or(0)).collect();
    rows.iter().map(|row| laid_out(row, &widths)).collect()
}

fn heading() -> Vec<String> {
    let numbers = (0..ANSWERS).map(|number| number.to_string());
    let columns = ["call".to_string(), "cases".to_string()].into_iter().chain(numbers);
    columns.chain(["differences".to_string()]).collect()
}

fn row(tallies: &Tallies, call: Call) -> Vec<String> {
    let tally = tallies.of(call);
    let signature = call.signature();
    let mut row = vec![signature.name.to_string(), tally.cases.to_string()];
    for (number, &count) in (0..).zip(&tally.reached) {
        let allowed = signature.answers.contains(&number);
        row.push(if count == 0 && !allowed { ".".to_string() } else { count.to_string() });
    }
    row.push(tally.differences.to_string());
    row
}

fn laid_out(row: &[String], widths: &[usize]) -> String {
    let mut line = format!("{:<width$}", row[0], width = widths[0]);
    for (cell, width) in row.iter().zip(widths).skip(1) {
        line += &format!("  {cell:>width$}");
    }
    line + "\n"
}

/// The numbers that a call's rules allow and that no case reached, and calls with too few cases.
pub fn missing(tallies: &Tallies, cases: u64) -> Vec<String> {
    let mut missing = Vec::new();
    for &call in CALLS {
        let (signature, tally) = (call.signature(), tallies.of(call));
        for &number in signature.answers {
            if tally.reached[usize::from(number)] == 0 {
                missing.push(format!("{} never answered {number}", signature.name));
            }
        }
        if tally.cases < cases {
            missing.push(format!("{} had {} cases, not {cases}", signature.name, tally.cases));
        }
    }
    missing
}

/// A number with its thousands set apart.
pub fn thousands(number: u64) -> String {
    let digits = number.to_string();
    let groups: Vec<&str> =
        digits.as_bytes().rchunks(3).rev().map(|group| std::str::from_utf8(group).unwrap()).collect();
    groups.join(",")
}
