//! A longer run: `longer INPUTS SEED`. The product comes first, the second
//! program second. It prints the table, and fails on a difference and on a
//! cell that was met too rarely.

use compare::compare::compare;
use compare::product::Product;
use compare::second::rules::Rules;
use compare::second::Second;
use std::process::ExitCode;

/// A reachable cell is met at least so often.
const LEAST: u64 = 100;

/// The arguments: a number of inputs and a seed.
fn arguments() -> Option<(u64, u64)> {
    let given: Vec<String> = std::env::args().skip(1).collect();
    match given.as_slice() {
        [inputs, seed] => Some((inputs.parse().ok()?, seed.parse().ok()?)),
        _ => None,
    }
}

fn main() -> ExitCode {
    let Some((inputs, seed)) = arguments() else {
        eprintln!("usage: longer INPUTS SEED");
        return ExitCode::from(2);
    };
    let rules = Rules::base();
    let second = Second { rules };
    match compare(&Product, &second, &rules, inputs, seed) {
        Err(difference) => {
            println!("{difference}");
            ExitCode::FAILURE
        }
        Ok(table) => {
            print!("{table}");
            let faults = table.faults(LEAST);
            faults.iter().for_each(|fault| println!("{fault}"));
            let calls = table.stream_calls();
            print!("{calls} calls of the stream; ");
            println!("{inputs} inputs of seed {seed}, {} faults", faults.len());
            if faults.is_empty() {
                ExitCode::SUCCESS
            } else {
                ExitCode::FAILURE
            }
        }
    }
}
