//! The comparison: product and second program agree, and every cell that can
//! be reached is met.

use super::second;
use compare::compare::compare;
use compare::inputs::Inputs;
use compare::product::Product;
use std::io::Write;

const SEED: u64 = 20_170_401;
const LEAST: u64 = 100;

/// How many inputs are compared: what `INPUTS` says, or a million.
fn inputs() -> u64 {
    match std::env::var("INPUTS") {
        Ok(number) => number.parse().expect("INPUTS is a number"),
        Err(_) => 1_000_000,
    }
}

#[test]
fn product_and_second_program_agree() {
    let second = second();
    let inputs = inputs();
    let table = match compare(&Product, &second, &second.rules, inputs, SEED) {
        Ok(table) => table,
        Err(difference) => panic!("{difference}"),
    };
    // Not by `println`, of which a passing test shows nothing.
    let calls = table.stream_calls();
    let told = format!("\n{inputs} inputs of seed {SEED}, {calls} calls of the stream\n\n{table}");
    std::io::stdout()
        .write_all(told.as_bytes())
        .expect("an output");
    assert_eq!(table.faults(LEAST), Vec::<String>::new());
    assert!(calls >= inputs, "{calls} calls of the stream");
}

#[test]
fn few_inputs_leave_cells_unmet() {
    let second = second();
    let Ok(table) = compare(&Product, &second, &second.rules, 1_000, SEED) else {
        panic!("a difference");
    };
    assert!(!table.faults(LEAST).is_empty());
}

#[test]
fn inputs_are_the_same_for_the_same_seed() {
    let rules = second().rules;
    let (one, two) = (Inputs::new(&rules, 7), Inputs::new(&rules, 7));
    let other = Inputs::new(&rules, 8);
    assert!((0..500).all(|index| one.input(index) == two.input(index)));
    assert!((0..500).any(|index| one.input(index) != other.input(index)));
}
