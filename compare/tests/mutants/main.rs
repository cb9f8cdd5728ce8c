//! Deliberately wrong versions of single rules. Each must be told apart from the judge by
//! the inputs that the comparison makes: this tries the generators, not the judge.
mod desk;
mod desk_ways;
mod enabled;
mod engine;
mod files;
mod finish;
mod marks;
mod mining;
mod months;
mod plain;
mod wide;
mod wrong_steps;

/// How many seeds a mutant may survive.
const SEEDS: u64 = 200;

/// Says how soon each mutant was found, and fails for one that was not.
fn all_found(found: Vec<(&str, Option<u64>)>) {
    for (name, after) in &found {
        println!("{name}: input {after:?}");
    }
    let missed: Vec<&str> = found
        .iter()
        .filter(|(_, after)| after.is_none())
        .map(|(name, _)| *name)
        .collect();
    assert!(missed.is_empty(), "not told apart: {missed:?}");
}
