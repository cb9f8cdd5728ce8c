//! A random process: blocks in sequence, by choice, side by side, in a loop, or left out.
//! Its runs look like the calls of a real log.
use super::Prng;

pub enum Process {
    Do(u8),
    InTurn(Vec<Process>),
    OneOf(Vec<Process>),
    SideBySide(Vec<Process>),
    Again(Box<Process>),
    Maybe(Box<Process>),
}

/// A process in which each of these activities stands once.
pub fn build(prng: &mut Prng, activities: &[u8]) -> Process {
    let block = match activities {
        [] => return Process::InTurn(Vec::new()),
        [one] => Process::Do(*one),
        many => parts(prng, many),
    };
    match prng.below(100) {
        0..=7 => Process::Again(Box::new(block)),
        8..=17 => Process::Maybe(Box::new(block)),
        _ => block,
    }
}

fn parts(prng: &mut Prng, activities: &[u8]) -> Process {
    let cut = prng.within(1, activities.len() - 1);
    let (left, right) = activities.split_at(cut);
    let both = vec![build(prng, left), build(prng, right)];
    match prng.below(100) {
        0..=64 => Process::InTurn(both),
        65..=84 => Process::SideBySide(both),
        _ => Process::OneOf(both),
    }
}

impl Process {
    /// One run, added to the trace.
    pub fn run(&self, prng: &mut Prng, trace: &mut Vec<u8>) {
        match self {
            Process::Do(activity) => trace.push(*activity),
            Process::InTurn(blocks) => blocks.iter().for_each(|block| block.run(prng, trace)),
            Process::OneOf(blocks) => blocks[prng.below(blocks.len())].run(prng, trace),
            Process::SideBySide(blocks) => merge(blocks, prng, trace),
            Process::Maybe(block) => {
                if prng.percent(60) {
                    block.run(prng, trace);
                }
            }
            Process::Again(block) => {
                block.run(prng, trace);
                while prng.percent(35) && trace.len() < 400 {
                    block.run(prng, trace);
                }
            }
        }
    }
}

fn merge(blocks: &[Process], prng: &mut Prng, trace: &mut Vec<u8>) {
    let mut runs: Vec<std::vec::IntoIter<u8>> = Vec::new();
    for block in blocks {
        let mut run = Vec::new();
        block.run(prng, &mut run);
        runs.push(run.into_iter());
    }
    while !runs.is_empty() {
        let next = prng.below(runs.len());
        match runs[next].next() {
            Some(activity) => trace.push(activity),
            None => drop(runs.swap_remove(next)),
        }
    }
}

/// A run of at most `most` events.
pub fn run_of(process: &Process, prng: &mut Prng, most: usize) -> Vec<u8> {
    let mut trace = Vec::new();
    process.run(prng, &mut trace);
    trace.truncate(most);
    trace
}

/// The activities below a in some order.
pub fn shuffled(prng: &mut Prng, a: u8) -> Vec<u8> {
    let mut order: Vec<u8> = (0..a).collect();
    prng.shuffle(&mut order);
    order
}
