//! Inputs from seeds: the same seed gives the same bytes on every machine.
pub mod damage;
pub mod desk;
pub mod finish;
pub mod graphs;
pub mod logs;
pub mod marks;
pub mod months;
pub mod plain;
pub mod prng;
pub mod process;
pub mod shapes;

pub use prng::Prng;

/// A log file of these traces, of the edition for A. Nothing is judged: the numbers are written as they come.
pub fn log_file(a: u8, traces: &[Vec<u8>]) -> Vec<u8> {
    log_of_edition(if a > 64 { 2 } else { 1 }, a, traces)
}

pub fn log_of_edition(edition: u8, a: u8, traces: &[Vec<u8>]) -> Vec<u8> {
    let mut file = vec![66, 76, edition, a];
    file.extend((traces.len() as u16).to_le_bytes());
    let mut offset = 0usize;
    for trace in traces {
        file.extend((offset as u16).to_le_bytes());
        file.extend((trace.len() as u16).to_le_bytes());
        offset += trace.len();
    }
    for trace in traces {
        file.extend(trace);
    }
    file
}
