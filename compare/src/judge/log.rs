//! The log file: its refusals in 01's order, its traces, and the reader over it.
use super::graph_file::judge_activities;
use super::two_bytes;

const HEAD: usize = 6;

#[derive(Clone, PartialEq, Eq, Debug)]
pub struct Log {
    pub a: u8,
    pub traces: Vec<Vec<u8>>,
}

pub fn read(bytes: &[u8]) -> Result<Log, u8> {
    let t = judge_head(bytes)?;
    if bytes.len() < HEAD + 4 * t {
        return Err(1);
    }
    let lengths = judge_entries(bytes, t)?;
    let bodies = &bytes[HEAD + 4 * t..];
    let total: usize = lengths.iter().sum();
    if bodies.len() < total {
        return Err(1);
    }
    if bodies.len() > total {
        return Err(4);
    }
    let a = bytes[3];
    for &event in bodies {
        if event >= a {
            return Err(5);
        }
    }
    Ok(Log {
        a,
        traces: cut(bodies, &lengths),
    })
}

/// 1, 2, then 3 for A, with the edition, and for T. Gives T. "The log layout is unchanged but for its edition".
fn judge_head(bytes: &[u8]) -> Result<usize, u8> {
    if bytes.len() < HEAD {
        return Err(1);
    }
    if bytes[0] != 66 || bytes[1] != 76 || (bytes[2] != 1 && bytes[2] != 2) {
        return Err(2);
    }
    judge_activities(bytes[2], bytes[3])?;
    let t = two_bytes(bytes, 4);
    if t > 1024 {
        return Err(3);
    }
    Ok(t)
}

/// Entry by entry: 3 for the length, 3 for the running total, 4 for the offset.
fn judge_entries(bytes: &[u8], t: usize) -> Result<Vec<usize>, u8> {
    let mut lengths = Vec::new();
    let mut earlier = 0;
    for k in 0..t {
        let offset = two_bytes(bytes, HEAD + 4 * k);
        let length = two_bytes(bytes, HEAD + 4 * k + 2);
        if length > 512 {
            return Err(3);
        }
        if earlier + length > 32768 {
            return Err(3);
        }
        if offset != earlier {
            return Err(4);
        }
        lengths.push(length);
        earlier += length;
    }
    Ok(lengths)
}

fn cut(bodies: &[u8], lengths: &[usize]) -> Vec<Vec<u8>> {
    let mut traces = Vec::new();
    let mut start = 0;
    for length in lengths {
        traces.push(bodies[start..start + length].to_vec());
        start += length;
    }
    traces
}

/// Stays over the caller's bytes and remembers which trace comes next.
pub struct LogReader<'a> {
    pub bytes: &'a [u8],
    pub next: usize,
}

impl LogReader<'_> {
    /// Trace k. The bytes are judged first, whoever put the reader together.
    pub fn trace(&mut self, k: usize) -> Result<Vec<u8>, u8> {
        let log = read(self.bytes)?;
        if k >= log.traces.len() {
            return Err(11);
        }
        self.next = k + 1;
        Ok(log.traces[k].clone())
    }

    pub fn next_trace(&mut self) -> Result<Vec<u8>, u8> {
        self.trace(self.next)
    }
}
