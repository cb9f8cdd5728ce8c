//! Judging a log and walking its traces, over the caller's bytes.

pub struct Log<'a> {
    pub a: u8,
    entries: &'a [u8],
    bodies: &'a [u8],
}

pub fn judge(bytes: &[u8]) -> Result<Log<'_>, u8> {
    if bytes.len() < 6 {
        return Err(1);
    }
    let (head, rest) = bytes.split_at(6);
    if head[..2] != [66, 76] || !(1..=2).contains(&head[2]) {
        return Err(2);
    }
    let (edition, a) = (head[2], head[3]);
    let t = usize::from(u16::from_le_bytes([head[4], head[5]]));
    if a > 128 || (a > 64) != (edition == 2) || t > 1024 {
        return Err(3);
    }
    if rest.len() < 4 * t {
        return Err(1);
    }
    let (entries, bodies) = rest.split_at(4 * t);
    let total = judge_entries(entries)?;
    if bodies.len() < total {
        return Err(1);
    }
    if bodies.len() > total {
        return Err(4);
    }
    if !all_below(bodies, a) {
        return Err(5);
    }
    Ok(Log { a, entries, bodies })
}

fn judge_entries(entries: &[u8]) -> Result<usize, u8> {
    let mut total = 0u32;
    for entry in entries.chunks_exact(4) {
        let offset = u32::from(u16::from_le_bytes([entry[0], entry[1]]));
        let length = u32::from(u16::from_le_bytes([entry[2], entry[3]]));
        if length > 512 || total + length > 32768 {
            return Err(3);
        }
        if offset != total {
            return Err(4);
        }
        total += length;
    }
    Ok(total as usize)
}

/// One number for all bad bytes, so their greatest decides; it is found 16 at a time.
fn all_below(bodies: &[u8], a: u8) -> bool {
    bodies.is_empty() || bodies.iter().fold(0, |greatest, &e| e.max(greatest)) < a
}

impl<'a> Log<'a> {
    pub fn traces(&self) -> impl Iterator<Item = &'a [u8]> {
        let mut rest = self.bodies;
        self.entries.chunks_exact(4).map(move |entry| {
            let length = usize::from(u16::from_le_bytes([entry[2], entry[3]]));
            let (trace, after) = rest.split_at(length);
            rest = after;
            trace
        })
    }

    pub fn count(&self) -> usize {
        self.entries.len() / 4
    }

    /// Trace k, below T. Its offset was judged.
    pub fn trace(&self, k: usize) -> &'a [u8] {
        let entry = &self.entries[4 * k..4 * k + 4];
        let offset = usize::from(u16::from_le_bytes([entry[0], entry[1]]));
        let length = usize::from(u16::from_le_bytes([entry[2], entry[3]]));
        &self.bodies[offset..offset + length]
    }
}

pub struct LogReader<'a> {
    pub bytes: &'a [u8],
    pub next: usize,
}

impl<'a> LogReader<'a> {
    pub fn trace(&mut self, k: usize) -> Result<&'a [u8], u8> {
        let log = judge(self.bytes)?;
        if k >= log.count() {
            return Err(11);
        }
        self.next = k + 1;
        Ok(log.trace(k))
    }

    pub fn next_trace(&mut self) -> Result<&'a [u8], u8> {
        self.trace(self.next)
    }
}
