//! Calls of the functions of `port` with the judge's results, in a file, for a caller that is
//! not linked here: `caller.c` makes them again.
use std::fs::File;
use std::io::{BufWriter, Write};

#[derive(Clone, Copy)]
pub enum Function {
    Mine,
    Listing,
    Rewrite,
    Replay,
    Step,
    PlainStep,
    PlainAccepting,
    PlainReplay,
    Fill,
    Summary,
    DeskOpen,
    DeskStep,
    DeskClose,
    Finish,
    ShutBy,
    Opening,
    Marks,
    MarksText,
    GuessesText,
    Replays,
    DeskFinish,
    Tally,
    TallyJoin,
    TallyRelations,
}

/// In the order of their numbers.
pub const FUNCTIONS: [Function; 24] = {
    use Function::*;
    [
        Mine,
        Listing,
        Rewrite,
        Replay,
        Step,
        PlainStep,
        PlainAccepting,
        PlainReplay,
        Fill,
        Summary,
        DeskOpen,
        DeskStep,
        DeskClose,
        Finish,
        ShutBy,
        Opening,
        Marks,
        MarksText,
        GuessesText,
        Replays,
        DeskFinish,
        Tally,
        TallyJoin,
        TallyRelations,
    ]
};

pub struct Call<'a> {
    pub function: Function,
    /// the log, the graph file, a plain graph's head, or a tally; of two that are joined the one beside
    pub input: &'a [u8],
    /// a plain graph's lists
    pub lists: Option<&'a [Vec<u16>; 4]>,
    /// the trace, the labels of guesses, the log of replays, or the marking, table or tally before the call;
    /// of marks the log, then the labels
    pub beside: &'a [u8],
    /// in bytes
    pub room: usize,
    /// the activity, the relation to fill from, or the number of the profile
    pub activity: u8,
    /// the desk's place; of marks how many bytes the log has
    pub place: usize,
    pub result: u64,
    /// what was lent, after the call
    pub after: &'a [u8],
}

#[derive(Default)]
pub struct Record {
    file: Option<BufWriter<File>>,
    calls: u64,
}

/// Stands where a function would: the record is whole.
const END: u8 = 255;

impl Record {
    pub fn to(path: &str) -> std::io::Result<Record> {
        let file = Some(BufWriter::new(File::create(path)?));
        Ok(Record { file, calls: 0 })
    }

    /// Ends the record with the number of its calls; what comes after is not kept.
    pub fn finish(&mut self) {
        if let Some(mut file) = self.file.take() {
            let mut bytes = vec![END];
            bytes.extend(self.calls.to_le_bytes());
            file.write_all(&bytes).expect("the record can be written");
            file.flush().expect("the record can be written");
        }
    }

    /// All numbers little-endian; of what was lent only the hash is kept.
    pub fn keep(&mut self, call: &Call) {
        let Some(file) = &mut self.file else {
            return;
        };
        self.calls += 1;
        let mut bytes = vec![call.function as u8, call.activity];
        bytes.extend((call.place as u64).to_le_bytes());
        bytes.extend((call.room as u32).to_le_bytes());
        for part in [call.input, call.beside] {
            bytes.extend((part.len() as u32).to_le_bytes());
            bytes.extend(part);
        }
        for list in call.lists.into_iter().flatten() {
            bytes.extend((2 * list.len() as u32).to_le_bytes());
            bytes.extend(list.iter().flat_map(|pair| pair.to_le_bytes()));
        }
        bytes.extend(call.result.to_le_bytes());
        bytes.extend(hash(call.after).to_le_bytes());
        file.write_all(&bytes).expect("the record can be written");
    }
}

/// FNV-1a, 64 bits.
pub fn hash(bytes: &[u8]) -> u64 {
    bytes.iter().fold(0xCBF2_9CE4_8422_2325, |hash, &byte| {
        (hash ^ u64::from(byte)).wrapping_mul(0x0100_0000_01B3)
    })
}
