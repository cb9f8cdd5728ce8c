//! What steps 1 to 8 ask of the log, but for step 6's includes: one walk there and back
//! over each trace.
use super::log::Log;
use super::rows::Bits;
use super::word::{bit, index, Word};

/// All that is kept about one activity e, in one cache line, or two where a word has 128 bits.
#[derive(Clone, Copy)]
#[repr(align(64))]
pub struct Fact<W> {
    /// what is before an e in some trace
    pub before: W,
    /// what is before every e
    pub always_before: W,
    /// what is before the first e in some trace
    pub before_first: W,
    /// what is after every e
    pub always_after: W,
    /// what is directly before some e
    pub directly_before: W,
    /// what stands between any e and the e before it; the first e's are in always_before
    pub since_last: W,
    /// the latest place of an e in its trace
    last: u32,
}

/// So many places stand in a block.
const BLOCK: usize = 8;
/// From this length on blocks are kept: in a shorter trace they cost more than they save.
const LONG: usize = 128;
/// What stands in each block of a trace.
type Blocks<W> = [W; 512 / BLOCK];

pub struct Facts<W, const N: usize> {
    pub of: [Fact<W>; N],
    pub events: W,
    /// first in some trace
    pub starts: W,
    /// twice in some trace
    pub twice: W,
}

impl<W: Word> Fact<W> {
    const UNSEEN: Fact<W> = Fact {
        before: W::NONE,
        always_before: W::ALL,
        before_first: W::NONE,
        always_after: W::ALL,
        directly_before: W::NONE,
        since_last: W::ALL,
        last: 0,
    };

    /// The u that alternately precede e: every e has a u since the e before it.
    #[inline(always)]
    pub fn alternately_before(&self) -> W {
        self.always_before & self.since_last
    }
}

pub fn gather<W: Word, const N: usize>(log: &Log) -> Facts<W, N> {
    let mut facts = Facts {
        of: [Fact::UNSEEN; N],
        events: W::NONE,
        starts: W::NONE,
        twice: W::NONE,
    };
    let mut blocks = [W::NONE; 512 / BLOCK];
    for trace in log.traces() {
        if let Some(&first) = trace.first() {
            facts.starts |= bit(first);
            if trace.len() < LONG {
                facts.forward::<false>(trace, &mut blocks);
            } else {
                facts.forward::<true>(trace, &mut blocks);
            }
            facts.backward(trace);
        }
    }
    facts
}

impl<W: Word, const N: usize> Facts<W, N> {
    #[inline(always)]
    fn forward<const KEEP: bool>(&mut self, trace: &[u8], blocks: &mut Blocks<W>) {
        let mut seen = W::NONE;
        let mut previous = W::NONE;
        let mut twice = self.twice;
        for (place, &e) in trace.iter().enumerate() {
            let here = bit::<W>(e);
            let repeated = seen & here;
            let fact = &mut self.of[index::<N>(e)];
            fact.before |= seen;
            fact.always_before &= seen;
            fact.before_first |= if repeated == W::NONE { seen } else { W::NONE };
            fact.directly_before |= previous;
            twice |= repeated;
            if repeated != W::NONE && fact.alternately_before() != W::NONE {
                self.narrow::<KEEP>(e, blocks, place);
            }
            self.of[index::<N>(e)].last = place as u32;
            if KEEP {
                let block = &mut blocks[place / BLOCK % (512 / BLOCK)];
                *block = if place % BLOCK == 0 { W::NONE } else { *block } | here;
            }
            seen |= here;
            previous = here;
        }
        self.twice = twice;
        self.events |= seen;
    }

    /// At a repeat of e only those u stay that came after the e before. Most repeats have
    /// no candidate left and never get here. What stands in a whole block since then is found at
    /// once, the rest by its last place.
    #[inline]
    fn narrow<const KEEP: bool>(&mut self, e: u8, blocks: &Blocks<W>, place: usize) {
        let fact = self.of[index::<N>(e)];
        let wanted = fact.alternately_before();
        let mut left = wanted;
        if KEEP {
            let whole = (fact.last as usize / BLOCK + 1)..=((place - 1) / BLOCK);
            for block in whole.rev() {
                left &= !blocks[block % (512 / BLOCK)];
                if left == W::NONE {
                    break;
                }
            }
        }
        let mut kept = wanted & !left;
        for u in Bits(left) {
            kept |= W::one_if(self.of[u].last > fact.last) << u;
        }
        self.of[index::<N>(e)].since_last = kept;
    }

    #[inline(always)]
    fn backward(&mut self, trace: &[u8]) {
        let mut after = W::NONE;
        for &e in trace.iter().rev() {
            self.of[index::<N>(e)].always_after &= after;
            after |= bit(e);
        }
    }
}
