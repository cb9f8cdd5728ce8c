//! Rows of sets: a word for each activity.
use super::word::Word;

/// The set bits of a word, rising.
#[derive(Clone, Copy)]
pub struct Bits<W>(pub W);

impl<W: Word> Iterator for Bits<W> {
    type Item = usize;

    #[inline(always)]
    fn next(&mut self) -> Option<usize> {
        if self.0 == W::NONE {
            return None;
        }
        let lowest = self.0.least();
        self.0 = self.0.without_least();
        Some(lowest)
    }
}

/// Bit t of row s becomes bit s of row t, by swapping ever smaller blocks.
pub fn transposed<W: Word, const N: usize>(rows: &[W; N]) -> [W; N] {
    let mut out = *rows;
    let mut width = N / 2;
    let mut low = W::ALL >> width;
    while width != 0 {
        let mut base = 0;
        while base < N {
            for k in base..base + width {
                let swap = (out[k] >> width ^ out[k + width]) & low;
                out[k] ^= swap << width;
                out[k + width] ^= swap;
            }
            base += 2 * width;
        }
        width /= 2;
        low ^= low << width;
    }
    out
}

/// What stands in the row of some member.
#[inline(always)]
pub fn union<W: Word, const N: usize>(rows: &[W; N], members: W) -> W {
    Bits(members).fold(W::NONE, |all, member| all | rows[member])
}

/// A pair goes where a middle activity explains it; by source or by target alike.
#[inline(always)]
pub fn reduced<W: Word, const N: usize>(rows: &[W; N]) -> [W; N] {
    let mut out = [W::NONE; N];
    for key in 0..N {
        if rows[key] != W::NONE {
            out[key] = rows[key] & !union(rows, rows[key]);
        }
    }
    out
}

pub fn count<W: Word, const N: usize>(rows: &[W; N]) -> usize {
    rows.iter().map(|row| row.count()).sum()
}
