//! A set of activities in one word, of 64 bits for A up to 64 and of 128 above (02, 10/12). All that walks a log or a graph is
//! written once, over the word and how many there are of them; the compiler makes each size by itself.
use crate::door::Form;
use std::fmt::Debug;
use std::ops::{BitAnd, BitAndAssign, BitOr, BitOrAssign, BitXorAssign, Not, Shl, Shr};

pub trait Word:
    Copy
    + Eq
    + Default
    + Debug
    + Not<Output = Self>
    + BitAnd<Output = Self>
    + BitOr<Output = Self>
    + std::ops::BitXor<Output = Self>
    + Shl<usize, Output = Self>
    + Shr<usize, Output = Self>
    + BitAndAssign
    + BitOrAssign
    + BitXorAssign
{
    const NONE: Self;
    const ALL: Self;
    const ONE: Self;
    const FORM: Form;
    /// the edition of both files, and the A that it is for
    const EDITION: u8;
    const LEAST: u8;
    const MOST: u8;

    fn least(self) -> usize;
    fn without_least(self) -> Self;
    fn count(self) -> usize;
    fn is_one(self) -> bool;
    fn one_if(yes: bool) -> Self;
    fn at(bytes: &[u8], at: usize) -> Self;
    fn put(self, bytes: &mut [u8]);
}

macro_rules! word {
    ($word:ty, $form:expr, $edition:expr, $least:expr, $most:expr) => {
        impl Word for $word {
            const NONE: $word = 0;
            const ALL: $word = <$word>::MAX;
            const ONE: $word = 1;
            const FORM: Form = $form;
            const EDITION: u8 = $edition;
            const LEAST: u8 = $least;
            const MOST: u8 = $most;

            #[inline(always)]
            fn least(self) -> usize {
                self.trailing_zeros() as usize
            }

            #[inline(always)]
            fn without_least(self) -> $word {
                self & (self - 1)
            }

            #[inline(always)]
            fn count(self) -> usize {
                self.count_ones() as usize
            }

            #[inline(always)]
            fn is_one(self) -> bool {
                self.is_power_of_two()
            }

            #[inline(always)]
            fn one_if(yes: bool) -> $word {
                <$word>::from(yes)
            }

            #[inline(always)]
            fn at(bytes: &[u8], at: usize) -> $word {
                let set = bytes[at..at + size_of::<$word>()].try_into();
                <$word>::from_le_bytes(set.expect("as many bytes as a set has"))
            }

            #[inline(always)]
            fn put(self, bytes: &mut [u8]) {
                bytes.copy_from_slice(&self.to_le_bytes());
            }
        }
    };
}
word!(u64, Form::NARROW, 1, 0, 64);
word!(u128, Form::WIDE, 2, 65, 128);

/// An activity's row. Activities are below N wherever this is used; the mask lets the compiler know it.
#[inline(always)]
pub fn index<const N: usize>(activity: u8) -> usize {
    usize::from(activity) & (N - 1)
}

/// The set of one activity, which is below the word's bits.
#[inline(always)]
pub fn bit<W: Word>(activity: u8) -> W {
    W::ONE << (usize::from(activity) & (W::FORM.activities() - 1))
}

/// The activities below a, of those that a word has.
#[inline(always)]
pub fn below<W: Word>(a: u8) -> W {
    if usize::from(a) >= W::FORM.activities() {
        W::ALL
    } else {
        !(W::ALL << usize::from(a))
    }
}
