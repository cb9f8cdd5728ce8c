//! Plain data that crosses between the implementations. No rule of 01 is decided here.

/// Any four sets, bit a for activity a: the last may be another than the set of enabled events (02, 6/12).
#[derive(Clone, Copy, PartialEq, Eq, Debug, Default)]
pub struct MarkingOf<W> {
    pub executed: W,
    pub pending: W,
    pub included: W,
    pub enabled: W,
}

/// A graph as a value: nothing about it is promised, it may be one that 01 refuses. One set for each
/// activity number; the rows of `conditions` are kept by target, the other three by source.
#[derive(Clone, PartialEq, Eq, Debug)]
pub struct GraphOf<W, const N: usize> {
    pub a: u8,
    pub events: W,
    pub marking: MarkingOf<W>,
    pub conditions: [W; N],
    pub responses: [W; N],
    pub includes: [W; N],
    pub excludes: [W; N],
}

/// With room for either size: up to 128 activities (02, 10/12).
pub type GraphValue = GraphOf<u128, 128>;
pub type MarkingValue = MarkingOf<u128>;
pub type Rows = [u128; 128];

impl<W: Copy + Default, const N: usize> GraphOf<W, N> {
    #[inline(always)]
    pub fn empty() -> GraphOf<W, N> {
        GraphOf {
            a: 0,
            events: W::default(),
            marking: MarkingOf::default(),
            conditions: [W::default(); N],
            responses: [W::default(); N],
            includes: [W::default(); N],
            excludes: [W::default(); N],
        }
    }
}

impl GraphValue {
    pub const EMPTY: GraphValue = GraphOf {
        a: 0,
        events: 0,
        marking: MarkingOf {
            executed: 0,
            pending: 0,
            included: 0,
            enabled: 0,
        },
        conditions: [0; 128],
        responses: [0; 128],
        includes: [0; 128],
        excludes: [0; 128],
    };
}

/// A graph as the plain engine has it (02, 1/12): the bytes of its head, and its lists of
/// pairs in 01's order, conditions, responses, includes, excludes. Any bytes, any numbers.
#[derive(Clone, PartialEq, Eq, Debug, Default)]
pub struct PlainGraph {
    pub head: Vec<u8>,
    pub lists: [Vec<u16>; 4],
}

/// What stands where there is no blocker.
pub const NO_BLOCKER: u8 = 255;

/// The number of a step or a replay, and the activity that blocks (02, 2/12).
#[derive(Clone, Copy, PartialEq, Eq, Debug)]
pub struct Answer {
    pub number: u8,
    pub blocker: u8,
}

/// Any number but 10.
impl From<u8> for Answer {
    fn from(number: u8) -> Answer {
        Answer {
            number,
            blocker: NO_BLOCKER,
        }
    }
}

/// What is asked of the call desk (02, 5/12): a step names a place and an activity. Any place is
/// a number.
#[derive(Clone, Copy, PartialEq, Eq, Debug)]
pub enum Request {
    Open,
    Step(usize, u8),
    Close(usize),
}

/// What replay returns.
#[derive(Clone, Copy, PartialEq, Eq, Debug)]
pub struct ReplayedOf<W> {
    pub answer: Answer,
    pub place: usize,
    pub marking: MarkingOf<W>,
    pub accepting: bool,
}

pub type Replayed = ReplayedOf<u128>;

impl<W: Default> ReplayedOf<W> {
    /// Refused before the first event was looked at.
    pub fn refused(number: u8) -> ReplayedOf<W> {
        ReplayedOf {
            answer: number.into(),
            place: 0,
            marking: MarkingOf::default(),
            accepting: false,
        }
    }
}
