//! The functions of the proved library `port`, as every implementation offers them.
//! Numbers and bytes only, so that results can be compared to the byte.
use crate::value::{Answer, PlainGraph, Request};

/// number + 256 x length; the lent buffer receives the file.
pub type Fill = fn(&[u8], &mut [u8]) -> u64;

/// The same of a log, in the profile with this number (02, 3/12): 0 full, 1 light, and 12
/// for any other. The lent buffer receives the graph file, the listing or the summary.
pub type Mining = fn(&[u8], u8, &mut [u8]) -> u64;

pub const FULL: u8 = 0;
pub const LIGHT: u8 = 1;

/// A plain graph, and a marking or a trace beside it.
pub type OnPlain = fn(&PlainGraph, &[u8]) -> u64;

#[derive(Clone, Copy)]
pub struct Door {
    pub name: &'static str,
    /// log, profile, graph file
    pub mine: Mining,
    /// log, profile, listing; the number is the log's, the text is there in either case
    pub listing: Mining,
    /// log, profile, summary -> number
    pub summary: Mining,
    /// graph file, trace -> number + 256 x place + 2^32 where accepting + 2^40 x blocker
    pub replay: fn(&[u8], &[u8]) -> u64,
    /// graph file, graph file
    pub rewrite: Fill,
    /// graph file, marking: the graph's opening one (with fewer than `Form::marking` bytes 7) -> number
    pub opening: Fill,
    /// graph file, marking (with fewer than `Form::marking` bytes 7), activity
    /// -> number + 2^40 x blocker
    pub step: fn(&[u8], &mut [u8], u8) -> u64,
    /// graph file, marking (with fewer than `Form::marking` bytes 7), the four steps of the way (with
    /// fewer than four bytes 7) -> number
    pub finish: fn(&[u8], &[u8], &mut [u8]) -> u64,
    /// graph file, trace, activity -> number + 256 x what shut it out, 255 where nothing did
    pub shut_by: fn(&[u8], &[u8], u8) -> u64,
    /// graph file, log, labels -> number + 2^8 x TP + 2^20 x FP + 2^32 x FN + 2^44 x TN
    pub marks: fn(&[u8], &[u8], &[u8]) -> u64,
    /// graph file, log, labels, text (with less room than `MARKS_ROOM` 7) -> number + 256 x length
    pub marks_text: fn(&[u8], &[u8], &[u8], &mut [u8]) -> u64,
    /// guesses, labels, text -> the same
    pub guesses_text: fn(&[u8], &[u8], &mut [u8]) -> u64,
    /// graph file, log, a byte for each trace -> number + 256 x traces
    pub replays: fn(&[u8], &[u8], &mut [u8]) -> u64,
    /// the plain engine's step: marking, activity -> number + 2^40 x blocker
    pub plain_step: fn(&PlainGraph, &mut [u8], u8) -> u64,
    /// marking -> number + 2^32 where accepting
    pub plain_accepting: OnPlain,
    /// trace -> number + 256 x place + 2^32 where accepting + 2^40 x blocker
    pub plain_replay: OnPlain,
    /// graph file, relation, memory -> number + 256 x pairs
    pub fill: fn(&[u8], u8, &mut [u16]) -> u64,
    /// graph file, table of places -> number + 256 x place, 255 where refused
    pub desk_open: Fill,
    /// graph file, table, place, activity -> number + 2^40 x blocker
    pub desk_step: fn(&[u8], &mut [u8], usize, u8) -> u64,
    /// graph file, table, place -> number
    pub desk_close: fn(&[u8], &mut [u8], usize) -> u64,
    /// graph file, table, place, the four steps of the way (with fewer than four bytes 7)
    /// -> number; the table is only looked at
    pub desk_finish: fn(&[u8], &[u8], usize, &mut [u8]) -> u64,
    /// log, tally -> number
    pub tally: Fill,
    /// tally, another beside it, which is only looked at -> number
    pub tally_join: fn(&mut [u8], &[u8]) -> u64,
    /// tally, profile, relations (with less room than `RELATIONS_ROOM` 7) -> number
    pub tally_relations: Mining,
}

/// How a set stands in bytes, and with it all that is lent: 8 bytes where A is at most 64, 16 above (02, 10/12). A caller with A up
/// to 64 lends what he lent before.
#[derive(Clone, Copy, PartialEq, Eq, Debug)]
pub struct Form {
    /// the bytes of a set
    pub set: usize,
}

impl Form {
    pub const NARROW: Form = Form { set: 8 };
    pub const WIDE: Form = Form { set: 16 };

    /// By A, where there is no file.
    pub const fn of(a: u8) -> Form {
        if a > 64 {
            Form::WIDE
        } else {
            Form::NARROW
        }
    }

    /// By the edition of a file or log, whatever else it holds.
    pub fn in_file(bytes: &[u8]) -> Form {
        match bytes.get(2) {
            Some(2) => Form::WIDE,
            _ => Form::NARROW,
        }
    }

    pub const fn activities(self) -> usize {
        8 * self.set
    }

    /// A lent marking: executed, pending, included, enabled (02, 6/12).
    pub const fn marking(self) -> usize {
        4 * self.set
    }

    /// A plain graph's head: A, events, and a marking, which begins at `head_marking`.
    pub const fn head_marking(self) -> usize {
        1 + self.set
    }

    pub const fn head(self) -> usize {
        self.head_marking() + self.marking()
    }

    /// The part of a graph file that such a head begins with: A, events and three sets. The file has no fourth.
    pub const fn file_head(self) -> std::ops::Range<usize> {
        3..4 + 4 * self.set
    }

    /// A desk's place: a byte, 0 where it is free, then its marking; and the table of all.
    pub const fn place(self) -> usize {
        1 + self.marking()
    }

    pub const fn table(self) -> usize {
        PLACES * self.place()
    }

    /// A byte for each activity: how many others it is a condition for, then, in as many bytes
    /// more, how many others it excludes.
    pub const fn summary(self) -> usize {
        2 * self.activities()
    }

    /// A graph file's first row; a row; and no graph file is longer.
    pub const fn first_row(self) -> usize {
        20 + 4 * self.set
    }

    pub const fn row(self) -> usize {
        1 + self.set
    }

    pub const fn graph(self) -> usize {
        self.first_row() + 4 * self.activities() * self.row()
    }

    /// No listing is longer: the first line, four relations of lines of 8 or 10 bytes, 1,024 lines of
    /// at most 16. Less room is refused.
    pub const fn listing(self) -> usize {
        let (first, pair) = if self.set == 8 { (50, 8) } else { (55, 10) };
        first + 4 * self.activities() * self.activities() * pair + 1024 * 16
    }
}

/// Room for any listing and for any graph file.
pub const LISTING_ROOM: usize = Form::WIDE.listing();
pub const GRAPH_ROOM: usize = Form::WIDE.graph();

/// No text of marks is longer; less room is refused.
pub const MARKS_ROOM: usize = 98;

/// A way out has four places.
pub const WAY: usize = 4;

/// Stands in an activity's stead where there is none.
pub const NO_ACTIVITY: u8 = 255;

/// A tally (02, 12/12), and the most activities that it has.
pub const TALLY_ROOM: usize = 36_864;
pub const TALLIED: u8 = 64;

/// What a tally gives: A, the events, and the rows of four relations.
pub const RELATIONS_ROOM: usize = 1 + 8 + 4 * 64 * 8;

/// A desk's places.
pub const PLACES: usize = 32;

/// Stands in a place's stead where open is refused.
pub const NO_PLACE: usize = 255;

/// No relation has more pairs, and no list may, whatever A is.
pub const MOST_PAIRS: usize = 16_384;

pub fn filled(number: u8, length: usize) -> u64 {
    u64::from(number) + 256 * length as u64
}

/// The length of a graph file that was written, or the number of a refusal.
pub fn written(outcome: Result<usize, u8>) -> u64 {
    match outcome {
        Ok(length) => filled(0, length),
        Err(number) => filled(number, 0),
    }
}

/// The place that was opened, or the number of a refusal.
pub fn opened(outcome: Result<usize, u8>) -> u64 {
    match outcome {
        Ok(place) => filled(0, place),
        Err(number) => filled(number, NO_PLACE),
    }
}

/// Whether a marking is accepting, or the number of a refusal: 10 is never given here.
pub fn verdict(outcome: Result<bool, u8>) -> u64 {
    match outcome {
        Ok(accepting) => u64::from(accepting) << 32,
        Err(number) => u64::from(number),
    }
}

/// The four counts of marks, 12 bits each, in the order TP, FP, FN, TN; or a refusal's number.
pub fn marked(outcome: Result<[usize; 4], u8>) -> u64 {
    match outcome {
        Ok(counts) => counts
            .iter()
            .rev()
            .fold(0, |above, &count| (above << 12) + count as u64)
            .wrapping_shl(8),
        Err(number) => u64::from(number),
    }
}

/// A text of marks and the number beside it, or 7 where there might be too little room.
pub fn marks_put(text: &str, number: u8, out: &mut [u8]) -> u64 {
    if out.len() < MARKS_ROOM {
        return filled(7, 0);
    }
    out[..text.len()].copy_from_slice(text.as_bytes());
    filled(number, text.len())
}

/// A way out into the first bytes, or the number of a refusal, which leaves them.
pub fn finished(outcome: Result<[u8; WAY], u8>, lent: &mut [u8]) -> u64 {
    match outcome {
        Ok(way) => {
            lent[..WAY].copy_from_slice(&way);
            0
        }
        Err(number) => u64::from(number),
    }
}

/// What shut an activity out, or the number of a refusal.
pub fn shut(outcome: Result<u8, u8>) -> u64 {
    match outcome {
        Ok(by) => filled(0, usize::from(by)),
        Err(number) => filled(number, usize::from(NO_ACTIVITY)),
    }
}

/// Where 10 may be given the blocker stands above the rest.
pub fn replayed(answer: impl Into<Answer>, place: usize, accepting: bool) -> u64 {
    let Answer { number, blocker } = answer.into();
    filled(number, place) + (u64::from(accepting) << 32) + (u64::from(blocker) << 40)
}

pub fn stepped(outcome: Result<(), Answer>) -> u64 {
    replayed(outcome.err().unwrap_or(Answer::from(0)), 0, false)
}

/// A request made of one implementation's desk.
pub fn asked(door: &Door, file: &[u8], table: &mut [u8], request: Request) -> u64 {
    match request {
        Request::Open => (door.desk_open)(file, table),
        Request::Step(place, e) => (door.desk_step)(file, table, place, e),
        Request::Close(place) => (door.desk_close)(file, table, place),
    }
}
