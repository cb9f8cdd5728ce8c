//! Marks, their text, the marks of guesses, and all replays of a log at once, asked of each
//! implementation with the same bytes.
use super::record::{Call, Function};
use super::{decimal, Comparison};
use crate::door::MARKS_ROOM;
use crate::judge::door::DOOR as JUDGE;
use crate::judge::log;
use crate::seeds::{marks, Prng};

const UNTOUCHED: u8 = 165;

/// How many graphs with a log, and how many guesses, a round has.
const CASES: usize = 6;
const GUESSES: usize = 4;

impl Comparison {
    fn marks(&mut self, file: &[u8], tried: &[u8], labels: &[u8], room: usize) {
        let wanted = (JUDGE.marks)(file, tried, labels);
        let mut text = vec![UNTOUCHED; room];
        let told = (JUDGE.marks_text)(file, tried, labels, &mut text);
        self.saw("marks", wanted as u8);
        self.saw("marks text", told as u8);
        let both = [tried, labels].concat();
        for (function, result, after) in [
            (Function::Marks, wanted, &[][..]),
            (Function::MarksText, told, &text),
        ] {
            self.keep_beside(function, file, &both, tried.len(), result, after);
        }
        for other in self.others.clone() {
            let mut lent = vec![UNTOUCHED; room];
            let counts = (other.marks)(file, tried, labels);
            let given = (other.marks_text)(file, tried, labels, &mut lent);
            if counts != wanted || given != told || lent != text {
                self.differ("marks", other.name, || {
                    let (file, log, labels) = (decimal(file), decimal(tried), decimal(labels));
                    let (judge, theirs) = (decimal(&text), decimal(&lent));
                    format!(
                        "file {file}\nlog {log}\nlabels {labels}\nroom {room}\n\
                         judge {wanted}, {told}, text {judge}\n\
                         other {counts}, {given}, text {theirs}"
                    )
                });
            }
        }
    }

    fn guesses(&mut self, guesses: &[u8], labels: &[u8], room: usize) {
        self.beside(
            ("guesses text", Function::GuessesText),
            |door| door.guesses_text,
            (guesses, labels),
            room,
        );
    }

    fn replays(&mut self, file: &[u8], tried: &[u8], room: usize) {
        self.beside(
            ("replays", Function::Replays),
            |door| door.replays,
            (file, tried),
            room,
        );
    }

    /// A function of bytes and bytes beside them, which writes into what is lent.
    fn beside(
        &mut self,
        (name, function): (&'static str, Function),
        of: fn(&crate::door::Door) -> fn(&[u8], &[u8], &mut [u8]) -> u64,
        (first, second): (&[u8], &[u8]),
        room: usize,
    ) {
        let mut after = vec![UNTOUCHED; room];
        let wanted = of(&JUDGE)(first, second, &mut after);
        self.saw(name, wanted as u8);
        self.keep_beside(function, first, second, 0, wanted, &after);
        for other in self.others.clone() {
            let mut lent = vec![UNTOUCHED; room];
            let given = of(&other)(first, second, &mut lent);
            if given != wanted || lent != after {
                self.differ(name, other.name, || {
                    let (first, second) = (decimal(first), decimal(second));
                    let (judge, theirs) = (decimal(&after), decimal(&lent));
                    format!(
                        "first {first}\nsecond {second}\nroom {room}\n\
                         judge {wanted}, bytes {judge}\nother {given}, bytes {theirs}"
                    )
                });
            }
        }
    }

    fn keep_beside(
        &mut self,
        function: Function,
        input: &[u8],
        beside: &[u8],
        place: usize,
        result: u64,
        after: &[u8],
    ) {
        self.record.keep(&Call {
            function,
            input,
            lists: None,
            beside,
            room: after.len(),
            place,
            activity: 0,
            result,
            after,
        });
    }
}

/// Guesses and labels of 0 to 3 bytes, all values to 2; then the limit.
pub fn once(comparison: &mut Comparison) {
    let all: Vec<Vec<u8>> = (0..=3u32)
        .flat_map(|count| {
            (0..3u32.pow(count))
                .map(move |k| (0..count).map(|i| (k / 3u32.pow(i) % 3) as u8).collect())
        })
        .collect();
    for guesses in &all {
        for labels in &all {
            comparison.input("guesses: all of three");
            comparison.guesses(guesses, labels, MARKS_ROOM);
        }
    }
    for count in [1023, 1024, 1025] {
        comparison.input("guesses: the limit");
        comparison.guesses(&vec![1; count], &vec![1; count], MARKS_ROOM);
        comparison.guesses(&vec![2; count], &vec![0; count], MARKS_ROOM);
        comparison.guesses(&vec![1; count - 1], &vec![2; count], MARKS_ROOM);
    }
}

pub fn round(comparison: &mut Comparison, prng: &mut Prng) {
    for _ in 0..CASES {
        comparison.input("marks");
        let (file, tried) = marks::case(prng);
        let count = log::read(&tried).map_or(3, |log| log.traces.len());
        let labels = marks::labels(prng, count);
        let room = prng.one_of(&[MARKS_ROOM, MARKS_ROOM, MARKS_ROOM + 5, MARKS_ROOM - 1, 0]);
        comparison.marks(&file, &tried, &labels, room);
        comparison.replays(
            &file,
            &tried,
            prng.one_of(&[count, count + 3, count.max(1) - 1]),
        );
    }
    for _ in 0..GUESSES {
        comparison.input("guesses");
        let count = prng.one_of(&[0, 1, 2, 5, 40, 300]);
        let labels = marks::labels(prng, count);
        let guesses = marks::labels(prng, count);
        let room = prng.one_of(&[MARKS_ROOM, MARKS_ROOM, MARKS_ROOM + 1, MARKS_ROOM - 1]);
        comparison.guesses(&guesses, &labels, room);
    }
}
