//! The seven functions of `port` on files, called on each implementation with the same bytes. Lent
//! buffers start with a pattern, so that a byte written where none should be shows.
use super::record::{Call, Function};
use super::{decimal, Comparison};
use crate::door::{Door, FULL};
use crate::judge::door::DOOR as JUDGE;

const UNTOUCHED: u8 = 165;

/// A function that fills lent bytes: what it is called in the tables and in the record, the
/// number of the profile, or 0 where it takes none, and the call itself.
#[derive(Clone, Copy)]
pub(super) struct Filling {
    pub named: &'static str,
    pub kept_as: Function,
    pub profile: u8,
    pub call: fn(&Door, &[u8], u8, &mut [u8]) -> u64,
}

impl Filling {
    fn by(&self, door: &Door, input: &[u8], room: usize) -> (u64, Vec<u8>) {
        let mut lent = vec![UNTOUCHED; room];
        let result = (self.call)(door, input, self.profile, &mut lent);
        (result, lent)
    }
}

/// The name for a profile: those that there are not have a line of their own.
fn in_profile(profile: u8, names: [&'static str; 2]) -> &'static str {
    names
        .get(usize::from(profile))
        .copied()
        .unwrap_or("no profile")
}

fn shown(result: u64, lent: &[u8]) -> String {
    let end = lent
        .iter()
        .rposition(|&byte| byte != UNTOUCHED)
        .map_or(0, |last| last + 1);
    format!(
        "{} with {}, lent bytes {}",
        result % 256,
        result / 256,
        decimal(&lent[..end])
    )
}

impl Comparison {
    /// The judge's result and lent bytes, after comparing the others with them.
    pub(super) fn filled(&mut self, filling: Filling, input: &[u8], room: usize) -> (u64, Vec<u8>) {
        let (wanted, lent) = filling.by(&JUDGE, input, room);
        self.saw(filling.named, wanted as u8);
        self.record.keep(&Call {
            function: filling.kept_as,
            input,
            lists: None,
            beside: &[],
            room,
            activity: filling.profile,
            place: 0,
            result: wanted,
            after: &lent,
        });
        for other in self.others.clone() {
            let (result, bytes) = filling.by(&other, input, room);
            if result != wanted || bytes != lent {
                self.differ(filling.named, other.name, || {
                    let judge = shown(wanted, &lent);
                    let theirs = shown(result, &bytes);
                    let (bytes, profile) = (decimal(input), filling.profile);
                    format!("input {bytes}\nprofile {profile}\nroom {room}\njudge {judge}\nother {theirs}")
                });
            }
        }
        (wanted, lent)
    }

    /// Gives the graph file where the log is accepted.
    pub fn mine(&mut self, log: &[u8], profile: u8, room: usize) -> Option<Vec<u8>> {
        let filling = Filling {
            named: in_profile(profile, ["mine", "mine, light"]),
            kept_as: Function::Mine,
            profile,
            call: |door, log, profile, lent| (door.mine)(log, profile, lent),
        };
        let (result, mut file) = self.filled(filling, log, room);
        file.truncate((result / 256) as usize);
        (result % 256 == 0).then_some(file)
    }

    pub fn listing(&mut self, log: &[u8], profile: u8, room: usize) {
        let filling = Filling {
            named: in_profile(profile, ["listing", "listing, light"]),
            kept_as: Function::Listing,
            profile,
            call: |door, log, profile, lent| (door.listing)(log, profile, lent),
        };
        self.filled(filling, log, room);
    }

    pub fn summary(&mut self, log: &[u8], profile: u8, room: usize) {
        let filling = Filling {
            named: in_profile(profile, ["summary", "summary"]),
            kept_as: Function::Summary,
            profile,
            call: |door, log, profile, lent| (door.summary)(log, profile, lent),
        };
        self.filled(filling, log, room);
    }

    pub fn rewrite(&mut self, file: &[u8], room: usize) {
        let filling = Filling {
            named: "rewrite",
            kept_as: Function::Rewrite,
            profile: FULL,
            call: |door, file, _, lent| (door.rewrite)(file, lent),
        };
        self.filled(filling, file, room);
    }

    /// Gives the judge's marking; as it was lent where the file is refused.
    pub fn opening(&mut self, file: &[u8], room: usize) -> Vec<u8> {
        let filling = Filling {
            named: "opening",
            kept_as: Function::Opening,
            profile: FULL,
            call: |door, file, _, lent| (door.opening)(file, lent),
        };
        self.filled(filling, file, room).1
    }

    pub fn replay(&mut self, file: &[u8], trace: &[u8]) {
        let wanted = (JUDGE.replay)(file, trace);
        self.saw("replay", wanted as u8);
        self.record.keep(&Call {
            function: Function::Replay,
            input: file,
            lists: None,
            beside: trace,
            room: 0,
            activity: 0,
            place: 0,
            result: wanted,
            after: &[],
        });
        for other in self.others.clone() {
            let result = (other.replay)(file, trace);
            if result != wanted {
                self.differ("replay", other.name, || {
                    let (file, trace) = (decimal(file), decimal(trace));
                    format!("file {file}\ntrace {trace}\njudge {wanted}\nother {result}")
                });
            }
        }
    }

    pub fn step(&mut self, file: &[u8], marking: &[u8], activity: u8) {
        let mut after = marking.to_vec();
        let wanted = (JUDGE.step)(file, &mut after, activity);
        self.saw("step", wanted as u8);
        self.record.keep(&Call {
            function: Function::Step,
            input: file,
            lists: None,
            beside: marking,
            room: marking.len(),
            activity,
            place: 0,
            result: wanted,
            after: &after,
        });
        for other in self.others.clone() {
            let mut lent = marking.to_vec();
            let result = (other.step)(file, &mut lent, activity);
            if result != wanted || lent != after {
                self.differ("step", other.name, || {
                    let (file, from) = (decimal(file), decimal(marking));
                    let (judge, theirs) = (decimal(&after), decimal(&lent));
                    format!(
                        "file {file}\nmarking {from}\nactivity {activity}\n\
                         judge {wanted}, marking {judge}\nother {result}, marking {theirs}"
                    )
                });
            }
        }
    }
}
