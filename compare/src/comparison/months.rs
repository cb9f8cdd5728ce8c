//! Months put together: logs into tallies, tallies joined in any order and grouping, and the
//! relations read from them, asked of each implementation with the same bytes. What comes of a year
//! is held to steps 1 to 8 on all calls together, and the laws of joining to each implementation.
use super::doors::Filling;
use super::record::{Call, Function};
use super::{decimal, Comparison};
use crate::door::{Door, FULL, LIGHT, RELATIONS_ROOM, TALLY_ROOM};
use crate::judge::door::{relations_bytes, DOOR as JUDGE};
use crate::judge::log;
use crate::judge::miner::Profile;
use crate::judge::months::{bytes, facts_of, relations};
use crate::seeds::logs::spread;
use crate::seeds::{damage, log_file, months, Prng};

impl Comparison {
    /// The judge's number, and its tally.
    fn tally(&mut self, log: &[u8], room: usize) -> (u8, Vec<u8>) {
        let filling = Filling {
            named: "tally",
            kept_as: Function::Tally,
            profile: FULL,
            call: |door, log, _, lent| (door.tally)(log, lent),
        };
        let (number, tally) = self.filled(filling, log, room);
        (number as u8, tally)
    }

    fn tally_relations(&mut self, tally: &[u8], profile: u8, room: usize) -> Vec<u8> {
        let filling = Filling {
            named: match profile {
                FULL => "tally relations",
                LIGHT => "relations, light",
                _ => "no profile",
            },
            kept_as: Function::TallyRelations,
            profile,
            call: |door, tally, profile, lent| (door.tally_relations)(tally, profile, lent),
        };
        self.filled(filling, tally, room).1
    }

    /// The judge's joined tally.
    fn tally_join(&mut self, tally: &[u8], other: &[u8]) -> Vec<u8> {
        let mut after = tally.to_vec();
        let wanted = (JUDGE.tally_join)(&mut after, other);
        self.saw("tally join", wanted as u8);
        self.record.keep(&Call {
            function: Function::TallyJoin,
            input: other,
            lists: None,
            beside: tally,
            room: tally.len(),
            activity: 0,
            place: 0,
            result: wanted,
            after: &after,
        });
        for door in self.others.clone() {
            let mut lent = tally.to_vec();
            let given = (door.tally_join)(&mut lent, other);
            if given != wanted || lent != after {
                self.differ("tally join", door.name, || {
                    let (tally, other) = (decimal(tally), decimal(other));
                    format!("tally {tally}\nother {other}\njudge {wanted}\nother {given}")
                });
            }
        }
        after
    }

    /// "Joining two tallies gives the tally of the two months' traces taken together", and "the
    /// relations after step 8 read from the tally are those of 01 on the combined traces".
    fn year(&mut self, prng: &mut Prng, logs: &[Vec<u8>]) -> Vec<u8> {
        let tallies: Vec<Vec<u8>> = logs.iter().map(|l| self.tally(l, TALLY_ROOM).1).collect();
        let joined = self.grouped(prng, tallies);
        let read: Vec<log::Log> = logs.iter().map(|l| log::read(l).expect("sound")).collect();
        let a = read.iter().map(|log| log.a).max().unwrap_or(0);
        let traces: Vec<Vec<u8>> = read.into_iter().flat_map(|log| log.traces).collect();
        let facts = facts_of(&traces);
        let mut same = joined == bytes(a, &facts);
        for (number, profile) in [(FULL, Profile::Full), (LIGHT, Profile::Light)] {
            let given = self.tally_relations(&joined, number, RELATIONS_ROOM);
            let known = relations(&facts, profile);
            same &= given == relations_bytes(a, &facts.events, &known);
        }
        if !same {
            self.differ("year", "all calls together", || {
                logs.iter().map(|log| decimal(log) + "\n").collect()
            });
        }
        joined
    }

    /// Any two are joined until one is left.
    fn grouped(&mut self, prng: &mut Prng, mut tallies: Vec<Vec<u8>>) -> Vec<u8> {
        while tallies.len() > 1 {
            let one = tallies.swap_remove(prng.below(tallies.len()));
            let other = tallies.swap_remove(prng.below(tallies.len()));
            tallies.push(self.tally_join(&one, &other));
        }
        tallies.pop().expect("a year has a month")
    }

    /// The laws, by each implementation alone.
    fn laws(&mut self, [x, y, z]: [&[u8]; 3], none: &[u8]) {
        let mut doors = vec![JUDGE];
        doors.extend(self.others.clone());
        for door in doors {
            let held = [
                ("either first", join(&door, x, y) == join(&door, y, x)),
                (
                    "any grouping",
                    join(&door, &join(&door, x, y), z) == join(&door, x, &join(&door, y, z)),
                ),
                ("twice", join(&door, x, x) == x),
                ("none first", join(&door, none, x) == x),
                ("none last", join(&door, x, none) == x),
            ];
            for (law, held) in held {
                self.input("months: a law");
                if !held {
                    self.differ(law, door.name, || [x, y, z].map(decimal).join("\n"));
                }
            }
        }
    }
}

fn join(door: &Door, tally: &[u8], other: &[u8]) -> Vec<u8> {
    let mut lent = tally.to_vec();
    assert_eq!((door.tally_join)(&mut lent, other), 0, "sound tallies");
    lent
}

/// More calls than a log can have, and more events.
pub fn once(comparison: &mut Comparison, prng: &mut Prng) {
    comparison.input("months: large");
    let logs = months::large(prng);
    comparison.year(prng, &logs);
    let (_, none) = comparison.tally(&log_file(0, &[]), TALLY_ROOM);
    // "then 3 for a log's or a tally's A above 64", after 7
    for a in [64, 65, 97, 128] {
        let log = log_file(a, &[vec![a - 1]]);
        for room in [TALLY_ROOM - 1, TALLY_ROOM, TALLY_ROOM + 1] {
            comparison.tally(&log, room);
        }
    }
    for a in [64, 65, 97, 128, 129, 255] {
        let mut tally = none.clone();
        tally[0] = a;
        for profile in [FULL, LIGHT, 2, 255] {
            comparison.tally_relations(&tally, profile, RELATIONS_ROOM);
            comparison.tally_relations(&tally, profile, RELATIONS_ROOM - 1);
            comparison.tally_relations(&tally[1..], profile, RELATIONS_ROOM);
        }
        for other in [&none[..], &tally, &tally[1..]] {
            comparison.tally_join(&tally, other);
            comparison.tally_join(other, &tally);
        }
    }
}

pub fn round(comparison: &mut Comparison, prng: &mut Prng) {
    comparison.input("months: a year");
    let logs = months::year(prng);
    let joined = comparison.year(prng, &logs);
    comparison.input("months: damaged");
    let log = match prng.below(6) {
        0 | 1 => damage::log(prng, &logs[0]),
        2 => spread(prng, &logs[0]),
        _ => logs[0].clone(),
    };
    let (_, short) = comparison.tally(&log, TALLY_ROOM - 1);
    comparison.tally(&log, TALLY_ROOM + prng.one_of(&[0, 1, 40]));
    let damaged = months::damaged(prng, &joined);
    let resized = months::resized(prng, &joined);
    let profile = prng.one_of(&[FULL, FULL, FULL, LIGHT, 2]);
    let room = prng.one_of(&[RELATIONS_ROOM, RELATIONS_ROOM + 9, RELATIONS_ROOM - 1]);
    comparison.tally_relations(&damaged, profile, room);
    comparison.tally_relations(&resized, profile, room);
    comparison.tally_join(&joined, &damaged);
    comparison.tally_join(&damaged, &resized);
    comparison.tally_join(&resized, prng.one_of(&[&damaged[..], &joined, &short]));
    if joined[0] <= 64 && damaged[0] <= 64 {
        let first = comparison.tally(&logs[0], TALLY_ROOM).1;
        let none = comparison.tally(&log_file(0, &[]), TALLY_ROOM).1;
        comparison.laws([&joined, &first, &damaged], &none);
    }
}
