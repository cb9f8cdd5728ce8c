//! `recorded FILE`: makes the calls of a record again (`compare --record=FILE`, of this or of an older comparison) on judge, yardstick
//! and, where it is linked, the proved code, and holds each to the number and the bytes that the record has. So what was answered before
//! 10/12 can be held to what is answered now; the calls that 10/12 speaks of are counted and left out.
use compare::comparison::record::{hash, Function, FUNCTIONS};
use compare::door::Door;
use compare::value::PlainGraph;
use compare::{judge, port, yardstick};
use std::process::ExitCode;

struct Call {
    function: Function,
    activity: u8,
    place: usize,
    room: usize,
    graph: PlainGraph,
    beside: Vec<u8>,
    result: u64,
    after: u64,
}

struct Reader<'a> {
    rest: &'a [u8],
}

impl Reader<'_> {
    fn bytes(&mut self, count: usize) -> Option<Vec<u8>> {
        let (part, rest) = self.rest.split_at_checked(count)?;
        self.rest = rest;
        Some(part.to_vec())
    }

    fn number(&mut self, bytes: usize) -> Option<u64> {
        let part = self.bytes(bytes)?;
        Some(
            part.iter()
                .rev()
                .fold(0, |n, &byte| n << 8 | u64::from(byte)),
        )
    }

    fn part(&mut self) -> Option<Vec<u8>> {
        let length = self.number(4)?;
        self.bytes(length as usize)
    }

    /// None at the end, which is a number that no function has.
    fn call(&mut self) -> Option<Call> {
        let function = *FUNCTIONS.get(self.number(1)? as usize)?;
        let activity = self.number(1)? as u8;
        let (place, room) = (self.number(8)? as usize, self.number(4)? as usize);
        let (head, beside) = (self.part()?, self.part()?);
        let mut lists: [Vec<u16>; 4] = Default::default();
        if is_plain(function) {
            for list in &mut lists {
                let pairs = self.part()?;
                *list = pairs
                    .chunks(2)
                    .map(|p| u16::from_le_bytes([p[0], p[1]]))
                    .collect();
            }
        }
        Some(Call {
            function,
            activity,
            place,
            room,
            graph: PlainGraph { head, lists },
            beside,
            result: self.number(8)?,
            after: self.number(8)?,
        })
    }
}

fn is_plain(function: Function) -> bool {
    use Function::*;
    matches!(function, PlainStep | PlainAccepting | PlainReplay)
}

/// Whether 02's 10/12 has another answer for such a call: edition 2, a head with A above 64, a list that was too long.
fn is_changed(call: &Call) -> bool {
    use Function::*;
    let edition_2 = |bytes: &[u8]| bytes.get(2) == Some(&2);
    let input = &call.graph.head;
    match call.function {
        PlainStep | PlainAccepting | PlainReplay => {
            let long = call.graph.lists.iter().any(|list| list.len() > 4096);
            input.first() > Some(&64) || long
        }
        GuessesText | TallyJoin | TallyRelations => false,
        Marks | MarksText | Replays => edition_2(input) || edition_2(&call.beside),
        _ => edition_2(input),
    }
}

/// What comes back, and what was lent after it.
fn made(door: &Door, call: &Call) -> (u64, Vec<u8>) {
    use Function::*;
    let (input, beside, activity) = (&call.graph.head[..], &call.beside[..], call.activity);
    let mut lent = match call.function {
        Step | PlainStep | DeskOpen | DeskStep | DeskClose | TallyJoin => beside.to_vec(),
        _ => vec![165; call.room],
    };
    let out = &mut lent[..];
    let given = match call.function {
        Mine => (door.mine)(input, activity, out),
        Listing => (door.listing)(input, activity, out),
        Rewrite => (door.rewrite)(input, out),
        Replay => (door.replay)(input, beside),
        Step => (door.step)(input, out, activity),
        PlainStep => (door.plain_step)(&call.graph, out, activity),
        PlainAccepting => (door.plain_accepting)(&call.graph, beside),
        PlainReplay => (door.plain_replay)(&call.graph, beside),
        Fill => {
            let mut memory = vec![165 * 257; call.room / 2];
            let given = (door.fill)(input, activity, &mut memory);
            lent = memory
                .iter()
                .flat_map(|pair: &u16| pair.to_le_bytes())
                .collect();
            given
        }
        Summary => (door.summary)(input, activity, out),
        DeskOpen => (door.desk_open)(input, out),
        DeskStep => (door.desk_step)(input, out, call.place, activity),
        DeskClose => (door.desk_close)(input, out, call.place),
        Finish => (door.finish)(input, beside, out),
        ShutBy => (door.shut_by)(input, beside, activity),
        Opening => (door.opening)(input, out),
        Marks => (door.marks)(input, &beside[..call.place], &beside[call.place..]),
        MarksText => {
            let (log, labels) = beside.split_at(call.place);
            (door.marks_text)(input, log, labels, out)
        }
        GuessesText => (door.guesses_text)(input, beside, out),
        Replays => (door.replays)(input, beside, out),
        DeskFinish => (door.desk_finish)(input, beside, call.place, out),
        Tally => (door.tally)(input, out),
        TallyJoin => (door.tally_join)(out, input),
        TallyRelations => (door.tally_relations)(input, activity, out),
    };
    (given, lent)
}

fn main() -> ExitCode {
    let Some(Ok(record)) = std::env::args().nth(1).map(std::fs::read) else {
        eprintln!("recorded FILE, a record that can be read");
        return ExitCode::from(2);
    };
    let mut doors = vec![judge::door::DOOR, yardstick::door::DOOR];
    doors.extend(port::door());
    let mut reader = Reader { rest: &record };
    let (mut held, mut left_out, mut different) = (0u64, 0u64, 0u64);
    while reader.rest.first().is_some_and(|&function| function != 255) {
        let Some(call) = reader.call() else {
            println!("not a record");
            return ExitCode::from(2);
        };
        if is_changed(&call) {
            left_out += 1;
            continue;
        }
        held += 1;
        for door in &doors {
            let (given, lent) = made(door, &call);
            if given != call.result || hash(&lent) != call.after {
                different += 1;
                let name = door.name;
                println!(
                    "{name}: function {}, {given} and not {}",
                    call.function as u8, call.result
                );
            }
        }
    }
    let whole = reader.bytes(1).is_some() && reader.number(8) == Some(held + left_out);
    let names: Vec<&str> = doors.iter().map(|door| door.name).collect();
    let names = names.join(", ");
    println!("{held} calls held to what they gave, by {names}; {left_out} that 10/12 speaks of left out; {different} different");
    if whole && different == 0 {
        ExitCode::SUCCESS
    } else {
        ExitCode::FAILURE
    }
}
