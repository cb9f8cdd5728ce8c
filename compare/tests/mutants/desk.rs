//! Wrong desks. Each asks the judge and spoils one thing, on the histories of the comparison.
use super::{all_found, SEEDS};
use compare::door::{asked, opened, stepped, Form, PLACES};
use compare::judge::door::DOOR as JUDGE;
use compare::judge::engine::kept;
use compare::judge::graph::Marking;
use compare::judge::graph_file::{self, read, set_bytes};
use compare::seeds::{desk, Prng};
use compare::value::Request::{self, Close, Open, Step};
use std::ops::Range;

/// file, table, request
type Desk = fn(&[u8], &mut [u8], Request) -> u64;

fn right(file: &[u8], table: &mut [u8], request: Request) -> u64 {
    asked(&JUDGE, file, table, request)
}

/// How soon histories like those of the comparison tell a desk from the judge.
fn found(mutant: Desk) -> Option<u64> {
    for seed in 0..SEEDS {
        let mut prng = Prng::new(seed);
        let (file, graph) = desk::file(&mut prng);
        let mut table = desk::table(&mut prng, &graph);
        for _ in 0..40 {
            let request = desk::request(&mut prng, &file, &table);
            let mut lent = table.clone();
            let given = mutant(&file, &mut lent, request);
            if given != right(&file, &mut table, request) || lent != table {
                return Some(seed);
            }
        }
    }
    None
}

const MUTANTS: [(&str, Desk); 27] = [
    ("a step touches the next place", touches_the_next),
    ("a close keeps the marking", close_keeps_the_marking),
    ("a close keeps the place", close_keeps_the_place),
    ("a close frees whatever is owed", closes_whatever_is_owed),
    ("the highest free place", highest_free),
    ("the place after the highest taken", after_the_highest),
    (
        "open keeps the marking that was there",
        open_keeps_the_marking,
    ),
    ("open takes the empty marking for free", empty_is_free),
    ("a place is open where its byte is 1", open_is_one),
    ("a step puts 1 into the first byte", step_puts_one),
    ("15 before 5", fifteen_before_five),
    ("13 before the graph", thirteen_first),
    ("7 after the file", seven_after_the_file),
    ("14 after the file", fourteen_after_the_file),
    ("a refused step changes the table", refused_step_changes),
    ("a step that waits is taken", waiting_is_taken),
    (
        "every marking judged by step and close",
        every_marking_judged,
    ),
    ("every marking judged by open", open_judges_all),
    ("open leaves the set empty", open_leaves_the_set_empty),
    ("a close keeps the set", close_keeps_the_set),
    ("a false set is believed", false_set_is_believed),
    ("16 before 5", sixteen_before_five),
    ("16 after 15", sixteen_after_fifteen),
    ("every set judged by step and close", every_set_judged),
    ("place modulo 32", place_modulo(32)),
    ("place modulo 256", place_modulo(256)),
    ("place 0 where open is refused", |file, table, request| {
        let given = right(file, table, request);
        if request == Open && given % 256 != 0 {
            return given % 256;
        }
        given
    }),
];

#[test]
fn found_by_histories() {
    all_found(
        MUTANTS
            .iter()
            .map(|&(name, mutant)| (name, found(mutant)))
            .collect(),
    );
}

#[test]
fn a_right_desk_is_not_told_apart() {
    assert_eq!(found(right), None);
}

/// The bytes of a place, for a file of this edition.
fn at(file: &[u8], place: usize) -> Range<usize> {
    let size = Form::in_file(file).place();
    size * place..size * (place + 1)
}

fn is_open(file: &[u8], table: &[u8], place: usize) -> bool {
    let whole = table.len() >= Form::in_file(file).table();
    place < PLACES && whole && table[at(file, place).start] != 0
}

fn marking<'a>(file: &[u8], table: &'a mut [u8], place: usize) -> &'a mut [u8] {
    &mut table[at(file, place)][1..]
}

fn read_marking(file: &[u8], bytes: &[u8]) -> Marking {
    graph_file::read_marking(bytes, Form::in_file(file).set)
}

fn done(given: u64) -> bool {
    given % 256 == 0
}

fn touches_the_next(file: &[u8], table: &mut [u8], request: Request) -> u64 {
    let given = right(file, table, request);
    if let Step(place, _) = request {
        if done(given) && place + 1 < PLACES {
            let own = marking(file, table, place).to_vec();
            marking(file, table, place + 1).copy_from_slice(&own);
        }
    }
    given
}

fn close_keeps_the_marking(file: &[u8], table: &mut [u8], request: Request) -> u64 {
    let before = table.to_vec();
    let given = right(file, table, request);
    if let (Close(place), true) = (request, done(given)) {
        let stood = &before[at(file, place)][1..];
        marking(file, table, place).copy_from_slice(stood);
    }
    given
}

fn close_keeps_the_place(file: &[u8], table: &mut [u8], request: Request) -> u64 {
    let given = right(file, table, request);
    if let (Close(place), true) = (request, done(given)) {
        table[at(file, place).start] = 1;
    }
    given
}

fn closes_whatever_is_owed(file: &[u8], table: &mut [u8], request: Request) -> u64 {
    let given = right(file, table, request);
    if let (Close(place), 15) = (request, given) {
        table[at(file, place)].fill(0);
        return 0;
    }
    given
}

/// Opens another place than the lowest: what the judge did there is undone.
fn opened_at(
    file: &[u8],
    table: &mut [u8],
    request: Request,
    choose: fn(&[u8], &[u8]) -> Option<usize>,
) -> u64 {
    let before = table.to_vec();
    let given = right(file, table, request);
    if request != Open || !done(given) {
        return given;
    }
    let lowest = (given / 256) as usize;
    let bytes = table[at(file, lowest)].to_vec();
    table.copy_from_slice(&before);
    match choose(file, &before) {
        None => opened(Err(13)),
        Some(place) => {
            table[at(file, place)].copy_from_slice(&bytes);
            opened(Ok(place))
        }
    }
}

fn highest_free(file: &[u8], table: &mut [u8], request: Request) -> u64 {
    opened_at(file, table, request, |file, table| {
        (0..PLACES)
            .rev()
            .find(|&place| !is_open(file, table, place))
    })
}

fn after_the_highest(file: &[u8], table: &mut [u8], request: Request) -> u64 {
    opened_at(file, table, request, |file, table| {
        let highest = (0..PLACES).rev().find(|&place| is_open(file, table, place));
        let next = highest.map_or(0, |place| place + 1);
        (next < PLACES).then_some(next)
    })
}

fn empty_is_free(file: &[u8], table: &mut [u8], request: Request) -> u64 {
    opened_at(file, table, request, |file, table| {
        (0..PLACES).find(|&place| table[at(file, place)][1..].iter().all(|&byte| byte == 0))
    })
}

fn open_keeps_the_marking(file: &[u8], table: &mut [u8], request: Request) -> u64 {
    let before = table.to_vec();
    let given = right(file, table, request);
    if request == Open && done(given) {
        let place = (given / 256) as usize;
        let stood = &before[at(file, place)][1..];
        marking(file, table, place).copy_from_slice(stood);
    }
    given
}

fn open_is_one(file: &[u8], table: &mut [u8], request: Request) -> u64 {
    let before = table.to_vec();
    let firsts = table.iter_mut().step_by(at(file, 1).start);
    firsts
        .filter(|first| **first > 1)
        .for_each(|first| *first = 0);
    let changed = table.to_vec();
    let given = right(file, table, request);
    for place in (0..table.len()).step_by(at(file, 1).start) {
        if table[place] == changed[place] {
            table[place] = before[place];
        }
    }
    given
}

fn step_puts_one(file: &[u8], table: &mut [u8], request: Request) -> u64 {
    let given = right(file, table, request);
    if let (Step(place, _), true) = (request, done(given)) {
        table[at(file, place).start] = 1;
    }
    given
}

fn fifteen_before_five(file: &[u8], table: &mut [u8], request: Request) -> u64 {
    let given = right(file, table, request);
    if let (Close(place), 5) = (request, given) {
        let m = read_marking(file, marking(file, table, place));
        if !m.pending.is_disjoint(&m.included) {
            return 15;
        }
    }
    given
}

fn thirteen_first(file: &[u8], table: &mut [u8], request: Request) -> u64 {
    if request == Open && (0..PLACES).all(|place| is_open(file, table, place)) {
        return opened(Err(13));
    }
    right(file, table, request)
}

/// The file's number in the place of this one, whatever the request.
fn file_before(number: u64, file: &[u8], table: &mut [u8], request: Request) -> u64 {
    let given = right(file, table, request);
    match (read(file), request) {
        (Err(of_file), _) if given % 256 == number => given - number + u64::from(of_file),
        _ => given,
    }
}

fn seven_after_the_file(file: &[u8], table: &mut [u8], request: Request) -> u64 {
    file_before(7, file, table, request)
}

fn fourteen_after_the_file(file: &[u8], table: &mut [u8], request: Request) -> u64 {
    file_before(14, file, table, request)
}

fn refused_step_changes(file: &[u8], table: &mut [u8], request: Request) -> u64 {
    let given = right(file, table, request);
    if let (Step(place, e), 9 | 10) = (request, given % 256) {
        marking(file, table, place)[usize::from(e) / 8] |= 1 << (e % 8);
    }
    given
}

/// Conditions are not looked at.
fn waiting_is_taken(file: &[u8], table: &mut [u8], request: Request) -> u64 {
    let given = right(file, table, request);
    if given % 256 == 10 {
        return stepped(Ok(()));
    }
    given
}

/// Whether some open place has a marking outside the events of a file that is sound.
fn some_outside(file: &[u8], table: &[u8]) -> bool {
    let Ok(graph) = read(file) else {
        return false;
    };
    (0..PLACES).any(|place| {
        let outside = || {
            let m = read_marking(file, &table[at(file, place)][1..]);
            let sets = [&m.executed, &m.pending, &m.included];
            sets.iter().any(|set| !set.is_subset(&graph.events))
        };
        is_open(file, table, place) && outside()
    })
}

fn every_marking_judged(file: &[u8], table: &mut [u8], request: Request) -> u64 {
    let before = table.to_vec();
    let given = right(file, table, request);
    if request == Open || matches!(given % 256, 7 | 14) || !some_outside(file, &before) {
        return given;
    }
    table.copy_from_slice(&before);
    match request {
        Step(..) => stepped(Err(5.into())),
        _ => 5,
    }
}

fn open_judges_all(file: &[u8], table: &mut [u8], request: Request) -> u64 {
    if request == Open && some_outside(file, table) {
        return opened(Err(5));
    }
    right(file, table, request)
}

fn open_leaves_the_set_empty(file: &[u8], table: &mut [u8], request: Request) -> u64 {
    let given = right(file, table, request);
    if request == Open && done(given) {
        let set = Form::in_file(file).set;
        marking(file, table, (given / 256) as usize)[3 * set..].fill(0);
    }
    given
}

fn close_keeps_the_set(file: &[u8], table: &mut [u8], request: Request) -> u64 {
    let before = table.to_vec();
    let given = right(file, table, request);
    if let (Close(place), true) = (request, done(given)) {
        let end = at(file, place).end;
        let set = end - Form::in_file(file).set..end;
        table[set.clone()].copy_from_slice(&before[set]);
    }
    given
}

/// The place that a step or a close names.
fn place_of(request: Request) -> usize {
    match request {
        Step(place, _) | Close(place) => place,
        Open => PLACES,
    }
}

/// The marking at a place as it would be with its true set, where the file is sound.
fn kept_there(file: &[u8], bytes: &[u8]) -> Option<(Marking, Marking)> {
    let (graph, stands) = (read(file).ok()?, read_marking(file, bytes));
    Some((stands.clone(), kept(&graph, stands)))
}

/// The table with the set at the request's place put right.
fn put_right(file: &[u8], table: &[u8], request: Request) -> Vec<u8> {
    let mut other = table.to_vec();
    let bytes = marking(file, &mut other, place_of(request));
    if let Some((_, right)) = kept_there(file, bytes) {
        let set = Form::in_file(file).set;
        bytes[3 * set..].copy_from_slice(&set_bytes(&right.enabled, set));
    }
    other
}

fn false_set_is_believed(file: &[u8], table: &mut [u8], request: Request) -> u64 {
    let given = right(file, table, request);
    if given % 256 != 16 {
        return given;
    }
    let mut other = put_right(file, table, request);
    let given = right(file, &mut other, request);
    if done(given) {
        table.copy_from_slice(&other);
    }
    given
}

fn sixteen_before_five(file: &[u8], table: &mut [u8], request: Request) -> u64 {
    let given = right(file, table, request);
    if given % 256 != 5 || request == Open {
        return given;
    }
    match kept_there(file, marking(file, table, place_of(request))) {
        Some((stands, right)) if stands != right => given + 11,
        _ => given,
    }
}

fn sixteen_after_fifteen(file: &[u8], table: &mut [u8], request: Request) -> u64 {
    let given = right(file, table, request);
    if let (Close(_), 16) = (request, given) {
        if right(file, &mut put_right(file, table, request), request) == 15 {
            return 15;
        }
    }
    given
}

fn every_set_judged(file: &[u8], table: &mut [u8], request: Request) -> u64 {
    let before = table.to_vec();
    let given = right(file, table, request);
    let elsewhere = |place| {
        let bytes = &before[at(file, place)][1..];
        let false_there = kept_there(file, bytes).is_some_and(|(stands, right)| stands != right);
        is_open(file, &before, place) && false_there
    };
    if request == Open || !done(given) || !(0..PLACES).any(elsewhere) {
        return given;
    }
    table.copy_from_slice(&before);
    given + 16
}

/// A place that is cut down to a byte, or to a place that there is.
const fn place_modulo(most: usize) -> Desk {
    match most {
        32 => |file, table, request| right(file, table, cut(request, 32)),
        _ => |file, table, request| right(file, table, cut(request, 256)),
    }
}

fn cut(request: Request, most: usize) -> Request {
    match request {
        Open => Open,
        Step(place, e) => Step(place % most, e),
        Close(place) => Close(place % most),
    }
}
