//! Wrong ways out of the call at a place. Each asks the judge and spoils one thing, on the histories of the comparison.
use super::{all_found, SEEDS};
use compare::door::{asked, Form, PLACES, WAY};
use compare::judge::door::DOOR as JUDGE;
use compare::judge::engine::kept;
use compare::judge::graph_file::{read, read_marking, set_bytes};
use compare::seeds::{desk, Prng};

/// file, table, place, the lent four bytes
type Ways = fn(&[u8], &mut [u8], usize, &mut [u8]) -> u64;

fn right(file: &[u8], table: &mut [u8], place: usize, way: &mut [u8]) -> u64 {
    (JUDGE.desk_finish)(file, table, place, way)
}

/// How soon histories like those of the comparison tell them from the judge's.
fn found(mutant: Ways) -> Option<u64> {
    for seed in 0..SEEDS {
        let mut prng = Prng::new(seed);
        let (file, graph) = desk::file(&mut prng);
        let mut table = desk::table(&mut prng, &graph);
        for _ in 0..40 {
            let request = desk::request(&mut prng, &file, &table);
            asked(&JUDGE, &file, &mut table, request);
            let place = desk::place(&mut prng, &file, &table);
            let room = desk::way_room(&mut prng);
            if graph.events.count_ones() > 5 {
                continue;
            }
            let (mut lent, mut theirs, mut own) = (table.clone(), vec![165; room], vec![165; room]);
            let given = mutant(&file, &mut lent, place, &mut theirs);
            let wanted = right(&file, &mut table, place, &mut own);
            if given != wanted || theirs != own || lent != table {
                return Some(seed);
            }
        }
    }
    None
}

const MUTANTS: [(&str, Ways); 11] = [
    ("14 after the file's numbers", |file, table, place, way| {
        let given = right(file, table, place, way);
        match read(file) {
            Err(of_file) if given == 14 => u64::from(of_file),
            _ => given,
        }
    }),
    ("the room before 14", |file, table, place, way| {
        let given = right(file, table, place, way);
        if given == 14 && way.len() < WAY {
            7
        } else {
            given
        }
    }),
    ("the room before the file", |file, table, place, way| {
        let given = right(file, table, place, way);
        if (1..=6).contains(&given) && way.len() < WAY {
            7
        } else {
            given
        }
    }),
    ("the room after the marking", room_last),
    ("the marking of place 0", |file, table, place, way| {
        let mut other = table.to_vec();
        let form = Form::in_file(file);
        if place < PLACES && other.len() >= form.table() {
            other.copy_within(1..form.place(), form.place() * place + 1);
        }
        right(file, &mut other, place, way)
    }),
    ("the opening in the place's stead", opening_asked),
    ("the first step is taken at once", first_step_taken),
    (
        "four 255s into the room where refused",
        |file, table, place, way| {
            let given = right(file, table, place, way);
            if given != 0 {
                way.fill(255);
            }
            given
        },
    ),
    ("a false set is believed", false_set_believed),
    ("a place modulo 32", |file, table, place, way| {
        right(file, table, place % PLACES, way)
    }),
    ("14 for a call that may end", |file, table, place, way| {
        let given = right(file, table, place, way);
        let ends = given == 0 && way[..WAY] == [255; WAY];
        if ends {
            14
        } else {
            given
        }
    }),
];

#[test]
fn found_by_histories() {
    all_found(
        MUTANTS
            .iter()
            .map(|&(name, mutant)| (name, found(mutant)))
            .collect(),
    );
}

#[test]
fn right_ways_are_not_told_apart() {
    assert_eq!(found(right), None);
}

fn room_last(file: &[u8], table: &mut [u8], place: usize, way: &mut [u8]) -> u64 {
    let given = right(file, table, place, way);
    if given == 7 && way.len() < WAY {
        let judged = right(file, table, place, &mut [0; WAY]);
        return if [5, 16, 17].contains(&judged) {
            judged
        } else {
            7
        };
    }
    given
}

fn opening_asked(file: &[u8], table: &mut [u8], place: usize, way: &mut [u8]) -> u64 {
    let form = Form::in_file(file);
    let mut opening = vec![0; form.marking()];
    let mut other = table.to_vec();
    let there = place < PLACES && other.len() >= form.table();
    if there && (JUDGE.opening)(file, &mut opening) == 0 {
        other[form.place() * place + 1..form.place() * (place + 1)].copy_from_slice(&opening);
    }
    right(file, &mut other, place, way)
}

fn first_step_taken(file: &[u8], table: &mut [u8], place: usize, way: &mut [u8]) -> u64 {
    let given = right(file, table, place, way);
    if given == 0 {
        (JUDGE.desk_step)(file, table, place, way[0]);
    }
    given
}

fn false_set_believed(file: &[u8], table: &mut [u8], place: usize, way: &mut [u8]) -> u64 {
    let given = right(file, table, place, way);
    let (16, Ok(graph)) = (given, read(file)) else {
        return given;
    };
    let mut other = table.to_vec();
    let form = Form::in_file(file);
    let bytes = &mut other[form.place() * place + 1..form.place() * (place + 1)];
    let put_right = kept(&graph, read_marking(bytes, form.set));
    bytes[3 * form.set..].copy_from_slice(&set_bytes(&put_right.enabled, form.set));
    right(file, &mut other, place, way)
}
