//! The benchmark: ns an event for judging, mining and replaying, on ten shapes of log and
//! at growing sizes; the yardstick, and beside it the proved code where it is linked.
//!
//! All calls go through the functions of `port`, so both do the same work from the
//! same bytes. A log is judged by mining one whose last byte is bad; the proved `mine` hands
//! back an empty graph then, so `net judge` leaves out what the refusal of no bytes costs. Lent buffers are not cleared between calls. The implementations take turns,
//! a tenth of a millisecond each, and the best turn counts: other work on the machine then
//! disturbs both alike, and the best turns hardly at all.
use compare::door::{Door, Form, FULL, GRAPH_ROOM, LIGHT, RELATIONS_ROOM, TALLY_ROOM};
use compare::seeds::shapes::{of_size, small, SHAPES, SIZES, WIDE};
use compare::seeds::{finish, log_file, Prng};
use compare::{judge, port, yardstick};
use std::hint::black_box;
use std::time::Instant;

const TURNS: usize = 300;
const TURN_NS: f64 = 100_000.0;

struct Sample {
    name: String,
    log: Vec<u8>,
    /// The same log with its last byte bad: all of it is judged and nothing is mined.
    bad: Vec<u8>,
    file: Vec<u8>,
    traces: Vec<Vec<u8>>,
    events: usize,
}

fn sample(name: &str, log: Vec<u8>) -> Sample {
    let sound = judge::log::read(&log).expect("shapes are accepted");
    let mut bad = log.clone();
    *bad.last_mut().expect("shapes have events") = sound.a;
    let mut file = vec![0; GRAPH_ROOM];
    let result = (yardstick::door::DOOR.mine)(&log, FULL, &mut file);
    file.truncate((result / 256) as usize);
    let events = sound.traces.iter().map(Vec::len).sum();
    let name = name.to_string();
    let traces = sound.traces;
    Sample {
        name,
        log,
        bad,
        file,
        traces,
        events,
    }
}

/// The ns of some calls.
fn timed(calls: usize, call: &mut dyn FnMut()) -> f64 {
    let start = Instant::now();
    for _ in 0..calls {
        call();
    }
    start.elapsed().as_nanos() as f64
}

/// The best ns of one call, for each implementation.
fn best(doors: &[Door], mut call: impl FnMut(&Door)) -> Vec<f64> {
    let mut least = vec![f64::MAX; doors.len()];
    let mut calls = vec![1; doors.len()];
    for (door, calls) in doors.iter().zip(&mut calls) {
        let once = timed(3, &mut || call(door)) / 3.0;
        *calls = (TURN_NS / once).max(1.0) as usize;
    }
    for _ in 0..TURNS {
        for (k, door) in doors.iter().enumerate() {
            let ns = timed(calls[k], &mut || call(door)) / calls[k] as f64;
            least[k] = least[k].min(ns);
        }
    }
    least
}

const COLUMNS: [&str; 7] = [
    "judge",
    "net judge",
    "mine",
    "light",
    "replay",
    "net replay",
    "read file",
];

fn less(all: &[f64], part: &[f64]) -> Vec<f64> {
    all.iter().zip(part).map(|(a, p)| a - p).collect()
}

/// For each column the figures of the implementations: judging, judging less the refusal of
/// no bytes, mining (with judging and writing), the same in the light profile, replaying (with the file read for each
/// trace), replaying less the reading, in ns an event; reading in ns a file.
fn figures(doors: &[Door], sample: &Sample) -> [Vec<f64>; 7] {
    let mut room = vec![0; GRAPH_ROOM];
    let judging = best(doors, |door| {
        assert_eq!((door.mine)(black_box(&sample.bad), FULL, &mut room), 5);
    });
    let refusing = best(doors, |door| {
        assert_eq!((door.mine)(black_box(&[]), FULL, &mut room), 1);
    });
    let mining = best(doors, |door| {
        black_box((door.mine)(black_box(&sample.log), FULL, &mut room));
    });
    let lightly = best(doors, |door| {
        black_box((door.mine)(black_box(&sample.log), LIGHT, &mut room));
    });
    let replaying = best(doors, |door| {
        for trace in &sample.traces {
            black_box((door.replay)(black_box(&sample.file), black_box(trace)));
        }
    });
    let reading = best(doors, |door| {
        for _ in &sample.traces {
            black_box((door.replay)(black_box(&sample.file), black_box(&[])));
        }
    });
    let each = |all: &[f64], n: usize| all.iter().map(|ns| ns / n as f64).collect();
    let n = sample.events;
    [
        each(&judging, n),
        each(&less(&judging, &refusing), n),
        each(&mining, n),
        each(&lightly, n),
        each(&replaying, n),
        each(&less(&replaying, &reading), n),
        each(&reading, sample.traces.len()),
    ]
}

fn head(linked: bool) {
    println!("ns an event, read file in ns a file; port linked: {linked}");
    let mut line = format!("{:<14}{:>7}{:>7}", "shape", "events", "traces");
    for column in COLUMNS {
        line += &format!("{column:>12}");
        if linked {
            line += &format!("{:>9}{:>7}", "port", "ratio");
        }
    }
    println!("{line}");
}

/// Prints the row; it gives, for each column, the ratio to the yardstick where there is one.
fn row(doors: &[Door], sample: &Sample) -> [Option<f64>; 7] {
    let mut line = format!("{:<14}{:>7}", sample.name, sample.events);
    line += &format!("{:>7}", sample.traces.len());
    let columns = figures(doors, sample);
    for column in &columns {
        line += &format!("{:>12.2}", column[0]);
        for theirs in &column[1..] {
            line += &format!("{theirs:>9.2}{:>7.2}", theirs / column[0]);
        }
    }
    println!("{line}");
    columns.map(|column| column.get(1).map(|theirs| theirs / column[0]))
}

/// Mean and worst ratio of mining, in both profiles, over all rows.
fn ratios(rows: &[[Option<f64>; 7]]) {
    for (k, name) in [(2, COLUMNS[2]), (3, COLUMNS[3])] {
        let all: Vec<f64> = rows.iter().filter_map(|row| row[k]).collect();
        let worst = all.iter().copied().fold(0.0, f64::max);
        let mean = all.iter().sum::<f64>() / all.len() as f64;
        println!("{name}, port by yardstick: mean {mean:.2}, worst {worst:.2}");
    }
}

/// So many steps of a call are one turn's work.
const STEPS: usize = 64;

/// Single steps: a call's steps one by one, each handed over with the marking after the one before,
/// which holds its enabled steps (02, 6/12). In ns a step, the graph file read in each; `net` is
/// that less the reading. The same at a desk, and giving the opening marking, in ns a call.
fn steps(doors: &[Door]) {
    println!("single steps, ns a step");
    let names = ["step", "net step", "desk step", "net desk", "opening"];
    let mut line = format!("{:<14}{:>7}", "graph of", "steps");
    for name in names {
        line += &format!("{name:>12}");
        if doors.len() > 1 {
            line += &format!("{:>9}{:>7}", "port", "ratio");
        }
    }
    println!("{line}");
    let mut samples = vec![sample("small", small(3))];
    let shaped = |&(name, shape): &_| sample(name, of_size(shape, SIZES[0], 11));
    samples.extend(SHAPES.iter().map(shaped));
    for sample in samples {
        let mut trace = sample.traces[0].clone();
        trace.truncate(STEPS);
        let mut line = format!("{:<14}{:>7}", sample.name, trace.len());
        for column in step_figures(doors, &sample.file, &trace) {
            line += &format!("{:>12.2}", column[0]);
            for theirs in &column[1..] {
                line += &format!("{theirs:>9.2}{:>7.2}", theirs / column[0]);
            }
        }
        println!("{line}");
    }
}

fn step_figures(doors: &[Door], file: &[u8], trace: &[u8]) -> [Vec<f64>; 5] {
    let form = Form::in_file(file);
    let mut opening = vec![0; form.marking()];
    let mut desk = vec![0; form.table()];
    let judge = judge::door::DOOR;
    assert_eq!((judge.opening)(file, &mut opening), 0);
    assert_eq!((judge.desk_open)(file, &mut desk), 0);
    let stepping = best(doors, |door| {
        let mut marking = opening.clone();
        for &e in trace {
            let given = (door.step)(black_box(file), &mut marking, e);
            assert_eq!(given % 256, 0);
        }
    });
    let at_desk = best(doors, |door| {
        let mut table = desk.clone();
        for &e in trace {
            let given = (door.desk_step)(black_box(file), &mut table, 0, e);
            assert_eq!(given % 256, 0);
        }
    });
    let reading = best(doors, |door| {
        for _ in trace {
            black_box((door.replay)(black_box(file), black_box(&[])));
        }
    });
    let openings = best(doors, |door| {
        let mut marking = vec![0; form.marking()];
        for _ in trace {
            black_box((door.opening)(black_box(file), &mut marking));
        }
    });
    let each = |all: &[f64]| all.iter().map(|ns| ns / trace.len() as f64).collect();
    [
        each(&stepping),
        each(&less(&stepping, &reading)),
        each(&at_desk),
        each(&less(&at_desk, &reading)),
        each(&openings),
    ]
}

/// Whole listings: so many calls, steps a call and activities, any activity at each place. In
/// microseconds a listing.
const LISTED: [(usize, usize, usize); 4] =
    [(40, 12, 40), (300, 100, 64), (1024, 32, 64), (64, 500, 64)];

fn listings(doors: &[Door]) {
    println!("a listing, microseconds: calls, steps a call, activities");
    for (calls, steps, activities) in LISTED {
        let mut prng = Prng::new(11);
        let mut call = || (0..steps).map(|_| prng.below(activities) as u8).collect();
        let traces: Vec<Vec<u8>> = (0..calls).map(|_| call()).collect();
        let log = log_file(activities as u8, &traces);
        let mut out = vec![0; Form::in_file(&log).listing()];
        let ns = best(doors, |door| {
            black_box((door.listing)(black_box(&log), FULL, &mut out));
        });
        let mut line = format!(
            "{calls:>6}{steps:>6}{activities:>6}{:>12.1}",
            ns[0] / 1000.0
        );
        for theirs in &ns[1..] {
            line += &format!("{:>12.1}{:>7.2}", theirs / 1000.0, theirs / ns[0]);
        }
        println!("{line}");
    }
}

/// Half-done calls: the hard graphs, and the graph of the small log after half of a call. In
/// microseconds a search, the graph file read in each.
fn ways(doors: &[Door]) {
    println!("a way out, microseconds a search");
    let small = sample("small", small(3));
    let half = &small.traces[0][..small.traces[0].len() / 2];
    let mut mined = yardstick::value::read(&small.file).expect("mined");
    mined.marking = yardstick::engine::replay(&mined, half).marking;
    let searches = [
        ("mined", mined),
        ("hopeless", finish::hopeless()),
        ("restless", finish::restless()),
    ];
    for (name, graph) in searches {
        let (file, marking) = finish::bytes(&graph);
        let mut way = [0; 4];
        let ns = best(doors, |door| {
            black_box((door.finish)(
                black_box(&file),
                black_box(&marking),
                &mut way,
            ));
        });
        let mut line = format!("{name:<14}{:>12.2}", ns[0] / 1000.0);
        for theirs in &ns[1..] {
            line += &format!("{:>12.2}{:>7.2}", theirs / 1000.0, theirs / ns[0]);
        }
        println!("{line}");
    }
}

/// A log replayed call by call, the file read for each; all at once, the file read once and the
/// log judged; and its marks. In ns an event.
fn replays(doors: &[Door]) {
    println!("a whole log, ns an event: call by call, all at once, marks");
    let mut samples = vec![sample("small", small(3))];
    for (name, shape) in SHAPES {
        samples.push(sample(name, of_size(shape, SIZES[1], 11)));
    }
    for sample in samples {
        let labels = vec![1; sample.traces.len()];
        let mut out = vec![0; sample.traces.len()];
        let (file, log) = (&sample.file, &sample.log);
        let single = best(doors, |door| {
            for trace in &sample.traces {
                black_box((door.replay)(black_box(file), black_box(trace)));
            }
        });
        let batch = best(doors, |door| {
            black_box((door.replays)(black_box(file), black_box(log), &mut out));
        });
        let marks = best(doors, |door| {
            black_box((door.marks)(black_box(file), black_box(log), &labels));
        });
        let mut line = format!("{:<14}{:>7}", sample.name, sample.events);
        for column in [single, batch, marks] {
            for ns in &column {
                line += &format!("{:>10.2}", ns / sample.events as f64);
            }
            line += &format!("{:>7.2}", column[column.len() - 1] / column[0]);
        }
        println!("{line}");
    }
}

/// Filling a tally, in ns an event; joining another into it, and reading the relations in either
/// profile, in microseconds a call.
fn months(doors: &[Door]) {
    println!("months: tally in ns an event; join, relations, light in microseconds a call");
    let mut samples = vec![sample("small", small(3))];
    for (name, shape) in SHAPES {
        samples.push(sample(name, of_size(shape, SIZES[0], 11)));
        samples.push(sample(name, of_size(shape, SIZES[3], 11)));
    }
    let mut other = vec![0; TALLY_ROOM];
    assert_eq!((doors[0].tally)(&samples[0].log, &mut other), 0);
    for sample in samples {
        let mut tally = vec![0; TALLY_ROOM];
        let filling = best(doors, |door| {
            assert_eq!((door.tally)(black_box(&sample.log), &mut tally), 0);
        });
        let mut line = format!("{:<14}{:>7}", sample.name, sample.events);
        line += &beside(&filling, sample.events as f64);
        let mut relations = vec![0; RELATIONS_ROOM];
        let mut read = |profile: u8| {
            best(doors, |door| {
                let given = (door.tally_relations)(black_box(&tally), profile, &mut relations);
                assert_eq!(given, 0);
            })
        };
        let reading = [read(FULL), read(LIGHT)];
        let joining = best(doors, |door| {
            assert_eq!((door.tally_join)(&mut tally, black_box(&other)), 0);
        });
        for ns in [joining].iter().chain(&reading) {
            line += &beside(ns, 1000.0);
        }
        println!("{line}");
    }
}

/// The yardstick's figure, and the others' with how many times it they take.
fn beside(ns: &[f64], unit: f64) -> String {
    let mut text = format!("{:>12.2}", ns[0] / unit);
    for theirs in &ns[1..] {
        text += &format!("{:>9.2}{:>7.2}", theirs / unit, theirs / ns[0]);
    }
    text
}

/// More than 64 activities, at the least and the greatest size: rows of their own, so that the mean above stays what it was.
fn wide(doors: &[Door]) {
    println!("97 and 128 activities");
    head(doors.len() == 2);
    let mut rows = Vec::new();
    for (name, shape) in WIDE {
        for size in [SIZES[0], SIZES[3]] {
            rows.push(row(doors, &sample(name, of_size(shape, size, 11))));
        }
    }
    if doors.len() > 1 {
        ratios(&rows);
    }
}

fn main() {
    let mut doors = vec![yardstick::door::DOOR];
    doors.extend(port::door());
    let asked = |option: &str| std::env::args().any(|word| word == option);
    if asked("--ways") {
        return ways(&doors);
    }
    if asked("--steps") {
        return steps(&doors);
    }
    if asked("--listings") {
        return listings(&doors);
    }
    if asked("--months") {
        return months(&doors);
    }
    if asked("--replays") {
        return replays(&doors);
    }
    if asked("--wide") {
        return wide(&doors);
    }
    head(doors.len() == 2);
    let mut rows = vec![row(&doors, &sample("small", small(3)))];
    for (name, shape) in SHAPES {
        for size in SIZES {
            rows.push(row(&doors, &sample(name, of_size(shape, size, 11))));
        }
    }
    if doors.len() > 1 {
        ratios(&rows);
    }
    if asked("--rows") {
        return;
    }
    wide(&doors);
    steps(&doors);
    ways(&doors);
}
