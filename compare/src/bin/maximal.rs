//! The maximal log: 64 activities, 1,024 traces of 32 events. Best of 200 runs, in ns an event, with judging and writing.
use compare::door::{Mining, FULL, LIGHT};
use compare::{port, yardstick};
use std::time::Instant;

const TRACES: usize = 1024;
const LENGTH: usize = 32;

/// Any of the 64 activities at each place, or, in order, one of the two that belong to the place.
fn maximal(in_order: bool) -> Vec<u8> {
    let mut log = vec![66, 76, 1, 64, (TRACES % 256) as u8, (TRACES / 256) as u8];
    for k in 0..TRACES {
        let offset = k * LENGTH;
        log.extend([(offset % 256) as u8, (offset / 256) as u8, LENGTH as u8, 0]);
    }
    let mut x: u64 = 88_172_645_463_325_252;
    for i in 0..TRACES * LENGTH {
        x ^= x << 13;
        x ^= x >> 7;
        x ^= x << 17;
        let own = (i % LENGTH * 2) as u64 + x % 2;
        log.push(if in_order { own } else { x % 64 } as u8);
    }
    log
}

fn best(mine: Mining, profile: u8, log: &[u8]) -> f64 {
    let mut file = vec![0; compare::door::GRAPH_ROOM];
    let mut least = f64::MAX;
    for _ in 0..200 {
        let start = Instant::now();
        let answer = mine(log, profile, &mut file);
        least = least.min(start.elapsed().as_nanos() as f64);
        assert_eq!(answer % 256, 0, "the maximal log is accepted");
    }
    least / (TRACES * LENGTH) as f64
}

fn main() {
    let Some(proved) = port::door() else {
        eprintln!("maximal: compare/staticlib first");
        std::process::exit(1);
    };
    for (name, in_order) in [("random", false), ("in order", true)] {
        let log = maximal(in_order);
        for (profile, kind) in [(FULL, "full"), (LIGHT, "light")] {
            let rust = best(yardstick::door::DOOR.mine, profile, &log);
            let ours = best(proved.mine, profile, &log);
            println!(
                "{name:9} {kind:6} yardstick {rust:5.2}  port {ours:5.2}  ratio {:4.2}",
                ours / rust
            );
        }
    }
}
