//! Logs for the listing program, with the judge's listings: `listings DIR` writes NAME.log,
//! NAME.full and NAME.light for each. The script `listings` runs the program on them; where
//! it names no profile, NAME.light is what has to come (02, 11/12).
//! The number beside a refused log is what 01 says of it; the judge has to agree.
use compare::judge::listing::listing;
use compare::judge::miner::Profile;
use compare::seeds::{log_file, log_of_edition, logs, shapes, Prng};
use std::path::Path;
use std::process::ExitCode;

type Named = (String, u8, Vec<u8>);

/// 01's log L.
fn l() -> Vec<u8> {
    log_file(3, &[vec![0, 1, 2], vec![0, 2]])
}

/// No log has more bytes: 1,024 traces of 32 events. Any activity at each place, or one of the few that belong to
/// the place.
fn longest(a: usize, in_order: bool) -> Vec<u8> {
    let mut prng = Prng::new(3);
    let few = a / 32;
    let mut event = |place: usize| {
        let own = if in_order { few * place } else { 0 };
        (own + prng.below(if in_order { few } else { a })) as u8
    };
    let traces: Vec<Vec<u8>> = (0..1024)
        .map(|_| (0..32).map(&mut event).collect())
        .collect();
    log_file(a as u8, &traces)
}

/// L with a byte put over it.
fn with(at: usize, byte: u8) -> Vec<u8> {
    let mut log = l();
    log[at] = byte;
    log
}

fn cut(log: Vec<u8>, length: usize) -> Vec<u8> {
    log[..length].to_vec()
}

fn grown(mut log: Vec<u8>, length: usize) -> Vec<u8> {
    log.resize(length, 0);
    log
}

/// Every number that a log can get, at each of its places in 01's order.
fn refused() -> Vec<(&'static str, u8, Vec<u8>)> {
    let mut over = vec![vec![0; 512]; 64];
    over.push(vec![0]);
    vec![
        ("no-bytes", 1, Vec::new()),
        ("head-short", 1, cut(l(), 5)),
        ("first-letter", 2, with(0, 67)),
        ("second-letter", 2, with(1, 71)),
        ("edition-0", 2, with(2, 0)),
        ("edition-3", 2, with(2, 3)),
        ("edition-2-a-3", 3, with(2, 2)),
        ("edition-2-a-64", 3, log_of_edition(2, 64, &[vec![0]])),
        ("edition-2-a-129", 3, log_of_edition(2, 129, &[vec![0]])),
        ("a-65", 3, with(3, 65)),
        ("a-97-event", 5, log_file(97, &[vec![97]])),
        ("t-1025", 3, log_file(1, &vec![Vec::new(); 1025])),
        ("contents-short", 1, cut(l(), 13)),
        ("length-513", 3, log_file(1, &[vec![0; 513]])),
        ("total-32769", 3, log_file(1, &over)),
        ("first-offset", 4, with(6, 1)),
        ("second-offset", 4, with(10, 2)),
        ("end-short", 1, cut(l(), 18)),
        ("end-long", 4, grown(l(), 20)),
        ("first-event", 5, with(14, 3)),
        ("last-event", 5, with(18, 255)),
        ("a-0-event", 5, log_file(0, &[vec![0]])),
    ]
}

/// Around the length of the longest log, which the program's buffer is made for, and far past it.
fn long() -> Vec<(&'static str, u8, Vec<u8>)> {
    let mut last = longest(64, false);
    *last.last_mut().expect("there are bytes") = 64;
    vec![
        ("longest", 0, longest(64, false)),
        ("longest-in-order", 0, longest(64, true)),
        ("longest-of-128", 0, longest(128, true)),
        ("longest-last-event", 5, last),
        ("longest-end-short", 1, cut(longest(64, true), 36_869)),
        ("bytes-36871", 4, grown(longest(64, true), 36_871)),
        ("bytes-36872", 4, grown(longest(128, true), 36_872)),
        ("bytes-100000", 4, grown(longest(64, false), 100_000)),
        ("bytes-100000-letters", 2, vec![66; 100_000]),
        ("bytes-100000-a-65", 3, grown(with(3, 65), 100_000)),
    ]
}

/// The log of the nightly run's test that is too long for a listing made by hand.
const CALLS: &[u8] = include_bytes!("../../../python/tests/nightly/calls.log");

/// L, accepted logs at the borders of the sizes, and some of each kind from seeds.
fn accepted() -> Vec<Named> {
    let mut prng = Prng::new(5);
    let mut all = vec![
        ("l".to_string(), 0, l()),
        ("calls".to_string(), 0, CALLS.to_vec()),
    ];
    let borders = logs::borders(&mut prng).into_iter();
    for (number, log) in borders.filter(|(number, log)| *number == 0 && log.len() < 10_000) {
        all.push((format!("border-{}", all.len()), number, log));
    }
    for (_, _, make) in logs::KINDS {
        all.push((format!("seeded-{}", all.len()), 0, make(&mut prng)));
    }
    for seed in 0..2 {
        all.push((format!("small-{seed}"), 0, shapes::small(seed)));
    }
    all
}

fn main() -> ExitCode {
    let Some(folder) = std::env::args().nth(1) else {
        eprintln!("listings DIR");
        return ExitCode::from(2);
    };
    let fixed = refused().into_iter().chain(long());
    let named = fixed.map(|(name, number, log)| (name.to_string(), number, log));
    for (name, number, log) in named.chain(accepted()) {
        let [full, light] = [Profile::Full, Profile::Light].map(|p| listing(&log, p));
        if full.number != number || light.number != number {
            println!("{name}: 01 says {number}, the judge {}", full.number);
            return ExitCode::FAILURE;
        }
        let (full, light) = (full.text.into_bytes(), light.text.into_bytes());
        for (ending, bytes) in [("log", &log), ("full", &full), ("light", &light)] {
            let path = Path::new(&folder).join(format!("{name}.{ending}"));
            std::fs::write(path, bytes).expect("the folder can be written to");
        }
    }
    ExitCode::SUCCESS
}
