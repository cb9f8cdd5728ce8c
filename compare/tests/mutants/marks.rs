//! Wrong marks: each is told apart by the graphs, logs and labels that the comparison makes.
use super::{all_found, SEEDS};
use compare::judge::engine::replay;
use compare::judge::graph::Graph;
use compare::judge::marks::{judge_labels, of_graph, of_guesses, table, text, verdict, Table};
use compare::judge::{graph_file, log};
use compare::seeds::{marks, Prng};

type Marks = fn(&Graph, &log::Log, &[u8]) -> Result<Table, u8>;

fn counted(
    graph: &Graph,
    log: &log::Log,
    labels: &[u8],
    yes: impl Fn(&Graph, &[u8]) -> bool,
) -> Result<Table, u8> {
    judge_labels(labels, log.traces.len())?;
    let verdicts: Vec<bool> = log.traces.iter().map(|trace| yes(graph, trace)).collect();
    Ok(table(&verdicts, labels))
}

fn with(marks: Result<Table, u8>, change: fn(Table) -> Table) -> Result<Table, u8> {
    marks.map(change)
}

const MUTANTS: [(&str, Marks); 9] = [
    ("rows of the table swapped", |g, log, labels| {
        with(of_graph(g, log, labels), |t| Table {
            tp: t.fn_,
            fp: t.tn,
            fn_: t.tp,
            tn: t.fp,
        })
    }),
    ("columns of the table swapped", |g, log, labels| {
        with(of_graph(g, log, labels), |t| Table {
            tp: t.fp,
            fp: t.tp,
            fn_: t.tn,
            tn: t.fn_,
        })
    }),
    (
        "false positives and false negatives swapped",
        |g, log, labels| {
            with(of_graph(g, log, labels), |t| Table {
                fp: t.fn_,
                fn_: t.fp,
                ..t
            })
        },
    ),
    ("18 and 19 swapped", |g, log, labels| {
        of_graph(g, log, labels).map_err(|number| match number {
            18 => 19,
            19 => 18,
            other => other,
        })
    }),
    ("19 before 18", |g, log, labels| {
        if labels.iter().any(|&label| label > 1) {
            return Err(19);
        }
        of_graph(g, log, labels)
    }),
    (
        "more labels than traces are left alone",
        |g, log, labels| of_graph(g, log, &labels[..labels.len().min(log.traces.len())]),
    ),
    ("a refused trace counted yes", |g, log, labels| {
        counted(g, log, labels, |g, trace| {
            verdict(g, trace) || replay(g, trace).answer.number != 0
        })
    }),
    ("accepting not asked", |g, log, labels| {
        counted(g, log, labels, |g, trace| {
            replay(g, trace).answer.number == 0
        })
    }),
    (
        "an activity that the graph lacks is passed over",
        |g, log, labels| {
            counted(g, log, labels, |g, trace| {
                let known: Vec<u8> = trace
                    .iter()
                    .copied()
                    .filter(|e| g.events.contains(e))
                    .collect();
                verdict(g, &known)
            })
        },
    ),
];

#[test]
fn wrong_marks() {
    let found = |mutant: Marks| {
        (0..SEEDS).find(|&seed| {
            let mut prng = Prng::new(seed);
            (0..6).any(|_| {
                let (file, tried) = marks::case(&mut prng);
                let (Ok(graph), Ok(log)) = (graph_file::read(&file), log::read(&tried)) else {
                    return false;
                };
                let labels = marks::labels(&mut prng, log.traces.len());
                mutant(&graph, &log, &labels) != of_graph(&graph, &log, &labels)
            })
        })
    };
    all_found(
        MUTANTS
            .iter()
            .map(|(name, mutant)| (*name, found(*mutant)))
            .collect(),
    );
}

type Guesses = fn(&[u8], &[u8]) -> String;

fn line(word: &str, part: usize, whole: usize) -> String {
    format!("{word} {part} {whole}\n")
}

const GUESSES: [(&str, Guesses); 5] = [
    ("guesses are not judged", |guesses, labels| {
        let sound: Vec<u8> = guesses.iter().map(|&guess| u8::from(guess == 1)).collect();
        text(of_guesses(&sound, labels))
    }),
    ("labels are not judged", |guesses, labels| {
        let sound: Vec<u8> = labels.iter().map(|&label| u8::from(label == 1)).collect();
        text(of_guesses(guesses, &sound))
    }),
    ("guesses taken for labels", |guesses, labels| {
        text(of_guesses(labels, guesses))
    }),
    ("a measure of nothing is 0 0", |guesses, labels| {
        text(of_guesses(guesses, labels)).replace("none", "0 0")
    }),
    ("measures reduced", |guesses, labels| {
        match of_guesses(guesses, labels) {
            Ok(Table { tp, fp, fn_, tn }) if tp + tn == tp + fp + fn_ + tn && tp + tn > 1 => {
                let whole = text(Ok(Table { tp, fp, fn_, tn }));
                whole.replace(&line("accuracy", tp + tn, tp + tn), "accuracy 1 1\n")
            }
            other => text(other),
        }
    }),
];

#[test]
fn wrong_guesses() {
    let found = |mutant: Guesses| {
        (0..SEEDS).find(|&seed| {
            let mut prng = Prng::new(seed);
            (0..4).any(|_| {
                let count = prng.one_of(&[0, 1, 2, 5, 40]);
                let labels = marks::labels(&mut prng, count);
                let guesses = marks::labels(&mut prng, count);
                mutant(&guesses, &labels) != text(of_guesses(&guesses, &labels))
            })
        })
    };
    all_found(
        GUESSES
            .iter()
            .map(|(name, mutant)| (*name, found(*mutant)))
            .collect(),
    );
}
