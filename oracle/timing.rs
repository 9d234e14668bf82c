//! Measures both sides on texts that are as long as may be.

use crate::answer::{BETWEEN_WORDS, LONGEST, OUTCOME_WORDS, WORDS};
use crate::layout::MOST_QUERIES;
use crate::library;
use crate::source::parse_browserslist_query;
use std::hint::black_box;
use std::time::{Duration, Instant};

/// Each side is run on each text at least this often, and until this much time has passed.
const RUNS: usize = 5;
const AT_LEAST: Duration = Duration::from_millis(300);

pub fn print() {
    let texts = [
        ("words: chrome 5, firefox 6, ..", words()),
        ("x, 16382 blanks, y", format!("x{}y", " ".repeat(LONGEST - 2))),
        ("a,a,a, ..", format!("{}aa", "a,".repeat(LONGEST / 2 - 1))),
        ("one unknown word", "z".repeat(LONGEST)),
    ];
    println!("nanoseconds, the best of {RUNS} runs or more; the source's time has its UTF-8 check in it");
    println!(
        "{:32} {:>6} {:>8} {:>14} {:>10} {:>14} {:>14} {:>10} {:>12}",
        "text", "bytes", "queries", "ours", "to first", "ours, whole", "source", "to first", "ours/source"
    );
    let mut queries = vec![0; MOST_QUERIES * WORDS];
    let mut separators = vec![0; MOST_QUERIES * BETWEEN_WORDS];
    let mut outcome = [0; OUTCOME_WORDS];
    let mut first = None;
    for (name, text) in &texts {
        let text = text.as_bytes();
        assert_eq!(text.len(), LONGEST);
        let mut given = 0;
        let ours = best(|| given = library::steps(black_box(text), &mut queries, &mut separators, &mut outcome));
        let whole = best(|| given = library::fill(black_box(text), &mut queries, &mut separators, &mut outcome));
        let theirs = best(|| {
            let read = std::str::from_utf8(black_box(text)).map(|text| parse_browserslist_query(text).is_ok());
            black_box(read.is_ok());
        });
        let (ours_first, theirs_first) = *first.get_or_insert((ours, theirs));
        println!(
            "{name:32} {:>6} {given:>8} {ours:>14.0} {:>10.2} {whole:>14.0} {theirs:>14.0} {:>10.2} {:>12.2}",
            text.len(),
            ours / ours_first,
            theirs / theirs_first,
            ours / theirs
        );
    }
}

/// Names with versions, as many as fit; the last version is filled up to the whole length.
fn words() -> String {
    let names = ["chrome", "firefox", "safari", "edge", "ie", "opera", "samsung", "node"];
    let mut text = String::new();
    let mut version = 5;
    loop {
        let query = format!("{} {version}", names[(version - 5) % names.len()]);
        if text.len() + ", ".len() + query.len() > LONGEST {
            break;
        }
        if !text.is_empty() {
            text.push_str(", ");
        }
        text.push_str(&query);
        version += 1;
    }
    text.push_str(&"0".repeat(LONGEST - text.len()));
    text
}

fn best(mut run: impl FnMut()) -> f64 {
    let begin = Instant::now();
    let mut best = Duration::MAX;
    let mut runs = 0;
    while runs < RUNS || begin.elapsed() < AT_LEAST {
        let start = Instant::now();
        run();
        best = best.min(start.elapsed());
        runs += 1;
    }
    best.as_nanos() as f64
}
