//! Holds our reader of statements against the source that it was ported from. See README.md.

mod answer;
mod coverage;
#[allow(dead_code)]
mod layout;
mod sample;
#[allow(warnings)]
mod source;
mod texts;

#[cfg(linked)]
mod compare;
#[cfg(linked)]
mod library;
#[cfg(linked)]
mod timing;

use std::process::ExitCode;

/// How many random texts there are where none is asked for.
const RANDOM_TEXTS: u64 = 1_000_000;

fn main() -> ExitCode {
    let words: Vec<String> = std::env::args().skip(1).collect();
    match words.first().map(String::as_str) {
        Some("--sample") => sample::print(),
        Some("--survey") => survey(number(words.get(1))),
        #[cfg(linked)]
        Some("--time") => timing::print(),
        #[cfg(linked)]
        other => {
            let count = number(other.map(String::from).as_ref());
            if compare::all(count) > 0 {
                return ExitCode::FAILURE;
            }
        }
        #[cfg(not(linked))]
        _ => {
            eprintln!("built without our library: only --sample and --survey");
            return ExitCode::from(2);
        }
    }
    ExitCode::SUCCESS
}

fn number(word: Option<&String>) -> u64 {
    match word.map(|word| word.parse()) {
        None => RANDOM_TEXTS,
        Some(Ok(number)) => number,
        Some(Err(_)) => {
            eprintln!("not a number of texts");
            std::process::exit(2)
        }
    }
}

/// Tells what the generators make, asking the source alone.
fn survey(count: u64) {
    let mut total = coverage::Coverage::default();
    let mut faults = 0_u64;
    for generator in &texts::GENERATORS {
        let start = std::time::Instant::now();
        let before = total.texts;
        (generator.run)(count, &mut |text| match answer::answer(text) {
            Ok(answer) => total.add(&answer),
            Err(fault) => {
                faults += 1;
                if faults <= 20 {
                    println!("{}: {fault}", text.escape_ascii());
                }
            }
        });
        println!("{:28} {:>10} texts, {:.1} s", generator.name, total.texts - before, start.elapsed().as_secs_f64());
    }
    total.print();
    println!("{} texts, {faults} that the harness misjudges", total.texts);
}
