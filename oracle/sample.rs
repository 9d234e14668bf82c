//! Prints a sample of the texts with the source's answers, for a program that has no Rust beside it.

use crate::answer::{Answer, COMPARATOR, FORM, FORM_NAMES, IS_AND, KIND, NEGATED, answer};
use crate::layout::{DOWNSTREAM, KAIOS};
use crate::texts::{FORMS, GENERATORS, Random, STATEMENTS};
use std::collections::HashSet;
use std::collections::hash_map::DefaultHasher;
use std::fmt::Write as _;
use std::hash::{Hash, Hasher};
use std::io::Write as _;

/// How many random texts the generators make for the sample to be drawn from.
const DRAWN_FROM: u64 = 100_000;

/// How many texts each generator gives: because their answer is of a shape not seen before; by lot among those
/// with a refusal or a known form; by lot among the others.
const BY_SHAPE: usize = 150;
const KNOWN: usize = 200;
const UNKNOWN: usize = 50;

/// Longer texts are left out, and all but a few of those that are not short.
const LONGEST: usize = 700;
const SHORT: usize = 90;
const NOT_SHORT: usize = 12;

pub fn print() {
    let mut sample = Sample { taken: HashSet::new(), lines: Vec::new() };
    let mut shapes = HashSet::new();
    for text in FORMS.iter().chain(STATEMENTS) {
        sample.take(text.as_bytes());
        shapes.insert(shape(&asked(text.as_bytes())));
    }
    for form in FORMS {
        sample.take(format!("x and not {form}").as_bytes());
    }
    for (stream, generator) in GENERATORS.iter().enumerate() {
        let mut random = Random::new(100 + stream as u64);
        let mut by_shape: Vec<Vec<u8>> = Vec::new();
        let mut known = Lot::new(KNOWN);
        let mut unknown = Lot::new(UNKNOWN);
        let mut not_short = Lot::new(NOT_SHORT);
        (generator.run)(DRAWN_FROM, &mut |text| {
            if text.len() > LONGEST {
                return;
            }
            if text.len() > SHORT {
                not_short.offer(text, &mut random);
                return;
            }
            let answer = asked(text);
            // Only some texts may bring in a shape, so that the shapes come from all over the generator.
            if by_shape.len() < BY_SHAPE && random.below(16) == 0 && shapes.insert(shape(&answer)) {
                by_shape.push(text.to_vec());
            } else if is_known(&answer) {
                known.offer(text, &mut random);
            } else {
                unknown.offer(text, &mut random);
            }
        });
        for text in by_shape.iter().chain(&known.drawn).chain(&unknown.drawn).chain(&not_short.drawn) {
            sample.take(text);
        }
    }
    let mut out = std::io::stdout().lock();
    for line in sample.lines {
        writeln!(out, "{line}").expect("standard output takes the sample");
    }
}

/// A fixed number of texts drawn from all that are offered, each with the same chance.
struct Lot {
    most: usize,
    offered: usize,
    drawn: Vec<Vec<u8>>,
}

impl Lot {
    fn new(most: usize) -> Self {
        Lot { most, offered: 0, drawn: Vec::new() }
    }

    fn offer(&mut self, text: &[u8], random: &mut Random) {
        self.offered += 1;
        if self.drawn.len() < self.most {
            self.drawn.push(text.to_vec());
            return;
        }
        let at = random.below(self.offered);
        if at < self.most {
            self.drawn[at] = text.to_vec();
        }
    }
}

struct Sample {
    taken: HashSet<Vec<u8>>,
    lines: Vec<String>,
}

impl Sample {
    fn take(&mut self, text: &[u8]) {
        if self.taken.insert(text.to_vec()) {
            self.lines.push(line(text, &asked(text)));
        }
    }
}

fn asked(text: &[u8]) -> Answer<'_> {
    answer(text).unwrap_or_else(|fault| panic!("{}: {fault}", text.escape_ascii()))
}

/// Whether there is a refusal, or a query of another form than Unknown.
fn is_known(answer: &Answer<'_>) -> bool {
    answer.outcome[0] > 0 || answer.records.iter().any(|record| FORM_NAMES[record[FORM] as usize] != "Unknown")
}

/// What the answer is like, without its places and numbers.
fn shape(answer: &Answer<'_>) -> u64 {
    let mut hasher = DefaultHasher::new();
    answer.outcome[0].hash(&mut hasher);
    for record in answer.records.iter().take(4) {
        for word in [NEGATED, IS_AND, FORM, KIND, COMPARATOR, DOWNSTREAM, KAIOS] {
            record[word].hash(&mut hasher);
        }
    }
    hasher.finish()
}

/// The text in hexadecimal (`-` for none), refusal and place, then the words of each query behind a semicolon.
fn line(text: &[u8], answer: &Answer<'_>) -> String {
    let mut line = String::new();
    if text.is_empty() {
        line.push('-');
    }
    for byte in text {
        write!(line, "{byte:02x}").unwrap();
    }
    write!(line, " {} {}", answer.outcome[0], answer.outcome[1]).unwrap();
    for record in &answer.records {
        let words: Vec<String> = record.iter().map(u64::to_string).collect();
        write!(line, ";{}", words.join(" ")).unwrap();
    }
    line
}
