//! Asks both sides about every text and counts where they differ.

use crate::answer::{Answer, BETWEEN_WORDS, FORM, FORM_NAMES, NUMBER, OUTCOME_WORDS, Outcome, WORDS, answer, part};
use crate::coverage::Coverage;
use crate::layout::{OUTSIDE_BYTES, RAW_END, RAW_START, READ_OUTCOME_WORDS, TOO_FEW_SLOTS};
use crate::library;
use crate::texts::GENERATORS;
use std::io::Write;

/// What stands in a lent word until it is written. No right answer has such a word.
const UNTOUCHED: u64 = 0xa5a5_5a5a_c3c3_3c3c;

/// The same of a lent byte; a part may have it, so parts are lent more than they need.
const UNTOUCHED_BYTE: u8 = 0xa5;

/// What a field is where there is no such query or word.
const ABSENT: u64 = u64::MAX;

/// Words kept behind the lent ones, which nobody may touch.
const BEHIND: usize = 2 * WORDS;

/// How many differing texts of a generator are shown.
const SHOWN: u64 = 8;

/// Compares on every text of every generator. Answers how many texts differ.
pub fn all(count: u64) -> u64 {
    let mut asking = Asking::default();
    let mut coverage = Coverage::default();
    let mut texts = 0;
    let mut differing = 0;
    for generator in &GENERATORS {
        let start = std::time::Instant::now();
        let mut texts_here = 0_u64;
        let mut differing_here = 0_u64;
        (generator.run)(count, &mut |text| {
            texts_here += 1;
            let difference = match answer(text) {
                Ok(wanted) => {
                    coverage.add(&wanted);
                    asking.difference(text, &wanted)
                }
                Err(fault) => Some(fault),
            };
            if let Some(difference) = difference {
                differing_here += 1;
                if differing_here <= SHOWN {
                    println!("differs: {}\n{difference}", shown(text));
                }
            }
        });
        println!(
            "{:28} {texts_here:>10} texts compared, {differing_here} differ ({:.1} s)",
            generator.name,
            start.elapsed().as_secs_f64()
        );
        let _ = std::io::stdout().flush();
        texts += texts_here;
        differing += differing_here;
    }
    coverage.print();
    println!();
    asking.calls.print();
    println!("{texts} texts compared, {differing} differ");
    differing
}

/// How often each call was made.
#[derive(Default)]
struct Calls {
    steps: u64,
    reads: u64,
    wholes: u64,
    too_few: u64,
    counts: u64,
    fields: u64,
    parts: u64,
}

impl Calls {
    fn print(&self) {
        println!("calls: {} by steps, {} without separators", self.steps, self.reads);
        println!("calls: {} whole, of which {} with too few slots", self.wholes, self.too_few);
        println!("calls: {} counts, {} fields, {} parts", self.counts, self.fields, self.parts);
    }
}

/// A slice that is lent, with words behind it that are not; all untouched between two calls.
#[derive(Default)]
struct Lent {
    words: Vec<u64>,
    len: usize,
}

impl Lent {
    fn lend(&mut self, len: usize) -> &mut [u64] {
        if self.words.len() < len + BEHIND {
            self.words.resize(len + BEHIND, UNTOUCHED);
        }
        self.len = len;
        &mut self.words[..len]
    }

    /// Whether the first words are these, and all others untouched.
    fn holds(&self, wanted: &[u64]) -> bool {
        let (front, behind) = self.words[..self.len + BEHIND].split_at(wanted.len());
        front == wanted && behind.iter().all(|word| *word == UNTOUCHED)
    }

    fn wipe(&mut self) {
        self.words[..self.len + BEHIND].fill(UNTOUCHED);
    }
}

/// What one call is to write and answer.
struct Wanted<'a> {
    call: &'static str,
    given: u64,
    queries: &'a [u64],
    separators: &'a [u64],
    outcome: Outcome,
    /// How many of the outcome's words are written.
    told: usize,
}

#[derive(Default)]
struct Asking {
    queries: Lent,
    separators: Lent,
    outcome: Lent,
    bytes: Vec<u8>,
    turn: usize,
    calls: Calls,
}

impl Asking {
    /// What our library says otherwise than the wanted answer, if anything.
    fn difference(&mut self, text: &[u8], wanted: &Answer<'_>) -> Option<String> {
        self.turn += 1;
        let records = wanted.records.as_flattened();
        let between = between(wanted);
        self.steps(text, wanted, records, &between)
            .or_else(|| self.reads(text, wanted, records))
            .or_else(|| self.whole(text, wanted, records, &between))
            .or_else(|| self.count(text, wanted))
            .or_else(|| self.fields(text, wanted))
            .or_else(|| self.parts(text, wanted))
    }

    /// Query by query, with room for every record and sometimes more; every eighth time with too little room.
    fn steps(&mut self, text: &[u8], wanted: &Answer<'_>, records: &[u64], between: &[u64]) -> Option<String> {
        let given = wanted.records.len();
        let odd = if self.turn % 5 == 0 { self.turn % WORDS } else { 0 };
        let scarce = self.turn % 8 == 0 && given > 0;
        let slots = if scarce { self.turn / 8 % given } else { given + self.turn % 3 };
        let gaps = if scarce { self.turn / 16 % given } else { given };
        self.calls.steps += 1;
        let count = library::steps(
            text,
            self.queries.lend(slots * WORDS + odd),
            self.separators.lend(gaps * BETWEEN_WORDS + odd % BETWEEN_WORDS),
            self.outcome.lend(OUTCOME_WORDS),
        );
        let wanted_words = Wanted {
            call: "steps",
            given: given as u64,
            queries: &records[..given.min(slots) * WORDS],
            separators: &between[..between.len().min(gaps * BETWEEN_WORDS)],
            outcome: wanted.outcome,
            told: OUTCOME_WORDS,
        };
        let values = (0..given.min(slots)).all(|i| value_agrees(wanted, i, &self.queries.words));
        self.judge(count, &wanted_words, values)
    }

    /// The same by the call that tells no separators, every other time; its outcome has four words.
    fn reads(&mut self, text: &[u8], wanted: &Answer<'_>, records: &[u64]) -> Option<String> {
        if self.turn % 2 == 1 {
            return None;
        }
        let given = wanted.records.len();
        let scarce = self.turn % 8 == 6 && given > 0;
        let slots = if scarce { self.turn / 8 % given } else { given + self.turn % 3 };
        self.calls.reads += 1;
        let lent = self.queries.lend(slots * WORDS + self.turn % 5);
        let count = library::read(text, lent, self.outcome.lend(READ_OUTCOME_WORDS));
        self.separators.lend(0);
        let wanted_words = Wanted {
            call: "read",
            given: given as u64,
            queries: &records[..given.min(slots) * WORDS],
            separators: &[],
            outcome: wanted.outcome,
            told: READ_OUTCOME_WORDS,
        };
        self.judge(count, &wanted_words, true)
    }

    /// The whole reading, with just enough room or more; every fourth time with a slot too few.
    fn whole(&mut self, text: &[u8], wanted: &Answer<'_>, records: &[u64], between: &[u64]) -> Option<String> {
        let n = wanted.records.len();
        let accepted = wanted.outcome[0] == 0;
        let few_queries = self.turn % 8 == 1 && n > 0;
        let few_separators = self.turn % 8 == 5 && n > 1;
        let slots = if few_queries { n - 1 } else { n + self.turn % 2 };
        let gaps = if few_separators { n - 2 } else { n.saturating_sub(1) + self.turn / 2 % 2 };
        let odd = self.turn % 7;
        let too_few = accepted && (few_queries || few_separators);
        self.calls.wholes += 1;
        self.calls.too_few += u64::from(too_few);
        let count = library::fill(
            text,
            self.queries.lend(slots * WORDS + odd),
            self.separators.lend(gaps * BETWEEN_WORDS + odd % BETWEEN_WORDS),
            self.outcome.lend(OUTCOME_WORDS),
        );
        let filled = accepted && !too_few;
        let wanted_words = Wanted {
            call: "whole",
            given: if filled { n as u64 } else { 0 },
            queries: if filled { records } else { &[] },
            separators: if filled { between } else { &[] },
            outcome: if too_few { [TOO_FEW_SLOTS as u64, 0, 0, 0, n as u64] } else { wanted.outcome },
            told: OUTCOME_WORDS,
        };
        self.judge(count, &wanted_words, true)
    }

    fn count(&mut self, text: &[u8], wanted: &Answer<'_>) -> Option<String> {
        if self.turn % 4 != 2 {
            return None;
        }
        self.calls.counts += 1;
        let count = library::count(text, self.outcome.lend(OUTCOME_WORDS));
        self.queries.lend(0);
        self.separators.lend(0);
        let wanted_words = Wanted {
            call: "count",
            given: wanted.outcome[4],
            queries: &[],
            separators: &[],
            outcome: wanted.outcome,
            told: OUTCOME_WORDS,
        };
        self.judge(count, &wanted_words, true)
    }

    /// One word of one query; also of a query and of a word that are not there.
    fn fields(&mut self, text: &[u8], wanted: &Answer<'_>) -> Option<String> {
        if self.turn % 16 != 3 {
            return None;
        }
        self.calls.fields += 1;
        let k = self.turn / 16 % (wanted.records.len() + 1);
        let field = self.turn / 16 % (WORDS + 1);
        let right = wanted.records.get(k).and_then(|record| record.get(field)).copied().unwrap_or(ABSENT);
        let ours = library::field(text, k, field);
        (ours != right).then(|| format!("  field {field} of query {k}: source {right}, ours {ours}"))
    }

    /// The raw of a query as a part of the bytes, and parts at the edges of what is allowed.
    fn parts(&mut self, text: &[u8], wanted: &Answer<'_>) -> Option<String> {
        if self.turn % 16 != 11 {
            return None;
        }
        self.calls.parts += 1;
        let mut offset = 0;
        if let Ok(text) = std::str::from_utf8(text) {
            offset = text.len() - text.trim_start().len();
            let ours = library::offset(text.as_bytes());
            if text.len() <= crate::answer::LONGEST && ours != offset as u64 {
                return Some(format!("  offset: source {offset}, ours {ours}"));
            }
        }
        let k = self.turn / 16 % (wanted.records.len() + 1);
        let n = text.len();
        let (start, end) = match wanted.records.get(k) {
            Some(record) => (offset + record[RAW_START] as usize, offset + record[RAW_END] as usize),
            None => [(n, n), (n, n + 1), (n + 1, n), (0, n), (0, 0), (n / 2, n / 2 + 1)][self.turn / 16 % 6],
        };
        self.part(text, start, end)
    }

    fn part(&mut self, text: &[u8], start: usize, end: usize) -> Option<String> {
        let right = text.get(start..end);
        let room = if self.turn % 32 == 11 { text.len() + 2 } else { text.len() / 2 };
        self.bytes.clear();
        self.bytes.resize(room + 2, UNTOUCHED_BYTE);
        self.queries.lend(0);
        self.separators.lend(0);
        let count = library::part(text, start, end, &mut self.bytes[..room], self.outcome.lend(OUTCOME_WORDS));
        let copied = &right.unwrap_or(&[])[..right.map_or(0, |part| part.len().min(room))];
        let (front, behind) = self.bytes.split_at(copied.len());
        let equal = front == copied && behind.iter().all(|byte| *byte == UNTOUCHED_BYTE);
        let length = right.map_or(0, |part| part.len() as u64);
        let outcome = if right.is_some() { [0, 0, 0, 0, length] } else { [OUTSIDE_BYTES as u64, 0, 0, 0, 0] };
        let wanted_words =
            Wanted { call: "part", given: length, queries: &[], separators: &[], outcome, told: OUTCOME_WORDS };
        self.judge(count, &wanted_words, equal)
    }

    /// Compares the count and every lent word, and makes all words untouched again.
    fn judge(&mut self, count: u64, wanted: &Wanted<'_>, also: bool) -> Option<String> {
        let equal = also
            && count == wanted.given
            && self.queries.holds(wanted.queries)
            && self.separators.holds(wanted.separators)
            && self.outcome.holds(&wanted.outcome[..wanted.told]);
        let difference = (!equal).then(|| self.told(count, wanted));
        self.queries.wipe();
        self.separators.wipe();
        self.outcome.wipe();
        difference
    }

    // ---- Telling a difference ----

    fn told(&self, count: u64, wanted: &Wanted<'_>) -> String {
        let mut lines = vec![
            format!("  {}: source: {} given, outcome {:?}", wanted.call, wanted.given, wanted.outcome),
            format!(
                "  {}: ours:   {count} given, outcome {} (lent {} and {} words)",
                wanted.call,
                words_shown(&self.outcome.words[..OUTCOME_WORDS]),
                self.queries.len,
                self.separators.len
            ),
        ];
        let ours = self.queries.words[..self.queries.len].chunks(WORDS);
        let theirs = wanted.queries.chunks(WORDS);
        for (i, (ours, theirs)) in ours.zip(theirs).enumerate() {
            if ours != theirs {
                lines.push(format!("  source {i}: {}", record_shown(theirs)));
                lines.push(format!("  ours   {i}: {}", record_shown(ours)));
                break;
            }
        }
        if !self.queries.holds(wanted.queries) {
            lines.push(format!("  query words differ, of {} wanted", wanted.queries.len()));
        }
        if !self.separators.holds(wanted.separators) {
            lines.push(format!("  source separators: {:?}", wanted.separators));
            lines.push(format!("  ours:              {}", words_shown(&self.separators.words[..self.separators.len])));
        }
        lines.join("\n")
    }
}

/// The places of the separators: from the end of each raw up to the start of the next.
fn between(wanted: &Answer<'_>) -> Vec<u64> {
    wanted.records.windows(2).flat_map(|pair| [pair[0][RAW_END], pair[1][RAW_START]]).collect()
}

/// Whether the number that our library found in query i has the source's value.
fn value_agrees(wanted: &Answer<'_>, i: usize, written: &[u64]) -> bool {
    let ours = &written[i * WORDS..(i + 1) * WORDS];
    wanted.values[i].is_of(part(wanted.trimmed, ours[NUMBER], ours[NUMBER + 1]))
}

fn words_shown(words: &[u64]) -> String {
    let each: Vec<String> =
        words.iter().map(|word| if *word == UNTOUCHED { "?".to_string() } else { word.to_string() }).collect();
    each.join(" ")
}

fn record_shown(words: &[u64]) -> String {
    let form = words.get(FORM).and_then(|form| usize::try_from(*form).ok());
    let name = form.and_then(|form| FORM_NAMES.get(form)).unwrap_or(&"no form");
    format!("{} ({name})", words_shown(words))
}

fn shown(text: &[u8]) -> String {
    const MOST: usize = 300;
    if text.len() <= MOST {
        return format!("\"{}\"", text.escape_ascii());
    }
    let (front, behind) = (&text[..MOST / 2], &text[text.len() - MOST / 2..]);
    format!("\"{}\" .. \"{}\" ({} bytes)", front.escape_ascii(), behind.escape_ascii(), text.len())
}
