//! The source's answer to a text, told in the words that our library writes.

use crate::layout;
use crate::source::{
    BaselineKind, Comparator, QueryAtom, SingleQuery, Stats, SupportKind, VersionRange,
    parse_browserslist_query, read_each,
};

/// How many words a query's record has, and how many a separator's and an outcome.
pub const WORDS: usize = layout::QUERY_WORDS;
pub const BETWEEN_WORDS: usize = layout::SEPARATOR_WORDS;
pub const OUTCOME_WORDS: usize = layout::OUTCOME_WORDS;

/// The longest text that is read.
pub const LONGEST: usize = layout::LONGEST;

pub type Record = [u64; WORDS];
pub type Outcome = [u64; OUTCOME_WORDS];

/// The source's names of the forms; the form's number is its place here.
pub const FORM_NAMES: [&str; 20] = [
    "(none)", "Last", "Unreleased", "Years", "Since", "Percentage", "Cover", "Supports", "Electron", "Node",
    "Browser", "Baseline", "FirefoxESR", "OperaMini", "CurrentNode", "MaintainedNode", "Phantom", "Defaults",
    "Dead", "Unknown",
];

pub use crate::layout::{COMPARATOR, FORM, IS_AND, KIND, NEGATED};

/// Where a number that is a part of the text begins.
pub const NUMBER: usize = layout::AMOUNT_START;

/// The bits of a query's number, where it has one: the source keeps the value, our library the part.
#[derive(Clone, Copy, PartialEq, Debug)]
pub enum Value {
    None,
    Single(u32),
    Double(u64),
}

impl Value {
    /// Whether the part of the text has this value, to the bit.
    pub fn is_of(self, part: Option<&str>) -> bool {
        match self {
            Value::None => true,
            Value::Single(bits) => part.and_then(|p| p.parse::<f32>().ok()).is_some_and(|v| v.to_bits() == bits),
            Value::Double(bits) => part.and_then(|p| p.parse::<f64>().ok()).is_some_and(|v| v.to_bits() == bits),
        }
    }
}

#[derive(PartialEq, Debug)]
pub struct Answer<'a> {
    /// The text as `str::trim` leaves it; empty where the text was not read at all.
    pub trimmed: &'a str,
    /// Refusal (0: none), place, fault, own place, count.
    pub outcome: Outcome,
    pub records: Vec<Record>,
    /// For each record the value of its number.
    pub values: Vec<Value>,
}

/// The answer that the source, its UTF-8 check and the limit of length give to these bytes. An error tells
/// that the harness itself is wrong about the source, or that the source panics.
pub fn answer(bytes: &[u8]) -> Result<Answer<'_>, String> {
    if bytes.len() > LONGEST {
        return Ok(refused([layout::BAD_CELL as u64, 0, 5, 0, 0]));
    }
    match std::str::from_utf8(bytes) {
        Err(fault) => Ok(refused([layout::ILL_FORMED as u64, fault.valid_up_to() as u64, 0, 0, 0])),
        Ok(text) => match std::panic::catch_unwind(|| read(text)) {
            Ok(read) => read,
            Err(_) => Err("the source panics".to_string()),
        },
    }
}

fn refused(outcome: Outcome) -> Answer<'static> {
    Answer { trimmed: "", outcome, records: Vec::new(), values: Vec::new() }
}

fn accepted(count: usize) -> Outcome {
    [0, 0, 0, 0, count as u64]
}

fn unread(place: u64) -> Outcome {
    [layout::NO_READING as u64, place, 0, 0, 0]
}

fn read(text: &str) -> Result<Answer<'_>, String> {
    let trimmed = text.trim();
    let (queries, stop) = read_each(trimmed);
    let outcome = match stop {
        None => accepted(queries.len()),
        Some(place) => unread(place as u64),
    };
    let each = told(trimmed, outcome, &queries);

    // The source's own entry point must say the same.
    match parse_browserslist_query(text) {
        Ok(queries) => {
            let whole = told(trimmed, accepted(queries.len()), &queries);
            if whole != each {
                return Err(format!("the source's whole answer is {whole:?}, query by query it is {each:?}"));
            }
        }
        Err(rest) => {
            let place = (trimmed.len() - rest.len()) as u64;
            if each.outcome != unread(place) {
                return Err(format!("the source refuses at {place}, query by query it is {each:?}"));
            }
        }
    }

    // The number that we found must have the source's value.
    for (record, value) in each.records.iter().zip(&each.values) {
        let part = part(trimmed, record[NUMBER], record[NUMBER + 1]);
        if !value.is_of(part) {
            return Err(format!("found the number {part:?} in {record:?}, its value is not {value:?}"));
        }
    }
    Ok(each)
}

fn told<'a>(trimmed: &'a str, outcome: Outcome, queries: &[SingleQuery<'_>]) -> Answer<'a> {
    let mut records = Vec::with_capacity(queries.len());
    let mut values = Vec::with_capacity(queries.len());
    for query in queries {
        let (record, value) = record(trimmed, query);
        records.push(record);
        values.push(value);
    }
    Answer { trimmed, outcome, records, values }
}

/// The part of the text between two places, if they are places of a part.
pub fn part(trimmed: &str, start: u64, end: u64) -> Option<&str> {
    trimmed.get(usize::try_from(start).ok()?..usize::try_from(end).ok()?)
}

/// The two places of a slice of the text, or nothing for a slice of anything else.
fn places(trimmed: &str, slice: &str) -> Option<[u64; 2]> {
    let base = trimmed.as_ptr() as usize;
    let start = (slice.as_ptr() as usize).checked_sub(base)?;
    let end = start + slice.len();
    (end <= trimmed.len()).then_some([start as u64, end as u64])
}

/// The record being filled, with the text that its places are in.
struct Filling<'a> {
    trimmed: &'a str,
    words: Record,
}

impl Filling<'_> {
    fn put_part(&mut self, word: usize, slice: &str) {
        let found = places(self.trimmed, slice).expect("a part of the text");
        self.words[word..word + 2].copy_from_slice(&found);
    }

    fn put_stats(&mut self, stats: &Stats<'_>) {
        if let Stats::Region(region) = stats {
            self.words[KIND] = layout::REGION as u64;
            self.put_part(layout::REGION_START, region);
        }
    }

    fn put_range(&mut self, range: &VersionRange<'_>) {
        match range {
            VersionRange::Bounded(from, to) => {
                self.words[KIND] = layout::BOUNDED as u64;
                self.put_part(layout::VERSION_START, from);
                self.put_part(layout::UPPER_START, to);
            }
            VersionRange::Unbounded(comparator, version) => {
                self.words[KIND] = layout::UNBOUNDED as u64;
                self.words[COMPARATOR] = comparator_number(*comparator);
                self.put_part(layout::VERSION_START, version);
            }
            VersionRange::Accurate(version) if places(self.trimmed, version).is_none() => {
                assert_eq!(*version, "tp");
                self.words[KIND] = layout::PREVIEW as u64;
            }
            VersionRange::Accurate(version) => {
                self.words[KIND] = layout::ACCURATE as u64;
                self.put_part(layout::VERSION_START, version);
            }
        }
    }
}

fn comparator_number(comparator: Comparator) -> u64 {
    let number = match comparator {
        Comparator::Less => layout::LESS,
        Comparator::LessOrEqual => layout::LESS_OR_EQUAL,
        Comparator::Greater => layout::GREATER,
        Comparator::GreaterOrEqual => layout::GREATER_OR_EQUAL,
    };
    number as u64
}

fn record(trimmed: &str, query: &SingleQuery<'_>) -> (Record, Value) {
    let mut filling = Filling { trimmed, words: [0; WORDS] };
    filling.put_part(layout::RAW_START, query.raw);
    filling.words[NEGATED] = u64::from(query.negated);
    filling.words[IS_AND] = u64::from(query.is_and);
    let mut value = Value::None;
    let form = match &query.atom {
        QueryAtom::Last { count, major, name } => {
            filling.words[layout::NUMBER] = u64::from(*count);
            filling.words[layout::MAJOR] = u64::from(*major);
            if let Some(name) = name {
                filling.words[KIND] = layout::NAMED as u64;
                filling.put_part(layout::NAME_START, name);
            }
            layout::LAST
        }
        QueryAtom::Unreleased(name) => {
            if let Some(name) = name {
                filling.words[KIND] = layout::NAMED as u64;
                filling.put_part(layout::NAME_START, name);
            }
            layout::UNRELEASED
        }
        QueryAtom::Years(years) => {
            value = Value::Double(years.to_bits());
            layout::YEARS
        }
        QueryAtom::Since { year, month, day } => {
            filling.words[layout::NUMBER] = u64::from(*year as u32);
            filling.words[layout::MONTH] = u64::from(*month);
            filling.words[layout::DAY] = u64::from(*day);
            layout::SINCE
        }
        QueryAtom::Percentage { comparator, popularity, stats } => {
            value = Value::Single(popularity.to_bits());
            filling.words[COMPARATOR] = comparator_number(*comparator);
            filling.put_stats(stats);
            layout::PERCENTAGE
        }
        QueryAtom::Cover { coverage, stats } => {
            value = Value::Single(coverage.to_bits());
            filling.put_stats(stats);
            layout::COVER
        }
        QueryAtom::Supports(feature, kind) => {
            filling.words[KIND] = match kind {
                None => 0,
                Some(SupportKind::Fully) => layout::FULLY as u64,
                Some(SupportKind::Partially) => layout::PARTIALLY as u64,
            };
            filling.put_part(layout::NAME_START, feature);
            layout::SUPPORTS
        }
        QueryAtom::Electron(range) => {
            filling.put_range(range);
            layout::ELECTRON
        }
        QueryAtom::Node(range) => {
            filling.put_range(range);
            layout::NODE
        }
        QueryAtom::Browser(name, range) => {
            filling.put_part(layout::NAME_START, name);
            filling.put_range(range);
            layout::BROWSER
        }
        QueryAtom::Baseline { kind, downstream, kaios } => {
            filling.words[layout::DOWNSTREAM] = u64::from(*downstream);
            filling.words[layout::KAIOS] = u64::from(*kaios);
            let kind = match kind {
                BaselineKind::Year(year) => {
                    filling.words[layout::NUMBER] = u64::from(*year);
                    layout::YEAR
                }
                BaselineKind::LegacyYear(year) => {
                    filling.words[layout::NUMBER] = u64::from(*year);
                    layout::LEGACY_YEAR
                }
                BaselineKind::InvalidYear => layout::INVALID_YEAR,
                BaselineKind::NewlyAvailable => layout::NEWLY,
                BaselineKind::NewlyAvailableOnDate => layout::NEWLY_ON_DATE,
                BaselineKind::WidelyAvailable => layout::WIDELY,
                BaselineKind::WidelyAvailableOnDate { year, month, day } => {
                    filling.words[layout::NUMBER] = *year as u64;
                    filling.words[layout::MONTH] = u64::from(*month);
                    filling.words[layout::DAY] = u64::from(*day);
                    layout::WIDELY_ON_DATE
                }
            };
            filling.words[KIND] = kind as u64;
            layout::BASELINE
        }
        QueryAtom::FirefoxESR => layout::FIREFOX_ESR,
        QueryAtom::OperaMini => layout::OPERA_MINI,
        QueryAtom::CurrentNode => layout::CURRENT_NODE,
        QueryAtom::MaintainedNode => layout::MAINTAINED_NODE,
        QueryAtom::Phantom(newer) => {
            filling.words[KIND] = u64::from(*newer);
            layout::PHANTOM
        }
        QueryAtom::Defaults => layout::DEFAULTS,
        QueryAtom::Dead => layout::DEAD,
        QueryAtom::Unknown(text) => {
            filling.put_part(layout::NAME_START, text);
            layout::UNKNOWN
        }
    };
    filling.words[FORM] = form as u64;
    if let Some([start, end]) = number_in(query.raw, query.negated, form) {
        filling.words[NUMBER] = filling.words[layout::RAW_START] + start as u64;
        filling.words[NUMBER + 1] = filling.words[layout::RAW_START] + end as u64;
    }
    (filling.words, value)
}

/// Finds the number of a query in its raw, from what stands around it: the source keeps only the value.
fn number_in(raw: &str, negated: bool, form: usize) -> Option<[usize; 2]> {
    let is_blank = |b: &u8| matches!(b, b' ' | b'\t');
    let raw = raw.as_bytes();
    let skip = |from: usize, skipped: &dyn Fn(&u8) -> bool| from + raw[from..].iter().take_while(|b| skipped(b)).count();
    let body = if negated { skip("not".len(), &is_blank) } else { 0 };
    let before_blanks = match form {
        layout::YEARS => body + "last".len(),
        layout::PERCENTAGE => skip(body, &|b| matches!(b, b'<' | b'>' | b'=')),
        layout::COVER => body + "cover".len(),
        _ => return None,
    };
    let start = skip(before_blanks, &is_blank);
    let end = if form == layout::YEARS { skip(start, &|b| !is_blank(b)) } else { skip(start, &|b| *b != b'%') };
    Some([start, end])
}
