//! The texts that both sides are asked about, by generator. Nothing here depends on what either side answers.

use std::collections::HashSet;

/// Takes one text after another.
pub type Sink<'a> = &'a mut dyn FnMut(&[u8]);

pub struct Generator {
    pub name: &'static str,
    /// Gives every text to the sink; the number is how many random ones are wanted where there is randomness.
    pub run: fn(u64, Sink<'_>),
}

pub const GENERATORS: [Generator; 10] = [
    Generator { name: "listed statements", run: listed },
    Generator { name: "exhaustive over tokens", run: exhaustive },
    Generator { name: "prefixes and what follows", run: prefixes },
    Generator { name: "numbers", run: numbers },
    Generator { name: "long texts", run: long },
    Generator { name: "edited statements", run: edited },
    Generator { name: "random tokens", run: soup },
    Generator { name: "white space", run: white_space },
    Generator { name: "not UTF-8", run: not_utf8 },
    Generator { name: "control bytes and edges", run: edges },
];

/// A small generator of random numbers (xorshift), started from a fixed seed.
pub struct Random(u64);

pub const SEED: u64 = 0x9E37_79B9_7F4A_7C15;

impl Random {
    pub fn new(stream: u64) -> Self {
        let mut random = Random(SEED ^ (stream.wrapping_mul(0xD134_2543_DE82_EF95)));
        for _ in 0..8 {
            random.next();
        }
        random
    }

    pub fn next(&mut self) -> u64 {
        self.0 ^= self.0 << 13;
        self.0 ^= self.0 >> 7;
        self.0 ^= self.0 << 17;
        self.0
    }

    pub fn below(&mut self, bound: usize) -> usize {
        ((self.next() >> 20) % bound as u64) as usize
    }

    pub fn pick<'a, T: ?Sized>(&mut self, from: &[&'a T]) -> &'a T {
        from[self.below(from.len())]
    }
}

/// One query each, accepted by itself and in front of a separator. Every form with all its kinds and options.
pub const FORMS: &[&str] = &[
    // Last
    "last 2 versions",
    "Last 1 Version",
    "last 3 Chrome versions",
    "LAST 2 MAJOR VERSIONS",
    "last 10 ie_mob major version",
    "last 65537 versions",
    "last\t7 \tsafari  Major\tversions",
    // Unreleased
    "unreleased versions",
    "Unreleased Chrome Versions",
    "unreleased\tversion",
    "unreleased major version",
    // Years
    "last 2 years",
    "last 1.5 Years",
    "last .5 year",
    "LAST -1. YEAR",
    "last +2.25\tyears",
    // Since
    "since 2020",
    "Since 2015-03",
    "since 2016-12-31",
    "since\t-5-6-7",
    "since +1",
    "since 2020--5",
    "SINCE 2020-",
    "since 4294967297-4294967298-99999999999",
    "since -2147483648",
    // Percentage
    "> 1%",
    ">=5.5% in US",
    "<\t.5% In alt-AS",
    "<= 10.%  in\tus",
    ">-1%",
    "< +0.0001% in Alt-eu",
    "> 1% ",
    // Cover
    "cover 99%",
    "Cover 80.5% in US",
    "cover\t10% IN alt-as",
    "COVER -.5%",
    "cover 0.1% \t",
    // Supports
    "supports es6-module",
    "SUPPORTS 3d",
    "fully supports flexbox",
    "Fully\tSupports -x-",
    "partially supports css-grid",
    "PARTIALLY  supports a1",
    // Electron
    "electron 5.0 - 6.1",
    "Electron 5-6",
    "electron >= 5.0",
    "electron<4",
    "ELECTRON  >1",
    "electron <= 2.0",
    "electron\t5.3.1",
    "electron foo",
    "electron_5",
    // Node
    "node 10 - 12.4",
    "Node > 8",
    "node>=6.0",
    "node <\t7",
    "NODE<= 4.1",
    "node 12.0.1",
    "node tp",
    // Browser
    "ie 6-8",
    "Chrome 4 - 10.5",
    "firefox >= 78",
    "Safari < 5.1",
    "ie<=9",
    "op_mob > 12",
    "chrome\t99.0",
    "safari TP",
    "Edge  tp",
    "_x",
    "z_ 1",
    // Baseline
    "baseline 2022",
    "Baseline 20220",
    "baseline 0",
    "baseline 0002024",
    "baseline 4294967295",
    "baseline 4294967296",
    "baseline 2023 with downstream",
    "baseline 2023 including kaios",
    "Baseline 2023 With Downstream\tIncluding  KaiOS",
    "baseline 99999999999 with downstream",
    "baseline newly available",
    "BASELINE Newly Available with downstream",
    "baseline newly available including kaios",
    "baseline newly available with downstream including kaios",
    "baseline newly available on 2024-01-02",
    "baseline Newly available On 0000-00-00 with downstream including kaios",
    "baseline widely available",
    "baseline\tWidely\tAvailable including kaios",
    "baseline widely available with downstream",
    "baseline widely available on 2021-12-31",
    "baseline widely available on 9999-99-99 with downstream",
    "Baseline WIDELY available ON 2030-06-09 with downstream including kaios",
    // FirefoxESR, OperaMini
    "firefox esr",
    "FF ESR",
    "fx\tesr",
    "op_mini all",
    "OperaMini ALL",
    // CurrentNode, MaintainedNode
    "current node",
    "Current\tNode",
    "maintained node versions",
    "MAINTAINED  Node Versions",
    // Phantom
    "phantomjs 2.1",
    "PhantomJS 1.9",
    // Defaults, Dead
    "defaults",
    "DEFAULTS",
    "dead",
    "Dead",
    // Unknown
    "unknown-thing",
    "5",
    "and",
    "extends browserslist-config-mine",
    "\u{fc}n\u{ef}code \u{1f980}",
    "yuru1.x",
    "last versions",
    // Negated
    "not dead",
    "Not > 1%",
    "NOT\tcover 5.%",
    "not  last 1.25 years",
    "not not dead",
    "not 5",
    "not electron x",
    "not baseline 2022",
];

/// Statements of several queries, refused ones, and what else is worth asking by itself.
pub const STATEMENTS: &[&str] = &[
    "",
    " ",
    "dead and not chrome tp",
    "> 1% , dead",
    "a ,b",
    "a,b",
    "a, b and c or d",
    "a AND b Or c\tand\td",
    "chrome 5 or ie 6 and not op_mini all",
    "last 2 versions, > 0.5%, not dead",
    "> 0.2% and last 4 major versions, not ie <= 10",
    "cover 95% in US or current node and maintained node versions",
    "chrome 5,",
    "chrome 5 ,",
    ",",
    ",a",
    "a,,b",
    "a, ,b",
    "a and",
    "a and ",
    "a or b or",
    "chrome 5..",
    "yuru 1x.",
    "> 1%and dead",
    "dead,or x",
    "dead\u{e9}",
    "chrome 5. and dead",
    "chrome 5 and",
    "chrome 5 andx",
    "chrome 5 and,",
    "chrome 5 or.",
    "chrome 5 x",
    "chrome 5\ndead",
    "chrome 5 - x",
    "chrome 5 - ",
    "chrome > ",
    "chrome tpx",
    "chrome tp_",
    "chrome tp.",
    "phantomjs 2.15",
    "phantomjs 1.9.8",
    "phantomjs 2.2",
    "phantomjs 2.1 x",
    "last 1.5 versions",
    "last 65535 versions",
    "last 65536 versions",
    "last 2 version s",
    "last 2 years versions",
    "last 2 major",
    "last 2 chrome major years",
    "last 2 year_",
    "last + years",
    "last . years",
    "last 5years",
    "electron",
    "electron,",
    "electron ",
    "electron\t,x",
    "x, electron",
    "x and electron or y",
    "x, not electron",
    "x, not electron, y",
    "not electron",
    "not electron and x",
    "electron - 5",
    "electron <= 2.",
    "electron 5.0 -",
    "electron and x",
    "electron  and x",
    "electron.5",
    "node",
    "node and x",
    "not",
    "not ",
    "not,",
    "not , dead",
    "not or dead",
    "a, not",
    "a, not ,b",
    "a, not and b",
    "not and b",
    "not  and b",
    "and and and",
    "or or or",
    "and or and",
    "x and and y",
    "x and or y",
    "x or and y",
    "> 1% in",
    "> 1% in ",
    "> 1% in U",
    "> 1% in USA",
    "> 1% in alt-",
    "> 1% in alt-x",
    "> 1% in alt-xyz",
    "> 1% ina",
    "> 1% in, dead",
    "> 1%in US",
    "> 1 %",
    "> %",
    "> -%",
    "> .%",
    "> +.%",
    "> 1e5%",
    "= 1%",
    "=> 1%",
    ">== 1%",
    "cover 5% in",
    "cover 5 %",
    "cover 5",
    "cover5%",
    "since  2020",
    "since 2020 -5",
    "since 2020-5-6-7",
    "since 2020-5x",
    "since",
    "since ",
    "since +-5",
    "since -",
    "since 2020---5",
    "since 2147483648",
    "since -2147483649",
    "since -0",
    "since 2020-1-",
    "supports",
    "supports ",
    "supports _",
    "supports a_b",
    "supports a b",
    "fully supports",
    "fully partially supports a",
    "baseline",
    "baseline ",
    "baseline x",
    "baseline 2022x",
    "baseline 2022-",
    "baseline newly",
    "baseline newly available on",
    "baseline newly available on ",
    "baseline newly available on 2024-1-2",
    "baseline widely available on 2024-01-022",
    "baseline widely available on 2024-01-02x",
    "baseline widely available onx",
    "baseline widely available with",
    "baseline widely available with downstream including",
    "baseline widely available including kaios with downstream",
    "baseline widely available on 2024-01-02 including",
    "baseline 2022 with downstream and dead",
    "firefox",
    "firefox esr 5",
    "firefox esrx",
    "firefox 5 esr",
    "ff 5",
    "f",
    "op_mini",
    "op_mini alls",
    "op_mini 5",
    "current",
    "current nodes",
    "maintained node",
    "maintained node version",
    "maintained node 5",
    "defaults5",
    "defaults 5",
    "dead.",
    "dead 5",
    "de",
    "d",
    "deadx",
    "unreleased",
    "unreleased chrome",
    "unreleased chrome 5 versions",
    "unreleased chrome versionss",
];

const SEPARATORS: &[&str] = &[", ", ",", " or ", " and ", " , ", "\t,\t", " AND ", " Or\t", "  and  "];

/// Words and bytes that mean something to a reader of statements.
const TOKENS: &[&str] = &[
    " ", " ", " ", " ", "\t", ",", ",", ", ", "and", "or", " and ", " or ", "not", "not ", "AND", "Or", "Not", "5", "0",
    "2.1", "1.9", "12", ".", "-", "+", "_", "<", ">", "=", "<=", ">= ", "%", "5%", " in ", "in", "US", "alt-", "alt-AS",
    "last", "Last ", "last 2 ", "versions", "version", "s", "major", "year", "years", "unreleased", "since", "since ",
    "2020", "2020-01-02", "supports", "fully ", "partially ", "flexbox", "cover", "cover ", "current", "node", "electron",
    "Electron ", "maintained", "firefox", "ff", "fx", "esr", "op_mini", "operamini", "all", "phantomjs", "baseline ",
    "baseline", "newly", "widely", "available", " on ", "with", "downstream", " with downstream", "including", "kaios",
    " including kaios", "defaults", "dead", "chrome", "ie", "tp", " tp", "x", "\n", "\u{a0}", "\u{3000}", "\u{200b}", "\0",
];

/// Bytes that stand next to the edges of what the reader distinguishes.
const TELLING: &[u8] = b" \t\n\r\x0b\x0c\x00\x1c\x1e\x1f!#%&'()*+,-./0159:;<=>?@AENOSZ[\\]^_`adefinorstvyz{|}~\x7f\x80\x85\xa0\xc2\xe2";

// ---- Listed ----

fn listed(_: u64, sink: Sink<'_>) {
    for text in FORMS.iter().chain(STATEMENTS) {
        sink(text.as_bytes());
    }
    for form in FORMS {
        for front in ["not ", "NOT\t ", "x and not ", "x, Not\t", "x or "] {
            sink(format!("{front}{form}").as_bytes());
        }
    }
    for first in FORMS {
        for separator in SEPARATORS {
            for second in FORMS {
                sink(format!("{first}{separator}{second}").as_bytes());
            }
        }
    }
}

// ---- Exhaustive ----

/// A prefix, the tokens behind it, and how many of them at most.
type Alphabet = (&'static str, &'static [&'static [u8]], usize);

const ALPHABETS: &[Alphabet] = &[
    ("", &[b"a", b" ", b",", b"and", b"or", b"not", b"\t", b"5"], 7),
    ("", &[b"a", b"n", b"d", b"o", b"R", b" ", b",", b"N"], 6),
    ("", &[b"n", b"O", b"t", b" ", b"_", b",", b"5"], 6),
    ("", &[b"electron", b" ", b"5", b".", b"-", b">", b",", b"not "], 6),
    ("x or ", &[b"electron", b" ", b"5", b"not", b"and", b","], 6),
    ("electron", &[b" ", b"\t", b"5", b".", b"-", b"<", b"=", b"or"], 6),
    ("node", &[b" ", b"5", b".", b"-", b">", b"=", b"tp", b","], 6),
    ("Chrome", &[b" ", b"5", b".", b"-", b"<", b"=", b"tp"], 7),
    ("", &[b"not", b" ", b"chrome", b"tp", b"5", b"-", b"_", b","], 6),
    ("", &[b">", b"<", b"=", b" ", b"5", b".", b"-", b"%", b"in", b"US"], 6),
    (">5%", &[b" ", b"\t", b"in", b"US", b"alt-", b"x", b",", b"and"], 6),
    ("cover", &[b" ", b"5", b".", b"+", b"%", b"in", b"US", b","], 6),
    ("last", &[b" ", b"5", b".", b"major", b"version", b"s", b"year", b"chrome", b","], 6),
    ("last ", &[b"2", b"-", b"+", b".", b" ", b"years", b"versions"], 6),
    ("", &[b"unreleased", b" ", b"version", b"s", b"chrome", b"versions", b",", b"_"], 6),
    ("since", &[b" ", b"\t", b"5", b"-", b"+", b",", b"x"], 7),
    ("", &[b"since ", b"supports ", b"s", b"i", b"u", b"-", b"9", b" "], 6),
    ("", &[b"firefox", b"ff", b"fx", b"esr", b" ", b"fully", b"supports", b"a-1", b"_", b"partially"], 5),
    ("", &[b"current", b"node", b"maintained", b"versions", b" ", b"5", b"not", b"_"], 6),
    ("", &[b"op_mini", b"operamini", b"all", b" ", b"phantomjs", b"2.1", b"1.9", b"5", b","], 5),
    ("", &[b"defaults", b"dead", b"de", b" ", b"F", b"a", b"_", b","], 6),
    ("baseline", &[b" ", b"newly", b"available", b"on", b"2024-01-02", b"with downstream", b"including kaios", b","], 6),
    ("baseline widely available", &[b" ", b"on", b"2024-01-02", b"with", b"downstream", b"including", b"kaios"], 6),
    ("baseline widely available on ", &[b"2", b"-", b" ", b","], 9),
    ("baseline ", &[b"0", b"42949", b"67295", b"67296", b" ", b"with downstream", b"x"], 6),
    ("", &[b"a", b",", b" ", b"\xc2\xa0", b"\xe2\x80\x8b", b"\xc2", b"\n", b"0"], 6),
];

fn exhaustive(_: u64, sink: Sink<'_>) {
    for (prefix, tokens, most) in ALPHABETS {
        let mut text = prefix.as_bytes().to_vec();
        all_behind(&mut text, tokens, *most, sink);
    }
}

fn all_behind(text: &mut Vec<u8>, tokens: &[&[u8]], most: usize, sink: Sink<'_>) {
    sink(text);
    if most == 0 {
        return;
    }
    for token in tokens {
        let length = text.len();
        text.extend_from_slice(token);
        all_behind(text, tokens, most - 1, sink);
        text.truncate(length);
    }
}

// ---- Prefixes ----

/// Every prefix of every form, each followed by any one byte, and by any two telling bytes.
fn prefixes(_: u64, sink: Sink<'_>) {
    let mut seen = HashSet::new();
    for form in FORMS {
        for length in 0..=form.len() {
            let prefix = &form.as_bytes()[..length];
            if !seen.insert(prefix) {
                continue;
            }
            let mut text = prefix.to_vec();
            sink(&text);
            for byte in 0..=255 {
                text.push(byte);
                sink(&text);
                text.pop();
            }
            for first in TELLING {
                text.push(*first);
                for second in TELLING {
                    text.push(*second);
                    sink(&text);
                    text.pop();
                }
                text.pop();
            }
        }
    }
}

// ---- Numbers ----

fn numbers(_: u64, sink: Sink<'_>) {
    for count in (0..=200_000_u64).step_by(3).chain(65_000..66_100).chain(131_000..131_200) {
        sink(format!("last {count} versions").as_bytes());
    }
    let mut telling: Vec<u64> = (0..40).chain(1_990..2_040).chain(9_990..10_010).collect();
    for power in [15, 16, 17, 31, 32, 33, 34, 48, 63] {
        let at = 1_u64 << power;
        telling.extend(at - 4..=at + 4);
    }
    telling.extend([u64::MAX - 1, u64::MAX, 99_999_999_999, 42_949_672_950, 42_949_672_961]);
    let mut digits: Vec<String> = telling.iter().map(u64::to_string).collect();
    for zeros in [1, 2, 3, 9, 30] {
        digits.extend(telling.iter().take(60).chain(telling.iter().rev().take(70)).map(|n| format!("{}{n}", "0".repeat(zeros))));
    }
    digits.extend(["18446744073709551616", "340282366920938463463374607431768211456"].map(String::from));
    digits.extend([20, 40, 100, 400].map(|length| "9".repeat(length)));
    for number in &digits {
        sink(format!("last {number} versions").as_bytes());
        sink(format!("last {number} years").as_bytes());
        sink(format!("baseline {number}").as_bytes());
        sink(format!("baseline {number} with downstream").as_bytes());
        sink(format!("chrome {number}-{number}.{number}").as_bytes());
        for sign in ["", "-", "+"] {
            sink(format!("since {sign}{number}").as_bytes());
            sink(format!("since {sign}{number}-{number}").as_bytes());
            sink(format!("since {sign}{number}--{number}").as_bytes());
            sink(format!("since {sign}1-{number}-{number}").as_bytes());
        }
    }
    let mut random = Random::new(1);
    let mut decimals: Vec<String> = Vec::new();
    for whole in ["", "0", "1", "00", "16777217", "99999999", "340282346638528859811704183484516925440", "340282366920938463463374607431768211456"] {
        for behind in ["", ".", ".0", ".5", ".1", ".00000000000000000000000000000000000000000000001", ".333333333333333333333333", ".50000000000000000000001"] {
            decimals.push(format!("{whole}{behind}"));
        }
    }
    for _ in 0..3_000 {
        let before: String = (0..random.below(12)).map(|_| char::from(b'0' + random.below(10) as u8)).collect();
        let behind: String = (0..random.below(24)).map(|_| char::from(b'0' + random.below(10) as u8)).collect();
        decimals.push(if random.below(5) == 0 { before } else { format!("{before}.{behind}") });
    }
    for length in [300, 320, 700, 1_100] {
        decimals.push("9".repeat(length));
        decimals.push(format!(".{}1", "0".repeat(length)));
    }
    for decimal in &decimals {
        for sign in ["", "-", "+"] {
            sink(format!("> {sign}{decimal}%").as_bytes());
            sink(format!("not <={sign}{decimal}% in US").as_bytes());
            sink(format!("cover {sign}{decimal}%").as_bytes());
            sink(format!("not cover \t{sign}{decimal}% in alt-eu").as_bytes());
            sink(format!("last {sign}{decimal} years").as_bytes());
            sink(format!("a, not\tlast  {sign}{decimal}\tyear").as_bytes());
        }
    }
}

// ---- Long ----

fn statement(random: &mut Random, text: &mut Vec<u8>, queries: usize) {
    for i in 0..queries {
        if i > 0 {
            text.extend_from_slice(random.pick(SEPARATORS).as_bytes());
        }
        if random.below(4) == 0 {
            text.extend_from_slice(random.pick(&["not ", "Not\t", "NOT  "]).as_bytes());
        }
        text.extend_from_slice(random.pick(FORMS).as_bytes());
    }
}

/// A text of exactly this length: forms and separators, filled up or cut at the end.
fn long_text(random: &mut Random, length: usize) -> Vec<u8> {
    let mut text = Vec::with_capacity(length + 100);
    let dense = random.below(8) == 0;
    while text.len() < length {
        if !text.is_empty() {
            let separator = if dense { "," } else { random.pick(SEPARATORS) };
            text.extend_from_slice(separator.as_bytes());
        }
        let query = if dense { random.pick(&["a", "5", "dead", "ie 6", "\u{fc}"]) } else { random.pick(FORMS) };
        if text.len() + query.len() > length && random.below(4) > 0 {
            break;
        }
        text.extend_from_slice(query.as_bytes());
    }
    let filler = random.pick(&["x", " ", "5", "\t", "\u{2003}"]).as_bytes();
    while text.len() < length {
        if random.below(50) == 0 || text.len() + filler.len() > length {
            text.push(b'y');
        } else {
            text.extend_from_slice(filler);
        }
    }
    text.truncate(length);
    text
}

fn long(count: u64, sink: Sink<'_>) {
    let mut random = Random::new(2);
    for length in [16_383, 16_384, 16_385, 16_386, 20_000, 40_000] {
        for unit in [" ", "x", ",", "a,", "\u{a0}", "\u{3000}", "5", "chrome 5, ", "dead or ", "not ", "a and "] {
            let mut text = unit.repeat(length / unit.len()).into_bytes();
            text.resize(length, b' ');
            sink(&text);
            text[length - 1] = b'z';
            sink(&text);
            text[length - 1] = 0xff;
            sink(&text);
        }
    }
    for blanks in [16_382, 9_000] {
        sink(format!("x{}y", " ".repeat(blanks)).as_bytes());
        sink(format!("chrome{}5", "\t".repeat(blanks)).as_bytes());
    }
    let spoil = |random: &mut Random, text: &mut Vec<u8>| {
        if text.is_empty() {
            return;
        }
        let at = random.below(text.len());
        match random.below(12) {
            0 => text[at] = 0xff,
            1 => text[at] = random.below(256) as u8,
            2 => text[at] = b',',
            3 => edit(random, text),
            _ => {}
        }
    };
    for i in 0..count / 1_000 {
        let length = if i % 2 == 0 { 16_380 + random.below(11) } else { 1_000 + random.below(15_500) };
        let mut text = long_text(&mut random, length);
        spoil(&mut random, &mut text);
        sink(&text);
    }
    for _ in 0..count / 20 {
        let length = 60 + random.below(1_000);
        let mut text = long_text(&mut random, length);
        spoil(&mut random, &mut text);
        sink(&text);
    }
}

// ---- Edited ----

fn any_byte(random: &mut Random) -> u8 {
    if random.below(10) < 8 {
        TELLING[random.below(TELLING.len())]
    } else {
        random.below(256) as u8
    }
}

/// One random edit: a byte inserted, deleted, replaced or swapped, a letter's case turned, a token put in, a run
/// taken out or doubled.
fn edit(random: &mut Random, text: &mut Vec<u8>) {
    let at = random.below(text.len() + 1);
    let near = |random: &mut Random, length: usize| (at + 1 + random.below(6)).min(length);
    match random.below(9) {
        0 | 1 => text.insert(at, any_byte(random)),
        2 if at < text.len() => drop(text.remove(at)),
        3 if at < text.len() => text[at] = any_byte(random),
        4 if at + 1 < text.len() => text.swap(at, at + 1),
        5 if at < text.len() => text[at] ^= 0x20,
        6 => {
            let token = random.pick(TOKENS);
            text.splice(at..at, token.bytes());
        }
        7 => {
            let end = near(random, text.len());
            text.drain(at.min(end)..end);
        }
        _ => {
            let end = near(random, text.len());
            let run = text[at.min(end)..end].to_vec();
            text.splice(end..end, run);
        }
    }
}

fn edited(count: u64, sink: Sink<'_>) {
    let mut random = Random::new(3);
    let mut text = Vec::new();
    for _ in 0..count {
        text.clear();
        let queries = 1 + random.below(4);
        statement(&mut random, &mut text, queries);
        for _ in 0..1 + random.below(4) {
            edit(&mut random, &mut text);
        }
        sink(&text);
    }
}

// ---- Random tokens ----

fn soup(count: u64, sink: Sink<'_>) {
    let mut random = Random::new(4);
    let mut text = Vec::new();
    for _ in 0..count {
        text.clear();
        for _ in 0..1 + random.below(12) {
            let token = random.pick(TOKENS);
            text.extend_from_slice(token.as_bytes());
            if random.below(3) == 0 {
                text.push(b' ');
            }
        }
        sink(&text);
    }
}

// ---- White space ----

/// All white space of Unicode, and what is next to it or looks like it.
const SPACES: &[&str] = &[
    "\t", "\n", "\u{b}", "\u{c}", "\r", " ", "\u{85}", "\u{a0}", "\u{1680}", "\u{2000}", "\u{2001}", "\u{2002}", "\u{2003}",
    "\u{2004}", "\u{2005}", "\u{2006}", "\u{2007}", "\u{2008}", "\u{2009}", "\u{200a}", "\u{2028}", "\u{2029}", "\u{202f}",
    "\u{205f}", "\u{3000}",
    // None of these is white space.
    "\u{8}", "\u{e}", "\u{1c}", "\u{1d}", "\u{1e}", "\u{1f}", "\0", "\u{84}", "\u{86}", "\u{9f}", "\u{a1}", "\u{167f}", "\u{1681}",
    "\u{180e}", "\u{1fff}", "\u{200b}", "\u{200c}", "\u{200d}", "\u{2027}", "\u{202a}", "\u{202e}", "\u{2030}", "\u{205e}", "\u{2060}",
    "\u{2fff}", "\u{3001}", "\u{feff}", "\u{e0a0}", "\u{10a0}", "\u{3400}", "\u{20000}", "\u{2003}\u{300}",
];

fn white_space(_: u64, sink: Sink<'_>) {
    let mut text = Vec::new();
    let mut put = |sink: Sink<'_>, parts: &[&str]| {
        text.clear();
        parts.iter().for_each(|part| text.extend_from_slice(part.as_bytes()));
        sink(&text);
    };
    let or_none = || std::iter::once("").chain(SPACES.iter().copied());
    // Two in front and one behind, and the other way round.
    for base in ["dead", "a, b", "> 1%", "\u{fc}", ""] {
        for first in or_none() {
            for second in or_none() {
                for third in or_none() {
                    put(sink, &[first, second, base, third]);
                    put(sink, &[first, base, second, third]);
                }
            }
        }
    }
    // At every place inside.
    for base in FORMS.iter().chain(STATEMENTS) {
        for (at, _) in base.char_indices() {
            for space in SPACES {
                put(sink, &[&base[..at], space, &base[at..]]);
                put(sink, &[" ", &base[..at], space, " ", &base[at..], space]);
            }
        }
    }
    // Every character of the first plane, and some of the others, at both ends.
    for point in (0..0x1_0000).chain((0x1_0000..0x11_0000).step_by(61)) {
        if let Some(character) = char::from_u32(point) {
            let mut buffer = [0; 4];
            let character: &str = character.encode_utf8(&mut buffer);
            put(sink, &[character]);
            put(sink, &[character, "5"]);
            put(sink, &["5", character]);
            put(sink, &[" ", character, "dead", character, "\t"]);
            put(sink, &["a ", character, ", b"]);
        }
    }
    // Runs of white space.
    let mut random = Random::new(5);
    for _ in 0..20_000 {
        let mut run = |most: usize| -> String { (0..random.below(most)).map(|_| SPACES[random.below(26)]).collect() };
        let (front, middle, behind) = (run(20), run(4), run(20));
        put(sink, &[&front, "chrome", &middle, "5", &behind]);
    }
}

// ---- Not UTF-8 ----

/// Bytes at the edges of what may stand at a place of a sequence.
const LATER: &[u8] = b"\x00\x20A\x7f\x80\x81\x8f\x90\x91\x9f\xa0\xa1\xbf\xc0\xc2\xff";

fn not_utf8(_: u64, sink: Sink<'_>) {
    let mut text = Vec::new();
    let mut around = |sink: Sink<'_>, sequence: &[u8]| {
        const AROUND: &[(&[u8], &[u8])] =
            &[(b"", b""), (b"", b"dead"), (b"chrome ", b" 5"), (b"\xc2\xa0 ", b""), (b"a, \xe3\x80\x80", b"\xe2\x80\x83")];
        for (front, behind) in AROUND {
            text.clear();
            text.extend_from_slice(front);
            text.extend_from_slice(sequence);
            text.extend_from_slice(behind);
            sink(&text);
        }
    };
    for first in 0..=255 {
        around(sink, &[first]);
        for second in 0..=255 {
            around(sink, &[first, second]);
        }
    }
    for first in 0xc0..=0xff {
        for second in 0x70..=0xc7 {
            for third in LATER {
                around(sink, &[first, second, *third]);
            }
        }
    }
    for first in 0xee..=0xf8 {
        for second in (0x7e..=0x82).chain(0x8d..=0x92).chain(0x9e..=0xa1).chain(0xbe..=0xc3) {
            for third in LATER {
                for fourth in LATER {
                    around(sink, &[first, second, *third, *fourth]);
                }
            }
        }
    }
    // Whole characters, cut short, with one byte wrong, and with one byte twice.
    for character in ["\u{80}", "\u{7ff}", "\u{800}", "\u{d7ff}", "\u{e000}", "\u{ffff}", "\u{10000}", "\u{fffff}", "\u{10ffff}", "\u{1f980}"] {
        let whole = character.as_bytes();
        for base in FORMS {
            for at in [0, base.len() / 2, base.len()] {
                if !base.is_char_boundary(at) {
                    continue;
                }
                for cut in 0..=whole.len() {
                    let mut text = base.as_bytes().to_vec();
                    text.splice(at..at, whole[..cut].iter().copied());
                    sink(&text);
                    let mut text = base.as_bytes().to_vec();
                    text.splice(at..at, whole[cut..].iter().copied());
                    sink(&text);
                }
                for wrong in 0..whole.len() {
                    for byte in [0x00, 0x20, 0x41, 0x80, 0xbf, 0xc1, 0xed, 0xf4, 0xff] {
                        let mut text = base.as_bytes().to_vec();
                        text.splice(at..at, whole.iter().copied());
                        text[at + wrong] = byte;
                        sink(&text);
                    }
                }
            }
        }
    }
    // Several wrong places in a text: the first counts.
    let mut random = Random::new(6);
    for _ in 0..100_000 {
        let mut text = Vec::new();
        let queries = 1 + random.below(3);
        statement(&mut random, &mut text, queries);
        for _ in 0..1 + random.below(3) {
            let at = random.below(text.len() + 1);
            let byte = 0x80 + random.below(0x80) as u8;
            text.insert(at, byte);
        }
        sink(&text);
    }
}

// ---- Control bytes and edges ----

fn edges(_: u64, sink: Sink<'_>) {
    for byte in 0..=255_u8 {
        for behind in ["5%", " 5%", "=5%", "= 5% in US", "1", " dead", "", "last 2 versions", "ead", "lectron 5", ", a", "\0"] {
            for front in ["", "not ", "a,", "a and ", ">", "> ", "chrome ", "\0", "last "] {
                let mut text = front.as_bytes().to_vec();
                text.push(byte);
                text.extend_from_slice(behind.as_bytes());
                sink(&text);
            }
        }
    }
    for length in 0..300 {
        for unit in ["", " ", "\t", "\n", "\0", "\u{3000}", ",", " ,", "a", "5", ".", "-", "not ", "and ", " and", "x or "] {
            sink(unit.repeat(length).as_bytes());
        }
    }
    // Every form with one byte exchanged for every other.
    for form in FORMS {
        let mut text = form.as_bytes().to_vec();
        for at in 0..text.len() {
            let kept = text[at];
            for byte in 0..=255 {
                text[at] = byte;
                sink(&text);
            }
            text[at] = kept;
        }
    }
}
