//! The kinds of position that a refusal can carry, and what LNA and SNA can get, to show that the compared calls reach
//! each of them.

use std::fmt;

use crate::frames::expected_fields;
use crate::reference::{COMMAND, EMPTY, NUMBER, SHAPE, STATION, STRAY, VALUE};

/// What stands at the position of a refused slice.
struct Seen<'a> {
    number: u8,
    /// From behind STX to before ETX.
    text: &'a [u8],
    /// The text from the position on.
    rest: &'a [u8],
    /// The field with the position: 0 for the station, 1 for the name, 2 for the number, then the data.
    field: usize,
    /// The fields of the slice, and those that its command expects at least and at most, station and name among them.
    fields: usize,
    least: usize,
    most: usize,
}

impl Seen<'_> {
    fn is(&self, number: u8) -> bool {
        self.number == number
    }

    /// The field stands empty, and an SP ends it.
    fn empty_at_sp(&self) -> bool {
        self.starts_field() && self.rest.first() == Some(&b' ')
    }

    /// The field stands empty, and ETX ends it.
    fn empty_at_etx(&self) -> bool {
        self.starts_field() && self.rest.is_empty()
    }

    fn filled(&self) -> bool {
        self.starts_field() && !matches!(self.rest, [] | [b' ', ..])
    }

    fn starts_field(&self) -> bool {
        matches!(self.text[..self.text.len() - self.rest.len()], [] | [.., b' '])
    }

    fn malformed(&self) -> bool {
        self.is(SHAPE) && self.starts_field() && self.field < self.most
    }

    fn surplus(&self) -> bool {
        self.is(SHAPE) && self.starts_field() && self.field >= self.most
    }

    fn lacking(&self) -> bool {
        self.is(SHAPE) && !self.starts_field() && self.rest.is_empty()
    }
}

type Test = fn(&Seen) -> bool;

/// Each kind but those of SNA: its name and when a position is of it. A position may be of several.
const TESTS: [(&str, Test); 25] = [
    ("6 in the station", |seen| seen.is(STRAY) && seen.field == 0),
    ("6 behind the first SP", |seen| seen.is(STRAY) && seen.field > 0),
    ("6 right before ETX", |seen| seen.is(STRAY) && seen.rest.len() == 1),
    ("6 with another stray byte behind it", |seen| {
        seen.is(STRAY) && seen.rest[1..].iter().any(|byte| !(0x20..=0x7E).contains(byte))
    }),
    ("7 filled, before SP", |seen| seen.is(STATION) && seen.filled() && seen.fields > 1),
    ("7 without SP", |seen| seen.is(STATION) && seen.fields == 1),
    ("7 empty at SP", |seen| seen.is(STATION) && seen.empty_at_sp()),
    ("9 filled, before SP", |seen| seen.is(COMMAND) && seen.filled() && seen.fields > 2),
    ("9 filled, before ETX", |seen| seen.is(COMMAND) && seen.filled() && seen.fields == 2),
    ("9 empty at SP", |seen| seen.is(COMMAND) && seen.empty_at_sp()),
    ("9 empty at ETX", |seen| seen.is(COMMAND) && seen.empty_at_etx()),
    ("10 malformed number", |seen| seen.malformed() && seen.filled() && seen.field == 2),
    ("10 malformed datum, the first", |seen| seen.malformed() && seen.filled() && seen.field == 3),
    ("10 malformed datum, a later one", |seen| seen.malformed() && seen.filled() && seen.field > 3),
    ("10 malformed, empty at SP", |seen| seen.malformed() && seen.empty_at_sp()),
    ("10 malformed, empty at ETX", |seen| seen.malformed() && seen.empty_at_etx()),
    ("10 malformed, fields surplus", |seen| seen.malformed() && seen.fields > seen.most),
    ("10 malformed, fields lacking", |seen| seen.malformed() && seen.fields < seen.least),
    ("10 surplus, filled", |seen| seen.surplus() && seen.filled()),
    ("10 surplus, empty at SP", |seen| seen.surplus() && seen.empty_at_sp()),
    ("10 surplus, empty at ETX", |seen| seen.surplus() && seen.empty_at_etx()),
    ("10 ETX, fields lacking", |seen| seen.lacking()),
    ("11 before ETX", |seen| seen.is(NUMBER) && seen.filled() && seen.fields == 3),
    ("11 before data", |seen| seen.is(NUMBER) && seen.filled() && seen.fields > 3),
    ("12", |seen| seen.is(VALUE) && seen.filled()),
];

/// The kinds of 10 and 11 for SNA.
const SNA_TESTS: [(&str, Test); 14] = [
    ("10 SNA, malformed step", |seen| seen.malformed() && seen.filled() && seen.field == 2),
    ("10 SNA, step empty", |seen| seen.malformed() && !seen.filled() && seen.field == 2),
    ("10 SNA, command too long", |seen| seen.malformed() && seen.filled() && seen.field == 3),
    ("10 SNA, datum too long", |seen| seen.malformed() && seen.filled() && seen.field > 3),
    ("10 SNA, command empty at SP", |seen| seen.malformed() && seen.empty_at_sp() && seen.field == 3),
    ("10 SNA, datum empty at SP", |seen| seen.malformed() && seen.empty_at_sp() && seen.field > 3),
    ("10 SNA, text empty at ETX", |seen| seen.malformed() && seen.empty_at_etx() && seen.field > 2),
    ("10 SNA, malformed, text surplus", |seen| seen.malformed() && seen.fields > seen.most),
    ("10 SNA, malformed, texts lacking", |seen| seen.malformed() && seen.fields < seen.least),
    ("10 SNA, surplus text", |seen| seen.surplus() && seen.filled()),
    ("10 SNA, surplus text, empty", |seen| seen.surplus() && !seen.filled()),
    ("10 SNA, ETX, step lacking", |seen| seen.lacking() && seen.fields == 2),
    ("10 SNA, ETX, texts lacking", |seen| seen.lacking() && seen.fields == 3),
    ("11 SNA", |seen| seen.is(NUMBER) && seen.filled()),
];

/// How many kinds there are.
pub const KINDS: usize = TESTS.len() + SNA_TESTS.len();

fn tests() -> impl Iterator<Item = &'static (&'static str, Test)> {
    TESTS.iter().chain(&SNA_TESTS)
}

pub fn names() -> impl Iterator<Item = &'static str> {
    tests().map(|(name, _)| *name)
}

/// The kinds of the position that a refusal with this number carries: none for a number that carries 0.
pub fn kinds(slice: &[u8], number: u8, position: usize) -> Vec<usize> {
    if !matches!(number, STRAY | STATION | COMMAND | SHAPE | NUMBER | VALUE) {
        return Vec::new();
    }
    let text = text_of(slice);
    let name = name_of(text);
    let (least, most) = expected_fields(name).map_or((0, 0), |(least, most)| (least + 2, most + 2));
    let seen = Seen {
        number,
        text,
        rest: &text[position - 1..],
        field: spaces(&text[..position - 1]),
        fields: spaces(text) + 1,
        least,
        most,
    };
    let of_sna = name == b"SNA" && matches!(number, SHAPE | NUMBER);
    let applies = |kind: usize| (kind >= TESTS.len()) == of_sna;
    tests().enumerate().filter(|(kind, (_, test))| applies(*kind) && test(&seen)).map(|(kind, _)| kind).collect()
}

/// From behind STX to before ETX.
fn text_of(slice: &[u8]) -> &[u8] {
    &slice[1..slice.len() - 2]
}

/// The first field behind the station, empty where there is none.
fn name_of(text: &[u8]) -> &[u8] {
    text.split(|&byte| byte == b' ').nth(1).unwrap_or_default()
}

fn spaces(part: &[u8]) -> usize {
    part.iter().filter(|&&byte| byte == b' ').count()
}

/// What LNA or SNA gets at an arm.
#[derive(PartialEq, Eq)]
pub struct Outcome {
    name: &'static str,
    number: u8,
    /// The texts that are read or stored.
    texts: usize,
}

impl fmt::Display for Outcome {
    fn fmt(&self, f: &mut fmt::Formatter) -> fmt::Result {
        match self.number {
            0 => write!(f, "{} 0, texts: {}", self.name, self.texts),
            number => write!(f, "{} {number}", self.name),
        }
    }
}

const fn outcome(name: &'static str, number: u8, texts: usize) -> Outcome {
    Outcome { name, number, texts }
}

pub const OUTCOMES: [Outcome; 15] = [
    outcome("LNA", 0, 1),
    outcome("LNA", 0, 2),
    outcome("LNA", 0, 3),
    outcome("LNA", 0, 4),
    outcome("LNA", 0, 5),
    outcome("LNA", SHAPE, 0),
    outcome("LNA", NUMBER, 0),
    outcome("LNA", EMPTY, 0),
    outcome("SNA", 0, 1),
    outcome("SNA", 0, 2),
    outcome("SNA", 0, 3),
    outcome("SNA", 0, 4),
    outcome("SNA", 0, 5),
    outcome("SNA", SHAPE, 0),
    outcome("SNA", NUMBER, 0),
];

/// The outcome of a slice that got this number and reply: none where it brings no LNA or SNA to an arm.
pub fn outcome_of(slice: &[u8], number: u8, reply: &[u8]) -> Option<usize> {
    if !matches!(number, 0 | SHAPE | NUMBER | EMPTY) {
        return None;
    }
    let text = text_of(slice);
    let seen = match (name_of(text), number) {
        // The reply has the station and the step before the texts, the request has the name too.
        (b"LNA", 0) => outcome("LNA", 0, spaces(text_of(reply)) - 1),
        (b"SNA", 0) => outcome("SNA", 0, spaces(text) - 2),
        (b"LNA", _) => outcome("LNA", number, 0),
        (b"SNA", _) => outcome("SNA", number, 0),
        _ => return None,
    };
    OUTCOMES.iter().position(|outcome| *outcome == seen)
}
