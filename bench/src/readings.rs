//! Compares the readers of replies of both sides: every number that a reply can carry, requests at the ends of their
//! ranges, every code of a command, and any requests with any replies. Compares the conversion of data, and
//! takes the time of reading replies.

use std::hint::black_box;
use std::time::Instant;

use crate::asked::{self, Replies, NAMES, NO_NAMES};
use crate::frames::{self, Random};
use crate::reference::{read_frame, COMMAND, END, LENGTH, LRC, NUMBER, REPLY, START, STATION, STRAY, VALUE};
use crate::replies::{self, Answer, Asked, Data, Lent};
use crate::replies::{COUNT, MILLIMETRES, NOTHING, SECONDS, STATUS, STEP};
use crate::{gateway, hex, in_turn, summary};

/// How many requests are compared with a reply, all of them any.
const ANY: usize = 500_000;

/// How often any values are converted by each kind.
const CONVERTED: usize = 2000;

/// Stations that are none, and the ends of their range.
const STATIONS: [u8; 5] = [0, 1, 99, 100, 255];

/// Values at the ends of ranges and beyond them.
const EXTREMES: [i32; 13] =
    [i32::MIN, -1_000_000, -999_999, -100, -1, 0, 1, 99, 100, 999_999, 1_000_000, 16_777_217, i32::MAX];

/// The areas lent to one side, each at the start of a larger one.
#[derive(Clone)]
struct Areas {
    kind: [u8; 2],
    doubles: [f64; 5],
    step: [u64; 6],
}

impl Areas {
    /// Every byte is any.
    fn new(random: &mut Random) -> Areas {
        Areas {
            kind: [0; 2].map(|_| random.byte()),
            doubles: [0; 5].map(|_| f64::from_bits(random.next())),
            step: [0; 6].map(|_| random.next()),
        }
    }

    fn lent(&mut self) -> Lent<'_> {
        let (Some(doubles), Some(step)) = (self.doubles.first_chunk_mut(), self.step.first_chunk_mut()) else {
            unreachable!("both areas are longer");
        };
        Lent { kind: &mut self.kind[0], doubles, step }
    }

    /// All that was lent and what is behind it, doubles as their bits.
    fn bits(&self) -> ([u8; 2], [u64; 5], [u64; 6]) {
        (self.kind, self.doubles.map(f64::to_bits), self.step)
    }
}

/// A reply that was read, and what came of it.
struct Reading<'a> {
    slice: &'a [u8],
    asked: &'a Asked<'a>,
    answer: Answer,
    kind: u8,
    /// How many texts of a step it has.
    texts: usize,
}

impl Reading<'_> {
    fn is(&self, number: u8, position: bool) -> bool {
        self.answer.number == number && (self.answer.position > 0) == position
    }

    fn carries(&self, kind: u8, part: &[u8]) -> bool {
        self.kind == kind && self.asked.name.starts_with(part)
    }

    fn is_count(&self, end: u8) -> bool {
        self.kind == COUNT && self.asked.name.len() == 4 && self.asked.name.ends_with(&[end])
    }

    fn another_station(&self) -> bool {
        read_frame(self.slice).is_ok_and(|(station, _)| station != self.asked.station)
    }

    /// An LNA got the reply to the step beside the asked one.
    fn another_step(&self) -> bool {
        self.asked.name == b"LNA" && is_step(self.slice, &Asked { number: self.asked.number ^ 1, ..*self.asked })
    }
}

/// Whether the reference reads a step.
fn is_step(slice: &[u8], asked: &Asked) -> bool {
    let (mut kind, mut doubles, mut step) = (NOTHING, [0.0; 4], [0; 5]);
    replies::read(slice, asked, Lent { kind: &mut kind, doubles: &mut doubles, step: &mut step });
    kind == STEP
}

type Test = fn(&Reading) -> bool;

/// Each kind of reading: its name and when a reading is of it. A reading may be of several.
const READINGS: [(&str, Test); 33] = [
    ("7 of the request", |reading| reading.is(STATION, false)),
    ("9", |reading| reading.is(COMMAND, false)),
    ("11", |reading| reading.is(NUMBER, false)),
    ("12, values", |reading| reading.is(VALUE, false) && reading.asked.name != b"SNA"),
    ("12, texts", |reading| reading.is(VALUE, false) && reading.asked.name == b"SNA"),
    ("2", |reading| reading.is(LENGTH, false)),
    ("3", |reading| reading.is(START, false)),
    ("4", |reading| reading.is(END, false)),
    ("5", |reading| reading.is(LRC, false)),
    ("6", |reading| reading.is(STRAY, true)),
    ("7 of the slice", |reading| reading.is(STATION, true)),
    ("15, another station", |reading| reading.is(REPLY, false) && reading.another_station()),
    ("15, another reply to an LN", |reading| {
        reading.is(REPLY, false) && !reading.another_station() && !reading.asked.is_store()
    }),
    ("15, another reply to an SN", |reading| {
        reading.is(REPLY, false) && !reading.another_station() && reading.asked.is_store()
    }),
    ("15, another step", |reading| reading.is(REPLY, false) && reading.another_step()),
    ("seconds", |reading| reading.carries(SECONDS, b"LNT")),
    ("seconds, minus zero", |reading| reading.carries(SECONDS, b"LNT") && reading.slice.contains(&b'-')),
    ("millimetres", |reading| reading.carries(MILLIMETRES, b"LNL")),
    ("count, register", |reading| reading.carries(COUNT, b"LND")),
    ("count, signal", |reading| reading.is_count(b'B')),
    ("count, port", |reading| reading.is_count(b'D')),
    ("status of an LN", |reading| reading.carries(STATUS, b"LN")),
    ("status of an LN, 00", |reading| reading.carries(STATUS, b"LN") && reading.answer.status == 0),
    ("status of an LNA", |reading| reading.carries(STATUS, b"LNA")),
    ("status of an SN", |reading| reading.carries(STATUS, b"SN")),
    ("status of an SN, 00", |reading| reading.carries(STATUS, b"SN") && reading.answer.status == 0),
    ("status of an SNA", |reading| reading.carries(STATUS, b"SNA")),
    ("step, 1 text", |reading| reading.kind == STEP && reading.texts == 1),
    ("step, 2 texts", |reading| reading.kind == STEP && reading.texts == 2),
    ("step, 3 texts", |reading| reading.kind == STEP && reading.texts == 3),
    ("step, 4 texts", |reading| reading.kind == STEP && reading.texts == 4),
    ("step, 5 texts", |reading| reading.kind == STEP && reading.texts == 5),
    ("all", |_| true),
];

/// Makes the same calls on both sides and compares; the areas lent begin with any bytes.
struct Comparison {
    random: Random,
    counts: Counts,
}

/// How often each kind of reading came, and how many calls each part of the comparison made.
pub struct Counts {
    readings: [usize; READINGS.len()],
    parts: Vec<(&'static str, usize)>,
    made: usize,
}

impl Counts {
    fn read(&mut self, reading: &Reading) {
        self.made += 1;
        for (count, (_, test)) in self.readings.iter_mut().zip(READINGS) {
            *count += usize::from(test(reading));
        }
    }

    pub fn print(&self) {
        println!("{:<35}{:>10}", "reading replies", "times");
        for ((name, _), count) in READINGS.iter().zip(self.readings) {
            println!("{name:<35}{count:>10}");
        }
        println!("{:<35}{:>10}", "replies and data", "calls");
        for (name, count) in &self.parts {
            println!("{name:<35}{count:>10}");
        }
        println!("gateway and reference agree on {} calls that read or convert", self.made);
    }
}

fn text(bytes: &[u8]) -> String {
    format!("\"{}\"", bytes.escape_ascii())
}

fn request(asked: &Asked) -> String {
    let Asked { station, name, number, values, texts } = asked;
    format!("station {station}, {} {number}, values {values:?}, texts {texts:016X?}", text(name))
}

fn told(answer: Answer, areas: &Areas) -> String {
    let Answer { number, status, position } = answer;
    let (kind, doubles, step) = areas.bits();
    let areas = format!("kind {kind:02X?}, doubles {doubles:016X?}, step {step:016X?}");
    format!("number {number}, status {status}, position {position}, {areas}")
}

impl Comparison {
    /// Makes the calls of one part, and counts them.
    fn part(
        &mut self,
        name: &'static str,
        compare: impl FnOnce(&mut Comparison) -> Result<(), String>,
    ) -> Result<(), String> {
        let before = self.counts.made;
        compare(self).map_err(|text| format!("{name}: {text}"))?;
        self.counts.parts.push((name, self.counts.made - before));
        Ok(())
    }

    /// Reads on both sides. Returns what they gave.
    fn read(&mut self, slice: &[u8], asked: &Asked) -> Result<(Answer, Areas), String> {
        self.read_coded(slice, asked, asked::code(asked.name))
    }

    /// The same with the code of the command given.
    fn read_coded(&mut self, slice: &[u8], asked: &Asked, code: u8) -> Result<(Answer, Areas), String> {
        let mut left = Areas::new(&mut self.random);
        let mut right = left.clone();
        let gateway = gateway::read_converted(slice, asked, code, left.lent());
        let answer = replies::read(slice, asked, right.lent());
        if gateway != answer || left.bits() != right.bits() {
            let (reply, asked) = (hex(slice), request(asked));
            let (gateway, reference) = (told(gateway, &left), told(answer, &right));
            return Err(format!("reply {reply} to {asked}:\n  gateway   {gateway}\n  reference {reference}"));
        }
        let texts = right.step[..5].iter().filter(|&&text| text != 0).count();
        self.counts.read(&Reading { slice, asked, answer, kind: right.kind[0], texts });
        Ok((answer, right))
    }

    /// Reads a sound frame with these fields from the asked station.
    fn read_fields(&mut self, name: &'static [u8], fields: &[Vec<u8>]) -> Result<(Answer, Areas), String> {
        let asked = asked::good(&mut self.random, &[name]);
        self.read(&asked::framed(asked.station.to_string().as_bytes(), fields), &asked)
    }

    /// Reads a reply that carries these values as doubles of that kind; one that carries nothing is refused with 15.
    fn read_values(
        &mut self,
        name: &'static [u8],
        fields: &[Vec<u8>],
        kind: u8,
        values: [i32; 4],
    ) -> Result<(), String> {
        let (answer, mut areas) = self.read_fields(name, fields)?;
        let number = if kind == NOTHING { REPLY } else { 0 };
        let lent = areas.lent();
        let bits = lent.doubles.map(f64::to_bits);
        let wanted = replies::convert(kind, &values).map(f64::to_bits);
        if (*lent.kind, bits, answer) != (kind, wanted, Answer { number, status: 0, position: 0 }) {
            let (name, fields) = (text(name), text(&fields.join(&b' ')));
            return Err(format!("{fields} to {name} gives {}", told(answer, &areas)));
        }
        Ok(())
    }

    /// Every offset, each in one of the four places of a row.
    fn offsets(&mut self, spell: fn(&mut Random, i32) -> Vec<u8>) -> Result<(), String> {
        for row in rows() {
            let fields = row.map(|value| spell(&mut self.random, value));
            self.read_values(b"LNL", &fields, MILLIMETRES, row)?;
        }
        Ok(())
    }

    /// Every timer and values around them.
    fn timers(&mut self, spell: fn(&mut Random, i32) -> Vec<u8>) -> Result<(), String> {
        for value in -1000..=1999 {
            let fields = [spell(&mut self.random, value)];
            let kind = if (0..=999).contains(&value) { SECONDS } else { NOTHING };
            self.read_values(b"LNT", &fields, kind, [value, 0, 0, 0])?;
        }
        Ok(())
    }

    /// Every whole number that four digits have, as a register, as each sort of signal and as each sort of port.
    fn counts(&mut self, spell: fn(i32) -> String) -> Result<(), String> {
        for name in NAMES {
            let (b'L', (_, Data::Count { greatest })) = (name[0], asked::limits(name)) else { continue };
            for value in 0..=9999 {
                let fields = [spell(value).into_bytes()];
                let kind = if value <= greatest { COUNT } else { NOTHING };
                self.read_values(name, &fields, kind, [value, 0, 0, 0])?;
            }
        }
        Ok(())
    }

    /// Every status, with and without "E", as a reply to every command.
    fn statuses(&mut self) -> Result<(), String> {
        for name in NAMES {
            for status in 0..=99 {
                for letter in ["E", ""] {
                    let (answer, areas) = self.read_fields(name, &[format!("{letter}{status:02}").into_bytes()])?;
                    let belongs = letter.is_empty() == (name[0] == b'S');
                    let wanted = Answer { number: 0, status, position: 0 };
                    if belongs && (areas.kind[0], answer) != (STATUS, wanted) {
                        return Err(format!("{letter}{status:02} to {} gives {}", text(name), told(answer, &areas)));
                    }
                }
            }
        }
        Ok(())
    }

    /// Requests at the ends of their ranges and next to them outside, each with replies of every kind.
    fn edges(&mut self) -> Result<(), String> {
        for name in NAMES.into_iter().chain(NO_NAMES) {
            let (numbers, data) = asked::limits(name);
            let all_data = asked::data_edges(name, data, &mut self.random);
            let asked = |station| asked::edges(&numbers).map(|number| (station, number));
            for (station, number) in STATIONS.into_iter().flat_map(asked) {
                for slice in asked::every_kind(station, number) {
                    for &(values, texts) in &all_data {
                        self.read(&slice, &Asked { station, name, number, values, texts })?;
                    }
                }
            }
        }
        Ok(())
    }

    /// Every code, those of no command too, each with a reply to every command.
    fn codes(&mut self) -> Result<(), String> {
        for name in NAMES {
            let asked = asked::good(&mut self.random, &[name]);
            let slice = asked::sound(&mut self.random, &asked);
            for code in 0..=u8::MAX {
                self.read_coded(&slice, &Asked { name: asked::name_of(code), ..asked }, code)?;
            }
        }
        Ok(())
    }

    fn any(&mut self) -> Result<(), String> {
        for _ in 0..ANY {
            let asked = asked::asked(&mut self.random);
            let slice = asked::reply(&mut self.random, &asked);
            self.read(&slice, &asked)?;
        }
        Ok(())
    }

    /// The replies that are timed, of which nine in ten are accepted.
    fn timed(&mut self, replies: &Replies) -> Result<(), String> {
        let mut numbers = [0; REPLY as usize + 1];
        for (asked, slice) in replies.iter() {
            let (answer, _) = self.read(slice, asked)?;
            numbers[usize::from(answer.number)] += 1;
        }
        if numbers[0] != replies.count() - replies.count() / 10 {
            return Err(format!("{} replies were accepted, not nine in ten", numbers[0]));
        }
        match (LENGTH..=STATION).chain([REPLY]).find(|&number| numbers[usize::from(number)] == 0) {
            Some(number) => Err(format!("no reply gets {number}")),
            None => Ok(()),
        }
    }

    /// Converts on both sides.
    fn convert(&mut self, kind: u8, values: [i32; 4]) -> Result<(), String> {
        let mut gateway = Areas::new(&mut self.random);
        let mut reference = gateway.clone();
        gateway::convert(kind, &values, gateway.lent().doubles);
        *reference.lent().doubles = replies::convert(kind, &values);
        self.counts.made += 1;
        match gateway.bits() == reference.bits() {
            true => Ok(()),
            false => {
                let [gateway, reference] = [gateway, reference].map(|areas| areas.bits().1);
                Err(format!("kind {kind}, {values:?}: gateway {gateway:016X?}, reference {reference:016X?}"))
            }
        }
    }

    /// Every kind with values at the ends of ranges, each in each place, and with any.
    fn kinds(&mut self) -> Result<(), String> {
        for kind in 0..=255 {
            for value in EXTREMES {
                self.convert(kind, [value; 4])?;
                for place in 0..4 {
                    let mut values = asked::any_values(&mut self.random);
                    values[place] = value;
                    self.convert(kind, values)?;
                }
            }
            for _ in 0..CONVERTED {
                let values = asked::any_values(&mut self.random);
                self.convert(kind, values)?;
            }
        }
        Ok(())
    }

    fn converted_offsets(&mut self) -> Result<(), String> {
        rows().try_for_each(|row| self.convert(MILLIMETRES, row))
    }
}

/// Hundredths as a box writes them.
fn usual(_: &mut Random, hundredths: i32) -> Vec<u8> {
    asked::written(hundredths)
}

/// Every offset in rows of four, from row to row in the next places; the last row is filled up with 0.
fn rows() -> impl Iterator<Item = [i32; 4]> {
    let offsets: Vec<i32> = Data::Row.range().collect();
    (0..offsets.len().div_ceil(4)).map(move |index| {
        let mut row = [0, 1, 2, 3].map(|place| offsets.get(4 * index + place).copied().unwrap_or(0));
        row.rotate_left(index % 4);
        row
    })
}

/// Compares all parts. Each kind of reading must be among them.
pub fn compare(replies: &Replies) -> Result<Counts, String> {
    let counts = Counts { readings: [0; READINGS.len()], parts: Vec::new(), made: 0 };
    let mut both = Comparison { random: Random::new(10), counts };
    both.part("every offset, as a box writes it", |both| both.offsets(usual))?;
    both.part("every offset, in any spelling", |both| both.offsets(frames::hundredths))?;
    both.part("every timer, as a box writes it", |both| both.timers(usual))?;
    both.part("every timer, in any spelling", |both| both.timers(frames::hundredths))?;
    both.part("every count, shortest", |both| both.counts(|value| value.to_string()))?;
    both.part("every count, four digits", |both| both.counts(|value| format!("{value:04}")))?;
    both.part("every status", Comparison::statuses)?;
    both.part("requests at the ends of ranges", Comparison::edges)?;
    both.part("every code", Comparison::codes)?;
    both.part("any requests and replies", Comparison::any)?;
    both.part("the timed replies", |both| both.timed(replies))?;
    both.part("every kind converted", Comparison::kinds)?;
    both.part("every offset converted", Comparison::converted_offsets)?;
    let counts = both.counts;
    match READINGS.iter().zip(counts.readings).find(|(_, count)| *count == 0) {
        Some(((name, _), _)) => Err(format!("no reply that is read reaches {name}")),
        None => Ok(counts),
    }
}

/// The time of one round over all replies, in ns a reply.
fn round(replies: &Replies, read: impl Fn(&[u8], &Asked, u8, Lent) -> Answer) -> f64 {
    let (mut kind, mut doubles, mut step) = (NOTHING, [0.0; 4], [0; 5]);
    let start = Instant::now();
    for ((asked, slice), code) in replies.coded() {
        black_box(read(slice, asked, code, Lent { kind: &mut kind, doubles: &mut doubles, step: &mut step }));
        black_box((&kind, &doubles, &step));
    }
    start.elapsed().as_nanos() as f64 / replies.count() as f64
}

/// Takes the time of reading the replies.
pub fn time(replies: &Replies, rounds: usize) {
    let gateway_round = || round(replies, gateway::read_converted);
    let reference_round = || round(replies, |slice, asked, _, lent| replies::read(slice, asked, lent));
    let (mut gateway, mut reference, mut dividing) = (Vec::new(), Vec::new(), Vec::new());
    for index in 0..rounds {
        let times = in_turn(index, gateway_round, reference_round);
        gateway.push(times.0);
        reference.push(times.1);
        dividing.push(round(replies, |slice, asked, _, lent| replies::read_by_division(slice, asked, lent)));
    }
    let (gateway, reference, dividing) = (summary(gateway), summary(reference), summary(dividing));
    println!("\n{rounds} rounds of reading {} replies, {} bytes", replies.count(), replies.bytes());
    println!("{:<35}{:>10}{:>10}", "ns a reply", "least", "median");
    for (name, (least, median)) in [("gateway", gateway), ("reference", reference), ("reference, dividing", dividing)] {
        println!("{name:<35}{least:>10.1}{median:>10.1}");
    }
    for (name, other) in [("gateway/reference", reference), ("gateway/reference, dividing", dividing)] {
        println!("{name:<35}{:>10.3}{:>10.3}", gateway.0 / other.0, gateway.1 / other.1);
    }
}
