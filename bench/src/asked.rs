//! Typed requests and slices that may be their replies, from a generator with a fixed seed.

use std::ops::RangeInclusive;

use crate::frames::{self, Frames, Random, BAD_HUNDREDTHS, BAD_NAMES, BAD_STATIONS, BAD_WHOLE, FRAMES};
use crate::reference::{hundredths_text, END, LENGTH, LRC, REPLY, REPLY_ROOM, START, STATION, STRAY};
use crate::replies::{command, Asked, Data};

/// The names of all commands.
pub const NAMES: [&[u8]; 18] = [
    b"LNT", b"LND", b"LNL", b"LNIB", b"LNID", b"LNOB", b"LNOD", b"LNBB", b"LNBD", b"LNA", b"SNT", b"SND", b"SNL",
    b"SNOB", b"SNOD", b"SNBB", b"SNBD", b"SNA",
];

/// The names of all commands, in the order of the codes that the header gives them.
const CODES: [&[u8]; 18] = [
    b"LNT", b"SNT", b"LND", b"SND", b"LNL", b"SNL", b"LNIB", b"LNOB", b"SNOB", b"LNID", b"LNOD", b"SNOD", b"LNBB",
    b"SNBB", b"LNBD", b"SNBD", b"LNA", b"SNA",
];

/// The code of a command's name; for any other name one of those that are no command's.
pub fn code(name: &[u8]) -> u8 {
    match CODES.iter().position(|&other| other == name) {
        Some(code) => code as u8,
        None => name.iter().fold(CODES.len() as u8, |code, byte| code.wrapping_add(*byte)).max(CODES.len() as u8),
    }
}

/// The name of a code's command; none for a code that is no command's.
pub fn name_of(code: u8) -> &'static [u8] {
    CODES.get(usize::from(code)).copied().unwrap_or(b"")
}

/// The commands whose replies have numbers.
const READINGS: &[&[u8]] = NAMES.split_at(9).0;

/// Names that are no command's.
pub const NO_NAMES: [&[u8]; 20] = [
    b"", b"L", b"LN", b"SN", b"lnt", b"LNt", b"snob", b"LNTX", b"LNT ", b" LNT", b"LNT\0", b"LNAB", b"SNAD", b"SNIB",
    b"SNID", b"LNI", b"LNIBB", b"LNT 5", b"E09", b"\0\0\0",
];

/// The numbers that a command takes, and its data. For a name that is no command's they are those of LNT.
pub fn limits(name: &[u8]) -> (RangeInclusive<u16>, Data) {
    command(name).unwrap_or((0..=15, Data::Timer))
}

/// The ends of the range, and the numbers next to them outside it; the one below 0 wraps round.
pub fn edges(numbers: &RangeInclusive<u16>) -> [u16; 4] {
    [*numbers.start(), *numbers.end(), numbers.start().wrapping_sub(1), numbers.end() + 1]
}

/// The ends of the range, the values next to them outside it, and the least and the greatest of all.
pub fn value_edges(range: &RangeInclusive<i32>) -> [i32; 6] {
    [*range.start(), *range.end(), range.start() - 1, range.end() + 1, i32::MIN, i32::MAX]
}

/// A text of at most 8 bytes as a typed request has it.
pub fn packed(text: &[u8]) -> u64 {
    text.iter().rev().fold(0, |packed, &byte| packed << 8 | u64::from(byte))
}

/// Hundredths as a reply has them.
pub fn written(hundredths: i32) -> Vec<u8> {
    hundredths_text(hundredths, &mut [0; REPLY_ROOM]).as_bytes().to_vec()
}

/// The frame with this text for the station and these fields behind it.
pub fn framed(station: &[u8], fields: &[Vec<u8>]) -> Vec<u8> {
    let mut text = station.to_vec();
    for field in fields {
        text.push(b' ');
        text.extend_from_slice(field);
    }
    frames::frame(&text)
}

fn station_text(station: u8) -> Vec<u8> {
    station.to_string().into_bytes()
}

pub fn any_values(random: &mut Random) -> [i32; 4] {
    [0; 4].map(|_| random.next() as i32)
}

fn any_texts(random: &mut Random) -> [u64; 5] {
    [0; 5].map(|_| random.next())
}

/// A request with one of these commands that is not refused. Data that are not looked at are any.
pub fn good(random: &mut Random, names: &[&'static [u8]]) -> Asked<'static> {
    let name = random.pick(names);
    let (numbers, data) = limits(name);
    let mut asked = Asked {
        station: random.between(1, 99) as u8,
        name,
        number: frames::value(random, i32::from(*numbers.start()), i32::from(*numbers.end())) as u16,
        values: any_values(random),
        texts: any_texts(random),
    };
    if asked.is_store() {
        fit(random, &mut asked, data);
    }
    asked
}

/// Gives a request data that its command stores.
fn fit(random: &mut Random, asked: &mut Asked, data: Data) {
    let values = match data {
        Data::Timer | Data::Count { .. } => &mut asked.values[..1],
        Data::Row => &mut asked.values[..],
        Data::Step => {
            asked.texts = step(random);
            return;
        }
    };
    let range = data.range();
    values.fill_with(|| frames::value(random, *range.start(), *range.end()));
}

/// Texts of a command and up to four data.
fn step(random: &mut Random) -> [u64; 5] {
    let mut texts = [0; 5];
    let count = 1 + random.below(5);
    texts[..count].fill_with(|| packed(&frames::text(random)));
    texts
}

/// Data for a command at the ends of their range and next to them outside: values, each in each place that is looked
/// at, or texts. An LN has any data.
pub fn data_edges(name: &[u8], data: Data, random: &mut Random) -> Vec<([i32; 4], [u64; 5])> {
    if name.first() != Some(&b'S') {
        return vec![(any_values(random), any_texts(random))];
    }
    let places = match data {
        Data::Step => return TEXTS.iter().map(|texts| (any_values(random), texts.map(packed))).collect(),
        Data::Row => 4,
        Data::Timer | Data::Count { .. } => 1,
    };
    let mut edges = Vec::new();
    for (place, value) in (0..places).flat_map(|place| value_edges(&data.range()).map(|value| (place, value))) {
        let mut asked = Asked { station: 1, name, number: 0, values: any_values(random), texts: any_texts(random) };
        fit(random, &mut asked, data);
        asked.values[place] = value;
        edges.push((asked.values, asked.texts));
    }
    edges
}

/// Texts of steps, and texts that are none.
const TEXTS: [[&[u8]; 5]; 17] = [
    [b"MOV", b"", b"", b"", b""],
    [b"!", b"~", b"", b"", b""],
    [b"12345678", b"!!!!!!!!", b"~~~~~~~~", b"1", b"12345678"],
    [b"", b"", b"", b"", b""],
    [b"", b"1", b"2", b"3", b"4"],
    [b"MOV", b"", b"2", b"", b""],
    [b"MOV", b"1", b"2", b"", b"4"],
    [b"\0MOV", b"", b"", b"", b""],
    [b"M\0V", b"", b"", b"", b""],
    [b"MOV", b"1", b"2", b"3", b"\0\0\0\0\0\0\0x"],
    [b"MOV ", b"", b"", b"", b""],
    [b" MOV", b"", b"", b"", b""],
    [b"MOV", b"1 2", b"", b"", b""],
    [b"MOV", b"1", b"\x7F", b"", b""],
    [b"MOV", b"1", b"2", b"1234567\x20", b""],
    [b"MOV", b"1", b"2", b"3", b"\x80"],
    [b"MO\x03", b"\xFF", b"", b"", b""],
];

/// Makes it no step in most cases: a text is taken away or is any, or a byte of it is another, or comes before it.
fn spoil_step(random: &mut Random, texts: &mut [u64; 5]) {
    let text = &mut texts[random.below(5)];
    *text = match random.below(4) {
        0 => 0,
        1 => *text << 8,
        2 => random.next(),
        _ => {
            let mut bytes = text.to_le_bytes();
            bytes[random.below(8)] = random.pick(&[0x00, 0x01, 0x03, 0x20, 0x21, 0x7E, 0x7F, 0x80, 0xFF]);
            u64::from_le_bytes(bytes)
        }
    };
}

/// Makes the station, the name, the number or the data wrong.
fn spoil(random: &mut Random, asked: &mut Asked) {
    let (numbers, data) = limits(asked.name);
    match random.below(4) {
        0 => {
            let any = random.between(100, 255) as u8;
            asked.station = random.pick(&[0, 100, 128, 255, any]);
        }
        1 if random.one_in(2) => asked.name = random.pick(&BAD_NAMES),
        1 => asked.name = random.pick(&NO_NAMES),
        2 => {
            let [_, _, below, above] = edges(&numbers);
            asked.number = random.pick(&[below, above, above + 255, 0x8000, u16::MAX]);
        }
        _ => match data {
            Data::Step => spoil_step(random, &mut asked.texts),
            Data::Row => asked.values[random.below(4)] = value_outside(random, data),
            Data::Timer | Data::Count { .. } => asked.values[0] = value_outside(random, data),
        },
    }
}

fn value_outside(random: &mut Random, data: Data) -> i32 {
    let [_, greatest, below, above, least_of_all, greatest_of_all] = value_edges(&data.range());
    random.pick(&[below, above, least_of_all, greatest_of_all, greatest + 256, greatest + 65_536])
}

/// A request; one in four is wrong, in one way or more.
pub fn asked(random: &mut Random) -> Asked<'static> {
    let mut asked = good(random, &NAMES);
    if random.one_in(4) {
        for _ in 0..1 + random.below(3) {
            spoil(random, &mut asked);
        }
    }
    asked
}

/// The fields behind the station in a reply to that command, in all spellings.
fn fields(random: &mut Random, name: &[u8], number: u16) -> Vec<Vec<u8>> {
    let (_, data) = limits(name);
    if name.first() == Some(&b'S') {
        return vec![status(random)];
    }
    match data {
        Data::Timer => vec![hundredths(random, &data.range())],
        Data::Row => (0..4).map(|_| hundredths(random, &data.range())).collect(),
        Data::Count { greatest } => vec![whole(random, greatest)],
        Data::Step => {
            let mut fields = vec![frames::whole(random, i32::from(number % 10_000))];
            fields.extend((0..1 + random.below(5)).map(|_| frames::text(random)));
            fields
        }
    }
}

fn hundredths(random: &mut Random, range: &RangeInclusive<i32>) -> Vec<u8> {
    let value = frames::value(random, *range.start(), *range.end());
    frames::hundredths(random, value)
}

fn whole(random: &mut Random, greatest: i32) -> Vec<u8> {
    let value = frames::value(random, 0, greatest);
    frames::whole(random, value)
}

fn status(random: &mut Random) -> Vec<u8> {
    let status = match random.one_in(4) {
        true => 0,
        false => random.below(100),
    };
    format!("{status:02}").into_bytes()
}

/// Takes a field away, adds one, or puts another in place of one.
fn fault(random: &mut Random, fields: &mut Vec<Vec<u8>>) {
    let any = match random.below(6) {
        0 => random.pick(&BAD_WHOLE).to_vec(),
        1 => random.pick(&BAD_HUNDREDTHS).to_vec(),
        2 => frames::bad_text(random),
        3 => hundredths(random, &Data::Row.range()),
        4 => whole(random, 9999),
        _ => random.pick(&[&b""[..], b"0", b"1", b"00", b"0.00", b"-0", b"E16", b"MOV"]).to_vec(),
    };
    let place = random.below(fields.len() + 1);
    match random.below(4) {
        0 => fields.insert(place, any),
        _ if place == fields.len() => fields.push(any),
        1 => {
            fields.remove(place);
        }
        _ => fields[place] = any,
    }
}

/// A sound reply to the request.
pub fn sound(random: &mut Random, asked: &Asked) -> Vec<u8> {
    let fields = fields(random, asked.name, asked.number);
    framed(&station_text(asked.station), &fields)
}

/// Replies with one number, and some that are none.
const NUMBERS: [&str; 21] = [
    "0.00", "9.99", "10.00", "-0.01", "-0.00", "-0", "5", "0005.5", "00005", "1.234", ".5", "-", "0000", "9999",
    "10000", "0", "1", "2", "01", "255", "256",
];

/// Rows, and some that are none.
const ROWS: [&str; 7] =
    ["0.00 0.00 0.00 0.00", "-9999.99 9999.99 -0 1.5", "1 2 3", "1 2 3 4 5", "1  2 3 4", "1 2 3 4 ", "1 2 x 4"];

/// Statuses, and some that are none.
const STATUSES: [&str; 12] = ["E00", "E11", "E99", "E9", "E100", "e11", "E1x", "00", "12", "99", "100", "0x"];

/// Steps, and some that are none. "#" stands for the asked number, "@" for the next.
const STEPS: [&str; 8] = ["# MOV", "0# 12345678 ! ~ 3 4", "#", "# ", "# A 1 2 3 4 5", "# A  2", "# 123456789", "@ MOV"];

/// Replies of each kind to a request with that station and number, and slices that are none: from another station, and
/// with each refusal from 2 to 7.
pub fn every_kind(station: u8, number: u16) -> Vec<Vec<u8>> {
    let station = station_text(station);
    let [this, next] = [number, number.wrapping_add(1)].map(|number| number.to_string());
    let field = |body: &str| [body.replace('#', &this).replace('@', &next).into_bytes()];
    let bodies = NUMBERS.iter().chain(&ROWS).chain(&STATUSES).chain(&STEPS).chain(&[""]);
    let mut slices: Vec<Vec<u8>> = bodies.map(|body| framed(&station, &field(body))).collect();
    slices.push(framed(&station, &[]));
    for body in ["0.00", "0", "1 2 3 4", "00", "E11", "# MOV"] {
        slices.extend([&b"2"[..], b"98", b"0", b"01", b"100", b""].map(|other| framed(other, &field(body))));
    }
    let sound = framed(&station, &[b"00".to_vec()]);
    let last = sound.len() - 1;
    slices.push(Vec::new());
    slices.push(sound[..5].to_vec());
    slices.push(sound[1..].to_vec());
    slices.push(sound[..last].to_vec());
    slices.push([&sound[..last], &[sound[last] ^ 1]].concat());
    for byte in [0x02, 0x03, 0x1F, 0x7F, 0x80, 0xFF] {
        slices.push(framed(&station, &[vec![b'0', byte], vec![byte]]));
    }
    slices.push(framed(&station, &[vec![b'0'; 252]]));
    slices
}

/// A slice that may be the reply to the request: sound or damaged, from its station or another, with the fields that
/// belong to its command, or to another, or to none. The step of an LNA may be the one beside it.
pub fn reply(random: &mut Random, asked: &Asked) -> Vec<u8> {
    let station = match random.one_in(12) {
        true => random.between(0, 110) as u8,
        false => asked.station,
    };
    let name = match random.one_in(6) {
        true => random.pick(&NAMES),
        false => asked.name,
    };
    let number = match random.one_in(8) {
        true => asked.number ^ 1,
        false => asked.number,
    };
    let mut fields = fields(random, name, number);
    match random.below(8) {
        0 => fields = vec![status(random)],
        1 => fields = vec![[&b"E"[..], &status(random)].concat()],
        2 | 3 => (0..1 + random.below(2)).for_each(|_| fault(random, &mut fields)),
        _ => {}
    }
    let mut slice = framed(&station_text(station), &fields);
    match random.below(8) {
        0 => {
            let refusal = random.between(i32::from(LENGTH), i32::from(STRAY)) as u8;
            frames::damage(random, &mut slice, refusal);
        }
        1 | 2 => {
            (0..1 + random.below(2)).for_each(|_| frames::change(random, &mut slice));
            if random.one_in(2) {
                frames::repair(&mut slice);
            }
        }
        _ => {}
    }
    slice
}

/// Requests, each with a slice to read.
pub struct Replies {
    asked: Vec<Asked<'static>>,
    codes: Vec<u8>,
    slices: Frames,
}

impl Replies {
    pub fn iter(&self) -> impl Iterator<Item = (&Asked<'static>, &[u8])> {
        self.asked.iter().zip(self.slices.iter())
    }

    /// The same with the code of each command.
    pub fn coded(&self) -> impl Iterator<Item = ((&Asked<'static>, &[u8]), u8)> {
        self.iter().zip(self.codes.iter().copied())
    }

    pub fn count(&self) -> usize {
        self.asked.len()
    }

    pub fn bytes(&self) -> usize {
        self.slices.bytes()
    }
}

/// The replies whose reading is timed: to LN requests for numbers, as a box writes them, and in each ten one that is
/// damaged.
pub fn benchmark_set() -> Replies {
    let mut random = Random::new(14);
    let mut replies = Replies { asked: Vec::new(), codes: Vec::new(), slices: Frames::new() };
    for _ in 0..FRAMES / 10 {
        let bad = random.below(10);
        for place in 0..10 {
            let asked = good(&mut random, READINGS);
            let fields = usual_fields(&mut random, limits(asked.name).1);
            replies.slices.push(&match place == bad {
                true => damaged(&mut random, &asked, fields),
                false => framed(&station_text(asked.station), &fields),
            });
            replies.codes.push(code(asked.name));
            replies.asked.push(asked);
        }
    }
    replies
}

/// The fields behind the station as a box writes them.
fn usual_fields(random: &mut Random, data: Data) -> Vec<Vec<u8>> {
    let range = data.range();
    let mut value = || frames::value(random, *range.start(), *range.end());
    match data {
        Data::Timer => vec![written(value())],
        Data::Row => (0..4).map(|_| written(value())).collect(),
        Data::Count { greatest: 9999 } => vec![format!("{:04}", value()).into_bytes()],
        Data::Count { .. } => vec![value().to_string().into_bytes()],
        Data::Step => Vec::new(),
    }
}

/// A reply that gets one of the refusals 2 to 7 and 15.
fn damaged(random: &mut Random, asked: &Asked, mut fields: Vec<Vec<u8>>) -> Vec<u8> {
    let refusal = random.pick(&[LENGTH, START, END, LRC, STRAY, STATION, REPLY]);
    let mut station = station_text(asked.station);
    match refusal {
        // The empty one would make some of the frames too short.
        STATION => station = random.pick(&BAD_STATIONS[1..]).to_vec(),
        REPLY => match random.below(3) {
            0 => station = station_text(asked.station % 99 + 1),
            1 => fields.push(b"0".to_vec()),
            _ => fields[0].push(b'x'),
        },
        _ => {}
    }
    let mut slice = framed(&station, &fields);
    frames::damage(random, &mut slice, refusal);
    slice
}
