//! Frames, calls and memory from a generator with a fixed seed.

use std::rc::Rc;

use crate::receiver::{Receiver, SLICE};
use crate::reference::{lrc, Port, Tables, A, B, PROGRAMS, TEXT};
use crate::reference::{ABSENT, COMMAND, END, ETX, LENGTH, LRC, NUMBER, SHAPE, START, STATION, STRAY, STX, VALUE};

/// The stations of the benchmark set.
pub const STATIONS: [u8; 4] = [1, 7, 42, 99];

/// The frames of the benchmark set; one in ten is damaged.
pub const FRAMES: usize = 100_000;

/// The splitmix64 generator.
pub struct Random(u64);

impl Random {
    pub fn new(seed: u64) -> Random {
        Random(seed)
    }

    pub fn next(&mut self) -> u64 {
        self.0 = self.0.wrapping_add(0x9E37_79B9_7F4A_7C15);
        let mut value = self.0;
        value = (value ^ (value >> 30)).wrapping_mul(0xBF58_476D_1CE4_E5B9);
        value = (value ^ (value >> 27)).wrapping_mul(0x94D0_49BB_1331_11EB);
        value ^ (value >> 31)
    }

    pub fn below(&mut self, bound: usize) -> usize {
        (self.next() % bound as u64) as usize
    }

    pub fn between(&mut self, least: i32, greatest: i32) -> i32 {
        least + self.below((greatest - least + 1) as usize) as i32
    }

    pub fn one_in(&mut self, count: usize) -> bool {
        self.below(count) == 0
    }

    pub fn pick<T: Copy>(&mut self, choices: &[T]) -> T {
        choices[self.below(choices.len())]
    }

    pub fn byte(&mut self) -> u8 {
        self.next() as u8
    }

    /// A byte other than this one.
    fn other_byte(&mut self, byte: u8) -> u8 {
        byte ^ self.between(1, 255) as u8
    }

    pub fn fill(&mut self, bytes: &mut [u8]) {
        for part in bytes.chunks_mut(8) {
            let value = self.next().to_le_bytes();
            part.copy_from_slice(&value[..part.len()]);
        }
    }
}

/// Slices in one area.
pub struct Frames {
    bytes: Vec<u8>,
    ends: Vec<usize>,
}

impl Frames {
    pub fn new() -> Frames {
        Frames { bytes: Vec::new(), ends: vec![0] }
    }

    pub fn push(&mut self, slice: &[u8]) {
        self.bytes.extend_from_slice(slice);
        self.ends.push(self.bytes.len());
    }

    pub fn iter(&self) -> impl Iterator<Item = &[u8]> {
        self.ends.windows(2).map(|ends| &self.bytes[ends[0]..ends[1]])
    }

    pub fn bytes(&self) -> usize {
        self.bytes.len()
    }

    pub fn count(&self) -> usize {
        self.ends.len() - 1
    }

    /// The slices that can wait at a port: all but empty ones, which end where they begin.
    pub fn filled(&self) -> Frames {
        let mut ends = self.ends.clone();
        ends.dedup();
        Frames { bytes: self.bytes.clone(), ends }
    }

    /// The slices one after the other.
    pub fn line(&self) -> &[u8] {
        &self.bytes
    }
}

/// The benchmark set: the sixteen commands of document 01 in all spellings, and in each ten frames one that is damaged.
pub fn benchmark_set() -> Frames {
    let mut random = Random::new(13);
    let mut frames = Frames::new();
    for _ in 0..FRAMES / 10 {
        let bad = random.below(10);
        for place in 0..10 {
            let slice = match place == bad {
                true => any_damaged(&mut random, &STATIONS, &COMMANDS),
                false => good(&mut random, &STATIONS, &COMMANDS),
            };
            frames.push(&slice);
        }
    }
    frames
}

/// The data of a command and their range; that of a whole number begins at 0. LNA has no texts, SNA has one to five.
#[derive(Clone, Copy)]
enum Data {
    None,
    NoTexts,
    Texts,
    Whole { greatest: i32 },
    Hundredths { fields: usize, least: i32, greatest: i32 },
}

#[derive(Clone, Copy)]
struct Command {
    name: &'static [u8],
    least: i32,
    greatest: i32,
    data: Data,
}

const fn command(name: &'static [u8], least: i32, greatest: i32, data: Data) -> Command {
    Command { name, least, greatest, data }
}

const TIMER: Data = Data::Hundredths { fields: 1, least: 0, greatest: 999 };
const ROW: Data = Data::Hundredths { fields: 4, least: -999_999, greatest: 999_999 };

/// The commands of document 01.
const COMMANDS: [Command; 16] = [
    command(b"LNT", 0, 15, Data::None),
    command(b"SNT", 0, 15, TIMER),
    command(b"LND", 0, 63, Data::None),
    command(b"SND", 0, 63, Data::Whole { greatest: 9999 }),
    command(b"LNL", 0, 99, Data::None),
    command(b"SNL", 0, 99, ROW),
    command(b"LNIB", 0, 255, Data::None),
    command(b"LNID", 0, 31, Data::None),
    command(b"LNOB", 0, 255, Data::None),
    command(b"SNOB", 0, 255, Data::Whole { greatest: 1 }),
    command(b"LNOD", 0, 31, Data::None),
    command(b"SNOD", 0, 31, Data::Whole { greatest: 255 }),
    command(b"LNBB", 256, 383, Data::None),
    command(b"SNBB", 256, 383, Data::Whole { greatest: 1 }),
    command(b"LNBD", 0, 15, Data::None),
    command(b"SNBD", 0, 15, Data::Whole { greatest: 255 }),
];

/// The commands of request E3.
const STEPS: [Command; 2] = [command(b"LNA", 0, 255, Data::NoTexts), command(b"SNA", 0, 255, Data::Texts)];

/// The steps that half of the requests name, so that many of those read were written.
const USUAL_STEPS: [i32; 6] = [0, 1, 2, 9, 254, 255];

/// The most texts that a step has.
const MOST_TEXTS: usize = 5;

/// How many fields a command expects behind its name, at least and at most.
pub fn expected_fields(name: &[u8]) -> Option<(usize, usize)> {
    let command = COMMANDS.iter().chain(&STEPS).find(|command| command.name == name)?;
    Some(match command.data {
        Data::None | Data::NoTexts => (1, 1),
        Data::Texts => (2, 1 + MOST_TEXTS),
        Data::Whole { .. } => (2, 2),
        Data::Hundredths { fields, .. } => (1 + fields, 1 + fields),
    })
}

/// The parts of a request, before they are put into a frame.
struct Request {
    station: Vec<u8>,
    command: Command,
    /// The name, the number and the data.
    fields: Vec<Vec<u8>>,
}

impl Request {
    fn text(&self) -> Vec<u8> {
        let mut text = self.station.clone();
        for field in &self.fields {
            text.push(b' ');
            text.extend_from_slice(field);
        }
        text
    }

    fn frame(&self) -> Vec<u8> {
        frame(&self.text())
    }
}

pub fn frame(text: &[u8]) -> Vec<u8> {
    let mut slice = vec![STX];
    slice.extend_from_slice(text);
    slice.push(ETX);
    slice.push(lrc(&slice[1..]));
    slice
}

/// Makes the last byte the LRC of those before it.
pub fn repair(slice: &mut [u8]) {
    if let [_, rest @ .., check] = slice {
        *check = lrc(rest);
    }
}

fn decimal(value: i32) -> Vec<u8> {
    value.to_string().into_bytes()
}

/// A value of the range: one of its ends, near 0, or any.
pub fn value(random: &mut Random, least: i32, greatest: i32) -> i32 {
    match random.below(8) {
        0 => least,
        1 => greatest,
        2 => random.between(-120, 120).clamp(least, greatest),
        _ => random.between(least, greatest),
    }
}

/// A whole number of at most four digits, at times with leading zeros.
pub fn whole(random: &mut Random, value: i32) -> Vec<u8> {
    let mut text = decimal(value);
    if random.one_in(3) {
        let zeros = random.below(5 - text.len());
        text.splice(0..0, vec![b'0'; zeros]);
    }
    text
}

/// Hundredths in one of their spellings.
pub fn hundredths(random: &mut Random, value: i32) -> Vec<u8> {
    let mut text = Vec::new();
    if value < 0 || value == 0 && random.one_in(3) {
        text.push(b'-');
    }
    let size = value.abs();
    text.extend(whole(random, size / 100));
    let decimals = [b'.', b'0' + (size / 10 % 10) as u8, b'0' + (size % 10) as u8];
    let written = match (size % 100, size % 10) {
        (0, _) => random.pick(&[0, 2, 3]),
        (_, 0) => random.pick(&[2, 3]),
        _ => 3,
    };
    text.extend_from_slice(&decimals[..written]);
    text
}

/// Characters in that number: any, or the first and the last of them.
fn characters(random: &mut Random, length: usize) -> Vec<u8> {
    let mut text = vec![0; length];
    for byte in &mut text {
        *byte = match random.one_in(4) {
            true => random.pick(b"!~"),
            false => random.between(0x21, 0x7E) as u8,
        };
    }
    text
}

/// A text of a step.
pub fn text(random: &mut Random) -> Vec<u8> {
    let length = match random.one_in(4) {
        true => TEXT,
        false => 1 + random.below(TEXT),
    };
    characters(random, length)
}

/// A text that no step has: empty, or of more than 8 characters, mostly of 9.
pub fn bad_text(random: &mut Random) -> Vec<u8> {
    let length = match random.below(4) {
        0 | 1 => 0,
        2 => TEXT + 1,
        _ => TEXT + 1 + random.below(12),
    };
    characters(random, length)
}

/// The station of one of the fitted slots, or any where there is none.
fn station(random: &mut Random, stations: &[u8; 4]) -> Vec<u8> {
    let fitted: Vec<u8> = stations.iter().copied().filter(|&station| station != 0).collect();
    match fitted.is_empty() {
        true => decimal(random.between(1, 99)),
        false => decimal(i32::from(random.pick(&fitted))),
    }
}

fn request(random: &mut Random, stations: &[u8; 4], command: Command) -> Request {
    let station = station(random, stations);
    let number = match command.data {
        Data::NoTexts | Data::Texts if random.one_in(2) => random.pick(&USUAL_STEPS),
        _ => random.between(command.least, command.greatest),
    };
    let mut fields = vec![command.name.to_vec(), whole(random, number)];
    match command.data {
        Data::None | Data::NoTexts => {}
        Data::Texts => {
            for _ in 0..1 + random.below(MOST_TEXTS) {
                fields.push(text(random));
            }
        }
        Data::Whole { greatest } => {
            let value = value(random, 0, greatest);
            fields.push(whole(random, value));
        }
        Data::Hundredths { fields: count, least, greatest } => {
            for _ in 0..count {
                let value = value(random, least, greatest);
                fields.push(hundredths(random, value));
            }
        }
    }
    Request { station, command, fields }
}

/// A request with one of the commands.
fn any_request(random: &mut Random, stations: &[u8; 4], commands: &[Command]) -> Request {
    let command = random.pick(commands);
    request(random, stations, command)
}

/// A request whose data can be outside their range.
fn bounded_request(random: &mut Random, stations: &[u8; 4]) -> Request {
    let bounded: Vec<Command> = COMMANDS.into_iter().filter(has_values_out_of_range).collect();
    let command = random.pick(&bounded);
    request(random, stations, command)
}

fn good(random: &mut Random, stations: &[u8; 4], commands: &[Command]) -> Vec<u8> {
    any_request(random, stations, commands).frame()
}

pub const BAD_STATIONS: [&[u8]; 14] =
    [b"", b"0", b"00", b"01", b"07", b"042", b"100", b"123", b"999", b"-1", b"+1", b"1.", b"A", b"4x"];

pub const BAD_NAMES: [&[u8]; 20] = [
    b"", b"L", b"LN", b"SN", b"LT", b"LNI", b"LNO", b"SNO", b"SNI", b"SNIB", b"SNID", b"LNTB", b"LNDB", b"SNLD",
    b"NLT", b"LNX", b"SNZ", b"00", b"E09", b"5",
];

pub const BAD_WHOLE: [&[u8]; 16] = [
    b"", b"12345", b"00000", b"00001", b"-1", b"-0", b"+1", b"1.0", b"1.", b".", b"-", b"0x1", b"1a", b"a1", b"/", b":",
];

pub const BAD_HUNDREDTHS: [&[u8]; 24] = [
    b"", b"10000", b"00000", b"-00001", b"00001.5", b"1.", b"-1.", b".5", b"-.5", b".", b"-", b"-.", b"--1", b"+1",
    b"1.234", b"0.000", b"1.-5", b"1-", b"1,5", b"1e2", b"1.2.3", b"1..2", b"1.a", b"1.5a",
];

/// A frame that is damaged so that an arm's box gives this refusal, from LENGTH to VALUE. LNA and SNA never give VALUE,
/// so there it has another command.
fn damaged(random: &mut Random, stations: &[u8; 4], commands: &[Command], refusal: u8) -> Vec<u8> {
    let mut request = match refusal {
        VALUE => bounded_request(random, stations),
        _ => any_request(random, stations, commands),
    };
    match refusal {
        STATION if random.one_in(2) => {
            let mut text = request.text();
            text.retain(|&byte| byte != b' ');
            return frame(&text);
        }
        STATION => request.station = random.pick(&BAD_STATIONS).to_vec(),
        ABSENT => {
            let absent: Vec<u8> = (1..=99).filter(|station| !stations.contains(station)).collect();
            request.station = decimal(i32::from(random.pick(&absent)));
        }
        COMMAND => misname(random, &mut request.fields[0]),
        SHAPE if matches!(request.command.data, Data::Texts) => misshape_step(random, &mut request),
        SHAPE => misshape(random, &mut request),
        NUMBER => {
            number_out_of_range(random, &mut request);
            if has_values_out_of_range(&request.command) && random.one_in(2) {
                data_out_of_range(random, &mut request);
            }
        }
        VALUE => data_out_of_range(random, &mut request),
        _ => {}
    }
    let mut slice = request.frame();
    damage(random, &mut slice, refusal);
    slice
}

/// Damages a sound frame so that it gets this refusal, from LENGTH to STRAY; for another number it stays.
pub fn damage(random: &mut Random, slice: &mut Vec<u8>, refusal: u8) {
    let last = slice.len() - 1;
    match refusal {
        LENGTH if random.one_in(2) => slice.truncate(random.below(6)),
        LENGTH => lengthen(random, slice),
        START => slice[0] = random.other_byte(STX),
        END if random.one_in(2) => {
            slice.remove(last - 1);
        }
        END => {
            slice[last - 1] = random.other_byte(ETX);
            repair(slice);
        }
        LRC => slice[last] = random.other_byte(slice[last]),
        STRAY => {
            slice[1 + random.below(last - 2)] = match random.one_in(2) {
                true => random.pick(&[0x00, 0x01, STX, ETX, 0x1F, 0x7F, 0x80, 0xA0, 0xFF]),
                false => random.between(0x7F, 0xFF) as u8,
            };
            repair(slice);
        }
        _ => {}
    }
}

fn any_damaged(random: &mut Random, stations: &[u8; 4], commands: &[Command]) -> Vec<u8> {
    let refusal = random.between(i32::from(LENGTH), i32::from(VALUE)) as u8;
    damaged(random, stations, commands, refusal)
}

/// Makes it a frame of 256 to 300 bytes whose LRC is right.
fn lengthen(random: &mut Random, slice: &mut Vec<u8>) {
    slice.truncate(slice.len() - 2);
    let length = 256 + random.below(45);
    while slice.len() + 2 < length {
        slice.push(random.pick(b"0123456789 "));
    }
    slice.extend_from_slice(&[ETX, 0]);
    repair(slice);
}

fn misname(random: &mut Random, name: &mut Vec<u8>) {
    let place = random.below(name.len());
    match random.below(4) {
        0 => name[place].make_ascii_lowercase(),
        1 => name.push(random.pick(b"BDLTXZ07")),
        2 => name.truncate(place),
        _ => *name = random.pick(&BAD_NAMES).to_vec(),
    }
}

/// Takes a field away, adds one, or puts a malformed text in place of the number or of a data field.
fn misshape(random: &mut Random, request: &mut Request) {
    match random.below(4) {
        0 => {
            request.fields.pop();
        }
        1 => {
            let extra = random.pick(&[&b""[..], b"0", b"1", b"0.00", b"LNT"]);
            request.fields.push(extra.to_vec());
        }
        _ => {
            let place = 1 + random.below(request.fields.len() - 1);
            let text = match request.command.data {
                Data::Hundredths { .. } if place > 1 => random.pick(&BAD_HUNDREDTHS),
                _ => random.pick(&BAD_WHOLE),
            };
            request.fields[place] = text.to_vec();
        }
    }
}

/// Takes the command away, and at times the step, adds a sixth text, or puts a malformed text in place of the step or of
/// a text.
fn misshape_step(random: &mut Random, request: &mut Request) {
    match random.below(4) {
        0 => request.fields.truncate(1 + random.below(2)),
        1 => {
            while request.fields.len() < 2 + MOST_TEXTS {
                request.fields.push(text(random));
            }
            let extra = match random.one_in(2) {
                true => text(random),
                false => bad_text(random),
            };
            request.fields.push(extra);
        }
        2 => request.fields[1] = random.pick(&BAD_WHOLE).to_vec(),
        _ => {
            let place = 2 + random.below(request.fields.len() - 2);
            request.fields[place] = bad_text(random);
        }
    }
}

fn number_out_of_range(random: &mut Random, request: &mut Request) {
    let Command { least, greatest, .. } = request.command;
    let number = match random.below(4) {
        0 => greatest + 1,
        1 if least > 0 => random.between(0, least - 1),
        2 => random.pick(&[384, 512, 1000, 9999]),
        _ => random.between(greatest + 1, 9999),
    };
    request.fields[1] = whole(random, number);
}

/// Register data and offsets cannot leave their ranges in a form that is read.
fn has_values_out_of_range(command: &Command) -> bool {
    match command.data {
        Data::None | Data::NoTexts | Data::Texts => false,
        Data::Whole { greatest } => greatest < 9999,
        Data::Hundredths { greatest, .. } => greatest < 999_999,
    }
}

fn data_out_of_range(random: &mut Random, request: &mut Request) {
    request.fields[2] = match request.command.data {
        Data::None | Data::NoTexts | Data::Texts => return,
        Data::Whole { greatest } => {
            let value = match random.one_in(3) {
                true => greatest + 1,
                false => random.between(greatest + 1, 9999),
            };
            whole(random, value)
        }
        Data::Hundredths { least, greatest, .. } => {
            let value = match random.below(4) {
                0 => greatest + 1,
                1 => least - 1,
                2 => random.between(greatest + 1, 999_999),
                _ => random.between(-999_999, least - 1),
            };
            hundredths(random, value)
        }
    };
}

/// One call on a box.
pub enum Call {
    Setup([u16; 4]),
    Input {
        slot: usize,
        port: u16,
        byte: u8,
    },
    /// Asks how many outputs of the slot's arm are on.
    OutputsOn(usize),
    /// A slice and the length of the reply area.
    Serve {
        slice: Vec<u8>,
        room: usize,
    },
    /// Picks one of two ports, and serves its slice if there is a reply area, which has that length.
    Pick {
        buffers: [Buffer; 2],
        room: Option<usize>,
    },
}

/// A buffer of a port, and its waiting length. A clone is the same memory.
#[derive(Clone)]
pub struct Buffer {
    bytes: Rc<[u8]>,
    waiting: usize,
}

impl Buffer {
    pub fn port(&self) -> Port<'_> {
        Port { buffer: &self.bytes, waiting: self.waiting }
    }
}

/// The greatest length of a reply area.
pub const GREATEST_ROOM: usize = 300;

/// A call for a box with these stations.
pub fn call(random: &mut Random, stations: &[u8; 4]) -> Call {
    // A box without an arm answers all alike, so it is set up again soon.
    let setups = if *stations == [0; 4] { 16 } else { 1000 };
    if random.one_in(setups) {
        Call::Setup(wanted(random))
    } else if random.one_in(12) {
        input(random)
    } else if random.one_in(12) {
        Call::OutputsOn(slot(random))
    } else if random.one_in(4) {
        pick(random, stations)
    } else {
        Call::Serve { slice: slice(random, stations), room: room(random) }
    }
}

fn slice(random: &mut Random, stations: &[u8; 4]) -> Vec<u8> {
    match random.one_in(3) {
        true => served(random, stations, &STEPS),
        false => served(random, stations, &COMMANDS),
    }
}

fn room(random: &mut Random) -> usize {
    match random.one_in(20) {
        true => random.pick(&[0, 1, 6, 32, 62, 63]),
        false => random.pick(&[64, 64, 65, 100, 255, 256, GREATEST_ROOM]),
    }
}

/// At times both ports lend one buffer.
fn pick(random: &mut Random, stations: &[u8; 4]) -> Call {
    let first = buffer(random, stations);
    let second = match random.one_in(8) {
        true => first.clone(),
        false => buffer(random, stations),
    };
    let room = match random.one_in(8) {
        true => None,
        false => Some(room(random)),
    };
    Call::Pick { buffers: [first, second], room }
}

/// A buffer that begins with a slice, at times with bytes behind it. Mostly the slice waits, else a part of it, nothing,
/// or a length beyond the buffer, which may be that of the slice but for its upper bits.
fn buffer(random: &mut Random, stations: &[u8; 4]) -> Buffer {
    let mut bytes = slice(random, stations);
    let length = bytes.len();
    if random.one_in(3) {
        plain(random, 1, 20, &mut bytes);
    }
    let beyond = bytes.len() + 1;
    let waiting = match random.below(12) {
        0 | 1 => 0,
        2 => random.below(beyond),
        3 => beyond,
        4 => random.pick(&[beyond + 1, length + 256, length + (1 << 16), length + (1 << 32), 1 << 63, usize::MAX]),
        _ => length,
    };
    Buffer { bytes: bytes.into(), waiting }
}

/// A turn to go on with: mostly the one before, else one that a call leaves, the next behind those, or any.
pub fn turn(random: &mut Random, before: u8) -> u8 {
    let any = random.byte();
    let other = random.pick(&[0, A, B, B + 1, any, any]);
    random.pick(&[before, before, before, other])
}

fn wanted(random: &mut Random) -> [u16; 4] {
    let mut want = [0; 4];
    for station in &mut want {
        if !random.one_in(5) {
            *station = random.between(1, 99) as u16;
        }
    }
    let slot = random.below(4);
    match random.below(8) {
        0 => want[slot] = want[random.below(4)],
        1 => want[slot] = random.pick(&[100, 101, 255, 256, 257, 355, 0x0101, 0x8001, u16::MAX]),
        2 => want[slot] = random.between(100, 65_535) as u16,
        3 => want = [1, 2, 3, 4],
        _ => {}
    }
    want
}

fn slot(random: &mut Random) -> usize {
    match random.one_in(10) {
        true => random.pick(&[4, 5, 8, 255, 256, 1 << 16, 1 << 32, (1 << 32) + 1, usize::MAX]),
        false => random.below(4),
    }
}

fn input(random: &mut Random) -> Call {
    let slot = slot(random);
    let port = match random.one_in(10) {
        true => random.pick(&[32, 33, 63, 64, 255, 256, 287, 0x8000, u16::MAX]),
        false => random.below(32) as u16,
    };
    Call::Input { slot, port, byte: random.byte() }
}

/// The length of a memory that is lent for the START programs: a wrong one so often.
pub fn lent(random: &mut Random, often: usize) -> usize {
    match random.one_in(often) {
        true => random.pick(&[0, 1, 64, PROGRAMS - 1, PROGRAMS + 1, 65_536]),
        false => PROGRAMS,
    }
}

/// Memory that no call leaves: one slot is unfitted, and the ports, the numbers of outputs on, the turn and the START
/// programs are any, these with few or many characters.
pub fn other_memory(random: &mut Random) -> Tables {
    let mut tables = Tables { stations: STATIONS, turn: random.byte(), ..Tables::new() };
    tables.stations[random.below(4)] = 0;
    random.fill(tables.inputs.as_flattened_mut());
    random.fill(tables.outputs.as_flattened_mut());
    random.fill(tables.memory.as_flattened_mut());
    random.fill(&mut tables.programs);
    let others = random.pick(&[2, 10, 50]);
    for byte in &mut tables.programs {
        if random.one_in(8) {
            *byte = random.pick(&[0x00, 0x20, 0x21, 0x7E, 0x7F, 0x80, 0xFF]);
        }
        if !random.one_in(others) {
            *byte = random.between(0x21, 0x7E) as u8;
        }
    }
    for on in &mut tables.on {
        let any = random.next() as u16;
        *on = random.pick(&[0, u16::MAX, any]);
    }
    tables
}

/// A slice for serving: good, damaged in one or more ways, changed at random, or random altogether.
fn served(random: &mut Random, stations: &[u8; 4], commands: &[Command]) -> Vec<u8> {
    match random.below(24) {
        0..=9 => good(random, stations, commands),
        10..=13 => any_damaged(random, stations, commands),
        14..=17 => faulty(random, stations, commands),
        18..=21 => changed(random, stations, commands),
        22 => random_text(random, stations, commands),
        _ => {
            let mut slice = vec![0; random.below(301)];
            random.fill(&mut slice);
            if random.one_in(2) {
                dress(random, &mut slice);
            }
            slice
        }
    }
}

/// A frame with one to four faults, so that some stand beside others; its LRC is right.
fn faulty(random: &mut Random, stations: &[u8; 4], commands: &[Command]) -> Vec<u8> {
    let mut request = any_request(random, stations, commands);
    let faults = 1 + random.below(4);
    for _ in 0..faults {
        fault(random, &mut request);
    }
    let mut slice = request.frame();
    if random.one_in(10) {
        for _ in 0..faults {
            let place = 1 + random.below(slice.len() - 3);
            slice[place] = random.pick(&[0x00, STX, ETX, 0x1F, 0x7F, 0x80, 0xFF]);
        }
        repair(&mut slice);
    }
    slice
}

/// Mostly in the fields behind the name. The name stays, if only as an empty field.
fn fault(random: &mut Random, request: &mut Request) {
    let count = request.fields.len();
    match random.below(16) {
        0..=4 if count > 1 => {
            let place = 1 + random.below(count - 1);
            request.fields[place] = match random.below(3) {
                _ if place > 1 && matches!(request.command.data, Data::Texts) => bad_text(random),
                0 => Vec::new(),
                1 => random.pick(&BAD_WHOLE).to_vec(),
                _ => random.pick(&BAD_HUNDREDTHS).to_vec(),
            };
        }
        5..=7 => {
            let extra = random.pick(&[&b""[..], b"", b"0", b"1", b"0.00", b"x", b"LNT"]);
            request.fields.insert(1 + random.below(count), extra.to_vec());
        }
        8..=10 if count > 1 => {
            request.fields.pop();
        }
        11 | 12 if count > 1 => number_out_of_range(random, request),
        13 if count > 2 && has_values_out_of_range(&request.command) => data_out_of_range(random, request),
        14 if random.one_in(2) => request.fields[0].clear(),
        14 if !request.fields[0].is_empty() => misname(random, &mut request.fields[0]),
        15 if random.one_in(2) => request.station = random.pick(&BAD_STATIONS).to_vec(),
        _ => {}
    }
}

/// Makes the first byte STX, the last but one ETX, and in most cases the last the LRC.
fn dress(random: &mut Random, slice: &mut [u8]) {
    if let [start, .., end, _] = slice {
        *start = STX;
        *end = ETX;
        if !random.one_in(4) {
            repair(slice);
        }
    }
}

/// Bytes that text fields consist of, and some that they do not.
const LETTERS: &[u8] = b"0123456789.-  LSNATDLIOB0123456789 .-+,/:;~!x";

/// A frame with random text behind the station.
fn random_text(random: &mut Random, stations: &[u8; 4], commands: &[Command]) -> Vec<u8> {
    let mut text = station(random, stations);
    text.push(b' ');
    if !random.one_in(4) {
        text.extend_from_slice(random.pick(commands).name);
        text.push(b' ');
    }
    let length = match random.below(3) {
        0 => random.below(12),
        1 => random.below(48),
        _ => 240 + random.below(20),
    };
    while text.len() < length {
        text.push(random.pick(LETTERS));
    }
    frame(&text)
}

/// A good or a damaged frame with some bytes changed, added or taken away, in most cases with the LRC repaired.
fn changed(random: &mut Random, stations: &[u8; 4], commands: &[Command]) -> Vec<u8> {
    let mut slice = match random.one_in(4) {
        true => any_damaged(random, stations, commands),
        false => good(random, stations, commands),
    };
    for _ in 0..1 + random.below(3) {
        change(random, &mut slice);
    }
    if random.one_in(4) {
        dress(random, &mut slice);
    } else if !random.one_in(4) {
        repair(&mut slice);
    }
    slice
}

pub fn change(random: &mut Random, slice: &mut Vec<u8>) {
    if slice.is_empty() {
        slice.push(random.byte());
        return;
    }
    // Mostly inside the text.
    let place = match random.one_in(8) || slice.len() < 4 {
        true => random.below(slice.len()),
        false => 1 + random.below(slice.len() - 3),
    };
    match random.below(10) {
        0 => slice[place] = random.byte(),
        1 | 2 => slice[place] = random.pick(LETTERS),
        3 => slice[place] ^= 1 << random.below(8),
        4 => slice.insert(place, b' '),
        5 => slice.insert(place, random.pick(LETTERS)),
        6 => {
            slice.remove(place);
        }
        7 => {
            let spaces: Vec<usize> = (0..slice.len()).filter(|&at| slice[at] == b' ').collect();
            if !spaces.is_empty() {
                slice.remove(random.pick(&spaces));
            }
        }
        8 => slice.truncate(place),
        _ => {
            let most = random.pick(&[4, 4, 4, 260]);
            let longer = slice.len() + 1 + random.below(most);
            while slice.len() < longer.min(300) {
                slice.push(random.pick(LETTERS));
            }
        }
    }
}

/// The least length of a line for a receiver.
const LINE: usize = 2000;

/// A line: slices as for serving, runs about as long as a slice can be, noise, and bytes of which many are STX or ETX.
pub fn line(random: &mut Random) -> Vec<u8> {
    let mut line = Vec::new();
    while line.len() < LINE {
        match random.below(8) {
            0..=2 => line.extend(served(random, &STATIONS, &COMMANDS)),
            3..=5 => {
                line.push(STX);
                plain(random, SLICE - 8, 12, &mut line);
                line.push(random.pick(&[STX, ETX, b'0']));
                line.push(random.pick(&[STX, ETX, b'0']));
            }
            6 => plain(random, 0, 40, &mut line),
            _ => {
                for _ in 0..random.below(40) {
                    let any = random.byte();
                    line.push(random.pick(&[STX, ETX, any, any]));
                }
            }
        }
    }
    line
}

/// Adds bytes that are neither STX nor ETX: the least number and below so many more.
fn plain(random: &mut Random, least: usize, more: usize, line: &mut Vec<u8>) {
    for _ in 0..least + random.below(more) {
        line.push(match random.byte() {
            STX | ETX => b'0',
            byte => byte,
        });
    }
}

/// How many bytes of a line arrive, and the length of the area.
pub fn arrival(random: &mut Random) -> (usize, usize) {
    let most = random.pick(&[3, 20, 300, 600]);
    let room = match random.one_in(20) {
        true => random.below(GREATEST_ROOM + 1),
        false => random.pick(&[SLICE, SLICE, SLICE + 1, GREATEST_ROOM]),
    };
    (random.below(most), room)
}

/// A receiver with any memory and any count, half of them with ETX as the last byte held.
pub fn other_receiver(random: &mut Random) -> Receiver {
    let mut receiver = Receiver::new();
    random.fill(&mut receiver.held);
    let any = random.byte();
    receiver.count = random.pick(&[any, any, any, 0, 1, 253, 254, 255]);
    if (1..255).contains(&receiver.count) && random.one_in(2) {
        receiver.held[usize::from(receiver.count) - 1] = ETX;
    }
    receiver
}

#[cfg(test)]
mod tests {
    use super::*;
    use crate::reference::{serve, setup};

    fn fitted() -> Tables {
        let mut tables = Tables::new();
        assert_eq!(setup(&mut tables, &STATIONS.map(u16::from)), 0);
        tables
    }

    #[test]
    fn good_and_damaged() {
        let (mut random, mut tables, mut reply) = (Random::new(3), fitted(), [0; 64]);
        // No step is empty, so no good LNA is refused.
        tables.programs.fill(0x21);
        for commands in [&COMMANDS[..], &STEPS] {
            for _ in 0..2000 {
                let slice = good(&mut random, &STATIONS, commands);
                assert_eq!(serve(&mut tables, &slice, &mut reply).number, 0, "{slice:02X?}");
                for refusal in LENGTH..=VALUE {
                    let slice = damaged(&mut random, &STATIONS, commands, refusal);
                    assert_eq!(serve(&mut tables, &slice, &mut reply).number, refusal, "{slice:02X?}");
                }
            }
        }
    }

    #[test]
    fn set() {
        let (mut tables, mut reply) = (fitted(), [0; 64]);
        let frames = benchmark_set();
        let mut refused = 0;
        for slice in frames.iter() {
            assert!(!slice.windows(3).any(|name| name == b"LNA" || name == b"SNA"));
            refused += usize::from(serve(&mut tables, slice, &mut reply).number != 0);
        }
        assert_eq!(frames.iter().count(), FRAMES);
        assert_eq!(refused, FRAMES / 10);
        let filled = frames.filled();
        assert!(filled.iter().eq(frames.iter().filter(|slice| !slice.is_empty())));
        assert_eq!(filled.iter().count(), filled.count());
    }
}
