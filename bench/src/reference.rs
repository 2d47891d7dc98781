//! A bytewise server of the base commands as requests E2, E6, E7 and E9 leave them, of LNA and SNA of E3, and of the
//! two ports of E5, written from documents 01 and 02 alone, but for the layout of the memory of START programs, which is
//! that of docs/MEMORY.md, and for the values of the turn, which are those of include/llamput.h.

use std::mem;

pub const ROOM: u8 = 1;
pub const LENGTH: u8 = 2;
pub const START: u8 = 3;
pub const END: u8 = 4;
pub const LRC: u8 = 5;
pub const STRAY: u8 = 6;
pub const STATION: u8 = 7;
pub const ABSENT: u8 = 8;
pub const COMMAND: u8 = 9;
pub const SHAPE: u8 = 10;
pub const NUMBER: u8 = 11;
pub const VALUE: u8 = 12;
pub const SETUP: u8 = 13;
pub const INPUT: u8 = 14;
pub const REPLY: u8 = 15;
pub const EMPTY: u8 = 16;
pub const IDLE: u8 = 17;

pub const STX: u8 = 0x02;
pub const ETX: u8 = 0x03;

/// The two ports, as a pick and the turn name them.
pub const A: u8 = 1;
pub const B: u8 = 2;

/// The least length of a reply area.
pub const REPLY_ROOM: usize = 64;

/// The length of a text of a START program.
pub const TEXT: usize = 8;

/// The length of a step: five texts, the command and then the data.
const STEP: usize = 5 * TEXT;

/// The length of an arm's START program.
const PROGRAM: usize = 256 * STEP;

/// The length of the memory that is lent for the START programs.
pub const PROGRAMS: usize = 4 * PROGRAM;

/// The tables of four arms and their stations, 0 for an unfitted slot. The first index is the slot.
#[derive(Clone, PartialEq, Eq)]
pub struct Tables {
    pub timers: [[u16; 16]; 4],
    pub registers: [[u16; 64]; 4],
    pub x: [[i32; 100]; 4],
    pub y: [[i32; 100]; 4],
    pub z: [[i32; 100]; 4],
    pub w: [[i32; 100]; 4],
    pub inputs: [[u8; 32]; 4],
    pub outputs: [[u8; 32]; 4],
    pub memory: [[u8; 16]; 4],
    /// How many outputs are on.
    pub on: [u16; 4],
    /// The START programs, in a memory of any length.
    pub programs: Vec<u8>,
    pub stations: [u8; 4],
    /// The port that was served last; a value other than A and B means neither.
    pub turn: u8,
}

impl Tables {
    pub fn new() -> Tables {
        Tables {
            timers: [[0; 16]; 4],
            registers: [[0; 64]; 4],
            x: [[0; 100]; 4],
            y: [[0; 100]; 4],
            z: [[0; 100]; 4],
            w: [[0; 100]; 4],
            inputs: [[0; 32]; 4],
            outputs: [[0; 32]; 4],
            memory: [[0; 16]; 4],
            on: [0; 4],
            programs: vec![0; PROGRAMS],
            stations: [0; 4],
            turn: 0,
        }
    }
}

/// What serving returns: the refusal number, or 0, the length of the reply, and the offset where a refused slice is
/// wrong, or 0.
#[derive(Clone, Copy, Debug, PartialEq, Eq)]
pub struct Sent {
    pub number: u8,
    pub length: usize,
    pub position: usize,
}

/// What asking for the outputs on returns: the refusal number, or 0, and how many are on, 0 where it refuses.
#[derive(Clone, Copy, Debug, PartialEq, Eq)]
pub struct Count {
    pub number: u8,
    pub count: u16,
}

/// What one of the two ports lends: a buffer, and how many bytes of it wait.
#[derive(Clone, Copy)]
pub struct Port<'a> {
    pub buffer: &'a [u8],
    pub waiting: usize,
}

impl<'a> Port<'a> {
    /// A port where all of the buffer waits.
    pub fn full(buffer: &'a [u8]) -> Port<'a> {
        Port { buffer, waiting: buffer.len() }
    }

    /// The slice that waits: none for a length of 0 or beyond the buffer.
    pub fn slice(self) -> Option<&'a [u8]> {
        self.buffer.get(..self.waiting).filter(|slice| !slice.is_empty())
    }
}

/// What choosing returns: the refusal number, or 0, and the port that is picked and the length of its slice, each 0 for
/// none.
#[derive(Clone, Copy, Debug, PartialEq, Eq)]
pub struct Choice {
    pub number: u8,
    pub port: u8,
    pub length: usize,
}

/// What serving the next slice returns: the port that was served, 0 for none, and what serving returned.
#[derive(Clone, Copy, Debug, PartialEq, Eq)]
pub struct Next {
    pub port: u8,
    pub sent: Sent,
}

/// Sets up a new box. Returns 0, or ROOM or SETUP; then no slot is fitted, and the START programs are as they were.
pub fn setup(tables: &mut Tables, want: &[u16; 4]) -> u8 {
    *tables = Tables { programs: mem::take(&mut tables.programs), ..Tables::new() };
    if tables.programs.len() != PROGRAMS {
        return ROOM;
    }
    for (slot, &station) in want.iter().enumerate() {
        if station > 99 || (station != 0 && want[..slot].contains(&station)) {
            return SETUP;
        }
    }
    tables.programs.fill(0);
    tables.stations = want.map(|station| station as u8);
    0
}

/// Puts a byte into an input port of a slot's arm. Returns 0 or INPUT; then nothing changes.
pub fn input(tables: &mut Tables, slot: usize, port: u16, byte: u8) -> u8 {
    if slot > 3 || tables.stations[slot] == 0 || port > 31 {
        return INPUT;
    }
    tables.inputs[slot][usize::from(port)] = byte;
    0
}

/// How many outputs of a slot's arm are on, or INPUT. It is counted over the ports, whatever number is kept.
pub fn outputs_on(tables: &Tables, slot: usize) -> Count {
    if slot > 3 || tables.stations[slot] == 0 {
        return Count { number: INPUT, count: 0 };
    }
    Count { number: 0, count: ones(&tables.outputs[slot]) }
}

/// The ones in the bytes of ports.
pub fn ones(ports: &[u8]) -> u16 {
    ports.iter().map(|port| port.count_ones() as u16).sum()
}

/// Serves one slice and writes the reply, if there is one, at the start of the area.
#[inline(never)]
pub fn serve(tables: &mut Tables, slice: &[u8], area: &mut [u8]) -> Sent {
    let Some(area) = area.first_chunk_mut::<REPLY_ROOM>() else {
        return silent(ROOM, slice);
    };
    if tables.programs.len() != PROGRAMS {
        return silent(ROOM, slice);
    }
    let (station, body) = match read_frame(slice) {
        Ok(frame) => frame,
        Err(number) => return silent(number, slice),
    };
    let Some(slot) = find_slot(&tables.stations, station) else {
        return silent(ABSENT, slice);
    };
    let mut reply = Reply::start(area, station);
    let (number, position) = match perform(tables, slot, body, &mut reply) {
        Ok(()) => (0, 0),
        Err(number) => {
            // An SN name gets the two digits alone.
            if number == COMMAND || body[0] == b'L' {
                reply.byte(b'E');
            }
            reply.byte(b'0' + number / 10);
            reply.byte(b'0' + number % 10);
            (number, position(slice, number))
        }
    };
    reply.end();
    Sent { number, length: reply.length, position }
}

/// Picks the port that is served next and makes it the turn, or refuses with IDLE; then the turn stays.
pub fn choose(turn: &mut u8, a: Port, b: Port) -> Choice {
    let (port, slice) = match (a.slice(), b.slice()) {
        (Some(_), Some(slice)) if *turn == A => (B, slice),
        (Some(slice), _) => (A, slice),
        (None, Some(slice)) => (B, slice),
        (None, None) => return Choice { number: IDLE, port: 0, length: 0 },
    };
    *turn = port;
    Choice { number: 0, port, length: slice.len() }
}

/// Serves the slice of the port that is picked. A slice that is refused has used the turn.
#[inline(never)]
pub fn serve_next(tables: &mut Tables, a: Port, b: Port, area: &mut [u8]) -> Next {
    let Choice { number, port, length } = choose(&mut tables.turn, a, b);
    let sent = match port {
        A => serve(tables, &a.buffer[..length], area),
        B => serve(tables, &b.buffer[..length], area),
        _ => Sent { number, length: 0, position: 0 },
    };
    Next { port, sent }
}

fn silent(number: u8, slice: &[u8]) -> Sent {
    Sent { number, length: 0, position: position(slice, number) }
}

/// The exclusive or of the bytes.
pub fn lrc(bytes: &[u8]) -> u8 {
    bytes.iter().fold(0, |lrc, byte| lrc ^ byte)
}

/// Checks 2 to 7. Returns the station and the body with the ETX that ends it; no other ETX is in it.
#[inline(always)]
pub fn read_frame(slice: &[u8]) -> Result<(u8, &[u8]), u8> {
    if slice.len() < 6 || slice.len() > 255 {
        return Err(LENGTH);
    }
    let [start, text @ .., end, check] = slice else {
        return Err(LENGTH);
    };
    if *start != STX {
        return Err(START);
    }
    if *end != ETX {
        return Err(END);
    }
    let mut sum = ETX;
    let mut stray = false;
    for &byte in text {
        sum ^= byte;
        stray |= !(0x20..=0x7E).contains(&byte);
    }
    if *check != sum {
        return Err(LRC);
    }
    if stray {
        return Err(STRAY);
    }
    match slice {
        [_, units @ b'1'..=b'9', b' ', body @ .., _] => Ok((units - b'0', body)),
        [_, tens @ b'1'..=b'9', units @ b'0'..=b'9', b' ', body @ .., _] => {
            Ok(((tens - b'0') * 10 + (units - b'0'), body))
        }
        _ => Err(STATION),
    }
}

/// The slot that is fitted with the station. No station is in two slots, so all are compared without an early exit.
fn find_slot(stations: &[u8; 4], station: u8) -> Option<usize> {
    let mut found = None;
    for (slot, &fitted) in stations.iter().enumerate() {
        if fitted == station {
            found = Some(slot);
        }
    }
    found
}

/// Checks 9 to 12, performs the request and writes the reply's data or status.
fn perform(tables: &mut Tables, slot: usize, body: &[u8], reply: &mut Reply) -> Result<(), u8> {
    // A name of three letters is compared with an SP behind it.
    let (name, rest) = match body {
        [a, b, c, b' ' | ETX, ..] => ([*a, *b, *c, b' '], &body[3..]),
        [a, b, c, d, b' ' | ETX, ..] => ([*a, *b, *c, *d], &body[4..]),
        _ => return Err(COMMAND),
    };
    let mut fields = Fields { rest };
    match &name {
        b"LNT " => {
            let number = fields.number()?;
            fields.end()?;
            let timer = tables.timers[slot].get(number).ok_or(NUMBER)?;
            reply.hundredths(i32::from(*timer));
        }
        b"SNT " => {
            let number = fields.number()?;
            let data = fields.hundredths()?;
            fields.end()?;
            let timer = tables.timers[slot].get_mut(number).ok_or(NUMBER)?;
            if !(0..=999).contains(&data) {
                return Err(VALUE);
            }
            *timer = data as u16;
            reply.done();
        }
        b"LND " => {
            let number = fields.number()?;
            fields.end()?;
            let register = tables.registers[slot].get(number).ok_or(NUMBER)?;
            reply.four_digits(*register);
        }
        b"SND " => {
            let number = fields.number()?;
            // Four digits stay within the range, so VALUE does not arise.
            let data = fields.whole()?;
            fields.end()?;
            let register = tables.registers[slot].get_mut(number).ok_or(NUMBER)?;
            *register = data;
            reply.done();
        }
        b"LNL " => {
            let number = fields.number()?;
            fields.end()?;
            if number > 99 {
                return Err(NUMBER);
            }
            reply.hundredths(tables.x[slot][number]);
            reply.byte(b' ');
            reply.hundredths(tables.y[slot][number]);
            reply.byte(b' ');
            reply.hundredths(tables.z[slot][number]);
            reply.byte(b' ');
            reply.hundredths(tables.w[slot][number]);
        }
        b"SNL " => {
            let number = fields.number()?;
            // Four digits and two decimals stay within the range, so VALUE does not arise.
            let x = fields.hundredths()?;
            let y = fields.hundredths()?;
            let z = fields.hundredths()?;
            let w = fields.hundredths()?;
            fields.end()?;
            if number > 99 {
                return Err(NUMBER);
            }
            tables.x[slot][number] = x;
            tables.y[slot][number] = y;
            tables.z[slot][number] = z;
            tables.w[slot][number] = w;
            reply.done();
        }
        b"LNIB" => load_signal(&tables.inputs[slot], 0, fields, reply)?,
        b"LNID" => load_port(&tables.inputs[slot], fields, reply)?,
        b"LNOB" => load_signal(&tables.outputs[slot], 0, fields, reply)?,
        b"SNOB" => {
            let written = store_signal(&mut tables.outputs[slot], 0, fields, reply)?;
            written.keep(&mut tables.on[slot]);
        }
        b"LNOD" => load_port(&tables.outputs[slot], fields, reply)?,
        b"SNOD" => {
            let written = store_port(&mut tables.outputs[slot], fields, reply)?;
            written.keep(&mut tables.on[slot]);
        }
        b"LNBB" => load_signal(&tables.memory[slot], 256, fields, reply)?,
        b"SNBB" => {
            store_signal(&mut tables.memory[slot], 256, fields, reply)?;
        }
        b"LNBD" => load_port(&tables.memory[slot], fields, reply)?,
        b"SNBD" => {
            store_port(&mut tables.memory[slot], fields, reply)?;
        }
        b"LNA " => load_step(&tables.programs[slot * PROGRAM..][..PROGRAM], fields, reply)?,
        b"SNA " => store_step(&mut tables.programs[slot * PROGRAM..][..PROGRAM], fields, reply)?,
        _ => return Err(COMMAND),
    }
    Ok(())
}

/// The byte of a port before and after a write.
struct Written {
    old: u8,
    new: u8,
}

impl Written {
    /// Changes the number of outputs that are on by the difference.
    fn keep(self, on: &mut u16) {
        *on = on.wrapping_add(ones(&[self.new])).wrapping_sub(ones(&[self.old]));
    }
}

/// Signals are counted from the first; a number below it wraps round and is past the ports.
#[inline(always)]
fn load_signal(ports: &[u8], first: usize, mut fields: Fields, reply: &mut Reply) -> Result<(), u8> {
    let signal = fields.number()?.wrapping_sub(first);
    fields.end()?;
    let port = ports.get(signal / 8).ok_or(NUMBER)?;
    reply.byte(b'0' + (port >> (signal % 8) & 1));
    Ok(())
}

#[inline(always)]
fn store_signal(ports: &mut [u8], first: usize, mut fields: Fields, reply: &mut Reply) -> Result<Written, u8> {
    let signal = fields.number()?.wrapping_sub(first);
    let data = fields.whole()?;
    fields.end()?;
    let port = ports.get_mut(signal / 8).ok_or(NUMBER)?;
    let bit = 1 << (signal % 8);
    let old = *port;
    match data {
        0 => *port &= !bit,
        1 => *port |= bit,
        _ => return Err(VALUE),
    }
    reply.done();
    Ok(Written { old, new: *port })
}

#[inline(always)]
fn load_port(ports: &[u8], mut fields: Fields, reply: &mut Reply) -> Result<(), u8> {
    let number = fields.number()?;
    fields.end()?;
    let port = ports.get(number).ok_or(NUMBER)?;
    reply.whole(u32::from(*port));
    Ok(())
}

#[inline(always)]
fn store_port(ports: &mut [u8], mut fields: Fields, reply: &mut Reply) -> Result<Written, u8> {
    let number = fields.number()?;
    let data = fields.whole()?;
    fields.end()?;
    let port = ports.get_mut(number).ok_or(NUMBER)?;
    let old = *port;
    *port = u8::try_from(data).map_err(|_| VALUE)?;
    reply.done();
    Ok(Written { old, new: *port })
}

/// The reply has the texts of the step up to the first empty one. A step whose command is empty was never written.
#[inline(never)]
fn load_step(program: &[u8], mut fields: Fields, reply: &mut Reply) -> Result<(), u8> {
    let number = fields.number()?;
    fields.end()?;
    let step = program.chunks_exact(STEP).nth(number).ok_or(NUMBER)?;
    if characters(step) == 0 {
        return Err(EMPTY);
    }
    reply.whole(number as u32);
    for text in step.chunks_exact(TEXT) {
        let length = characters(text);
        if length == 0 {
            break;
        }
        reply.byte(b' ');
        for &byte in &text[..length] {
            reply.byte(byte);
        }
    }
    Ok(())
}

/// Every byte of the step is written, with zeros where no character stands.
#[inline(never)]
fn store_step(program: &mut [u8], mut fields: Fields, reply: &mut Reply) -> Result<(), u8> {
    let number = fields.number()?;
    let new = fields.step()?;
    fields.end()?;
    let step = program.chunks_exact_mut(STEP).nth(number).ok_or(NUMBER)?;
    step.copy_from_slice(&new);
    reply.done();
    Ok(())
}

/// How many characters the bytes begin with: bytes from 21h to 7Eh.
pub fn characters(bytes: &[u8]) -> usize {
    bytes.iter().take_while(|byte| (0x21..=0x7E).contains(*byte)).count()
}

/// What is still to be read: the fields, each behind an SP, then ETX.
pub struct Fields<'a> {
    rest: &'a [u8],
}

impl<'a> Fields<'a> {
    /// The fields of a sound frame's body; the SP before the first of them is the one behind the station.
    pub fn of_body(slice: &'a [u8]) -> Fields<'a> {
        let space = if slice[2] == b' ' { 2 } else { 3 };
        Fields { rest: &slice[space..slice.len() - 1] }
    }

    fn skip(&mut self, wanted: u8) -> bool {
        match self.rest {
            [byte, rest @ ..] if *byte == wanted => {
                self.rest = rest;
                true
            }
            _ => false,
        }
    }

    fn space(&mut self) -> Result<(), u8> {
        match self.skip(b' ') {
            true => Ok(()),
            false => Err(SHAPE),
        }
    }

    pub fn end(&self) -> Result<(), u8> {
        match self.rest {
            [ETX] => Ok(()),
            _ => Err(SHAPE),
        }
    }

    fn digit(&mut self) -> Option<u16> {
        match self.rest {
            [byte @ b'0'..=b'9', rest @ ..] => {
                self.rest = rest;
                Some(u16::from(byte - b'0'))
            }
            _ => None,
        }
    }

    /// 1 to 4 digits.
    #[inline(always)]
    fn digits(&mut self) -> Result<u16, u8> {
        let mut value = self.digit().ok_or(SHAPE)?;
        for _ in 0..3 {
            match self.digit() {
                Some(digit) => value = value * 10 + digit,
                None => break,
            }
        }
        Ok(value)
    }

    #[inline(always)]
    pub fn whole(&mut self) -> Result<u16, u8> {
        self.space()?;
        self.digits()
    }

    #[inline(always)]
    pub fn number(&mut self) -> Result<usize, u8> {
        self.whole().map(usize::from)
    }

    /// An optional "-", 1 to 4 digits, then nothing or "." with 1 or 2 digits.
    #[inline(always)]
    pub fn hundredths(&mut self) -> Result<i32, u8> {
        self.space()?;
        let negative = self.skip(b'-');
        let mut value = i32::from(self.digits()?) * 100;
        if self.skip(b'.') {
            value += i32::from(self.digit().ok_or(SHAPE)?) * 10;
            value += i32::from(self.digit().unwrap_or(0));
        }
        Ok(if negative { -value } else { value })
    }

    /// 1 to 5 texts: the command, then data up to ETX.
    pub fn step(&mut self) -> Result<[u8; STEP], u8> {
        let mut step = [0; STEP];
        for (place, text) in step.chunks_exact_mut(TEXT).enumerate() {
            if place > 0 && self.end().is_ok() {
                break;
            }
            self.space()?;
            self.text(text)?;
        }
        Ok(step)
    }

    /// 1 to 8 characters. The bytes behind them in the text stay as they are.
    fn text(&mut self, text: &mut [u8]) -> Result<(), u8> {
        let length = characters(self.rest);
        if !(1..=TEXT).contains(&length) {
            return Err(SHAPE);
        }
        let (field, rest) = self.rest.split_at(length);
        text[..length].copy_from_slice(field);
        self.rest = rest;
        Ok(())
    }
}

/// Where a slice that gets this refusal is wrong. Only a refused slice is walked again.
#[cold]
#[inline(never)]
pub fn position(slice: &[u8], number: u8) -> usize {
    match number {
        STRAY => first_stray(slice),
        STATION => 1,
        COMMAND => field_start(slice, 1),
        SHAPE => wrong_field(slice),
        NUMBER => field_start(slice, 2),
        // Only a command with one datum gives VALUE.
        VALUE => field_start(slice, 3),
        _ => 0,
    }
}

/// For a slice that has a byte outside 20h..7Eh before its last two bytes and behind the first.
fn first_stray(slice: &[u8]) -> usize {
    let mut place = 1;
    while (0x20..=0x7E).contains(&slice[place]) {
        place += 1;
    }
    place
}

/// The start of a field that the slice has; the station is field 0. An empty field starts at the byte that ends it.
fn field_start(slice: &[u8], field: usize) -> usize {
    let mut place = 1;
    for _ in 0..field {
        while slice[place] != b' ' {
            place += 1;
        }
        place += 1;
    }
    place
}

/// The first malformed field of those that the command expects; if there is none, the first surplus field, or ETX where
/// fields lack.
fn wrong_field(slice: &[u8]) -> usize {
    let etx = slice.len() - 2;
    let mut start = 1;
    let mut fields = slice[1..etx].split(|&byte| byte == b' ').map(|field| {
        let place = start;
        start += field.len() + 1;
        (place, field)
    });
    let name = fields.nth(1).map_or(&b""[..], |(_, name)| name);
    for form in forms(name) {
        match fields.next() {
            Some((place, field)) if !form(field) => return place,
            Some(_) => {}
            None => return etx,
        }
    }
    let (surplus, _) = fields.next().expect("a request whose shape is wrong");
    surplus
}

/// The forms of the fields that a command expects behind its name. The data of SNA may lack; a request with a step and a
/// command whose shape is wrong has a malformed or a surplus field.
fn forms(name: &[u8]) -> &'static [fn(&[u8]) -> bool] {
    match name {
        b"SNT" => &[is_whole, is_hundredths],
        b"SNL" => &[is_whole, is_hundredths, is_hundredths, is_hundredths, is_hundredths],
        b"SND" | b"SNOB" | b"SNOD" | b"SNBB" | b"SNBD" => &[is_whole, is_whole],
        b"SNA" => &[is_whole, is_text, is_text, is_text, is_text, is_text],
        _ => &[is_whole],
    }
}

/// 1 to 4 digits.
fn is_whole(field: &[u8]) -> bool {
    (1..=4).contains(&field.len()) && field.iter().all(u8::is_ascii_digit)
}

/// An optional "-", 1 to 4 digits, then nothing or "." with 1 or 2 digits.
fn is_hundredths(field: &[u8]) -> bool {
    let size = field.strip_prefix(b"-").unwrap_or(field);
    match size.iter().position(|&byte| byte == b'.') {
        None => is_whole(size),
        Some(point) => {
            let decimals = &size[point + 1..];
            is_whole(&size[..point]) && is_whole(decimals) && decimals.len() <= 2
        }
    }
}

/// 1 to 8 characters. Stray bytes are refused before, so each byte of a field is one.
fn is_text(field: &[u8]) -> bool {
    (1..=TEXT).contains(&field.len())
}

/// Hundredths as a reply has them, at the start of the area.
pub fn hundredths_text(value: i32, area: &mut [u8; REPLY_ROOM]) -> &str {
    let mut reply = Reply { area, length: 0, lrc: 0 };
    reply.hundredths(value);
    let Reply { area, length, .. } = reply;
    str::from_utf8(&area[..length]).expect("digits, a point and a sign")
}

/// A reply that is being written, and the exclusive or of its bytes after STX.
struct Reply<'a> {
    area: &'a mut [u8; REPLY_ROOM],
    length: usize,
    lrc: u8,
}

impl Reply<'_> {
    fn start(area: &mut [u8; REPLY_ROOM], station: u8) -> Reply<'_> {
        area[0] = STX;
        let mut reply = Reply { area, length: 1, lrc: 0 };
        if station >= 10 {
            reply.byte(b'0' + station / 10);
        }
        reply.byte(b'0' + station % 10);
        reply.byte(b' ');
        reply
    }

    fn byte(&mut self, byte: u8) {
        self.area[self.length] = byte;
        self.length += 1;
        self.lrc ^= byte;
    }

    fn end(&mut self) {
        self.byte(ETX);
        self.byte(self.lrc);
    }

    fn done(&mut self) {
        self.byte(b'0');
        self.byte(b'0');
    }

    fn digit(&mut self, digit: u32) {
        self.byte(b'0' + (digit % 10) as u8);
    }

    /// A whole number below 10,000, written shortest.
    #[inline(always)]
    fn whole(&mut self, value: u32) {
        if value >= 1000 {
            self.digit(value / 1000);
        }
        if value >= 100 {
            self.digit(value / 100);
        }
        if value >= 10 {
            self.digit(value / 10);
        }
        self.digit(value);
    }

    fn four_digits(&mut self, value: u16) {
        let value = u32::from(value);
        self.digit(value / 1000);
        self.digit(value / 100);
        self.digit(value / 10);
        self.digit(value);
    }

    fn hundredths(&mut self, value: i32) {
        if value < 0 {
            self.byte(b'-');
        }
        let value = value.unsigned_abs();
        self.whole(value / 100);
        self.byte(b'.');
        self.digit(value / 10);
        self.digit(value);
    }
}

#[cfg(test)]
mod tests {
    use super::*;
    use crate::frames::frame;
    use std::fs;
    use std::path::Path;
    use std::str::FromStr;

    /// A box with stations 1 to 4.
    fn new_box() -> Tables {
        let mut tables = Tables::new();
        assert_eq!(setup(&mut tables, &[1, 2, 3, 4]), 0);
        tables
    }

    /// What the program `cell` reads from one line: the slice, or none where the line is no call.
    fn slice_of(line: &[u8]) -> Option<Vec<u8>> {
        if line.len() % 2 == 1 || line.len() > 512 {
            return None;
        }
        let digit = |byte: u8| match byte {
            b'0'..=b'9' => Some(byte - b'0'),
            b'A'..=b'F' => Some(byte - b'A' + 10),
            _ => None,
        };
        line.chunks(2).map(|pair| Some(digit(pair[0])? * 16 + digit(pair[1])?)).collect()
    }

    /// The answers of the program `cell` to its input, each with the position if it was a call.
    fn cell(input: &[u8]) -> Vec<(String, Option<usize>)> {
        let mut tables = new_box();
        let mut lines: Vec<&[u8]> = input.split(|&byte| byte == b'\n').collect();
        // What follows the last line feed counts if it is not empty.
        if lines.last().is_some_and(|line| line.is_empty()) {
            lines.pop();
        }
        let serve_line = |line: &[u8]| {
            let Some(slice) = slice_of(line) else {
                return ("--".to_string(), None);
            };
            let mut reply = [0; REPLY_ROOM];
            let sent = serve(&mut tables, &slice, &mut reply);
            let mut text = format!("{:02}", sent.number);
            if sent.length > 0 {
                text.push(' ');
            }
            for byte in &reply[..sent.length] {
                text.push_str(&format!("{byte:02X}"));
            }
            (text, Some(sent.position))
        };
        lines.into_iter().map(serve_line).collect()
    }

    /// The stored input and output lines of a program.
    fn stored(program: &str) -> (Vec<u8>, Vec<String>) {
        let directory = Path::new(env!("CARGO_MANIFEST_DIR")).join("../crates").join(program);
        let input = fs::read(directory.join("stdin")).expect(program);
        let output = fs::read_to_string(directory.join("stdout")).expect(program);
        (input, output.lines().map(str::to_string).collect())
    }

    fn assert_lines(answers: &[String], expected: &[String]) {
        for (line, (answer, expected)) in answers.iter().zip(expected).enumerate() {
            assert_eq!(answer, expected, "line {}", line + 1);
        }
        assert_eq!(answers.len(), expected.len());
    }

    #[test]
    fn stored_answers() {
        let (input, expected) = stored("cell");
        let answers: Vec<String> = cell(&input).into_iter().map(|(text, _)| text).collect();
        assert_lines(&answers, &expected);
    }

    #[test]
    fn stored_positions() {
        let (input, expected) = stored("positions");
        let with_position = |(text, position): (String, Option<usize>)| match position {
            Some(position) => format!("{text} @{position}"),
            None => text,
        };
        let answers: Vec<String> = cell(&input).into_iter().map(with_position).collect();
        assert_lines(&answers, &expected);
    }

    fn decimal<T: FromStr>(word: &str) -> T {
        word.parse().ok().expect(word)
    }

    /// A buffer in hexadecimal, "-" for an empty one.
    fn buffer(word: &str) -> Vec<u8> {
        match word {
            "-" => Vec::new(),
            _ => slice_of(word.as_bytes()).expect(word),
        }
    }

    fn port<'a>(buffer: &'a [u8], waiting: &str) -> Port<'a> {
        Port { buffer, waiting: decimal(waiting) }
    }

    fn name(port: u8) -> &'static str {
        match port {
            A => "A",
            B => "B",
            _ => "-",
        }
    }

    /// Each byte behind a space.
    fn spaced(bytes: &[u8]) -> String {
        bytes.iter().map(|byte| format!(" {byte:02X}")).collect()
    }

    /// The answer of the program `picks` to one command, but for the turn behind it.
    fn answered(tables: &mut Tables, line: &str) -> String {
        let words: Vec<&str> = line.split(' ').collect();
        match words[..] {
            ["next", a, waiting_a, b, waiting_b, room] => {
                let (a, b) = (buffer(a), buffer(b));
                let mut area = vec![0xAA; decimal(room)];
                let Next { port, sent } = serve_next(tables, port(&a, waiting_a), port(&b, waiting_b), &mut area);
                let reply = match sent.length {
                    0 => ", no reply".to_string(),
                    length => spaced(&area[..length]),
                };
                let untouched = area.iter().rev().take_while(|&&byte| byte == 0xAA).count();
                format!("{}: {:02}{reply}, {untouched} untouched @{}", name(port), sent.number, sent.position)
            }
            ["choose", a, waiting_a, b, waiting_b] => {
                let (a, b) = (buffer(a), buffer(b));
                let choice = choose(&mut tables.turn, port(&a, waiting_a), port(&b, waiting_b));
                let picked = if choice.port == B { b } else { a };
                format!("{}: {:02}{}", name(choice.port), choice.number, spaced(&picked[..choice.length]))
            }
            ["turn", turn] => {
                tables.turn = decimal(turn);
                "set".to_string()
            }
            ["setup", first, second, third, fourth] => {
                format!("setup: {:02}", setup(tables, &[first, second, third, fourth].map(decimal)))
            }
            ["input", slot, port, byte] => {
                format!("input: {:02}", input(tables, decimal(slot), decimal(port), decimal(byte)))
            }
            ["count", slot] => {
                let Count { number, count } = outputs_on(tables, decimal(slot));
                format!("count: {number:02} {count}")
            }
            _ => panic!("no command: {line}"),
        }
    }

    #[test]
    fn stored_picks() {
        let (input, expected) = stored("picks");
        let mut tables = new_box();
        let answer = |line: &str| format!("{} turn {}", answered(&mut tables, line), tables.turn);
        let answers: Vec<String> = String::from_utf8(input).expect("picks").lines().map(answer).collect();
        assert_lines(&answers, &expected);
    }

    /// What waits at the two ports in the tests below.
    const FOR_A: &[u8] = b"\x021 LNT 5\x03\x51";
    const FOR_B: &[u8] = b"\x022 SND 63 0042\x03\x4B";

    /// Picks with these waiting lengths. Returns the port and the number.
    fn pick_within(tables: &mut Tables, waiting_a: usize, waiting_b: usize, room: usize) -> (u8, u8) {
        let (a, b) = (Port { buffer: FOR_A, waiting: waiting_a }, Port { buffer: FOR_B, waiting: waiting_b });
        let (mut expected, mut replied, mut area) = (tables.clone(), [0xAA; REPLY_ROOM], [0xAA; REPLY_ROOM]);
        let Choice { number, port, length } = choose(&mut expected.turn, a, b);
        let sent = match port {
            A => serve(&mut expected, &FOR_A[..length], &mut replied[..room]),
            B => serve(&mut expected, &FOR_B[..length], &mut replied[..room]),
            _ => Sent { number, length: 0, position: 0 },
        };
        assert_eq!(serve_next(tables, a, b, &mut area[..room]), Next { port, sent });
        assert!(*tables == expected && area == replied);
        assert_eq!(length, [0, waiting_a, waiting_b][usize::from(port)]);
        (port, sent.number)
    }

    fn pick(tables: &mut Tables, waiting_a: usize, waiting_b: usize) -> (u8, u8) {
        pick_within(tables, waiting_a, waiting_b, REPLY_ROOM)
    }

    fn pick_both(tables: &mut Tables) -> (u8, u8) {
        pick(tables, FOR_A.len(), FOR_B.len())
    }

    #[test]
    fn both_wait() {
        let mut tables = new_box();
        for _ in 0..5 {
            assert_eq!(pick_both(&mut tables), (A, 0));
            assert_eq!(pick_both(&mut tables), (B, 0));
        }
        assert_eq!(tables.registers[1][63], 42);
    }

    #[test]
    fn one_waits() {
        let mut tables = new_box();
        for _ in 0..3 {
            assert_eq!(pick(&mut tables, 0, FOR_B.len()), (B, 0));
        }
        assert_eq!(pick_both(&mut tables), (A, 0));
        for _ in 0..3 {
            assert_eq!(pick(&mut tables, FOR_A.len(), 0), (A, 0));
        }
        assert_eq!(pick_both(&mut tables), (B, 0));
    }

    #[test]
    fn waiting_lengths() {
        let (all_a, all_b) = (FOR_A.len(), FOR_B.len());
        for beyond in [1, 2, 256, 1 << 32, usize::MAX - all_b] {
            let mut tables = new_box();
            assert_eq!(pick(&mut tables, all_a + beyond, all_b), (B, 0));
            assert_eq!(pick(&mut tables, all_a, all_b + beyond), (A, 0));
            assert_eq!(pick(&mut tables, all_a + beyond, all_b + beyond), (0, IDLE));
            assert_eq!(pick(&mut tables, all_a + beyond, 0), (0, IDLE));
            assert_eq!(pick(&mut tables, 0, all_b + beyond), (0, IDLE));
        }
        let mut tables = new_box();
        assert_eq!(pick(&mut tables, 1, 1), (A, LENGTH));
        assert_eq!(pick(&mut tables, all_a - 1, all_b - 1), (B, END));
        assert_eq!(pick(&mut tables, all_a, all_b), (A, 0));
    }

    /// The waiting slice is the start of its buffer, and what stands behind it is no part of it.
    #[test]
    fn longer_buffers() {
        let mut tables = new_box();
        let buffer = [FOR_A, FOR_B].concat();
        let (a, b) = (Port { buffer: &buffer, waiting: FOR_A.len() }, Port::full(&buffer[FOR_A.len()..]));
        for (port, length) in [(A, FOR_A.len()), (B, FOR_B.len())] {
            assert_eq!(choose(&mut tables.turn.clone(), a, b), Choice { number: 0, port, length });
            let next = serve_next(&mut tables, a, b, &mut [0; REPLY_ROOM]);
            assert_eq!((next.port, next.sent.number), (port, 0));
        }
    }

    #[test]
    fn idle_uses_no_turn() {
        for turn in 0..=255 {
            let mut tables = Tables { turn, ..new_box() };
            assert_eq!(pick(&mut tables, 0, 0), (0, IDLE));
            assert!(tables == Tables { turn, ..new_box() });
        }
        let mut tables = new_box();
        for picked in [A, B, A, B] {
            assert_eq!(pick_both(&mut tables), (picked, 0));
            assert_eq!(pick(&mut tables, 0, 0), (0, IDLE));
        }
    }

    /// A slice that is refused has used the turn, and with nothing waiting no other check is made.
    #[test]
    fn idle_before_room() {
        for room in [0, 1, REPLY_ROOM - 1] {
            let mut tables = new_box();
            assert_eq!(pick_within(&mut tables, 0, 0, room), (0, IDLE));
            assert_eq!(tables.turn, 0);
            for port in [A, B, A] {
                assert_eq!(pick_within(&mut tables, FOR_A.len(), FOR_B.len(), room), (port, ROOM));
                assert_eq!(tables.turn, port);
            }
        }
        let mut tables = new_box();
        tables.programs.pop();
        assert_eq!(pick(&mut tables, 0, 0), (0, IDLE));
        assert_eq!(pick_both(&mut tables), (A, ROOM));
        assert_eq!(pick_both(&mut tables), (B, ROOM));
    }

    #[test]
    fn every_turn() {
        for turn in 0..=255 {
            let pick = |waiting_a, waiting_b| {
                let mut tables = Tables { turn, ..new_box() };
                let (port, number) = pick(&mut tables, waiting_a, waiting_b);
                assert_eq!((number, tables.turn), (0, port));
                port
            };
            assert_eq!(pick(FOR_A.len(), FOR_B.len()), if turn == A { B } else { A });
            assert_eq!(pick(FOR_A.len(), 0), A);
            assert_eq!(pick(0, FOR_B.len()), B);
        }
    }

    /// All lists of six picks with either port waiting or not: one that waits at two picks in a row is served by one of
    /// them.
    #[test]
    fn at_most_one_service_of_the_other() {
        let waits = |list: usize, port: u8| list >> (port - 1) & 1 == 1;
        for (turn, list) in [0, A, B, 3, 255].into_iter().flat_map(|turn| (0..1 << 12).map(move |list| (turn, list))) {
            let (mut turn, mut last) = (turn, None);
            for list in (0..6).map(|index| list >> (2 * index)) {
                let [a, b] = [A, B].map(|port| Port::full(if waits(list, port) { b"x" } else { b"" }));
                let picked = choose(&mut turn, a, b).port;
                assert_eq!(picked == 0, a.waiting == 0 && b.waiting == 0);
                for port in [A, B].into_iter().filter(|&port| waits(list, port)) {
                    let waited = last.is_some_and(|(before, picked)| waits(before, port) && picked != port);
                    assert!(picked == port || !waited);
                }
                last = Some((list, picked));
            }
        }
    }

    #[test]
    fn setup_and_turn() {
        for (want, length, number) in
            [([1, 2, 3, 4], PROGRAMS, 0), ([1, 2, 3, 100], PROGRAMS, SETUP), ([1, 2, 3, 4], PROGRAMS - 1, ROOM)]
        {
            for turn in 0..=255 {
                let mut tables = Tables { turn, programs: vec![0; length], ..Tables::new() };
                assert_eq!((setup(&mut tables, &want), tables.turn), (number, 0));
            }
            let mut tables = new_box();
            assert_eq!(pick_both(&mut tables), (A, 0));
            tables.programs.truncate(length);
            assert_eq!(setup(&mut tables, &want), number);
            // A box without an arm takes A too.
            assert_eq!(pick_both(&mut tables).0, A);
        }
    }

    /// The refusal number and the position for a text within a frame, at a box with stations 1 and 42.
    fn wrong_at(text: &[u8]) -> (u8, usize) {
        let mut tables = Tables::new();
        assert_eq!(setup(&mut tables, &[1, 0, 42, 0]), 0);
        let sent = serve(&mut tables, &frame(text), &mut [0; REPLY_ROOM]);
        (sent.number, sent.position)
    }

    #[test]
    fn positions() {
        let cases: [(&[u8], u8, usize); 61] = [
            (b"1 LNT 5", 0, 0),
            (b"9 LNT x", ABSENT, 0),
            // The first stray byte, wherever it stands.
            (b"\x011 LNT", STRAY, 1),
            (b"1 L\x7FT \x80", STRAY, 4),
            (b"1 LNT 5\x03", STRAY, 8),
            (b"LNT5", STATION, 1),
            (b" LNT 5", STATION, 1),
            (b"100 LNT 5", STATION, 1),
            (b"1 lnt 5", COMMAND, 3),
            (b"42 lnt x", COMMAND, 4),
            (b"1 LNTB", COMMAND, 3),
            (b"1  LNT 5", COMMAND, 3),
            (b"42 ", COMMAND, 4),
            (b"42  ", COMMAND, 4),
            // Fields lack, or stand empty.
            (b"1 LNT", SHAPE, 6),
            (b"1 LNT ", SHAPE, 7),
            (b"1 LNT  ", SHAPE, 7),
            (b"1 LNT  5", SHAPE, 7),
            (b"1 SNT 5", SHAPE, 8),
            (b"1 SNT 5 ", SHAPE, 9),
            (b"1 SNL 5 1 2 3", SHAPE, 14),
            (b"1 SNL 5 1 2 3 ", SHAPE, 15),
            (b"1 SNL 5 1  3 4", SHAPE, 11),
            // Surplus fields.
            (b"1 LNT 5 6", SHAPE, 9),
            (b"1 LNT 5 ", SHAPE, 9),
            (b"1 LNT 5  ", SHAPE, 9),
            (b"1 LNT 16 x y", SHAPE, 10),
            (b"1 SNL 5 1 2 3 4 5", SHAPE, 17),
            // A malformed field among those expected goes before the count.
            (b"1 LNT x 6", SHAPE, 7),
            (b"1 SNT 5 1.x 6", SHAPE, 9),
            (b"1 SNT x", SHAPE, 7),
            (b"1 SNL 5 1 -", SHAPE, 11),
            (b"1 SNL 500 1 2.345 + 4 5", SHAPE, 13),
            (b"1 SNOB 999 2 2", SHAPE, 14),
            (b"1 SNOD 32 00256", SHAPE, 11),
            (b"1 SND 5 -1", SHAPE, 9),
            (b"42 SNL 5 -0 1.0 00001 4", SHAPE, 17),
            (b"1 LNT 16", NUMBER, 7),
            (b"42 SNOD 32 256", NUMBER, 9),
            (b"1 SNBB 255 1", NUMBER, 8),
            (b"1 SNT 0005 -0.01", VALUE, 12),
            (b"42 SNBB 256 2", VALUE, 13),
            // Steps: 1 to 5 texts of 1 to 8 characters.
            (b"1 SNA 5 MOV", 0, 0),
            (b"1 SNA 5 12345678 1 2 3 4", 0, 0),
            (b"1 SNA", SHAPE, 6),
            (b"1 SNA 5", SHAPE, 8),
            (b"1 SNA 5 ", SHAPE, 9),
            (b"1 SNA x", SHAPE, 7),
            (b"1 SNA 00005 MOV", SHAPE, 7),
            (b"1 SNA 5 MOV ", SHAPE, 13),
            (b"1 SNA 5 MOV  1", SHAPE, 13),
            (b"1 SNA 5 123456789", SHAPE, 9),
            (b"1 SNA 256 MOV 123456789", SHAPE, 15),
            (b"42 SNA 5 MOV 1 2 3 4 5", SHAPE, 22),
            (b"42 SNA 5 MOV 1 2 3 4 ", SHAPE, 22),
            (b"42 SNA 5 MOV 1 2 3 123456789 5", SHAPE, 20),
            (b"42 SNA 256 MOV", NUMBER, 8),
            (b"1 LNA", SHAPE, 6),
            (b"1 LNA 5 6", SHAPE, 9),
            (b"1 LNA 256", NUMBER, 7),
            (b"1 LNA 255", EMPTY, 0),
        ];
        for (text, number, position) in cases {
            assert_eq!(wrong_at(text), (number, position), "{}", String::from_utf8_lossy(text));
        }
    }

    #[test]
    fn no_position() {
        let mut tables = new_box();
        let mut area = [0; REPLY_ROOM];
        let slice = b"\x021 LNT 5\x03\x51";
        for (slice, room, number) in [
            (&slice[..], REPLY_ROOM - 1, ROOM),
            (&slice[..5], REPLY_ROOM, LENGTH),
            (&[], REPLY_ROOM, LENGTH),
            (&[STX; 256], REPLY_ROOM, LENGTH),
            (&slice[1..], REPLY_ROOM, START),
            (&slice[..9], REPLY_ROOM, END),
            (b"\x021 LNT 5\x03\x50", REPLY_ROOM, LRC),
        ] {
            let sent = serve(&mut tables, slice, &mut area[..room]);
            assert_eq!(sent, Sent { number, length: 0, position: 0 });
        }
    }

    #[test]
    fn setup_and_input() {
        let mut tables = Tables::new();
        assert_eq!(setup(&mut tables, &[1, 0, 0, 99]), 0);
        assert_eq!(tables.stations, [1, 0, 0, 99]);
        assert_eq!(input(&mut tables, 3, 31, 200), 0);
        assert_eq!(tables.inputs[3][31], 200);
        for (slot, port) in [(1, 0), (4, 0), (0, 32), (0, 256)] {
            let before = tables.clone();
            assert_eq!(input(&mut tables, slot, port, 1), INPUT);
            assert!(tables == before);
        }
        for want in [[1, 2, 3, 100], [5, 0, 5, 0], [257, 2, 3, 4]] {
            assert_eq!(setup(&mut tables, &want), SETUP);
            assert!(tables == Tables::new());
        }
    }

    /// The refusal number and the text of the reply.
    fn replied(tables: &mut Tables, text: &[u8]) -> (u8, Vec<u8>) {
        let mut area = [0; REPLY_ROOM];
        let sent = serve(tables, &frame(text), &mut area);
        (sent.number, area[1..sent.length - 2].to_vec())
    }

    #[test]
    fn steps() {
        let mut tables = Tables::new();
        assert_eq!(setup(&mut tables, &[1, 0, 42, 0]), 0);
        let cases: [(&[u8], u8, &[u8]); 12] = [
            (b"1 LNA 255", EMPTY, b"1 E16"),
            (b"1 LNA 256", NUMBER, b"1 E11"),
            (b"1 SNA 256 MOV", NUMBER, b"1 11"),
            (b"42 SNA 0255 !!!!!!!! ~~~~~~~~ 1 22 12345678", 0, b"42 00"),
            (b"42 LNA 0255", 0, b"42 255 !!!!!!!! ~~~~~~~~ 1 22 12345678"),
            (b"42 SNA 255 x y 123456789", SHAPE, b"42 10"),
            (b"42 LNA 255", 0, b"42 255 !!!!!!!! ~~~~~~~~ 1 22 12345678"),
            (b"42 SNA 255 x y", 0, b"42 00"),
            (b"42 LNA 255", 0, b"42 255 x y"),
            (b"42 LNA 254", EMPTY, b"42 E16"),
            (b"1 LNA 255", EMPTY, b"1 E16"),
            (b"1 SNA 0 E16", 0, b"1 00"),
        ];
        for (text, number, reply) in cases {
            let wanted = (number, reply.to_vec());
            assert_eq!(replied(&mut tables, text), wanted, "{}", String::from_utf8_lossy(text));
        }
        let mut programs = vec![0; PROGRAMS];
        programs[..3].copy_from_slice(b"E16");
        programs[30_680] = b'x';
        programs[30_688] = b'y';
        assert!(tables.programs == programs);
    }

    #[test]
    fn steps_of_other_memory() {
        let mut tables = Tables::new();
        assert_eq!(setup(&mut tables, &[1, 0, 42, 0]), 0);
        let cases: [(&[u8; STEP], u8, &[u8]); 6] = [
            (b"MOV\0\0\0\0\0P1\0\0\0\0\0\0\0\0\0\0\0\0\0\0P2\0\0\0\0\0\0P3\0\0\0\0\0\0", 0, b"1 7 MOV P1"),
            (b"\0MOV\0\0\0\0P1\0\0\0\0\0\0P2\0\0\0\0\0\0P3\0\0\0\0\0\0P4\0\0\0\0\0\0", EMPTY, b"1 E16"),
            (b" MOV    P1      P2      P3      P4      ", EMPTY, b"1 E16"),
            (b"1234567812345678123456781234567812345678", 0, b"1 7 12345678 12345678 12345678 12345678 12345678"),
            (b"!~ 45678!~\x7F45678!~\x8045678!~\xFF45678!~\x0345678", 0, b"1 7 !~ !~ !~ !~ !~"),
            (b"1 345678\x7F2345678123456781234567812345678", 0, b"1 7 1"),
        ];
        for (step, number, reply) in cases {
            tables.programs[7 * STEP..][..STEP].copy_from_slice(step);
            let before = tables.clone();
            assert_eq!(replied(&mut tables, b"1 LNA 7"), (number, reply.to_vec()));
            assert!(tables == before);
        }
    }

    /// A box with stations 1 and 42, where all outputs of station 1 are on.
    fn all_on() -> Tables {
        let mut tables = Tables::new();
        assert_eq!(setup(&mut tables, &[1, 0, 42, 0]), 0);
        for port in 0..32 {
            let slice = frame(format!("1 SNOD {port} 255").as_bytes());
            assert_eq!(serve(&mut tables, &slice, &mut [0; REPLY_ROOM]).number, 0);
        }
        tables
    }

    /// The number is kept, and asking gives it.
    fn assert_on(tables: &Tables, slot: usize, count: u16, text: &str) {
        assert_eq!(tables.on[slot], count, "{text}");
        assert_eq!(outputs_on(tables, slot), Count { number: 0, count }, "{text}");
    }

    #[test]
    fn outputs_on_after_calls() {
        let mut tables = all_on();
        assert_on(&tables, 0, 256, "all on");
        assert_on(&tables, 2, 0, "all on");
        // The refusal number, and the outputs of stations 1 and 42 that are then on.
        let cases = [
            ("1 SNOB 255 0", 0, 255, 0),
            ("1 SNOB 255 0", 0, 255, 0),
            ("1 SNOD 31 127", 0, 255, 0),
            ("1 SNOD 0 255", 0, 255, 0),
            ("1 SNOB 255 1", 0, 256, 0),
            ("1 SNOB 255 1", 0, 256, 0),
            ("1 SNOD 7 0", 0, 248, 0),
            ("1 SNOD 7 165", 0, 252, 0),
            ("1 SNOD 7 90", 0, 252, 0),
            ("1 SNOB 57 0", 0, 251, 0),
            ("1 SNOB 56 1", 0, 252, 0),
            // Nothing else moves the number.
            ("1 LNOD 7", 0, 252, 0),
            ("1 LNOB 56", 0, 252, 0),
            ("1 SNBD 7 255", 0, 252, 0),
            ("1 SNBB 256 1", 0, 252, 0),
            ("1 SNBB 256 0", 0, 252, 0),
            ("1 SND 0 9999", 0, 252, 0),
            ("9 SNOD 0 0", ABSENT, 252, 0),
            ("1 SNOX 0 0", COMMAND, 252, 0),
            ("1 SNOD 0 0 0", SHAPE, 252, 0),
            ("1 SNOB 256 0", NUMBER, 252, 0),
            ("1 SNOD 32 0", NUMBER, 252, 0),
            ("1 SNOB 0 2", VALUE, 252, 0),
            ("1 SNOD 0 256", VALUE, 252, 0),
            ("42 SNOB 8 1", 0, 252, 1),
            ("42 SNOD 1 3", 0, 252, 2),
        ];
        for (text, number, first, third) in cases {
            let sent = serve(&mut tables, &frame(text.as_bytes()), &mut [0; REPLY_ROOM]);
            assert_eq!(sent.number, number, "{text}");
            assert_on(&tables, 0, first, text);
            assert_on(&tables, 2, third, text);
        }
        assert_eq!(input(&mut tables, 0, 7, 255), 0);
        assert_on(&tables, 0, 252, "input");
    }

    #[test]
    fn outputs_on_refused() {
        let refused = Count { number: INPUT, count: 0 };
        let mut tables = all_on();
        for slot in [1, 3, 4, 5, 256, 1 << 32, usize::MAX] {
            assert_eq!(outputs_on(&tables, slot), refused, "{slot}");
        }
        assert_eq!(setup(&mut tables, &[1, 1, 0, 0]), SETUP);
        for slot in 0..4 {
            assert_eq!(outputs_on(&tables, slot), refused, "{slot}");
        }
        let mut tables = all_on();
        assert_eq!(setup(&mut tables, &[1, 0, 42, 0]), 0);
        assert_on(&tables, 0, 0, "set up again");
    }
}
