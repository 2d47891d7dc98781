//! A reader of replies that makes doubles of their numbers, written from documents 01 and 02 alone, but for the form of
//! a typed request and of the answer, which is that of include/llamput.h.

use std::ops::RangeInclusive;

use crate::reference::{characters, hundredths_text, position, read_frame, Fields};
use crate::reference::{COMMAND, ETX, NUMBER, REPLY, REPLY_ROOM, STATION, TEXT, VALUE};

/// What a reply carries.
pub const NOTHING: u8 = 0;
pub const SECONDS: u8 = 1;
pub const MILLIMETRES: u8 = 2;
pub const COUNT: u8 = 3;
pub const STATUS: u8 = 4;
pub const STEP: u8 = 5;

/// The request that a reply should answer. Only an SN has data: values, in hundredths for a timer and a row, or for SNA
/// texts, which have their first character in the lowest byte and zeros behind the last.
#[derive(Clone, Copy, Debug)]
pub struct Asked<'a> {
    pub station: u8,
    pub name: &'a [u8],
    pub number: u16,
    pub values: [i32; 4],
    pub texts: [u64; 5],
}

impl Asked<'_> {
    pub fn is_store(&self) -> bool {
        self.name.first() == Some(&b'S')
    }
}

/// What reading a reply returns: the refusal number, or 0, the status that the reply carries, or 0, and the offset
/// where a refused slice is wrong, or 0.
#[derive(Clone, Copy, Debug, PartialEq, Eq)]
pub struct Answer {
    pub number: u8,
    pub status: u8,
    pub position: usize,
}

/// What reading a reply writes: the kind, the doubles and the texts of a step, each 0 where there is none.
pub struct Lent<'a> {
    pub kind: &'a mut u8,
    pub doubles: &'a mut [f64; 4],
    pub step: &'a mut [u64; 5],
}

/// The data of a command.
#[derive(Clone, Copy)]
pub enum Data {
    Timer,
    Row,
    /// A register, a signal or a port: from 0 to this number.
    Count {
        greatest: i32,
    },
    Step,
}

impl Data {
    /// The range of each value; a step has none, and its values are not looked at.
    pub fn range(self) -> RangeInclusive<i32> {
        match self {
            Data::Timer => 0..=999,
            Data::Row => -999_999..=999_999,
            Data::Count { greatest } => 0..=greatest,
            Data::Step => i32::MIN..=i32::MAX,
        }
    }
}

/// The numbers that a command takes, and its data; nothing for a name that is no command's.
pub fn command(name: &[u8]) -> Option<(RangeInclusive<u16>, Data)> {
    Some(match name {
        b"LNT" | b"SNT" => (0..=15, Data::Timer),
        b"LND" | b"SND" => (0..=63, Data::Count { greatest: 9999 }),
        b"LNL" | b"SNL" => (0..=99, Data::Row),
        b"LNIB" | b"LNOB" | b"SNOB" => (0..=255, Data::Count { greatest: 1 }),
        b"LNID" | b"LNOD" | b"SNOD" => (0..=31, Data::Count { greatest: 255 }),
        b"LNBB" | b"SNBB" => (256..=383, Data::Count { greatest: 1 }),
        b"LNBD" | b"SNBD" => (0..=15, Data::Count { greatest: 255 }),
        b"LNA" | b"SNA" => (0..=255, Data::Step),
        _ => return None,
    })
}

/// Reads a slice as the reply to a request. A decimal reader makes the doubles of hundredths.
#[inline(never)]
pub fn read(slice: &[u8], asked: &Asked, lent: Lent) -> Answer {
    read_by(slice, asked, lent, decimal)
}

/// Reads with the division by 100 that request E10 names, to take the time of it.
#[inline(never)]
pub fn read_by_division(slice: &[u8], asked: &Asked, lent: Lent) -> Answer {
    read_by(slice, asked, lent, divided)
}

#[inline(always)]
fn read_by(slice: &[u8], asked: &Asked, lent: Lent, double: impl Fn(i32) -> f64) -> Answer {
    let (number, position, carried) = match carried(slice, asked, double) {
        Ok(carried) => (0, 0, carried),
        Err((number, position)) => (number, position, NONE),
    };
    *lent.kind = carried.kind;
    *lent.doubles = carried.doubles;
    *lent.step = carried.step;
    Answer { number, status: carried.status, position }
}

/// The double nearest to the text of the hundredths. That of 0 has no sign.
fn decimal(hundredths: i32) -> f64 {
    hundredths_text(hundredths, &mut [0; REPLY_ROOM]).parse().expect("a decimal number")
}

fn divided(hundredths: i32) -> f64 {
    f64::from(hundredths) / 100.0
}

/// Makes doubles of data by their kind; for a kind without doubles all of them are 0.
pub fn convert(kind: u8, values: &[i32; 4]) -> [f64; 4] {
    match kind {
        SECONDS => [divided(values[0]), 0.0, 0.0, 0.0],
        MILLIMETRES => values.map(divided),
        COUNT => [f64::from(values[0]), 0.0, 0.0, 0.0],
        _ => [0.0; 4],
    }
}

/// What a reply carries; each that there is none of is 0.
struct Carried {
    kind: u8,
    status: u8,
    doubles: [f64; 4],
    step: [u64; 5],
}

const NONE: Carried = Carried { kind: NOTHING, status: 0, doubles: [0.0; 4], step: [0; 5] };

/// Checks the request, then the slice. A refusal comes with its position.
#[inline(always)]
fn carried(slice: &[u8], asked: &Asked, double: impl Fn(i32) -> f64) -> Result<Carried, (u8, usize)> {
    let data = judge(asked).map_err(|number| (number, 0))?;
    let (station, body) = read_frame(slice).map_err(|number| (number, position(slice, number)))?;
    if station != asked.station {
        return Err((REPLY, 0));
    }
    if let Some(status) = status(body, asked.is_store()) {
        return Ok(Carried { kind: STATUS, status, ..NONE });
    }
    if asked.is_store() {
        return Err((REPLY, 0));
    }
    read_data(Fields::of_body(slice), data, asked.number, double).map_err(|_| (REPLY, 0))
}

/// Checks 7, 9, 11 and 12 of the request. Returns what its data are.
#[inline(always)]
fn judge(asked: &Asked) -> Result<Data, u8> {
    if !(1..=99).contains(&asked.station) {
        return Err(STATION);
    }
    let (numbers, data) = command(asked.name).ok_or(COMMAND)?;
    if !numbers.contains(&asked.number) {
        return Err(NUMBER);
    }
    if asked.is_store() && !is_data(data, asked) {
        return Err(VALUE);
    }
    Ok(data)
}

/// Whether the data of an SN are such as its command stores.
fn is_data(data: Data, asked: &Asked) -> bool {
    let range = data.range();
    match data {
        Data::Timer | Data::Count { .. } => range.contains(&asked.values[0]),
        Data::Row => asked.values.iter().all(|value| range.contains(value)),
        Data::Step => is_step(&asked.texts),
    }
}

/// A command, then data without a gap.
fn is_step(texts: &[u64; 5]) -> bool {
    let count = texts.iter().take_while(|&&text| text != 0).count();
    let (filled, rest) = texts.split_at(count);
    count > 0 && filled.iter().all(|&text| is_text(text)) && rest.iter().all(|&text| text == 0)
}

/// Characters, then zeros.
fn is_text(text: u64) -> bool {
    let bytes = text.to_le_bytes();
    let length = characters(&bytes);
    length > 0 && bytes[length..].iter().all(|&byte| byte == 0)
}

/// The status in a body, with the ETX that ends it: two digits for an SN, and behind "E" for an LN.
#[inline(always)]
fn status(body: &[u8], is_store: bool) -> Option<u8> {
    match (body, is_store) {
        ([tens @ b'0'..=b'9', units @ b'0'..=b'9', ETX], true)
        | ([b'E', tens @ b'0'..=b'9', units @ b'0'..=b'9', ETX], false) => Some((tens - b'0') * 10 + (units - b'0')),
        _ => None,
    }
}

/// Reads the data of an LN reply. All refusals become REPLY.
#[inline(always)]
fn read_data(mut fields: Fields, data: Data, asked: u16, double: impl Fn(i32) -> f64) -> Result<Carried, u8> {
    let mut carried = NONE;
    match data {
        Data::Timer => {
            let value = fields.hundredths()?;
            if !data.range().contains(&value) {
                return Err(VALUE);
            }
            carried.kind = SECONDS;
            carried.doubles[0] = double(value);
        }
        Data::Row => {
            // Four digits and two decimals stay within the range.
            carried.kind = MILLIMETRES;
            for place in &mut carried.doubles {
                *place = double(fields.hundredths()?);
            }
        }
        Data::Count { .. } => {
            let value = i32::from(fields.whole()?);
            if !data.range().contains(&value) {
                return Err(VALUE);
            }
            carried.kind = COUNT;
            carried.doubles[0] = value as f64;
        }
        Data::Step => {
            if fields.number()? != usize::from(asked) {
                return Err(NUMBER);
            }
            carried.kind = STEP;
            carried.step = packed(&fields.step()?);
        }
    }
    fields.end()?;
    Ok(carried)
}

/// The texts of a step as numbers, the first character of each lowest.
fn packed(step: &[u8; 5 * TEXT]) -> [u64; 5] {
    let mut texts = [0; 5];
    for (text, bytes) in texts.iter_mut().zip(step.as_chunks::<TEXT>().0) {
        *text = u64::from_le_bytes(*bytes);
    }
    texts
}

#[cfg(test)]
mod tests {
    use super::*;
    use crate::asked::{packed as text, NAMES, NO_NAMES};
    use crate::frames::frame;
    use crate::reference::{END, LENGTH, LRC, START, STRAY};

    /// What reading gives, doubles as their bits.
    #[derive(Clone, Copy, Debug, PartialEq, Eq)]
    struct Reading {
        answer: Answer,
        kind: u8,
        bits: [u64; 4],
        step: [u64; 5],
    }

    /// What a refusal gives.
    fn refused(number: u8, position: usize) -> Reading {
        Reading { answer: Answer { number, status: 0, position }, kind: NOTHING, bits: [0; 4], step: [0; 5] }
    }

    fn carrying(kind: u8, bits: [u64; 4]) -> Reading {
        Reading { kind, bits, ..refused(0, 0) }
    }

    fn carrying_status(status: u8) -> Reading {
        Reading { answer: Answer { number: 0, status, position: 0 }, kind: STATUS, ..refused(0, 0) }
    }

    fn carrying_step(step: [&[u8]; 5]) -> Reading {
        Reading { kind: STEP, step: step.map(text), ..refused(0, 0) }
    }

    fn reading_by(read: fn(&[u8], &Asked, Lent) -> Answer, slice: &[u8], asked: &Asked) -> Reading {
        let (mut kind, mut doubles, mut step) = (0xAA, [f64::NAN; 4], [u64::MAX; 5]);
        let answer = read(slice, asked, Lent { kind: &mut kind, doubles: &mut doubles, step: &mut step });
        Reading { answer, kind, bits: doubles.map(f64::to_bits), step }
    }

    fn reading(slice: &[u8], asked: &Asked) -> Reading {
        let reading = reading_by(read, slice, asked);
        assert_eq!(reading_by(read_by_division, slice, asked), reading);
        reading
    }

    /// A request for station 42 with the greatest number and, for an SN, data that it stores.
    fn request(name: &[u8]) -> Asked<'_> {
        let number = command(name).map_or(0, |(numbers, _)| *numbers.end());
        let texts = [&b"MOV"[..], b"!", b"~", b"", b""].map(text);
        Asked { station: 42, name, number, values: [1, -999_999, 999_999, 0], texts }
    }

    fn reading_of(name: &[u8], body: &str) -> Reading {
        reading(&frame(format!("42 {body}").as_bytes()), &request(name))
    }

    /// The patterns of the note on doubles: a text, its hundredths and the bits of the double.
    const HUNDREDTHS: [(&str, i32, u64); 26] = [
        ("0.00", 0, 0x0000000000000000),
        ("-0.00", 0, 0x0000000000000000),
        ("-0", 0, 0x0000000000000000),
        ("0.01", 1, 0x3F847AE147AE147B),
        ("-0.01", -1, 0xBF847AE147AE147B),
        ("0.05", 5, 0x3FA999999999999A),
        ("-0.05", -5, 0xBFA999999999999A),
        ("0.07", 7, 0x3FB1EB851EB851EC),
        ("0.1", 10, 0x3FB999999999999A),
        ("0.25", 25, 0x3FD0000000000000),
        ("0.35", 35, 0x3FD6666666666666),
        ("0.50", 50, 0x3FE0000000000000),
        ("1.00", 100, 0x3FF0000000000000),
        ("-1", -100, 0xBFF0000000000000),
        ("1.25", 125, 0x3FF4000000000000),
        ("9.99", 999, 0x4023FAE147AE147B),
        ("12.5", 1250, 0x4029000000000000),
        ("-12.50", -1250, 0xC029000000000000),
        ("100", 10_000, 0x4059000000000000),
        ("123.45", 12_345, 0x405EDCCCCCCCCCCD),
        ("9999.00", 999_900, 0x40C3878000000000),
        ("9999.75", 999_975, 0x40C387E000000000),
        ("9999.99", 999_999, 0x40C387FEB851EB85),
        ("-9999.99", -999_999, 0xC0C387FEB851EB85),
        ("0.99", 99, 0x3FEFAE147AE147AE),
        ("1.14", 114, 0x3FF23D70A3D70A3D),
    ];

    /// The same of counts.
    const COUNTS: [(&str, i32, u64); 6] = [
        ("0", 0, 0x0000000000000000),
        ("1", 1, 0x3FF0000000000000),
        ("0042", 42, 0x4045000000000000),
        ("128", 128, 0x4060000000000000),
        ("255", 255, 0x406FE00000000000),
        ("9999", 9999, 0x40C3878000000000),
    ];

    #[test]
    fn note_of_hundredths() {
        for (text, hundredths, bits) in HUNDREDTHS {
            for place in 0..4 {
                let (mut fields, mut row, mut values) = (["0.00"; 4], [0; 4], [0; 4]);
                (fields[place], row[place], values[place]) = (text, bits, hundredths);
                assert_eq!(reading_of(b"LNL", &fields.join(" ")), carrying(MILLIMETRES, row), "{text}");
                assert_eq!(convert(MILLIMETRES, &values).map(f64::to_bits), row, "{text}");
            }
            let timer = match hundredths {
                0..=999 => carrying(SECONDS, [bits, 0, 0, 0]),
                _ => refused(REPLY, 0),
            };
            assert_eq!(reading_of(b"LNT", text), timer, "{text}");
            assert_eq!(convert(SECONDS, &[hundredths, 1, 2, 3]).map(f64::to_bits), [bits, 0, 0, 0], "{text}");
        }
    }

    #[test]
    fn note_of_counts() {
        for (text, value, bits) in COUNTS {
            for name in NAMES {
                let (b'L', Some((_, Data::Count { greatest }))) = (name[0], command(name)) else { continue };
                let count = match value <= greatest {
                    true => carrying(COUNT, [bits, 0, 0, 0]),
                    false => refused(REPLY, 0),
                };
                for text in [text.to_string(), format!("{value}"), format!("{value:04}")] {
                    assert_eq!(reading_of(name, &text), count, "{text}");
                }
            }
            assert_eq!(convert(COUNT, &[value, 1, 2, 3]).map(f64::to_bits), [bits, 0, 0, 0], "{text}");
        }
    }

    #[test]
    fn decimal_reader_and_division() {
        for hundredths in -999_999..=999_999 {
            assert_eq!(decimal(hundredths).to_bits(), divided(hundredths).to_bits(), "{hundredths}");
        }
        for hundredths in [i32::MIN, -1_000_000, 1_000_000, 16_777_217, i32::MAX] {
            let read: f64 = format!("{hundredths}e-2").parse().expect("a decimal number");
            assert_eq!(read.to_bits(), divided(hundredths).to_bits(), "{hundredths}");
        }
    }

    /// Slices for the request of an SNT, with what each gets when the request is not refused.
    fn slices() -> [(Vec<u8>, Reading); 8] {
        let sound = frame(b"42 00");
        let with = |place: usize, byte: u8| {
            let mut slice = sound.clone();
            slice[place] = byte;
            slice
        };
        [
            (sound[..5].to_vec(), refused(LENGTH, 0)),
            (with(0, 0x03), refused(START, 0)),
            (with(6, 0x02), refused(END, 0)),
            (with(7, sound[7] ^ 1), refused(LRC, 0)),
            (frame(b"42 0\x7F\x80"), refused(STRAY, 5)),
            (frame(b"042 00"), refused(STATION, 1)),
            (frame(b"41 00"), refused(REPLY, 0)),
            (sound, carrying_status(0)),
        ]
    }

    type Spoil = fn(&mut Asked);

    /// Of several faults the first in the order of the checks is given: 7, 9, 11 and 12 of the request, then those of
    /// the slice.
    #[test]
    fn order_of_refusals() {
        let faults: [(u8, Spoil); 4] = [
            (STATION, |asked| asked.station = 0),
            (COMMAND, |asked| asked.name = b"SNX"),
            (NUMBER, |asked| asked.number = 16),
            (VALUE, |asked| asked.values[0] = 1000),
        ];
        for set in 0..16 {
            let mut asked = request(b"SNT");
            let made = || faults.iter().enumerate().filter(|(place, _)| set >> place & 1 == 1).map(|(_, fault)| fault);
            made().for_each(|(_, spoil)| spoil(&mut asked));
            let first = made().next().map(|&(number, _)| refused(number, 0));
            for (slice, of_slice) in slices() {
                assert_eq!(reading(&slice, &asked), first.unwrap_or(of_slice), "{asked:?}");
            }
        }
    }

    #[test]
    fn requests() {
        let number = |asked: Asked| reading(b"", &asked).answer.number;
        for name in NAMES {
            let asked = request(name);
            let (numbers, _) = command(name).expect("a command");
            for (station, wanted) in [(0, STATION), (1, LENGTH), (99, LENGTH), (100, STATION), (255, STATION)] {
                assert_eq!(number(Asked { station, ..asked }), wanted, "{asked:?}");
            }
            for other in 0..=u16::MAX {
                let wanted = if numbers.contains(&other) { LENGTH } else { NUMBER };
                assert_eq!(number(Asked { number: other, ..asked }), wanted, "{asked:?}");
            }
        }
        for name in NO_NAMES {
            assert_eq!(number(request(name)), COMMAND, "{name:?}");
        }
    }

    #[test]
    fn data() {
        let cases: [(&[u8], [i32; 4], u8); 17] = [
            (b"SNT", [0, -1, -1, -1], LENGTH),
            (b"SNT", [999, -1, -1, -1], LENGTH),
            (b"SNT", [-1, 0, 0, 0], VALUE),
            (b"SNT", [1000, 0, 0, 0], VALUE),
            (b"SND", [9999, -1, -1, -1], LENGTH),
            (b"SND", [10_000, 0, 0, 0], VALUE),
            (b"SNL", [-999_999, 999_999, -999_999, 999_999], LENGTH),
            (b"SNL", [1_000_000, 0, 0, 0], VALUE),
            (b"SNL", [0, -1_000_000, 0, 0], VALUE),
            (b"SNL", [0, 0, i32::MIN, 0], VALUE),
            (b"SNL", [0, 0, 0, i32::MAX], VALUE),
            (b"SNOB", [1, -1, -1, -1], LENGTH),
            (b"SNBB", [2, 0, 0, 0], VALUE),
            (b"SNOD", [255, -1, -1, -1], LENGTH),
            (b"SNBD", [256, 0, 0, 0], VALUE),
            (b"LNT", [-1, -1, -1, -1], LENGTH),
            (b"SNA", [-1, -1, -1, -1], LENGTH),
        ];
        for (name, values, number) in cases {
            assert_eq!(reading(b"", &Asked { values, ..request(name) }).answer.number, number, "{values:?}");
        }
    }

    #[test]
    fn texts() {
        let cases: [([&[u8]; 5], u8); 13] = [
            ([b"!", b"", b"", b"", b""], LENGTH),
            ([b"~~~~~~~~", b"1", b"2", b"3", b"12345678"], LENGTH),
            ([b"", b"", b"", b"", b""], VALUE),
            ([b"", b"1", b"", b"", b""], VALUE),
            ([b"MOV", b"", b"2", b"", b""], VALUE),
            ([b"MOV", b"1", b"2", b"", b"4"], VALUE),
            ([b"MO V", b"", b"", b"", b""], VALUE),
            ([b"MOV ", b"", b"", b"", b""], VALUE),
            ([b"MOV", b"1\x7F", b"", b"", b""], VALUE),
            ([b"MOV", b"1", b"2", b"3", b"\x80"], VALUE),
            ([b"\0MOV", b"", b"", b"", b""], VALUE),
            ([b"MOV", b"1\x002", b"", b"", b""], VALUE),
            ([b"MOV", b"1", b"2", b"3", b"\0\0\0\0\0\0\0x"], VALUE),
        ];
        for (texts, number) in cases {
            let asked = Asked { texts: texts.map(text), ..request(b"SNA") };
            assert_eq!(reading(b"", &asked).answer.number, number, "{texts:?}");
        }
    }

    #[test]
    fn statuses_and_steps() {
        for status in 0..=99 {
            for name in NAMES {
                let body = if name[0] == b'S' { format!("{status:02}") } else { format!("E{status:02}") };
                assert_eq!(reading_of(name, &body), carrying_status(status));
            }
        }
        let none: &[u8] = b"";
        assert_eq!(reading_of(b"LNA", "255 MOV"), carrying_step([b"MOV", none, none, none, none]));
        assert_eq!(
            reading_of(b"LNA", "0255 12345678 ! ~ 3 E16"),
            carrying_step([b"12345678", b"!", b"~", b"3", b"E16"])
        );
    }

    #[test]
    fn no_replies() {
        let cases: [(&[u8], &[&str]); 6] = [
            (b"LNT", &["", "E1", "E111", "e11", "00 ", "0 0", " 0", "10", "-0.01", "1.234", "+1", "00001", "1."]),
            (b"LND", &["", "E1", "10000", "00000", "-0", "1.0", "1 ", "1 2"]),
            (b"LNL", &["", "1", "1 2 3", "1 2 3 4 5", "1 2 3 4 ", "1  2 3 4", "1 2 3 10000"]),
            (b"LNBB", &["", "2", "0002", "00000", "01 "]),
            (
                b"LNA",
                &["", "255", "255 ", "254 MOV", "255 123456789", "255 A  C", "255 A 1 2 3 4 5", "255 A ", "00255 A"],
            ),
            (b"SNT", &["", "0", "000", "E00", "E0", "0x", "00 ", "0.00", "1 2"]),
        ];
        for (name, bodies) in cases {
            for body in bodies {
                assert_eq!(reading_of(name, body), refused(REPLY, 0), "{body}");
            }
        }
    }
}
