//! A receiver of slices from a line, written from request E1 alone, but for what stays in the memory behind the bytes
//! held, which is that of include/llamput.h.

use crate::reference::{ETX, ROOM, STX};

/// The greatest length of a slice, which is the length of the memory and the least length of an area.
pub const SLICE: usize = 255;

/// The bytes held of a slice that is not finished: the first of the memory, in that number. A count of 255 means none.
#[derive(Clone, Debug, PartialEq, Eq)]
pub struct Receiver {
    pub held: [u8; SLICE],
    pub count: u8,
}

impl Receiver {
    pub fn new() -> Receiver {
        Receiver { held: [0; SLICE], count: 0 }
    }
}

/// What receiving returns: the refusal number, or 0, how many bytes were taken, and the length of the slice that was
/// finished, 0 for none.
#[derive(Clone, Copy, Debug, PartialEq, Eq)]
pub struct Received {
    pub number: u8,
    pub taken: usize,
    pub length: usize,
}

/// Takes bytes until a slice is finished, which is then at the start of the area, or none is left.
#[inline(never)]
pub fn receive(receiver: &mut Receiver, arrived: &[u8], area: &mut [u8]) -> Received {
    let Some(area) = area.first_chunk_mut::<SLICE>() else {
        return Received { number: ROOM, taken: 0, length: 0 };
    };
    let Receiver { held, count } = receiver;
    let mut length = usize::from(*count) % SLICE;
    let mut rest = arrived;
    loop {
        if length == 0 {
            let Some(start) = rest.iter().position(|&byte| byte == STX) else { break };
            rest = &rest[start..];
        }
        // The bytes that join those held: the STX where none are, plain bytes, an ETX, an LRC.
        let mut joining = 0;
        let mut ended = length > 0 && held[length - 1] == ETX;
        if !ended {
            let first = usize::from(length == 0);
            joining = first + plain(&rest[first..rest.len().min(SLICE - 1 - length)]);
            if length + joining < SLICE - 1 && rest.get(joining) == Some(&ETX) {
                joining += 1;
                ended = true;
            }
        }
        let finished = ended && joining < rest.len();
        joining += usize::from(finished);
        let (run, after) = rest.split_at(joining);
        held[length..length + joining].copy_from_slice(run);
        if finished {
            // From the arrival where that has all of it: reading bytes just stored would have to wait for them.
            let slice = if length == 0 { run } else { &held[..length + joining] };
            area[..slice.len()].copy_from_slice(slice);
            *count = 0;
            return Received { number: 0, taken: arrived.len() - after.len(), length: slice.len() };
        }
        length += joining;
        rest = match after {
            [] => break,
            [STX, ..] => after,
            // It would be the 255th.
            [_, next @ ..] => next,
        };
        length = 0;
    }
    *count = length as u8;
    Received { number: 0, taken: arrived.len(), length: 0 }
}

/// How many bytes stand before the first STX or ETX, eight looked at in one.
#[inline(always)]
fn plain(bytes: &[u8]) -> usize {
    const ONES: u64 = 0x0101_0101_0101_0101;
    let mut rest = bytes;
    while let Some((word, after)) = rest.split_first_chunk() {
        // STX and ETX differ in the last bit alone, so both become 0. The lowest mark is at the first 0.
        let word = (u64::from_le_bytes(*word) | ONES) ^ (u64::from(ETX) * ONES);
        let marks = word.wrapping_sub(ONES) & !word & (0x80 * ONES);
        if marks != 0 {
            return bytes.len() - rest.len() + marks.trailing_zeros() as usize / 8;
        }
        rest = after;
    }
    bytes.len() - rest.len() + rest.iter().take_while(|&&byte| byte != STX && byte != ETX).count()
}

#[cfg(test)]
mod tests {
    use super::*;
    use crate::frames::{self, Random, GREATEST_ROOM};

    /// The rule, byte by byte: the slice that the byte ends, if it ends one.
    fn rule(held: &mut Vec<u8>, byte: u8) -> Option<Vec<u8>> {
        if held.last() == Some(&ETX) {
            held.push(byte);
            return Some(std::mem::take(held));
        }
        if byte == STX {
            *held = vec![STX];
        } else if !held.is_empty() {
            held.push(byte);
            if held.len() == 255 {
                held.clear();
            }
        }
        None
    }

    /// The slices of the whole line, from fresh state, and the bytes held behind it.
    fn by_rule(line: &[u8]) -> (Vec<Vec<u8>>, Vec<u8>) {
        let mut held = Vec::new();
        let slices = line.iter().filter_map(|&byte| rule(&mut held, byte)).collect();
        (slices, held)
    }

    /// The same by the receiver, in arrivals of these lengths in turn.
    fn received(line: &[u8], arrivals: &[usize]) -> (Vec<Vec<u8>>, Vec<u8>) {
        let (mut receiver, mut slices, mut rest) = (Receiver::new(), Vec::new(), line);
        for &arrival in arrivals.iter().cycle() {
            if rest.is_empty() {
                break;
            }
            let mut area = [0; SLICE];
            let arrived = &rest[..arrival.min(rest.len())];
            let Received { number, taken, length } = receive(&mut receiver, arrived, &mut area);
            assert_eq!(number, 0);
            assert_eq!(area[length..], [0; SLICE][length..]);
            match length {
                0 => assert_eq!(taken, arrived.len()),
                _ => slices.push(area[..length].to_vec()),
            }
            rest = &rest[taken..];
        }
        (slices, receiver.held[..usize::from(receiver.count)].to_vec())
    }

    /// STX and plain bytes, in that number altogether.
    fn run(length: usize) -> Vec<u8> {
        let mut run = vec![b'x'; length];
        run[0] = STX;
        run
    }

    /// The line gives these slices and leaves these bytes held, in one arrival, byte by byte and in others.
    fn assert_slices(line: &[&[u8]], slices: &[&[u8]], held: &[u8]) {
        let line = line.concat();
        let wanted = (slices.iter().map(|slice| slice.to_vec()).collect(), held.to_vec());
        assert_eq!(by_rule(&line), wanted);
        for arrivals in [&[line.len()][..], &[1], &[2], &[7, 1, 254]] {
            assert_eq!(received(&line, arrivals), wanted, "{arrivals:?}");
        }
    }

    #[test]
    fn noise_and_frames() {
        let frame = b"\x021 LNT 5\x03\x51";
        assert_slices(&[b"", b"noise\x03\x03"], &[], b"");
        assert_slices(&[frame, frame, b"noise", frame], &[frame, frame, frame], b"");
        assert_slices(&[b"\x021 L", frame, b"\x02\x021 L"], &[frame], b"\x021 L");
        assert_slices(&[b"\x02\x03\x03\x03"], &[b"\x02\x03\x03"], b"");
        assert_slices(&[frame, b"\x02\x03"], &[frame], b"\x02\x03");
    }

    #[test]
    fn lrc_02() {
        assert_slices(&[b"\x021\x03\x02", b"2\x03\x02\x03\x02"], &[b"\x021\x03\x02", b"\x02\x03\x02"], b"");
    }

    #[test]
    fn the_255th_byte() {
        let etx = [ETX];
        // STX begins again.
        assert_slices(&[&run(254), b"\x02\x03\x02"], &[b"\x02\x03\x02"], b"");
        // ETX and any other are dropped with the bytes before them, and what follows is hunted.
        assert_slices(&[&run(254), &etx, b"\x02\x03\x02"], &[b"\x02\x03\x02"], b"");
        assert_slices(&[&run(254), b"x\x03y\x021"], &[], b"\x021");
        // The LRC ends the slice.
        for lrc in [STX, ETX, b'x'] {
            let slice = [&run(253)[..], &[ETX, lrc]].concat();
            assert_slices(&[&slice, b"\x021"], &[&slice], b"\x021");
        }
        assert_slices(&[&run(254)], &[], &run(254));
        assert_slices(&[&run(253), &etx], &[], &[&run(253)[..], &etx].concat());
    }

    #[test]
    fn any_lines() {
        let mut random = Random::new(6);
        for _ in 0..500 {
            let line = frames::line(&mut random);
            let arrivals: Vec<usize> = (0..20).map(|_| frames::arrival(&mut random).0).chain([1]).collect();
            assert_eq!(received(&line, &arrivals), by_rule(&line));
        }
    }

    #[test]
    fn any_memory() {
        let mut random = Random::new(7);
        for _ in 0..20_000 {
            let mut receiver = frames::other_receiver(&mut random);
            let mut held = receiver.held[..usize::from(receiver.count) % SLICE].to_vec();
            let mut line = frames::line(&mut random);
            line.truncate(frames::arrival(&mut random).0);
            let mut area = [0; SLICE];
            // Each byte alone changes the memory in one place at most.
            let (mut walked, mut taken, mut slice) = (receiver.held, 0, None);
            for &byte in &line {
                let place = held.len();
                slice = rule(&mut held, byte);
                taken += 1;
                match (&slice, held.len()) {
                    (Some(_), _) => walked[place] = byte,
                    (None, 0) => {}
                    (None, length) => walked[length - 1] = byte,
                }
                if slice.is_some() {
                    break;
                }
            }
            let got = receive(&mut receiver, &line, &mut area);
            let slice = slice.unwrap_or_default();
            assert_eq!(got, Received { number: 0, taken, length: slice.len() });
            assert_eq!(area[..slice.len()], slice);
            assert_eq!(receiver, Receiver { held: walked, count: held.len() as u8 });
        }
    }

    #[test]
    fn room() {
        let mut receiver = Receiver { held: [b'x'; SLICE], count: 7 };
        for count in [0, 7, 254, 255] {
            receiver.count = count;
            let before = receiver.clone();
            for room in [0, 1, 64, 254] {
                let mut area = [b'y'; SLICE];
                let got = receive(&mut receiver, b"\x02\x03\x02", &mut area[..room]);
                assert_eq!(got, Received { number: ROOM, taken: 0, length: 0 });
                assert_eq!((&receiver, area), (&before, [b'y'; SLICE]));
            }
        }
        let mut area = [b'y'; GREATEST_ROOM];
        receiver.count = 0;
        let got = receive(&mut receiver, b"\x02\x03\x02\x02", &mut area);
        assert_eq!(got, Received { number: 0, taken: 3, length: 3 });
        assert_eq!((&area[..3], &area[3..]), (&b"\x02\x03\x02"[..], &[b'y'; GREATEST_ROOM - 3][..]));
    }

    #[test]
    fn count_255() {
        let memory = Receiver { held: [ETX; SLICE], count: 255 };
        for (arrived, length, first, count) in
            [(&b""[..], 0, ETX, 0), (b"x\x03", 0, ETX, 0), (b"x\x02", 0, STX, 1), (b"x\x02\x03x", 3, STX, 0)]
        {
            let mut receiver = memory.clone();
            let got = receive(&mut receiver, arrived, &mut [0; SLICE]);
            assert_eq!(got, Received { number: 0, taken: arrived.len(), length });
            assert_eq!((receiver.held[0], receiver.count), (first, count));
        }
    }
}
