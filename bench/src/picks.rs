//! The kinds of pick of one of two ports, to show that the compared calls reach each of them. Compares picks at every
//! turn and the frames dealt to two ports, and takes the time of serving these.

use std::hint::black_box;
use std::time::Instant;

use crate::frames::{self, Frames, Random};
use crate::reference::{self, Next, Port, Tables, A, ABSENT, B, COMMAND, EMPTY, IDLE, LENGTH, REPLY_ROOM, ROOM};
use crate::{gateway, in_turn, summary, Counts, Pair};

/// A pick, and what it came to.
pub struct Pick<'a> {
    /// The turn before it.
    pub turn: u8,
    pub ports: [Port<'a>; 2],
    /// The length of the reply area; none where the slice is not served.
    pub room: Option<usize>,
    pub port: u8,
    pub number: u8,
}

impl<'a> Pick<'a> {
    /// The slice that was picked.
    pub fn slice(&self) -> Option<&'a [u8]> {
        self.picked()?.slice()
    }

    fn picked(&self) -> Option<Port<'a>> {
        let [a, b] = self.ports;
        match self.port {
            A => Some(a),
            B => Some(b),
            _ => None,
        }
    }

    /// Whether this port is picked after that one, when both wait or when it waits alone; 0 stands for neither.
    fn is(&self, both: bool, port: u8, last: u8) -> bool {
        let turn = if matches!(self.turn, A | B) { self.turn } else { 0 };
        let both_wait = self.ports.iter().all(|port| port.slice().is_some());
        (both_wait, self.port, turn) == (both, port, last)
    }

    /// By how much the waiting length of each port is beyond its buffer.
    fn beyond(&self) -> [usize; 2] {
        self.ports.map(|port| port.waiting.saturating_sub(port.buffer.len()))
    }

    fn short_of_room(&self) -> bool {
        self.room.is_some_and(|room| room < REPLY_ROOM)
    }
}

type Test = fn(&Pick) -> bool;

/// Each kind: its name and when a pick is of it. A pick may be of several.
pub const PICKS: [(&str, Test); 28] = [
    ("both wait, A after neither", |pick| pick.is(true, A, 0)),
    ("both wait, A after B", |pick| pick.is(true, A, B)),
    ("both wait, B after A", |pick| pick.is(true, B, A)),
    ("A waits alone, after neither", |pick| pick.is(false, A, 0)),
    ("A waits alone, after A", |pick| pick.is(false, A, A)),
    ("A waits alone, after B", |pick| pick.is(false, A, B)),
    ("B waits alone, after neither", |pick| pick.is(false, B, 0)),
    ("B waits alone, after A", |pick| pick.is(false, B, A)),
    ("B waits alone, after B", |pick| pick.is(false, B, B)),
    ("17 after neither", |pick| pick.is(false, 0, 0)),
    ("17 after A", |pick| pick.is(false, 0, A)),
    ("17 after B", |pick| pick.is(false, 0, B)),
    ("17 with too short a reply area", |pick| pick.number == IDLE && pick.short_of_room()),
    ("1 for the reply area", |pick| pick.number == ROOM && pick.short_of_room()),
    ("1 for programs", |pick| pick.number == ROOM && !pick.short_of_room()),
    ("2 to 8", |pick| (LENGTH..=ABSENT).contains(&pick.number)),
    ("9 to 16", |pick| (COMMAND..=EMPTY).contains(&pick.number)),
    ("accepted", |pick| pick.number == 0 && pick.room.is_some()),
    ("chosen, not served", |pick| pick.number == 0 && pick.room.is_none()),
    ("all of the buffer", |pick| pick.picked().is_some_and(|port| port.waiting == port.buffer.len())),
    ("a part of the buffer", |pick| pick.picked().is_some_and(|port| port.waiting < port.buffer.len())),
    ("A one beyond its buffer", |pick| pick.beyond()[0] == 1),
    ("B one beyond its buffer", |pick| pick.beyond()[1] == 1),
    ("both one beyond their buffers", |pick| pick.beyond() == [1, 1]),
    ("far beyond the buffer", |pick| pick.beyond().iter().any(|beyond| *beyond > 1)),
    ("the greatest waiting length", |pick| pick.ports.iter().any(|port| port.waiting == usize::MAX)),
    ("one buffer for both", |pick| pick.ports[0].buffer.as_ptr() == pick.ports[1].buffer.as_ptr()),
    ("all", |_| true),
];

/// The slice with each sort of waiting length.
fn lent(slice: &[u8]) -> [Port<'_>; 6] {
    let length = slice.len();
    [0, 1, length - 1, length, length + 1, usize::MAX].map(|waiting| Port { buffer: slice, waiting })
}

/// Picks at every turn, with each sort of waiting length at either port, and with and without room.
pub fn compare_every_turn() -> Result<(), String> {
    let mut random = Random::new(8);
    let mut pair = Pair::fitted()?;
    let mut counts = Counts::new();
    let [for_a, for_b] = [&b"1 SND 5 1"[..], b"42 SND 5 2"].map(frames::frame);
    let ports: Vec<[Port; 2]> = lent(&for_a).into_iter().flat_map(|a| lent(&for_b).map(|b| [a, b])).collect();
    for turn in 0..=255 {
        for &ports in &ports {
            for room in [None, Some(REPLY_ROOM - 1), Some(REPLY_ROOM)] {
                pair.overwrite_turn(turn);
                pair.pick(ports, room, &mut random, &mut counts)?;
            }
        }
    }
    Ok(())
}

/// Deals the frames, of which none is empty, to the two ports. Both wait at each pick: at A and B in turn the frame that
/// is to be served, and at the other port the one behind it; behind the last stands the first.
fn dealt(frames: &Frames) -> impl Iterator<Item = [Port<'_>; 2]> {
    let behind = frames.iter().skip(1).chain(frames.iter().take(1));
    frames.iter().zip(behind).enumerate().map(|(index, (slice, behind))| match index % 2 {
        0 => [slice, behind].map(Port::full),
        _ => [behind, slice].map(Port::full),
    })
}

/// Serves the frames from two ports on both sides, as is timed, and compares.
pub fn compare_frames(frames: &Frames) -> Result<(), String> {
    let mut random = Random::new(9);
    let mut pair = Pair::fitted()?;
    for (index, (ports, wanted)) in dealt(frames).zip([A, B].into_iter().cycle()).enumerate() {
        let next = pair.serve_next(ports, REPLY_ROOM, &mut random);
        let Next { port, .. } = next.map_err(|text| format!("frame {index} of two ports: {text}"))?;
        if port != wanted {
            return Err(format!("frame {index} of two ports: port {port} was served, not {wanted}"));
        }
    }
    Ok(())
}

/// The time of one round over all frames, in ns a frame.
fn round(frames: &Frames, mut tables: Tables, serve_next: impl Fn(&mut Tables, Port, Port, &mut [u8]) -> Next) -> f64 {
    let mut reply = [0; REPLY_ROOM];
    let start = Instant::now();
    for [a, b] in dealt(frames) {
        black_box(serve_next(&mut tables, a, b, &mut reply));
    }
    start.elapsed().as_nanos() as f64 / frames.count() as f64
}

/// The least and the median time of serving the frames from two ports, of the gateway and of the reference.
pub fn time(frames: &Frames, rounds: usize) -> Result<[(f64, f64); 2], String> {
    let pair = Pair::fitted()?;
    let gateway_round = || round(frames, pair.gateway.clone(), gateway::serve_next);
    let reference_round = || round(frames, pair.reference.clone(), reference::serve_next);
    let times = (0..rounds).map(|index| in_turn(index, gateway_round, reference_round));
    let (gateway, reference) = times.unzip();
    Ok([summary(gateway), summary(reference)])
}
