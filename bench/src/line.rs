//! Compares the receivers of both sides on lines, with any memory and any cuts, and takes the time of receiving the
//! frames one after the other.

use std::hint::black_box;
use std::time::Instant;

use crate::frames::{self, Frames, Random, GREATEST_ROOM};
use crate::gateway;
use crate::receiver::{self, Received, Receiver, SLICE};
use crate::reference::{ETX, ROOM, STX};
use crate::{hex, in_turn, summary};

/// How many lines are compared, each from other memory.
const LINES: usize = 16_000;

/// How many bytes of the timed line arrive at once.
const ARRIVAL: usize = 4096;

/// The greatest number of bytes held.
const MOST: u8 = SLICE as u8 - 1;

/// A byte that was taken, the count before and after it, and the length of the slice that it ended, 0 for none.
struct Step {
    byte: u8,
    before: u8,
    after: u8,
    length: usize,
}

impl Step {
    /// The byte would have been the 255th, and no slice was finished by it.
    fn too_long(&self) -> bool {
        self.before == MOST && self.length == 0
    }
}

type CallTest = fn(&Received) -> bool;
type StepTest = fn(&Step) -> bool;

/// What a call can come to.
const CALLS: [(&str, CallTest); 3] = [
    ("ROOM", |received| received.number == ROOM),
    ("slice finished", |received| received.length > 0),
    ("none left without a slice", |received| received.number == 0 && received.length == 0),
];

/// What a byte can come to.
const STEPS: [(&str, StepTest); 8] = [
    ("count of 255", |step| step.before == 255),
    ("byte dropped, none held", |step| step.before == 0 && step.after == 0),
    ("STX anew", |step| step.before > 0 && step.byte == STX && step.after == 1),
    ("STX as the 255th byte", |step| step.too_long() && step.byte == STX && step.after == 1),
    ("run dropped", |step| step.too_long() && step.after == 0),
    ("run dropped, ETX as the 255th byte", |step| step.too_long() && step.byte == ETX && step.after == 0),
    ("slice of 255 bytes", |step| step.length == SLICE),
    ("LRC 02h", |step| step.length > 0 && step.byte == STX),
];

/// How many calls were compared, and how often each kind of call and of byte was among them.
pub struct Counts {
    made: usize,
    calls: [usize; CALLS.len()],
    steps: [usize; STEPS.len()],
}

impl Counts {
    fn new() -> Counts {
        Counts { made: 0, calls: [0; CALLS.len()], steps: [0; STEPS.len()] }
    }

    fn called(&mut self, received: &Received) {
        self.made += 1;
        for (count, (_, test)) in self.calls.iter_mut().zip(CALLS) {
            *count += usize::from(test(received));
        }
    }

    fn stepped(&mut self, step: &Step) {
        for (count, (_, test)) in self.steps.iter_mut().zip(STEPS) {
            *count += usize::from(test(step));
        }
    }

    /// Each kind with how often it came.
    fn kinds(&self) -> impl Iterator<Item = (&'static str, usize)> + '_ {
        let names = CALLS.iter().map(|(name, _)| *name).chain(STEPS.iter().map(|(name, _)| *name));
        names.zip(self.calls.iter().chain(&self.steps).copied())
    }

    pub fn print(&self) {
        println!("{:<35}{:>10}", "receiving", "times");
        for (name, count) in self.kinds() {
            println!("{name:<35}{count:>10}");
        }
        println!("gateway and reference agree on {} calls that receive", self.made);
    }
}

/// The receivers of both sides.
struct Pair {
    gateway: Receiver,
    reference: Receiver,
}

impl Pair {
    fn new(memory: Receiver) -> Pair {
        Pair { gateway: memory.clone(), reference: memory }
    }

    /// Receives on both sides with an area of that length at the start of a larger one, and counts.
    fn receive(
        &mut self,
        arrived: &[u8],
        room: usize,
        random: &mut Random,
        counts: &mut Counts,
    ) -> Result<Received, String> {
        let mut before = [0; GREATEST_ROOM];
        random.fill(&mut before);
        let (mut left, mut right) = (before, before);
        let memory = self.reference.clone();
        let gateway = gateway::receive(&mut self.gateway, arrived, &mut left[..room]);
        let reference = receiver::receive(&mut self.reference, arrived, &mut right[..room]);
        let context = || {
            format!(
                "receiving {}, area {room}, from {}:\n  gateway   {}\n  reference {}",
                hex(arrived),
                state(&memory),
                answer(gateway, &self.gateway, &left),
                answer(reference, &self.reference, &right)
            )
        };
        if gateway != reference || self.gateway != self.reference || left != right {
            return Err(context());
        }
        let Received { number, taken, length } = reference;
        if length > room || right[length..] != before[length..] {
            return Err(format!("{}\n  bytes past the length were changed", context()));
        }
        if number != 0 && (taken != 0 || self.reference != memory) {
            return Err(format!("{}\n  a refused call took or changed something", context()));
        }
        counts.called(&reference);
        let walked = walk(&memory, &arrived[..taken], counts);
        if walked.is_some_and(|walked| walked != (self.reference.clone(), length)) {
            return Err(format!("{}\n  other cuts make a difference", context()));
        }
        Ok(reference)
    }
}

/// Receives the bytes one at a time by the reference, and counts. Returns the receiver after the last byte, and the
/// length of the slice that this byte ended, 0 for none; nothing where there is no byte.
fn walk(memory: &Receiver, bytes: &[u8], counts: &mut Counts) -> Option<(Receiver, usize)> {
    let mut receiver = memory.clone();
    let mut last = None;
    for &byte in bytes {
        let before = receiver.count;
        let Received { length, .. } = receiver::receive(&mut receiver, &[byte], &mut [0; SLICE]);
        counts.stepped(&Step { byte, before, after: receiver.count, length });
        last = Some(length);
    }
    last.map(|length| (receiver, length))
}

fn state(receiver: &Receiver) -> String {
    format!("count {}, memory {}", receiver.count, hex(&receiver.held))
}

fn answer(received: Received, receiver: &Receiver, area: &[u8]) -> String {
    let Received { number, taken, length } = received;
    let state = state(receiver);
    format!("number {number}, taken {taken}, length {length}, {state}, area {}", hex(area))
}

/// Receives lines on both sides and compares, each line from other memory.
pub fn compare_lines() -> Result<Counts, String> {
    let mut random = Random::new(5);
    let mut counts = Counts::new();
    for index in 0..LINES {
        let line = frames::line(&mut random);
        let mut pair = Pair::new(frames::other_receiver(&mut random));
        let mut rest = &line[..];
        while !rest.is_empty() {
            let (length, room) = frames::arrival(&mut random);
            let arrived = &rest[..length.min(rest.len())];
            let received = pair.receive(arrived, room, &mut random, &mut counts);
            rest = &rest[received.map_err(|text| format!("line {index}: {text}"))?.taken..];
        }
    }
    let missing = counts.kinds().find(|(_, count)| *count == 0);
    match missing {
        Some((name, _)) => Err(format!("no call that receives reaches {name}")),
        None => Ok(counts),
    }
}

/// Receives the frames one after the other on both sides, as is timed, and compares. Returns how many slices there are.
pub fn compare_frames(frames: &Frames) -> Result<usize, String> {
    let mut random = Random::new(6);
    let mut counts = Counts::new();
    let mut pair = Pair::new(Receiver::new());
    let mut slices = 0;
    for mut rest in frames.line().chunks(ARRIVAL) {
        while !rest.is_empty() {
            let received = pair.receive(rest, SLICE, &mut random, &mut counts);
            let Received { taken, length, .. } = received.map_err(|text| format!("line of frames: {text}"))?;
            slices += usize::from(length > 0);
            rest = &rest[taken..];
        }
    }
    Ok(slices)
}

/// The time of one round over the line, in ns.
fn round(line: &[u8], mut step: impl FnMut(&[u8])) -> f64 {
    let start = Instant::now();
    for arrived in line.chunks(ARRIVAL) {
        step(arrived);
    }
    start.elapsed().as_nanos() as f64
}

/// Receiving all slices.
fn receiving_round(line: &[u8], receive: impl Fn(&mut Receiver, &[u8], &mut [u8]) -> Received) -> f64 {
    let mut receiver = Receiver::new();
    let mut area = [0; SLICE];
    round(line, |mut rest| {
        while !rest.is_empty() {
            let received = black_box(receive(&mut receiver, rest, &mut area));
            rest = &rest[received.taken..];
        }
    })
}

/// Copying alone.
fn copying_round(line: &[u8]) -> f64 {
    let mut area = [0; ARRIVAL];
    round(line, |arrived| {
        area[..arrived.len()].copy_from_slice(arrived);
        black_box(&area);
    })
}

/// Takes the time of receiving the frames, which are so many slices, one after the other.
pub fn time(frames: &Frames, slices: usize, rounds: usize) {
    let line = frames.line();
    let gateway_round = || receiving_round(line, gateway::receive);
    let reference_round = || receiving_round(line, receiver::receive);
    let (mut gateway, mut reference, mut copying) = (Vec::new(), Vec::new(), Vec::new());
    for index in 0..rounds {
        let times = in_turn(index, gateway_round, reference_round);
        gateway.push(times.0);
        reference.push(times.1);
        copying.push(copying_round(line));
    }
    let (gateway, reference, copying) = (summary(gateway), summary(reference), summary(copying));
    println!("\n{rounds} rounds of receiving {slices} slices, {} bytes in arrivals of {ARRIVAL}", line.len());
    println!("{:<35}{:>10}{:>10}", "million bytes a second, by time", "least", "median");
    let speed = |time: f64| line.len() as f64 * 1000.0 / time;
    for (name, (least, median)) in [("gateway", gateway), ("reference", reference), ("copying", copying)] {
        println!("{name:<35}{:>10.0}{:>10.0}", speed(least), speed(median));
    }
    for (name, other) in [("gateway/reference, times", reference), ("gateway/copying, times", copying)] {
        println!("{name:<35}{:>10.3}{:>10.3}", gateway.0 / other.0, gateway.1 / other.1);
    }
}
