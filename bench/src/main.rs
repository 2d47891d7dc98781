//! Compares the library llamput with a bytewise server: every answer on 100,000 frames, from one port and from two, and
//! on a million further calls, the numbers of outputs on, the START programs and the turn from other memory too, every
//! call of a receiver on 16,000 lines, and the replies read with their numbers as doubles, each number among them; then
//! the time of serving those frames, from one port and from two, of receiving them one after the other, and of reading
//! 100,000 replies.
//!
//! The optional argument is the number of timed rounds.

mod asked;
mod frames;
mod gateway;
mod kinds;
mod line;
mod picks;
mod readings;
mod receiver;
mod reference;
mod replies;

use std::env;
use std::hint::black_box;
use std::process::ExitCode;
use std::time::Instant;

use frames::{Buffer, Call, Frames, Random, FRAMES, GREATEST_ROOM, STATIONS};
use kinds::{KINDS, OUTCOMES};
use picks::{Pick, PICKS};
use reference::{lrc, ones, Choice, Count, Next, Port, Sent, Tables, EMPTY, IDLE, INPUT, REPLY_ROOM};

const CALLS: usize = 1_000_000;
/// How often the comparison begins with other memory.
const STARTS: usize = 100;
const ROUNDS: usize = 301;

/// How many numbers there are, with 0.
const NUMBERS: usize = 18;

/// How often each number was returned, to any call and to those that ask for the outputs on, each kind of position,
/// each outcome of LNA and SNA, and each kind of pick.
struct Counts {
    numbers: [usize; NUMBERS],
    asked: [usize; NUMBERS],
    kinds: [usize; KINDS],
    outcomes: [usize; OUTCOMES.len()],
    picks: [usize; PICKS.len()],
}

impl Counts {
    fn new() -> Counts {
        Counts {
            numbers: [0; NUMBERS],
            asked: [0; NUMBERS],
            kinds: [0; KINDS],
            outcomes: [0; OUTCOMES.len()],
            picks: [0; PICKS.len()],
        }
    }

    fn returned(&mut self, number: u8) {
        self.numbers[usize::from(number)] += 1;
    }

    fn asked(&mut self, count: Count) {
        self.returned(count.number);
        self.asked[usize::from(count.number)] += 1;
    }

    fn served(&mut self, slice: &[u8], sent: Sent, area: &[u8]) {
        self.returned(sent.number);
        for kind in kinds::kinds(slice, sent.number, sent.position) {
            self.kinds[kind] += 1;
        }
        if let Some(outcome) = kinds::outcome_of(slice, sent.number, &area[..sent.length]) {
            self.outcomes[outcome] += 1;
        }
    }

    fn picked(&mut self, pick: &Pick) {
        for (count, (_, test)) in self.picks.iter_mut().zip(PICKS) {
            *count += usize::from(test(pick));
        }
    }

    fn every_pick(&self) -> Result<(), String> {
        match PICKS.iter().zip(self.picks).find(|(_, count)| *count == 0) {
            Some(((name, _), _)) => Err(format!("no call reaches the pick {name}")),
            None => Ok(()),
        }
    }

    fn every_outcome(&self) -> Result<(), String> {
        match OUTCOMES.iter().zip(self.outcomes).find(|(_, count)| *count == 0) {
            Some((outcome, _)) => Err(format!("no call reaches {outcome}")),
            None => Ok(()),
        }
    }
}

/// Whether a number of outputs on that no box keeps went above 65535, and below 0.
struct Wraps {
    above: bool,
    below: bool,
}

/// Reply areas of that length for both sides, each at the start of a larger one, and the bytes of these before a call.
struct Areas {
    before: [u8; GREATEST_ROOM],
    gateway: [u8; GREATEST_ROOM],
    reference: [u8; GREATEST_ROOM],
    room: usize,
}

impl Areas {
    fn new(room: usize, random: &mut Random) -> Areas {
        let mut before = [0; GREATEST_ROOM];
        random.fill(&mut before);
        Areas { before, gateway: before, reference: before, room }
    }

    fn gateway(&mut self) -> &mut [u8] {
        &mut self.gateway[..self.room]
    }

    fn reference(&mut self) -> &mut [u8] {
        &mut self.reference[..self.room]
    }

    fn untouched(&self, sent: Sent, area: &[u8; GREATEST_ROOM]) -> bool {
        sent.length <= self.room && area[sent.length..] == self.before[sent.length..]
    }
}

/// The tables of both sides.
struct Pair {
    gateway: Tables,
    reference: Tables,
    /// Whether the tables are those of a box, so that the numbers of outputs on are true; other memory is none until a
    /// setup.
    is_box: bool,
    /// The reply area as both sides left it when they last served a slice.
    area: [u8; GREATEST_ROOM],
}

impl Pair {
    fn new() -> Pair {
        Pair { gateway: Tables::new(), reference: Tables::new(), is_box: true, area: [0; GREATEST_ROOM] }
    }

    /// The box that serves the frames.
    fn fitted() -> Result<Pair, String> {
        let mut pair = Pair::new();
        pair.setup(&STATIONS.map(u16::from))?;
        for (slot, port, byte) in inputs() {
            pair.input(slot, port, byte)?;
        }
        Ok(pair)
    }

    fn other(memory: Tables) -> Pair {
        Pair { gateway: memory.clone(), reference: memory, is_box: false, area: [0; GREATEST_ROOM] }
    }

    /// Lends a memory of that length for the START programs: the one that was lent, cut or with further bytes.
    fn lend(&mut self, length: usize) {
        for tables in [&mut self.gateway, &mut self.reference] {
            tables.programs.resize(length, 0x21);
        }
    }

    /// Lends a memory of that length for one call, and then again the one before.
    fn lend_once<T>(&mut self, length: usize, call: impl FnOnce(&mut Pair) -> T) -> T {
        if length == self.reference.programs.len() {
            return call(self);
        }
        let before = self.reference.programs.clone();
        self.lend(length);
        let made = call(self);
        self.gateway.programs.clone_from(&before);
        self.reference.programs = before;
        made
    }

    /// Makes it the turn, as a caller that writes its memory does.
    fn overwrite_turn(&mut self, turn: u8) {
        self.gateway.turn = turn;
        self.reference.turn = turn;
    }

    fn agree(&mut self) -> Result<(), String> {
        self.same_tables()?;
        match self.is_box {
            true => self.true_numbers(),
            false => Ok(()),
        }
    }

    /// Each number that is kept is that of the ones in the output ports, 0 for an unfitted slot, and asking gives it.
    fn true_numbers(&mut self) -> Result<(), String> {
        for slot in 0..4 {
            let Tables { outputs, on, stations, .. } = &self.gateway;
            let (kept, counted) = (on[slot], ones(&outputs[slot]));
            if kept != counted || stations[slot] == 0 && kept != 0 {
                return Err(format!("slot {slot} keeps {kept} outputs on, its ports have {counted}"));
            }
            self.ask(slot)?;
        }
        self.same_tables()
    }

    /// Each number has moved as the ones in its output ports have, modulo 65536, and asking gives it.
    fn moved_numbers(&mut self, before: &Tables, wraps: &mut Wraps) -> Result<(), String> {
        if self.is_box {
            return Ok(());
        }
        for slot in 0..4 {
            let (old, new) = (ones(&before.outputs[slot]), ones(&self.gateway.outputs[slot]));
            let exact = i32::from(before.on[slot]) + i32::from(new) - i32::from(old);
            wraps.above |= exact > 65_535;
            wraps.below |= exact < 0;
            let (kept, moved) = (self.gateway.on[slot], exact.rem_euclid(65_536) as u16);
            let wanted = match before.stations[slot] {
                0 => Count { number: INPUT, count: 0 },
                _ => Count { number: 0, count: moved },
            };
            let told = gateway::outputs_on(&mut self.gateway, slot);
            if kept != moved || told != wanted {
                return Err(format!("slot {slot} keeps {kept} outputs on and not {moved}, and asking gives {told:?}"));
            }
        }
        self.same_tables()
    }

    fn same_tables(&self) -> Result<(), String> {
        match self.gateway == self.reference {
            true => Ok(()),
            false => Err(format!("the tables differ in {}", self.differing_table())),
        }
    }

    fn differing_table(&self) -> &'static str {
        let (gateway, reference) = (&self.gateway, &self.reference);
        let same = [
            ("timers", gateway.timers == reference.timers),
            ("registers", gateway.registers == reference.registers),
            ("x", gateway.x == reference.x),
            ("y", gateway.y == reference.y),
            ("z", gateway.z == reference.z),
            ("w", gateway.w == reference.w),
            ("inputs", gateway.inputs == reference.inputs),
            ("outputs", gateway.outputs == reference.outputs),
            ("memory", gateway.memory == reference.memory),
            ("on", gateway.on == reference.on),
            ("programs", gateway.programs == reference.programs),
            ("turn", gateway.turn == reference.turn),
        ];
        same.iter().find(|(_, same)| !same).map_or("stations", |(name, _)| name)
    }

    fn setup(&mut self, want: &[u16; 4]) -> Result<u8, String> {
        let gateway = gateway::setup(&mut self.gateway, want);
        let reference = reference::setup(&mut self.reference, want);
        self.is_box = true;
        let context = || format!("setup {want:?}: gateway {gateway}, reference {reference}");
        if gateway != reference {
            return Err(context());
        }
        self.agree().map_err(|text| format!("{}: {text}", context()))?;
        Ok(reference)
    }

    fn input(&mut self, slot: usize, port: u16, byte: u8) -> Result<u8, String> {
        let gateway = gateway::input(&mut self.gateway, slot, port, byte);
        let reference = reference::input(&mut self.reference, slot, port, byte);
        let context = || format!("input {slot} {port} {byte}: gateway {gateway}, reference {reference}");
        if gateway != reference {
            return Err(context());
        }
        self.agree().map_err(|text| format!("{}: {text}", context()))?;
        Ok(reference)
    }

    /// Asks both sides.
    fn ask(&mut self, slot: usize) -> Result<Count, String> {
        let gateway = gateway::outputs_on(&mut self.gateway, slot);
        let reference = reference::outputs_on(&self.reference, slot);
        match gateway == reference {
            true => Ok(reference),
            false => Err(format!("outputs on {slot}: gateway {gateway:?}, reference {reference:?}")),
        }
    }

    /// Asks both sides, of which neither changes by it.
    fn outputs_on(&mut self, slot: usize) -> Result<Count, String> {
        let count = self.ask(slot)?;
        self.same_tables().map_err(|text| format!("outputs on {slot}: {text}"))?;
        Ok(count)
    }

    /// Serves the slice on both sides with a reply area of that length.
    fn serve(&mut self, slice: &[u8], room: usize, random: &mut Random) -> Result<Sent, String> {
        let mut areas = Areas::new(room, random);
        let gateway = gateway::serve(&mut self.gateway, slice, areas.gateway());
        let reference = reference::serve(&mut self.reference, slice, areas.reference());
        self.sent(areas, gateway, reference).map_err(|text| format!("slice {}, {text}", hex(slice)))?;
        Ok(reference)
    }

    /// Compares what serving returned and left on both sides.
    fn sent(&mut self, areas: Areas, gateway: Sent, reference: Sent) -> Result<(), String> {
        let context = || {
            format!(
                "reply area {}:\n  gateway   {}\n  reference {}",
                areas.room,
                answer(gateway, &areas.gateway),
                answer(reference, &areas.reference)
            )
        };
        if gateway != reference || areas.gateway != areas.reference {
            return Err(context());
        }
        if !areas.untouched(gateway, &areas.gateway) || !areas.untouched(reference, &areas.reference) {
            return Err(format!("{}\n  bytes past the length were changed", context()));
        }
        self.agree().map_err(|text| format!("{}\n  {text}", context()))?;
        self.area = areas.reference;
        Ok(())
    }

    /// Picks on both sides.
    fn choose(&mut self, ports: [Port; 2]) -> Result<Choice, String> {
        let ([a, b], turn) = (ports, self.reference.turn);
        let gateway = gateway::choose(&mut self.gateway.turn, a, b);
        let reference = reference::choose(&mut self.reference.turn, a, b);
        let context = || format!("{}: gateway {gateway:?}, reference {reference:?}", lent(ports, turn));
        if gateway != reference {
            return Err(context());
        }
        self.agree().map_err(|text| format!("{}: {text}", context()))?;
        Ok(reference)
    }

    /// Picks and serves on both sides with a reply area of that length.
    fn serve_next(&mut self, ports: [Port; 2], room: usize, random: &mut Random) -> Result<Next, String> {
        let ([a, b], turn) = (ports, self.reference.turn);
        let mut areas = Areas::new(room, random);
        let gateway = gateway::serve_next(&mut self.gateway, a, b, areas.gateway());
        let reference = reference::serve_next(&mut self.reference, a, b, areas.reference());
        let context = || format!("{}: gateway {gateway:?}, reference {reference:?}", lent(ports, turn));
        if gateway.port != reference.port {
            return Err(context());
        }
        self.sent(areas, gateway.sent, reference.sent).map_err(|text| format!("{}, {text}", context()))?;
        Ok(reference)
    }

    /// Picks from these buffers, and at times lends a wrong memory for the START programs.
    fn pick_from(
        &mut self,
        buffers: &[Buffer; 2],
        room: Option<usize>,
        random: &mut Random,
        counts: &mut Counts,
    ) -> Result<(), String> {
        let ports = buffers.each_ref().map(Buffer::port);
        let length = frames::lent(random, 100);
        self.lend_once(length, |pair| pair.pick(ports, room, random, counts))
    }

    /// Picks on both sides, serves if there is a reply area, and counts.
    fn pick(
        &mut self,
        ports: [Port; 2],
        room: Option<usize>,
        random: &mut Random,
        counts: &mut Counts,
    ) -> Result<(), String> {
        let turn = self.reference.turn;
        let Some(room) = room else {
            let Choice { number, port, .. } = self.choose(ports)?;
            counts.returned(number);
            counts.picked(&Pick { turn, ports, room, port, number });
            return Ok(());
        };
        let Next { port, sent } = self.serve_next(ports, room, random)?;
        let pick = Pick { turn, ports, room: Some(room), port, number: sent.number };
        match pick.slice() {
            Some(slice) => counts.served(slice, sent, &self.area),
            None => counts.returned(sent.number),
        }
        counts.picked(&pick);
        Ok(())
    }
}

fn hex(bytes: &[u8]) -> String {
    bytes.iter().map(|byte| format!("{byte:02X}")).collect()
}

fn answer(sent: Sent, area: &[u8]) -> String {
    let reply = &area[..sent.length.min(area.len())];
    let Sent { number, length, position } = sent;
    format!("number {number}, position {position}, length {length}, reply {}", hex(reply))
}

fn lent([a, b]: [Port; 2], turn: u8) -> String {
    let [a, b] = [a, b].map(|port| format!("{}, of which {} wait", hex(port.buffer), port.waiting));
    format!("A {a}, B {b}, turn {turn}")
}

/// Each slot and input port, with the byte that it holds before the frames are served.
fn inputs() -> impl Iterator<Item = (usize, u16, u8)> {
    (0..4).flat_map(|slot| (0..32).map(move |port| (slot, port, (slot * 67 + usize::from(port) * 29) as u8)))
}

/// Serves the frames on both sides and compares.
fn compare_frames(frames: &Frames) -> Result<Counts, String> {
    let mut random = Random::new(1);
    let mut pair = Pair::fitted()?;
    let mut counts = Counts::new();
    for (index, slice) in frames.iter().enumerate() {
        let sent = pair.serve(slice, REPLY_ROOM, &mut random).map_err(|text| format!("frame {index}: {text}"))?;
        counts.served(slice, sent, &pair.area);
    }
    if counts.numbers[0] != FRAMES - FRAMES / 10 {
        return Err(format!("{} frames were accepted, not nine in ten", counts.numbers[0]));
    }
    match (2..=12).find(|&number| counts.numbers[number] == 0) {
        Some(number) => Err(format!("no frame of the set reaches refusal {number}")),
        None => Ok(counts),
    }
}

/// Makes the same calls on both sides and compares.
fn compare_calls() -> Result<Counts, String> {
    let mut random = Random::new(2);
    let mut pair = Pair::new();
    let mut counts = Counts::new();
    for index in 0..CALLS {
        let call = frames::call(&mut random, &pair.reference.stations);
        let made = match call {
            Call::Setup(want) => {
                pair.lend(frames::lent(&mut random, 8));
                pair.setup(&want).map(|number| counts.returned(number))
            }
            Call::Input { slot, port, byte } => pair.input(slot, port, byte).map(|number| counts.returned(number)),
            Call::OutputsOn(slot) => pair.outputs_on(slot).map(|count| counts.asked(count)),
            Call::Serve { slice, room } => {
                let length = frames::lent(&mut random, 100);
                let sent = pair.lend_once(length, |pair| pair.serve(&slice, room, &mut random));
                sent.map(|sent| counts.served(&slice, sent, &pair.area))
            }
            Call::Pick { buffers, room } => pair.pick_from(&buffers, room, &mut random, &mut counts),
        };
        made.map_err(|text| format!("call {index}: {text}"))?;
    }
    // No call on a box gives 15, which is for readers of replies.
    let mut given = (0..=14).chain([EMPTY, IDLE].map(usize::from));
    if let Some(number) = given.find(|&number| counts.numbers[number] == 0) {
        return Err(format!("no call reaches refusal {number}"));
    }
    if let Some(number) = [0, INPUT].into_iter().find(|&number| counts.asked[usize::from(number)] == 0) {
        return Err(format!("no call that asks for the outputs on gets {number}"));
    }
    if let Some((name, _)) = kinds::names().zip(counts.kinds).find(|(_, count)| *count == 0) {
        return Err(format!("no call reaches the position {name}"));
    }
    counts.every_outcome()?;
    counts.every_pick()?;
    Ok(counts)
}

/// Turns the outputs of each arm on and off by signals and by ports, so that each number from 0 to 256 comes up.
fn compare_every_number() -> Result<(), String> {
    let mut random = Random::new(3);
    let mut pair = Pair::new();
    pair.setup(&STATIONS.map(u16::from))?;
    let writes = (0..256)
        .map(|signal| (format!("SNOB {signal} 1"), signal + 1))
        .chain((0..32).map(|port| (format!("SNOD {port} 0"), 256 - 8 * (port + 1))))
        .chain((0..32).map(|port| (format!("SNOD {port} 255"), 8 * (port + 1))))
        .chain((0..256).map(|signal| (format!("SNOB {signal} 0"), 256 - (signal + 1))));
    for (body, count) in writes {
        for (slot, station) in STATIONS.into_iter().enumerate() {
            let slice = frames::frame(format!("{station} {body}").as_bytes());
            // The second time nothing changes.
            for _ in 0..2 {
                pair.serve(&slice, REPLY_ROOM, &mut random)?;
                let told = pair.outputs_on(slot)?;
                if told != (Count { number: 0, count }) {
                    return Err(format!("{station} {body}: {count} outputs are on, and asking gives {told:?}"));
                }
            }
        }
    }
    Ok(())
}

/// Makes calls from memory that no call leaves, each time up to a setup. The turn is overwritten time and again.
fn compare_other_memory() -> Result<Counts, String> {
    let mut random = Random::new(4);
    let mut counts = Counts::new();
    let mut wraps = Wraps { above: false, below: false };
    for start in 0..STARTS {
        let mut pair = Pair::other(frames::other_memory(&mut random));
        while !pair.is_box {
            pair.overwrite_turn(frames::turn(&mut random, pair.reference.turn));
            let before = pair.gateway.clone();
            let made = match frames::call(&mut random, &before.stations) {
                Call::Setup(want) => pair.setup(&want).map(|_| ()),
                Call::Input { slot, port, byte } => pair.input(slot, port, byte).map(|_| ()),
                // Every slot is asked below; the reference would count and not tell the number kept.
                Call::OutputsOn(_) => Ok(()),
                Call::Serve { slice, room } => {
                    pair.serve(&slice, room, &mut random).map(|sent| counts.served(&slice, sent, &pair.area))
                }
                Call::Pick { buffers, room } => pair.pick_from(&buffers, room, &mut random, &mut counts),
            };
            made.and_then(|()| pair.moved_numbers(&before, &mut wraps))
                .map_err(|text| format!("other memory, start {start}: {text}"))?;
        }
    }
    counts.every_outcome().and_then(|()| counts.every_pick()).map_err(|text| format!("other memory: {text}"))?;
    match wraps {
        Wraps { above: true, below: true } => Ok(counts),
        _ => Err("from other memory no number goes above 65535, or none below 0".to_string()),
    }
}

/// The time of one round over all frames, in ns a frame.
fn round(frames: &Frames, mut step: impl FnMut(&[u8])) -> f64 {
    let start = Instant::now();
    for slice in frames.iter() {
        step(slice);
    }
    start.elapsed().as_nanos() as f64 / FRAMES as f64
}

fn gateway_round(frames: &Frames) -> f64 {
    let mut tables = Tables::new();
    let mut reply = [0; REPLY_ROOM];
    gateway::setup(&mut tables, &STATIONS.map(u16::from));
    for (slot, port, byte) in inputs() {
        gateway::input(&mut tables, slot, port, byte);
    }
    round(frames, |slice| {
        black_box(gateway::serve(&mut tables, slice, &mut reply));
    })
}

fn reference_round(frames: &Frames) -> f64 {
    let mut tables = Tables::new();
    let mut reply = [0; REPLY_ROOM];
    reference::setup(&mut tables, &STATIONS.map(u16::from));
    for (slot, port, byte) in inputs() {
        reference::input(&mut tables, slot, port, byte);
    }
    round(frames, |slice| {
        black_box(reference::serve(&mut tables, slice, &mut reply));
    })
}

/// The exclusive or of each slice alone.
fn floor_round(frames: &Frames) -> f64 {
    round(frames, |slice| {
        black_box(lrc(slice));
    })
}

/// The times of a round of the gateway and of one of the reference, whose order alternates.
fn in_turn(index: usize, gateway: impl FnOnce() -> f64, reference: impl FnOnce() -> f64) -> (f64, f64) {
    if index % 2 == 0 {
        let gateway = gateway();
        (gateway, reference())
    } else {
        let reference = reference();
        (gateway(), reference)
    }
}

/// The least and the median.
fn summary(mut times: Vec<f64>) -> (f64, f64) {
    times.sort_by(f64::total_cmp);
    (times[0], times[times.len() / 2])
}

/// Takes the time of serving the frames, and of serving those that are filled from two ports.
fn time(frames: &Frames, filled: &Frames, rounds: usize) -> Result<(), String> {
    let (mut gateway, mut reference, mut floor) = (Vec::new(), Vec::new(), Vec::new());
    for index in 0..rounds {
        let times = in_turn(index, || gateway_round(frames), || reference_round(frames));
        gateway.push(times.0);
        reference.push(times.1);
        floor.push(floor_round(frames));
    }
    let (gateway, reference, floor) = (summary(gateway), summary(reference), summary(floor));
    let [gateway_picks, reference_picks] = picks::time(filled, rounds)?;
    println!("{rounds} rounds of {FRAMES} frames, {} bytes", frames.bytes());
    println!("from two ports {} frames, all but the empty ones, which cannot wait", filled.count());
    println!("{:<35}{:>10}{:>10}", "ns a frame", "least", "median");
    let times = [
        ("gateway", gateway),
        ("reference", reference),
        ("floor", floor),
        ("gateway, two ports", gateway_picks),
        ("reference, two ports", reference_picks),
    ];
    for (name, (least, median)) in times {
        println!("{name:<35}{least:>10.1}{median:>10.1}");
    }
    let quotients =
        [("gateway/reference", gateway, reference), ("gateway/reference, two ports", gateway_picks, reference_picks)];
    for (name, gateway, reference) in quotients {
        println!("{name:<35}{:>10.3}{:>10.3}", gateway.0 / reference.0, gateway.1 / reference.1);
    }
    Ok(())
}

fn run(rounds: usize) -> Result<(), String> {
    let frames = frames::benchmark_set();
    let set = compare_frames(&frames)?;
    let stream = compare_calls()?;
    compare_every_number()?;
    let other = compare_other_memory()?;
    picks::compare_every_turn()?;
    let filled = frames.filled();
    picks::compare_frames(&filled)?;
    let receiving = line::compare_lines()?;
    let slices = line::compare_frames(&frames)?;
    let replies = asked::benchmark_set();
    let reading = readings::compare(&replies)?;
    println!("{:<35}{:>10}{:>10}", "number", "frames", "calls");
    for (number, (set, stream)) in set.numbers.iter().zip(&stream.numbers).enumerate() {
        println!("{number:<35}{set:>10}{stream:>10}");
    }
    println!("{:<35}{:>10}{:>10}", "position", "frames", "calls");
    for (name, (set, stream)) in kinds::names().zip(set.kinds.iter().zip(&stream.kinds)) {
        println!("{name:<35}{set:>10}{stream:>10}");
    }
    let [answered, refused] = [0, INPUT].map(|number| stream.asked[usize::from(number)]);
    println!("{answered} of the calls ask for the outputs on and get 0, {refused} get 14");
    println!("{:<35}{:>10}{:>14}", "pick of one of two ports", "calls", "other memory");
    for ((name, _), (stream, other)) in PICKS.iter().zip(stream.picks.iter().zip(&other.picks)) {
        println!("{name:<35}{stream:>10}{other:>14}");
    }
    println!("{:<35}{:>10}{:>10}{:>14}", "LNA and SNA at an arm", "frames", "calls", "other memory");
    for (index, outcome) in OUTCOMES.iter().enumerate() {
        let [set, stream, other] = [&set, &stream, &other].map(|counts| counts.outcomes[index]);
        println!("{:<35}{set:>10}{stream:>10}{other:>14}", outcome.to_string());
    }
    let [set, stream, other] = [&set, &stream, &other].map(|counts| counts.outcomes.iter().sum::<usize>());
    println!("{:<35}{set:>10}{stream:>10}{other:>14}", "all");
    receiving.print();
    reading.print();
    println!("gateway and reference agree on {FRAMES} frames and {CALLS} calls\n");
    time(&frames, &filled, rounds)?;
    line::time(&frames, slices, rounds);
    readings::time(&replies, rounds);
    Ok(())
}

fn main() -> ExitCode {
    let rounds = match env::args().nth(1).map(|argument| argument.parse()) {
        None => ROUNDS,
        Some(Ok(rounds)) if rounds > 0 => rounds,
        Some(_) => {
            eprintln!("usage: llamput-bench [ROUNDS]");
            return ExitCode::from(2);
        }
    };
    match run(rounds) {
        Ok(()) => ExitCode::SUCCESS,
        Err(text) => {
            eprintln!("{text}");
            ExitCode::FAILURE
        }
    }
}
