//! The entries of libllamput.a, as include/llamput.h declares them.

use crate::receiver::{Received, Receiver};
use crate::reference::{Choice, Count, Next, Port, Sent, Tables};
use crate::replies::{Answer, Asked, Lent};

#[repr(C)]
struct LlamputSent {
    number: u8,
    length: usize,
    position: usize,
}

#[repr(C)]
struct LlamputCount {
    number: u8,
    count: u16,
}

#[repr(C)]
struct LlamputReceived {
    number: u8,
    taken: usize,
    length: usize,
}

#[repr(C)]
struct LlamputChoice {
    number: u8,
    port: u8,
    length: usize,
}

#[repr(C)]
struct LlamputNext {
    port: u8,
    sent: LlamputSent,
}

#[repr(C)]
struct LlamputReply {
    number: u8,
    status: u8,
    position: usize,
}

extern "C" {
    fn llamput_setup(
        timers: *mut [u16; 16],
        registers: *mut [u16; 64],
        x: *mut [i32; 100],
        y: *mut [i32; 100],
        z: *mut [i32; 100],
        w: *mut [i32; 100],
        inputs: *mut [u8; 32],
        outputs: *mut [u8; 32],
        memory: *mut [u8; 16],
        on: *mut u16,
        programs: *mut u8,
        programs_length: usize,
        stations: *mut u8,
        turn: *mut u8,
        want: *const u16,
    ) -> u8;

    fn llamput_serve(
        timers: *mut [u16; 16],
        registers: *mut [u16; 64],
        x: *mut [i32; 100],
        y: *mut [i32; 100],
        z: *mut [i32; 100],
        w: *mut [i32; 100],
        inputs: *mut [u8; 32],
        outputs: *mut [u8; 32],
        memory: *mut [u8; 16],
        on: *mut u16,
        programs: *mut u8,
        programs_length: usize,
        stations: *const u8,
        slice: *const u8,
        slice_length: usize,
        reply: *mut u8,
        reply_length: usize,
    ) -> LlamputSent;

    fn llamput_input(
        timers: *mut [u16; 16],
        registers: *mut [u16; 64],
        x: *mut [i32; 100],
        y: *mut [i32; 100],
        z: *mut [i32; 100],
        w: *mut [i32; 100],
        inputs: *mut [u8; 32],
        outputs: *mut [u8; 32],
        memory: *mut [u8; 16],
        on: *mut u16,
        stations: *const u8,
        slot: usize,
        port: u16,
        byte: u8,
    ) -> u8;

    fn llamput_outputs_on(on: *const u16, stations: *const u8, slot: usize) -> LlamputCount;

    fn llamput_receive(
        held: *mut u8,
        count: *mut u8,
        arrived: *const u8,
        arrived_length: usize,
        area: *mut u8,
        area_length: usize,
    ) -> LlamputReceived;

    fn llamput_choose(
        turn: *mut u8,
        a: *const u8,
        a_length: usize,
        waiting_a: usize,
        b: *const u8,
        b_length: usize,
        waiting_b: usize,
    ) -> LlamputChoice;

    fn llamput_serve_next(
        timers: *mut [u16; 16],
        registers: *mut [u16; 64],
        x: *mut [i32; 100],
        y: *mut [i32; 100],
        z: *mut [i32; 100],
        w: *mut [i32; 100],
        inputs: *mut [u8; 32],
        outputs: *mut [u8; 32],
        memory: *mut [u8; 16],
        on: *mut u16,
        programs: *mut u8,
        programs_length: usize,
        stations: *const u8,
        turn: *mut u8,
        a: *const u8,
        a_length: usize,
        waiting_a: usize,
        b: *const u8,
        b_length: usize,
        waiting_b: usize,
        reply: *mut u8,
        reply_length: usize,
    ) -> LlamputNext;

    fn llamput_read_converted(
        slice: *const u8,
        slice_length: usize,
        station: u8,
        command: u8,
        number: u16,
        values: *const i32,
        texts: *const u64,
        kind: *mut u8,
        doubles: *mut f64,
        step: *mut u64,
    ) -> LlamputReply;

    fn llamput_convert(kind: u8, values: *const i32, doubles: *mut f64);
}

// In each call the areas are fields of one exclusively borrowed struct, or what such a field owns, or borrowed apart
// from it or from each other, so none overlap but the buffers of two ports, which may, and each has the length that the
// header declares or that is given.

pub fn setup(tables: &mut Tables, want: &[u16; 4]) -> u8 {
    unsafe {
        llamput_setup(
            tables.timers.as_mut_ptr(),
            tables.registers.as_mut_ptr(),
            tables.x.as_mut_ptr(),
            tables.y.as_mut_ptr(),
            tables.z.as_mut_ptr(),
            tables.w.as_mut_ptr(),
            tables.inputs.as_mut_ptr(),
            tables.outputs.as_mut_ptr(),
            tables.memory.as_mut_ptr(),
            tables.on.as_mut_ptr(),
            tables.programs.as_mut_ptr(),
            tables.programs.len(),
            tables.stations.as_mut_ptr(),
            &mut tables.turn,
            want.as_ptr(),
        )
    }
}

#[inline]
pub fn serve(tables: &mut Tables, slice: &[u8], reply: &mut [u8]) -> Sent {
    let LlamputSent { number, length, position } = unsafe {
        llamput_serve(
            tables.timers.as_mut_ptr(),
            tables.registers.as_mut_ptr(),
            tables.x.as_mut_ptr(),
            tables.y.as_mut_ptr(),
            tables.z.as_mut_ptr(),
            tables.w.as_mut_ptr(),
            tables.inputs.as_mut_ptr(),
            tables.outputs.as_mut_ptr(),
            tables.memory.as_mut_ptr(),
            tables.on.as_mut_ptr(),
            tables.programs.as_mut_ptr(),
            tables.programs.len(),
            tables.stations.as_ptr(),
            slice.as_ptr(),
            slice.len(),
            reply.as_mut_ptr(),
            reply.len(),
        )
    };
    Sent { number, length, position }
}

pub fn input(tables: &mut Tables, slot: usize, port: u16, byte: u8) -> u8 {
    unsafe {
        llamput_input(
            tables.timers.as_mut_ptr(),
            tables.registers.as_mut_ptr(),
            tables.x.as_mut_ptr(),
            tables.y.as_mut_ptr(),
            tables.z.as_mut_ptr(),
            tables.w.as_mut_ptr(),
            tables.inputs.as_mut_ptr(),
            tables.outputs.as_mut_ptr(),
            tables.memory.as_mut_ptr(),
            tables.on.as_mut_ptr(),
            tables.stations.as_ptr(),
            slot,
            port,
            byte,
        )
    }
}

/// The borrow is exclusive so that a change, which the header rules out, would be seen.
pub fn outputs_on(tables: &mut Tables, slot: usize) -> Count {
    let LlamputCount { number, count } =
        unsafe { llamput_outputs_on(tables.on.as_mut_ptr(), tables.stations.as_mut_ptr(), slot) };
    Count { number, count }
}

#[inline]
pub fn receive(receiver: &mut Receiver, arrived: &[u8], area: &mut [u8]) -> Received {
    let LlamputReceived { number, taken, length } = unsafe {
        llamput_receive(
            receiver.held.as_mut_ptr(),
            &mut receiver.count,
            arrived.as_ptr(),
            arrived.len(),
            area.as_mut_ptr(),
            area.len(),
        )
    };
    Received { number, taken, length }
}

pub fn choose(turn: &mut u8, a: Port, b: Port) -> Choice {
    let LlamputChoice { number, port, length } = unsafe {
        llamput_choose(turn, a.buffer.as_ptr(), a.buffer.len(), a.waiting, b.buffer.as_ptr(), b.buffer.len(), b.waiting)
    };
    Choice { number, port, length }
}

#[inline]
pub fn serve_next(tables: &mut Tables, a: Port, b: Port, reply: &mut [u8]) -> Next {
    let LlamputNext { port, sent: LlamputSent { number, length, position } } = unsafe {
        llamput_serve_next(
            tables.timers.as_mut_ptr(),
            tables.registers.as_mut_ptr(),
            tables.x.as_mut_ptr(),
            tables.y.as_mut_ptr(),
            tables.z.as_mut_ptr(),
            tables.w.as_mut_ptr(),
            tables.inputs.as_mut_ptr(),
            tables.outputs.as_mut_ptr(),
            tables.memory.as_mut_ptr(),
            tables.on.as_mut_ptr(),
            tables.programs.as_mut_ptr(),
            tables.programs.len(),
            tables.stations.as_ptr(),
            &mut tables.turn,
            a.buffer.as_ptr(),
            a.buffer.len(),
            a.waiting,
            b.buffer.as_ptr(),
            b.buffer.len(),
            b.waiting,
            reply.as_mut_ptr(),
            reply.len(),
        )
    };
    Next { port, sent: Sent { number, length, position } }
}

/// The code of a command is given beside its name.
#[inline]
pub fn read_converted(slice: &[u8], asked: &Asked, command: u8, lent: Lent) -> Answer {
    let LlamputReply { number, status, position } = unsafe {
        llamput_read_converted(
            slice.as_ptr(),
            slice.len(),
            asked.station,
            command,
            asked.number,
            asked.values.as_ptr(),
            asked.texts.as_ptr(),
            lent.kind,
            lent.doubles.as_mut_ptr(),
            lent.step.as_mut_ptr(),
        )
    };
    Answer { number, status, position }
}

pub fn convert(kind: u8, values: &[i32; 4], doubles: &mut [f64; 4]) {
    unsafe { llamput_convert(kind, values.as_ptr(), doubles.as_mut_ptr()) }
}
