// The entries of libllamput.a, which `tools/archive` writes for programs on x86-64 Linux.
//
// The caller owns all memory. No two areas overlap, but the buffers of two ports may. No pointer is null; one to an area of
// length 0 may be any other.
// The tables of a box come in the order timers, registers, x, y, z, w, inputs, outputs, memory, on. The first index of
// each is the slot. Timers, x, y, z and w are in hundredths; inputs, outputs and memory are ports of eight bits; on is the
// number of outputs that are on, which setup and serving keep. programs is a memory of 40,960 bytes for the START programs
// of the four arms (docs/MEMORY.md). stations has the station of each slot, 0 where it is unfitted. turn is a byte for boxes with
// two ports, A and B, each with a computer: the port that was served last, 1 for A, 2 for B; 0, as setup leaves it, and every
// other value mean neither.
//
// Refusal numbers, in the order checked; 0 is no refusal:
//  17 IDLE     neither of two ports has a slice waiting, before all others
//   1 ROOM     the reply area is under 64 bytes,         8 ABSENT   no fitted arm has the station
//              programs has another length, or           9 COMMAND  the first field is no command
//              the area for a slice is under 255 bytes
//   2 LENGTH   the slice is under 6 or over 255 bytes   10 SHAPE    a wrong count of fields, or a field not in its form
//   3 START    the first byte is not STX                11 NUMBER   the number is outside its range
//   4 END      the last byte but one is not ETX         12 VALUE    data are outside their range
//   5 LRC      the last byte is not the LRC             13 SETUP    a station above 99, or a nonzero one twice
//   6 STRAY    a byte between STX and ETX not 20h..7Eh  14 INPUT    a slot above 3 or unfitted, or a port above 31
//   7 STATION  no SP, or no station before the first    15 REPLY    not the asked station, or no reply to that request
//                                                       16 EMPTY    LNA of a step that was never written
#ifndef LLAMPUT_H
#define LLAMPUT_H

#include <stddef.h>
#include <stdint.h>

#ifdef __cplusplus
extern "C" {
#endif

// What serving returns: the refusal number, or 0; how many bytes of reply were written; and the position where a refused
// slice is wrong, an offset in it: 6 the first stray byte, 7 the station, 9 the command, 10 the first malformed field, else
// the first surplus one, else ETX, 11 the number, 12 the datum. For any other number it is 0.
struct llamput_sent {
    uint8_t number;
    size_t length;
    size_t position;
};

// What llamput_outputs_on returns: the refusal number, or 0; and how many outputs are on, 0 where it refuses.
struct llamput_count {
    uint8_t number;
    uint16_t count;
};

// What receiving returns: the refusal number, or 0; how many bytes of arrived were taken; and the length of the slice that
// was finished, 0 for none.
struct llamput_received {
    uint8_t number;
    size_t taken;
    size_t length;
};

// What llamput_choose returns: the refusal number, or 0; the port that is picked, 0 for none, 1 for A, 2 for B; and the length
// of the slice that waits there, from the start of its buffer, 0 for none.
struct llamput_choice {
    uint8_t number;
    uint8_t port;
    size_t length;
};

// What llamput_serve_next returns: the port that was served, 0 for none, 1 for A, 2 for B; and what serving its slice returned.
struct llamput_next {
    uint8_t port;
    struct llamput_sent sent;
};

// The commands, by their codes.
enum llamput_command {
    LLAMPUT_LNT = 0,
    LLAMPUT_SNT = 1,
    LLAMPUT_LND = 2,
    LLAMPUT_SND = 3,
    LLAMPUT_LNL = 4,
    LLAMPUT_SNL = 5,
    LLAMPUT_LNIB = 6,
    LLAMPUT_LNOB = 7,
    LLAMPUT_SNOB = 8,
    LLAMPUT_LNID = 9,
    LLAMPUT_LNOD = 10,
    LLAMPUT_SNOD = 11,
    LLAMPUT_LNBB = 12,
    LLAMPUT_SNBB = 13,
    LLAMPUT_LNBD = 14,
    LLAMPUT_SNBD = 15,
    LLAMPUT_LNA = 16,
    LLAMPUT_SNA = 17,
};

// The kinds of what a reply carries: nothing where it is refused; seconds or a count, one double; millimetres, four doubles, X,
// Y, Z and W; a status or the texts of a step, no double.
enum llamput_kind {
    LLAMPUT_NOTHING = 0,
    LLAMPUT_SECONDS = 1,
    LLAMPUT_MILLIMETRES = 2,
    LLAMPUT_COUNT = 3,
    LLAMPUT_STATUS = 4,
    LLAMPUT_STEP = 5,
};

// What llamput_read_converted returns: the refusal number, or 0; the status that the reply carries, 0 where it carries none; and
// the position where a refused slice is wrong: 6 the first stray byte, 7 of the slice the station. For any other refusal, and
// for those of the asked request, it is 0.
struct llamput_reply {
    uint8_t number;
    uint8_t status;
    size_t position;
};

// Sets up a new box, whatever the memory held: every table, programs and *turn zero, each slot with its station from want, 0 for
// none. Returns 0, or 1 or 13 where it refuses: then every table and *turn are zero, no slot is fitted, and programs is
// untouched.
uint8_t llamput_setup(uint16_t timers[4][16], uint16_t registers[4][64], int32_t x[4][100], int32_t y[4][100],
                      int32_t z[4][100], int32_t w[4][100], uint8_t inputs[4][32], uint8_t outputs[4][32],
                      uint8_t memory[4][16], uint16_t on[4], uint8_t *programs, size_t programs_length,
                      uint8_t stations[4], uint8_t *turn, const uint16_t want[4]);

// Serves a slice that should be one frame: performs its request on the arm addressed, and writes the reply into reply.
// Refusals 1 to 8 write no reply, 9 to 12 and 16 do; none changes a table or programs. Bytes of reply past the length
// stay as they were.
struct llamput_sent llamput_serve(uint16_t timers[4][16], uint16_t registers[4][64], int32_t x[4][100],
                                  int32_t y[4][100], int32_t z[4][100], int32_t w[4][100], uint8_t inputs[4][32],
                                  uint8_t outputs[4][32], uint8_t memory[4][16], uint16_t on[4], uint8_t *programs,
                                  size_t programs_length, const uint8_t stations[4], const uint8_t *slice,
                                  size_t slice_length, uint8_t *reply, size_t reply_length);

// Puts a byte into an input port of the slot's arm, as the arm's own wiring does.
// Returns 0, or 14 where it refuses: then nothing changes.
uint8_t llamput_input(uint16_t timers[4][16], uint16_t registers[4][64], int32_t x[4][100], int32_t y[4][100],
                      int32_t z[4][100], int32_t w[4][100], uint8_t inputs[4][32], uint8_t outputs[4][32],
                      uint8_t memory[4][16], uint16_t on[4], const uint8_t stations[4], size_t slot, uint16_t port,
                      uint8_t byte);

// Tells how many of the 256 outputs of the slot's arm are on: the ones in its output ports, as kept in on.
// Changes nothing. The number is 0, or 14 where it refuses a slot above 3 or unfitted.
struct llamput_count llamput_outputs_on(const uint16_t on[4], const uint8_t stations[4], size_t slot);

// Finds slices in a line of loose bytes: takes bytes of arrived until a slice is finished or none is left. A finished slice
// stands at the front of area, to be served; the rest of area, or without a slice all of it, stays as it was. held and count
// are the receiver's state, which the caller keeps from call to call: the first *count bytes of held are those of a frame
// that is not finished, and a count of 0, with which a line begins, or of 255 means none. An STX that begins a frame is
// stored at held[0], any other byte that is not dropped behind those held, and no other byte of held changes. Refuses with 1
// where area_length is under 255: then nothing is taken, and nothing changes.
struct llamput_received llamput_receive(uint8_t held[255], uint8_t *count, const uint8_t *arrived, size_t arrived_length,
                                        uint8_t *area, size_t area_length);

// Picks which of two ports is served next. Each lends a buffer, a of a_length bytes and b of b_length, the first waiting_a and
// waiting_b bytes of which are a slice that waits; a waiting length of 0, or beyond the buffer, means none. When both wait, the
// port not served last goes, and A in a new box. *turn then keeps the port that was picked. Refuses with 17 where neither
// waits: then the port and the length are 0, and *turn is as it was.
struct llamput_choice llamput_choose(uint8_t *turn, const uint8_t *a, size_t a_length, size_t waiting_a, const uint8_t *b,
                                     size_t b_length, size_t waiting_b);

// Picks as llamput_choose does, and serves the slice that waits as llamput_serve does; where that refuses it, the turn is used
// all the same. Refuses with 17, before all other checks, where neither port waits: then nothing changes.
struct llamput_next llamput_serve_next(uint16_t timers[4][16], uint16_t registers[4][64], int32_t x[4][100],
                                       int32_t y[4][100], int32_t z[4][100], int32_t w[4][100], uint8_t inputs[4][32],
                                       uint8_t outputs[4][32], uint8_t memory[4][16], uint16_t on[4], uint8_t *programs,
                                       size_t programs_length, const uint8_t stations[4], uint8_t *turn,
                                       const uint8_t *a, size_t a_length, size_t waiting_a, const uint8_t *b,
                                       size_t b_length, size_t waiting_b, uint8_t *reply, size_t reply_length);

// Reads a slice as the reply to a request, and makes doubles of its numbers. The request was for a station; it is given by its
// command, one of enum llamput_command, its number, and its data: values for an SN, in hundredths for a timer and a row, all
// four of them for a row and else the first; texts for an SNA, the command and up to four data, each of up to eight characters
// with the first in the lowest byte, and 0 behind the last. For an LN neither is looked at.
// *kind is then one of enum llamput_kind, doubles has the doubles, and step the texts of a step in the form of texts; each that
// there is none of is 0. Seconds and millimetres are the hundredths divided by 100 once, and 0 is plus zero.
// Refuses the request with 7 for a station of 0 or above 99, 9 for a command that is none, 11 and 12; then the slice with 2 to
// 7, and with 15 where it is not from that station, or no reply to that request.
struct llamput_reply llamput_read_converted(const uint8_t *slice, size_t slice_length, uint8_t station, uint8_t command,
                                            uint16_t number, const int32_t values[4], const uint64_t texts[5],
                                            uint8_t *kind, double doubles[4], uint64_t step[5]);

// Makes doubles of data that a program has read itself: of LLAMPUT_SECONDS the hundredths in values[0], of LLAMPUT_MILLIMETRES
// the hundredths of X, Y, Z and W, of LLAMPUT_COUNT the number in values[0]. The others of doubles, and for any other kind all of
// them, are 0.
void llamput_convert(uint8_t kind, const int32_t values[4], double doubles[4]);

#ifdef __cplusplus
}
#endif

#endif
