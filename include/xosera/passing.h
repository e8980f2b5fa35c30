/* SPDX-License-Identifier: MIT */
/*
 * How time passes: blitter words, timer ticks and beam steps, asked for by the test or passing with
 * each byte accessed. docs/FIRMWARE.md, "How time passes", has a table.
 */
#ifndef XOSERA_MODEL_PASSING_H
#define XOSERA_MODEL_PASSING_H

#include <stdbool.h>
#include <stdint.h>

#include "adapter.h"
#include "calls.h"
#include "registers.h"

/* Words of blitting, asked for by the test (`call` is step or run) or passing with a byte. */
static inline uint64_t xosera_pass_words(xosera *x, xosera_call call, uint64_t n, bool passing)
{
    xosera_access what = xosera_asked(call, n, passing);
    xosera_calling(x);
    what = xosera_make_blit(x, what);
    if (!passing) {
        x->mask = what.mask;
    }
    if (what.count != 0) {
        xosera_changed(x);
    }
    xosera_called(x, what);
    return what.count;
}

/* Ticks, or beam steps (`call`), likewise. */
static inline uint64_t xosera_pass_time(xosera *x, xosera_call call, uint64_t n, bool passing)
{
    xosera_access what = xosera_asked(call, n, passing);
    const uint16_t status = x->state.status;
    xosera_calling(x);
    what = xosera_make_time(x, what);
    if ((!passing && what.count != 0) || x->state.status != status) {
        xosera_changed(x);
    }
    xosera_called(x, what);
    return what.count;
}

/* Up to n words of blitting; one word. How many were done. */
static inline uint64_t xosera_run(xosera *x, uint64_t n)
{
    return xosera_pass_words(x, XOSERA_CALL_RUN, n, false);
}

static inline uint64_t xosera_step(xosera *x)
{
    return xosera_pass_words(x, XOSERA_CALL_STEP, 1, false);
}

/* A tenth of a millisecond; n of them, and how many were done: fewer only where one was refused. */
static inline void xosera_tick(xosera *x)
{
    (void)xosera_pass_time(x, XOSERA_CALL_TICK, 1, false);
}

static inline uint64_t xosera_ticks(xosera *x, uint64_t n)
{
    return n == 0 ? 0 : xosera_pass_time(x, XOSERA_CALL_TICK, n, false);
}

/* Is the interrupt line up? */
static inline bool xosera_line_up(xosera *x)
{
    xosera_access what = xosera_asked(XOSERA_CALL_LINE, 0, false);
    xosera_calling(x);
    what = xosera_make(x, what);
    xosera_called(x, what);
    return what.up;
}

/* The beam moves on by one native pixel, or by up to n; with each a running copper does one
 * instruction. No byte is accessed, so neither blitter nor timer moves. How many were done: fewer
 * than asked for only where one was refused, which ends it. */
static inline uint64_t xosera_beam_pixel(xosera *x)
{
    return xosera_pass_time(x, XOSERA_CALL_BEAM_STEP, 1, false);
}

static inline uint64_t xosera_beam_pixels(xosera *x, uint64_t n)
{
    return n == 0 ? 0 : xosera_pass_time(x, XOSERA_CALL_BEAM_STEP, n, false);
}

/* Until the beam comes to this place, by one pixel at least and a whole frame at most. How many
 * were done; 0, and the beam stays, where a frame has no such place or the first was refused. */
static inline uint64_t xosera_beam_to(xosera *x, uint16_t line, uint16_t position)
{
    const uint64_t here =
        (uint64_t)x->state.beam.line * XOSERA_LINE_POSITIONS + x->state.beam.position;
    const uint64_t there = (uint64_t)line * XOSERA_LINE_POSITIONS + position;
    if (line >= XOSERA_FRAME_LINES || position >= XOSERA_LINE_POSITIONS) {
        return 0;
    }
    const uint64_t n = there + XOSERA_FRAME_STEPS - here % XOSERA_FRAME_STEPS;
    return xosera_beam_pixels(x, n <= XOSERA_FRAME_STEPS ? n : n - XOSERA_FRAME_STEPS);
}

/* Until the next frame end: the beam reaches line 480. */
static inline uint64_t xosera_frame(xosera *x)
{
    return xosera_beam_to(x, XOSERA_VISIBLE_LINES, 0);
}

/* Words left in the running blit, the queued one not counted; 0 when idle. */
static inline uint64_t xosera_words_left(const xosera *x)
{
    const xosera_engine *e = &x->state.engine;
    if (!e->running) {
        return 0;
    }
    return (uint64_t)(e->regs.lines - e->line) * ((uint64_t)e->regs.words + 1) +
           (uint64_t)(e->regs.words - e->word) + 1;
}

/* The board's rates; docs/FIRMWARE.md, "Loops of the firmware's own", has the reasons. A byte takes
 * the CPU 8 cycles, and 127 bytes one more, so that no loop keeps step with timer or beam. */
#define XOSERA_CYCLES_OF_127_BYTES  1017
#define XOSERA_PIXELS_A_SECOND      25175000
#define XOSERA_TICKS_A_SECOND       10000
#define XOSERA_PIXELS_PER_BLIT_WORD 4

/* Blitter, timer and beam pass with each byte accessed as on a board whose CPU has this clock, in
 * Hz: xosera_board_rates(x, 10000000). With 0 nothing passes, as after xosera_attach. */
static inline void xosera_board_rates(xosera *x, uint64_t cpu_hz)
{
    const uint64_t cycles = cpu_hz == 0 ? 0 : XOSERA_CYCLES_OF_127_BYTES;
    const uint64_t clock = cpu_hz <= UINT64_MAX / 127 ? cpu_hz * 127 : UINT64_MAX;
    const uint64_t pixels = XOSERA_PIXELS_A_SECOND * cycles;
    x->blit_rate = xosera_per(pixels / XOSERA_PIXELS_PER_BLIT_WORD, clock);
    x->blit_per_access = 0;
    x->tick_rate = xosera_per(XOSERA_TICKS_A_SECOND * cycles, clock);
    x->beam_rate = xosera_per(pixels, clock);
}

/* How many are due with one more byte. */
static inline uint64_t xosera_due(xosera_rate *rate)
{
    if (rate->count == 0) {
        return 0;
    }
    const uint64_t accesses = rate->accesses == 0 ? 1 : rate->accesses;
    const uint64_t part = rate->count % accesses;
    const uint64_t owed = rate->owed < accesses ? rate->owed : 0;
    const bool one_more = owed >= accesses - part;
    rate->owed = one_more ? owed - (accesses - part) : owed + part;
    return rate->count / accesses + (one_more ? 1 : 0);
}

/* The time that a byte took: blitter, then timer, then beam. */
XOSERA_APART void xosera_time_passes(xosera *x)
{
    const uint64_t due = xosera_due(&x->blit_rate);
    const uint64_t words =
        due <= UINT64_MAX - x->blit_per_access ? due + x->blit_per_access : UINT64_MAX;
    const uint64_t ticks = xosera_due(&x->tick_rate);
    const uint64_t steps = xosera_due(&x->beam_rate);
    if (words != 0 && x->state.engine.running) {
        (void)xosera_pass_words(x, XOSERA_CALL_RUN, words, true);
    }
    if (ticks != 0) {
        (void)xosera_pass_time(x, XOSERA_CALL_TICK, ticks, true);
    }
    if (steps != 0) {
        (void)xosera_pass_time(x, XOSERA_CALL_BEAM_STEP, steps, true);
    }
}

/* Something passes with bytes. */
static inline bool xosera_has_rates(const xosera *x)
{
    return (x->blit_rate.count | x->blit_per_access | x->tick_rate.count | x->beam_rate.count) != 0;
}

/* How many passed at this rate with the bytes that the watchdog has counted. */
static inline double xosera_passed(const xosera *x, xosera_rate rate)
{
    const double accesses = rate.accesses == 0 ? 1 : (double)rate.accesses;
    return (double)x->unchanged * (double)rate.count / accesses;
}

/* Nothing but time has passed, for half a minute by timer and by beam, each if it has a rate, and
 * no blit that has one is running. It is asked at every 256th byte. */
static inline bool xosera_half_minute_passed(const xosera *x)
{
    const double ticks = xosera_passed(x, x->tick_rate);
    const double steps = xosera_passed(x, x->beam_rate);
    const double seconds = XOSERA_WATCHDOG_SECONDS;
    return x->unchanged % 256 == 0 && (x->state.engine.running == 0 || x->blit_rate.count == 0) &&
           (x->tick_rate.count == 0 || ticks >= seconds * XOSERA_TICKS_A_SECOND) &&
           (x->beam_rate.count == 0 || steps >= seconds * XOSERA_PIXELS_A_SECOND) &&
           (double)x->unchanged + ticks + steps >= XOSERA_WATCHDOG;
}

/* A byte is accessed: the watchdog counts it, anew where rates were set or taken away. */
static inline void xosera_byte_begins(xosera *x)
{
    const bool waiting = xosera_has_rates(x);
    xosera_calling(x);
    x->unchanged = waiting == x->unchanged_waiting ? x->unchanged + 1 : 1;
    x->unchanged_waiting = waiting;
}

/* So many bytes changed nothing; 0: never too many. */
static inline bool xosera_too_many(const xosera *x, uint64_t most, bool passes)
{
    if (passes && most == XOSERA_WATCHDOG_BY_RATES) {
        return xosera_half_minute_passed(x);
    }
    return most != 0 && x->unchanged >= most;
}

/* A byte was accessed: time passes, and the watchdog looks. A refused byte takes as long as
 * another; only where state or memories are refused no time passes. */
static inline void xosera_byte_passes(xosera *x, xosera_access what)
{
    const bool works = what.refusal == XOSERA_DONE || what.refusal > XOSERA_STATE_RANGE;
    const bool passes = works && x->unchanged_waiting;
    if (passes) {
        xosera_time_passes(x);
    }
    if (xosera_too_many(x, passes ? x->watchdog_waiting : x->watchdog, passes)) {
        xosera_stuck(x, what);
    }
}

#endif /* XOSERA_MODEL_PASSING_H */
