/* SPDX-License-Identifier: MIT */
/*
 * The adapter that a test holds: a state with its two memories, its settings, and the hooks that
 * are told of every call and of every refusal. Which adapter is in use.
 */
#ifndef XOSERA_MODEL_ADAPTER_H
#define XOSERA_MODEL_ADAPTER_H

#include <errno.h>
#include <limits.h>
#include <stdbool.h>
#include <stddef.h>
#include <stdint.h>
#include <stdio.h>
#include <stdlib.h>
#include <string.h>

#include "calls.h"
#include "registers.h"
#include "texts.h"

/* A call made through the handle, with its answer. Ticks, beam steps and lines painted in a row are
 * one access. What a call does not have is 0. */
typedef struct xosera_access {
    xosera_call call;
    unsigned reg;   /* write and read: the register's number; of a why, the nibble's place; of a
                     * paint, the first line; UINT_MAX where it is greater */
    bool odd;       /* write and read */
    uint8_t byte;   /* written, or read */
    uint64_t n;     /* words, ticks, beam steps or lines asked for; a step is 1; of a why, the
                     * address */
    uint64_t count; /* words, ticks, beam steps or lines done; of a save, the file's length in
                     * bytes; of a why, its fate */
    uint8_t mask;   /* answered by a write, step or run */
    bool up;        /* answered by a line question */
    bool passing;   /* made because time passes with a byte accessed, not by the test */
    xosera_refusal refusal;
    const char *file; /* the line of source, of a call made by board.h; else NULL and 0 */
    int line;
} xosera_access;

/* A refused call: why, which, its arguments where it has them, and the line of source as above. */
typedef struct xosera_refused {
    xosera_refusal why; /* XOSERA_DONE: no call was refused */
    xosera_call call;
    unsigned reg; /* write and read; of a why, the nibble's place; of a paint, the first line */
    bool odd;
    uint8_t byte; /* write */
    const char *file;
    int line;
} xosera_refused;

/* So many words, ticks or beam steps for so many bytes accessed. */
typedef struct xosera_rate {
    uint64_t count;
    uint64_t accesses; /* 0 is 1 */
    uint64_t owed; /* kept by the layer: the part of one, in `accesses`, that is still to come */
} xosera_rate;

static inline xosera_rate xosera_per(uint64_t count, uint64_t accesses)
{
    const xosera_rate rate = {count, accesses, 0};
    return rate;
}

/* The watchdog at first: so many bytes; where time passes with bytes, so many of bytes, ticks and
 * beam steps together, and so many seconds of the board's time. */
#define XOSERA_WATCHDOG          10000000
#define XOSERA_WATCHDOG_BY_RATES UINT64_MAX
#define XOSERA_WATCHDOG_SECONDS  30

/* An adapter: its state and the two memories lent to it. Every field may be read, and set between
 * calls. */
typedef struct xosera xosera;
struct xosera {
    xosera_state state;
    uint16_t *vram;
    size_t vram_len; /* in words */
    uint16_t *xr;
    size_t xr_len;

    /* What passes with each byte accessed, at first nothing. xosera_board_rates sets all of it. */
    xosera_rate blit_rate;
    uint64_t blit_per_access; /* words with each byte, besides those of blit_rate */
    xosera_rate tick_rate;
    xosera_rate beam_rate;

    /* The mask that the last step, run or odd data write answered, 0 if it was refused. Every other
     * access leaves it, and so do words that pass with bytes. */
    uint8_t mask;

    /* A refusal is never lost: the first one since xosera_clear_refusals stays, each is counted,
     * and the hook, unless NULL, is told of each at once. It may stop the test. */
    xosera_refused first_refused;
    xosera_refused last_refused;
    uint64_t refusals;
    void (*on_refusal)(xosera *x, const xosera_refused *what);

    /* Told of every call, after it and before on_refusal is told; NULL: none. */
    void (*on_access)(xosera *x, const xosera_access *what);

    /* The watchdog: an adapter is stuck when so many bytes in a row were accessed and nothing
     * changed but what reads change (`watchdog`); where time passes with bytes, nothing but that,
     * timer, beam and copper (`watchdog_waiting`). 0 turns it off. XOSERA_WATCHDOG_BY_RATES: when
     * half a minute of the board's time has passed. The hook, unless NULL, is told and may leave by
     * longjmp; then the program ends with a message. */
    uint64_t watchdog;
    uint64_t watchdog_waiting;
    void (*on_stuck)(xosera *x, const xosera_access *what);
    uint64_t unchanged;     /* the bytes so far, */
    bool unchanged_waiting; /* with which time passed */

    void *user; /* for the hooks; the layer does not touch it */

    const char *file; /* the line of source while board.h makes a call; else NULL and 0 */
    int line;

    FILE *trace; /* set by xosera_trace_to */
    void (*tracer)(xosera *x, const xosera_access *what);
};

/* What recording.h adds: told before and after each call, and when the handle is attached anew. */
typedef struct xosera_recorder xosera_recorder;
struct xosera_recorder {
    void (*before)(xosera_recorder *r, const xosera *x);
    void (*after)(xosera_recorder *r, const xosera_access *what);
    void (*left)(xosera_recorder *r);
};

/* The handles that are recorded, by their addresses: a copy of one is not. */
#define XOSERA_RECORDED_MAX 16
typedef struct xosera_recorded {
    const xosera *handle; /* NULL: a free place */
    xosera_recorder *recorder;
} xosera_recorded;

#ifdef __cplusplus
#define XOSERA_THREAD_LOCAL __thread
extern "C" {
#else
#define XOSERA_THREAD_LOCAL _Thread_local
#endif
/* Weak, so that every file which includes this header shares the one variable, and visible, so that
 * the files of a shared library with hidden names do too. */
#define XOSERA_SHARED __attribute__((weak, visibility("default")))
XOSERA_SHARED XOSERA_THREAD_LOCAL xosera *xosera_in_use = NULL;
XOSERA_SHARED xosera_recorded xosera_recorded_at[XOSERA_RECORDED_MAX] = {{NULL, NULL}};
XOSERA_SHARED unsigned xosera_recorded_count = 0; /* both changed atomically, by any thread */
#ifdef __cplusplus
}
#endif

/* Functions that are kept out of their callers, and functions that are put into each. */
#define XOSERA_APART  __attribute__((unused, noinline)) static
#define XOSERA_WITHIN __attribute__((always_inline)) static inline

/* What records this handle; NULL: nothing. */
XOSERA_APART xosera_recorder *xosera_recorder_found(const xosera *x)
{
    for (unsigned i = 0; i < XOSERA_RECORDED_MAX; i++) {
        if (__atomic_load_n(&xosera_recorded_at[i].handle, __ATOMIC_RELAXED) == x) {
            return xosera_recorded_at[i].recorder;
        }
    }
    return NULL;
}

static inline xosera_recorder *xosera_recorder_of(const xosera *x)
{
    return __atomic_load_n(&xosera_recorded_count, __ATOMIC_RELAXED) == 0
               ? NULL
               : xosera_recorder_found(x);
}

/* Lend the memories to an adapter and reset it; no word of them is changed. A recording of the
 * handle is left without its end. */
static inline void xosera_attach(xosera *x, uint16_t *vram, size_t vram_len, uint16_t *xr,
                                 size_t xr_len)
{
    xosera_recorder *const r = xosera_recorder_of(x);
    if (r != NULL) {
        r->left(r);
    }
    memset(x, 0, sizeof *x);
    xosera_reset(&x->state);
    x->vram = vram;
    x->vram_len = vram_len;
    x->xr = xr;
    x->xr_len = xr_len;
    x->watchdog = XOSERA_WATCHDOG;
    x->watchdog_waiting = XOSERA_WATCHDOG_BY_RATES;
}

/* Forget the refusals so far. */
static inline void xosera_clear_refusals(xosera *x)
{
    x->first_refused.why = XOSERA_DONE;
    x->last_refused.why = XOSERA_DONE;
    x->refusals = 0;
}

/* A line of source as the beginning of a message, in `text`, which is returned. */
#define XOSERA_PLACE 4200 /* the longest path, and a number */
static inline const char *xosera_place(char *text, const char *file, int line)
{
    if (file == NULL) {
        return "";
    }
    return xosera_text_made(text, XOSERA_PLACE,
                            snprintf(text, XOSERA_PLACE, "%s:%d: ", file, line));
}

/* What was refused and where, as one line without its end, cut to `size` bytes, in `text`, which is
 * returned. */
static inline const char *xosera_refusal_message(char *text, size_t size,
                                                 const xosera_refused *what)
{
    char place[XOSERA_PLACE] = "";
    char part[60] = "";
    if (what->call <= XOSERA_CALL_READ) {
        snprintf(part, sizeof part, "%s byte of register %u: ", what->odd ? "odd" : "even",
                 what->reg);
    } else if (what->call == XOSERA_CALL_PAINT || what->call == XOSERA_CALL_PAINT_GREY) {
        snprintf(part, sizeof part, "line %u: ", what->reg);
    }
    const int length = snprintf(
        text, size, "%s%s%s refused, %d: %s", xosera_place(place, what->file, what->line), part,
        xosera_call_text(what->call), (int)what->why, xosera_refusal_text(what->why));
    return xosera_text_made(text, size, length);
}

/* The program ends with a message; a trace is written out before. */
XOSERA_APART void xosera_abort(const xosera *x, const char *message)
{
    if (x->trace != NULL) {
        fflush(x->trace);
    }
    fprintf(stderr, "%s\n", message);
    abort();
}

/* A hook that says what was refused and where, and ends the program. */
static inline void xosera_abort_on_refusal(xosera *x, const xosera_refused *what)
{
    char text[XOSERA_PLACE + 200];
    xosera_abort(x, xosera_refusal_message(text, sizeof text, what));
}

/* Note a refusal. */
static inline void xosera_note(xosera *x, const xosera_access *what)
{
    x->last_refused.why = what->refusal;
    x->last_refused.call = what->call;
    x->last_refused.reg = what->reg;
    x->last_refused.odd = what->odd;
    x->last_refused.byte = what->call == XOSERA_CALL_WRITE ? what->byte : 0;
    x->last_refused.file = what->file;
    x->last_refused.line = what->line;
    if (x->first_refused.why == XOSERA_DONE) {
        x->first_refused = x->last_refused;
    }
    x->refusals++;
}

/* A call to be made; what it does not have is 0. */
static inline xosera_access xosera_asked(xosera_call call, uint64_t n, bool passing)
{
    const xosera_access what = {call, 0, false, 0, n, 0, 0, false, passing, XOSERA_DONE, NULL, 0};
    return what;
}

/* A byte of a register. From 16 on there is none; the library takes the number as a byte. */
static inline xosera_access xosera_make_byte(xosera *x, xosera_access what)
{
    const uint8_t reg = what.reg < XOSERA_MAIN_REGS ? (uint8_t)what.reg : UINT8_MAX;
    if (what.call == XOSERA_CALL_WRITE) {
        const xosera_write_answer a = xosera_write_byte(&x->state, x->vram, x->vram_len, x->xr,
                                                        x->xr_len, reg, what.odd, what.byte);
        what.refusal = (xosera_refusal)a.refusal;
        what.mask = a.mask;
    } else {
        const xosera_read_answer a =
            xosera_read_byte(&x->state, x->vram, x->vram_len, x->xr, x->xr_len, reg, what.odd);
        what.refusal = (xosera_refusal)a.refusal;
        what.byte = a.byte;
    }
    return what;
}

static inline xosera_access xosera_make_blit(xosera *x, xosera_access what)
{
    const xosera_blit_answer a =
        what.call == XOSERA_CALL_STEP
            ? xosera_blit_step(&x->state, x->vram, x->vram_len, x->xr, x->xr_len)
            : xosera_blit_run(&x->state, x->vram, x->vram_len, x->xr, x->xr_len, what.n);
    what.refusal = (xosera_refusal)a.refusal;
    what.count = a.count;
    what.mask = a.mask;
    return what;
}

/* Ticks or beam steps in a row; a refused one ends it. */
static inline xosera_access xosera_make_time(xosera *x, xosera_access what)
{
    what.count = 0;
    what.refusal = XOSERA_DONE;
    while (what.count < what.n && what.refusal == XOSERA_DONE) {
        const xosera_state_answer a =
            what.call == XOSERA_CALL_TICK
                ? xosera_timer_tick(&x->state)
                : xosera_beam_step(&x->state, x->vram, x->vram_len, x->xr, x->xr_len);
        what.refusal = (xosera_refusal)a.refusal;
        what.count += a.refusal == XOSERA_DONE ? 1 : 0;
    }
    return what;
}

/* Make the call that is asked for, and give it back with the answer. (Save and load are made in
 * files.h, a why in why.h, a paint in paint.h.) */
static inline xosera_access xosera_make(xosera *x, xosera_access what)
{
    if (what.call == XOSERA_CALL_WRITE || what.call == XOSERA_CALL_READ) {
        return xosera_make_byte(x, what);
    }
    if (what.call == XOSERA_CALL_STEP || what.call == XOSERA_CALL_RUN) {
        return xosera_make_blit(x, what);
    }
    if (what.call == XOSERA_CALL_TICK || what.call == XOSERA_CALL_BEAM_STEP) {
        return xosera_make_time(x, what);
    }
    if (what.call == XOSERA_CALL_LINE) {
        const xosera_line_answer a = xosera_interrupt_line(&x->state);
        what.refusal = (xosera_refusal)a.refusal;
        what.up = a.up;
    }
    return what;
}

/* For the watchdog: something has changed that is not timer, beam, copper or what reads change. */
static inline void xosera_changed(xosera *x)
{
    x->unchanged = 0;
}

/* Before a call: a recording notes what was changed by hand. */
static inline void xosera_calling(const xosera *x)
{
    xosera_recorder *const r = xosera_recorder_of(x);
    if (r != NULL) {
        const int error = errno;
        r->before(r, x);
        errno = error;
    }
}

/* A call that was made: its refusal is noted, then it is recorded, traced, told to the test. In a
 * hook there is no line of source: its own calls have none, and it may leave by longjmp. */
XOSERA_APART void xosera_tell(xosera *x, xosera_access what)
{
    what.file = x->file;
    what.line = x->line;
    x->file = NULL;
    x->line = 0;
    if (what.refusal != XOSERA_DONE) {
        xosera_note(x, &what);
    }
    const xosera_refused refused = x->last_refused; /* a hook's own calls may be refused too */
    xosera_recorder *const r = xosera_recorder_of(x);
    const int error = errno;
    if (r != NULL) {
        r->after(r, &what);
    }
    if (x->trace != NULL && x->tracer != NULL) {
        x->tracer(x, &what);
    }
    errno = error; /* files change it */
    if (x->on_access != NULL) {
        x->on_access(x, &what);
    }
    if (what.refusal != XOSERA_DONE && x->on_refusal != NULL) {
        x->on_refusal(x, &refused);
    }
    x->file = what.file;
    x->line = what.line;
}

static inline void xosera_called(xosera *x, xosera_access what)
{
    if (what.refusal != XOSERA_DONE || xosera_recorder_of(x) != NULL || x->trace != NULL ||
        x->on_access != NULL) {
        xosera_tell(x, what);
    }
}

/* How an adapter is stuck and where, as xosera_refusal_message. `what` is the last byte accessed;
 * its `count` is the bytes accessed in vain, and `passing` says that timer or beam moved. */
static inline const char *xosera_stuck_message(char *text, size_t size, const xosera_access *what)
{
    char place[XOSERA_PLACE] = "";
    const char *why = "no time passes without rates: see xosera_board_rates";
    if (what->refusal != XOSERA_DONE) {
        why = xosera_refusal_text(what->refusal);
    } else if (what->passing) {
        why = "although time passed";
    }
    const int length = snprintf(
        text, size, "%sstuck: %llu bytes accessed and nothing changed; last %s byte of %s, %s; %s",
        xosera_place(place, what->file, what->line), (unsigned long long)what->count,
        what->odd ? "odd" : "even", xosera_register_text(what->reg),
        what->call == XOSERA_CALL_WRITE ? "written" : "read", why);
    return xosera_text_made(text, size, length);
}

/* The watchdog ends the test. */
XOSERA_APART void xosera_stuck(xosera *x, xosera_access what)
{
    char text[XOSERA_PLACE + 300];
    what.passing = x->unchanged_waiting && (x->tick_rate.count | x->beam_rate.count) != 0;
    what.count = x->unchanged;
    what.file = x->file;
    what.line = x->line;
    x->file = NULL;
    x->line = 0;
    x->unchanged = 0;
    if (x->on_stuck != NULL) {
        x->on_stuck(x, &what);
    }
    xosera_abort(x, xosera_stuck_message(text, sizeof text, &what));
}

/* Put an adapter in use; returns the one before (NULL at first). (Not inline: gcc would warn of an
 * adapter that is a local variable of main.) */
XOSERA_APART xosera *xosera_use(xosera *x)
{
    xosera *const before = xosera_in_use;
    xosera_in_use = x;
    return before;
}

/* The adapter in use. */
static inline xosera *xosera_here(void)
{
    if (xosera_in_use == NULL) {
        fputs("xosera_model.h: no adapter in use: call xosera_use(&adapter) first\n", stderr);
        abort();
    }
    return xosera_in_use;
}

/* The adapter in use, which notes the line of source. */
static inline xosera *xosera_at(const char *file, int line)
{
    xosera *const x = xosera_here();
    x->file = file;
    x->line = line;
    return x;
}

#endif /* XOSERA_MODEL_ADAPTER_H */
