/* SPDX-License-Identifier: MIT */
/*
 * Recorded sessions: every call made through a handle, with its answer, as text. docs/RECORDING.md
 * has the text's form; replay.h plays it.
 */
#ifndef XOSERA_MODEL_RECORDING_H
#define XOSERA_MODEL_RECORDING_H

#include <errno.h>
#include <stdbool.h>
#include <stddef.h>
#include <stdint.h>
#include <stdio.h>
#include <stdlib.h>
#include <string.h>

#include "adapter.h"
#include "calls.h"
#include "files.h"
#include "registers.h"
#include "state.h"

#define XOSERA_RECORDING_HEAD     "xosera recording 1"
#define XOSERA_RECORDING_LINE     500 /* the longest line */
#define XOSERA_RECORDING_ROW      16  /* words of a memory on a line */
#define XOSERA_RECORDING_VRAM_MAX 1048576
#define XOSERA_RECORDING_XR_MAX   65536

/* An adapter with memories of its own: as the calls left it (`x`), and its memories as the lines of
 * the file have them (`vram_told`, `xr_told`): each word as the last line that names it, else 0. */
typedef struct xosera_session {
    xosera x;
    uint16_t *vram_told;
    uint16_t *xr_told;
} xosera_session;

static inline void xosera_session_free(xosera_session *s)
{
    free(s->x.vram);
    free(s->x.xr);
    free(s->vram_told);
    free(s->xr_told);
}

/* A reset adapter with memories that are all 0, in place of the one before. False, with errno, for
 * want of memory. */
static inline bool xosera_session_start(xosera_session *s, size_t vram_len, size_t xr_len)
{
    xosera_session_free(s);
    errno = ENOMEM;
    uint16_t *const vram = (uint16_t *)calloc(vram_len + 1, sizeof *vram);
    uint16_t *const xr = (uint16_t *)calloc(xr_len + 1, sizeof *xr);
    s->vram_told = (uint16_t *)calloc(vram_len + 1, sizeof *vram);
    s->xr_told = (uint16_t *)calloc(xr_len + 1, sizeof *xr);
    xosera_attach(&s->x, vram, vram_len, xr, xr_len);
    return vram != NULL && xr != NULL && s->vram_told != NULL && s->xr_told != NULL;
}

/* The line of a call, without its end: what was asked, and behind `=` what was answered. Returns
 * the length of what was asked, 0 for a call that is not recorded. */
static inline size_t xosera_call_line(char *text, size_t size, const xosera_access *what)
{
    const unsigned reg = what->reg < UINT8_MAX ? what->reg : UINT8_MAX;
    const char *const half = what->odd ? "odd" : "even";
    const unsigned long long n = what->n;
    const unsigned long long count = what->count;
    const int refusal = (int)what->refusal;
    switch (what->call) {
    case XOSERA_CALL_WRITE:
        snprintf(text, size, "write %u %s %02X = %d %X", reg, half, (unsigned)what->byte, refusal,
                 (unsigned)what->mask);
        break;
    case XOSERA_CALL_READ:
        snprintf(text, size, "read %u %s = %d %02X", reg, half, refusal, (unsigned)what->byte);
        break;
    case XOSERA_CALL_STEP:
        snprintf(text, size, "step = %d %llu %X", refusal, count, (unsigned)what->mask);
        break;
    case XOSERA_CALL_RUN:
        snprintf(text, size, "run %llu = %d %llu %X", n, refusal, count, (unsigned)what->mask);
        break;
    case XOSERA_CALL_TICK: snprintf(text, size, "tick %llu = %d %llu", n, refusal, count); break;
    case XOSERA_CALL_BEAM_STEP:
        snprintf(text, size, "beam %llu = %d %llu", n, refusal, count);
        break;
    case XOSERA_CALL_LINE: snprintf(text, size, "line = %d %d", refusal, (int)what->up); break;
    case XOSERA_CALL_SAVE:
    case XOSERA_CALL_LOAD:
    case XOSERA_CALL_WHY:
    case XOSERA_CALL_PAINT:
    case XOSERA_CALL_PAINT_GREY:
    default: return 0;
    }
    return (size_t)(strchr(text, '=') - text);
}

typedef struct xosera_recording {
    xosera_recorder heard; /* comes first: a recording is known by it */
    const xosera *handle;
    FILE *out;
    int error; /* errno of the first line that could not be written */
    xosera_session session;
    bool called;      /* since its memories were lent */
    char source[330]; /* the line of source, as a line's end; empty where there is none */
} xosera_recording;

/* A row of words of a memory that are to be set or checked. */
static inline void xosera_record_row(const xosera_recording *r, const char *line,
                                     const uint16_t *words, size_t at, size_t n)
{
    fprintf(r->out, "%s %04zX", line, at);
    for (size_t i = 0; i < n; i++) {
        fprintf(r->out, " %04X", (unsigned)words[at + i]);
    }
    fprintf(r->out, "%s\n", r->source);
}

/* How many words in a row, 16 at most, differ from `at` on. */
static inline size_t xosera_row(const uint16_t *a, const uint16_t *b, size_t at, size_t length)
{
    size_t n = 0;
    while (n < XOSERA_RECORDING_ROW && at + n < length && a[at + n] != b[at + n]) {
        n++;
    }
    return n;
}

/* Write the words in which a memory differs from another as rows. */
static inline void xosera_record_rows(const xosera_recording *r, const char *line,
                                      const uint16_t *now, const uint16_t *before, size_t length)
{
    size_t at = 0;
    while (at < length) {
        const size_t n = xosera_row(now, before, at, length);
        if (n != 0) {
            xosera_record_row(r, line, now, at, n);
        }
        at += n != 0 ? n : 1;
    }
}

/* Tell the words of a memory that the calls left: lines `check`, where they are not told yet. */
static inline void xosera_record_left(const xosera_recording *r, const char *check,
                                      const uint16_t *memory, uint16_t *told, size_t length)
{
    if (memcmp(memory, told, length * sizeof *told) != 0) {
        xosera_record_rows(r, check, memory, told, length);
        memcpy(told, memory, length * sizeof *told);
    }
}

/* Take over the words of a memory that the test set, after what the calls left. `check` is "check "
 * and the line that sets words. */
static inline void xosera_record_memory(const xosera_recording *r, const char *check,
                                        const uint16_t *now, uint16_t *memory, uint16_t *told,
                                        size_t length)
{
    if (memcmp(now, memory, length * sizeof *now) != 0) {
        xosera_record_left(r, check, memory, told, length);
        xosera_record_rows(r, check + strlen("check "), now, memory, length);
        memcpy(memory, now, length * sizeof *now);
        memcpy(told, now, length * sizeof *now);
    }
}

/* Take over the words of the state that the test set, likewise. */
static inline void xosera_record_state(xosera_recording *r, const xosera_state *now)
{
    xosera_state *const state = &r->session.x.state;
    xosera_difference d = xosera_state_diff(now, state);
    while (d.found) {
        if (r->called) {
            fprintf(r->out, "check state %s %04X\n", d.field, (unsigned)d.second);
        }
        fprintf(r->out, "state %s %04X\n", d.field, (unsigned)d.first);
        xosera_state_set(state, d.word, d.first);
        d = xosera_state_diff(now, state);
    }
}

/* All that the calls left. */
static inline void xosera_record_checks(xosera_recording *r)
{
    const xosera *const y = &r->session.x;
    for (unsigned i = 0; i < XOSERA_STATE_WORDS; i++) {
        fprintf(r->out, "check state %s %04X\n", xosera_state_word(i).field,
                (unsigned)xosera_state_get(&y->state, i));
    }
    xosera_record_left(r, "check vram", y->vram, r->session.vram_told, y->vram_len);
    xosera_record_left(r, "check xr", y->xr, r->session.xr_told, y->xr_len);
}

/* Lengths as they are recorded: those that are refused anyway are cut. */
static inline size_t xosera_recorded_length(size_t length, size_t most)
{
    return length < most ? length : most;
}

/* The library takes memories of these lengths; of others it touches no word, nor does a recording.
 */
static inline bool xosera_lengths_taken(const xosera *x)
{
    xosera_state s;
    xosera_reset(&s);
    return xosera_blit_step(&s, x->vram, x->vram_len, x->xr, x->xr_len).refusal == XOSERA_DONE;
}

/* Begin anew where memories of other lengths were lent. False, with errno, for want of memory. */
static inline bool xosera_record_lengths(xosera_recording *r, const xosera *x)
{
    const size_t vram_len = xosera_recorded_length(x->vram_len, XOSERA_RECORDING_VRAM_MAX);
    const size_t xr_len = xosera_recorded_length(x->xr_len, XOSERA_RECORDING_XR_MAX);
    const bool begun = r->session.vram_told != NULL;
    if (begun && r->session.x.vram_len == vram_len && r->session.x.xr_len == xr_len) {
        return true;
    }
    if (begun) {
        xosera_record_checks(r);
    }
    fprintf(r->out, "memory %zu %zu\n", vram_len, xr_len);
    r->called = false;
    return xosera_session_start(&r->session, vram_len, xr_len);
}

/* Before a call: what the test changed by hand since the last one. */
static inline void xosera_record_before(xosera_recorder *heard, const xosera *x)
{
    xosera_recording *const r = (xosera_recording *)heard;
    xosera_session *const s = &r->session;
    if (!xosera_record_lengths(r, x)) {
        xosera_abort(x, "xosera_model.h: no memory for a recording");
    }
    xosera_record_state(r, &x->state);
    if (xosera_lengths_taken(x)) {
        xosera_record_memory(r, "check vram", x->vram, s->x.vram, s->vram_told, x->vram_len);
        xosera_record_memory(r, "check xr", x->xr, s->x.xr, s->xr_told, x->xr_len);
    }
}

/* Tell one word that a call stored. */
static inline void xosera_record_word(const xosera_recording *r, const char *check,
                                      const uint16_t *memory, uint16_t *told, size_t at)
{
    xosera_record_row(r, check, memory, at, 1);
    told[at] = memory[at];
}

/* The word of XR memory at an XR address; XOSERA_XR_WORDS where there is none. */
static inline size_t xosera_xr_word(size_t xaddr)
{
    if (xaddr - XR_TILE_ADDR < XR_TILE_SIZE) {
        return xaddr - XR_TILE_ADDR + XOSERA_XR_TILE_AT;
    }
    if (xaddr - XR_COLOR_ADDR < XR_COLOR_SIZE) {
        return xaddr - XR_COLOR_ADDR + XOSERA_XR_COLOR_AT;
    }
    return xaddr - XR_COPPER_ADDR < XR_COPPER_SIZE ? xaddr - XR_COPPER_ADDR + XOSERA_XR_COPP_AT
                                                   : XOSERA_XR_WORDS;
}

/* Behind an odd write that was done: the word that it stored. */
static inline void xosera_record_stored(const xosera_recording *r, const xosera_host *was,
                                        unsigned reg)
{
    const xosera_session *const s = &r->session;
    const size_t at = xosera_xr_word(was->xr.wr_xaddr.word);
    if (reg == XM_DATA || reg == XM_DATA_2) {
        xosera_record_word(r, "check vram", s->x.vram, s->vram_told,
                           was->vram.wr_addr.word % s->x.vram_len);
    } else if (reg == XM_XDATA && at < XOSERA_XR_WORDS) {
        xosera_record_word(r, "check xr", s->x.xr, s->xr_told, at);
    }
}

/* Interrupt status and XR registers, where they changed. */
static inline void xosera_record_registers(const xosera_recording *r, const xosera_state *was)
{
    for (unsigned i = 0; i < XOSERA_STATE_WORDS; i++) {
        const size_t at = 2 * (size_t)i;
        const bool shown =
            at == offsetof(xosera_state, status) ||
            (at >= offsetof(xosera_state, video) && at < offsetof(xosera_state, beam));
        const uint16_t word = xosera_state_get(&r->session.x.state, i);
        if (shown && word != xosera_state_get(was, i)) {
            fprintf(r->out, "check state %s %04X%s\n", xosera_state_word(i).field, (unsigned)word,
                    r->source);
        }
    }
}

/* Behind a call: the word that it stored; status and XR registers that it changed; the words of
 * VRAM that a blit changed, at its end, and those of XR memory that the copper did. So a difference
 * shows before later calls write over it. */
static inline void xosera_record_shown(const xosera_recording *r, const xosera_state *was,
                                       const xosera_access *what)
{
    const xosera *const y = &r->session.x;
    const bool copper =
        ((was->video.copp_ctrl | y->state.video.copp_ctrl) & COPP_CTRL_COPP_EN_F) != 0;
    if (what->call == XOSERA_CALL_WRITE && what->odd && what->refusal == XOSERA_DONE) {
        xosera_record_stored(r, &was->host, what->reg);
    }
    xosera_record_registers(r, was);
    if (y->state.engine.running < was->engine.running || y->state.queued < was->queued) {
        xosera_record_left(r, "check vram", y->vram, r->session.vram_told, y->vram_len);
    }
    if (what->call == XOSERA_CALL_BEAM_STEP && copper) {
        xosera_record_left(r, "check xr", y->xr, r->session.xr_told, y->xr_len);
    }
}

/* After a call: its line; and the session makes it too. */
static inline void xosera_record_after(xosera_recorder *heard, const xosera_access *what)
{
    xosera_recording *const r = (xosera_recording *)heard;
    const xosera_state was = r->session.x.state;
    char line[XOSERA_RECORDING_LINE];
    if (xosera_call_line(line, sizeof line, what) == 0) {
        return;
    }
    if (what->file != NULL) {
        snprintf(r->source, sizeof r->source, " # %.300s:%d", what->file, what->line);
    }
    fputs(line, r->out);
    errno = 0;
    fprintf(r->out, "%s\n", r->source);
    if (r->error == 0 && ferror(r->out)) {
        r->error = errno;
    }
    r->called = true;
    (void)xosera_make(&r->session.x, *what);
    xosera_record_shown(r, &was, what);
    r->source[0] = '\0';
}

/* Take a free place among the recorded handles; false, with errno, where there is none. */
static inline bool xosera_record_enters(xosera_recording *r)
{
    for (unsigned i = 0; i < XOSERA_RECORDED_MAX; i++) {
        const xosera *none = NULL;
        if (__atomic_compare_exchange_n(&xosera_recorded_at[i].handle, &none, r->handle, false,
                                        __ATOMIC_ACQUIRE, __ATOMIC_RELAXED)) {
            xosera_recorded_at[i].recorder = &r->heard;
            __atomic_fetch_add(&xosera_recorded_count, 1, __ATOMIC_RELAXED);
            return true;
        }
    }
    errno = EMFILE;
    return false;
}

/* Leave it, if there is one. */
static inline void xosera_record_leaves(const xosera_recording *r)
{
    for (unsigned i = 0; i < XOSERA_RECORDED_MAX; i++) {
        if (__atomic_load_n(&xosera_recorded_at[i].handle, __ATOMIC_RELAXED) == r->handle) {
            __atomic_fetch_sub(&xosera_recorded_count, 1, __ATOMIC_RELAXED);
            __atomic_store_n(&xosera_recorded_at[i].handle, NULL, __ATOMIC_RELEASE);
        }
    }
}

/* Give back all that a recording has; `a` is how it went, unless the file cannot be closed. */
static inline xosera_file_answer xosera_record_closed(xosera_recording *r, xosera_file_answer a)
{
    xosera_record_leaves(r);
    errno = 0;
    if (r->out != NULL && fclose(r->out) != 0 && a.error == 0) {
        a = xosera_file_failed("close the file");
    }
    xosera_session_free(&r->session);
    free(r);
    return a;
}

/* The handle is attached anew: the file has no `end`. */
static inline void xosera_record_left_off(xosera_recorder *heard)
{
    (void)xosera_record_closed((xosera_recording *)heard, xosera_file_went_well());
}

/* Record to a file, which is made anew, from the next call on. A copy of the handle is not
 * recorded. */
XOSERA_LOOK_AT_ANSWER static inline xosera_file_answer xosera_record(xosera *x, const char *path)
{
    errno = EBUSY;
    if (xosera_recorder_of(x) != NULL) {
        return xosera_file_failed("record two sessions at a time");
    }
    errno = 0;
    xosera_recording *const r = (xosera_recording *)calloc(1, sizeof *r);
    if (r == NULL) {
        return xosera_file_failed("get memory for a recording");
    }
    r->heard.before = xosera_record_before;
    r->heard.after = xosera_record_after;
    r->heard.left = xosera_record_left_off;
    r->handle = x;
    if (!xosera_record_enters(r)) {
        return xosera_record_closed(r, xosera_file_failed("record so many sessions at a time"));
    }
    errno = 0;
    r->out = fopen(path, "w");
    if (r->out == NULL) {
        return xosera_record_closed(r, xosera_file_failed("make the file"));
    }
    setvbuf(r->out, NULL, _IOLBF, BUFSIZ);
    fputs(XOSERA_RECORDING_HEAD "\n", r->out);
    if (!xosera_record_lengths(r, x)) {
        return xosera_record_closed(r, xosera_file_failed("get memory for a recording"));
    }
    xosera_record_before(&r->heard, x);
    return xosera_file_went_well();
}

/* End the recording. */
XOSERA_LOOK_AT_ANSWER static inline xosera_file_answer xosera_record_end(xosera *x)
{
    xosera_recording *const r = (xosera_recording *)xosera_recorder_of(x);
    xosera_file_answer a = xosera_file_went_well();
    errno = EINVAL;
    if (r == NULL) {
        return xosera_file_failed("end a recording that was not begun");
    }
    xosera_record_before(&r->heard, x);
    xosera_record_checks(r);
    errno = r->error;
    fputs("end\n", r->out);
    if (ferror(r->out)) {
        a = xosera_file_failed("write the file");
    }
    return xosera_record_closed(r, a);
}

#endif /* XOSERA_MODEL_RECORDING_H */
