/* SPDX-License-Identifier: MIT */
/*
 * A trace: a line of text for every call made through a handle. Ticks and beam steps that pass with
 * a byte have none, unless they are refused.
 *
 *   draw.c:57: XM_XDATA odd <- 0x01    XR_BLIT_CTRL, 0x0040 = 0x0001
 */
#ifndef XOSERA_MODEL_TRACE_H
#define XOSERA_MODEL_TRACE_H

#include <stddef.h>
#include <stdint.h>
#include <stdio.h>

#include "adapter.h"
#include "registers.h"
#include "texts.h"

/* The word that an odd write made, and where it went. */
static inline void xosera_trace_word(const xosera *x, const xosera_access *what)
{
    const xosera_host *h = &x->state.host;
    const unsigned word = (unsigned)h->latch[what->reg] << 8 | what->byte;
    if (what->reg == XM_XDATA) {
        const unsigned at = (uint16_t)(h->xr.wr_xaddr.word - 1);
        fprintf(x->trace, "    %s, 0x%04X = 0x%04X", xosera_xr_text(at), at, word);
    } else if (what->reg == XM_DATA || what->reg == XM_DATA_2) {
        const size_t at = (uint16_t)(h->vram.wr_addr.word - h->vram.wr_incr) % x->vram_len;
        fprintf(x->trace, "    VRAM, 0x%04zX = 0x%04X %s", at, word, xosera_mask_text(what->mask));
    } else {
        fprintf(x->trace, "    %s = 0x%04X", xosera_register_text(what->reg), word);
    }
}

/* A byte written or read. */
static inline void xosera_trace_byte(const xosera *x, const xosera_access *what)
{
    fprintf(x->trace, "%s", xosera_register_text(what->reg));
    if (what->reg >= XOSERA_MAIN_REGS) {
        fprintf(x->trace, " %u", what->reg);
    }
    fprintf(x->trace, " %s %s 0x%02X", what->odd ? "odd" : "even",
            what->call == XOSERA_CALL_WRITE ? "<-" : "->", (unsigned)what->byte);
    if (what->call == XOSERA_CALL_WRITE && what->odd && what->refusal == XOSERA_DONE) {
        xosera_trace_word(x, what);
    }
}

/* Lines painted: one, or so many in a row. */
static inline void xosera_trace_lines(FILE *out, unsigned first, unsigned long long lines)
{
    if (lines == 1) {
        fprintf(out, ": line %u", first);
    } else {
        fprintf(out, ": lines %u to %llu", first, first + lines - 1);
    }
}

/* Any other call. */
static inline void xosera_trace_call(const xosera *x, const xosera_access *what)
{
    const unsigned long long n = what->n;
    const unsigned long long count = what->count;
    fprintf(x->trace, "%s%s", what->passing ? "  passing: " : "", xosera_call_text(what->call));
    switch (what->call) {
    case XOSERA_CALL_STEP:
    case XOSERA_CALL_RUN:
        fprintf(x->trace, ": %llu of %llu words %s", count, n, xosera_mask_text(what->mask));
        break;
    case XOSERA_CALL_TICK:
        fprintf(x->trace, ": %llu of %llu, timer %u", count, n,
                (unsigned)x->state.host.timer.count);
        break;
    case XOSERA_CALL_BEAM_STEP:
        fprintf(x->trace, ": %llu of %llu, line %u position %u", count, n,
                (unsigned)x->state.beam.line, (unsigned)x->state.beam.position);
        break;
    case XOSERA_CALL_LINE: fprintf(x->trace, ": %s", what->up ? "up" : "down"); break;
    case XOSERA_CALL_SAVE: fprintf(x->trace, ": %llu bytes", count); break;
    case XOSERA_CALL_WHY:
        fprintf(x->trace, ": 0x%04llX nibble %u, %s", n, what->reg,
                xosera_fate_text((unsigned)count));
        break;
    case XOSERA_CALL_PAINT:
    case XOSERA_CALL_PAINT_GREY: xosera_trace_lines(x->trace, what->reg, n); break;
    case XOSERA_CALL_WRITE:
    case XOSERA_CALL_READ:
    case XOSERA_CALL_LOAD:
    default: break;
    }
}

static inline void xosera_trace_access(xosera *x, const xosera_access *what)
{
    if (what->passing && what->call != XOSERA_CALL_RUN && what->refusal == XOSERA_DONE) {
        return;
    }
    if (what->file != NULL) {
        fprintf(x->trace, "%s:%d: ", what->file, what->line);
    }
    if (what->call <= XOSERA_CALL_READ) {
        xosera_trace_byte(x, what);
    } else {
        xosera_trace_call(x, what);
    }
    if (what->refusal != XOSERA_DONE) {
        fprintf(x->trace, "    refused, %d: %s", (int)what->refusal,
                xosera_refusal_text(what->refusal));
    }
    fputc('\n', x->trace);
}

/* Trace to a file that is open for writing, from the next call on; NULL ends it. The file is not
 * closed. */
static inline void xosera_trace_to(xosera *x, FILE *out)
{
    x->trace = out;
    x->tracer = xosera_trace_access;
}

#endif /* XOSERA_MODEL_TRACE_H */
