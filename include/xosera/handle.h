/* SPDX-License-Identifier: MIT */
/*
 * The handle's accesses: bytes, words and longs of main registers, words in the XR space and in
 * VRAM; waiting. Time passes with each byte as the handle's rates say.
 */
#ifndef XOSERA_MODEL_HANDLE_H
#define XOSERA_MODEL_HANDLE_H

#include <limits.h>
#include <stdbool.h>
#include <stdint.h>

#include "adapter.h"
#include "calls.h"
#include "passing.h"
#include "registers.h"

/* A register by its number, which may be any: from 16 on there is none, and the access is refused
 * with XOSERA_NO_REGISTER. */
static inline unsigned xosera_register_number(uint64_t reg)
{
    return (unsigned)(reg < UINT_MAX ? reg : UINT_MAX);
}

static inline uint64_t xosera_next_register(uint64_t reg)
{
    return reg < UINT64_MAX ? reg + 1 : reg;
}

/* For the watchdog: the word that a byte written to this register changes and no read changes; the
 * interrupt mask, which stays, where there is none. */
static inline const uint16_t *xosera_word_written(const xosera_host *h, uint64_t reg, bool odd)
{
    if (reg >= XOSERA_MAIN_REGS || reg == XM_RD_XADDR || reg == XM_RD_ADDR) {
        return &h->int_mask;
    }
    if (!odd) {
        return &h->latch[reg];
    }
    switch (reg) {
    case XM_SYS_CTRL: return &h->vram.wr_mask;
    case XM_TIMER: return &h->timer.interval;
    case XM_WR_XADDR: return &h->xr.wr_xaddr.word;
    case XM_RD_INCR: return &h->vram.rd_incr;
    case XM_WR_INCR: return &h->vram.wr_incr;
    case XM_WR_ADDR: return &h->vram.wr_addr.word;
    default: return &h->int_mask;
    }
}

/* One byte, then the time that it took. An odd byte at a data port is a change wherever it is done,
 * elsewhere where a word is another than before. */
XOSERA_WITHIN void xosera_set_byte(xosera *x, uint64_t reg, bool odd, uint8_t byte)
{
    const xosera_state *const s = &x->state;
    const bool data = odd && (reg == XM_DATA || reg == XM_DATA_2);
    const bool port = data || (odd && reg == XM_XDATA);
    xosera_access what = xosera_asked(XOSERA_CALL_WRITE, 0, false);
    what.reg = xosera_register_number(reg);
    what.odd = odd;
    what.byte = byte;
    xosera_byte_begins(x);
    const uint16_t *const word = xosera_word_written(&s->host, reg, odd);
    const uint16_t before = *word;
    const uint16_t status = s->status;
    const uint16_t countdown = s->host.timer.countdown;
    what = xosera_make_byte(x, what);
    if (*word != before || s->status != status || s->host.timer.countdown != countdown ||
        (port && what.refusal == XOSERA_DONE)) {
        xosera_changed(x);
    }
    if (data) {
        x->mask = what.mask;
    }
    xosera_called(x, what);
    xosera_byte_passes(x, what);
}

XOSERA_WITHIN xosera_access xosera_read_access(xosera *x, uint64_t reg, bool odd)
{
    xosera_access what = xosera_asked(XOSERA_CALL_READ, 0, false);
    what.reg = xosera_register_number(reg);
    what.odd = odd;
    xosera_byte_begins(x);
    what = xosera_make_byte(x, what);
    xosera_called(x, what);
    xosera_byte_passes(x, what);
    return what;
}

static inline uint8_t xosera_get_byte(xosera *x, uint64_t reg, bool odd)
{
    return xosera_read_access(x, reg, odd).byte;
}

/* A word is the even byte, then the odd one (MOVEP.W); a long is a word at `reg`, then one at
 * `reg` + 1 (MOVEP.L). */
static inline void xosera_setw(xosera *x, uint64_t reg, uint16_t word)
{
    xosera_set_byte(x, reg, false, (uint8_t)(word >> 8));
    xosera_set_byte(x, reg, true, (uint8_t)(word & 0xFF));
}

static inline void xosera_setl(xosera *x, uint64_t reg, uint32_t lword)
{
    xosera_setw(x, reg, (uint16_t)(lword >> 16));
    xosera_setw(x, xosera_next_register(reg), (uint16_t)(lword & 0xFFFF));
}

static inline uint16_t xosera_getw(xosera *x, uint64_t reg)
{
    const uint8_t high = xosera_get_byte(x, reg, false);
    const uint8_t low = xosera_get_byte(x, reg, true);
    return (uint16_t)((high << 8) | low);
}

static inline uint32_t xosera_getl(xosera *x, uint64_t reg)
{
    const uint16_t high = xosera_getw(x, reg);
    const uint16_t low = xosera_getw(x, xosera_next_register(reg));
    return ((uint32_t)high << 16) | low;
}

/* A word in the XR space: its address, then the data port. */
static inline void xosera_xr_setw(xosera *x, uint16_t xaddr, uint16_t word)
{
    xosera_setw(x, XM_WR_XADDR, xaddr);
    xosera_setw(x, XM_XDATA, word);
}

static inline uint16_t xosera_xr_getw(xosera *x, uint16_t xaddr)
{
    xosera_setw(x, XM_RD_XADDR, xaddr);
    return xosera_getw(x, XM_XDATA);
}

/* A word or a long in VRAM: its address, then the data port. XM_WR_INCR and XM_RD_INCR are added
 * after each word, so a long wants them to be 1. */
static inline void xosera_vram_setw(xosera *x, uint16_t addr, uint16_t word)
{
    xosera_setw(x, XM_WR_ADDR, addr);
    xosera_setw(x, XM_DATA, word);
}

static inline void xosera_vram_setl(xosera *x, uint16_t addr, uint32_t lword)
{
    xosera_setw(x, XM_WR_ADDR, addr);
    xosera_setl(x, XM_DATA, lword);
}

static inline uint16_t xosera_vram_getw(xosera *x, uint16_t addr)
{
    xosera_setw(x, XM_RD_ADDR, addr);
    return xosera_getw(x, XM_DATA);
}

static inline uint32_t xosera_vram_getl(xosera *x, uint16_t addr)
{
    xosera_setw(x, XM_RD_ADDR, addr);
    return xosera_getl(x, XM_DATA);
}

/* Wait as the board does: read the even byte of XM_SYS_CTRL until a flag is up, or down. A refused
 * read ends it. */
static inline void xosera_poll(xosera *x, unsigned flag, bool up)
{
    xosera_access read = xosera_read_access(x, XM_SYS_CTRL, false);
    while (read.refusal == XOSERA_DONE && ((read.byte & flag) != 0) != up) {
        read = xosera_read_access(x, XM_SYS_CTRL, false);
    }
}

/* Until vertical blanking begins, or ends; until left blanking begins, or ends. Where the beam
 * moves with accesses it is waited for by reading SYS_CTRL_VBLANK_F or SYS_CTRL_HBLANK_F, as on the
 * board; else the beam moves there by itself, and no pixel passes where it is so already. A refusal
 * ends it. */
static inline void xosera_wait_vblank(xosera *x)
{
    if (x->beam_rate.count != 0) {
        xosera_poll(x, SYS_CTRL_VBLANK_F, true);
    } else if (x->state.beam.line < XOSERA_VISIBLE_LINES) {
        (void)xosera_frame(x);
    }
}

static inline void xosera_wait_not_vblank(xosera *x)
{
    if (x->beam_rate.count != 0) {
        xosera_poll(x, SYS_CTRL_VBLANK_F, false);
    } else if (x->state.beam.line >= XOSERA_VISIBLE_LINES) {
        (void)xosera_beam_to(x, 0, 0);
    }
}

static inline void xosera_wait_hblank(xosera *x)
{
    if (x->beam_rate.count != 0) {
        xosera_poll(x, SYS_CTRL_HBLANK_F, true);
    } else if (x->state.beam.position >= XOSERA_BLANK_POSITIONS) {
        (void)xosera_beam_to(x, (uint16_t)((x->state.beam.line + 1) % XOSERA_FRAME_LINES), 0);
    }
}

static inline void xosera_wait_not_hblank(xosera *x)
{
    if (x->beam_rate.count != 0) {
        xosera_poll(x, SYS_CTRL_HBLANK_F, false);
    } else if (x->state.beam.position < XOSERA_BLANK_POSITIONS) {
        (void)xosera_beam_pixels(x, (uint64_t)XOSERA_BLANK_POSITIONS - x->state.beam.position);
    }
}

/* Until nothing runs; until nothing is queued. Where words pass with accesses, by reading
 * SYS_CTRL_BLIT_BUSY_F or SYS_CTRL_BLIT_FULL_F; else by a run. */
static inline void xosera_wait_blit_done(xosera *x)
{
    if ((x->blit_rate.count | x->blit_per_access) != 0) {
        xosera_poll(x, SYS_CTRL_BLIT_BUSY_F, false);
    } else {
        (void)xosera_run(x, UINT64_MAX);
    }
}

static inline void xosera_wait_blit_ready(xosera *x)
{
    if ((x->blit_rate.count | x->blit_per_access) != 0) {
        xosera_poll(x, SYS_CTRL_BLIT_FULL_F, false);
    } else if (x->state.queued) {
        (void)xosera_run(x, xosera_words_left(x));
    }
}

/* The pixel in a nibble of a VRAM word, 0 to 3 from the left; -1 where there is no such word or
 * nibble. No access: nothing passes and nothing changes. */
static inline int xosera_pixel(const xosera *x, uint64_t address, unsigned nibble)
{
    if (address >= x->vram_len || nibble > 3) {
        return -1;
    }
    return x->vram[address] >> (12 - 4 * nibble) & 0xF;
}

#endif /* XOSERA_MODEL_HANDLE_H */
