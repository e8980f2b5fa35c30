/* SPDX-License-Identifier: MIT */
/*
 * States compared and shown: which word differs first, under the name of its register.
 */
#ifndef XOSERA_MODEL_STATE_H
#define XOSERA_MODEL_STATE_H

#include <stdbool.h>
#include <stddef.h>
#include <stdint.h>
#include <stdio.h>
#include <string.h>

#include "calls.h"
#include "texts.h"

/* A word of the state: its field in xosera_state, and the register or part of one that it is. */
typedef struct xosera_word {
    const char *field;
    const char *name;
} xosera_word;

#define XOSERA_LATCH(number, reg)                                                                  \
    {                                                                                              \
        "host.latch[" #number "]", "XM_" #reg ", latch"                                            \
    }
#define XOSERA_BLIT(field, reg)                                                                    \
    {                                                                                              \
        "engine.regs." #field, "XR_BLIT_" #reg " of the running blit"                              \
    }
#define XOSERA_BLIT_REG(field, reg)                                                                \
    {                                                                                              \
        "blit." #field, "XR_BLIT_" #reg                                                            \
    }
#define XOSERA_PLAYFIELD(p, name)                                                                  \
    {"video." p "[0]", "XR_" name "_GFX_CTRL"}, {"video." p "[1]", "XR_" name "_TILE_CTRL"},       \
        {"video." p "[2]", "XR_" name "_DISP_ADDR"}, {"video." p "[3]", "XR_" name "_LINE_LEN"},   \
        {"video." p "[4]", "XR_" name "_HV_SCROLL"}, {"video." p "[5]", "XR_" name "_LINE_ADDR"},  \
    {                                                                                              \
        "video." p "[6]", "XR_" name "_HV_FSCALE"                                                  \
    }
#define XOSERA_TEN(WORD)                                                                           \
    WORD(ctrl, CTRL), WORD(andc, ANDC), WORD(xor_, XOR), WORD(mod_s, MOD_S), WORD(src_s, SRC_S),   \
        WORD(mod_d, MOD_D), WORD(dst_d, DST_D), WORD(shift, SHIFT), WORD(lines, LINES),            \
        WORD(words, WORDS)

/* The names of word i, at most XOSERA_STATE_WORDS - 1. */
static inline xosera_word xosera_state_word(unsigned i)
{
    static const xosera_word words[] = {
        XOSERA_LATCH(0, SYS_CTRL),
        XOSERA_LATCH(1, INT_CTRL),
        XOSERA_LATCH(2, TIMER),
        XOSERA_LATCH(3, RD_XADDR),
        XOSERA_LATCH(4, WR_XADDR),
        XOSERA_LATCH(5, XDATA),
        XOSERA_LATCH(6, RD_INCR),
        XOSERA_LATCH(7, RD_ADDR),
        XOSERA_LATCH(8, WR_INCR),
        XOSERA_LATCH(9, WR_ADDR),
        XOSERA_LATCH(10, DATA),
        XOSERA_LATCH(11, DATA_2),
        XOSERA_LATCH(12, UNUSED_0C),
        XOSERA_LATCH(13, UNUSED_0D),
        XOSERA_LATCH(14, UNUSED_0E),
        XOSERA_LATCH(15, FEATURES),
        {"host.xr.rd_xaddr", "XM_RD_XADDR"},
        {"host.xr.wr_xaddr", "XM_WR_XADDR"},
        {"host.xr.rd_xdata", "XM_XDATA, read buffer"},
        {"host.vram.rd_incr", "XM_RD_INCR"},
        {"host.vram.rd_addr", "XM_RD_ADDR"},
        {"host.vram.wr_incr", "XM_WR_INCR"},
        {"host.vram.wr_addr", "XM_WR_ADDR"},
        {"host.vram.rd_data", "XM_DATA, read buffer"},
        {"host.vram.wr_mask", "XM_SYS_CTRL, nibble mask"},
        {"host.timer.count", "XM_TIMER"},
        {"host.timer.countdown", "XM_TIMER, countdown"},
        {"host.timer.interval", "XM_TIMER, interval"},
        {"host.timer.saved", "XM_TIMER, saved low byte"},
        {"host.int_mask", "XM_INT_CTRL, interrupt mask"},
        {"queued", "XM_SYS_CTRL, blitter full"},
        {"status", "XM_INT_CTRL, interrupt status"},
        {"engine.running", "XM_SYS_CTRL, blitter busy"},
        {"engine.line", "line of the running blit"},
        {"engine.word", "word of the running blit"},
        {"engine.kept", "word kept in the shifter"},
        XOSERA_TEN(XOSERA_BLIT),
        {"video.vid_ctrl", "XR_VID_CTRL"},
        {"video.copp_ctrl", "XR_COPP_CTRL"},
        {"video.aud_ctrl", "XR_AUD_CTRL"},
        {"video.vid_left", "XR_VID_LEFT"},
        {"video.vid_right", "XR_VID_RIGHT"},
        XOSERA_PLAYFIELD("pa", "PA"),
        XOSERA_PLAYFIELD("pb", "PB"),
        XOSERA_TEN(XOSERA_BLIT_REG),
        {"beam.line", "XR_SCANLINE, line of the beam"},
        {"beam.position", "position of the beam"},
        {"beam.copper_running", "copper running"},
        {"beam.copper_word", "word of the copper"},
    };
    XOSERA_ASSERT(sizeof words / sizeof words[0] == XOSERA_STATE_WORDS, "a name for each word");
    return words[i < XOSERA_STATE_WORDS ? i : 0];
}

/* Word i of a state, at most XOSERA_STATE_WORDS - 1; another word there. */
static inline uint16_t xosera_state_get(const xosera_state *s, unsigned i)
{
    uint16_t word = 0;
    memcpy(&word, (const char *)s + 2 * (size_t)(i < XOSERA_STATE_WORDS ? i : 0), sizeof word);
    return word;
}

static inline void xosera_state_set(xosera_state *s, unsigned i, uint16_t word)
{
    memcpy((char *)s + 2 * (size_t)(i < XOSERA_STATE_WORDS ? i : 0), &word, sizeof word);
}

/* The first word that differs between two states, and what it is in each. */
typedef struct xosera_difference {
    bool found; /* false: the states are equal, and the rest is 0 */
    unsigned word;
    const char *field; /* as "host.vram.wr_addr" */
    const char *name;  /* as "XM_WR_ADDR" */
    uint16_t first, second;
} xosera_difference;

static inline xosera_difference xosera_state_diff(const xosera_state *first,
                                                  const xosera_state *second)
{
    xosera_difference d = {false, 0, "", "", 0, 0};
    while (d.word < XOSERA_STATE_WORDS &&
           xosera_state_get(first, d.word) == xosera_state_get(second, d.word)) {
        d.word++;
    }
    d.found = d.word < XOSERA_STATE_WORDS;
    d.word = d.found ? d.word : 0;
    if (d.found) {
        d.field = xosera_state_word(d.word).field;
        d.name = xosera_state_word(d.word).name;
        d.first = xosera_state_get(first, d.word);
        d.second = xosera_state_get(second, d.word);
    }
    return d;
}

/* Every word equal. */
static inline bool xosera_state_equal(const xosera_state *first, const xosera_state *second)
{
    return !xosera_state_diff(first, second).found;
}

/* The difference as a sentence, cut to `size` bytes, in `text`, which is returned. */
static inline const char *xosera_difference_text(char *text, size_t size, xosera_difference d)
{
    const int length =
        d.found
            ? snprintf(text, size, "%s (%s) is 0x%04X in the first state and 0x%04X in the second",
                       d.name, d.field, (unsigned)d.first, (unsigned)d.second)
            : snprintf(text, size, "the states are equal");
    return xosera_text_made(text, size, length);
}

/* The words that are not as after a reset, a line each: field, value, name. */
static inline void xosera_state_print(FILE *out, const xosera_state *s)
{
    xosera_state reset;
    xosera_reset(&reset);
    if (xosera_state_equal(s, &reset)) {
        fprintf(out, "as after a reset\n");
    }
    for (unsigned i = 0; i < XOSERA_STATE_WORDS; i++) {
        const xosera_word w = xosera_state_word(i);
        const uint16_t word = xosera_state_get(s, i);
        if (word != xosera_state_get(&reset, i)) {
            fprintf(out, "%-20s 0x%04X  %s\n", w.field, (unsigned)word, w.name);
        }
    }
}

#endif /* XOSERA_MODEL_STATE_H */
