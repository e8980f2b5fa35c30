/* SPDX-License-Identifier: MIT */
/*
 * State and calls: the fourteen calls of libxosera.a, the state that is lent to them, what they
 * answer and the numbers of their refusals. docs/CALLS.md says what each call does.
 */
#ifndef XOSERA_MODEL_CALLS_H
#define XOSERA_MODEL_CALLS_H

#include <stdbool.h>
#include <stddef.h>
#include <stdint.h>

#include "registers.h"
#include "version.h"

/* What a call can say. The lowest number that applies is given. A refused call leaves every word of
 * the state and of both memories as it was, a refused save every byte of the room, a refused paint
 * every pixel; a refused read gives byte 0, a refused write mask 0, a refused step or run count 0
 * and mask 0, a refused line question no, a refused save length 0, a refused why no fate. */
typedef enum xosera_refusal {
    XOSERA_DONE = 0,
    XOSERA_VRAM_LENGTH = 1,       /* VRAM is not a power of two of words from 256 to 65,536; of a
                                   * why, also: the two memories are not of one length */
    XOSERA_XR_LENGTH = 2,         /* XR memory is not 6,656 words */
    XOSERA_STATE_RANGE = 3,       /* a word of the state is out of its range */
    XOSERA_NO_REGISTER = 4,       /* register number over 15 */
    XOSERA_BLITTER_FULL = 5,      /* blitter register written while a blit is queued */
    XOSERA_RECONFIGURE = 6,       /* XM_INT_CTRL written with INT_CTRL_RECONFIG_F set */
    XOSERA_ROOM_SHORT = 7,        /* room too short for the file */
    XOSERA_NO_SAVED_ADAPTER = 8,  /* file is not a saved adapter */
    XOSERA_SAVED_VRAM_LENGTH = 9, /* VRAM of the saved adapter is not as long as the memory lent */
    XOSERA_NOT_AT_REST = 10,      /* beam and copper are not at rest */
    XOSERA_NO_BITMAP = 11,        /* playfield A is neither blank nor a bitmap of 4 or 8 bits */
    XOSERA_NO_LINE = 12,          /* line over 479 */
    XOSERA_PIXELS_LENGTH = 13,    /* pixels are not the 640 words of a line */
    XOSERA_NO_NIBBLE = 15         /* nibble over 3, or address not below the VRAM length */
} xosera_refusal;

/* A VRAM address and an XR address never stand for one another, hence two types. */
typedef struct xosera_vram_addr {
    uint16_t word;
} xosera_vram_addr;

typedef struct xosera_xr_addr {
    uint16_t word;
} xosera_xr_addr;

/* XM_TIMER. */
typedef struct xosera_timer {
    uint16_t count;
    uint16_t countdown; /* 1 to interval, or both 0 */
    uint16_t interval;
    uint16_t saved; /* low byte of count at the last even read; at most 255 */
} xosera_timer;

/* XM_RD_XADDR, XM_WR_XADDR and the word that XM_XDATA reads next. */
typedef struct xosera_xr_port {
    xosera_xr_addr rd_xaddr;
    xosera_xr_addr wr_xaddr;
    uint16_t rd_xdata;
} xosera_xr_port;

/* XM_RD_INCR to XM_WR_ADDR, the word that XM_DATA reads next, and the nibble mask. */
typedef struct xosera_vram_port {
    uint16_t rd_incr;
    xosera_vram_addr rd_addr;
    uint16_t wr_incr;
    xosera_vram_addr wr_addr;
    uint16_t rd_data;
    uint16_t wr_mask; /* at most 15 */
} xosera_vram_port;

/* The main registers, the interrupt status apart. */
typedef struct xosera_host {
    uint16_t latch[XOSERA_MAIN_REGS]; /* high byte of each register, at most 255 */
    xosera_xr_port xr;
    xosera_vram_port vram;
    xosera_timer timer;
    uint16_t int_mask; /* at most 127 */
} xosera_host;

/* The stored XR registers 0x00 to 0x05, 0x10 to 0x16 and 0x18 to 0x1E. */
typedef struct xosera_video {
    uint16_t vid_ctrl;
    uint16_t copp_ctrl;
    uint16_t aud_ctrl;
    uint16_t vid_left;
    uint16_t vid_right;
    uint16_t pa[7]; /* pa[XR_PA_LINE_LEN - XR_PA_GFX_CTRL], ... */
    uint16_t pb[7]; /* pb[XR_PB_LINE_LEN - XR_PB_GFX_CTRL], ... */
} xosera_video;

/* The blitter's ten registers. */
typedef struct xosera_blit_regs {
    uint16_t ctrl;
    uint16_t andc;
    uint16_t xor_; /* `xor` is a keyword of C++ */
    uint16_t mod_s;
    uint16_t src_s;
    uint16_t mod_d;
    uint16_t dst_d;
    uint16_t shift;
    uint16_t lines;
    uint16_t words;
} xosera_blit_regs;

/* The running blit. All of it is 0 when the engine is idle. */
typedef struct xosera_engine {
    uint16_t running; /* 0 or 1 */
    uint16_t line;    /* the line and the word that come next, from 0 */
    uint16_t word;
    uint16_t kept;         /* source word before, for the shifter; 0 on a blit's first word */
    xosera_blit_regs regs; /* as copied, lines mod 32,768; src_s and dst_d move on in place */
} xosera_engine;

/* The beam and the copper that follows it. All of it is 0 at rest, as after a reset or a load. */
typedef struct xosera_beam {
    uint16_t line;           /* at most 524 */
    uint16_t position;       /* in its line, at most 799; visible pixel 0 is position 160 */
    uint16_t copper_running; /* 0 or 1, 1 only while XR_COPP_CTRL bit 15 is set */
    uint16_t copper_word;    /* of copper memory, that comes next; at most 1,023, 0 when stopped */
} xosera_beam;

/* The whole state of the adapter but for its memories: 79 words, flags and bytes too, and no
 * padding. It may be copied, kept and compared with memcmp: equal states are equal memory. Words
 * that no adapter can have, set by a test or in a state that was never reset, are refused with 3,
 * never misread. */
#define XOSERA_STATE_WORDS 79
typedef struct xosera_state {
    xosera_host host;
    uint16_t queued; /* 0 or 1, 1 only while running: the blitter is full */
    uint16_t status; /* interrupt status, INT_CTRL_..._INTR_F; at most 127 */
    xosera_engine engine;
    xosera_video video;
    xosera_blit_regs blit; /* as the host wrote them; a queued blit waits here */
    xosera_beam beam;
} xosera_state;

/* A saved adapter as a file of bytes: contents, state, XR memory, VRAM; docs/SAVED.md has the
 * layout. It holds the state's words but those of the beam, which is at rest. Its length in bytes
 * by the words of its VRAM, and the longest. */
#define XOSERA_FILE_STATE_WORDS       75
#define XOSERA_FILE_STATE_AT          28
#define XOSERA_FILE_XR_AT             178
#define XOSERA_FILE_VRAM_AT           13490
#define XOSERA_FILE_BYTES(vram_words) (XOSERA_FILE_VRAM_AT + 2 * (size_t)(vram_words))
#define XOSERA_FILE_MAX               144562

/* Answers: `refusal` is one of xosera_refusal. `mask` says which nibbles of a VRAM word were
 * written, also with the value that they had: bit 3 is bits 15:12, the leftmost pixel, bit 0 is
 * 3:0. */
typedef struct xosera_write_answer {
    uint8_t refusal;
    uint8_t mask; /* odd write to XM_DATA or XM_DATA_2: the nibble mask; any other write: 0 */
} xosera_write_answer;

typedef struct xosera_read_answer {
    uint8_t refusal;
    uint8_t byte;
} xosera_read_answer;

typedef struct xosera_blit_answer {
    uint8_t refusal;
    uint8_t mask;   /* of the last word done, after edges and colour test; 0 where none was */
    uint64_t count; /* words done */
} xosera_blit_answer;

typedef struct xosera_state_answer {
    uint8_t refusal;
} xosera_state_answer;

typedef struct xosera_line_answer {
    uint8_t refusal;
    bool up;
} xosera_line_answer;

typedef struct xosera_save_answer {
    uint8_t refusal;
    uint64_t length; /* of the file, in bytes */
} xosera_save_answer;

typedef struct xosera_load_answer {
    uint8_t refusal;
} xosera_load_answer;

/* What became of a nibble in a blit. */
typedef enum xosera_fate {
    XOSERA_NOTHING_TOLD = 0, /* the call was refused */
    XOSERA_NEVER_REACHED = 1,
    XOSERA_HELD_BACK = 2, /* each time that it was reached */
    XOSERA_WRITTEN = 3    /* once at least, also with the value that it had */
} xosera_fate;

/* It has a byte of padding: compare its fields, not its memory. */
typedef struct xosera_why_answer {
    uint8_t refusal;
    uint8_t fate;    /* one of xosera_fate */
    bool first_mask; /* held back: which of the three applied when it was last reached; else no */
    bool last_mask;
    bool colour_test;
    uint16_t line; /* written: line and word that wrote it last, from 0; else 0 */
    uint16_t word;
} xosera_why_answer;

typedef struct xosera_paint_answer {
    uint8_t refusal;
} xosera_paint_answer;

/* The levels of a monochrome tube, from 0, black, to 15, white. */
#define XOSERA_GREY_LEVELS 16

/* The library's layout; tests/c/test_layout.c holds it against the library. */
#ifdef __cplusplus
#define XOSERA_ASSERT(cond, text) static_assert(cond, text)
#else
#define XOSERA_ASSERT(cond, text) _Static_assert(cond, text)
#endif
#define XOSERA_SIZE(type, bytes) XOSERA_ASSERT(sizeof(type) == (bytes), "size of " #type)
#define XOSERA_AT(type, field, at)                                                                 \
    XOSERA_ASSERT(offsetof(type, field) == (at), "place of " #field " in " #type)
#define XOSERA_WORD(number, field)                                                                 \
    XOSERA_ASSERT(offsetof(xosera_state, field) == 2 * (size_t)(number) &&                         \
                      sizeof(((xosera_state *)0)->field) == 2,                                     \
                  "word " #number " of the state is " #field)

XOSERA_SIZE(bool, 1);
XOSERA_SIZE(size_t, 8);
XOSERA_SIZE(xosera_state, 2 * (size_t)XOSERA_STATE_WORDS);
XOSERA_WORD(0, host.latch[0]);
XOSERA_WORD(15, host.latch[15]);
XOSERA_WORD(16, host.xr.rd_xaddr.word);
XOSERA_WORD(17, host.xr.wr_xaddr.word);
XOSERA_WORD(18, host.xr.rd_xdata);
XOSERA_WORD(19, host.vram.rd_incr);
XOSERA_WORD(20, host.vram.rd_addr.word);
XOSERA_WORD(21, host.vram.wr_incr);
XOSERA_WORD(22, host.vram.wr_addr.word);
XOSERA_WORD(23, host.vram.rd_data);
XOSERA_WORD(24, host.vram.wr_mask);
XOSERA_WORD(25, host.timer.count);
XOSERA_WORD(26, host.timer.countdown);
XOSERA_WORD(27, host.timer.interval);
XOSERA_WORD(28, host.timer.saved);
XOSERA_WORD(29, host.int_mask);
XOSERA_WORD(30, queued);
XOSERA_WORD(31, status);
XOSERA_WORD(32, engine.running);
XOSERA_WORD(33, engine.line);
XOSERA_WORD(34, engine.word);
XOSERA_WORD(35, engine.kept);
XOSERA_WORD(36, engine.regs.ctrl);
XOSERA_WORD(37, engine.regs.andc);
XOSERA_WORD(38, engine.regs.xor_);
XOSERA_WORD(39, engine.regs.mod_s);
XOSERA_WORD(40, engine.regs.src_s);
XOSERA_WORD(41, engine.regs.mod_d);
XOSERA_WORD(42, engine.regs.dst_d);
XOSERA_WORD(43, engine.regs.shift);
XOSERA_WORD(44, engine.regs.lines);
XOSERA_WORD(45, engine.regs.words);
XOSERA_WORD(46, video.vid_ctrl);
XOSERA_WORD(47, video.copp_ctrl);
XOSERA_WORD(48, video.aud_ctrl);
XOSERA_WORD(49, video.vid_left);
XOSERA_WORD(50, video.vid_right);
XOSERA_WORD(51, video.pa[0]);
XOSERA_WORD(57, video.pa[6]);
XOSERA_WORD(58, video.pb[0]);
XOSERA_WORD(64, video.pb[6]);
XOSERA_WORD(65, blit.ctrl);
XOSERA_WORD(66, blit.andc);
XOSERA_WORD(67, blit.xor_);
XOSERA_WORD(68, blit.mod_s);
XOSERA_WORD(69, blit.src_s);
XOSERA_WORD(70, blit.mod_d);
XOSERA_WORD(71, blit.dst_d);
XOSERA_WORD(72, blit.shift);
XOSERA_WORD(73, blit.lines);
XOSERA_WORD(74, blit.words);
XOSERA_WORD(75, beam.line);
XOSERA_WORD(76, beam.position);
XOSERA_WORD(77, beam.copper_running);
XOSERA_WORD(78, beam.copper_word);

XOSERA_SIZE(xosera_write_answer, 2);
XOSERA_AT(xosera_write_answer, refusal, 0);
XOSERA_AT(xosera_write_answer, mask, 1);
XOSERA_SIZE(xosera_read_answer, 2);
XOSERA_AT(xosera_read_answer, refusal, 0);
XOSERA_AT(xosera_read_answer, byte, 1);
XOSERA_SIZE(xosera_blit_answer, 16);
XOSERA_AT(xosera_blit_answer, refusal, 0);
XOSERA_AT(xosera_blit_answer, mask, 1);
XOSERA_AT(xosera_blit_answer, count, 8);
XOSERA_SIZE(xosera_state_answer, 1);
XOSERA_AT(xosera_state_answer, refusal, 0);
XOSERA_SIZE(xosera_line_answer, 2);
XOSERA_AT(xosera_line_answer, refusal, 0);
XOSERA_AT(xosera_line_answer, up, 1);
XOSERA_SIZE(xosera_save_answer, 16);
XOSERA_AT(xosera_save_answer, refusal, 0);
XOSERA_AT(xosera_save_answer, length, 8);
XOSERA_SIZE(xosera_load_answer, 1);
XOSERA_AT(xosera_load_answer, refusal, 0);
XOSERA_SIZE(xosera_why_answer, 10);
XOSERA_AT(xosera_why_answer, refusal, 0);
XOSERA_AT(xosera_why_answer, fate, 1);
XOSERA_AT(xosera_why_answer, first_mask, 2);
XOSERA_AT(xosera_why_answer, last_mask, 3);
XOSERA_AT(xosera_why_answer, colour_test, 4);
XOSERA_AT(xosera_why_answer, line, 6);
XOSERA_AT(xosera_why_answer, word, 8);
XOSERA_SIZE(xosera_paint_answer, 1);
XOSERA_AT(xosera_paint_answer, refusal, 0);

XOSERA_ASSERT(offsetof(xosera_state, beam) == 2 * (size_t)XOSERA_FILE_STATE_WORDS,
              "a file holds the words before the beam");
XOSERA_ASSERT(XOSERA_FILE_XR_AT == XOSERA_FILE_STATE_AT + 2 * XOSERA_FILE_STATE_WORDS,
              "XR memory follows the state in a file");
XOSERA_ASSERT(XOSERA_FILE_VRAM_AT == XOSERA_FILE_XR_AT + 2 * XOSERA_XR_WORDS,
              "VRAM follows XR memory in a file");
XOSERA_ASSERT(XOSERA_FILE_MAX == XOSERA_FILE_BYTES(XOSERA_VRAM_MAX), "the longest file");
XOSERA_ASSERT(XOSERA_FRAME_STEPS == XOSERA_FRAME_LINES * XOSERA_LINE_POSITIONS,
              "the steps of a frame");
XOSERA_ASSERT(XOSERA_SCREEN_WIDTH == XOSERA_LINE_POSITIONS - XOSERA_BLANK_POSITIONS,
              "the visible pixels of a line");
XOSERA_ASSERT(XOSERA_SCREEN_PIXELS == XOSERA_SCREEN_WIDTH * XOSERA_VISIBLE_LINES,
              "the pixels of a screen");

#ifdef __cplusplus
extern "C" {
#endif

/* State and memories are lent for the one call, and changed in place. State, VRAM, XR memory, the
 * bytes of a file and the pixels of a line must not overlap one another, nor must two VRAMs.
 * Lengths are in words, those of a room or a file in bytes. */

/* Reset fills all words of the state: 0 but the nibble mask, 15, and XR_VID_RIGHT, 640. */
void xosera_reset(xosera_state *s);

/* The host writes or reads one byte of main register `reg`: the high byte at the even address
 * (odd = false), the low byte at the odd one (odd = true). */
xosera_write_answer xosera_write_byte(xosera_state *s, uint16_t *vram, size_t vram_len,
                                      uint16_t *xr, size_t xr_len, uint8_t reg, bool odd,
                                      uint8_t byte);
xosera_read_answer xosera_read_byte(xosera_state *s, const uint16_t *vram, size_t vram_len,
                                    const uint16_t *xr, size_t xr_len, uint8_t reg, bool odd);

/* The blitter does one word, or up to `n` words; a queued blit follows on the running one. */
xosera_blit_answer xosera_blit_step(xosera_state *s, uint16_t *vram, size_t vram_len,
                                    const uint16_t *xr, size_t xr_len);
xosera_blit_answer xosera_blit_run(xosera_state *s, uint16_t *vram, size_t vram_len,
                                   const uint16_t *xr, size_t xr_len, uint64_t n);

/* A tenth of a millisecond passes; is the interrupt line up? */
xosera_state_answer xosera_timer_tick(xosera_state *s);
xosera_line_answer xosera_interrupt_line(const xosera_state *s);

/* The beam moves on by one native pixel; line 480 is the frame end, line 0 starts an enabled
 * copper; then a running copper does one instruction. */
xosera_state_answer xosera_beam_step(xosera_state *s, const uint16_t *vram, size_t vram_len,
                                     uint16_t *xr, size_t xr_len);

/* Save the adapter, beam and copper at rest, to the first bytes of a room, which may be longer than
 * the file; the bytes behind the file stay as they were. Load the adapter that a file holds, beam
 * and copper at rest: any bytes that no adapter saves are refused with 8. */
xosera_save_answer xosera_save(const xosera_state *s, const uint16_t *vram, size_t vram_len,
                               const uint16_t *xr, size_t xr_len, uint8_t *room, size_t room_len);
xosera_load_answer xosera_load(xosera_state *s, uint16_t *vram, size_t vram_len, uint16_t *xr,
                               size_t xr_len, const uint8_t *file, size_t file_len);

/* Why a nibble of VRAM is as it is after the whole blit of these registers, on an engine that was
 * idle and the memory before. `nibble` is 0 to 3 from the left. The blit is done in `work`, which
 * ends as the blit leaves the memory, whatever it held. */
xosera_why_answer xosera_why(xosera_blit_regs regs, const uint16_t *before, size_t before_len,
                             uint16_t *work, size_t work_len, uint32_t address, uint32_t nibble);

/* Paint a visible line of playfield A as state and memories stand: 640 words, left to right, each a
 * colour from the first half of colour memory. Nothing else changes. */
xosera_paint_answer xosera_paint(const xosera_state *s, const uint16_t *vram, size_t vram_len,
                                 const uint16_t *xr, size_t xr_len, uint32_t line, uint16_t *pixels,
                                 size_t pixels_len);

/* The level of a colour 0xRGB: (299 R + 587 G + 114 B + 500) / 1000, rounded down. The top four
 * bits are ignored. It refuses nothing. */
uint8_t xosera_grey(uint16_t colour);

/* Paint a line in levels: as xosera_paint, refusals too, with each word taken to its level. */
xosera_paint_answer xosera_paint_grey(const xosera_state *s, const uint16_t *vram, size_t vram_len,
                                      const uint16_t *xr, size_t xr_len, uint32_t line,
                                      uint16_t *pixels, size_t pixels_len);

#ifdef __cplusplus
}
#endif

#endif /* XOSERA_MODEL_CALLS_H */
