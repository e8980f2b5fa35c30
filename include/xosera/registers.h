/* SPDX-License-Identifier: MIT */
/*
 * Registers and bits: the numbers of the main registers, the addresses of the XR registers and
 * memories, the bits and fields of their words, and the sizes of the memories and of the frame.
 */
#ifndef XOSERA_MODEL_REGISTERS_H
#define XOSERA_MODEL_REGISTERS_H

/* The board's own header has the same names with other values. Included before this one it is found
 * by its guards; included after, its guards are poisoned, so that the compiler refuses them. */
#if defined(XOSERA_M68K_API_H) || defined(XOSERA_M68K_DEFS_H)
#error "xosera_model.h takes the place of the board's xosera_m68k_api.h: include one, not both"
#include "include one, not both" /* no such file: ends it before every name is redefined */
#else
#pragma GCC poison XOSERA_M68K_API_H XOSERA_M68K_DEFS_H /* include one, not both */
#endif

#include <stdint.h>

/* Main registers: the number of the register, 0 to 15. (The board's own header has byte offsets,
 * four times these, because it adds them to an address.) */
#define XM_SYS_CTRL  0x0 /* R/W   blitter full and busy, blanking; VRAM nibble mask */
#define XM_INT_CTRL  0x1 /* R/W+  interrupt mask and status */
#define XM_TIMER     0x2 /* R/W   timer; a write sets the countdown */
#define XM_RD_XADDR  0x3 /* R/W+  XR address of the next read at XM_XDATA */
#define XM_WR_XADDR  0x4 /* R/W   XR address of the next write at XM_XDATA */
#define XM_XDATA     0x5 /* R+/W+ XR data port */
#define XM_RD_INCR   0x6 /* R/W   added to XM_RD_ADDR by a data read */
#define XM_RD_ADDR   0x7 /* R/W+  VRAM address of the next data read */
#define XM_WR_INCR   0x8 /* R/W   added to XM_WR_ADDR by a data write */
#define XM_WR_ADDR   0x9 /* R/W   VRAM address of the next data write */
#define XM_DATA      0xA /* R+/W+ VRAM data port */
#define XM_DATA_2    0xB /* R+/W+ the same port again, for 32-bit accesses */
#define XM_UNUSED_0C 0xC /*       12 to 15 read 0 and ignore the word written */
#define XM_UNUSED_0D 0xD
#define XM_UNUSED_0E 0xE
#define XM_FEATURES  0xF

#define XOSERA_MAIN_REGS 16

/* Bits and fields: ..._B is the number of the bit, or of the lowest one; ..._F has the bits set.
 * MAKE_... puts a word together from its fields: each argument is evaluated once and cut to its
 * field, a flag to its lowest bit, and the word is a constant where the arguments are. */
#define XOSERA_FIELD(field, value) (((unsigned)(value) << field##_B) & field##_F)

/* XM_SYS_CTRL. The flags SYS_CTRL_..._F are bits of the HIGH byte, as read by xm_getbh(SYS_CTRL);
 * XM_SYS_CTRL_... are the same as bits of the word. The nibble mask is in the low byte: bit 3
 * guards bits 15:12 of a VRAM word, bit 0 guards 3:0. */
#define SYS_CTRL_MEM_WAIT_B   7 /* reads 0: the model's memory is always ready */
#define SYS_CTRL_BLIT_FULL_B  6
#define SYS_CTRL_BLIT_BUSY_B  5
#define SYS_CTRL_HBLANK_B     3 /* left blanking: the first 160 positions of every line */
#define SYS_CTRL_VBLANK_B     2 /* from line 480 on */
#define SYS_CTRL_MEM_WAIT_F   (1 << SYS_CTRL_MEM_WAIT_B)
#define SYS_CTRL_BLIT_FULL_F  (1 << SYS_CTRL_BLIT_FULL_B)
#define SYS_CTRL_BLIT_BUSY_F  (1 << SYS_CTRL_BLIT_BUSY_B)
#define SYS_CTRL_HBLANK_F     (1 << SYS_CTRL_HBLANK_B)
#define SYS_CTRL_VBLANK_F     (1 << SYS_CTRL_VBLANK_B)
#define SYS_CTRL_WR_MASK_F    0x0F
#define XM_SYS_CTRL_MEM_WAIT  (SYS_CTRL_MEM_WAIT_F << 8)
#define XM_SYS_CTRL_BLIT_FULL (SYS_CTRL_BLIT_FULL_F << 8)
#define XM_SYS_CTRL_BLIT_BUSY (SYS_CTRL_BLIT_BUSY_F << 8)
#define XM_SYS_CTRL_HBLANK    (SYS_CTRL_HBLANK_F << 8)
#define XM_SYS_CTRL_VBLANK    (SYS_CTRL_VBLANK_F << 8)
#define XM_SYS_CTRL_WR_MASK   SYS_CTRL_WR_MASK_F

/* XM_INT_CTRL, bits of the word: enable (mask) in 14:8, pending (status) in 6:0. */
#define INT_CTRL_RECONFIG_B   15
#define INT_CTRL_BLIT_EN_B    14
#define INT_CTRL_TIMER_EN_B   13
#define INT_CTRL_VIDEO_EN_B   12
#define INT_CTRL_AUD3_EN_B    11
#define INT_CTRL_AUD2_EN_B    10
#define INT_CTRL_AUD1_EN_B    9
#define INT_CTRL_AUD0_EN_B    8
#define INT_CTRL_BLIT_INTR_B  6
#define INT_CTRL_TIMER_INTR_B 5
#define INT_CTRL_VIDEO_INTR_B 4
#define INT_CTRL_AUD3_INTR_B  3
#define INT_CTRL_AUD2_INTR_B  2
#define INT_CTRL_AUD1_INTR_B  1
#define INT_CTRL_AUD0_INTR_B  0
#define INT_CTRL_RECONFIG_F   (1 << INT_CTRL_RECONFIG_B) /* writing it is refusal 6 */
#define INT_CTRL_BLIT_EN_F    (1 << INT_CTRL_BLIT_EN_B)
#define INT_CTRL_TIMER_EN_F   (1 << INT_CTRL_TIMER_EN_B)
#define INT_CTRL_VIDEO_EN_F   (1 << INT_CTRL_VIDEO_EN_B)
#define INT_CTRL_AUD3_EN_F    (1 << INT_CTRL_AUD3_EN_B)
#define INT_CTRL_AUD2_EN_F    (1 << INT_CTRL_AUD2_EN_B)
#define INT_CTRL_AUD1_EN_F    (1 << INT_CTRL_AUD1_EN_B)
#define INT_CTRL_AUD0_EN_F    (1 << INT_CTRL_AUD0_EN_B)
#define INT_CTRL_EN_ALL_F     (INT_CTRL_CLEAR_ALL_F << 8)
#define INT_CTRL_BLIT_INTR_F  (1 << INT_CTRL_BLIT_INTR_B)
#define INT_CTRL_TIMER_INTR_F (1 << INT_CTRL_TIMER_INTR_B)
#define INT_CTRL_VIDEO_INTR_F (1 << INT_CTRL_VIDEO_INTR_B)
#define INT_CTRL_AUD3_INTR_F  (1 << INT_CTRL_AUD3_INTR_B)
#define INT_CTRL_AUD2_INTR_F  (1 << INT_CTRL_AUD2_INTR_B)
#define INT_CTRL_AUD1_INTR_F  (1 << INT_CTRL_AUD1_INTR_B)
#define INT_CTRL_AUD0_INTR_F  (1 << INT_CTRL_AUD0_INTR_B)
#define INT_CTRL_CLEAR_ALL_F  0x007F

/* XR registers: video and copper. All read back what was stored but XR_SCANLINE, which reads the
 * beam's line and whose write sets the video interrupt. 0x06 to 0x0F read 0 and drop writes. */
#define XR_VID_CTRL  0x00
#define XR_COPP_CTRL 0x01
#define XR_AUD_CTRL  0x02
#define XR_SCANLINE  0x03
#define XR_VID_LEFT  0x04
#define XR_VID_RIGHT 0x05
#define XR_UNUSED_06 0x06
#define XR_UNUSED_07 0x07
#define XR_UNUSED_08 0x08
#define XR_UNUSED_09 0x09
#define XR_UNUSED_0A 0x0A
#define XR_UNUSED_0B 0x0B
#define XR_UNUSED_0C 0x0C
#define XR_UNUSED_0D 0x0D
#define XR_UNUSED_0E 0x0E
#define XR_UNUSED_0F 0x0F
#define XR_FEATURES  0x09 /* names from the reference's summary table */
#define XR_VID_HSIZE 0x0A
#define XR_VID_VSIZE 0x0B

/* XR_VID_CTRL: the playfields swap their halves of colour memory, which painting ignores; the
 * border's colour. */
#define VID_CTRL_SWAP_AB_B 15
#define VID_CTRL_BORDCOL_B 0
#define VID_CTRL_SWAP_AB_F (1 << VID_CTRL_SWAP_AB_B)
#define VID_CTRL_BORDCOL_F (0xFF << VID_CTRL_BORDCOL_B)

#define MAKE_VID_CTRL(swap_ab, bordcol)                                                            \
    ((uint16_t)(XOSERA_FIELD(VID_CTRL_SWAP_AB, swap_ab) | XOSERA_FIELD(VID_CTRL_BORDCOL, bordcol)))

/* XR_AUD_CTRL: sound is on. The bit is Xosera's own; the word is stored and does nothing. */
#define AUD_CTRL_AUD_EN_B 0
#define AUD_CTRL_AUD_EN_F (1 << AUD_CTRL_AUD_EN_B)

/* XR_COPP_CTRL: the copper is enabled. It runs from the next time on that the beam reaches line 0;
 * a write without the bit stops it at once. */
#define COPP_CTRL_COPP_EN_B 15
#define COPP_CTRL_COPP_EN_F (1 << COPP_CTRL_COPP_EN_B)

/* XR registers: playfields A and B. XR_Px_LINE_ADDR is stored and reads 0. */
#define XR_PA_GFX_CTRL  0x10
#define XR_PA_TILE_CTRL 0x11
#define XR_PA_DISP_ADDR 0x12
#define XR_PA_LINE_LEN  0x13
#define XR_PA_HV_SCROLL 0x14
#define XR_PA_LINE_ADDR 0x15
#define XR_PA_HV_FSCALE 0x16
#define XR_PA_UNUSED_17 0x17
#define XR_PB_GFX_CTRL  0x18
#define XR_PB_TILE_CTRL 0x19
#define XR_PB_DISP_ADDR 0x1A
#define XR_PB_LINE_LEN  0x1B
#define XR_PB_HV_SCROLL 0x1C
#define XR_PB_LINE_ADDR 0x1D
#define XR_PB_HV_FSCALE 0x1E
#define XR_PB_UNUSED_1F 0x1F

/* XR_Px_GFX_CTRL. */
#define GFX_CTRL_COLORBASE_B 8 /* index bits that the pixel does not have */
#define GFX_CTRL_BLANK_B     7
#define GFX_CTRL_BITMAP_B    6 /* or tiles */
#define GFX_CTRL_BPP_B       4 /* XR_GFX_BPP_... */
#define GFX_CTRL_H_REPEAT_B  2 /* native pixels a pixel is wide, less one */
#define GFX_CTRL_V_REPEAT_B  0 /* lines that it is tall, less one */
#define GFX_CTRL_COLORBASE_F (0xFF << GFX_CTRL_COLORBASE_B)
#define GFX_CTRL_BLANK_F     (1 << GFX_CTRL_BLANK_B)
#define GFX_CTRL_BITMAP_F    (1 << GFX_CTRL_BITMAP_B)
#define GFX_CTRL_BPP_F       (0x3 << GFX_CTRL_BPP_B)
#define GFX_CTRL_H_REPEAT_F  (0x3 << GFX_CTRL_H_REPEAT_B)
#define GFX_CTRL_V_REPEAT_F  (0x3 << GFX_CTRL_V_REPEAT_B)

#define XR_GFX_BPP_1 0
#define XR_GFX_BPP_4 1
#define XR_GFX_BPP_8 2
#define XR_GFX_BPP_X 3

/* hx and vx are the repeats less one, 0 to 3, as the word has them. */
#define MAKE_GFX_CTRL(colbase, blank, bpp, bm, hx, vx)                                             \
    ((uint16_t)(XOSERA_FIELD(GFX_CTRL_COLORBASE, colbase) | XOSERA_FIELD(GFX_CTRL_BLANK, blank) |  \
                XOSERA_FIELD(GFX_CTRL_BPP, bpp) | XOSERA_FIELD(GFX_CTRL_BITMAP, bm) |              \
                XOSERA_FIELD(GFX_CTRL_H_REPEAT, hx) | XOSERA_FIELD(GFX_CTRL_V_REPEAT, vx)))

/* XR_Px_TILE_CTRL, XR_Px_HV_SCROLL and XR_Px_HV_FSCALE. The reference shows their bits in pictures
 * only; the places are those of Xosera's own header. Here the words are stored and read back. */
#define TILE_CTRL_TILEBASE_B     10 /* bits 15:10 of the tiles' address */
#define TILE_CTRL_DISP_TILEMEM_B 9  /* the map is in tile memory, not in VRAM */
#define TILE_CTRL_TILE_VRAM_B    8  /* the tiles are in VRAM, not in tile memory */
#define TILE_CTRL_TILEHEIGHT_B   0  /* lines less one */
#define TILE_CTRL_TILEBASE_F     (0x3F << TILE_CTRL_TILEBASE_B)
#define TILE_CTRL_DISP_TILEMEM_F (1 << TILE_CTRL_DISP_TILEMEM_B)
#define TILE_CTRL_TILE_VRAM_F    (1 << TILE_CTRL_TILE_VRAM_B)
#define TILE_CTRL_TILEHEIGHT_F   (0xF << TILE_CTRL_TILEHEIGHT_B)

#define HV_SCROLL_H_B 8
#define HV_SCROLL_V_B 0
#define HV_SCROLL_H_F (0x1F << HV_SCROLL_H_B)
#define HV_SCROLL_V_F (0x3F << HV_SCROLL_V_B)

#define HV_FSCALE_H_B 8
#define HV_FSCALE_V_B 0
#define HV_FSCALE_H_F (0x7 << HV_FSCALE_H_B)
#define HV_FSCALE_V_F (0x7 << HV_FSCALE_V_B)

/* Bits 15:10 of the address tilebase count; tileheight is the number of lines, 1 to 16. */
#define MAKE_TILE_CTRL(tilebase, map_in_tile, glyph_in_vram, tileheight)                           \
    ((uint16_t)(((unsigned)(tilebase)&TILE_CTRL_TILEBASE_F) |                                      \
                XOSERA_FIELD(TILE_CTRL_DISP_TILEMEM, map_in_tile) |                                \
                XOSERA_FIELD(TILE_CTRL_TILE_VRAM, glyph_in_vram) |                                 \
                XOSERA_FIELD(TILE_CTRL_TILEHEIGHT, (tileheight)-1)))
#define MAKE_HV_SCROLL(h_scroll, v_scroll)                                                         \
    ((uint16_t)(XOSERA_FIELD(HV_SCROLL_H, h_scroll) | XOSERA_FIELD(HV_SCROLL_V, v_scroll)))
#define MAKE_HV_FSCALE(h_frac, v_frac)                                                             \
    ((uint16_t)(XOSERA_FIELD(HV_FSCALE_H, h_frac) | XOSERA_FIELD(HV_FSCALE_V, v_frac)))

/* XR registers: sound, which the model does not have. They read 0 and drop writes. The reference
 * gives their range alone; the names are those of Xosera's own header. */
#define XR_AUD0_VOL    0x20
#define XR_AUD0_PERIOD 0x21
#define XR_AUD0_LENGTH 0x22
#define XR_AUD0_START  0x23
#define XR_AUD1_VOL    0x24
#define XR_AUD1_PERIOD 0x25
#define XR_AUD1_LENGTH 0x26
#define XR_AUD1_START  0x27
#define XR_AUD2_VOL    0x28
#define XR_AUD2_PERIOD 0x29
#define XR_AUD2_LENGTH 0x2A
#define XR_AUD2_START  0x2B
#define XR_AUD3_VOL    0x2C
#define XR_AUD3_PERIOD 0x2D
#define XR_AUD3_LENGTH 0x2E
#define XR_AUD3_START  0x2F

/* XR registers: the blitter. They are stored and read 0. Writing XR_BLIT_WORDS starts a blit, or
 * queues one; while one is queued, a write to any of the ten is refusal 5. The place is that of
 * the reference's region table (its blitter chapter says 0x20 to 0x29). */
#define XR_BLIT_CTRL  0x40 /* colour to hold back, transparency, constant source */
#define XR_BLIT_ANDC  0x41 /* result: (S and not ANDC) xor XOR */
#define XR_BLIT_XOR   0x42
#define XR_BLIT_MOD_S 0x43 /* added to the source after each line */
#define XR_BLIT_SRC_S 0x44 /* source address, or the constant */
#define XR_BLIT_MOD_D 0x45 /* added to the destination after each line */
#define XR_BLIT_DST_D 0x46 /* destination address */
#define XR_BLIT_SHIFT 0x47 /* first mask, last mask, nibble shift */
#define XR_BLIT_LINES 0x48 /* lines less one, modulo 32,768 */
#define XR_BLIT_WORDS 0x49 /* words a line less one */

#define BLIT_CTRL_S_CONST_B   0
#define BLIT_CTRL_TRANSP_B    4
#define BLIT_CTRL_TRANSP_8B_B 5
#define BLIT_CTRL_TVAL_B      8
#define BLIT_CTRL_S_CONST_F   (1 << BLIT_CTRL_S_CONST_B)
#define BLIT_CTRL_TRANSP_F    (1 << BLIT_CTRL_TRANSP_B)
#define BLIT_CTRL_TRANSP_8B_F (1 << BLIT_CTRL_TRANSP_8B_B)
#define BLIT_CTRL_TVAL_F      (0xFF << BLIT_CTRL_TVAL_B)

#define BLIT_SHIFT_FIRST_B  12
#define BLIT_SHIFT_LAST_B   8
#define BLIT_SHIFT_AMOUNT_B 0
#define BLIT_SHIFT_FIRST_F  (0xF << BLIT_SHIFT_FIRST_B)
#define BLIT_SHIFT_LAST_F   (0xF << BLIT_SHIFT_LAST_B)
#define BLIT_SHIFT_AMOUNT_F (0x3 << BLIT_SHIFT_AMOUNT_B)

#define MAKE_BLIT_CTRL(tval, transp8, transp, s_const)                                             \
    ((uint16_t)(XOSERA_FIELD(BLIT_CTRL_TVAL, tval) | XOSERA_FIELD(BLIT_CTRL_TRANSP_8B, transp8) |  \
                XOSERA_FIELD(BLIT_CTRL_TRANSP, transp) |                                           \
                XOSERA_FIELD(BLIT_CTRL_S_CONST, s_const)))
#define MAKE_BLIT_SHIFT(first, last, amount)                                                       \
    ((uint16_t)(XOSERA_FIELD(BLIT_SHIFT_FIRST, first) | XOSERA_FIELD(BLIT_SHIFT_LAST, last) |      \
                XOSERA_FIELD(BLIT_SHIFT_AMOUNT, amount)))

/* XR memories. */
#define XR_TILE_ADDR    0x4000 /* to 0x53FF */
#define XR_TILE_SIZE    0x1400
#define XR_COLOR_ADDR   0x8000 /* to 0x81FF */
#define XR_COLOR_SIZE   0x0200
#define XR_COLOR_A_ADDR 0x8000 /* playfield A's half; painting goes by it also where swapped */
#define XR_COLOR_A_SIZE 0x0100
#define XR_COLOR_B_ADDR 0x8100
#define XR_COLOR_B_SIZE 0x0100
#define XR_COPPER_ADDR  0xC000 /* to 0xC3FF */
#define XR_COPPER_SIZE  0x0400

/* The memories lent to every access: VRAM is a power of two of words between the two bounds, XR
 * memory is the tile, colour and copper words one after the other. */
#define XOSERA_VRAM_MIN    256
#define XOSERA_VRAM_MAX    65536
#define XOSERA_XR_WORDS    6656
#define XOSERA_XR_TILE_AT  0
#define XOSERA_XR_COLOR_AT 5120
#define XOSERA_XR_COPP_AT  5632

/* The frame, in native pixels. A beam step is one position; visible pixel 0 is the position behind
 * the blank ones. The screen is what is seen of it, in words of one colour a pixel. */
#define XOSERA_LINE_POSITIONS  800
#define XOSERA_BLANK_POSITIONS 160
#define XOSERA_FRAME_LINES     525
#define XOSERA_VISIBLE_LINES   480
#define XOSERA_FRAME_STEPS     420000
#define XOSERA_SCREEN_WIDTH    640
#define XOSERA_SCREEN_PIXELS   307200

#endif /* XOSERA_MODEL_REGISTERS_H */
