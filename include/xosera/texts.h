/* SPDX-License-Identifier: MIT */
/*
 * Names and words for messages: refusals, calls, registers, XR addresses, masks.
 */
#ifndef XOSERA_MODEL_TEXTS_H
#define XOSERA_MODEL_TEXTS_H

#include <stddef.h>

#include "calls.h"
#include "registers.h"

/* A text that snprintf made in a buffer of this size: cut is fine, a failure is an empty text. */
static inline const char *xosera_text_made(char *text, size_t size, int length)
{
    if (length < 0 && size != 0) {
        text[0] = '\0';
    }
    return text;
}

typedef enum xosera_call {
    XOSERA_CALL_WRITE,
    XOSERA_CALL_READ,
    XOSERA_CALL_STEP,
    XOSERA_CALL_RUN,
    XOSERA_CALL_TICK,
    XOSERA_CALL_BEAM_STEP,
    XOSERA_CALL_LINE,
    XOSERA_CALL_SAVE,
    XOSERA_CALL_LOAD,
    XOSERA_CALL_WHY,
    XOSERA_CALL_PAINT,
    XOSERA_CALL_PAINT_GREY
} xosera_call;

/* A refusal in words, for messages. */
static inline const char *xosera_refusal_text(unsigned refusal)
{
    switch (refusal) {
    case XOSERA_DONE: return "done";
    case XOSERA_VRAM_LENGTH: return "VRAM length is no power of two from 256 to 65536";
    case XOSERA_XR_LENGTH: return "XR memory is not 6656 words";
    case XOSERA_STATE_RANGE: return "state out of its ranges";
    case XOSERA_NO_REGISTER: return "register number over 15";
    case XOSERA_BLITTER_FULL: return "blitter register written while the blitter is full";
    case XOSERA_RECONFIGURE: return "XM_INT_CTRL written with bit 15 set";
    case XOSERA_ROOM_SHORT: return "room too short for the file";
    case XOSERA_NO_SAVED_ADAPTER: return "file is not a saved adapter";
    case XOSERA_SAVED_VRAM_LENGTH:
        return "VRAM of the saved adapter is not as long as the memory lent";
    case XOSERA_NOT_AT_REST: return "beam and copper are not at rest";
    case XOSERA_NO_BITMAP: return "playfield A is neither blank nor a bitmap of 4 or 8 bits";
    case XOSERA_NO_LINE: return "line over 479";
    case XOSERA_PIXELS_LENGTH: return "pixels are not 640 words a line";
    case XOSERA_NO_NIBBLE: return "nibble over 3, or address not below the VRAM length";
    default: return "unknown refusal";
    }
}

/* A call in words, for messages. */
static inline const char *xosera_call_text(xosera_call call)
{
    static const char *const calls[] = {"write",      "read",      "blit step",     "blit run",
                                        "timer tick", "beam step", "line question", "save",
                                        "load",       "why",       "paint",         "paint grey"};
    return (unsigned)call <= XOSERA_CALL_PAINT_GREY ? calls[call] : "unknown call";
}

/* A fate in words, for messages. */
static inline const char *xosera_fate_text(unsigned fate)
{
    static const char *const fates[] = {"nothing told", "never reached", "held back", "written"};
    return fate <= XOSERA_WRITTEN ? fates[fate] : "unknown fate";
}

/* The name of a main register, as XM_SYS_CTRL. */
static inline const char *xosera_register_text(unsigned reg)
{
    static const char *const names[] = {
        "XM_SYS_CTRL",  "XM_INT_CTRL",  "XM_TIMER",     "XM_RD_XADDR", "XM_WR_XADDR", "XM_XDATA",
        "XM_RD_INCR",   "XM_RD_ADDR",   "XM_WR_INCR",   "XM_WR_ADDR",  "XM_DATA",     "XM_DATA_2",
        "XM_UNUSED_0C", "XM_UNUSED_0D", "XM_UNUSED_0E", "XM_FEATURES"};
    return reg < XOSERA_MAIN_REGS ? names[reg] : "no register";
}

/* A mask in four marks, the leftmost nibble first: # written, . held back. */
static inline const char *xosera_mask_text(unsigned mask)
{
    static const char *const marks[] = {"....", "...#", "..#.", "..##", ".#..", ".#.#",
                                        ".##.", ".###", "#...", "#..#", "#.#.", "#.##",
                                        "##..", "##.#", "###.", "####"};
    return mask <= 15 ? marks[mask] : "????";
}

/* The name of an XR register, or of the memory that an XR address lies in. */
static inline const char *xosera_xr_text(unsigned xaddr)
{
    static const char *const video[] = {"XR_VID_CTRL", "XR_COPP_CTRL", "XR_AUD_CTRL",
                                        "XR_SCANLINE", "XR_VID_LEFT",  "XR_VID_RIGHT"};
    static const char *const playfields[] = {
        "XR_PA_GFX_CTRL",  "XR_PA_TILE_CTRL", "XR_PA_DISP_ADDR", "XR_PA_LINE_LEN",
        "XR_PA_HV_SCROLL", "XR_PA_LINE_ADDR", "XR_PA_HV_FSCALE", "XR_PA_UNUSED_17",
        "XR_PB_GFX_CTRL",  "XR_PB_TILE_CTRL", "XR_PB_DISP_ADDR", "XR_PB_LINE_LEN",
        "XR_PB_HV_SCROLL", "XR_PB_LINE_ADDR", "XR_PB_HV_FSCALE", "XR_PB_UNUSED_1F"};
    static const char *const blitter[] = {
        "XR_BLIT_CTRL",  "XR_BLIT_ANDC",  "XR_BLIT_XOR",   "XR_BLIT_MOD_S", "XR_BLIT_SRC_S",
        "XR_BLIT_MOD_D", "XR_BLIT_DST_D", "XR_BLIT_SHIFT", "XR_BLIT_LINES", "XR_BLIT_WORDS"};
    if (xaddr <= XR_VID_RIGHT) {
        return video[xaddr];
    }
    if (xaddr >= XR_PA_GFX_CTRL && xaddr <= XR_PB_UNUSED_1F) {
        return playfields[xaddr - XR_PA_GFX_CTRL];
    }
    if (xaddr >= XR_BLIT_CTRL && xaddr <= XR_BLIT_WORDS) {
        return blitter[xaddr - XR_BLIT_CTRL];
    }
    if (xaddr >= XR_TILE_ADDR && xaddr < XR_TILE_ADDR + XR_TILE_SIZE) {
        return "tile memory";
    }
    if (xaddr >= XR_COLOR_ADDR && xaddr < XR_COLOR_ADDR + XR_COLOR_SIZE) {
        return "colour memory";
    }
    if (xaddr >= XR_COPPER_ADDR && xaddr < XR_COPPER_ADDR + XR_COPPER_SIZE) {
        return "copper memory";
    }
    return "nothing there";
}

#endif /* XOSERA_MODEL_TEXTS_H */
