/* SPDX-License-Identifier: MIT */
/*
 * Copper programs: instructions in the spelling of Xosera's own tools, and loading them.
 *
 * An instruction is 32 bits, its first word in bits 31:16:
 *
 *   static const uint32_t list[] = {COP_WAIT_V(240), COP_MOVER(0x0004, VID_CTRL), COP_END()};
 *
 * Arguments are evaluated once and cut to the width of their field. All of these are constants
 * where their arguments are.
 */
#ifndef XOSERA_MODEL_COPPER_H
#define XOSERA_MODEL_COPPER_H

#include <stdbool.h>
#include <stddef.h>
#include <stdint.h>

#include "handle.h"
#include "registers.h"

/* Operation in 31:29, `first` in 28:16, `second` in 15:0. */
#define XOSERA_COP(operation, first, second)                                                       \
    ((uint32_t)(operation) << 29 | (uint32_t)(first) << 16 | (uint32_t)(second))
/* A place: line in 26:16, visible pixel in 14:4, then bit 0 to ignore the line and bit 1 to ignore
 * the pixel. */
#define XOSERA_COP_PLACE(operation, h, v, ignore)                                                  \
    XOSERA_COP(operation, (v)&0x7FF, (uint32_t)((h)&0x7FF) << 4 | (ignore))

/* Wait until the beam has reached a place: line v and there visible pixel h, or a later line; pixel
 * h of any line; any pixel of line v or a later one. F and END: until the frame is over. */
#define COP_WAIT_HV(h, v) XOSERA_COP_PLACE(0, h, v, 0)
#define COP_WAIT_H(h)     XOSERA_COP_PLACE(0, h, 0, 1)
#define COP_WAIT_V(v)     XOSERA_COP_PLACE(0, 0, v, 2)
#define COP_WAIT_F()      XOSERA_COP_PLACE(0, 0, 0, 3)
#define COP_END()         COP_WAIT_F()

/* Skip the next instruction if the beam has reached a place. F: always. */
#define COP_SKIP_HV(h, v) XOSERA_COP_PLACE(1, h, v, 0)
#define COP_SKIP_H(h)     XOSERA_COP_PLACE(1, h, 0, 1)
#define COP_SKIP_V(v)     XOSERA_COP_PLACE(1, 0, v, 2)
#define COP_SKIP_F()      XOSERA_COP_PLACE(1, 0, 0, 3)

/* Go on at a word of copper memory, two for each instruction. */
#define COP_JUMP(cop_addr) XOSERA_COP(2, (cop_addr)&0x7FF, 0)

/* Move a word to an XR register, named without its prefix, or to a word of tile, colour or copper
 * memory, counted from 0 or from the XR address of that memory. */
#define COP_MOVER(val16, xreg)      XOSERA_COP(3, (XR_##xreg) & 0xFF, (uint16_t)(val16))
#define COP_MOVEF(val16, tile_addr) XOSERA_COP(4, (tile_addr)&0x1FFF, (uint16_t)(val16))
#define COP_MOVEP(rgb16, color_num) XOSERA_COP(5, (color_num)&0x1FF, (uint16_t)(rgb16))
#define COP_MOVEC(val16, cop_addr)  XOSERA_COP(6, (cop_addr)&0x7FF, (uint16_t)(val16))

/* Load a program of so many instructions into copper memory from a word on, counted from 0, through
 * XM_WR_XADDR and XM_XDATA. False, with nothing written, where it does not fit in the 1,024 words;
 * false, too, where a write was refused, which the handle has. */
__attribute__((warn_unused_result)) static inline bool
xosera_load_copper(xosera *x, size_t word, const uint32_t *program, size_t instructions)
{
    const uint64_t refusals = x->refusals;
    if (word > XR_COPPER_SIZE || instructions > (XR_COPPER_SIZE - word) / 2) {
        return false;
    }
    xosera_setw(x, XM_WR_XADDR, (uint16_t)(XR_COPPER_ADDR + word));
    for (size_t i = 0; i < instructions; i++) {
        xosera_setw(x, XM_XDATA, (uint16_t)(program[i] >> 16));
        xosera_setw(x, XM_XDATA, (uint16_t)(program[i] & 0xFFFF));
    }
    return x->refusals == refusals;
}

#endif /* XOSERA_MODEL_COPPER_H */
