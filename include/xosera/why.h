/* SPDX-License-Identifier: MIT */
/*
 * Why a pixel is as it is: which word of a blit wrote it last, or what held it back. The answer as
 * a sentence, and the question asked of an adapter.
 */
#ifndef XOSERA_MODEL_WHY_H
#define XOSERA_MODEL_WHY_H

#include <limits.h>
#include <stdbool.h>
#include <stddef.h>
#include <stdint.h>
#include <stdio.h>
#include <stdlib.h>

#include "adapter.h"
#include "calls.h"
#include "registers.h"
#include "texts.h"

/* What held a nibble back, in words that follow "held back". */
#define XOSERA_BY_FIRST_MASK "by the left edge mask, SHIFT bits 15:12"
#define XOSERA_BY_LAST_MASK  "by the right edge mask, SHIFT bits 11:8"
#define XOSERA_BY_COLOUR_TEST                                                                      \
    "by the colour test, CTRL bit 4: the source has the colour of CTRL bits 15:8 there"
static inline const char *xosera_reasons_text(bool first_mask, bool last_mask, bool colour_test)
{
    static const char *const reasons[] = {
        "for an unknown reason", /* no call answers so */
        XOSERA_BY_FIRST_MASK,
        XOSERA_BY_LAST_MASK,
        XOSERA_BY_FIRST_MASK ", and " XOSERA_BY_LAST_MASK,
        XOSERA_BY_COLOUR_TEST,
        XOSERA_BY_FIRST_MASK ", and " XOSERA_BY_COLOUR_TEST,
        XOSERA_BY_LAST_MASK ", and " XOSERA_BY_COLOUR_TEST,
        XOSERA_BY_FIRST_MASK ", " XOSERA_BY_LAST_MASK ", and " XOSERA_BY_COLOUR_TEST,
    };
    return reasons[(first_mask ? 1 : 0) + (last_mask ? 2 : 0) + (colour_test ? 4 : 0)];
}

/* Enough for every sentence and its end. */
#define XOSERA_WHY_TEXT 200

/* The answer as a sentence without its end, cut to `size` bytes, in `text`, which is returned:
 * "held back by the right edge mask, SHIFT bits 11:8". */
static inline const char *xosera_why_text(char *text, size_t size, xosera_why_answer why)
{
    int length = 0;
    if (why.refusal != XOSERA_DONE) {
        length = snprintf(text, size, "refused, %d: %s%s", (int)why.refusal,
                          xosera_refusal_text(why.refusal),
                          why.refusal == XOSERA_VRAM_LENGTH ? ", or the two lengths differ" : "");
    } else if (why.fate == XOSERA_NEVER_REACHED) {
        length = snprintf(text, size, "never reached by the blit");
    } else if (why.fate == XOSERA_HELD_BACK) {
        length = snprintf(text, size, "held back %s",
                          xosera_reasons_text(why.first_mask, why.last_mask, why.colour_test));
    } else if (why.fate == XOSERA_WRITTEN) {
        length = snprintf(text, size, "written by line %u, word %u of the blit, both from 0",
                          (unsigned)why.line, (unsigned)why.word);
    } else {
        length = snprintf(text, size, "unknown fate, %u", (unsigned)why.fate);
    }
    return xosera_text_made(text, size, length);
}

/* A number that the library takes in 32 bits; a greater one is refused as the greatest. */
static inline uint32_t xosera_why_number(uint64_t number)
{
    return number < UINT32_MAX ? (uint32_t)number : UINT32_MAX;
}

/* Why a nibble of VRAM, 0 to 3 from the left, is as it is after the blit of the blitter registers
 * as they stand; after a blit they are still those that started it. `before` is the memory before
 * that blit, as long as VRAM; NULL: VRAM as it is now, for what the blit would do if it were
 * started now. The adapter stays as it is, a running blit included, and no time passes; a refusal
 * is kept in the handle, as that of any call. For want of memory the program ends. */
static inline xosera_why_answer xosera_why_pixel(xosera *x, uint64_t address, uint64_t nibble,
                                                 const uint16_t *before)
{
    const size_t length = x->vram_len < XOSERA_VRAM_MAX ? x->vram_len : XOSERA_VRAM_MAX;
    uint16_t *const work = (uint16_t *)malloc((length + 1) * sizeof *work);
    if (work == NULL) {
        xosera_abort(x, "xosera_model.h: no memory to do a blit in");
    }
    xosera_access what = xosera_asked(XOSERA_CALL_WHY, address, false);
    xosera_calling(x);
    const xosera_why_answer why =
        xosera_why(x->state.blit, before != NULL ? before : x->vram, x->vram_len, work, length,
                   xosera_why_number(address), xosera_why_number(nibble));
    what.refusal = (xosera_refusal)why.refusal;
    what.reg = nibble < UINT_MAX ? (unsigned)nibble : UINT_MAX;
    what.count = why.fate;
    free(work); /* before the hooks, which may not return */
    xosera_called(x, what);
    return why;
}

#endif /* XOSERA_MODEL_WHY_H */
