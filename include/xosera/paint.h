/* SPDX-License-Identifier: MIT */
/*
 * The picture: a line of playfield A or the whole screen, painted in colours 0xRGB or in the levels
 * of a monochrome tube, and written as a file that image viewers open. docs/CALLS.md, "paint", says
 * what a line is painted by.
 */
#ifndef XOSERA_MODEL_PAINT_H
#define XOSERA_MODEL_PAINT_H

#include <errno.h>
#include <limits.h>
#include <stdbool.h>
#include <stddef.h>
#include <stdint.h>
#include <stdio.h>
#include <stdlib.h>

#include "adapter.h"
#include "calls.h"
#include "files.h"
#include "registers.h"

/* Paint lines in a row, one at least, by the call given, each in an equal share of the pixels, or
 * in none where they cannot be shared so. A refused one ends it. */
static inline xosera_paint_answer xosera_paint_lines(xosera *x, xosera_call call, uint64_t first,
                                                     size_t lines, uint16_t *pixels, size_t count)
{
    const size_t width = count % lines == 0 ? count / lines : 0;
    xosera_access what = xosera_asked(call, lines, false);
    xosera_paint_answer a = {XOSERA_DONE};
    what.reg = first < UINT_MAX ? (unsigned)first : UINT_MAX;
    xosera_calling(x);
    while (what.count < lines && a.refusal == XOSERA_DONE) {
        a = (call == XOSERA_CALL_PAINT_GREY ? xosera_paint_grey : xosera_paint)(
            &x->state, x->vram, x->vram_len, x->xr, x->xr_len, what.reg + (uint32_t)what.count,
            pixels, width);
        if (a.refusal == XOSERA_DONE) {
            what.count++;
            pixels += width;
        }
    }
    what.refusal = (xosera_refusal)a.refusal;
    xosera_called(x, what);
    return a;
}

/* Paint a visible line, from 0, as the adapter stands: 640 pixels. The adapter stays as it is and
 * no time passes, so move the beam there first where a copper list changes what is shown. A refusal
 * leaves every pixel as it was and is kept in the handle, as that of any call. */
static inline xosera_paint_answer xosera_paint_line(xosera *x, uint64_t line, uint16_t *pixels,
                                                    size_t count)
{
    return xosera_paint_lines(x, XOSERA_CALL_PAINT, line, 1, pixels, count);
}

/* Paint all 480 visible lines, one after another, likewise: XOSERA_SCREEN_PIXELS pixels; of another
 * number none is touched, and the refusal is that of a line of wrong length. It is one access for
 * hooks and traces. What refuses a line refuses the first one too, so a refused screen has no
 * painted line. */
static inline xosera_paint_answer xosera_paint_screen(xosera *x, uint16_t *pixels, size_t count)
{
    return xosera_paint_lines(x, XOSERA_CALL_PAINT, 0, XOSERA_VISIBLE_LINES, pixels, count);
}

/* The same in levels, 0 to 15, of the colours: see xosera_grey. */
static inline xosera_paint_answer xosera_paint_grey_line(xosera *x, uint64_t line, uint16_t *pixels,
                                                         size_t count)
{
    return xosera_paint_lines(x, XOSERA_CALL_PAINT_GREY, line, 1, pixels, count);
}

static inline xosera_paint_answer xosera_paint_grey_screen(xosera *x, uint16_t *pixels,
                                                           size_t count)
{
    return xosera_paint_lines(x, XOSERA_CALL_PAINT_GREY, 0, XOSERA_VISIBLE_LINES, pixels, count);
}

/* A colour 0xRGB as 0xRRGGBB, each part from 0 to 255; the top four bits are ignored. */
static inline uint32_t xosera_rgb24(uint16_t colour)
{
    const uint32_t red = colour >> 8 & 0xF;
    const uint32_t green = colour >> 4 & 0xF;
    const uint32_t blue = colour & 0xF;
    return red * 0x110000 + green * 0x1100 + blue * 0x11;
}

/* Put the pixels of a picture in bytes: one each, of a level, or three, of a colour. False where a
 * word is no level. */
static inline bool xosera_picture_bytes(bool grey, const uint16_t *pixels, size_t count,
                                        uint8_t *bytes)
{
    for (size_t i = 0; i < count; i++) {
        const uint32_t rgb = xosera_rgb24(pixels[i]);
        if (!grey) {
            *bytes++ = (uint8_t)(rgb >> 16);
            *bytes++ = (uint8_t)(rgb >> 8 & 0xFF);
            *bytes++ = (uint8_t)(rgb & 0xFF);
        } else if (pixels[i] < XOSERA_GREY_LEVELS) {
            *bytes++ = (uint8_t)pixels[i];
        } else {
            return false;
        }
    }
    return true;
}

/* Write a picture of colours or of levels, as the two functions below say. */
#define XOSERA_PICTURE_HEAD 60 /* bytes, at most, before those of the first pixel */
static inline bool xosera_write_picture(const char *path, bool grey, const uint16_t *pixels,
                                        size_t width, size_t lines)
{
    const size_t each = grey ? 1 : 3; /* bytes a pixel */
    const int before = errno;
    errno = EINVAL;
    if (width == 0 || lines == 0) {
        return false;
    }
    errno = ENOMEM;
    if (width > ((size_t)PTRDIFF_MAX - XOSERA_PICTURE_HEAD) / each / lines) {
        return false;
    }
    uint8_t *const bytes = (uint8_t *)malloc(XOSERA_PICTURE_HEAD + each * width * lines);
    if (bytes == NULL) {
        return false;
    }
    const size_t head =
        (size_t)snprintf((char *)bytes, XOSERA_PICTURE_HEAD, "P%d\n%zu %zu\n%d\n", grey ? 5 : 6,
                         width, lines, grey ? XOSERA_GREY_LEVELS - 1 : 255);
    int error = EINVAL;
    if (xosera_picture_bytes(grey, pixels, width * lines, bytes + head)) {
        error = xosera_file_put(path, bytes, head + each * width * lines).error;
    }
    free(bytes);
    errno = error != 0 ? error : before;
    return error == 0;
}

/* Write painted lines as a picture: PPM (P6), three bytes a pixel. A new file takes the name when
 * it is whole, as in files.h, in place of whatever has it, a device or a pipe too: /dev/stdout is
 * no name for it. False, with errno, where that fails; the name then stands for what it did before.
 * A picture without a pixel is none (EINVAL). */
XOSERA_LOOK_AT_ANSWER static inline bool xosera_write_ppm(const char *path, const uint16_t *pixels,
                                                          size_t width, size_t lines)
{
    return xosera_write_picture(path, false, pixels, width, lines);
}

/* Write lines painted in levels likewise: PGM (P5), one byte a pixel, 15 the greatest. A picture
 * with a word over 15, which is no level, is none either (EINVAL). */
XOSERA_LOOK_AT_ANSWER static inline bool xosera_write_pgm(const char *path, const uint16_t *pixels,
                                                          size_t width, size_t lines)
{
    return xosera_write_picture(path, true, pixels, width, lines);
}

#endif /* XOSERA_MODEL_PAINT_H */
