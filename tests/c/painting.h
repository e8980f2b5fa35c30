/* What the tests of painting share: the calls that paint, what is shown, an account of each pixel,
 * and a line among words that must stay. */
#ifndef PAINTING_H
#define PAINTING_H

#include <stdbool.h>

#include "tests.h"

enum { WIDTH = XOSERA_SCREEN_WIDTH, LINES = XOSERA_VISIBLE_LINES, SCREEN = XOSERA_SCREEN_PIXELS };
enum { UNTOUCHED = 0xA5A5, ASIDE = 16 /* words that must stay, on each side of a line */ };
enum { FOUR_BITS = 0x0050, EIGHT_BITS = 0x0060, BLANK = 0x0080 };

/* Painting in colours, or in levels. */
typedef struct painter {
    const char *name; /* in traces and messages */
    xosera_call call;
    xosera_paint_answer (*paint)(const xosera_state *s, const uint16_t *vram, size_t vram_len,
                                 const uint16_t *xr, size_t xr_len, uint32_t line, uint16_t *pixels,
                                 size_t pixels_len);
    xosera_paint_answer (*line)(xosera *x, uint64_t line, uint16_t *pixels, size_t count);
    xosera_paint_answer (*screen)(xosera *x, uint16_t *pixels, size_t count);
    uint16_t (*shows)(uint16_t colour); /* the pixel that a word of colour memory should give */
} painter;
extern const painter in_colours, in_levels;

/* What a line is painted by. */
typedef struct shown {
    uint16_t gfx_ctrl, disp_addr, line_len, left, right, vid_ctrl;
} shown;
void show(xosera *x, shown by);
shown shown_by(const xosera *x);

/* Memories full of words of any kind. */
xosera *any_memories(size_t vram_len);

/* The test's own account, by the words of the requests: the word of colour memory that a pixel
 * shows, a GFX_CTRL that is refused, the level of a colour. */
uint16_t colour_at(const xosera *x, unsigned line, unsigned at);
bool no_bitmap(unsigned gfx_ctrl);
uint16_t level_of(uint16_t colour);

/* Words are set to UNTOUCHED; they still are. */
void clear_words(uint16_t *words, size_t n);
void assert_stayed(const uint16_t *words, size_t n);

/* A line among words that must stay. */
typedef struct strip {
    uint16_t before[ASIDE], pixels[WIDTH], behind[ASIDE];
} strip;

/* The call on the adapter's state and memories, which must stay, and the words on both sides of the
 * line too. */
xosera_refusal paint(const painter *p, const xosera *x, uint32_t line, size_t length, strip *s);

#endif
