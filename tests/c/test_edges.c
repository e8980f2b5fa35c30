/* Edges: rectangles of pixels at every offset in a word and every width from 1 to 12, drawn by the
 * blitter and held against a drawing made pixel by pixel. All of VRAM is compared. */
#include "tests.h"

enum { PITCH = 8, LINES = 3, TARGET = 0x100, SOURCE = 0x200, WIDEST = 12 };

static int get_pixel(const uint16_t *vram, int at, int x)
{
    return vram[at + x / 4] >> (12 - 4 * (x % 4)) & 0xF;
}

static void set_pixel(uint16_t *vram, int at, int x, int colour)
{
    const int shift = 12 - 4 * (x % 4);
    uint16_t *word = &vram[at + x / 4];
    *word = (uint16_t)((*word & ~(0xF << shift)) | colour << shift);
}

/* The words of a line and both masks for `width` pixels from pixel `offset` on. */
static int words_for(int offset, int width)
{
    return (offset + width + 3) / 4;
}

static int first_mask(int offset)
{
    return 0xF >> offset;
}

static int last_mask(int offset, int width)
{
    const int over = (offset + width) % 4;
    return over == 0 ? 0xF : 0xF << (4 - over) & 0xF;
}

/* One blit on a fresh field: its VRAM against `want`. */
static void compare(xosera *x, const uint16_t *before, const blit *b, const uint16_t *want,
                    int offset, int width)
{
    memcpy(x->vram, before, x->vram_len * sizeof before[0]);
    start_blit(x, b);
    assert_int_equal(xosera_run(x, UINT64_MAX), (b->lines + 1) * (b->words + 1));
    for (size_t i = 0; i < x->vram_len; i++) {
        if (x->vram[i] != want[i]) {
            fail_msg("offset %d, width %d: word %zX is %04X, should be %04X", offset, width, i,
                     (unsigned)x->vram[i], (unsigned)want[i]);
        }
    }
}

typedef void (*one_rectangle)(xosera *x, const uint16_t *before, int offset, int width);

static void every_edge(xosera *x, one_rectangle draw)
{
    uint16_t before[1024];
    assert_int_equal(x->vram_len, 1024);
    fill(before, x->vram_len, 4242);
    for (int offset = 0; offset < 4; offset++) {
        for (int width = 1; width <= WIDEST; width++) {
            draw(x, before, offset, width);
        }
    }
}

static void fill_rectangle(xosera *x, const uint16_t *before, int offset, int width)
{
    uint16_t want[1024];
    const int words = words_for(offset, width);
    memcpy(want, before, sizeof want);
    for (int y = 0; y < LINES; y++) {
        for (int i = 0; i < width; i++) {
            set_pixel(want, TARGET + y * PITCH, offset + i, 0x9);
        }
    }
    const blit b = {.ctrl = BLIT_CTRL_S_CONST_F,
                    .src_s = 0x9999,
                    .mod_d = (uint16_t)(PITCH - words),
                    .dst_d = TARGET,
                    .shift = MAKE_BLIT_SHIFT(first_mask(offset), last_mask(offset, width), 0),
                    .lines = LINES - 1,
                    .words = (uint16_t)(words - 1)};
    compare(x, before, &b, want, offset, width);
}

static void copy_picture(xosera *x, const uint16_t *before, int offset, int width, int transparent)
{
    uint16_t want[1024];
    const int words = words_for(offset, width);
    memcpy(want, before, sizeof want);
    for (int y = 0; y < LINES; y++) {
        for (int i = 0; i < width; i++) {
            const int colour = get_pixel(before, SOURCE + y * PITCH, i);
            if (colour != transparent) {
                set_pixel(want, TARGET + y * PITCH, offset + i, colour);
            }
        }
    }
    const int test = transparent >= 0;
    const blit b = {.ctrl = MAKE_BLIT_CTRL(test ? transparent * 0x11 : 0, 0, test, 0),
                    .mod_s = (uint16_t)(PITCH - words),
                    .src_s = SOURCE,
                    .mod_d = (uint16_t)(PITCH - words),
                    .dst_d = TARGET,
                    .shift = MAKE_BLIT_SHIFT(first_mask(offset), last_mask(offset, width), offset),
                    .lines = LINES - 1,
                    .words = (uint16_t)(words - 1)};
    compare(x, before, &b, want, offset, width);
}

static void copy_opaque(xosera *x, const uint16_t *before, int offset, int width)
{
    copy_picture(x, before, offset, width, -1);
}

static void copy_transparent(xosera *x, const uint16_t *before, int offset, int width)
{
    for (int colour = 0; colour < 16; colour++) {
        copy_picture(x, before, offset, width, colour);
    }
}

static void fills_end_on_the_pixel(void **state)
{
    every_edge((xosera *)*state, fill_rectangle);
}

static void shifted_copies_end_on_the_pixel(void **state)
{
    every_edge((xosera *)*state, copy_opaque);
}

static void transparent_copies_end_on_the_pixel(void **state)
{
    every_edge((xosera *)*state, copy_transparent);
}

/* Last spring's fault: cropped by one pixel to an odd width, the right mask left as it was. The
 * model shows exactly the column that should have gone, in every line. */
static void a_stale_right_mask_shows(void **state)
{
    xosera *x = (xosera *)*state;
    for (int width = 3; width <= WIDEST; width += 2) {
        memset(x->vram, 0, x->vram_len * sizeof x->vram[0]);
        start_blit(x, &(blit){.ctrl = BLIT_CTRL_S_CONST_F,
                              .src_s = 0xFFFF,
                              .mod_d = (uint16_t)(PITCH - words_for(0, width)),
                              .dst_d = TARGET,
                              .shift = MAKE_BLIT_SHIFT(0xF, last_mask(0, width + 1), 0),
                              .lines = LINES - 1,
                              .words = (uint16_t)(words_for(0, width) - 1)});
        xwait_blit_done();
        for (int y = 0; y < LINES; y++) {
            for (int i = 0; i < PITCH * 4; i++) {
                assert_int_equal(get_pixel(x->vram, TARGET + y * PITCH, i), i <= width ? 0xF : 0x0);
            }
        }
    }
}

/* A left mask left open, though the picture is shifted: left of it the first line shows colour 0,
 * and each other line the last pixels that the line before took and did not draw. */
static void copy_with_an_open_left_edge(xosera *x, const uint16_t *before, int offset, int width)
{
    uint16_t want[1024];
    const int words = words_for(offset, width);
    memcpy(want, before, sizeof want);
    for (int y = 0; y < LINES; y++) {
        const int source = SOURCE + y * PITCH;
        for (int i = 0; i < offset; i++) {
            const int from = 4 * words - offset + i;
            const int colour = y == 0 ? 0x0 : get_pixel(before, source - PITCH, from);
            set_pixel(want, TARGET + y * PITCH, i, colour);
        }
        for (int i = 0; i < width; i++) {
            set_pixel(want, TARGET + y * PITCH, offset + i, get_pixel(before, source, i));
        }
    }
    const blit b = {.mod_s = (uint16_t)(PITCH - words),
                    .src_s = SOURCE,
                    .mod_d = (uint16_t)(PITCH - words),
                    .dst_d = TARGET,
                    .shift = MAKE_BLIT_SHIFT(0xF, last_mask(offset, width), offset),
                    .lines = LINES - 1,
                    .words = (uint16_t)(words - 1)};
    compare(x, before, &b, want, offset, width);
}

static void open_left_edges_show_the_line_before(void **state)
{
    every_edge((xosera *)*state, copy_with_an_open_left_edge);
}

int edges_group(int *tests)
{
    const struct CMUnitTest list[] = {
        WITH_ADAPTER(fills_end_on_the_pixel),
        WITH_ADAPTER(shifted_copies_end_on_the_pixel),
        WITH_ADAPTER(transparent_copies_end_on_the_pixel),
        WITH_ADAPTER(a_stale_right_mask_shows),
        WITH_ADAPTER(open_left_edges_show_the_line_before),
    };
    return RUN_GROUP("edges", list, tests);
}
