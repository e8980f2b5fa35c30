/* A painted scanline: the call, held against an account of it pixel by pixel; lines and screens
 * painted through a handle. Each test is run in colours, then in levels. */
#include "painting.h"

static const painter *tested; /* in_colours or in_levels */

/* Every pixel as the account has it. */
static void assert_painted(const xosera *x, uint32_t line)
{
    strip s;
    assert_int_equal(paint(tested, x, line, WIDTH, &s), XOSERA_DONE);
    for (unsigned i = 0; i < WIDTH; i++) {
        const uint16_t want = tested->shows(colour_at(x, line, i));
        if (s.pixels[i] != want) {
            fail_msg("line %u, pixel %u: %04X, should be %04X", (unsigned)line, i,
                     (unsigned)s.pixels[i], (unsigned)want);
        }
    }
}

static void assert_not_painted(const xosera *x, uint32_t line, size_t length, xosera_refusal want)
{
    strip s;
    assert_int_equal(paint(tested, x, line, length, &s), want);
    assert_stayed(s.pixels, WIDTH);
}

/* Rows by their numbers alone. */

/* Colour memory has its own numbers: 0x1000 and the index. Words 0x40 to 0x43 are 1234 5678 9ABC
 * DEF0. */
static xosera *numbered(void **state)
{
    xosera *x = (xosera *)*state;
    for (unsigned i = 0; i < 512; i++) {
        x->xr[XOSERA_XR_COLOR_AT + i] = (uint16_t)(0x1000 + i);
    }
    memcpy(x->vram + 0x40, (uint16_t[]){0x1234, 0x5678, 0x9ABC, 0xDEF0}, 8);
    return x;
}

/* Pixels of a line from one on, as indices. */
static void assert_row(const xosera *x, uint32_t line, unsigned from, const unsigned *want,
                       size_t n)
{
    strip s;
    assert_int_equal(paint(tested, x, line, WIDTH, &s), XOSERA_DONE);
    for (size_t i = 0; i < n; i++) {
        if (s.pixels[from + i] != tested->shows((uint16_t)(0x1000 + want[i]))) {
            fail_msg("line %u, pixel %u: %X, should be that of index %X", (unsigned)line,
                     from + (unsigned)i, (unsigned)s.pixels[from + i], want[i]);
        }
    }
}
#define ROW(x, line, from, ...)                                                                    \
    assert_row(x, line, from, (const unsigned[]){__VA_ARGS__},                                     \
               sizeof((const unsigned[]){__VA_ARGS__}) / sizeof(unsigned))

static void four_bits_are_four_pixels_a_word(void **state)
{
    xosera *x = numbered(state);
    show(x, (shown){0xC500 | FOUR_BITS, 0x40, 4, 0, 640, 0x77});
    ROW(x, 0, 0, 0xC1, 0xC2, 0xC3, 0xC4, 0xC5, 0xC6, 0xC7, 0xC8, 0xC9, 0xCA, 0xCB, 0xCC, 0xCD);
    show(x, (shown){0x0F00 | FOUR_BITS, 0x41, 4, 0, 640, 0x77}); /* the base's upper nibble is 0 */
    ROW(x, 0, 0, 5, 6, 7, 8, 9, 0xA, 0xB, 0xC, 0xD, 0xE, 0xF, 0);
}

static void eight_bits_are_two_pixels_a_word(void **state)
{
    xosera *x = numbered(state);
    show(x, (shown){0xC500 | EIGHT_BITS, 0x40, 4, 0, 640, 0x77});
    ROW(x, 0, 0, 0x12, 0x34, 0x56, 0x78, 0x9A, 0xBC, 0xDE, 0xF0);
}

/* H repeat 3 and V repeat 2, in rows of two words. */
static void pixels_are_repeated(void **state)
{
    xosera *x = numbered(state);
    show(x, (shown){FOUR_BITS | 2 << 2 | 1, 0x40, 2, 0, 640, 0x77});
    ROW(x, 0, 0, 1, 1, 1, 2, 2, 2, 3, 3, 3, 4, 4, 4, 5, 5, 5, 6);
    ROW(x, 1, 0, 1, 1, 1, 2, 2, 2, 3, 3, 3, 4, 4, 4, 5, 5, 5, 6);
    ROW(x, 2, 0, 9, 9, 9, 0xA, 0xA, 0xA, 0xB, 0xB, 0xB, 0xC, 0xC, 0xC, 0xD);
    ROW(x, 3, 0, 9, 9, 9, 0xA, 0xA, 0xA, 0xB, 0xB, 0xB, 0xC, 0xC, 0xC, 0xD);
    show(x, (shown){EIGHT_BITS | 3 << 2, 0x40, 2, 0, 640, 0x77});
    ROW(x, 0, 0, 0x12, 0x12, 0x12, 0x12, 0x34, 0x34, 0x34, 0x34, 0x56);
    ROW(x, 1, 0, 0x9A, 0x9A, 0x9A, 0x9A, 0xBC, 0xBC, 0xBC, 0xBC, 0xDE);
}

/* The first pixel of a row stands at the window's left, and is whole there. */
static void a_window_has_its_edges(void **state)
{
    xosera *x = numbered(state);
    show(x, (shown){FOUR_BITS | 1 << 2, 0x40, 4, 5, 12, 0xFE77});
    ROW(x, 0, 0, 0x77, 0x77, 0x77, 0x77, 0x77, 1, 1, 2, 2, 3, 3, 4, 0x77, 0x77);
    ROW(x, 0, 639, 0x77);
    show(x, (shown){EIGHT_BITS, 0x40, 4, 637, 640, 0x01});
    ROW(x, 0, 634, 0x01, 0x01, 0x01, 0x12, 0x34, 0x56);
    show(x, (shown){EIGHT_BITS, 0x40, 4, 638, 0xFFFF, 0x01}); /* the rest is behind the screen */
    ROW(x, 0, 636, 0x01, 0x01, 0x12, 0x34);
    show(x, (shown){EIGHT_BITS, 0x40, 4, 0, 1, 0x01});
    ROW(x, 0, 0, 0x12, 0x01, 0x01);
}

/* Words of a row go from 0xFFFF to 0, and rows too. */
static void a_row_wraps(void **state)
{
    xosera *x = numbered(state);
    x->vram[1022] = 0x1111;
    x->vram[1023] = 0x2222;
    x->vram[0] = 0x3333;
    show(x, (shown){FOUR_BITS, 0xFFFE, 0xFFFF, 0, 640, 0});
    ROW(x, 0, 0, 1, 1, 1, 1, 2, 2, 2, 2, 3, 3, 3, 3);
    show(x, (shown){FOUR_BITS, 0x003F, 0x8001, 0, 640, 0}); /* 0x8040, 0x0041 */
    ROW(x, 1, 0, 1, 2, 3, 4, 5, 6, 7, 8);
    ROW(x, 2, 0, 5, 6, 7, 8, 9);
    show(x, (shown){FOUR_BITS, 0x0042, 0xFFFF, 0, 640, 0}); /* a word less each line */
    ROW(x, 1, 0, 5, 6, 7, 8, 9);
    ROW(x, 2, 0, 1, 2, 3, 4, 5);
}

/* Everything by the account. */

static void both_depths_and_all_repeats(void **state)
{
    static const uint32_t lines[] = {0, 1, 2, 3, 4, 5, 11, 12, 240, 478, 479};
    (void)state;
    xosera *x = any_memories(4096);
    for (unsigned mode = 0; mode < 32; mode++) {
        const unsigned depth = mode < 16 ? FOUR_BITS : EIGHT_BITS;
        show(x, (shown){(uint16_t)(0x9600 | depth | mode % 16), 0x123, 171, 3, 631, 0x42});
        for (size_t i = 0; i < sizeof lines / sizeof lines[0]; i++) {
            assert_painted(x, lines[i]);
        }
    }
    adapter_free(x);
}

static void every_line_is_painted(void **state)
{
    (void)state;
    xosera *x = any_memories(XOSERA_VRAM_MAX);
    show(x, (shown){0x3000 | FOUR_BITS | 2, 0xF000, 160, 0, 640, 0x42});
    for (uint32_t line = 0; line < LINES; line++) {
        assert_painted(x, line);
    }
    adapter_free(x);
}

/* Each pair of these as left and right, also the wrong way round. */
static void every_window(void **state)
{
    static const uint16_t edges[] = {0,   1,   2,   3,   4,   7,     319,   320,    636,    637,
                                     638, 639, 640, 641, 800, 32767, 32768, 0xFF00, 0xFFFE, 0xFFFF};
    enum { EDGES = sizeof edges / sizeof edges[0] };
    (void)state;
    xosera *x = any_memories(1024);
    for (unsigned i = 0; i < EDGES * EDGES; i++) {
        const unsigned depth = i % 2 == 0 ? FOUR_BITS : EIGHT_BITS;
        show(x, (shown){(uint16_t)(random_word() << 8 | depth | i % 16), random_word(), 99,
                        edges[i / EDGES], edges[i % EDGES], random_word()});
        assert_painted(x, i % LINES);
    }
    adapter_free(x);
}

/* Left at or above right: no pixel of the row. */
static void without_a_window_all_is_border(void **state)
{
    static const uint16_t windows[][2] = {{0, 0},     {640, 640},    {1, 0},       {320, 319},
                                          {639, 638}, {65535, 0},    {65535, 640}, {640, 65535},
                                          {700, 701}, {32768, 32767}};
    xosera *x = numbered(state);
    for (size_t i = 0; i < sizeof windows / sizeof windows[0]; i++) {
        strip s;
        show(x, (shown){FOUR_BITS, 0x40, 4, windows[i][0], windows[i][1], 0x8099});
        assert_int_equal(paint(tested, x, 0, WIDTH, &s), XOSERA_DONE);
        for (unsigned k = 0; k < WIDTH; k++) {
            assert_int_equal(s.pixels[k], tested->shows(0x1099));
        }
    }
}

/* In each length of VRAM: rows that begin near the end of the address space, and rows far apart. */
static void addresses_wrap(void **state)
{
    static const uint16_t starts[] = {0, 0x00FF, 0x7FFF, 0xFF80, 0xFFFF};
    static const uint16_t lengths[] = {0, 1, 160, 0x7FFF, 0x8000, 0xFFFF};
    static const uint32_t lines[] = {1, 2, 479};
    (void)state;
    for (size_t i = 0; i < VRAM_LENGTHS; i++) {
        xosera *x = any_memories(vram_lengths[i]);
        for (size_t k = 0; k < 5 * 6; k++) {
            const unsigned depth = k % 2 == 0 ? FOUR_BITS : EIGHT_BITS;
            show(x, (shown){(uint16_t)depth, starts[k / 6], lengths[k % 6], 0, 640, 0});
            assert_painted(x, lines[k % 3]);
        }
        adapter_free(x);
    }
}

/* Under blank all pixels have one colour, whatever the window and the other bits. */
static void blank_is_one_colour(void **state)
{
    xosera *x = numbered(state);
    for (unsigned base = 0; base < 256; base++) {
        const unsigned border = base * 7 % 256, low = base * 5 % 128;
        const uint16_t want = tested->shows((uint16_t)(0x1000 + (border ^ base)));
        strip s;
        show(x, (shown){(uint16_t)(base << 8 | BLANK | low), 0x40, 4, (uint16_t)(base % 3),
                        (uint16_t)(base * 5), (uint16_t)(0xA500 | border)});
        assert_int_equal(paint(tested, x, base, WIDTH, &s), XOSERA_DONE);
        for (unsigned i = 0; i < WIDTH; i++) {
            assert_int_equal(s.pixels[i], want);
        }
    }
}

/* Each low byte of GFX_CTRL: painted, or refused with 11. */
static void refusal_11_no_bitmap(void **state)
{
    xosera *x = (xosera *)*state;
    unsigned refused = 0;
    for (unsigned low = 0; low < 256; low++) {
        show(x, (shown){(uint16_t)(random_word() << 8 | low), 0x123, 77, 10, 600, random_word()});
        if (no_bitmap(low)) {
            assert_not_painted(x, low, WIDTH, XOSERA_NO_BITMAP);
            assert_not_painted(x, 480, WIDTH, XOSERA_NO_BITMAP); /* before 12 and 13 */
            assert_not_painted(x, 479, 641, XOSERA_NO_BITMAP);
            refused++;
        } else {
            assert_painted(x, low);
        }
    }
    assert_int_equal(refused, 96); /* 128 that are not blank, of which 2 x 16 are painted */
}

static void refusal_12_no_line(void **state)
{
    static const uint32_t lines[] = {480,   481,   511,        512,        524,        525,
                                     65535, 65536, 65536 + 10, 0x7FFFFFFF, 0x80000000, UINT32_MAX};
    static const uint16_t modes[] = {FOUR_BITS, EIGHT_BITS, BLANK};
    xosera *x = (xosera *)*state;
    for (size_t i = 0; i < sizeof lines / sizeof lines[0]; i++) {
        for (size_t k = 0; k < sizeof modes / sizeof modes[0]; k++) {
            show(x, (shown){modes[k], 0, 160, 0, 640, 0});
            assert_not_painted(x, lines[i], WIDTH, XOSERA_NO_LINE);
            assert_not_painted(x, lines[i], 0, XOSERA_NO_LINE); /* before 13 */
            assert_painted(x, 479);
        }
    }
}

static void refusal_13_not_640_words(void **state)
{
    static const size_t lengths[] = {0,
                                     1,
                                     160,
                                     320,
                                     639,
                                     641,
                                     642,
                                     800,
                                     848,
                                     1280,
                                     65536,
                                     65536 + 640,
                                     SCREEN,
                                     (size_t)1 << 32,
                                     ((size_t)1 << 32) + 640,
                                     SIZE_MAX / 2,
                                     SIZE_MAX};
    static const uint16_t modes[] = {FOUR_BITS, EIGHT_BITS, BLANK};
    xosera *x = (xosera *)*state;
    for (size_t i = 0; i < sizeof lengths / sizeof lengths[0]; i++) {
        for (size_t k = 0; k < sizeof modes / sizeof modes[0]; k++) {
            show(x, (shown){modes[k], 0, 160, 0, 640, 0});
            assert_not_painted(x, 0, lengths[i], XOSERA_PIXELS_LENGTH);
            assert_not_painted(x, 479, lengths[i], XOSERA_PIXELS_LENGTH);
        }
    }
}

/* Each set of faults: the lowest number is given, and no pixel is touched. */
static void refusals_come_in_order(void **state)
{
    static const xosera_refusal numbers[] = {XOSERA_VRAM_LENGTH, XOSERA_XR_LENGTH,
                                             XOSERA_STATE_RANGE, XOSERA_NO_BITMAP,
                                             XOSERA_NO_LINE,     XOSERA_PIXELS_LENGTH};
    (void)state;
    for (unsigned faults = 1; faults < 64; faults++) {
        xosera *x = adapter_new(256);
        unsigned first = 0;
        while ((faults >> first & 1) == 0) {
            first++;
        }
        show(x, (shown){FOUR_BITS, 0, 64, 0, 640, 0});
        x->vram_len -= (faults & 1) != 0 ? 1 : 0;
        x->xr_len -= (faults & 2) != 0 ? 1 : 0;
        x->state.status = (faults & 4) != 0 ? 0xFF : 0;
        x->state.video.pa[0] |= (faults & 8) != 0 ? EIGHT_BITS : 0; /* both are depth 3 */
        assert_not_painted(x, (faults & 16) != 0 ? 480 : 0, (faults & 32) != 0 ? 639 : WIDTH,
                           numbers[first]);
        adapter_free(x);
    }
}

/* Words of state and memories by which no line is painted may be any that are in range. */
static void what_is_ignored(void **state)
{
    xosera *x = numbered(state);
    strip plain, other;
    show(x, (shown){0xC500 | FOUR_BITS | 5, 0x40, 4, 20, 600, 0x0077});
    assert_int_equal(paint(tested, x, 13, WIDTH, &plain), XOSERA_DONE);
    for (int round = 0; round < 64; round++) {
        const shown by = shown_by(x);
        x->state = round % 3 == 0   ? idle_state()
                   : round % 3 == 1 ? mid_line_state()
                                    : copper_state();
        for (unsigned i = 0; i < 7; i++) {
            x->state.video.pa[i] = random_word(); /* TILE_CTRL, HV_SCROLL, LINE_ADDR, HV_FSCALE */
            x->state.video.pb[i] = random_word();
        }
        show(x, by);
        x->state.video.vid_ctrl ^=
            (uint16_t)(random_word() & 0xFF00); /* the swap bit, and others */
        for (size_t i = 0; i < x->xr_len; i++) {
            if (i < XOSERA_XR_COLOR_AT || i >= XOSERA_XR_COLOR_AT + 256) {
                x->xr[i] = random_word();
            }
        }
        assert_int_equal(paint(tested, x, 13, WIDTH, &other), XOSERA_DONE);
        assert_memory_equal(&other, &plain, sizeof plain);
    }
}

/* Any words where every word will do, and any line. */
static void anything_is_painted_by_the_account(void **state)
{
    unsigned painted = 0;
    (void)state;
    for (int round = 0; round < 600; round++) {
        xosera *x = any_memories(vram_lengths[random_word() % 5]);
        x->state = random_word() % 2 == 0 ? mid_line_state() : copper_state();
        show(x, (shown){random_word(), random_word(), random_word(), random_word() % 700,
                        random_word() % 900, random_word()});
        if (no_bitmap(x->state.video.pa[0])) {
            assert_not_painted(x, random_word() % LINES, WIDTH, XOSERA_NO_BITMAP);
        } else {
            assert_painted(x, random_word() % LINES);
            painted++;
        }
        adapter_free(x);
    }
    assert_true(painted > 300);
}

/* Memory from the heap, of 640 words and no more: valgrind sees a word touched beside it. */
static void no_other_word_is_touched(void **state)
{
    xosera *x = (xosera *)*state;
    static const uint16_t modes[] = {FOUR_BITS, EIGHT_BITS, BLANK, FOUR_BITS | 15};
    for (size_t i = 0; i < sizeof modes / sizeof modes[0]; i++) {
        uint16_t *const pixels = (uint16_t *)malloc(WIDTH * sizeof *pixels);
        assert_non_null(pixels);
        show(x, (shown){modes[i], 0xFFF0, 160, 0, 0xFFFF, 0xFF});
        assert_int_equal(tested->line(x, 479, pixels, WIDTH).refusal, XOSERA_DONE);
        for (unsigned k = 0; k < WIDTH; k++) {
            assert_int_equal(pixels[k], tested->shows(colour_at(x, 479, k)));
        }
        free(pixels);
    }
}

/* The handle. */

/* A screen among words that must stay. */
typedef struct whole {
    uint16_t before[ASIDE], pixels[SCREEN], behind[ASIDE];
} whole;
static whole screen;

static void clear_screen(void)
{
    clear_words((uint16_t *)&screen, sizeof screen / sizeof(uint16_t));
}

static void a_line_is_painted_as_by_the_call(void **state)
{
    xosera *x = (xosera *)*state;
    strip want, got;
    show(x, (shown){0x4200 | EIGHT_BITS | 6, 0xFFF0, 77, 33, 599, 0x99});
    for (uint32_t line = 0; line < LINES; line += 53) {
        assert_int_equal(paint(tested, x, line, WIDTH, &want), XOSERA_DONE);
        clear_words((uint16_t *)&got, sizeof got / sizeof(uint16_t));
        assert_int_equal(tested->line(x, line, got.pixels, WIDTH).refusal, XOSERA_DONE);
        assert_memory_equal(&got, &want, sizeof want);
    }
}

static void a_screen_is_its_lines(void **state)
{
    static const uint16_t modes[] = {0x4200 | EIGHT_BITS | 6, FOUR_BITS, 0x3300 | BLANK};
    xosera *x = (xosera *)*state;
    for (size_t i = 0; i < sizeof modes / sizeof modes[0]; i++) {
        xosera *const was = adapter_copy(x);
        show(x, (shown){modes[i], 0xFFF0, 77, 33, 599, 0x99});
        show(was, shown_by(x));
        clear_screen();
        assert_int_equal(tested->screen(x, screen.pixels, SCREEN).refusal, XOSERA_DONE);
        assert_adapter_equal(x, was);
        assert_stayed(screen.before, ASIDE);
        assert_stayed(screen.behind, ASIDE);
        for (uint32_t line = 0; line < LINES; line++) {
            uint16_t want[WIDTH];
            assert_int_equal(tested->line(x, line, want, WIDTH).refusal, XOSERA_DONE);
            assert_memory_equal(screen.pixels + line * WIDTH, want, sizeof want);
        }
        adapter_free(was);
    }
}

/* Byte for byte the same handle, in mid-blit, with the copper running and with time that passes
 * with bytes. */
static void the_adapter_stays_as_it_is(void **state)
{
    xosera *x = (xosera *)*state;
    char handle[sizeof *x];
    x->state = copper_state();
    show(x, (shown){FOUR_BITS, 0, 77, 33, 599, 0x99});
    xosera_board_rates(x, 10000000);
    x->mask = 0x9;
    x->unchanged = 77;
    xosera *const was = adapter_copy(x);
    memcpy(handle, x, sizeof handle);
    for (unsigned i = 0; i < 50; i++) {
        (void)tested->line(x, i, screen.pixels, WIDTH);
    }
    (void)tested->screen(x, screen.pixels, SCREEN);
    assert_memory_equal(x, handle, sizeof handle);
    assert_adapter_equal(x, was);
    adapter_free(was);
}

/* Refused so: the handle has it with its line, the hook was told, and no pixel was touched. */
static void assert_kept(xosera *x, xosera_paint_answer a, int heard, unsigned line,
                        xosera_refusal want)
{
    assert_int_equal(a.refusal, want);
    assert_int_equal(heard, want);
    assert_int_equal(x->refusals, 1);
    assert_int_equal(x->first_refused.why, want);
    assert_int_equal(x->last_refused.call, tested->call);
    assert_int_equal(x->last_refused.reg, line);
    assert_null(x->last_refused.file);
    assert_stayed((const uint16_t *)&screen, sizeof screen / sizeof(uint16_t));
}

static void assert_line_refused(xosera *x, uint64_t line, size_t count, xosera_refusal want)
{
    int heard = 0;
    x->on_refusal = add_refusal;
    x->user = &heard;
    xosera_clear_refusals(x);
    clear_screen();
    const xosera_paint_answer a = tested->line(x, line, screen.pixels, count);
    assert_kept(x, a, heard, line < UINT32_MAX ? (unsigned)line : UINT32_MAX, want);
}

static void assert_screen_refused(xosera *x, size_t count, xosera_refusal want)
{
    int heard = 0;
    x->on_refusal = add_refusal;
    x->user = &heard;
    xosera_clear_refusals(x);
    clear_screen();
    const xosera_paint_answer a = tested->screen(x, screen.pixels, count);
    assert_kept(x, a, heard, 0, want);
}

static void a_refused_line_is_kept_in_the_handle(void **state)
{
    static const uint64_t none[] = {480,
                                    0x10000,
                                    UINT32_MAX - 1,
                                    UINT32_MAX,
                                    (uint64_t)UINT32_MAX + 1,
                                    (uint64_t)UINT32_MAX + 100,
                                    (uint64_t)1 << 63,
                                    UINT64_MAX};
    xosera *x = (xosera *)*state;
    show(x, (shown){FOUR_BITS, 0, 77, 33, 599, 0x99});
    for (size_t i = 0; i < sizeof none / sizeof none[0]; i++) {
        assert_line_refused(x, none[i], WIDTH, XOSERA_NO_LINE);
    }
    assert_line_refused(x, 479, 641, XOSERA_PIXELS_LENGTH);
    assert_line_refused(x, 5, SCREEN, XOSERA_PIXELS_LENGTH);
    x->state.video.pa[0] = 0;
    assert_line_refused(x, 5, WIDTH, XOSERA_NO_BITMAP);
    x->state.status = 0xFF;
    assert_line_refused(x, 5, WIDTH, XOSERA_STATE_RANGE);
}

/* A wrong number of pixels is a line of wrong length, and comes last of all. */
static void a_refused_screen_has_no_pixel(void **state)
{
    static const size_t wrong[] = {0,
                                   1,
                                   WIDTH,
                                   LINES,
                                   SCREEN - 1,
                                   SCREEN + 1,
                                   SCREEN + WIDTH,
                                   SCREEN - WIDTH,
                                   ((size_t)1 << 32) + SCREEN,
                                   SIZE_MAX};
    xosera *x = (xosera *)*state;
    for (size_t i = 0; i < sizeof wrong / sizeof wrong[0]; i++) {
        show(x, (shown){i % 2 == 0 ? FOUR_BITS : BLANK, 0, 77, 33, 599, 0x99});
        assert_screen_refused(x, wrong[i], XOSERA_PIXELS_LENGTH);
        x->state.video.pa[0] = 0x40;
        assert_screen_refused(x, wrong[i], XOSERA_NO_BITMAP);
        assert_screen_refused(x, SCREEN, XOSERA_NO_BITMAP);
        x->state.status = 0xFF;
        assert_screen_refused(x, wrong[i], XOSERA_STATE_RANGE);
        x->xr_len--;
        assert_screen_refused(x, SCREEN, XOSERA_XR_LENGTH);
        x->vram_len--;
        assert_screen_refused(x, wrong[i], XOSERA_VRAM_LENGTH);
        x->vram_len++;
        x->xr_len++;
        x->state.status = 0;
    }
}

static void no_pixels_at_all_are_refused(void **state)
{
    xosera *x = (xosera *)*state;
    x->on_refusal = NULL;
    show(x, (shown){FOUR_BITS, 0, 77, 33, 599, 0x99});
    assert_int_equal(tested->line(x, 0, NULL, 0).refusal, XOSERA_PIXELS_LENGTH);
    assert_int_equal(tested->screen(x, NULL, 0).refusal, XOSERA_PIXELS_LENGTH);
    assert_int_equal(x->refusals, 2);
}

/* The message of the last refusal: the line, the call's name, and then this. */
static void assert_message(const xosera *x, unsigned line, const char *rest)
{
    char got[200], want[200];
    snprintf(want, sizeof want, "line %u: %s refused, %s", line, tested->name, rest);
    assert_string_equal(xosera_refusal_message(got, sizeof got, &x->last_refused), want);
}

static void each_refusal_has_its_message(void **state)
{
    xosera *x = (xosera *)*state;
    assert_line_refused(x, 0, WIDTH, XOSERA_NO_BITMAP);
    assert_message(x, 0, "11: playfield A is neither blank nor a bitmap of 4 or 8 bits");
    x->state.video.pa[0] = FOUR_BITS;
    assert_line_refused(x, 480, WIDTH, XOSERA_NO_LINE);
    assert_message(x, 480, "12: line over 479");
    assert_screen_refused(x, 0, XOSERA_PIXELS_LENGTH);
    assert_message(x, 0, "13: pixels are not 640 words a line");
}

static void a_hook_may_leave_a_paint(void **state)
{
    xosera *x = (xosera *)*state;
    jmp_buf left;
    x->on_refusal = leap_on_refusal;
    x->user = &left;
    x->state.video.pa[0] = BLANK;
    const int why = setjmp(left);
    if (why == 0) {
        (void)tested->line(x, 480, screen.pixels, WIDTH);
        fail_msg("the statement after the refusal was reached");
    }
    assert_int_equal(why, XOSERA_NO_LINE);
}

/* What a hook heard. */
typedef struct heard {
    unsigned calls;
    xosera_access last;
} heard;

static void hear(xosera *x, const xosera_access *what)
{
    heard *const h = (heard *)x->user;
    h->calls++;
    h->last = *what;
}

static void assert_heard(const heard *h, unsigned calls, unsigned line, uint64_t n, uint64_t count,
                         xosera_refusal refusal)
{
    assert_int_equal(h->calls, calls);
    assert_int_equal(h->last.call, tested->call);
    assert_int_equal(h->last.reg, line);
    assert_int_equal(h->last.n, n);
    assert_int_equal(h->last.count, count);
    assert_int_equal(h->last.refusal, refusal);
    assert_int_equal(h->last.mask, 0);
    assert_false(h->last.passing || h->last.odd || h->last.up);
}

/* A screen is one access. */
static void a_hook_is_told_of_a_paint(void **state)
{
    xosera *x = (xosera *)*state;
    heard h = {0};
    x->on_refusal = NULL;
    x->on_access = hear;
    x->user = &h;
    x->state.video.pa[0] = BLANK;
    (void)tested->line(x, 17, screen.pixels, WIDTH);
    assert_heard(&h, 1, 17, 1, 1, XOSERA_DONE);
    (void)tested->line(x, 480, screen.pixels, WIDTH);
    assert_heard(&h, 2, 480, 1, 0, XOSERA_NO_LINE);
    (void)tested->screen(x, screen.pixels, SCREEN);
    assert_heard(&h, 3, 0, LINES, LINES, XOSERA_DONE);
    (void)tested->screen(x, screen.pixels, SCREEN - 1);
    assert_heard(&h, 4, 0, LINES, 0, XOSERA_PIXELS_LENGTH);
}

static void a_paint_is_traced(void **state)
{
    xosera *x = (xosera *)*state;
    char text[300], want[300];
    FILE *out = tmpfile();
    assert_non_null(out);
    x->on_refusal = NULL;
    x->state.video.pa[0] = BLANK;
    xosera_trace_to(x, out);
    (void)tested->line(x, 17, screen.pixels, WIDTH);
    (void)tested->line(x, UINT64_MAX, screen.pixels, WIDTH);
    (void)tested->screen(x, screen.pixels, SCREEN);
    (void)tested->screen(x, screen.pixels, 7);
    xosera_trace_to(x, NULL);
    rewind(out);
    text[fread(text, 1, sizeof text - 1, out)] = '\0';
    fclose(out);
    snprintf(want, sizeof want,
             "%s: line 17\n"
             "%s: line 4294967295    refused, 12: line over 479\n"
             "%s: lines 0 to 479\n"
             "%s: lines 0 to 479    refused, 13: pixels are not 640 words a line\n",
             tested->name, tested->name, tested->name, tested->name);
    assert_string_equal(text, want);
}

/* Some paints, done and refused, or none. */
static void some_paints(xosera *x, bool asked)
{
    if (asked) {
        (void)tested->line(x, 5, screen.pixels, WIDTH);
        (void)tested->line(x, 480, screen.pixels, WIDTH);
        (void)tested->screen(x, screen.pixels, SCREEN);
    }
}

/* The text of a session on a fresh adapter. */
static void record_session(char *text, size_t size, bool asked)
{
    static const char path[] = "build/paint.txt";
    xosera *x = adapter_new(XOSERA_VRAM_MIN);
    assert_true(xosera_file_done(xosera_record(x, path)));
    some_paints(x, asked);
    xosera_xr_setw(x, XR_PA_GFX_CTRL, FOUR_BITS);
    some_paints(x, asked);
    x->vram[0x80] ^= 0x1234; /* by hand */
    x->state.video.vid_left = 5;
    some_paints(x, asked);
    (void)xosera_beam_pixels(x, 1000);
    some_paints(x, asked);
    assert_true(xosera_file_done(xosera_record_end(x)));
    const xosera_replayed r = xosera_replay(path);
    if (!r.equal || !r.whole) {
        fail_msg("%s", r.text);
    }
    FILE *const in = fopen(path, "r");
    assert_non_null(in);
    text[fread(text, 1, size - 1, in)] = '\0';
    fclose(in);
    assert_int_equal(remove(path), 0);
    adapter_free(x);
}

static void a_recording_goes_on_as_if_nothing_was_painted(void **state)
{
    static char with[100000], without[sizeof with];
    (void)state;
    record_session(with, sizeof with, true);
    record_session(without, sizeof without, false);
    assert_string_equal(with, without);
}

int paint_group(int *tests)
{
    const struct CMUnitTest list[] = {
        WITH_ADAPTER(four_bits_are_four_pixels_a_word),
        WITH_ADAPTER(eight_bits_are_two_pixels_a_word),
        WITH_ADAPTER(pixels_are_repeated),
        WITH_ADAPTER(a_window_has_its_edges),
        WITH_ADAPTER(a_row_wraps),
        cmocka_unit_test(both_depths_and_all_repeats),
        cmocka_unit_test(every_line_is_painted),
        cmocka_unit_test(every_window),
        WITH_ADAPTER(without_a_window_all_is_border),
        cmocka_unit_test(addresses_wrap),
        WITH_ADAPTER(blank_is_one_colour),
        WITH_ADAPTER(refusal_11_no_bitmap),
        WITH_ADAPTER(refusal_12_no_line),
        WITH_ADAPTER(refusal_13_not_640_words),
        cmocka_unit_test(refusals_come_in_order),
        WITH_ADAPTER(what_is_ignored),
        cmocka_unit_test(anything_is_painted_by_the_account),
        WITH_ADAPTER(no_other_word_is_touched),
        WITH_ADAPTER(a_line_is_painted_as_by_the_call),
        WITH_ADAPTER(a_screen_is_its_lines),
        WITH_ADAPTER(the_adapter_stays_as_it_is),
        WITH_ADAPTER(a_refused_line_is_kept_in_the_handle),
        WITH_ADAPTER(a_refused_screen_has_no_pixel),
        WITH_ADAPTER(no_pixels_at_all_are_refused),
        WITH_ADAPTER(each_refusal_has_its_message),
        WITH_ADAPTER(a_hook_may_leave_a_paint),
        WITH_ADAPTER(a_hook_is_told_of_a_paint),
        WITH_ADAPTER(a_paint_is_traced),
        cmocka_unit_test(a_recording_goes_on_as_if_nothing_was_painted),
    };
    tested = &in_colours;
    const int failed = RUN_GROUP(tested->name, list, tests);
    tested = &in_levels;
    return failed + RUN_GROUP(tested->name, list, tests);
}
