/* Grey levels: the level of every colour, and lines in levels by numbers worked out by hand
 * and by the line in colours. (test_paint.c has what holds of lines in colours and in levels.) */
#include "painting.h"

enum { COLOURS = 0x1000, WORDS = 0x10000 };

static void every_word_has_the_level_of_its_colour(void **state)
{
    (void)state;
    for (unsigned word = 0; word < WORDS; word++) {
        if (xosera_grey((uint16_t)word) != level_of((uint16_t)word)) {
            fail_msg("%04X: level %u, should be %u", word, (unsigned)xosera_grey((uint16_t)word),
                     (unsigned)level_of((uint16_t)word));
        }
    }
}

/* Black and white; one part alone; sums that are a thousand exactly, or one short of it. */
static void levels_worked_out_by_hand(void **state)
{
    static const uint16_t levels[][2] = {
        {0x000, 0}, {0xFFF, 15}, {0xF00, 4}, {0x0F0, 9}, {0x00F, 2},  {0x001, 0},  {0x004, 0},
        {0x005, 1}, {0x100, 0},  {0x200, 1}, {0x010, 1}, {0x0C4, 8},  {0x3F7, 11}, {0xC08, 5},
        {0xF3B, 8}, {0x018, 1},  {0x129, 2}, {0x78F, 8}, {0xFFE, 15}, {0xEFF, 15}, {0xFEF, 14}};
    (void)state;
    for (size_t i = 0; i < sizeof levels / sizeof levels[0]; i++) {
        assert_int_equal(xosera_grey(levels[i][0]), levels[i][1]);
    }
    for (uint16_t i = 0; i < XOSERA_GREY_LEVELS; i++) { /* equal parts are their own level */
        assert_int_equal(xosera_grey((uint16_t)(i * 0x111)), i);
    }
}

static void the_top_four_bits_are_ignored(void **state)
{
    (void)state;
    for (unsigned word = 0; word < WORDS; word++) {
        assert_int_equal(xosera_grey((uint16_t)word), xosera_grey((uint16_t)(word % COLOURS)));
    }
}

/* Nor is any level over 15. */
static void no_level_falls_when_a_part_rises(void **state)
{
    static const unsigned parts[] = {0x100, 0x010, 0x001};
    (void)state;
    for (unsigned colour = 0; colour < COLOURS; colour++) {
        const unsigned level = xosera_grey((uint16_t)colour);
        assert_true(level < XOSERA_GREY_LEVELS);
        for (unsigned i = 0; i < 3; i++) {
            if (colour / parts[i] % 16 != 15) {
                assert_true(xosera_grey((uint16_t)(colour + parts[i])) >= level);
            }
        }
    }
}

/* Colours whose levels are known, most of them with bits above: by index from 0xC0 on, and some by
 * indices of eight bits. Words 0x40 to 0x43 of VRAM are 1234 5678 9ABC DEF0. */
static xosera *coloured(void **state)
{
    static const uint16_t colours[] = {0xF000, 0x0F00, 0x10F0, 0xA00F, 0x0FFF, 0xFFF0,
                                       0x0F0F, 0x50FF, 0x0246, 0x3642, 0x0012, 0xC3E5,
                                       0x0FA0, 0x9777, 0x0888, 0x4EEE};
    static const uint16_t more[][2] = {{0x12, 0x0555}, {0x34, 0xBCCC}, {0x56, 0xF001},
                                       {0x78, 0x0005}, {0x9A, 0xF100}, {0xBC, 0x0200},
                                       {0xDE, 0x8010}, {0xF0, 0x6FFE}, {0x77, 0x7333}};
    xosera *x = (xosera *)*state;
    memcpy(x->xr + XOSERA_XR_COLOR_AT + 0xC0, colours, sizeof colours);
    for (size_t i = 0; i < sizeof more / sizeof more[0]; i++) {
        x->xr[XOSERA_XR_COLOR_AT + more[i][0]] = more[i][1];
    }
    memcpy(x->vram + 0x40, (uint16_t[]){0x1234, 0x5678, 0x9ABC, 0xDEF0}, 8);
    return x;
}

/* A line from its left on. */
static void assert_levels(const xosera *x, uint32_t line, const uint16_t *want, size_t n)
{
    strip s;
    assert_int_equal(paint(&in_levels, x, line, WIDTH, &s), XOSERA_DONE);
    for (size_t i = 0; i < n; i++) {
        if (s.pixels[i] != want[i]) {
            fail_msg("line %u, pixel %zu: level %u, should be %u", (unsigned)line, i,
                     (unsigned)s.pixels[i], (unsigned)want[i]);
        }
    }
}
#define LEVELS(x, line, ...)                                                                       \
    assert_levels(x, line, (const uint16_t[]){__VA_ARGS__},                                        \
                  sizeof((const uint16_t[]){__VA_ARGS__}) / sizeof(uint16_t))

static void four_bits_in_levels(void **state)
{
    xosera *x = coloured(state);
    show(x, (shown){0xC500 | FOUR_BITS, 0x40, 4, 0, 640, 0x77});
    LEVELS(x, 0, 4, 9, 2, 15, 13, 6, 11, 4, 4, 1, 10, 10, 7, 8, 14, 0);
    show(x, (shown){0xC500 | FOUR_BITS | 1 << 2, 0x40, 4, 5, 12, 0xFE77}); /* in a border */
    LEVELS(x, 0, 3, 3, 3, 3, 3, 4, 4, 9, 9, 2, 2, 15, 3, 3);
    show(x, (shown){0xC500 | FOUR_BITS | 2 << 2 | 1, 0x40, 2, 0, 640, 0x77}); /* 3 by 2 */
    LEVELS(x, 1, 4, 4, 4, 9, 9, 9, 2, 2, 2, 15, 15, 15, 13, 13, 13, 6);
    LEVELS(x, 2, 4, 4, 4, 1, 1, 1, 10, 10, 10, 10, 10, 10, 7, 7, 7, 8);
}

static void eight_bits_in_levels(void **state)
{
    xosera *x = coloured(state);
    show(x, (shown){0xC500 | EIGHT_BITS, 0x40, 4, 0, 8, 0x77});
    LEVELS(x, 0, 5, 12, 0, 1, 0, 1, 1, 15, 3, 3);
    show(x, (shown){EIGHT_BITS | 3 << 2 | 1, 0x40, 2, 1, 640, 0x77}); /* 4 by 2 */
    LEVELS(x, 3, 3, 0, 0, 0, 0, 1, 1, 1, 1, 1, 1, 1, 1, 15, 15, 15, 15);
}

static void blank_is_one_level(void **state)
{
    xosera *x = coloured(state);
    strip s;
    show(x, (shown){0xB400 | BLANK, 0x40, 4, 100, 500, 0x77}); /* index 0xC3 */
    assert_int_equal(paint(&in_levels, x, 479, WIDTH, &s), XOSERA_DONE);
    for (unsigned i = 0; i < WIDTH; i++) {
        assert_int_equal(s.pixels[i], 2);
    }
}

/* Whatever is shown, on any line: refused alike, or each word of the one taken to its level. */
static void a_line_in_levels_is_the_line_in_colours_through_the_table(void **state)
{
    unsigned painted = 0;
    (void)state;
    for (int round = 0; round < 400; round++) {
        xosera *x = any_memories(vram_lengths[random_word() % 5]);
        const uint32_t line = random_word() % 500;
        strip colours, levels;
        show(x, (shown){random_word() | 0x0040, random_word(), random_word(), random_word() % 700,
                        random_word() % 900, random_word()});
        const xosera_refusal refusal = paint(&in_colours, x, line, WIDTH, &colours);
        assert_int_equal(paint(&in_levels, x, line, WIDTH, &levels), refusal);
        for (unsigned i = 0; i < WIDTH && refusal == XOSERA_DONE; i++) {
            colours.pixels[i] = xosera_grey(colours.pixels[i]);
        }
        assert_memory_equal(&levels, &colours, sizeof levels);
        painted += refusal == XOSERA_DONE ? 1 : 0;
        adapter_free(x);
    }
    assert_true(painted > 200);
}

int grey_group(int *tests)
{
    const struct CMUnitTest list[] = {
        cmocka_unit_test(every_word_has_the_level_of_its_colour),
        cmocka_unit_test(levels_worked_out_by_hand),
        cmocka_unit_test(the_top_four_bits_are_ignored),
        cmocka_unit_test(no_level_falls_when_a_part_rises),
        WITH_ADAPTER(four_bits_in_levels),
        WITH_ADAPTER(eight_bits_in_levels),
        WITH_ADAPTER(blank_is_one_level),
        cmocka_unit_test(a_line_in_levels_is_the_line_in_colours_through_the_table),
    };
    return RUN_GROUP("grey", list, tests);
}
