/* Masks: the nibbles that a step, a run and a data write say they wrote. */
#include <limits.h>

#include "tests.h"

enum { SOURCE = 0x40, TARGET = 0x80, SECOND = 0xC0, PLACE = 0x20 };

#define LENT(x) (x)->vram, (x)->vram_len, (x)->xr, (x)->xr_len

static xosera_blit_answer step(xosera *x)
{
    return xosera_blit_step(&x->state, LENT(x));
}

static xosera_blit_answer run(xosera *x, uint64_t n)
{
    return xosera_blit_run(&x->state, LENT(x), n);
}

static void assert_blitted(xosera_blit_answer a, uint64_t count, unsigned mask)
{
    assert_int_equal(a.refusal, XOSERA_DONE);
    assert_int_equal(a.count, count);
    assert_int_equal(a.mask, mask);
}

static void assert_write(xosera *x, uint8_t reg, bool odd, uint8_t byte, xosera_refusal refusal,
                         unsigned mask)
{
    const xosera_write_answer a = xosera_write_byte(&x->state, LENT(x), reg, odd, byte);
    assert_int_equal(a.refusal, refusal);
    assert_int_equal(a.mask, mask);
}

/* The nibbles in which two words differ, as a mask. */
static unsigned differing(uint16_t a, uint16_t b)
{
    unsigned mask = 0;
    for (int i = 0; i < 4; i++) {
        mask |= (unsigned)((a >> 4 * i & 0xF) != (b >> 4 * i & 0xF)) << i;
    }
    return mask;
}

/* What was started writes these nibbles: `masks` has a digit from 0 to F for each word. A run of n
 * answers the last digit that it came to, a step each in turn. */
static unsigned digit(const char *masks, size_t i)
{
    return (unsigned)(masks[i] <= '9' ? masks[i] - '0' : masks[i] - 'A' + 10);
}

static void run_writes(const xosera *x, uint64_t n, const char *masks)
{
    xosera *y = adapter_copy(x);
    const size_t words = strlen(masks), done = n < words ? (size_t)n : words;
    assert_blitted(run(y, n), done, done == 0 ? 0 : digit(masks, done - 1));
    adapter_free(y);
}

static void writes(xosera *x, const char *masks)
{
    const size_t words = strlen(masks);
    for (uint64_t n = 0; n <= words + 1; n++) {
        run_writes(x, n, masks);
    }
    run_writes(x, UINT64_MAX, masks);
    for (size_t i = 0; i < words; i++) {
        assert_blitted(step(x), 1, digit(masks, i));
    }
    assert_blitted(step(x), 0, 0); /* idle */
    assert_blitted(run(x, UINT64_MAX), 0, 0);
}

/* A constant under two edge masks. */
static blit filled(unsigned first, unsigned last, int words, int lines)
{
    return (blit){.ctrl = BLIT_CTRL_S_CONST_F,
                  .src_s = 0x5A5A,
                  .dst_d = TARGET,
                  .shift = MAKE_BLIT_SHIFT(first, last, 0),
                  .lines = (uint16_t)(lines - 1),
                  .words = (uint16_t)(words - 1)};
}

static void fill_writes(xosera *x, unsigned first, unsigned last, int words, int lines,
                        const char *masks)
{
    const blit b = filled(first, last, words, lines);
    start_blit(x, &b);
    writes(x, masks);
}

static void a_line_is_trimmed_at_both_ends(void **state)
{
    xosera *x = (xosera *)*state;
    for (unsigned first = 0; first <= 15; first++) {
        for (unsigned last = 0; last <= 15; last++) {
            char masks[40];
            snprintf(masks, sizeof masks, "%XF%X%XF%X", first, last, first, last);
            fill_writes(x, first, last, 3, 2, masks);
        }
    }
    fill_writes(x, 0x7, 0xC, 2, 3, "7C7C7C");
    fill_writes(x, 0x1, 0x8, 6, 1, "1FFFF8");
}

static void one_word_lines_take_both_masks(void **state)
{
    for (unsigned first = 0; first <= 15; first++) {
        for (unsigned last = 0; last <= 15; last++) {
            char masks[20];
            snprintf(masks, sizeof masks, "%X%X", first & last, first & last);
            fill_writes((xosera *)*state, first, last, 1, 2, masks);
        }
    }
}

/* One-word blits with the mask that they answer. */
typedef struct one_word {
    blit b;
    const char *mask;
} one_word;

static void each_writes(xosera *x, const one_word *list, size_t n)
{
    for (size_t i = 0; i < n; i++) {
        start_blit(x, &list[i].b);
        writes(x, list[i].mask);
    }
}
#define EACH_WRITES(x, list) each_writes(x, list, sizeof(list) / sizeof((list)[0]))

static void colour_is_tested_by_nibbles(void **state)
{
    static const one_word list[] = {
        {{.ctrl = 0x0A11, .src_s = 0x0B0A, .shift = 0xFF00}, "4"},
        {{.ctrl = 0x1211, .src_s = 0x1212, .shift = 0xFF00}, "0"},
        {{.ctrl = 0x1211, .src_s = 0x2121, .shift = 0xFF00}, "F"},
        {{.ctrl = 0x1211, .src_s = 0x1318, .shift = 0xFF00}, "5"},
        {{.ctrl = 0x1211, .src_s = 0x3282, .shift = 0xFF00}, "A"},
        {{.ctrl = 0x2211, .src_s = 0x1234, .andc = 0x0F00, .shift = 0xFF00}, "B"}, /* S is tested */
        {{.ctrl = 0x1211, .src_s = 0x1318, .shift = 0x7E00}, "4"}, /* both edges too */
        {{.ctrl = 0x1211, .src_s = 0x1318, .shift = 0xFA00}, "0"},
        {{.ctrl = 0x1201, .src_s = 0x1212, .shift = 0xFF00}, "F"}, /* no test */
    };
    EACH_WRITES((xosera *)*state, list);
}

static void colour_is_tested_by_whole_bytes(void **state)
{
    static const one_word list[] = {
        {{.ctrl = 0x0A31, .src_s = 0x0B0A, .shift = 0xFF00}, "C"},
        {{.ctrl = 0x1231, .src_s = 0x1212, .shift = 0xFF00}, "0"},
        {{.ctrl = 0x1231, .src_s = 0x1221, .shift = 0xFF00}, "3"},
        {{.ctrl = 0x1231, .src_s = 0x1318, .shift = 0xFF00}, "F"},
        {{.ctrl = 0x1231, .src_s = 0x1221, .shift = 0xDF00}, "1"}, /* an edge too */
        {{.ctrl = 0x1221, .src_s = 0x1212, .shift = 0xFF00}, "F"}, /* bit 5 alone: no test */
    };
    EACH_WRITES((xosera *)*state, list);
}

/* 00FF FF00, shifted by 0 to 3 nibbles, without the nibbles 0. */
static void colour_is_tested_behind_the_shifter(void **state)
{
    xosera *x = (xosera *)*state;
    static const char *const masks[4] = {"3C", "1E", "0F", "07"};
    x->vram[SOURCE] = 0x00FF;
    x->vram[SOURCE + 1] = 0xFF00;
    for (int shift = 0; shift < 4; shift++) {
        start_blit(x, &(blit){.ctrl = MAKE_BLIT_CTRL(0x00, 0, 1, 0),
                              .src_s = SOURCE,
                              .dst_d = TARGET,
                              .shift = MAKE_BLIT_SHIFT(0xF, 0xF, shift),
                              .words = 1});
        writes(x, masks[shift]);
    }
}

static void a_shift_alone_holds_nothing_back(void **state)
{
    xosera *x = (xosera *)*state;
    start_blit(x, &(blit){.src_s = SOURCE, .dst_d = TARGET, .shift = 0x7801, .words = 2});
    writes(x, "7F8");
}

static void the_value_that_was_there_is_written_too(void **state)
{
    xosera *x = (xosera *)*state;
    fill_writes(x, 0x6, 0xF, 3, 1, "6FF");
    fill_writes(x, 0x6, 0xF, 3, 1, "6FF");
    fill_writes(x, 0x0, 0x0, 3, 1, "0F0"); /* both ends are done, but held back whole */
}

static void a_run_goes_on_into_the_queued_blit(void **state)
{
    xosera *x = (xosera *)*state;
    const blit first = filled(0x8, 0x1, 2, 2);
    blit second = filled(0x2, 0x4, 3, 1);
    second.dst_d = SECOND;
    start_blit(x, &first);
    start_blit(x, &second);
    writes(x, "81812F4");
    start_blit(x, &first);
    assert_int_equal(xosera_run(x, 3), 3);
    start_blit(x, &second); /* queued while the first has one word left */
    writes(x, "12F4");
}

static void data_writes_answer_the_nibble_mask(void **state)
{
    xosera *x = (xosera *)*state;
    const blit running = filled(0x1, 0x2, 3, 3);
    start_blit(x, &running); /* its masks are no host's */
    for (uint8_t reg = XM_DATA; reg <= XM_DATA_2; reg++) {
        for (unsigned mask = 0; mask <= 15; mask++) {
            xm_setw(SYS_CTRL, 0xFFF0 | mask);
            xm_setw(WR_ADDR, PLACE);
            x->vram[PLACE] = 0x1234;
            assert_write(x, reg, false, 0xED, XOSERA_DONE, 0);
            assert_write(x, reg, true, 0xCB, XOSERA_DONE, mask);
            assert_int_equal(differing(x->vram[PLACE], 0x1234), mask);
            assert_write(x, reg, true, 0xCB, XOSERA_DONE, mask); /* the same once more */
        }
    }
}

static void other_main_registers_answer_no_mask(void **state)
{
    for (uint8_t reg = 0; reg < XOSERA_MAIN_REGS; reg++) {
        assert_write((xosera *)*state, reg, false, 0x5F, XOSERA_DONE, 0);
        if (reg != XM_DATA && reg != XM_DATA_2) {
            assert_write((xosera *)*state, reg, true, 0x5F, XOSERA_DONE, 0);
        }
    }
}

static void the_xr_space_answers_no_mask(void **state)
{
    xosera *x = (xosera *)*state;
    static const uint16_t at[] = {XR_VID_CTRL,  XR_SCANLINE,   XR_PA_DISP_ADDR, 0x3F,
                                  XR_BLIT_CTRL, XR_BLIT_SHIFT, XR_BLIT_WORDS,   XR_BLIT_WORDS,
                                  XR_TILE_ADDR, XR_COLOR_ADDR, XR_COPPER_ADDR,  0xFFFF};
    for (size_t i = 0; i < sizeof at / sizeof at[0]; i++) {
        xm_setw(WR_XADDR, at[i]);
        assert_write(x, XM_XDATA, false, 0xFF, XOSERA_DONE, 0);
        assert_write(x, XM_XDATA, true, 0xFF, XOSERA_DONE, 0);
    }
    assert_true(x->state.engine.running && x->state.queued); /* the two writes to WORDS */
}

/* What would answer F, and is refused. */
static void a_refused_call_answers_mask_0(void **state)
{
    xosera *x = (xosera *)*state;
    xosera_state s = mid_line_state();
    s.engine.regs.ctrl = BLIT_CTRL_S_CONST_F;
    s.host.xr.wr_xaddr.word = XR_BLIT_WORDS;
    s.host.latch[XM_INT_CTRL] = INT_CTRL_RECONFIG_F >> 8;
    x->state = s;
    assert_write(x, XM_XDATA, true, 0xFF, XOSERA_BLITTER_FULL, 0);
    assert_write(x, XM_INT_CTRL, true, 0xFF, XOSERA_RECONFIGURE, 0);
    assert_refused(x, &s, x->vram_len, x->xr_len, XM_DATA + 16, XOSERA_NO_REGISTER);
    assert_refused(x, &s, x->vram_len - 1, x->xr_len, XM_DATA, XOSERA_VRAM_LENGTH);
    assert_refused(x, &s, x->vram_len, x->xr_len - 1, XM_DATA_2, XOSERA_XR_LENGTH);
    s.status = 0x80;
    assert_refused(x, &s, x->vram_len, x->xr_len, XM_DATA, XOSERA_STATE_RANGE);
    assert_write(x, XM_DATA, true, 0xFF, XOSERA_DONE, 0xF);
    assert_blitted(step(x), 1, 0xF);
    assert_blitted(run(x, 2), 2, 0xF);
}

/* Blits with any registers in a small VRAM of few colours; half of them with one queued behind. */
static xosera *any_blits(void)
{
    xosera *x = adapter_new(XOSERA_VRAM_MIN);
    for (size_t i = 0; i < x->vram_len; i++) {
        x->vram[i] = random_word() & 0x3333;
    }
    for (int more = random_word() % 2; more >= 0; more--) {
        start_blit(x, &(blit){.ctrl = random_word() & 0x3331,
                              .andc = random_word(),
                              .xor_ = random_word(),
                              .mod_s = random_word() & 0x3333,
                              .src_s = random_word() & 0x3333,
                              .mod_d = random_word(),
                              .dst_d = random_word(),
                              .shift = random_word(),
                              .lines = random_word() & 0x8003,
                              .words = random_word() % 5});
    }
    return x;
}

static void a_run_answers_what_its_last_step_would(void **state)
{
    (void)state;
    for (int round = 0; round < 1000; round++) {
        xosera *x = any_blits(), *y = adapter_copy(x);
        const int n = random_word() % 20;
        unsigned mask = 0, count = 0;
        for (int i = 0; i < n; i++) {
            const xosera_blit_answer a = step(x);
            mask = a.count == 1 ? a.mask : mask;
            count += (unsigned)a.count;
        }
        assert_blitted(run(y, (uint64_t)n), count, mask);
        assert_adapter_equal(y, x);
        adapter_free(x);
        adapter_free(y);
    }
}

/* One step, over a word and over the word with every bit turned: in the nibbles of the mask both
 * end alike, in the others each stays as it was, and no other word of VRAM changes. */
static void step_over_both(xosera *x)
{
    const xosera_blit_regs *const regs = &x->state.engine.regs;
    const size_t at = regs->dst_d % x->vram_len;
    const bool onto_its_source =
        !(regs->ctrl & BLIT_CTRL_S_CONST_F) && regs->src_s % x->vram_len == at;
    xosera *before = adapter_copy(x), *turned = adapter_copy(x);
    turned->vram[at] ^= 0xFFFF;
    const unsigned mask = step(x).mask, held_back = 0xF & ~mask;
    assert_int_equal(differing(x->vram[at], before->vram[at]) & held_back, 0);
    if (!onto_its_source) {
        assert_blitted(step(turned), 1, mask);
        assert_int_equal(differing(turned->vram[at], x->vram[at]), held_back);
    }
    before->vram[at] = x->vram[at];
    assert_memory_equal(x->vram, before->vram, x->vram_len * sizeof x->vram[0]);
    adapter_free(before);
    adapter_free(turned);
}

static void a_step_writes_the_nibbles_of_its_mask(void **state)
{
    (void)state;
    for (int round = 0; round < 200; round++) {
        xosera *x = any_blits();
        while (x->state.engine.running) {
            step_over_both(x);
        }
        adapter_free(x);
    }
}

/* The handle's field. */

static void the_handle_keeps_the_last_mask(void **state)
{
    xosera *x = (xosera *)*state;
    const blit b = filled(0x7, 0xC, 4, 1);
    assert_int_equal(x->mask, 0);
    xm_setw(SYS_CTRL, 0x0006);
    vram_setw(PLACE, 0x1234);
    start_blit(x, &b);
    assert_int_equal(x->mask, 0x6); /* no other write changes it */
    assert_int_equal(xosera_step(x), 1);
    xm_setbh(DATA, 0x12);
    (void)vram_getw(PLACE);
    xosera_tick(x);
    (void)xosera_beam_pixel(x);
    (void)xosera_line_up(x);
    xwait_blit_ready(); /* nothing is queued: no run */
    assert_int_equal(x->mask, 0x7);
    assert_int_equal(xosera_run(x, 2), 2);
    assert_int_equal(x->mask, 0xF);
    xwait_blit_done();
    assert_int_equal(x->mask, 0xC);
    assert_int_equal(xosera_step(x), 0);
    assert_int_equal(x->mask, 0);
    xm_setbl(DATA_2, 0x34);
    assert_int_equal(x->mask, 0x6);
    xwait_blit_done();
    assert_int_equal(x->mask, 0);
}

/* A hook that adds the mask in the handle to the int that `user` points to. */
static void add_mask(xosera *x, const xosera_refused *what)
{
    (void)what;
    *(int *)x->user += x->mask;
}

static void a_refusal_is_mask_0_in_the_handle(void **state)
{
    xosera *x = (xosera *)*state;
    int seen = 0;
    x->on_refusal = add_mask;
    x->user = &seen;
    x->mask = 0x9;
    xosera_set_byte(x, XM_DATA + 16, true, 0x12); /* no data write: the mask stays */
    assert_int_equal(x->mask, 0x9);
    x->vram_len--;
    xosera_set_byte(x, XM_DATA, true, 0x12);
    assert_int_equal(x->mask, 0);
    x->mask = 0x9;
    (void)xosera_step(x);
    assert_int_equal(x->mask, 0);
    x->mask = 0x9;
    (void)xosera_run(x, 1);
    assert_int_equal(x->mask, 0);
    assert_int_equal(x->refusals, 4);
    assert_int_equal(seen, 0x9); /* 0 by the time that the hook is told */
    x->vram_len++;
}

static void the_blitters_share_leaves_the_handles_mask(void **state)
{
    xosera *x = (xosera *)*state;
    const blit b = filled(0x1, 0x2, 20, 1);
    xm_setw(SYS_CTRL, 0x0009);
    x->blit_per_access = 2;
    start_blit(x, &b);
    assert_int_equal(xosera_words_left(x), 18);
    assert_int_equal(x->mask, 0);
    vram_setw(PLACE, 0x1234);
    assert_int_equal(xosera_words_left(x), 10);
    assert_int_equal(x->mask, 0x9);
    assert_int_equal(xosera_step(x), 1);
    while (xm_getbh(SYS_CTRL) & SYS_CTRL_BLIT_BUSY_F) {
        assert_int_equal(x->mask, 0xF);
    }
    assert_int_equal(x->mask, 0xF); /* not that of the last word */
}

static void a_mask_is_four_marks(void **state)
{
    (void)state;
    for (unsigned mask = 0; mask <= 15; mask++) {
        char want[] = "....";
        for (int i = 0; i < 4; i++) {
            want[i] = (mask & 8u >> i) != 0 ? '#' : '.';
        }
        assert_string_equal(xosera_mask_text(mask), want);
    }
    assert_string_equal(xosera_mask_text(16), "????");
    assert_string_equal(xosera_mask_text(UINT_MAX), "????");
}

int masks_group(int *tests)
{
    const struct CMUnitTest list[] = {
        WITH_ADAPTER(a_line_is_trimmed_at_both_ends),
        WITH_ADAPTER(one_word_lines_take_both_masks),
        WITH_ADAPTER(colour_is_tested_by_nibbles),
        WITH_ADAPTER(colour_is_tested_by_whole_bytes),
        WITH_ADAPTER(colour_is_tested_behind_the_shifter),
        WITH_ADAPTER(a_shift_alone_holds_nothing_back),
        WITH_ADAPTER(the_value_that_was_there_is_written_too),
        WITH_ADAPTER(a_run_goes_on_into_the_queued_blit),
        WITH_ADAPTER(data_writes_answer_the_nibble_mask),
        WITH_ADAPTER(other_main_registers_answer_no_mask),
        WITH_ADAPTER(the_xr_space_answers_no_mask),
        WITH_ADAPTER(a_refused_call_answers_mask_0),
        cmocka_unit_test(a_run_answers_what_its_last_step_would),
        cmocka_unit_test(a_step_writes_the_nibbles_of_its_mask),
        WITH_ADAPTER(the_handle_keeps_the_last_mask),
        WITH_ADAPTER(a_refusal_is_mask_0_in_the_handle),
        WITH_ADAPTER(the_blitters_share_leaves_the_handles_mask),
        cmocka_unit_test(a_mask_is_four_marks),
    };
    return RUN_GROUP("masks", list, tests);
}
