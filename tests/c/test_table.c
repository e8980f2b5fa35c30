/* Document 01's bench table, line by line, and the line that document 02, request 4 adds. Registers
 * not named are 0, masks F, targets FFFF. */
#include "tests.h"

enum { SOURCE = 0x10, TARGET = 0x80 };

static void targets(xosera *x)
{
    memset(x->vram, 0xFF, x->vram_len * sizeof x->vram[0]);
}

/* Do a blit to TARGET over words FFFF and hold the words there against `want`. */
static void draws(xosera *x, blit b, const uint16_t *want, size_t n)
{
    b.shift = b.shift == 0 ? 0xFF00 : b.shift;
    b.dst_d = TARGET;
    start_blit(x, &b);
    xwait_blit_done();
    for (size_t i = 0; i < n; i++) {
        assert_int_equal(x->vram[TARGET + i], want[i]);
    }
    assert_int_equal(x->vram[TARGET + n], 0xFFFF);
}

static void shifted_copy(void **state)
{
    xosera *x = (xosera *)*state;
    const uint16_t want[] = {0xF123, 0x4567, 0x8FFF};
    targets(x);
    x->vram[SOURCE] = 0x1234;
    x->vram[SOURCE + 1] = 0x5678;
    x->vram[SOURCE + 2] = 0x9ABC;
    draws(x, (blit){.src_s = SOURCE, .shift = 0x7801, .words = 2}, want, 3);
}

static void logic(void **state)
{
    targets((xosera *)*state);
    draws((xosera *)*state, (blit){.ctrl = 1, .src_s = 0x0F3C, .andc = 0x00FF, .xor_ = 0x1111},
          (const uint16_t[]){0x1E11}, 1);
}

static void colour_test_by_nibbles(void **state)
{
    targets((xosera *)*state);
    draws((xosera *)*state, (blit){.ctrl = 0x0A11, .src_s = 0x0B0A}, (const uint16_t[]){0xFBFF}, 1);
}

static void colour_test_by_bytes(void **state)
{
    targets((xosera *)*state);
    draws((xosera *)*state, (blit){.ctrl = 0x0A31, .src_s = 0x0B0A}, (const uint16_t[]){0x0BFF}, 1);
}

static void both_masks_on_one_word(void **state)
{
    targets((xosera *)*state);
    draws((xosera *)*state, (blit){.ctrl = 1, .src_s = 0x1234, .shift = 0x7E00},
          (const uint16_t[]){0xF23F}, 1);
}

static void modulo_counts_a_constant_up(void **state)
{
    targets((xosera *)*state);
    draws((xosera *)*state, (blit){.ctrl = 1, .src_s = 7, .mod_s = 1, .lines = 2},
          (const uint16_t[]){7, 8, 9}, 3);
}

static void each_word_is_written_before_the_next_is_read(void **state)
{
    xosera *x = (xosera *)*state;
    targets(x);
    x->vram[0x10] = 0xA;
    start_blit(x, &(blit){.src_s = 0x10, .dst_d = 0x11, .shift = 0xFF00, .words = 2});
    xwait_blit_done();
    assert_int_equal(x->vram[0x11], 0xA);
    assert_int_equal(x->vram[0x12], 0xA);
    assert_int_equal(x->vram[0x13], 0xA);
    assert_int_equal(x->vram[0x14], 0xFFFF);
}

static void nibble_mask(void **state)
{
    xosera *x = (xosera *)*state;
    targets(x);
    xm_setw(SYS_CTRL, 0x0002);
    vram_setw(0, 0x1234);
    assert_int_equal(x->vram[0], 0xFF3F);
}

static void read_buffer_is_not_refreshed(void **state)
{
    xosera *x = (xosera *)*state;
    x->vram[5] = 0xBEEF;
    xm_setw(RD_ADDR, 5);
    vram_setw(5, 0x0000);
    assert_int_equal(x->vram[5], 0x0000);
    assert_int_equal(xm_getw(DATA), 0xBEEF);
}

static void addresses_wrap(void **state)
{
    (void)state;
    xm_setw(WR_INCR, 1);
    vram_setw(0xFFFF, 0);
    assert_int_equal(xm_getw(WR_ADDR), 0x0000);
    xm_setw(WR_INCR, 0xFFFE);
    vram_setw(1, 0);
    assert_int_equal(xm_getw(WR_ADDR), 0xFFFF);
}

static void timer_low_byte_is_saved(void **state)
{
    xosera *x = (xosera *)*state;
    for (int i = 0; i < 0xFF; i++) {
        xosera_tick(x);
    }
    assert_int_equal(xm_getbh(TIMER), 0x00);
    xosera_tick(x);
    assert_int_equal(xm_getbl(TIMER), 0xFF);
    assert_int_equal(xm_getw(TIMER), 0x0100);
}

static void countdown_of_two(void **state)
{
    xm_setw(TIMER, 2);
    for (int tick = 1; tick <= 5; tick++) {
        xosera_tick((xosera *)*state);
        const int due = tick == 2 || tick == 4;
        assert_int_equal(xm_getw(INT_CTRL) & INT_CTRL_TIMER_INTR_F,
                         due ? INT_CTRL_TIMER_INTR_F : 0);
        xm_setw(INT_CTRL, INT_CTRL_TIMER_INTR_F);
    }
}

static void lines_8000_is_one_line(void **state)
{
    targets((xosera *)*state);
    draws((xosera *)*state, (blit){.ctrl = 1, .src_s = 0x1234, .lines = 0x8000},
          (const uint16_t[]){0x1234}, 1);
}

static void run_goes_on_into_the_queued_blit(void **state)
{
    xosera *x = (xosera *)*state;
    start_blit(x, &(blit){.dst_d = 0x80, .shift = 0xFF00, .words = 2});
    start_blit(x, &(blit){.dst_d = 0x90, .shift = 0xFF00, .words = 1});
    assert_int_equal(xosera_run(x, 4), 4);
    assert_int_equal(xm_getw(SYS_CTRL),
                     XM_SYS_CTRL_BLIT_BUSY | XM_SYS_CTRL_HBLANK | XM_SYS_CTRL_WR_MASK);
    assert_int_equal(xm_getbl(INT_CTRL), INT_CTRL_BLIT_INTR_F);
}

static void full_blitter_refuses_andc(void **state)
{
    xosera *x = (xosera *)*state;
    start_blit(x, &(blit){.shift = 0xFF00});
    start_blit(x, &(blit){.shift = 0xFF00});
    x->on_refusal = NULL;
    xreg_setw(BLIT_ANDC, 0x1234);
    assert_int_equal(x->first_refused.why, XOSERA_BLITTER_FULL);
    assert_int_equal(xm_getw(WR_XADDR), XR_BLIT_ANDC);
}

static void shifted_lines(void **state)
{
    xosera *x = (xosera *)*state;
    targets(x);
    x->vram[SOURCE] = 0x1234;
    x->vram[SOURCE + 1] = 0x5678;
    draws(x, (blit){.src_s = SOURCE, .shift = 0xFF01, .lines = 1},
          (const uint16_t[]){0x0123, 0x4567}, 2);
}

int table_group(int *tests)
{
    const struct CMUnitTest list[] = {
        WITH_ADAPTER(shifted_copy),
        WITH_ADAPTER(logic),
        WITH_ADAPTER(colour_test_by_nibbles),
        WITH_ADAPTER(colour_test_by_bytes),
        WITH_ADAPTER(both_masks_on_one_word),
        WITH_ADAPTER(modulo_counts_a_constant_up),
        WITH_ADAPTER(each_word_is_written_before_the_next_is_read),
        WITH_ADAPTER(nibble_mask),
        WITH_ADAPTER(read_buffer_is_not_refreshed),
        WITH_ADAPTER(addresses_wrap),
        WITH_ADAPTER(timer_low_byte_is_saved),
        WITH_ADAPTER(countdown_of_two),
        WITH_ADAPTER(lines_8000_is_one_line),
        WITH_ADAPTER(run_goes_on_into_the_queued_blit),
        WITH_ADAPTER(full_blitter_refuses_andc),
        WITH_ADAPTER(shifted_lines),
    };
    return RUN_GROUP("bench table", list, tests);
}
