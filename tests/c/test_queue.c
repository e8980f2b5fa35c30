/* A blit in progress and one queued: busy, full, what waits and what follows. */
#include "tests.h"

static const blit four_words = {
    .ctrl = 1, .src_s = 0x1111, .dst_d = 0x40, .shift = 0xFF00, .words = 3};
static const blit two_words = {
    .ctrl = 1, .src_s = 0x2222, .dst_d = 0x80, .shift = 0xFF00, .words = 1};

enum { REST = SYS_CTRL_HBLANK_F }; /* what the flags show of a beam at rest */

static void flags_follow_the_queue(void **state)
{
    xosera *x = (xosera *)*state;
    assert_int_equal(xm_getbh(SYS_CTRL), REST);
    start_blit(x, &four_words);
    assert_int_equal(xm_getbh(SYS_CTRL), REST | SYS_CTRL_BLIT_BUSY_F);
    start_blit(x, &two_words);
    assert_int_equal(xm_getbh(SYS_CTRL), REST | SYS_CTRL_BLIT_BUSY_F | SYS_CTRL_BLIT_FULL_F);
    for (int i = 0; i < 3; i++) {
        assert_int_equal(xosera_step(x), 1);
        assert_int_equal(xm_getbh(SYS_CTRL), REST | SYS_CTRL_BLIT_BUSY_F | SYS_CTRL_BLIT_FULL_F);
        assert_int_equal(xm_getbl(INT_CTRL), 0);
    }
    /* The last word: the queued blit starts in the same step. */
    assert_int_equal(xosera_step(x), 1);
    assert_int_equal(xm_getbh(SYS_CTRL), REST | SYS_CTRL_BLIT_BUSY_F);
    assert_int_equal(xm_getbl(INT_CTRL), INT_CTRL_BLIT_INTR_F);
    xm_setw(INT_CTRL, INT_CTRL_BLIT_INTR_F);
    assert_int_equal(x->vram[0x80], (uint16_t)(0x81 * 40503u));
    assert_int_equal(xosera_step(x), 1);
    assert_int_equal(xosera_step(x), 1);
    assert_int_equal(xm_getbh(SYS_CTRL), REST);
    assert_int_equal(xm_getbl(INT_CTRL), INT_CTRL_BLIT_INTR_F);
    assert_int_equal(xosera_step(x), 0); /* idle: nothing, counted as nothing */
    assert_int_equal(xosera_run(x, 100), 0);
    for (int i = 0; i < 4; i++) {
        assert_int_equal(x->vram[0x40 + i], 0x1111);
    }
    assert_int_equal(x->vram[0x80], 0x2222);
    assert_int_equal(x->vram[0x81], 0x2222);
}

static void a_run_counts_the_words_of_both(void **state)
{
    xosera *x = (xosera *)*state;
    start_blit(x, &four_words);
    start_blit(x, &two_words);
    assert_int_equal(xosera_words_left(x), 4);
    assert_int_equal(xosera_run(x, 0), 0);
    assert_int_equal(xosera_run(x, 5), 5);
    assert_int_equal(xosera_words_left(x), 1);
    assert_int_equal(xosera_run(x, UINT64_MAX), 1);
    assert_int_equal(xosera_words_left(x), 0);
}

static void the_running_blit_does_not_see_later_writes(void **state)
{
    xosera *x = (xosera *)*state;
    start_blit(x, &four_words);
    (void)xosera_step(x);
    xreg_setw(BLIT_CTRL, 0);
    xreg_setw(BLIT_SRC_S, 0x5555);
    xreg_setw(BLIT_XOR, 0xFFFF);
    xreg_setw(BLIT_SHIFT, 0);
    xreg_setw(BLIT_DST_D, 0xC0);
    xwait_blit_done();
    for (int i = 0; i < 4; i++) {
        assert_int_equal(x->vram[0x40 + i], 0x1111);
    }
}

static void ready_waits_for_the_queue_alone(void **state)
{
    xosera *x = (xosera *)*state;
    start_blit(x, &four_words);
    xwait_blit_ready(); /* room for one more: no time passes */
    assert_int_equal(xosera_words_left(x), 4);
    start_blit(x, &two_words);
    (void)xosera_step(x);
    xwait_blit_ready();
    assert_int_equal(xm_getbh(SYS_CTRL), REST | SYS_CTRL_BLIT_BUSY_F);
    assert_int_equal(xosera_words_left(x), 2);
    start_blit(x, &four_words);
    xwait_blit_done();
    assert_int_equal(xm_getbh(SYS_CTRL), REST);
    assert_int_equal(xosera_words_left(x), 0);
}

static void each_blit_raises_the_line(void **state)
{
    xosera *x = (xosera *)*state;
    xm_setw(INT_CTRL, INT_CTRL_BLIT_EN_F | INT_CTRL_CLEAR_ALL_F);
    start_blit(x, &four_words);
    start_blit(x, &two_words);
    assert_false(xosera_line_up(x));
    (void)xosera_run(x, 4);
    assert_true(xosera_line_up(x));
    xm_setw(INT_CTRL, INT_CTRL_BLIT_EN_F | INT_CTRL_BLIT_INTR_F);
    assert_false(xosera_line_up(x));
    (void)xosera_run(x, 2);
    assert_true(xosera_line_up(x));
}

int queue_group(int *tests)
{
    const struct CMUnitTest list[] = {
        WITH_ADAPTER(flags_follow_the_queue),
        WITH_ADAPTER(a_run_counts_the_words_of_both),
        WITH_ADAPTER(the_running_blit_does_not_see_later_writes),
        WITH_ADAPTER(ready_waits_for_the_queue_alone),
        WITH_ADAPTER(each_blit_raises_the_line),
    };
    return RUN_GROUP("queue", list, tests);
}
