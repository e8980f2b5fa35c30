/* The watchdog: a loop in which nothing changes ends the test, with its line of source. */
#include "tests.h"

/* Where a stuck adapter leaves to, and what the hook was told. */
static jmp_buf stuck_at;
static xosera_access told;

static void leave_when_stuck(xosera *x, const xosera_access *what)
{
    (void)x;
    told = *what;
    longjmp(stuck_at, 1);
}

static xosera *watched(void **state, uint64_t bytes)
{
    xosera *x = (xosera *)*state;
    x->watchdog = bytes;
    x->on_stuck = leave_when_stuck;
    memset(&told, 0, sizeof told);
    return x;
}

static int line_of_the_loop;

static void a_loop_that_only_reads_is_stuck(void **state)
{
    xosera *x = watched(state, 1000);
    xm_setw(WR_INCR, 1);
    if (setjmp(stuck_at) == 0) {
        line_of_the_loop = __LINE__ + 1;
        while (!(xm_getbh(SYS_CTRL) & SYS_CTRL_VBLANK_F)) {
        }
    }
    assert_int_equal(told.count, 1000);
    assert_int_equal(told.call, XOSERA_CALL_READ);
    assert_int_equal(told.reg, XM_SYS_CTRL);
    assert_false(told.odd);
    assert_false(told.passing);
    assert_int_equal(told.line, line_of_the_loop);
    assert_non_null(strstr(told.file, "test_watchdog.c"));
    assert_int_equal(x->unchanged, 0); /* it starts anew */
}

/* Each of these loops goes round for ever; the count says after how many bytes it was stopped. */
static void reads_and_writes_without_effect_are_no_change(void **state)
{
    xosera *x = watched(state, 1000);
    xm_setw(RD_INCR, 1);
    x->state.host.latch[XM_INT_CTRL] = 0;
    for (volatile int loop = 0; loop < 5; loop = loop + 1) {
        x->unchanged = 0;
        told.count = 0;
        if (setjmp(stuck_at) == 0) {
            for (;;) {
                switch (loop) {
                case 0: (void)vram_getw_next(); break;    /* moves RD_ADDR */
                case 1: (void)xreg_getw(SCANLINE); break; /* writes RD_XADDR */
                case 2: (void)xm_getw(TIMER); break;      /* saves a byte */
                case 3: xm_setw(INT_CTRL, 0); break;      /* clears nothing */
                default: (void)vram_getw(0x100 * (x->unchanged & 3)); break;
                }
            }
        }
        assert_int_equal(told.count, 1000);
    }
}

static void a_change_starts_the_count_anew(void **state)
{
    xosera *x = watched(state, 100);
    for (volatile int i = 0; i < 50; i = i + 1) {
        assert_int_equal(setjmp(stuck_at), 0);
        for (int k = 0; k < 40; k++) {
            (void)xm_getw(SYS_CTRL);
        }
        switch (i % 6) {
        case 0: xm_setw(WR_ADDR, i + 1); break;
        case 1: vram_setw_next(0x1234); break;
        case 2: xreg_setw(VID_CTRL, 7); break; /* the same word again, but through a port */
        case 3: xosera_tick(x); break;
        case 4: xosera_beam_pixel(x); break;
        default: xm_setbh(WR_INCR, i); break; /* a latch */
        }
        assert_true(x->unchanged <= 2);
    }
}

static void time_that_passes_is_a_change(void **state)
{
    xosera *x = watched(state, 1000);
    x->tick_rate = xosera_per(1, 900);
    if (setjmp(stuck_at) == 0) {
        const uint16_t t0 = xm_getw(TIMER);
        while ((uint16_t)(xm_getw(TIMER) - t0) < 20) {
        }
    }
    assert_int_equal(told.count, 0);
}

static void a_loop_for_what_never_comes_is_stuck(void **state)
{
    xosera *x = watched(state, 1000);
    xosera_board_rates(x, 10000000);
    x->watchdog_waiting = 100000;
    if (setjmp(stuck_at) == 0) {
        while (!(xm_getbl(INT_CTRL) & INT_CTRL_BLIT_INTR_F)) { /* nothing was started */
        }
    }
    assert_true(told.passing);
    assert_int_equal(told.count, 100000);
}

static void the_byte_that_changes_something_does_not_count(void **state)
{
    (void)watched(state, 1);
    if (setjmp(stuck_at) == 0) {
        xm_setbl(WR_ADDR, 5);
        assert_int_equal(told.count, 0);
        xm_setbl(WR_ADDR, 5); /* the same word again */
    }
    assert_int_equal(told.count, 1);
}

/* This many bytes, a multiple of 256, are the fewest at which the adapter is stuck. */
static void assert_stuck_at(xosera *x, uint64_t bytes)
{
    if (setjmp(stuck_at) == 0) {
        memset(&told, 0, sizeof told);
        (void)xm_getbh(INT_CTRL); /* at these rates */
        x->unchanged = bytes - 257;
        for (int i = 0; i < 256; i++) {
            (void)xm_getbh(INT_CTRL);
        }
        assert_int_equal(told.count, 0);
        (void)xm_getbh(INT_CTRL);
    }
    assert_int_equal(told.count, bytes);
}

/* Half a minute: 300,000 ticks, 755,250,000 pixels. */
static void waits_that_can_end_are_left_alone(void **state)
{
    xosera *x = watched(state, 1000);
    assert_true(x->watchdog_waiting == XOSERA_WATCHDOG_BY_RATES);
    x->state.status = INT_CTRL_CLEAR_ALL_F; /* set already, so that a frame end changes nothing */
    x->tick_rate = xosera_per(1, 1);
    assert_stuck_at(x, 5000192); /* with as many ticks more than 10,000,000 */
    x->tick_rate = xosera_per(7, 0);
    assert_stuck_at(x, 1250048);
    x->tick_rate = xosera_per(1, 1000);
    assert_stuck_at(x, 300000000);
    x->beam_rate = xosera_per(1, 1000);
    assert_stuck_at(x, 755250000128);
    assert_true(told.passing);
    xosera_board_rates(x, 10000000); /* a second is 1,250,000 bytes, less one in 1,017 */
    assert_stuck_at(x, 37463296);
    xosera_board_rates(x, 100000);
    assert_stuck_at(x, 374784);
    xosera_board_rates(x, 0);
    x->blit_per_access = 2;
    assert_stuck_at(x, 10000128);
    assert_false(told.passing); /* neither timer nor beam */
}

/* Bytes without rates are not counted when rates are set, nor the other way round. */
static void a_rate_starts_the_count_anew(void **state)
{
    xosera *x = watched(state, 1000);
    (void)xm_getbh(INT_CTRL);
    x->unchanged = 999;
    x->watchdog_waiting = 5;
    x->tick_rate = xosera_per(1, 100);
    assert_int_equal(setjmp(stuck_at), 0);
    (void)xm_getbh(INT_CTRL);
    assert_int_equal(x->unchanged, 1);
    x->unchanged = 3;
    (void)xm_getbh(INT_CTRL);
    x->tick_rate = xosera_per(0, 0);
    x->watchdog = 3;
    (void)xm_getbh(INT_CTRL);
    assert_int_equal(x->unchanged, 1);
    assert_int_equal(told.count, 0);
}

/* A blit that has a rate comes to its end, however slow it is. */
static void a_slow_blit_is_waited_for(void **state)
{
    xosera *x = watched(state, 1000);
    const blit b = {BLIT_CTRL_S_CONST_F, 0, 0, 0, 0x5555, 0, 0x20, 0xFF00, 0, 0};
    start_blit(x, &b);
    x->blit_rate = xosera_per(1, UINT64_MAX);
    (void)xm_getbh(SYS_CTRL);
    x->unchanged = UINT64_MAX / 2; /* the next is a multiple of 256 */
    assert_int_equal(setjmp(stuck_at), 0);
    (void)xm_getbh(SYS_CTRL);
    x->blit_rate = xosera_per(1, 1);
    (void)xm_getbh(SYS_CTRL); /* the last word */
    assert_int_equal(x->state.engine.running, 0);
    assert_int_equal(x->unchanged, 0);
    assert_stuck_at(x, 10000128); /* none runs */
}

/* The test's own calls are changes where something was done. */
static void calls_that_do_nothing_are_no_change(void **state)
{
    xosera *x = watched(state, 1000);
    x->unchanged = 100;
    xosera_step(x);
    xosera_run(x, 7);
    xosera_ticks(x, 0);
    xosera_beam_pixels(x, 0);
    (void)xosera_line_up(x);
    x->on_refusal = NULL;
    x->state.status = 128;
    xosera_tick(x); /* refused */
    xosera_beam_pixel(x);
    assert_int_equal(x->unchanged, 100);
    x->state.status = 0;
    xosera_tick(x);
    assert_int_equal(x->unchanged, 0);
}

/* No time passes where the state is refused, whatever the rates are. */
static void a_refused_loop_is_stuck(void **state)
{
    xosera *x = watched(state, 1000);
    char text[300];
    xosera_board_rates(x, 10000000);
    x->on_refusal = NULL;
    x->state.status = 128;
    if (setjmp(stuck_at) == 0) {
        while (!(xm_getbl(INT_CTRL) & INT_CTRL_VIDEO_INTR_F)) {
        }
    }
    x->state.status = 0;
    assert_int_equal(told.count, 1000);
    assert_int_equal(told.refusal, XOSERA_STATE_RANGE);
    xosera_stuck_message(text, sizeof text, &told);
    assert_non_null(
        strstr(text, ": stuck: 1000 bytes accessed and nothing changed; last odd byte "));
    assert_null(strstr(text, "rates"));
}

static void zero_is_never(void **state)
{
    xosera *x = watched(state, 0);
    x->watchdog_waiting = 0;
    for (int i = 0; i < 100000; i++) {
        (void)xm_getbh(SYS_CTRL);
    }
    assert_int_equal(told.count, 0);
}

enum { LINE_OF_THE_WAIT = __LINE__ + 4 };
static void wait_for_ever(xosera *x)
{
    x->watchdog = 500;
    while (xm_getw(TIMER) < 10) {
    }
}

static void be_refused(xosera *x)
{
    x->on_refusal = xosera_abort_on_refusal;
    xm_setw(INT_CTRL, INT_CTRL_RECONFIG_F);
}

static void the_program_ends_with_a_message(void **state)
{
    xosera *x = (xosera *)*state;
    char text[1000], want[400];
    assert_true(aborts_with(wait_for_ever, x, text, sizeof text));
    snprintf(want, sizeof want,
             "%s:%d: stuck: 500 bytes accessed and nothing changed; last odd byte of XM_TIMER, "
             "read; no time passes without rates: see xosera_board_rates\n",
             __FILE__, LINE_OF_THE_WAIT);
    assert_string_equal(text, want);
}

static void abort_on_refusal_prints_the_message(void **state)
{
    xosera *x = (xosera *)*state;
    char text[1000], want[600];
    assert_true(aborts_with(be_refused, x, text, sizeof text));
    int sum = 0; /* the same here, without an end */
    x->on_refusal = add_refusal;
    x->user = &sum;
    xm_setw(INT_CTRL, INT_CTRL_RECONFIG_F);
    assert_int_equal(sum, XOSERA_RECONFIGURE);
    xosera_refusal_message(want, sizeof want, &x->last_refused);
    assert_non_null(
        strstr(want, ": odd byte of register 1: write refused, 6: XM_INT_CTRL written"));
    assert_string_equal(strchr(strchr(text, ':') + 1, ':'),
                        strcat(strchr(strchr(want, ':') + 1, ':'), "\n"));
}

int watchdog_group(int *tests)
{
    const struct CMUnitTest list[] = {
        WITH_ADAPTER(a_loop_that_only_reads_is_stuck),
        WITH_ADAPTER(reads_and_writes_without_effect_are_no_change),
        WITH_ADAPTER(a_change_starts_the_count_anew),
        WITH_ADAPTER(time_that_passes_is_a_change),
        WITH_ADAPTER(a_loop_for_what_never_comes_is_stuck),
        WITH_ADAPTER(the_byte_that_changes_something_does_not_count),
        WITH_ADAPTER(waits_that_can_end_are_left_alone),
        WITH_ADAPTER(a_rate_starts_the_count_anew),
        WITH_ADAPTER(a_slow_blit_is_waited_for),
        WITH_ADAPTER(calls_that_do_nothing_are_no_change),
        WITH_ADAPTER(a_refused_loop_is_stuck),
        WITH_ADAPTER(zero_is_never),
        WITH_ADAPTER(the_program_ends_with_a_message),
        WITH_ADAPTER(abort_on_refusal_prints_the_message),
    };
    return RUN_GROUP("watchdog", list, tests);
}
