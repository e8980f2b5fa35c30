/* Time that passes with the bytes accessed: rates, the board's own, loops that end by them. */
#include "tests.h"

/* What passed while bytes were read, by the layer's own account. */
typedef struct passed {
    uint64_t words, ticks, steps;
    unsigned order; /* of the last byte: its calls as digits, 1 word run, 2 ticks, 3 beam */
} passed;

static void add_passed(xosera *x, const xosera_access *what)
{
    passed *p = (passed *)x->user;
    if (!what->passing) {
        p->order = 0;
        return;
    }
    p->words += what->call == XOSERA_CALL_RUN ? what->count : 0;
    p->ticks += what->call == XOSERA_CALL_TICK ? what->count : 0;
    p->steps += what->call == XOSERA_CALL_BEAM_STEP ? what->count : 0;
    p->order = p->order * 10 + (what->call == XOSERA_CALL_RUN    ? 1
                                : what->call == XOSERA_CALL_TICK ? 2
                                                                 : 3);
}

static void read_bytes(xosera *x, int n)
{
    for (int i = 0; i < n; i++) {
        (void)xosera_get_byte(x, XM_SYS_CTRL, false);
    }
}

static void fill_vram(xosera *x, uint16_t words)
{
    const blit b = {BLIT_CTRL_S_CONST_F, 0, 0, 0, 0x5555, 0, 0, 0xFF00, 0, (uint16_t)(words - 1)};
    start_blit(x, &b);
}

static void nothing_passes_at_first(void **state)
{
    xosera *x = (xosera *)*state;
    fill_vram(x, 100);
    const xosera_state before = x->state;
    read_bytes(x, 1000);
    assert_state_equal(&x->state, &before);
}

/* After k bytes as many have passed as k times the ratio, rounded down. */
static void a_rate_is_kept_to_the_last_byte(void **state)
{
    xosera *x = (xosera *)*state;
    static const uint64_t ratios[][2] = {{1, 0}, {2, 0}, {1, 1}, {1, 3},  {2, 3},
                                         {7, 5}, {5, 7}, {0, 5}, {13, 1}, {999, 1000}};
    for (size_t r = 0; r < sizeof ratios / sizeof ratios[0]; r++) {
        passed p = {0, 0, 0, 0};
        const uint64_t per = ratios[r][1] == 0 ? 1 : ratios[r][1];
        x->user = &p;
        x->on_access = add_passed;
        x->tick_rate = xosera_per(ratios[r][0], ratios[r][1]);
        x->beam_rate = x->tick_rate;
        for (uint64_t k = 1; k <= 2 * per + 3; k++) {
            read_bytes(x, 1);
            assert_int_equal(p.ticks, k * ratios[r][0] / per);
            assert_int_equal(p.steps, p.ticks);
        }
    }
}

static void words_by_ratio_and_by_the_old_name(void **state)
{
    xosera *x = (xosera *)*state;
    fill_vram(x, 100);
    x->blit_rate = xosera_per(1, 4);
    read_bytes(x, 40);
    assert_int_equal(xosera_words_left(x), 90);
    x->blit_rate = xosera_per(1, 10);
    x->blit_per_access = 3; /* besides the rate */
    read_bytes(x, 10);
    assert_int_equal(xosera_words_left(x), 59);
    x->mask = 9;
    read_bytes(x, 1);
    assert_int_equal(x->mask, 9); /* words that pass leave it */
    xosera_board_rates(x, 10000000);
    x->blit_per_access = 3;
    read_bytes(x, 10);
    assert_int_equal(xosera_words_left(x), 0); /* 80 at least */
}

static void rates_of_any_size(void **state)
{
    xosera *x = (xosera *)*state;
    fill_vram(x, 100);
    x->blit_rate = xosera_per(UINT64_MAX, 1);
    read_bytes(x, 1);
    assert_int_equal(xosera_words_left(x), 0);
    x->blit_rate = xosera_per(0, 1);
    fill_vram(x, 100);
    x->blit_rate = xosera_per(UINT64_MAX - 1, UINT64_MAX);
    read_bytes(x, 1);
    assert_int_equal(xosera_words_left(x), 100); /* not quite one */
    read_bytes(x, 1);
    assert_int_equal(xosera_words_left(x), 99);
    x->blit_rate.accesses = 5; /* changed in the middle: what was owed is dropped */
    x->blit_rate.count = 1;
    read_bytes(x, 5);
    assert_int_equal(xosera_words_left(x), 98);
}

static void blitter_then_timer_then_beam(void **state)
{
    xosera *x = (xosera *)*state;
    passed p = {0, 0, 0, 0};
    fill_vram(x, 100);
    x->user = &p;
    x->on_access = add_passed;
    x->blit_rate = x->tick_rate = x->beam_rate = xosera_per(1, 1);
    read_bytes(x, 1);
    assert_int_equal(p.order, 123);
}

/* A hundredth of a second at 10 MHz: 12,500 bytes. */
static void the_boards_rates(void **state)
{
    xosera *x = (xosera *)*state;
    passed p = {0, 0, 0, 0};
    xosera_board_rates(x, 10000000);
    x->user = &p;
    x->on_access = add_passed;
    read_bytes(x, 12500);
    assert_int_equal(p.ticks, 100);
    assert_int_equal(p.steps, 251997); /* 251,750 and one in 1,016 more */
    assert_int_equal(p.words, 0);      /* nothing runs */
    fill_vram(x, 1024);
    xosera_board_rates(x, 10000000);
    p.words = 0;
    read_bytes(x, 100);
    assert_int_equal(p.words, 503); /* 6,293,750 words a second */
    xosera_board_rates(x, 0);
    const xosera_state before = x->state;
    read_bytes(x, 1000);
    assert_state_equal(&x->state, &before);
}

static void a_refused_byte_takes_time(void **state)
{
    xosera *x = (xosera *)*state;
    int sum = 0;
    x->on_refusal = add_refusal;
    x->user = &sum;
    x->tick_rate = xosera_per(1, 1);
    (void)xosera_get_byte(x, 16, false);
    assert_int_equal(x->state.host.timer.count, 1);
    assert_int_equal(sum, XOSERA_NO_REGISTER);
    x->vram_len = 100; /* an adapter that can do nothing has said so once */
    (void)xosera_get_byte(x, 0, false);
    assert_int_equal(x->state.host.timer.count, 1);
    assert_int_equal(sum, XOSERA_NO_REGISTER + XOSERA_VRAM_LENGTH);
    x->vram_len = 1024;
}

/* Loops as firmware has them; each ends by the bytes that it reads. */
static void polling_loops_end(void **state)
{
    xosera *x = (xosera *)*state;
    xosera_board_rates(x, 10000000);
    const uint16_t t0 = xm_getw(TIMER);
    while ((uint16_t)(xm_getw(TIMER) - t0) < 50) {
    }
    assert_int_equal((uint16_t)(x->state.host.timer.count - t0), 50);
    xm_setw(TIMER, 20);
    while (!(xm_getbl(INT_CTRL) & INT_CTRL_TIMER_INTR_F)) {
    }
    fill_vram(x, 500);
    fill_vram(x, 500);
    while (xm_getbh(SYS_CTRL) & SYS_CTRL_BLIT_FULL_F) {
    }
    assert_int_equal(x->state.engine.running, 1);
    while (xm_getbh(SYS_CTRL) & SYS_CTRL_BLIT_BUSY_F) {
    }
    while (!(xm_getw(INT_CTRL) & INT_CTRL_BLIT_INTR_F)) {
    }
    while (!(xm_getbh(SYS_CTRL) & SYS_CTRL_VBLANK_F)) {
    }
    assert_true(x->state.beam.line >= XOSERA_VISIBLE_LINES);
    while (!(xm_getw(INT_CTRL) & INT_CTRL_VIDEO_INTR_F)) {
    }
    while (xm_getw(SYS_CTRL) & XM_SYS_CTRL_VBLANK) {
    }
    while (xreg_getw(SCANLINE) != 77) {
    }
    assert_in_range(x->state.beam.line, 77, 78);
    while (!(xm_getbh(SYS_CTRL) & SYS_CTRL_HBLANK_F)) {
    }
}

/* With rates a wait is the board's own loop: what it does not wait for moves too. */
static void waits_let_all_time_pass(void **state)
{
    xosera *x = (xosera *)*state;
    xosera_board_rates(x, 10000000);
    const uint16_t t0 = xm_getw(TIMER);
    int frames = 0;
    while ((uint16_t)(xm_getw(TIMER) - t0) < 500) { /* 50 ms are three frames */
        xwait_not_vblank();
        xwait_vblank();
        frames++;
    }
    assert_in_range(frames, 3, 4);
    fill_vram(x, 1000);
    fill_vram(x, 1000);
    const uint16_t t1 = x->state.host.timer.count;
    xwait_blit_ready();
    assert_int_equal(x->state.queued, 0);
    assert_int_equal(x->state.engine.running, 1);
    xwait_blit_done();
    assert_int_equal(x->state.engine.running, 0);
    assert_in_range((uint16_t)(x->state.host.timer.count - t1), 2, 4); /* 2,000 words: 0.32 ms */
    xwait_hblank();
    assert_true(x->state.beam.position < XOSERA_BLANK_POSITIONS + 21);
    xwait_not_hblank();
    assert_true(x->state.beam.position >= XOSERA_BLANK_POSITIONS);
    x->on_refusal = NULL;
    x->vram_len = 100; /* a refused wait ends */
    xwait_vblank();
    xwait_blit_done();
    x->vram_len = 1024;
    assert_int_equal(x->refusals, 2);
}

static void waits_for_left_blanking(void **state)
{
    xosera *x = (xosera *)*state;
    set_beam(x, 524, 160);
    xwait_hblank();
    assert_int_equal(x->state.beam.line, 0);
    assert_int_equal(x->state.beam.position, 0);
    xwait_hblank(); /* it is so already */
    assert_int_equal(x->state.beam.position, 0);
    xwait_not_hblank();
    assert_int_equal(x->state.beam.line, 0);
    assert_int_equal(x->state.beam.position, XOSERA_BLANK_POSITIONS);
    xwait_not_hblank();
    assert_int_equal(x->state.beam.position, XOSERA_BLANK_POSITIONS);
    set_beam(x, 600, 0); /* no such line: the wait is refused, and ends */
    x->on_refusal = NULL;
    xwait_not_hblank();
    assert_int_equal(x->last_refused.why, XOSERA_STATE_RANGE);
    set_beam(x, 0, 0);
    assert_int_equal(xosera_ticks(x, 7), 7);
    assert_int_equal(xosera_ticks(x, 0), 0);
    assert_int_equal(x->state.host.timer.count, 7);
}

int time_group(int *tests)
{
    const struct CMUnitTest list[] = {
        WITH_ADAPTER(nothing_passes_at_first),
        WITH_ADAPTER(a_rate_is_kept_to_the_last_byte),
        WITH_ADAPTER(words_by_ratio_and_by_the_old_name),
        WITH_ADAPTER(rates_of_any_size),
        WITH_ADAPTER(blitter_then_timer_then_beam),
        WITH_ADAPTER(the_boards_rates),
        WITH_ADAPTER(a_refused_byte_takes_time),
        WITH_ADAPTER(polling_loops_end),
        WITH_ADAPTER(waits_let_all_time_pass),
        WITH_ADAPTER(waits_for_left_blanking),
    };
    return RUN_GROUP("time", list, tests);
}
