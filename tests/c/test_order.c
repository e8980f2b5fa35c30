/* The order of things: a blit done word by word between other events ends as if it had been done
 * whole at its start; only the blitter's interrupt bit may differ. */
#include "tests.h"

enum { VRAM_LEN = 512, WORDS = 5, LINES = 4, SOURCE = 0x20, TARGET = 0xC0, ELSEWHERE = 0x160 };

typedef enum kind { WRITE, READ, TICK, PIXEL, LINE } kind;

typedef struct event {
    kind what;
    uint8_t reg;
    bool odd;
    uint8_t byte;
} event;

/* clang-format off */
/* A word written is its even and its odd byte; likewise a word read. */
#define W(reg, word) {WRITE, reg, false, (word) >> 8}, {WRITE, reg, true, (word) & 0xFF}
#define R(reg)       {READ, reg, false, 0}, {READ, reg, true, 0}

/* No event starts a blit, stores to a word that this one reads or writes, or loads one that it
 * writes, and none enables the copper. The beam starts two pixels before the frame end. */
static const event events[] = {
    R(XM_SYS_CTRL), W(XM_SYS_CTRL, 0x000B), W(XM_WR_INCR, 0x0003), W(XM_WR_ADDR, ELSEWHERE),
    W(XM_DATA, 0x1234), W(XM_DATA_2, 0x5678), {TICK, 0, false, 0}, R(XM_INT_CTRL),
    W(XM_RD_INCR, 0xFFFF), W(XM_RD_ADDR, ELSEWHERE + 3), R(XM_DATA), R(XM_DATA_2),
    W(XM_RD_ADDR, SOURCE + 2), R(XM_DATA), /* reading what the blit reads is allowed */
    R(XM_SYS_CTRL), {PIXEL, 0, false, 0}, W(XM_RD_XADDR, XR_SCANLINE), R(XM_SYS_CTRL), R(XM_XDATA),
    {PIXEL, 0, false, 0}, {LINE, 0, false, 0}, W(XM_INT_CTRL, 0x7F50), {LINE, 0, false, 0},
    W(XM_RD_XADDR, XR_SCANLINE), R(XM_SYS_CTRL), R(XM_XDATA), {PIXEL, 0, false, 0},
    W(XM_WR_XADDR, XR_COPP_CTRL), W(XM_XDATA, 0x7FFF), {PIXEL, 0, false, 0},
    W(XM_INT_CTRL, 0x8000), /* refused */
    {WRITE, 16, true, 1}, {READ, 200, false, 0}, /* refused */
    W(XM_WR_XADDR, XR_BLIT_CTRL), W(XM_XDATA, 0xFFFF), W(XM_XDATA, 0xFFFF), W(XM_XDATA, 0xFFFF),
    W(XM_WR_XADDR, XR_BLIT_SHIFT), W(XM_XDATA, 0x0003), W(XM_XDATA, 0x0100),
    W(XM_WR_XADDR, XR_COLOR_ADDR + 0x1FF), W(XM_XDATA, 0xABCD), W(XM_XDATA, 0xDCBA),
    W(XM_RD_XADDR, XR_COLOR_ADDR + 0x1FF), R(XM_XDATA), R(XM_XDATA),
    W(XM_WR_XADDR, XR_SCANLINE), W(XM_XDATA, 0), W(XM_TIMER, 2), {TICK, 0, false, 0},
    {TICK, 0, false, 0}, {TICK, 0, false, 0}, R(XM_TIMER), W(0xC, 0xFFFF), R(0xC), R(XM_SYS_CTRL),
    R(XM_INT_CTRL), {LINE, 0, false, 0},
};
/* clang-format on */
enum { EVENTS = sizeof events / sizeof events[0] };

typedef struct answer {
    int refusal;
    int value;
} answer;

static answer happen(xosera *x, event e)
{
    answer a = {XOSERA_DONE, 0};
    xosera_clear_refusals(x);
    switch (e.what) {
    case WRITE: xosera_set_byte(x, e.reg, e.odd, e.byte); break;
    case READ: a.value = xosera_get_byte(x, e.reg, e.odd); break;
    case TICK: xosera_tick(x); break;
    case PIXEL: a.value = (int)xosera_beam_pixel(x); break;
    case LINE: a.value = xosera_line_up(x); break;
    }
    a.refusal = (int)x->first_refused.why;
    return a;
}

/* The part of an answer that may not differ. */
static int fixed_part(event e, int value)
{
    if (e.what == LINE) {
        return 0;
    }
    if (e.what == READ && e.reg == XM_INT_CTRL && e.odd) {
        return value & ~INT_CTRL_BLIT_INTR_F;
    }
    if (e.what == READ && e.reg == XM_SYS_CTRL && !e.odd) {
        return value & ~SYS_CTRL_BLIT_BUSY_F;
    }
    return value;
}

static void start(xosera *x)
{
    start_blit(x, &(blit){.ctrl = MAKE_BLIT_CTRL(0x50, 0, 1, 0),
                          .xor_ = 0x0F0F,
                          .mod_s = 2,
                          .src_s = SOURCE,
                          .mod_d = 7,
                          .dst_d = TARGET,
                          .shift = 0x7C02,
                          .lines = LINES - 1,
                          .words = WORDS - 1});
    set_beam(x, 479, 798);
}

/* `steps` words are done before every `every`-th event; what is left is done at the end. */
static void interleaved(int steps, int every, bool by_run)
{
    xosera *whole = adapter_new(VRAM_LEN), *x = adapter_new(VRAM_LEN);
    start(whole);
    start(x);
    assert_int_equal(xosera_run(whole, WORDS * LINES), WORDS * LINES);
    for (int i = 0; i < EVENTS; i++) {
        if (i % every == 0) {
            if (by_run) {
                (void)xosera_run(x, (uint64_t)steps);
            }
            for (int n = 0; n < steps && !by_run; n++) {
                (void)xosera_step(x);
            }
        }
        const answer got = happen(x, events[i]), want = happen(whole, events[i]);
        assert_int_equal(got.refusal, want.refusal);
        assert_int_equal(fixed_part(events[i], got.value), fixed_part(events[i], want.value));
    }
    (void)xosera_run(x, WORDS * LINES);
    x->state.status &= (uint16_t)~INT_CTRL_BLIT_INTR_F;
    whole->state.status &= (uint16_t)~INT_CTRL_BLIT_INTR_F;
    assert_state_equal(&x->state, &whole->state);
    assert_memory_equal(x->vram, whole->vram, VRAM_LEN * sizeof x->vram[0]);
    assert_memory_equal(x->xr, whole->xr, XOSERA_XR_WORDS * sizeof x->xr[0]);
    adapter_free(x);
    adapter_free(whole);
}

static void single_steps_between_events(void **state)
{
    (void)state;
    for (int every = 1; every <= EVENTS; every++) {
        interleaved(1, every, false);
    }
}

static void runs_between_events(void **state)
{
    (void)state;
    for (int steps = 0; steps <= WORDS * LINES + 1; steps++) {
        for (int every = 1; every <= EVENTS; every += 5) {
            interleaved(steps, every, true);
        }
    }
}

int order_group(int *tests)
{
    const struct CMUnitTest list[] = {
        cmocka_unit_test(single_steps_between_events),
        cmocka_unit_test(runs_between_events),
    };
    return RUN_GROUP("order of events", list, tests);
}
