/* Refusal 3: each word that has a range, at its bounds and beyond. A state is 79 words that
 * anything may have filled, so no word out of range may be misread, by any call. */
#include "tests.h"

/* The least and the most that a word may hold, the rest of the state being as it is. */
typedef struct range {
    const char *name;
    size_t at;
    uint16_t least, most;
} range;

/* clang-format off */
#define RANGE(path, least, most) {#path, offsetof(xosera_state, path), least, most}

/* In every state. */
static const range bytes_and_masks[] = {
    RANGE(host.latch[0], 0, 255),  RANGE(host.latch[1], 0, 255),  RANGE(host.latch[2], 0, 255),
    RANGE(host.latch[3], 0, 255),  RANGE(host.latch[4], 0, 255),  RANGE(host.latch[5], 0, 255),
    RANGE(host.latch[6], 0, 255),  RANGE(host.latch[7], 0, 255),  RANGE(host.latch[8], 0, 255),
    RANGE(host.latch[9], 0, 255),  RANGE(host.latch[10], 0, 255), RANGE(host.latch[11], 0, 255),
    RANGE(host.latch[12], 0, 255), RANGE(host.latch[13], 0, 255), RANGE(host.latch[14], 0, 255),
    RANGE(host.latch[15], 0, 255), RANGE(host.timer.saved, 0, 255),
    RANGE(host.vram.wr_mask, 0, 15), RANGE(host.int_mask, 0, 127), RANGE(status, 0, 127),
};

/* On an idle engine with the countdown stopped. */
static const range while_idle[] = {
    RANGE(host.timer.countdown, 0, 0), RANGE(host.timer.interval, 0, 0), RANGE(queued, 0, 0),
    RANGE(engine.running, 0, 1), /* a blit of one word may begin here */
    RANGE(engine.line, 0, 0),       RANGE(engine.word, 0, 0),       RANGE(engine.kept, 0, 0),
    RANGE(engine.regs.ctrl, 0, 0),  RANGE(engine.regs.andc, 0, 0),  RANGE(engine.regs.xor_, 0, 0),
    RANGE(engine.regs.mod_s, 0, 0), RANGE(engine.regs.src_s, 0, 0), RANGE(engine.regs.mod_d, 0, 0),
    RANGE(engine.regs.dst_d, 0, 0), RANGE(engine.regs.shift, 0, 0), RANGE(engine.regs.lines, 0, 0),
    RANGE(engine.regs.words, 0, 0),
};

/* In mid-line, as set up by mid_line_state. */
static const range while_running[] = {
    RANGE(host.timer.countdown, 1, 300), RANGE(host.timer.interval, 300, 65535),
    RANGE(queued, 0, 1),                 RANGE(engine.running, 1, 1),
    RANGE(engine.line, 0, 20),           RANGE(engine.word, 0, 40),
    RANGE(engine.kept, 0, 65535),        RANGE(engine.regs.lines, 10, 32767),
    RANGE(engine.regs.words, 30, 65535),
};

/* On line 0 and on the last line's first word, with a word kept: not on the blit's first word. */
static const range on_line_0[] = {
    RANGE(engine.line, 0, 20),           RANGE(engine.word, 1, 40),
    RANGE(engine.kept, 0, 65535),        RANGE(engine.regs.lines, 0, 32767),
    RANGE(engine.regs.words, 30, 65535),
};
static const range at_line_start[] = {
    RANGE(engine.line, 1, 20),           RANGE(engine.word, 0, 40),
    RANGE(engine.kept, 0, 65535),        RANGE(engine.regs.lines, 20, 32767),
    RANGE(engine.regs.words, 0, 65535),
};

/* On the blit's first word, where none is kept. */
static const range at_blit_start[] = {
    RANGE(engine.line, 0, 20),           RANGE(engine.word, 0, 40),
    RANGE(engine.kept, 0, 0),            RANGE(engine.regs.lines, 0, 32767),
    RANGE(engine.regs.words, 0, 65535),
};

/* With the copper stopped, enabled or not. */
static const range while_enabled[] = {
    RANGE(beam.line, 0, 524),         RANGE(beam.position, 0, 799),
    RANGE(beam.copper_running, 0, 1), RANGE(beam.copper_word, 0, 0),
};
static const range while_disabled[] = {
    RANGE(beam.line, 0, 524),         RANGE(beam.position, 0, 799),
    RANGE(beam.copper_running, 0, 0), RANGE(beam.copper_word, 0, 0),
};

/* With the copper running, at word 0 and as set up by copper_state. */
static const range at_word_0[] = {
    RANGE(beam.line, 0, 524),         RANGE(beam.position, 0, 799),
    RANGE(beam.copper_running, 0, 1), RANGE(beam.copper_word, 0, 1023),
    RANGE(video.copp_ctrl, 0x8000, 0xFFFF),
};
static const range at_word_10[] = {
    RANGE(beam.line, 0, 524),         RANGE(beam.position, 0, 799),
    RANGE(beam.copper_running, 1, 1), RANGE(beam.copper_word, 0, 1023),
    RANGE(video.copp_ctrl, 0x8000, 0xFFFF),
};
/* clang-format on */

static xosera_state running_at(uint16_t line, uint16_t word, uint16_t kept)
{
    xosera_state s = mid_line_state();
    s.engine.line = line;
    s.engine.word = word;
    s.engine.kept = kept;
    return s;
}

/* A save gives a file from which a load gives this state, or 10. */
static void assert_saved(const xosera *x, const xosera_state *s)
{
    static uint8_t file[XOSERA_FILE_MAX];
    xosera_state t = *s;
    const xosera_save_answer saved =
        xosera_save(&t, x->vram, x->vram_len, x->xr, x->xr_len, file, sizeof file);
    assert_state_equal(&t, s);
    if (!at_rest(s)) {
        assert_int_equal(saved.refusal, XOSERA_NOT_AT_REST);
        assert_int_equal(saved.length, 0);
        return;
    }
    assert_int_equal(saved.refusal, XOSERA_DONE);
    t = reset_state();
    assert_int_equal(
        xosera_load(&t, x->vram, x->vram_len, x->xr, x->xr_len, file, saved.length).refusal,
        XOSERA_DONE);
    assert_state_equal(&t, s);
}

/* All calls but reset do their work, each on a copy of the state. */
static void assert_accepted(const xosera *x, const xosera_state *s)
{
    xosera_state t = *s;
    assert_int_equal(xosera_interrupt_line(&t).refusal, XOSERA_DONE);
    assert_state_equal(&t, s);
    assert_int_equal(xosera_read_byte(&t, x->vram, x->vram_len, x->xr, x->xr_len, 12, true).refusal,
                     XOSERA_DONE);
    assert_state_equal(&t, s);
    assert_int_equal(
        xosera_write_byte(&t, x->vram, x->vram_len, x->xr, x->xr_len, 12, true, 0xA5).refusal,
        XOSERA_DONE);
    assert_state_equal(&t, s);
    assert_int_equal(xosera_timer_tick(&t).refusal, XOSERA_DONE);
    t = *s;
    assert_int_equal(xosera_beam_step(&t, x->vram, x->vram_len, x->xr, x->xr_len).refusal,
                     XOSERA_DONE);
    t = *s;
    const xosera_blit_answer step = xosera_blit_step(&t, x->vram, x->vram_len, x->xr, x->xr_len);
    assert_int_equal(step.refusal, XOSERA_DONE);
    assert_int_equal(step.count, s->engine.running);
    t = *s;
    const xosera_blit_answer run = xosera_blit_run(&t, x->vram, x->vram_len, x->xr, x->xr_len, 1);
    assert_int_equal(run.refusal, XOSERA_DONE);
    assert_int_equal(run.count, s->engine.running);
    assert_saved(x, s);
    uint16_t pixels[XOSERA_SCREEN_WIDTH];
    t = *s;
    t.video.pa[0] = GFX_CTRL_BLANK_F; /* any word is in range there */
    assert_int_equal(
        xosera_paint(&t, x->vram, x->vram_len, x->xr, x->xr_len, 479, pixels, XOSERA_SCREEN_WIDTH)
            .refusal,
        XOSERA_DONE);
    assert_int_equal(xosera_paint_grey(&t, x->vram, x->vram_len, x->xr, x->xr_len, 479, pixels,
                                       XOSERA_SCREEN_WIDTH)
                         .refusal,
                     XOSERA_DONE);
}

static void assert_out_of_range(const xosera *x, const xosera_state *s)
{
    assert_refused(x, s, x->vram_len, x->xr_len, XM_XDATA, XOSERA_STATE_RANGE);
    assert_refused(x, s, x->vram_len, x->xr_len, 16, XOSERA_STATE_RANGE); /* 3 comes before 4 */
}

static void set_word(xosera_state *s, size_t at, uint16_t value)
{
    memcpy((char *)s + at, &value, sizeof value);
}

/* Values at which some width or sign could be mistaken, tried beside the bounds. */
static const uint16_t telling[] = {0,      1,      2,      15,     16,     127,
                                   128,    254,    255,    256,    512,    0x0101,
                                   0x7FFF, 0x8000, 0xFF00, 0xFF01, 0xFFFE, 0xFFFF};
enum { TELLING = sizeof telling / sizeof telling[0] };

static void one_value(const xosera *x, xosera_state s, const range *r, uint16_t value)
{
    set_word(&s, r->at, value);
    const bool right = r->least <= value && value <= r->most;
    const int refusal = xosera_interrupt_line(&s).refusal;
    if (refusal != (right ? XOSERA_DONE : XOSERA_STATE_RANGE)) {
        fail_msg("%s = %u: refusal %d", r->name, (unsigned)value, refusal);
    }
    if (right) {
        assert_accepted(x, &s);
    } else {
        assert_out_of_range(x, &s);
    }
}

static void every_bound(xosera_state s, const range *ranges, size_t n)
{
    xosera *x = adapter_new(256);
    assert_accepted(x, &s);
    for (const range *r = ranges; r < ranges + n; r++) {
        one_value(x, s, r, r->least);
        one_value(x, s, r, r->most);
        one_value(x, s, r, (uint16_t)(r->least - 1));
        one_value(x, s, r, (uint16_t)(r->most + 1));
        for (size_t i = 0; i < TELLING; i++) {
            one_value(x, s, r, telling[i]);
        }
    }
    adapter_free(x);
}
#define EVERY_BOUND(s, ranges) every_bound(s, ranges, sizeof(ranges) / sizeof(ranges)[0])

static void bytes_and_masks_have_their_bounds(void **state)
{
    (void)state;
    EVERY_BOUND(idle_state(), bytes_and_masks);
    EVERY_BOUND(mid_line_state(), bytes_and_masks);
}

static void an_idle_engine_is_all_0(void **state)
{
    (void)state;
    EVERY_BOUND(idle_state(), while_idle);
}

static void a_running_engine_has_its_bounds(void **state)
{
    (void)state;
    EVERY_BOUND(mid_line_state(), while_running);
    EVERY_BOUND(running_at(0, 30, 0xBEEF), on_line_0);
    EVERY_BOUND(running_at(20, 0, 0xBEEF), at_line_start);
    EVERY_BOUND(running_at(0, 0, 0), at_blit_start);
}

static void beam_and_copper_have_their_bounds(void **state)
{
    (void)state;
    xosera_state s = idle_state();
    assert_true(s.video.copp_ctrl >= 0x8000);
    EVERY_BOUND(s, while_enabled);
    s.video.copp_ctrl &= 0x7FFF;
    EVERY_BOUND(s, while_disabled);
    s = copper_state();
    EVERY_BOUND(s, at_word_10);
    s.beam.copper_word = 0;
    EVERY_BOUND(s, at_word_0);
}

/* Every other word may hold anything. */
static bool has_range(size_t at)
{
    const range *const lists[] = {bytes_and_masks, while_running, while_enabled};
    const size_t lengths[] = {sizeof bytes_and_masks / sizeof(range),
                              sizeof while_running / sizeof(range),
                              sizeof while_enabled / sizeof(range)};
    for (size_t i = 0; i < 3; i++) {
        for (size_t n = 0; n < lengths[i]; n++) {
            if (lists[i][n].at == at) {
                return true;
            }
        }
    }
    return false;
}

static void all_other_words_are_free(void **state)
{
    xosera *x = (xosera *)*state;
    const xosera_state s = mid_line_state();
    int free_words = 0;
    for (size_t at = 0; at < sizeof s; at += 2) {
        if (!has_range(at)) {
            const range any = {"", at, 0, 65535};
            for (size_t i = 0; i < TELLING; i++) {
                one_value(x, s, &any, telling[i]);
            }
            free_words++;
        }
    }
    assert_int_equal(free_words, XOSERA_STATE_WORDS - 16 - 4 - 9 - 4);
}

/* A handle that nobody attached, or a state from a file gone bad. */
static void a_handle_full_of_anything_is_refused(void **state)
{
    xosera *x = (xosera *)*state;
    const int bytes[] = {0xFF, 0xA5, 0x55, 0x80, 0x01};
    x->on_refusal = NULL;
    for (size_t i = 0; i < sizeof bytes / sizeof bytes[0]; i++) {
        memset(&x->state, bytes[i], sizeof x->state);
        const xosera_state before = x->state;
        xosera_clear_refusals(x);
        xosera_setw(x, XM_WR_ADDR, 0x1234);
        assert_int_equal(xosera_getw(x, XM_WR_ADDR), 0);
        assert_int_equal(xosera_step(x), 0);
        assert_int_equal(xosera_run(x, 100), 0);
        xosera_tick(x);
        assert_int_equal(xosera_frame(x), 0);
        assert_false(xosera_line_up(x));
        assert_int_equal(x->refusals, 9);
        assert_int_equal(x->first_refused.why, XOSERA_STATE_RANGE);
        assert_int_equal(x->last_refused.why, XOSERA_STATE_RANGE);
        assert_state_equal(&x->state, &before);
        assert_out_of_range(x, &before);
    }
    xosera_reset(&x->state);
    xosera_clear_refusals(x);
    xosera_setw(x, XM_WR_ADDR, 0x1234);
    assert_int_equal(x->refusals, 0);
}

/* Equal states are equal memory, whatever came before. */
static void equal_states_are_equal_memory(void **state)
{
    (void)state;
    xosera *x = adapter_new(256), *y = adapter_new(256);
    memset(&y->state, 0xFF, sizeof y->state);
    xosera_reset(&y->state);
    assert_memory_equal(&x->state, &y->state, sizeof x->state);

    const blit constant = {
        .ctrl = 1, .src_s = 0x1111, .shift = 0xFF00, .lines = 0x8001, .words = 3};
    xosera_setw(x, XM_WR_ADDR, 0x0040);
    start_blit(x, &constant);
    assert_int_equal(xosera_run(x, 5), 5);
    xosera_setw(x, XM_TIMER, 2);
    xosera_tick(x);

    /* By other calls in another order: a blit before it, and once round the timer. */
    start_blit(y, &(blit){.src_s = 0x0050, .shift = 0xFF01, .words = 7});
    start_blit(y, &constant);
    xosera_setw(y, XM_TIMER, 3);
    for (int i = 0; i < 0x10000; i++) {
        xosera_tick(y);
    }
    for (int i = 0; i < 8 + 5; i++) {
        assert_int_equal(xosera_step(y), 1);
    }
    xosera_setw(y, XM_TIMER, 2);
    xosera_tick(y);
    xosera_set_byte(y, XM_WR_ADDR, true, 0x40);
    xosera_setw(y, XM_INT_CTRL, INT_CTRL_CLEAR_ALL_F);
    assert_int_equal(x->refusals + y->refusals, 0);
    assert_int_equal(memcmp(&x->state, &y->state, sizeof x->state), 0);

    /* And to a file and back. */
    FILE *const file = tmpfile();
    xosera_state back;
    assert_non_null(file);
    assert_int_equal(fwrite(&x->state, sizeof x->state, 1, file), 1);
    rewind(file);
    assert_int_equal(fread(&back, sizeof back, 1, file), 1);
    fclose(file);
    assert_int_equal(memcmp(&back, &y->state, sizeof back), 0);
    assert_accepted(x, &back);
    adapter_free(x);
    adapter_free(y);
}

/* Any words are in range, and served, or refused with 3. */
static void words_are_served_or_refused(const xosera *x, const uint16_t *words, int *served)
{
    xosera_state s;
    memcpy(&s, words, sizeof s);
    if (words_in_range(words)) {
        assert_accepted(x, &s);
        (*served)++;
    } else {
        assert_out_of_range(x, &s);
    }
}

static void random_words_are_served_or_refused(void **state)
{
    xosera *x = (xosera *)*state;
    const xosera_state starts[] = {idle_state(), mid_line_state(), running_at(0, 0, 0),
                                   running_at(20, 0, 0xBEEF), copper_state()};
    uint16_t words[XOSERA_STATE_WORDS];
    int served = 0;
    for (int round = 0; round < 3000; round++) {
        const int damaged = round % 4; /* 0: all of them */
        memcpy(words, &starts[round / 8 % 5], sizeof words);
        for (int i = 0; i < (damaged == 0 ? XOSERA_STATE_WORDS : damaged); i++) {
            const int which = damaged == 0 ? i : random_word() % XOSERA_STATE_WORDS;
            words[which] = round % 8 < 4 ? random_word() : telling[random_word() % TELLING];
        }
        words_are_served_or_refused(x, words, &served);
    }
    assert_in_range(served, 500, 2500);
}

int ranges_group(int *tests)
{
    const struct CMUnitTest list[] = {
        cmocka_unit_test(bytes_and_masks_have_their_bounds),
        cmocka_unit_test(an_idle_engine_is_all_0),
        cmocka_unit_test(a_running_engine_has_its_bounds),
        cmocka_unit_test(beam_and_copper_have_their_bounds),
        WITH_ADAPTER(all_other_words_are_free),
        WITH_ADAPTER(a_handle_full_of_anything_is_refused),
        cmocka_unit_test(equal_states_are_equal_memory),
        WITH_ADAPTER(random_words_are_served_or_refused),
    };
    return RUN_GROUP("ranges", list, tests);
}
