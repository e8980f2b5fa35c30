#define _POSIX_C_SOURCE 200809L
#include <sys/wait.h>
#include <unistd.h>

#include "tests.h"

static void fail_test(xosera *x, const xosera_refused *what)
{
    (void)x;
    fail_msg("%s:%d: call %d refused at register %d: %s", what->file != NULL ? what->file : "",
             what->line, (int)what->call, (int)what->reg, xosera_refusal_text(what->why));
}

void add_refusal(xosera *x, const xosera_refused *what)
{
    *(int *)x->user += (int)what->why;
}

void leap_on_refusal(xosera *x, const xosera_refused *what)
{
    longjmp(*(jmp_buf *)x->user, (int)what->why);
}

const size_t vram_lengths[VRAM_LENGTHS] = {256, 512, 1024, 2048, 4096, 8192, 16384, 32768, 65536};

void fill(uint16_t *words, size_t n, uint16_t seed)
{
    for (size_t i = 0; i < n; i++) {
        words[i] = (uint16_t)((i + seed) * 40503u);
    }
}

uint16_t random_word(void)
{
    static uint32_t seed = 1;
    seed = seed * 1664525u + 1013904223u;
    return (uint16_t)(seed >> 16);
}

xosera *adapter_new(size_t vram_len)
{
    xosera *x = (xosera *)malloc(sizeof *x);
    uint16_t *vram = (uint16_t *)malloc(vram_len * sizeof *vram);
    uint16_t *xr = (uint16_t *)malloc(XOSERA_XR_WORDS * sizeof *xr);
    assert_true(x != NULL && vram != NULL && xr != NULL);
    fill(vram, vram_len, 1);
    fill(xr, XOSERA_XR_WORDS, 77);
    xosera_attach(x, vram, vram_len, xr, XOSERA_XR_WORDS);
    return x;
}

void adapter_free(xosera *x)
{
    free(x->vram);
    free(x->xr);
    free(x);
}

xosera_state reset_state(void)
{
    xosera_state s;
    xosera_reset(&s);
    return s;
}

/* Words `from` to `to` of the state, all different. */
static void fill_words(xosera_state *s, int from, int to)
{
    uint16_t words[XOSERA_STATE_WORDS];
    memcpy(words, s, sizeof words);
    fill(words + from, (size_t)(to - from + 1), (uint16_t)(from + 1));
    memcpy(s, words, sizeof words);
}

xosera_state idle_state(void)
{
    xosera_state s = reset_state();
    for (int reg = 0; reg < XOSERA_MAIN_REGS; reg++) {
        s.host.latch[reg] = (uint16_t)(0x71 + reg);
    }
    fill_words(&s, 16, 23); /* both ports */
    s.host.timer.count = 0x1234;
    s.host.timer.saved = 0x56;
    s.host.int_mask = 0x7F;
    s.status = 0x7F;
    fill_words(&s, 46, 74); /* video and blit */
    return s;
}

xosera_state mid_line_state(void)
{
    xosera_state s = idle_state();
    s.host.timer.countdown = s.host.timer.interval = 300;
    s.queued = 1;
    s.engine.running = 1;
    fill_words(&s, 36, 45); /* the engine's copies */
    s.engine.line = 10;
    s.engine.word = 30;
    s.engine.kept = 0xBEEF;
    s.engine.regs.lines = 20;
    s.engine.regs.words = 40;
    return s;
}

xosera_state copper_state(void)
{
    xosera_state s = mid_line_state();
    s.video.copp_ctrl = 0x8765;
    s.beam.line = 100;
    s.beam.position = 200;
    s.beam.copper_running = 1;
    s.beam.copper_word = 10;
    return s;
}

bool at_rest(const xosera_state *s)
{
    return s->beam.line == 0 && s->beam.position == 0 && s->beam.copper_running == 0 &&
           s->beam.copper_word == 0;
}

void set_beam(xosera *x, uint16_t line, uint16_t position)
{
    x->state.beam.line = line;
    x->state.beam.position = position;
}

bool words_in_range(const uint16_t *w)
{
    bool bytes = w[28] <= 255, idle_engine = true;
    for (int i = 0; i < 16; i++) {
        bytes = bytes && w[i] <= 255;
    }
    for (int i = 33; i < 46; i++) {
        idle_engine = idle_engine && w[i] == 0;
    }
    const bool masks = w[24] <= 15 && w[29] <= 127 && w[31] <= 127;
    const bool countdown = (1 <= w[26] && w[26] <= w[27]) || (w[26] == 0 && w[27] == 0);
    const bool flags = w[30] <= 1 && w[32] <= 1 && w[30] <= w[32];
    const bool engine = w[32] == 0 ? idle_engine
                                   : w[33] <= w[44] && w[34] <= w[45] && w[44] <= 32767 &&
                                         (w[33] != 0 || w[34] != 0 || w[35] == 0);
    const bool beam = w[75] < 525 && w[76] < 800;
    const bool copper = w[77] == 0 ? w[78] == 0 : w[77] == 1 && w[47] >= 0x8000 && w[78] < 1024;
    return bytes && masks && countdown && flags && engine && beam && copper;
}

static uint16_t *copy_of(const uint16_t *words, size_t n)
{
    uint16_t *copy = (uint16_t *)malloc(n * sizeof *copy);
    assert_non_null(copy);
    memcpy(copy, words, n * sizeof *copy);
    return copy;
}

xosera *adapter_copy(const xosera *x)
{
    xosera *y = (xosera *)malloc(sizeof *y);
    assert_non_null(y);
    *y = *x;
    y->vram = copy_of(x->vram, x->vram_len);
    y->xr = copy_of(x->xr, x->xr_len);
    return y;
}

void assert_adapter_equal(const xosera *got, const xosera *want)
{
    assert_state_equal(&got->state, &want->state);
    assert_int_equal(got->vram_len, want->vram_len);
    assert_int_equal(got->xr_len, want->xr_len);
    assert_memory_equal(got->vram, want->vram, want->vram_len * sizeof *want->vram);
    assert_memory_equal(got->xr, want->xr, want->xr_len * sizeof *want->xr);
}

/* Save and load, to a room too short and from bytes that are no saved adapter: 1 to 3 come first.
 */
static void assert_file_refused(const xosera *x, const xosera_state *s, size_t vram_len,
                                size_t xr_len, xosera_refusal want)
{
    uint8_t bytes[4] = {3, 1, 0, 0};
    const uint8_t before[4] = {3, 1, 0, 0};
    xosera_state t = *s;
    const xosera_save_answer a =
        xosera_save(&t, x->vram, vram_len, x->xr, xr_len, bytes, sizeof bytes);
    assert_int_equal(a.refusal, want);
    assert_int_equal(a.length, 0);
    assert_state_equal(&t, s);
    assert_memory_equal(bytes, before, sizeof bytes);
    assert_int_equal(xosera_load(&t, x->vram, vram_len, x->xr, xr_len, bytes, sizeof bytes).refusal,
                     want);
    assert_state_equal(&t, s);
}

/* Paints of a line that is none, to one pixel: 1 to 3 come first. */
static void assert_paint_refused(const xosera *x, const xosera_state *s, size_t vram_len,
                                 size_t xr_len, xosera_refusal want)
{
    uint16_t pixel = 0xA5A5;
    const xosera_state t = *s;
    assert_int_equal(
        xosera_paint(&t, x->vram, vram_len, x->xr, xr_len, UINT32_MAX, &pixel, 1).refusal, want);
    assert_int_equal(
        xosera_paint_grey(&t, x->vram, vram_len, x->xr, xr_len, UINT32_MAX, &pixel, 1).refusal,
        want);
    assert_state_equal(&t, s);
    assert_int_equal(pixel, 0xA5A5);
}

/* The calls that are lent the state alone. */
static void assert_state_refused(const xosera_state *s)
{
    xosera_state t = *s;
    assert_int_equal(xosera_timer_tick(&t).refusal, XOSERA_STATE_RANGE);
    assert_state_equal(&t, s);
    const xosera_line_answer l = xosera_interrupt_line(&t);
    assert_int_equal(l.refusal, XOSERA_STATE_RANGE);
    assert_false(l.up);
    assert_state_equal(&t, s);
}

static void assert_blit_refused(xosera_blit_answer a, xosera_refusal want)
{
    assert_int_equal(a.refusal, want);
    assert_int_equal(a.count, 0);
    assert_int_equal(a.mask, 0);
}

void assert_refused(const xosera *x, const xosera_state *s, size_t vram_len, size_t xr_len,
                    uint8_t reg, xosera_refusal want)
{
    uint16_t *const vram = copy_of(x->vram, x->vram_len), *const xr = copy_of(x->xr, x->xr_len);
    xosera_state t = *s;
    for (int odd = 0; odd < 2; odd++) {
        const xosera_write_answer w =
            xosera_write_byte(&t, x->vram, vram_len, x->xr, xr_len, reg, odd != 0, 0xA5);
        assert_int_equal(w.refusal, want);
        assert_int_equal(w.mask, 0);
        assert_state_equal(&t, s);
        const xosera_read_answer r =
            xosera_read_byte(&t, x->vram, vram_len, x->xr, xr_len, reg, odd != 0);
        assert_int_equal(r.refusal, want);
        assert_int_equal(r.byte, 0);
        assert_state_equal(&t, s);
    }
    if (want <= XOSERA_STATE_RANGE) {
        assert_blit_refused(xosera_blit_step(&t, x->vram, vram_len, x->xr, xr_len), want);
        assert_state_equal(&t, s);
        assert_blit_refused(xosera_blit_run(&t, x->vram, vram_len, x->xr, xr_len, 1000), want);
        assert_state_equal(&t, s);
        assert_int_equal(xosera_beam_step(&t, x->vram, vram_len, x->xr, xr_len).refusal, want);
        assert_state_equal(&t, s);
        assert_file_refused(x, s, vram_len, xr_len, want);
        assert_paint_refused(x, s, vram_len, xr_len, want);
    }
    if (want == XOSERA_STATE_RANGE) {
        assert_state_refused(s);
    }
    assert_memory_equal(x->vram, vram, x->vram_len * sizeof *vram);
    assert_memory_equal(x->xr, xr, x->xr_len * sizeof *xr);
    free(vram);
    free(xr);
}

int adapter_setup(void **state)
{
    xosera *x = adapter_new(1024);
    x->on_refusal = fail_test;
    xosera_use(x);
    *state = x;
    return 0;
}

int adapter_teardown(void **state)
{
    xosera_use(NULL);
    adapter_free((xosera *)*state);
    return 0;
}

void start_blit(xosera *x, const blit *b)
{
    const uint16_t regs[10] = {b->ctrl,  b->andc,  b->xor_,  b->mod_s, b->src_s,
                               b->mod_d, b->dst_d, b->shift, b->lines, b->words};
    xosera_setw(x, XM_WR_XADDR, XR_BLIT_CTRL);
    for (int i = 0; i < 10; i++) {
        xosera_setw(x, XM_XDATA, regs[i]);
    }
}

bool aborts_with(void (*run)(xosera *x), xosera *x, char *text, size_t size)
{
    int ends[2], status = 0;
    assert_int_equal(pipe(ends), 0);
    const pid_t child = fork();
    assert_true(child >= 0);
    if (child == 0) {
        (void)dup2(ends[1], STDERR_FILENO);
        run(x);
        _exit(0);
    }
    (void)close(ends[1]);
    FILE *in = fdopen(ends[0], "r");
    assert_non_null(in);
    const size_t length = fread(text, 1, size - 1, in);
    text[length] = '\0';
    fclose(in);
    assert_int_equal(waitpid(child, &status, 0), child);
    return WIFSIGNALED(status) && WTERMSIG(status) == SIGABRT;
}
