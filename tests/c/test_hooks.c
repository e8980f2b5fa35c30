/* The hook that is told of every call, and the trace. */
#include "tests.h"

/* The calls that were told, one after another. */
enum { HEARD = 40 };
static xosera_access heard[HEARD];
static int heard_n;

static void hear(xosera *x, const xosera_access *what)
{
    (void)x;
    assert_true(heard_n < HEARD);
    heard[heard_n++] = *what;
}

static xosera *listening(void **state)
{
    xosera *x = (xosera *)*state;
    x->on_access = hear;
    heard_n = 0;
    return x;
}

static void a_word_is_two_bytes(void **state)
{
    xosera *x = listening(state);
    const int line = __LINE__ + 1;
    xm_setw(WR_ADDR, 0x1234), assert_int_equal(xm_getw(WR_ADDR), 0x1234);
    assert_null(x->file); /* no line of source beyond the access */
    assert_int_equal(heard_n, 4);
    for (int i = 0; i < 4; i++) {
        assert_int_equal(heard[i].call, i < 2 ? XOSERA_CALL_WRITE : XOSERA_CALL_READ);
        assert_int_equal(heard[i].reg, XM_WR_ADDR);
        assert_int_equal(heard[i].odd, i % 2);
        assert_int_equal(heard[i].byte, i % 2 == 0 ? 0x12 : 0x34);
        assert_int_equal(heard[i].refusal, XOSERA_DONE);
        assert_int_equal(heard[i].line, line);
        assert_string_equal(heard[i].file, __FILE__);
    }
}

static void answers_are_told(void **state)
{
    xosera *x = listening(state);
    const blit b = {BLIT_CTRL_S_CONST_F, 0, 0, 0, 0x5555, 0, 0x20, 0x7F00, 0, 9};
    x->on_access = NULL;
    start_blit(x, &b);
    xosera_setw(x, XM_SYS_CTRL, 0x5);
    x->on_access = hear;
    xosera_step(x);
    xosera_run(x, 4);
    xosera_ticks(x, 3);
    xosera_beam_pixels(x, 100);
    x->state.status = x->state.host.int_mask = 1;
    assert_true(xosera_line_up(x));
    xosera_set_byte(x, XM_DATA, true, 0xFF);
    const struct {
        xosera_call call;
        uint64_t n, count;
        uint8_t mask;
    } want[] = {{XOSERA_CALL_STEP, 1, 1, 0x7}, {XOSERA_CALL_RUN, 4, 4, 0xF},
                {XOSERA_CALL_TICK, 3, 3, 0},   {XOSERA_CALL_BEAM_STEP, 100, 100, 0},
                {XOSERA_CALL_LINE, 0, 0, 0},   {XOSERA_CALL_WRITE, 0, 0, 0x5}};
    assert_int_equal(heard_n, 6);
    for (int i = 0; i < 6; i++) {
        assert_int_equal(heard[i].call, want[i].call);
        assert_int_equal(heard[i].n, want[i].n);
        assert_int_equal(heard[i].count, want[i].count);
        assert_int_equal(heard[i].mask, want[i].mask);
        assert_int_equal(heard[i].up, i == 4);
        assert_false(heard[i].passing);
    }
}

/* The order in which hooks are told: digits, 1 of access, 2 of refusal. */
static void access_is_1(xosera *x, const xosera_access *what)
{
    *(int *)x->user = *(int *)x->user * 10 + 1;
    assert_int_equal(what->refusal, XOSERA_NO_REGISTER);
    assert_int_equal(x->refusals, 1); /* noted already: the hook may leave */
}

static void refusal_is_2(xosera *x, const xosera_refused *what)
{
    *(int *)x->user = *(int *)x->user * 10 + 2;
    assert_int_equal(what->why, XOSERA_NO_REGISTER);
}

/* A hook whose own call is refused, once. */
static void be_refused_too(xosera *x, const xosera_access *what)
{
    (void)what;
    x->on_access = NULL;
    (void)xosera_get_byte(x, 99, true);
}

static void the_first_refusal_is_the_firmwares(void **state)
{
    xosera *x = (xosera *)*state;
    x->on_refusal = NULL;
    x->on_access = be_refused_too;
    (void)xosera_get_byte(x, 16, true);
    assert_int_equal(x->refusals, 2);
    assert_int_equal(x->first_refused.reg, 16);
    assert_int_equal(x->last_refused.reg, 99);
}

static void access_is_told_before_its_refusal(void **state)
{
    xosera *x = (xosera *)*state;
    int order = 0;
    x->user = &order;
    x->on_access = access_is_1;
    x->on_refusal = refusal_is_2;
    assert_int_equal(xosera_get_byte(x, 16, true), 0);
    assert_int_equal(order, 12);
    assert_int_equal(x->refusals, 1);
}

/* A hook that looks at a register itself, by the board's name and by the handle. */
static int line_of_the_hook;

static void look_at_a_register(xosera *x, const xosera_access *what)
{
    if (what->call == XOSERA_CALL_WRITE) {
        x->on_access = hear;
        line_of_the_hook = __LINE__ + 1;
        (void)xm_getbh(SYS_CTRL);
        (void)xosera_get_byte(x, XM_SYS_CTRL, true);
        x->on_access = look_at_a_register;
    }
    heard[heard_n++] = *what;
}

static void a_hook_may_make_calls(void **state)
{
    xosera *x = listening(state);
    x->on_access = look_at_a_register;
    const int line = __LINE__ + 1;
    xm_setw(WR_ADDR, 0x1234);
    assert_int_equal(heard_n, 6);
    for (int i = 0; i < 6; i += 3) {
        assert_int_equal(heard[i].line, line_of_the_hook);
        assert_null(heard[i + 1].file); /* not the firmware's */
        assert_int_equal(heard[i + 2].call, XOSERA_CALL_WRITE);
        assert_int_equal(heard[i + 2].line, line);
    }
    (void)xosera_line_up(x);
    assert_int_equal(heard_n, 7);
    assert_null(heard[6].file);
}

static jmp_buf out_of_the_hook;

static void leave(xosera *x, const xosera_access *what)
{
    (void)what;
    x->on_access = hear;
    longjmp(out_of_the_hook, 1);
}

static void a_hook_may_leave(void **state)
{
    xosera *x = listening(state);
    x->on_access = leave;
    if (setjmp(out_of_the_hook) == 0) {
        xm_setw(WR_ADDR, 0x1234);
    }
    assert_int_equal(x->state.host.latch[XM_WR_ADDR], 0x12); /* behind the first byte */
    (void)xosera_line_up(x);
    assert_int_equal(heard_n, 1);
    assert_null(heard[0].file); /* the line was that of the access alone */
}

/* Whatever a hook's own calls are refused, a wait goes on. */
static void a_wait_ends_by_its_own_refusal_alone(void **state)
{
    xosera *x = (xosera *)*state;
    x->on_refusal = NULL;
    x->on_access = be_refused_too;
    x->beam_rate = xosera_per(1000, 1);
    xwait_vblank();
    assert_int_equal(x->refusals, 1);
    assert_in_range(x->state.beam.line, XOSERA_VISIBLE_LINES, XOSERA_VISIBLE_LINES + 2);
}

static void files_are_told(void **state)
{
    xosera *x = listening(state);
    assert_true(xosera_file_done(xosera_save_file(x, "build/hooks.saved")));
    assert_true(xosera_file_done(xosera_load_file(x, "build/hooks.saved")));
    assert_int_equal(remove("build/hooks.saved"), 0);
    assert_int_equal(heard_n, 2);
    assert_int_equal(heard[0].call, XOSERA_CALL_SAVE);
    assert_int_equal(heard[0].count, XOSERA_FILE_BYTES(1024));
    assert_int_equal(heard[1].call, XOSERA_CALL_LOAD);
}

/* What is traced of some calls. */
static void traced_calls(xosera *x)
{
    const blit b = {BLIT_CTRL_S_CONST_F, 0, 0, 0, 0x5555, 0, 0x20, 0x7F00, 0, 9};
    xosera_setw(x, XM_WR_ADDR, 0x1234);
    (void)xosera_get_byte(x, XM_WR_ADDR, false);
    xosera_setw(x, XM_WR_XADDR, XR_COLOR_ADDR + 1);
    xosera_setw(x, XM_XDATA, 0x0F0F);
    xosera_setw(x, XM_SYS_CTRL, 0x3);
    xosera_setw(x, XM_DATA, 0xBEEF);
    (void)xosera_get_byte(x, 300, true);
    x->trace = NULL;
    start_blit(x, &b);
    x->trace = (FILE *)x->user;
    xosera_step(x);
    x->blit_rate = xosera_per(2, 1);
    x->tick_rate = x->beam_rate = xosera_per(1, 1);
    (void)xosera_get_byte(x, XM_SYS_CTRL, false);
    x->blit_rate = x->tick_rate = x->beam_rate = xosera_per(0, 0);
    xosera_ticks(x, 3);
    xosera_beam_pixels(x, 100);
    (void)xosera_line_up(x);
}

static const char traced[] = "XM_WR_ADDR even <- 0x12\n"
                             "XM_WR_ADDR odd <- 0x34    XM_WR_ADDR = 0x1234\n"
                             "XM_WR_ADDR even -> 0x12\n"
                             "XM_WR_XADDR even <- 0x80\n"
                             "XM_WR_XADDR odd <- 0x01    XM_WR_XADDR = 0x8001\n"
                             "XM_XDATA even <- 0x0F\n"
                             "XM_XDATA odd <- 0x0F    colour memory, 0x8001 = 0x0F0F\n"
                             "XM_SYS_CTRL even <- 0x00\n"
                             "XM_SYS_CTRL odd <- 0x03    XM_SYS_CTRL = 0x0003\n"
                             "XM_DATA even <- 0xBE\n"
                             "XM_DATA odd <- 0xEF    VRAM, 0x0234 = 0xBEEF ..##\n"
                             "no register 300 odd -> 0x00    refused, 4: register number over 15\n"
                             "blit step: 1 of 1 words .###\n"
                             "XM_SYS_CTRL even -> 0x28\n"
                             "  passing: blit run: 2 of 2 words ####\n"
                             "timer tick: 3 of 3, timer 4\n"
                             "beam step: 100 of 100, line 0 position 101\n"
                             "line question: down\n";

static void a_trace_is_readable(void **state)
{
    xosera *x = (xosera *)*state;
    char text[2000];
    FILE *out = tmpfile();
    assert_non_null(out);
    x->on_refusal = NULL;
    x->user = out;
    xosera_trace_to(x, out);
    errno = EDOM;
    traced_calls(x);
    assert_int_equal(errno, EDOM); /* the test's own is as it was */
    xosera_trace_to(x, NULL);
    (void)xosera_line_up(x);
    rewind(out);
    text[fread(text, 1, sizeof text - 1, out)] = '\0';
    fclose(out);
    assert_string_equal(text, traced);
}

static void a_trace_has_the_line_of_source(void **state)
{
    xosera *x = (xosera *)*state;
    char text[200], want[200];
    FILE *out = tmpfile();
    assert_non_null(out);
    xosera_trace_to(x, out);
    snprintf(want, sizeof want, "%s:%d: XM_TIMER even -> 0x00\n", __FILE__, __LINE__ + 1);
    (void)xm_getbh(TIMER);
    xosera_trace_to(x, NULL);
    rewind(out);
    text[fread(text, 1, sizeof text - 1, out)] = '\0';
    fclose(out);
    assert_string_equal(text, want);
}

int hooks_group(int *tests)
{
    const struct CMUnitTest list[] = {
        WITH_ADAPTER(a_word_is_two_bytes),
        WITH_ADAPTER(answers_are_told),
        WITH_ADAPTER(the_first_refusal_is_the_firmwares),
        WITH_ADAPTER(access_is_told_before_its_refusal),
        WITH_ADAPTER(a_hook_may_make_calls),
        WITH_ADAPTER(a_hook_may_leave),
        WITH_ADAPTER(a_wait_ends_by_its_own_refusal_alone),
        WITH_ADAPTER(files_are_told),
        WITH_ADAPTER(a_trace_is_readable),
        WITH_ADAPTER(a_trace_has_the_line_of_source),
    };
    return RUN_GROUP("hooks and trace", list, tests);
}
