/* States compared and shown; pixels; register numbers that no byte holds. */
#include "tests.h"

/* Two states that differ in one word differ there and nowhere before. */
static void each_word_has_its_name(void **state)
{
    const xosera_state a = mid_line_state();
    (void)state;
    for (unsigned i = 0; i < XOSERA_STATE_WORDS; i++) {
        xosera_state b = a;
        const uint16_t word = xosera_state_get(&a, i);
        xosera_state_set(&b, i, (uint16_t)(word ^ 0x8001));
        assert_false(xosera_state_equal(&a, &b));
        const xosera_difference d = xosera_state_diff(&a, &b);
        assert_true(d.found);
        assert_int_equal(d.word, i);
        assert_int_equal(d.first, word);
        assert_int_equal(d.second, word ^ 0x8001);
        assert_string_equal(d.field, xosera_state_word(i).field);
        assert_string_equal(d.name, xosera_state_word(i).name);
        for (unsigned k = 0; k < i; k++) {
            assert_string_not_equal(xosera_state_word(k).field, d.field);
            assert_string_not_equal(xosera_state_word(k).name, d.name);
        }
    }
    assert_true(xosera_state_equal(&a, &a));
    assert_false(xosera_state_diff(&a, &a).found);
}

/* Some words by their fields, so that no table is only compared with itself. */
static void names_stand_for_the_fields(void **state)
{
    const xosera_state none = reset_state();
    xosera_state s;
    (void)state;
#define IS(change, by_field, by_name)                                                              \
    s = none;                                                                                      \
    change;                                                                                        \
    assert_string_equal(xosera_state_diff(&none, &s).field, by_field);                             \
    assert_string_equal(xosera_state_diff(&none, &s).name, by_name)
    IS(s.host.latch[XM_WR_ADDR] = 1, "host.latch[9]", "XM_WR_ADDR, latch");
    IS(s.host.xr.wr_xaddr.word = 1, "host.xr.wr_xaddr", "XM_WR_XADDR");
    IS(s.host.vram.rd_data = 1, "host.vram.rd_data", "XM_DATA, read buffer");
    IS(s.host.timer.interval = 1, "host.timer.interval", "XM_TIMER, interval");
    IS(s.host.int_mask = 1, "host.int_mask", "XM_INT_CTRL, interrupt mask");
    IS(s.queued = 1, "queued", "XM_SYS_CTRL, blitter full");
    IS(s.status = 1, "status", "XM_INT_CTRL, interrupt status");
    IS(s.engine.kept = 1, "engine.kept", "word kept in the shifter");
    IS(s.engine.regs.xor_ = 1, "engine.regs.xor_", "XR_BLIT_XOR of the running blit");
    IS(s.video.vid_right = 1, "video.vid_right", "XR_VID_RIGHT");
    IS(s.video.pa[XR_PA_LINE_LEN - XR_PA_GFX_CTRL] = 1, "video.pa[3]", "XR_PA_LINE_LEN");
    IS(s.video.pb[XR_PB_HV_FSCALE - XR_PB_GFX_CTRL] = 1, "video.pb[6]", "XR_PB_HV_FSCALE");
    IS(s.blit.words = 1, "blit.words", "XR_BLIT_WORDS");
    IS(s.beam.position = 1, "beam.position", "position of the beam");
#undef IS
}

static void a_state_is_printed(void **state)
{
    xosera_state s = reset_state();
    char text[500];
    FILE *out = tmpfile();
    (void)state;
    assert_non_null(out);
    xosera_state_print(out, &s);
    s.host.vram.wr_addr.word = 0x1234;
    s.video.vid_right = 0;
    xosera_state_print(out, &s);
    rewind(out);
    text[fread(text, 1, sizeof text - 1, out)] = '\0';
    fclose(out);
    assert_string_equal(text, "as after a reset\n"
                              "host.vram.wr_addr    0x1234  XM_WR_ADDR\n"
                              "video.vid_right      0x0000  XR_VID_RIGHT\n");
}

static void a_difference_is_a_sentence(void **state)
{
    const xosera_state a = reset_state();
    xosera_state b = a;
    char text[200];
    (void)state;
    xosera_difference_text(text, sizeof text, xosera_state_diff(&a, &b));
    assert_string_equal(text, "the states are equal");
    b.host.vram.wr_addr.word = 0x1234;
    xosera_difference_text(text, sizeof text, xosera_state_diff(&a, &b));
    assert_string_equal(text, "XM_WR_ADDR (host.vram.wr_addr) is 0x0000 in the first state and "
                              "0x1234 in the second");
}

static void pixels_count_from_the_left(void **state)
{
    xosera *x = (xosera *)*state;
    x->vram[0] = 0x1234;
    x->vram[1023] = 0xF00D;
    for (unsigned i = 0; i < 4; i++) {
        assert_int_equal(xosera_pixel(x, 0, i), i + 1);
    }
    assert_int_equal(xosera_pixel(x, 1023, 0), 0xF);
    assert_int_equal(xosera_pixel(x, 1023, 3), 0xD);
    assert_int_equal(xosera_pixel(x, 1023, 4), -1);
    assert_int_equal(xosera_pixel(x, 1024, 0), -1);
    assert_int_equal(xosera_pixel(x, UINT64_MAX, 0), -1);
}

/* Numbers that a byte would cut to a register. */
static void no_number_reaches_another_register(void **state)
{
    static const uint64_t numbers[] = {16,
                                       255,
                                       256,
                                       265,
                                       65535,
                                       65536,
                                       UINT32_MAX,
                                       (uint64_t)UINT32_MAX + 1,
                                       UINT64_MAX - 1,
                                       UINT64_MAX};
    xosera *x = (xosera *)*state;
    x->on_refusal = NULL;
    for (size_t i = 0; i < sizeof numbers / sizeof numbers[0]; i++) {
        const xosera_state before = x->state;
        xosera_clear_refusals(x);
        xosera_setl(x, numbers[i], 0x12345678);
        assert_int_equal(x->refusals, 4);
        assert_int_equal(xosera_getl(x, numbers[i]), 0);
        assert_int_equal(x->refusals, 8);
        assert_int_equal(x->first_refused.why, XOSERA_NO_REGISTER);
        assert_int_equal(x->first_refused.reg,
                         numbers[i] < UINT_MAX ? (unsigned)numbers[i] : UINT_MAX);
        assert_state_equal(&x->state, &before);
    }
    xosera_clear_refusals(x);
    xosera_setl(x, 15, 0x12345678); /* the second word has no register */
    assert_int_equal(x->refusals, 2);
    assert_int_equal(x->first_refused.reg, 16);
}

static void a_message_is_cut_to_its_buffer(void **state)
{
    xosera *x = (xosera *)*state;
    volatile size_t ten = 10; /* gcc warns of a size so small where it knows it */
    char text[200];
    x->on_refusal = NULL;
    xosera_setw(x, 256, 7);
    xosera_refusal_message(text, sizeof text, &x->first_refused);
    assert_string_equal(text,
                        "even byte of register 256: write refused, 4: register number over 15");
    memset(text, 'x', sizeof text);
    xosera_refusal_message(text, ten, &x->first_refused);
    assert_string_equal(text, "even byte");
    assert_int_equal(text[10], 'x');
    x->file = "draw.c";
    x->line = 57;
    x->vram_len = 100;
    xosera_step(x);
    x->vram_len = 1024;
    xosera_refusal_message(text, sizeof text, &x->last_refused);
    assert_string_equal(text,
                        "draw.c:57: blit step refused, 1: VRAM length is no power of two from "
                        "256 to 65536");
}

int state_group(int *tests)
{
    const struct CMUnitTest list[] = {
        cmocka_unit_test(each_word_has_its_name),
        cmocka_unit_test(names_stand_for_the_fields),
        cmocka_unit_test(a_state_is_printed),
        cmocka_unit_test(a_difference_is_a_sentence),
        WITH_ADAPTER(pixels_count_from_the_left),
        WITH_ADAPTER(no_number_reaches_another_register),
        WITH_ADAPTER(a_message_is_cut_to_its_buffer),
    };
    return RUN_GROUP("state helpers", list, tests);
}
