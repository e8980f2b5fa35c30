/* Each refusal but 3: its number, when it is given, and that nothing changes. test_ranges.c has 3.
 */
#include "tests.h"

static void refusal_1_vram_length(void **state)
{
    (void)state;
    xosera *x = adapter_new(2 * XOSERA_VRAM_MAX);
    start_blit(x, &(blit){.shift = 0xFF00, .words = 3}); /* refused too: the VRAM is too long */
    assert_int_equal(x->first_refused.why, XOSERA_VRAM_LENGTH);
    const size_t wrong[] = {0, 1, 128, 255, 257, 384, 511, 65535, 65537, 98304, 131072};
    for (size_t i = 0; i < sizeof wrong / sizeof wrong[0]; i++) {
        assert_refused(x, &x->state, wrong[i], XOSERA_XR_WORDS, XM_DATA, XOSERA_VRAM_LENGTH);
        assert_refused(x, &x->state, wrong[i], 0, 99, XOSERA_VRAM_LENGTH);
    }
    for (size_t i = 0; i < VRAM_LENGTHS; i++) {
        const xosera_write_answer a = xosera_write_byte(&x->state, x->vram, vram_lengths[i], x->xr,
                                                        XOSERA_XR_WORDS, XM_DATA, true, 0x5A);
        assert_int_equal(a.refusal, XOSERA_DONE);
    }
    adapter_free(x);
}

static void refusal_2_xr_length(void **state)
{
    (void)state;
    xosera *x = adapter_new(256);
    const size_t wrong[] = {0, 1, 512, 5120, 6144, 6655, 6657, 8192};
    x->xr_len = 8192;
    x->xr = (uint16_t *)realloc(x->xr, x->xr_len * sizeof *x->xr);
    assert_non_null(x->xr);
    fill(x->xr, x->xr_len, 5);
    for (size_t i = 0; i < sizeof wrong / sizeof wrong[0]; i++) {
        assert_refused(x, &x->state, 256, wrong[i], XM_XDATA, XOSERA_XR_LENGTH);
        x->state.status = 0xFF; /* out of range, and no such register: the lowest number is given */
        assert_refused(x, &x->state, 256, wrong[i], 99, XOSERA_XR_LENGTH);
        x->state.status = 0;
    }
    adapter_free(x);
}

static void refusal_4_register(void **state)
{
    (void)state;
    xosera *x = adapter_new(256);
    for (int reg = 16; reg < 256; reg++) {
        assert_refused(x, &x->state, 256, XOSERA_XR_WORDS, (uint8_t)reg, XOSERA_NO_REGISTER);
    }
    xosera_setw(x, 15, 0x1234);
    assert_int_equal(xosera_getw(x, 15), 0);
    assert_int_equal(x->refusals, 0);
    adapter_free(x);
}

static void refusal_5_blitter_full(void **state)
{
    (void)state;
    xosera *x = adapter_new(256);
    start_blit(x, &(blit){.shift = 0xFF00, .words = 3});
    start_blit(x, &(blit){.shift = 0xFF00, .words = 3});
    assert_int_equal(x->refusals, 0);
    for (int xaddr = 0x3E; xaddr <= 0x4C; xaddr++) {
        xosera_setw(x, XM_WR_XADDR, (uint16_t)xaddr);
        xosera_set_byte(x, XM_XDATA, false, 0x12); /* fills the latch, also while full */
        assert_int_equal(x->state.host.latch[XM_XDATA], 0x12);
        const xosera_state before = x->state;
        xosera_clear_refusals(x);
        xosera_set_byte(x, XM_XDATA, true, 0x34);
        if (0x40 <= xaddr && xaddr <= 0x49) {
            assert_int_equal(x->refusals, 1);
            assert_int_equal(x->first_refused.why, XOSERA_BLITTER_FULL);
            assert_state_equal(&x->state, &before);
        } else {
            assert_int_equal(x->refusals, 0);
            assert_int_equal(x->state.host.xr.wr_xaddr.word, xaddr + 1);
        }
    }
    adapter_free(x);
}

static void refusal_6_reconfigure(void **state)
{
    (void)state;
    xosera *x = adapter_new(256);
    xosera_set_byte(x, XM_INT_CTRL, false, 0x80); /* the even write is done */
    assert_int_equal(x->refusals, 0);
    const xosera_state before = x->state;
    xosera_set_byte(x, XM_INT_CTRL, true, 0x00);
    assert_int_equal(x->refusals, 1);
    assert_int_equal(x->first_refused.why, XOSERA_RECONFIGURE);
    assert_state_equal(&x->state, &before);
    xosera_set_byte(x, XM_INT_CTRL, false, 0x7F);
    xosera_set_byte(x, XM_INT_CTRL, true, 0x00);
    assert_int_equal(x->refusals, 1);
    assert_int_equal(x->state.host.int_mask, 0x7F);
    adapter_free(x);
}

/* The handle: the first refusal stays, all are counted, the hook hears of each. */

static void the_handle_keeps_the_first_refusal(void **state)
{
    (void)state;
    xosera *x = adapter_new(256);
    int heard = 0;
    x->on_refusal = add_refusal;
    x->user = &heard;
    assert_int_equal(x->first_refused.why, XOSERA_DONE);
    xosera_setw(x, XM_INT_CTRL, INT_CTRL_RECONFIG_F);
    xosera_set_byte(x, 16, true, 7);
    (void)xosera_get_byte(x, 17, false);
    assert_int_equal(x->refusals, 3);
    assert_int_equal(heard, XOSERA_RECONFIGURE + XOSERA_NO_REGISTER + XOSERA_NO_REGISTER);
    assert_int_equal(x->first_refused.why, XOSERA_RECONFIGURE);
    assert_int_equal(x->first_refused.call, XOSERA_CALL_WRITE);
    assert_int_equal(x->first_refused.reg, XM_INT_CTRL);
    assert_true(x->first_refused.odd);
    assert_int_equal(x->last_refused.why, XOSERA_NO_REGISTER);
    assert_int_equal(x->last_refused.call, XOSERA_CALL_READ);
    assert_int_equal(x->last_refused.reg, 17);
    xosera_clear_refusals(x);
    assert_int_equal(x->refusals, 0);
    assert_int_equal(x->first_refused.why, XOSERA_DONE);

    x->state.status = 0xFF;
    (void)xosera_step(x);
    (void)xosera_run(x, 1);
    xosera_tick(x);
    assert_int_equal(xosera_beam_pixel(x), 0);
    assert_int_equal(x->last_refused.call, XOSERA_CALL_BEAM_STEP);
    assert_false(xosera_line_up(x));
    assert_int_equal(x->refusals, 5);
    assert_int_equal(x->first_refused.call, XOSERA_CALL_STEP);
    assert_int_equal(x->last_refused.call, XOSERA_CALL_LINE);
    adapter_free(x);
}

static void a_hook_can_stop_the_test(void **state)
{
    (void)state;
    xosera *x = adapter_new(256);
    jmp_buf stopped;
    x->on_refusal = leap_on_refusal;
    x->user = &stopped;
    const int why = setjmp(stopped);
    if (why == 0) {
        xosera_setw(x, XM_INT_CTRL, INT_CTRL_RECONFIG_F);
        fail_msg("the access after the refusal was reached");
    }
    assert_int_equal(why, XOSERA_RECONFIGURE);
    assert_int_equal(x->refusals, 1);
    adapter_free(x);
}

static void a_refusal_names_its_line(void **state)
{
    xosera *x = (xosera *)*state;
    x->on_refusal = NULL;
    xm_setw(INT_CTRL, INT_CTRL_RECONFIG_F);
    assert_int_equal(x->first_refused.line, __LINE__ - 1);
    assert_string_equal(x->first_refused.file, __FILE__);
}

int refusals_group(int *tests)
{
    const struct CMUnitTest list[] = {
        cmocka_unit_test(refusal_1_vram_length),
        cmocka_unit_test(refusal_2_xr_length),
        cmocka_unit_test(refusal_4_register),
        cmocka_unit_test(refusal_5_blitter_full),
        cmocka_unit_test(refusal_6_reconfigure),
        cmocka_unit_test(the_handle_keeps_the_first_refusal),
        cmocka_unit_test(a_hook_can_stop_the_test),
        WITH_ADAPTER(a_refusal_names_its_line),
    };
    return RUN_GROUP("refusals", list, tests);
}
