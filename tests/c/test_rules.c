/* Rules that are easily got wrong: document 01's "Errors that look right", the shifter from line to
 * line (document 02, request 4), and the edges of the XR space. */
#include "tests.h"

enum { SOURCE = 0x40, TARGET = 0x80 };

static void colour_is_tested_on_the_source(void **state)
{
    xosera *x = (xosera *)*state;
    x->vram[TARGET] = 0xFFFF;
    /* S is 1234, the result 1034: T 22 holds back the nibble 2, though the result has none. */
    start_blit(x, &(blit){.ctrl = MAKE_BLIT_CTRL(0x22, 0, 1, 1),
                          .andc = 0x0F00,
                          .src_s = 0x1234,
                          .dst_d = TARGET,
                          .shift = 0xFF00});
    xwait_blit_done();
    assert_int_equal(x->vram[TARGET], 0x1F34);
}

static void colour_is_tested_on_the_shifted_word(void **state)
{
    xosera *x = (xosera *)*state;
    x->vram[SOURCE] = 0x1200;
    x->vram[TARGET] = 0xFFFF;
    /* Shifted by one the word is 0120: T 10 is held against its nibbles in turn, 1 0 1 0. */
    start_blit(x, &(blit){.ctrl = MAKE_BLIT_CTRL(0x10, 0, 1, 0),
                          .src_s = SOURCE,
                          .dst_d = TARGET,
                          .shift = MAKE_BLIT_SHIFT(0xF, 0xF, 1)});
    xwait_blit_done();
    assert_int_equal(x->vram[TARGET], 0x012F);
}

static void a_constant_is_not_shifted(void **state)
{
    xosera *x = (xosera *)*state;
    for (int shift = 0; shift < 4; shift++) {
        start_blit(x, &(blit){.ctrl = BLIT_CTRL_S_CONST_F,
                              .src_s = 0x1234,
                              .dst_d = TARGET,
                              .shift = MAKE_BLIT_SHIFT(0xF, 0xF, shift),
                              .words = 1});
        assert_int_equal(xosera_step(x), 1);
        assert_int_equal(x->state.engine.kept, 0);
        xwait_blit_done();
        assert_int_equal(x->vram[TARGET], 0x1234);
        assert_int_equal(x->vram[TARGET + 1], 0x1234);
    }
}

static void the_word_before_is_kept_at_any_shift(void **state)
{
    xosera *x = (xosera *)*state;
    for (int shift = 0; shift < 4; shift++) {
        x->vram[SOURCE] = 0xABCD;
        start_blit(x, &(blit){.src_s = SOURCE,
                              .dst_d = TARGET,
                              .shift = MAKE_BLIT_SHIFT(0xF, 0xF, shift),
                              .words = 1});
        assert_int_equal(xosera_step(x), 1);
        assert_int_equal(x->state.engine.kept, 0xABCD);
        xwait_blit_done();
    }
}

/* Word i of the words at SOURCE, shifted as one long line. */
static uint16_t in_one_line(const xosera *x, int i, int shift)
{
    const uint32_t before = i > 0 ? x->vram[SOURCE + i - 1] : 0;
    return (uint16_t)((before << 16 | x->vram[SOURCE + i]) >> 4 * shift);
}

/* With modulos 0 and masks open, a blit of lines is shifted as one long line, in single steps and
 * in a run. */
static void the_shifter_goes_on_from_line_to_line(void **state)
{
    xosera *x = (xosera *)*state;
    for (int shift = 0; shift < 4; shift++) {
        for (uint16_t words = 0; words < 4; words++) {
            const blit b = {.src_s = SOURCE,
                            .dst_d = TARGET,
                            .shift = MAKE_BLIT_SHIFT(0xF, 0xF, shift),
                            .lines = 2,
                            .words = words};
            const int all = 3 * (words + 1);
            start_blit(x, &b);
            for (int i = 0; i < all; i++) {
                assert_int_equal(x->state.engine.kept, i > 0 ? x->vram[SOURCE + i - 1] : 0);
                assert_int_equal(xosera_step(x), 1);
                assert_int_equal(x->vram[TARGET + i], in_one_line(x, i, shift));
            }
            assert_int_equal(x->state.engine.kept, 0);
            memset(x->vram + TARGET, 0, (size_t)all * sizeof x->vram[0]);
            start_blit(x, &b);
            assert_int_equal(xosera_run(x, UINT64_MAX), all);
            for (int i = 0; i < all; i++) {
                assert_int_equal(x->vram[TARGET + i], in_one_line(x, i, shift));
            }
        }
    }
}

static void a_queued_blit_starts_with_an_empty_shifter(void **state)
{
    xosera *x = (xosera *)*state;
    const uint16_t shift = MAKE_BLIT_SHIFT(0xF, 0xF, 1);
    x->vram[SOURCE] = 0x1234;
    x->vram[SOURCE + 1] = 0x5678;
    start_blit(x, &(blit){.src_s = SOURCE, .dst_d = TARGET, .shift = shift});
    start_blit(x, &(blit){.src_s = SOURCE + 1, .dst_d = TARGET + 1, .shift = shift});
    xwait_blit_done();
    assert_int_equal(x->vram[TARGET], 0x0123);
    assert_int_equal(x->vram[TARGET + 1], 0x0567);
}

/* A word kept from the line before, and then a constant. */
static void a_constant_empties_the_shifter(void **state)
{
    xosera *x = (xosera *)*state;
    x->state = mid_line_state();
    x->state.engine.word = 0;
    x->state.engine.regs.ctrl = BLIT_CTRL_S_CONST_F;
    assert_int_equal(x->state.engine.kept, 0xBEEF);
    assert_int_equal(xosera_step(x), 1);
    assert_int_equal(x->state.engine.kept, 0);
}

static void blits_wrap_at_the_end_of_vram(void **state)
{
    xosera *x = (xosera *)*state;
    const uint16_t end = (uint16_t)(x->vram_len - 1);
    start_blit(x, &(blit){.ctrl = BLIT_CTRL_S_CONST_F,
                          .src_s = 0x5A5A,
                          .dst_d = end,
                          .shift = 0xFF00,
                          .words = 1});
    xwait_blit_done();
    assert_int_equal(x->vram[end], 0x5A5A);
    assert_int_equal(x->vram[0], 0x5A5A);
    vram_setw(0xFFFF, 0x1234); /* an address is taken modulo the length, and stored whole */
    assert_int_equal(x->vram[end], 0x1234);
    assert_int_equal(xm_getw(WR_ADDR), 0xFFFF);
}

/* The word of XR memory at an XR address, or NULL where there is none. */
static uint16_t *xr_word(const xosera *x, unsigned xaddr)
{
    if (0x4000 <= xaddr && xaddr <= 0x53FF) {
        return x->xr + (xaddr - 0x4000);
    }
    if (0x8000 <= xaddr && xaddr <= 0x81FF) {
        return x->xr + 5120 + (xaddr - 0x8000);
    }
    if (0xC000 <= xaddr && xaddr <= 0xC3FF) {
        return x->xr + 5632 + (xaddr - 0xC000);
    }
    return NULL;
}

/* From 0x50 on there is nothing but the three memories: every address is written and read. */
static void xr_memories_end_where_they_should(void **state)
{
    xosera *x = (xosera *)*state;
    uint16_t *want = (uint16_t *)malloc(XOSERA_XR_WORDS * sizeof *want);
    assert_non_null(want);
    memcpy(want, x->xr, XOSERA_XR_WORDS * sizeof *want);
    xm_setw(SYS_CTRL, 0x0000); /* the nibble mask does not apply */
    for (unsigned xaddr = 0x50; xaddr <= 0xFFFF; xaddr++) {
        const uint16_t *const word = xr_word(x, xaddr), value = (uint16_t)(xaddr * 3 + 1);
        xmem_setw(xaddr, value);
        assert_int_equal(xmem_getw(xaddr), word != NULL ? value : 0);
        if (word != NULL) {
            want[word - x->xr] = value;
        }
    }
    assert_memory_equal(x->xr, want, XOSERA_XR_WORDS * sizeof *want);
    assert_int_equal(x->state.host.xr.wr_xaddr.word, 0x0000);
    free(want);
}

int rules_group(int *tests)
{
    const struct CMUnitTest list[] = {
        WITH_ADAPTER(colour_is_tested_on_the_source),
        WITH_ADAPTER(colour_is_tested_on_the_shifted_word),
        WITH_ADAPTER(a_constant_is_not_shifted),
        WITH_ADAPTER(the_word_before_is_kept_at_any_shift),
        WITH_ADAPTER(the_shifter_goes_on_from_line_to_line),
        WITH_ADAPTER(a_queued_blit_starts_with_an_empty_shifter),
        WITH_ADAPTER(a_constant_empties_the_shifter),
        WITH_ADAPTER(blits_wrap_at_the_end_of_vram),
        WITH_ADAPTER(xr_memories_end_where_they_should),
    };
    return RUN_GROUP("rules", list, tests);
}
