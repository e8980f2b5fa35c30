/* Why a nibble is as it is: the call, held against single steps; its answer as a sentence; the
 * question asked of a handle. */
#include <stdbool.h>
#include <stddef.h>
#include <stdlib.h>

/* malloc as xosera/why.h sees it in this file: how many bytes it was asked for, and whether it has
 * them. */
static size_t bytes_asked;
static bool no_memory;

static void *try_malloc(size_t size)
{
    bytes_asked = size;
    return no_memory ? NULL : malloc(size);
}

#define malloc(size) try_malloc(size)
#include "xosera/why.h"
#undef malloc

#include "tests.h"

enum { SOURCE = 0x40, TARGET = 0x80 };
enum { FIRST = 1, LAST = 2, COLOUR = 4, REASONS = 8 /* sets of them */ };
enum { CONSTANT = BLIT_CTRL_S_CONST_F, TEST = BLIT_CTRL_TRANSP_F, OPEN = 0xFF00 };

static xosera_blit_regs regs_of(const blit *b)
{
    return (xosera_blit_regs){b->ctrl,  b->andc,  b->xor_,  b->mod_s, b->src_s,
                              b->mod_d, b->dst_d, b->shift, b->lines, b->words};
}

static size_t vram_bytes(const xosera *x)
{
    return x->vram_len * sizeof x->vram[0];
}

/* Ask about a blit over the VRAM of an idle adapter, with words of any kind in the second memory:
 * it ends as the blit leaves VRAM, and the memory before is only read. */
static xosera_why_answer ask(const xosera *x, const blit *b, uint32_t address, uint32_t nibble)
{
    xosera *const before = adapter_copy(x), *const work = adapter_copy(x),
                  *const done = adapter_copy(x);
    fill(work->vram, work->vram_len, 0xA5);
    start_blit(done, b);
    (void)xosera_run(done, UINT64_MAX);
    const xosera_why_answer a = xosera_why(regs_of(b), before->vram, before->vram_len, work->vram,
                                           work->vram_len, address, nibble);
    assert_memory_equal(work->vram, done->vram, vram_bytes(x));
    assert_memory_equal(before->vram, x->vram, vram_bytes(x));
    adapter_free(before);
    adapter_free(work);
    adapter_free(done);
    return a;
}

static unsigned reasons_of(xosera_why_answer a)
{
    return (a.first_mask ? FIRST : 0u) | (a.last_mask ? LAST : 0u) | (a.colour_test ? COLOUR : 0u);
}

static void assert_told(xosera_why_answer a, xosera_fate fate, unsigned reasons, unsigned line,
                        unsigned word)
{
    assert_int_equal(a.refusal, XOSERA_DONE);
    assert_int_equal(a.fate, fate);
    assert_int_equal(reasons_of(a), reasons);
    assert_int_equal(a.line, line);
    assert_int_equal(a.word, word);
}

static void assert_never(xosera_why_answer a)
{
    assert_told(a, XOSERA_NEVER_REACHED, 0, 0, 0);
}

static void assert_held(xosera_why_answer a, unsigned reasons)
{
    assert_told(a, XOSERA_HELD_BACK, reasons, 0, 0);
}

static void assert_written(xosera_why_answer a, unsigned line, unsigned word)
{
    assert_told(a, XOSERA_WRITTEN, 0, line, word);
}

/* Held back by these; by none: written. */
static void assert_held_or_written(xosera_why_answer a, unsigned reasons, unsigned line,
                                   unsigned word)
{
    if (reasons != 0) {
        assert_held(a, reasons);
    } else {
        assert_written(a, line, word);
    }
}

/* Three lines of two words, two words apart. */
static void each_word_has_its_line_and_word(void **state)
{
    const xosera *x = (xosera *)*state;
    const blit b = {CONSTANT, 0, 0, 0, 0x5555, 2, TARGET, OPEN, 2, 1};
    for (unsigned i = 0; i < 16; i++) {
        const unsigned line = i / 4, word = i % 4;
        for (unsigned nibble = 0; nibble < 4; nibble++) {
            const xosera_why_answer a = ask(x, &b, TARGET + i, nibble);
            if (line < 3 && word < 2) {
                assert_written(a, line, word);
            } else {
                assert_never(a);
            }
        }
    }
    assert_never(ask(x, &b, TARGET - 1, 3));
    assert_never(ask(x, &b, 0, 0));
    assert_never(ask(x, &b, 1023, 3));
}

/* On a one-word line all three may apply, and both masks do. */
static void all_reasons_are_given(void **state)
{
    for (unsigned reasons = 0; reasons < REASONS; reasons++) {
        const unsigned colour = (reasons & COLOUR) != 0 ? 0x55 : 0x66;
        const unsigned first = (reasons & FIRST) != 0 ? 0 : 0xF;
        const unsigned last = (reasons & LAST) != 0 ? 0 : 0xF;
        const blit b = {.ctrl = MAKE_BLIT_CTRL(colour, 0, 1, 1),
                        .src_s = 0x5555,
                        .dst_d = TARGET,
                        .shift = MAKE_BLIT_SHIFT(first, last, 0)};
        for (unsigned nibble = 0; nibble < 4; nibble++) {
            assert_held_or_written(ask((xosera *)*state, &b, TARGET, nibble), reasons, 0, 0);
        }
    }
}

static bool has_nibble(unsigned mask, unsigned nibble)
{
    return (mask & 8u >> nibble) != 0;
}

/* Each mask on its word of a line, and each bit of it on its nibble. */
static void a_mask_holds_its_nibbles_on_its_word(void **state)
{
    for (unsigned first = 0; first < 16; first++) {
        const unsigned last = first ^ 0x6, words = first % 3 + 1;
        const blit b = {.ctrl = CONSTANT,
                        .dst_d = TARGET,
                        .shift = MAKE_BLIT_SHIFT(first, last, 3),
                        .words = (uint16_t)(words - 1)};
        for (unsigned i = 0; i < 4 * words; i++) {
            const unsigned word = i / 4, nibble = i % 4;
            const bool by_first = word == 0 && !has_nibble(first, nibble);
            const bool by_last = word == words - 1 && !has_nibble(last, nibble);
            assert_held_or_written(ask((xosera *)*state, &b, TARGET + word, nibble),
                                   (by_first ? FIRST : 0u) | (by_last ? LAST : 0u), 0, word);
        }
    }
}

/* One word: the colour test lets these nibbles through. */
typedef struct tested {
    blit b;
    unsigned mask;
} tested;

static void the_colour_test_holds_nibbles_or_bytes(void **state)
{
    static const tested list[] = {
        {{.ctrl = 0x0A11, .src_s = 0x0B0A}, 0x4},
        {{.ctrl = 0x0A31, .src_s = 0x0B0A}, 0xC},
        {{.ctrl = 0x1211, .src_s = 0x1212}, 0x0},
        {{.ctrl = 0x1211, .src_s = 0x2121}, 0xF},
        {{.ctrl = 0x1211, .src_s = 0x1318}, 0x5},
        {{.ctrl = 0x1231, .src_s = 0x1221}, 0x3},
        {{.ctrl = 0x1231, .src_s = 0x1318}, 0xF},
        {{.ctrl = 0x1221, .src_s = 0x1212}, 0xF},                 /* no test by bit 5 alone */
        {{.ctrl = 0x12CF, .src_s = 0x1212}, 0xF},                 /* nor by any other bit */
        {{.ctrl = 0x12DF, .src_s = 0x1212}, 0x0},                 /* which change nothing else */
        {{.ctrl = 0x2211, .src_s = 0x1234, .andc = 0x0F00}, 0xB}, /* of S, not of the result */
        {{.ctrl = 0x0011, .src_s = 0x1234, .andc = 0xFFFF}, 0xF},
        {{.ctrl = 0x0011, .src_s = 0x0000, .xor_ = 0x1111}, 0x0},
    };
    for (size_t i = 0; i < sizeof list / sizeof list[0]; i++) {
        blit b = list[i].b;
        b.dst_d = TARGET;
        b.shift = OPEN | 0xFC; /* bits 7:2 change nothing */
        for (unsigned nibble = 0; nibble < 4; nibble++) {
            assert_held_or_written(ask((xosera *)*state, &b, TARGET, nibble),
                                   has_nibble(list[i].mask, nibble) ? 0 : COLOUR, 0, 0);
        }
    }
}

/* 1234 and 5678, shifted by one nibble, are 0123 and 4567 on one line and on two. */
static void the_colour_test_is_behind_the_shifter(void **state)
{
    xosera *x = (xosera *)*state;
    x->vram[SOURCE] = 0x1234;
    x->vram[SOURCE + 1] = 0x5678;
    for (uint16_t lines = 0; lines < 2; lines++) {
        const blit b = {.ctrl = MAKE_BLIT_CTRL(0x41, 0, 1, 0),
                        .src_s = SOURCE,
                        .dst_d = TARGET,
                        .shift = OPEN | 1,
                        .lines = lines,
                        .words = lines == 0 ? 1 : 0};
        assert_written(ask(x, &b, TARGET, 0), 0, 0);
        assert_held(ask(x, &b, TARGET, 1), COLOUR);
        assert_held(ask(x, &b, TARGET + 1, 0), COLOUR); /* the 4 of the word before */
        assert_written(ask(x, &b, TARGET + 1, 1), lines, lines == 0 ? 1 : 0);
    }
}

/* Two lines of one word each, to the same word, without the nibbles 0. */
static blit twice(void)
{
    return (blit){
        .ctrl = TEST, .src_s = SOURCE, .mod_d = 0xFFFF, .dst_d = TARGET, .shift = OPEN, .lines = 1};
}

static void one_write_is_enough(void **state)
{
    xosera *x = (xosera *)*state;
    const blit b = twice();
    x->vram[SOURCE] = 0x1010;
    x->vram[SOURCE + 1] = 0x0110;
    assert_written(ask(x, &b, TARGET, 0), 0, 0); /* then held back */
    assert_written(ask(x, &b, TARGET, 1), 1, 0); /* held back before */
    assert_written(ask(x, &b, TARGET, 2), 1, 0); /* both times: the last */
    assert_held(ask(x, &b, TARGET, 3), COLOUR);  /* both times */
}

static void the_value_that_it_had_is_written(void **state)
{
    xosera *x = (xosera *)*state;
    const blit b = {.ctrl = CONSTANT, .src_s = 0x1234, .dst_d = TARGET, .shift = OPEN, .words = 1};
    x->vram[TARGET] = 0x1234;
    x->vram[TARGET + 1] = 0x1204;
    assert_written(ask(x, &b, TARGET, 2), 0, 0);
    assert_written(ask(x, &b, TARGET + 1, 3), 0, 1);
}

/* Lines of two words, each of which begins on the last word of the line before. */
static blit stairs(unsigned first, unsigned last)
{
    return (blit){.ctrl = CONSTANT,
                  .mod_d = 0xFFFF,
                  .dst_d = TARGET,
                  .shift = MAKE_BLIT_SHIFT(first, last, 0),
                  .lines = 2,
                  .words = 1};
}

static void reasons_are_those_of_the_last_reach(void **state)
{
    const xosera *x = (xosera *)*state;
    blit b = stairs(0, 0);
    assert_held(ask(x, &b, TARGET, 1), FIRST);
    assert_held(ask(x, &b, TARGET + 1, 1), FIRST); /* LAST before */
    assert_held(ask(x, &b, TARGET + 2, 1), FIRST);
    assert_held(ask(x, &b, TARGET + 3, 1), LAST);
    b = stairs(0xF, 0);
    assert_written(ask(x, &b, TARGET + 1, 1), 1, 0); /* held back by LAST before */
    assert_held(ask(x, &b, TARGET + 3, 1), LAST);
    b = stairs(0, 0xF);
    assert_held(ask(x, &b, TARGET, 1), FIRST);
    assert_written(ask(x, &b, TARGET + 1, 1), 0, 1); /* then held back by FIRST */
    assert_written(ask(x, &b, TARGET + 3, 1), 2, 1);
}

/* A thousand times to one word: a constant that counts the lines, its last nibble tested. */
static void a_word_is_reached_many_times(void **state)
{
    const xosera *x = (xosera *)*state;
    for (unsigned colour = 0; colour < 16; colour++) {
        const blit b = {.ctrl = MAKE_BLIT_CTRL(colour, 0, 1, 1),
                        .mod_s = 1,
                        .mod_d = 0xFFFF,
                        .dst_d = TARGET,
                        .shift = OPEN,
                        .lines = 999};
        assert_written(ask(x, &b, TARGET, 3), colour == 999 % 16 ? 998 : 999, 0);
        assert_held(ask(x, &b, TARGET, 0), COLOUR); /* 0 throughout */
    }
}

/* Each word is read when those before it have been written. */
static void source_and_target_overlap(void **state)
{
    xosera *x = (xosera *)*state;
    const blit up = {.ctrl = TEST, .src_s = SOURCE, .dst_d = SOURCE + 1, .shift = OPEN, .words = 2};
    const blit down = {
        .ctrl = TEST, .src_s = SOURCE + 1, .dst_d = SOURCE, .shift = OPEN, .words = 2};
    memset(x->vram + SOURCE, 0, 4 * sizeof x->vram[0]);
    x->vram[SOURCE] = 0x000A;
    for (unsigned i = 0; i < 3; i++) {
        assert_written(ask(x, &up, SOURCE + 1 + i, 3), 0, i);
        assert_held(ask(x, &up, SOURCE + 1 + i, 0), COLOUR);
        assert_held(ask(x, &down, SOURCE + i, 3), COLOUR);
    }
    assert_never(ask(x, &up, SOURCE, 3));
}

/* Four words over the end of the address space, to VRAM and from it. */
static void addresses_wrap(void **state)
{
    (void)state;
    for (size_t i = 0; i < VRAM_LENGTHS; i++) {
        xosera *x = adapter_new(vram_lengths[i]);
        const uint32_t end = (uint32_t)x->vram_len;
        const blit to = {.ctrl = CONSTANT, .dst_d = 0xFFFE, .shift = OPEN, .words = 3};
        const blit from = {
            .ctrl = TEST, .src_s = 0xFFFE, .dst_d = TARGET, .shift = OPEN, .words = 3};
        for (unsigned k = 0; k < 4; k++) {
            x->vram[(end - 2 + k) % end] = k % 2 == 0 ? 0x0101 : 0x1010;
        }
        for (unsigned k = 0; k < 4; k++) {
            assert_written(ask(x, &to, (end - 2 + k) % end, k), 0, k);
            assert_held_or_written(ask(x, &from, TARGET + k, 0), k % 2 == 0 ? COLOUR : 0, 0, k);
        }
        assert_never(ask(x, &to, end - 3, 0));
        assert_never(ask(x, &to, 2, 0));
        adapter_free(x);
    }
}

/* More words than VRAM has: the second time round is the last. */
static void a_small_vram_is_gone_round(void **state)
{
    (void)state;
    xosera *x = adapter_new(XOSERA_VRAM_MIN);
    const blit b = {.ctrl = CONSTANT, .dst_d = 0x1234, .shift = OPEN, .words = 299};
    for (unsigned i = 0; i < 256; i++) {
        assert_written(ask(x, &b, (0x34 + i) % 256, i % 4), 0, i + 256 < 300 ? i + 256 : i);
    }
    adapter_free(x);
}

static void numbers_go_to_their_ends(void **state)
{
    (void)state;
    xosera *x = adapter_new(XOSERA_VRAM_MAX);
    blit b = {.ctrl = CONSTANT, .dst_d = 1, .shift = OPEN, .lines = 0x8000};
    assert_written(ask(x, &b, 1, 0), 0, 0);
    assert_never(ask(x, &b, 2, 0)); /* one line */
    b.lines = 0xFFFF;
    assert_written(ask(x, &b, 32768, 3), 32767, 0);
    assert_never(ask(x, &b, 32769, 3));
    b.lines = 0;
    b.words = 0xFFFF;
    assert_written(ask(x, &b, 65535, 0), 0, 65534);
    assert_written(ask(x, &b, 0, 0), 0, 65535);
    b.lines = 0x8001;
    b.mod_d = 0xFFFF;
    assert_written(ask(x, &b, 0, 3), 1, 0); /* line 0, word 65,535 before */
    assert_written(ask(x, &b, 65535, 3), 1, 65535);
    adapter_free(x);
}

/* Two memories on the heap, twice as long as the longest VRAM. */
enum { LENT = 2 * XOSERA_VRAM_MAX };
typedef struct two_memories {
    uint16_t *before, *work;
} two_memories;

static uint16_t *filled_memory(uint16_t seed)
{
    uint16_t *const words = (uint16_t *)malloc(LENT * sizeof *words);
    assert_non_null(words);
    fill(words, LENT, seed);
    return words;
}

static int two_setup(void **state)
{
    two_memories *const m = (two_memories *)malloc(sizeof *m);
    assert_non_null(m);
    m->before = filled_memory(3);
    m->work = filled_memory(4);
    *state = m;
    return 0;
}

/* No test changed a word of either. */
static int two_teardown(void **state)
{
    two_memories *const m = (two_memories *)*state;
    uint16_t *const before = filled_memory(3), *const work = filled_memory(4);
    assert_memory_equal(m->before, before, LENT * sizeof *before);
    assert_memory_equal(m->work, work, LENT * sizeof *work);
    free(before);
    free(work);
    free(m->before);
    free(m->work);
    free(m);
    return 0;
}
#define WITH_TWO(test) cmocka_unit_test_setup_teardown(test, two_setup, two_teardown)

/* Refused so, and only that is answered. */
static void assert_why_refused(const two_memories *m, size_t before_len, size_t work_len,
                               uint32_t address, uint32_t nibble, xosera_refusal want)
{
    const blit b = {.ctrl = CONSTANT, .src_s = 0x5555, .shift = OPEN, .words = 300};
    const xosera_why_answer a =
        xosera_why(regs_of(&b), m->before, before_len, m->work, work_len, address, nibble);
    assert_int_equal(a.refusal, want);
    assert_int_equal(a.fate, XOSERA_NOTHING_TOLD);
    assert_int_equal(reasons_of(a), 0);
    assert_int_equal(a.line, 0);
    assert_int_equal(a.word, 0);
}

static void refusal_1_either_length(void **state)
{
    const two_memories *m = (two_memories *)*state;
    const size_t wrong[] = {0, 1, 128, 255, 257, 384, 511, 65535, 65537, 98304, 131072};
    for (size_t i = 0; i < sizeof wrong / sizeof wrong[0]; i++) {
        for (size_t k = 0; k < VRAM_LENGTHS; k++) {
            assert_why_refused(m, wrong[i], vram_lengths[k], 0, 0, XOSERA_VRAM_LENGTH);
            assert_why_refused(m, vram_lengths[k], wrong[i], 0, 0, XOSERA_VRAM_LENGTH);
        }
        assert_why_refused(m, wrong[i], wrong[i], 0, 0, XOSERA_VRAM_LENGTH);
        assert_why_refused(m, wrong[i], wrong[i], 0, 4, XOSERA_VRAM_LENGTH); /* before 15 */
        assert_why_refused(m, wrong[i], 256, UINT32_MAX, 0, XOSERA_VRAM_LENGTH);
        assert_why_refused(m, 256, wrong[i], 256, UINT32_MAX, XOSERA_VRAM_LENGTH);
    }
    assert_why_refused(m, (size_t)1 << 32, 256, 0, 0, XOSERA_VRAM_LENGTH);
    assert_why_refused(m, 256, ((size_t)1 << 32) + 256, 0, 0, XOSERA_VRAM_LENGTH);
    assert_why_refused(m, SIZE_MAX, SIZE_MAX, 0, 0, XOSERA_VRAM_LENGTH);
}

static void refusal_1_lengths_that_differ(void **state)
{
    const two_memories *m = (two_memories *)*state;
    for (size_t i = 0; i < VRAM_LENGTHS; i++) {
        for (size_t k = 0; k < VRAM_LENGTHS; k++) {
            if (i != k) {
                assert_why_refused(m, vram_lengths[i], vram_lengths[k], 0, 0, XOSERA_VRAM_LENGTH);
                assert_why_refused(m, vram_lengths[i], vram_lengths[k], 65536, 4,
                                   XOSERA_VRAM_LENGTH);
            }
        }
    }
}

static void refusal_15_no_such_nibble(void **state)
{
    const two_memories *m = (two_memories *)*state;
    const uint32_t nibbles[] = {4, 5, 8, 255, 256, 259, 65536, 65539, 0x80000000, UINT32_MAX};
    for (size_t i = 0; i < VRAM_LENGTHS; i++) {
        const size_t n = vram_lengths[i];
        const uint32_t beyond[] = {(uint32_t)n,         (uint32_t)n + 1, 65536,     65537,
                                   65536 + (uint32_t)n, 0x80000000,      UINT32_MAX};
        for (size_t k = 0; k < sizeof nibbles / sizeof nibbles[0]; k++) {
            assert_why_refused(m, n, n, 0, nibbles[k], XOSERA_NO_NIBBLE);
            assert_why_refused(m, n, n, (uint32_t)n, nibbles[k], XOSERA_NO_NIBBLE);
        }
        for (size_t k = 0; k < sizeof beyond / sizeof beyond[0]; k++) {
            assert_why_refused(m, n, n, beyond[k], 0, XOSERA_NO_NIBBLE);
            assert_why_refused(m, n, n, beyond[k], 3, XOSERA_NO_NIBBLE);
        }
    }
}

static void the_last_nibble_is_one(void **state)
{
    (void)state;
    for (size_t i = 0; i < VRAM_LENGTHS; i++) {
        xosera *x = adapter_new(vram_lengths[i]);
        const uint32_t last = (uint32_t)x->vram_len - 1;
        const blit b = {.ctrl = CONSTANT, .dst_d = (uint16_t)last, .shift = OPEN};
        assert_written(ask(x, &b, last, 3), 0, 0);
        assert_never(ask(x, &b, 0, 0));
        adapter_free(x);
    }
}

/* The test's own account of a blit, kept step by step. */

/* The nibbles that the next step would write if these reasons alone could hold one back. */
static unsigned let_through(const xosera *x, unsigned reasons)
{
    uint16_t vram[XOSERA_VRAM_MIN];
    xosera_state s = x->state;
    memcpy(vram, x->vram, sizeof vram);
    s.engine.regs.shift |= (uint16_t)((reasons & FIRST) == 0 ? BLIT_SHIFT_FIRST_F : 0);
    s.engine.regs.shift |= (uint16_t)((reasons & LAST) == 0 ? BLIT_SHIFT_LAST_F : 0);
    s.engine.regs.ctrl &= (uint16_t)((reasons & COLOUR) == 0 ? ~BLIT_CTRL_TRANSP_F : 0xFFFF);
    return xosera_blit_step(&s, vram, XOSERA_VRAM_MIN, x->xr, x->xr_len).mask;
}

/* One step, noted for the four nibbles of its word. */
static void note_step(xosera *x, xosera_why_answer *notes)
{
    const xosera_engine next = x->state.engine;
    const unsigned first = let_through(x, FIRST), last = let_through(x, LAST),
                   colour = let_through(x, COLOUR);
    const unsigned mask = xosera_blit_step(&x->state, x->vram, x->vram_len, x->xr, x->xr_len).mask;
    assert_int_equal(mask, first & last & colour);
    for (unsigned nibble = 0; nibble < 4; nibble++) {
        xosera_why_answer *const note = &notes[4 * (next.regs.dst_d % x->vram_len) + nibble];
        if (has_nibble(mask, nibble)) {
            *note =
                (xosera_why_answer){.fate = XOSERA_WRITTEN, .line = next.line, .word = next.word};
        } else if (note->fate != XOSERA_WRITTEN) {
            *note = (xosera_why_answer){.fate = XOSERA_HELD_BACK,
                                        .first_mask = !has_nibble(first, nibble),
                                        .last_mask = !has_nibble(last, nibble),
                                        .colour_test = !has_nibble(colour, nibble)};
        }
    }
}

/* Any blit of few words; half of them come to the same words again. */
static blit any_blit(void)
{
    const uint16_t words = random_word() % 5, back = (uint16_t)(random_word() % 3 - words - 1);
    return (blit){.ctrl = random_word() & 0x33FF,
                  .andc = random_word(),
                  .xor_ = random_word(),
                  .mod_s = random_word() & 0x3333,
                  .src_s = random_word() & 0x3333,
                  .mod_d = random_word() % 2 == 0 ? back : random_word(),
                  .dst_d = random_word(),
                  .shift = random_word(),
                  .lines = (uint16_t)((random_word() & 0x8000) | random_word() % 7),
                  .words = words};
}

/* Every nibble of VRAM is as noted; `seen` counts the answers by fate and reasons. */
static void assert_as_noted(const uint16_t *before, const xosera *x, const xosera_why_answer *notes,
                            unsigned seen[4][REASONS])
{
    uint16_t work[XOSERA_VRAM_MIN];
    for (unsigned i = 0; i < 4 * XOSERA_VRAM_MIN; i++) {
        fill(work, XOSERA_VRAM_MIN, (uint16_t)i);
        const xosera_why_answer a =
            xosera_why(x->state.blit, before, XOSERA_VRAM_MIN, work, XOSERA_VRAM_MIN, i / 4, i % 4);
        assert_told(a, (xosera_fate)notes[i].fate, reasons_of(notes[i]), notes[i].line,
                    notes[i].word);
        assert_memory_equal(work, x->vram, sizeof work);
        seen[a.fate][reasons_of(a)]++;
        if (a.fate != XOSERA_WRITTEN) {
            assert_int_equal(xosera_pixel(x, i / 4, i % 4),
                             before[i / 4] >> (12 - 4 * (i % 4)) & 0xF);
        }
    }
}

static void every_nibble_is_as_the_steps_left_it(void **state)
{
    (void)state;
    static xosera_why_answer notes[4 * XOSERA_VRAM_MIN];
    uint16_t before[XOSERA_VRAM_MIN];
    unsigned seen[4][REASONS] = {{0}};
    for (int round = 0; round < 60; round++) {
        xosera *x = adapter_new(XOSERA_VRAM_MIN);
        const blit b = any_blit();
        for (size_t i = 0; i < x->vram_len; i++) {
            before[i] = x->vram[i] = random_word() & 0x3333;
        }
        for (size_t i = 0; i < sizeof notes / sizeof notes[0]; i++) {
            notes[i] = (xosera_why_answer){.fate = XOSERA_NEVER_REACHED};
        }
        start_blit(x, &b);
        while (x->state.engine.running) {
            note_step(x, notes);
        }
        assert_as_noted(before, x, notes, seen);
        adapter_free(x);
    }
    assert_true(seen[XOSERA_NEVER_REACHED][0] != 0 && seen[XOSERA_WRITTEN][0] != 0);
    for (unsigned reasons = 1; reasons < REASONS; reasons++) {
        assert_true(seen[XOSERA_HELD_BACK][reasons] != 0);
    }
}

/* Sentences. */

static void assert_says(xosera_why_answer a, const char *want)
{
    char text[XOSERA_WHY_TEXT];
    assert_ptr_equal(xosera_why_text(text, sizeof text, a), text);
    assert_string_equal(text, want);
}

static void each_answer_is_a_sentence(void **state)
{
    (void)state;
    assert_says((xosera_why_answer){.fate = XOSERA_NEVER_REACHED}, "never reached by the blit");
    assert_says((xosera_why_answer){.fate = XOSERA_WRITTEN, .line = 2, .word = 5},
                "written by line 2, word 5 of the blit, both from 0");
    assert_says((xosera_why_answer){.fate = XOSERA_WRITTEN, .line = 32767, .word = 65535},
                "written by line 32767, word 65535 of the blit, both from 0");
    assert_says((xosera_why_answer){.refusal = XOSERA_NO_NIBBLE},
                "refused, 15: nibble over 3, or address not below the VRAM length");
    assert_says((xosera_why_answer){.refusal = XOSERA_VRAM_LENGTH},
                "refused, 1: VRAM length is no power of two from 256 to 65536, or the two lengths "
                "differ");
}

static void each_set_of_reasons_is_a_sentence(void **state)
{
    static const char *const want[REASONS] = {
        "held back for an unknown reason",
        "held back by the left edge mask, SHIFT bits 15:12",
        "held back by the right edge mask, SHIFT bits 11:8",
        "held back by the left edge mask, SHIFT bits 15:12, and by the right edge mask, SHIFT bits "
        "11:8",
        "held back by the colour test, CTRL bit 4: the source has the colour of CTRL bits 15:8 "
        "there",
        "held back by the left edge mask, SHIFT bits 15:12, and by the colour test, CTRL bit 4: "
        "the source has the colour of CTRL bits 15:8 there",
        "held back by the right edge mask, SHIFT bits 11:8, and by the colour test, CTRL bit 4: "
        "the source has the colour of CTRL bits 15:8 there",
        "held back by the left edge mask, SHIFT bits 15:12, by the right edge mask, SHIFT bits "
        "11:8, and by the colour test, CTRL bit 4: the source has the colour of CTRL bits 15:8 "
        "there",
    };
    (void)state;
    for (unsigned reasons = 0; reasons < REASONS; reasons++) {
        assert_says((xosera_why_answer){.fate = XOSERA_HELD_BACK,
                                        .first_mask = (reasons & FIRST) != 0,
                                        .last_mask = (reasons & LAST) != 0,
                                        .colour_test = (reasons & COLOUR) != 0},
                    want[reasons]);
    }
}

/* Of an answer that no call gives. */
static void there_is_always_a_sentence(void **state)
{
    (void)state;
    assert_says((xosera_why_answer){.fate = XOSERA_NOTHING_TOLD}, "unknown fate, 0");
    assert_says((xosera_why_answer){.fate = 9, .line = 1}, "unknown fate, 9");
    assert_says((xosera_why_answer){.refusal = 99, .fate = XOSERA_WRITTEN},
                "refused, 99: unknown refusal");
}

static void a_sentence_is_cut(void **state)
{
    const xosera_why_answer a = {.fate = XOSERA_WRITTEN, .line = 2, .word = 5};
    volatile size_t size = 8; /* gcc warns of a size so small where it knows it */
    char text[20];
    (void)state;
    memset(text, 'x', sizeof text);
    assert_ptr_equal(xosera_why_text(text, size, a), text);
    assert_string_equal(text, "written");
    assert_int_equal(text[8], 'x');
    size = 1;
    assert_string_equal(xosera_why_text(text, size, a), "");
    memset(text, 'x', sizeof text);
    size = 0;
    assert_ptr_equal(xosera_why_text(text, size, a), text);
    assert_int_equal(text[0], 'x');
}

/* The handle. */

/* A line over itself without the nibbles 1, which turns 0 to 1: done once more it does nothing. */
static const blit onto_itself = {
    .ctrl = 0x1110, .xor_ = 0x1111, .src_s = TARGET, .dst_d = TARGET, .shift = 0x7F00, .words = 2};

/* The memory before that blit, and the adapter behind it. */
static xosera *drawn(void **state, uint16_t *before)
{
    xosera *x = (xosera *)*state;
    memset(x->vram + TARGET, 0, 4 * sizeof x->vram[0]);
    memcpy(before, x->vram, vram_bytes(x));
    start_blit(x, &onto_itself);
    (void)xosera_run(x, UINT64_MAX);
    assert_int_equal(x->vram[TARGET + 1], 0x1111);
    return x;
}

static void a_pixel_is_asked_of_the_blit_that_was_done(void **state)
{
    uint16_t before[1024];
    xosera *x = drawn(state, before);
    assert_held(xosera_why_pixel(x, TARGET, 0, before), FIRST);
    assert_written(xosera_why_pixel(x, TARGET, 1, before), 0, 0);
    assert_written(xosera_why_pixel(x, TARGET + 2, 3, before), 0, 2);
    assert_never(xosera_why_pixel(x, TARGET + 3, 0, before));
}

static void without_a_memory_it_is_vram_as_it_stands(void **state)
{
    uint16_t before[1024];
    xosera *x = drawn(state, before);
    assert_held(xosera_why_pixel(x, TARGET, 0, NULL), FIRST); /* it is 0 still */
    assert_held(xosera_why_pixel(x, TARGET + 1, 0, NULL), COLOUR);
    assert_held(xosera_why_pixel(x, TARGET + 1, 0, x->vram), COLOUR);
    x->vram[TARGET + 1] = 0x0111;
    assert_written(xosera_why_pixel(x, TARGET + 1, 0, NULL), 0, 1);
}

/* The registers are those that were written last, whatever the engine does. */
static void a_queued_blit_has_the_registers(void **state)
{
    uint16_t before[1024];
    xosera *x = drawn(state, before);
    const blit other = {
        .ctrl = CONSTANT, .dst_d = SOURCE, .shift = OPEN, .lines = 0x8001, .words = 9};
    start_blit(x, &onto_itself);
    start_blit(x, &other);
    assert_int_equal(xosera_step(x), 1);
    assert_true(x->state.engine.running && x->state.queued);
    assert_written(xosera_why_pixel(x, SOURCE + 10, 2, NULL), 1, 0);
    assert_never(xosera_why_pixel(x, TARGET, 2, NULL));
    x->state.blit.dst_d = TARGET; /* by hand */
    assert_written(xosera_why_pixel(x, TARGET, 2, NULL), 0, 0);
}

/* Byte for byte the same handle, in mid-blit and with time that passes with bytes. */
static void the_adapter_stays_as_it_is(void **state)
{
    uint16_t before[1024];
    xosera *x = drawn(state, before);
    char handle[sizeof *x];
    x->state = mid_line_state();
    x->state.blit = regs_of(&onto_itself); /* queued */
    xosera_board_rates(x, 10000000);
    x->mask = 0x9;
    x->unchanged = 77;
    xosera *const was = adapter_copy(x);
    memcpy(handle, x, sizeof handle);
    for (unsigned i = 0; i < 50; i++) {
        assert_int_equal(xosera_why_pixel(x, 20 * i, i % 4, i % 2 == 0 ? before : NULL).refusal, 0);
    }
    assert_memory_equal(x, handle, sizeof handle);
    assert_adapter_equal(x, was);
    x->state.status = 0xFF; /* no state is looked at, nor XR memory */
    x->xr_len = 0;
    assert_int_equal(xosera_why_pixel(x, 0, 0, NULL).refusal, XOSERA_DONE);
    x->xr_len = was->xr_len;
    adapter_free(was);
}

/* Refused so: the handle has it, the hook was told, and nothing else is changed. */
static void assert_pixel_refused(xosera *x, uint64_t address, uint64_t nibble, xosera_refusal want)
{
    int heard = 0;
    const xosera_state was = x->state;
    x->on_refusal = add_refusal;
    x->user = &heard;
    x->mask = 0x9;
    xosera_clear_refusals(x);
    const xosera_why_answer a = xosera_why_pixel(x, address, nibble, NULL);
    assert_int_equal(a.refusal, want);
    assert_int_equal(a.fate, XOSERA_NOTHING_TOLD);
    assert_int_equal(heard, want);
    assert_int_equal(x->refusals, 1);
    assert_int_equal(x->first_refused.why, want);
    assert_int_equal(x->last_refused.call, XOSERA_CALL_WHY);
    assert_null(x->last_refused.file);
    assert_int_equal(x->mask, 0x9);
    assert_state_equal(&x->state, &was);
    assert_true(bytes_asked <= (XOSERA_VRAM_MAX + 1) * sizeof x->vram[0]);
}

static void a_refusal_is_kept_in_the_handle(void **state)
{
    static const uint64_t big[] = {0x10000,
                                   0x10004,
                                   UINT32_MAX,
                                   (uint64_t)UINT32_MAX + 1,
                                   (uint64_t)UINT32_MAX + 2,
                                   (uint64_t)1 << 63,
                                   UINT64_MAX};
    xosera *x = (xosera *)*state;
    assert_pixel_refused(x, 1024, 0, XOSERA_NO_NIBBLE);
    assert_pixel_refused(x, 0, 4, XOSERA_NO_NIBBLE);
    for (size_t i = 0; i < sizeof big / sizeof big[0]; i++) {
        assert_pixel_refused(x, big[i], 0, XOSERA_NO_NIBBLE);
        assert_pixel_refused(x, 0, big[i], XOSERA_NO_NIBBLE);
    }
    char text[200];
    assert_string_equal(xosera_refusal_message(text, sizeof text, &x->last_refused),
                        "why refused, 15: nibble over 3, or address not below the VRAM length");
}

static void vram_of_a_wrong_length_is_not_touched(void **state)
{
    static const size_t wrong[] = {0, 1, 300, 1023, 10000000, SIZE_MAX};
    xosera *x = (xosera *)*state;
    uint16_t *const vram = x->vram;
    for (size_t i = 0; i < sizeof wrong / sizeof wrong[0]; i++) {
        x->vram_len = wrong[i];
        assert_pixel_refused(x, 0, 0, XOSERA_VRAM_LENGTH);
        assert_pixel_refused(x, UINT64_MAX, 4, XOSERA_VRAM_LENGTH);
    }
    x->vram = NULL;
    x->vram_len = 0;
    assert_pixel_refused(x, 0, 0, XOSERA_VRAM_LENGTH);
    x->vram = vram;
}

static void a_hook_may_leave_a_why(void **state)
{
    xosera *x = (xosera *)*state;
    jmp_buf left;
    x->on_refusal = leap_on_refusal;
    x->user = &left;
    const int why = setjmp(left);
    if (why == 0) {
        (void)xosera_why_pixel(x, 1024, 0, NULL);
        fail_msg("the statement after the refusal was reached");
    }
    assert_int_equal(why, XOSERA_NO_NIBBLE); /* valgrind finds the memory given back */
}

static void ask_without_memory(xosera *x)
{
    no_memory = true;
    (void)xosera_why_pixel(x, 0, 0, NULL);
}

static void without_memory_the_program_ends(void **state)
{
    char text[200];
    assert_true(aborts_with(ask_without_memory, (xosera *)*state, text, sizeof text));
    assert_string_equal(text, "xosera_model.h: no memory to do a blit in\n");
}

/* Each call that the hook is told of must be a why. */
static void count_whys(xosera *x, const xosera_access *what)
{
    ++*(int *)x->user;
    assert_int_equal(what->call, XOSERA_CALL_WHY);
    assert_int_equal(what->n, 0x11);
    assert_int_equal(what->reg, what->refusal == XOSERA_DONE ? 3 : 4);
    assert_int_equal(what->count, what->refusal == XOSERA_DONE ? XOSERA_NEVER_REACHED : 0);
    assert_int_equal(what->mask, 0);
    assert_false(what->passing);
}

static void a_why_is_told_and_traced(void **state)
{
    xosera *x = (xosera *)*state;
    char text[200];
    int whys = 0;
    FILE *out = tmpfile();
    assert_non_null(out);
    x->on_refusal = NULL;
    x->on_access = count_whys;
    x->user = &whys;
    xosera_trace_to(x, out);
    (void)xosera_why_pixel(x, 0x11, 3, NULL);
    (void)xosera_why_pixel(x, 0x11, 4, NULL);
    xosera_trace_to(x, NULL);
    rewind(out);
    text[fread(text, 1, sizeof text - 1, out)] = '\0';
    fclose(out);
    assert_int_equal(whys, 2);
    assert_string_equal(text,
                        "why: 0x0011 nibble 3, never reached\n"
                        "why: 0x0011 nibble 4, nothing told    refused, 15: nibble over 3, or "
                        "address not below the VRAM length\n");
}

/* Some whys, done and refused, or none. */
static void some_whys(xosera *x, bool asked)
{
    if (asked) {
        (void)xosera_why_pixel(x, TARGET, 1, NULL);
        (void)xosera_why_pixel(x, TARGET, 4, NULL);
        (void)xosera_why_pixel(x, UINT64_MAX, 0, x->vram);
    }
}

/* The text of a session on a fresh adapter. */
static void record_session(char *text, size_t size, bool asked)
{
    static const char path[] = "build/why.txt";
    xosera *x = adapter_new(XOSERA_VRAM_MIN);
    assert_true(xosera_file_done(xosera_record(x, path)));
    some_whys(x, asked);
    start_blit(x, &onto_itself);
    (void)xosera_step(x);
    x->vram[TARGET] ^= 0x1234; /* by hand */
    x->state.video.vid_left = 5;
    some_whys(x, asked);
    (void)xosera_run(x, UINT64_MAX);
    some_whys(x, asked);
    assert_true(xosera_file_done(xosera_record_end(x)));
    const xosera_replayed r = xosera_replay(path);
    if (!r.equal || !r.whole) {
        fail_msg("%s", r.text);
    }
    FILE *const in = fopen(path, "r");
    assert_non_null(in);
    text[fread(text, 1, size - 1, in)] = '\0';
    fclose(in);
    assert_int_equal(remove(path), 0);
    adapter_free(x);
}

static void a_recording_goes_on_as_if_nothing_was_asked(void **state)
{
    static char with[100000], without[sizeof with];
    (void)state;
    record_session(with, sizeof with, true);
    record_session(without, sizeof without, false);
    assert_string_equal(with, without);
}

/* Memories of other lengths are recorded before a why too, and the replay is equal. */
static void a_recording_outlives_refused_whys(void **state)
{
    static const char path[] = "build/why.txt";
    xosera *x = (xosera *)*state;
    x->on_refusal = NULL;
    assert_true(xosera_file_done(xosera_record(x, path)));
    vram_setw(3, 0x1234);
    x->vram_len = 300;
    (void)xosera_why_pixel(x, 0, 0, NULL);
    x->vram_len = 10000000;
    (void)xosera_why_pixel(x, 0, 0, NULL);
    x->vram_len = 1024;
    assert_int_equal(vram_getw(3), 0x1234);
    assert_true(xosera_file_done(xosera_record_end(x)));
    const xosera_replayed r = xosera_replay(path);
    assert_true(r.equal && r.whole);
    assert_int_equal(r.calls, 8);
    assert_int_equal(x->refusals, 2);
    assert_int_equal(remove(path), 0);
}

int why_group(int *tests)
{
    const struct CMUnitTest list[] = {
        WITH_ADAPTER(each_word_has_its_line_and_word),
        WITH_ADAPTER(all_reasons_are_given),
        WITH_ADAPTER(a_mask_holds_its_nibbles_on_its_word),
        WITH_ADAPTER(the_colour_test_holds_nibbles_or_bytes),
        WITH_ADAPTER(the_colour_test_is_behind_the_shifter),
        WITH_ADAPTER(one_write_is_enough),
        WITH_ADAPTER(the_value_that_it_had_is_written),
        WITH_ADAPTER(reasons_are_those_of_the_last_reach),
        WITH_ADAPTER(a_word_is_reached_many_times),
        WITH_ADAPTER(source_and_target_overlap),
        cmocka_unit_test(addresses_wrap),
        cmocka_unit_test(a_small_vram_is_gone_round),
        cmocka_unit_test(numbers_go_to_their_ends),
        WITH_TWO(refusal_1_either_length),
        WITH_TWO(refusal_1_lengths_that_differ),
        WITH_TWO(refusal_15_no_such_nibble),
        cmocka_unit_test(the_last_nibble_is_one),
        cmocka_unit_test(every_nibble_is_as_the_steps_left_it),
        cmocka_unit_test(each_answer_is_a_sentence),
        cmocka_unit_test(each_set_of_reasons_is_a_sentence),
        cmocka_unit_test(there_is_always_a_sentence),
        cmocka_unit_test(a_sentence_is_cut),
        WITH_ADAPTER(a_pixel_is_asked_of_the_blit_that_was_done),
        WITH_ADAPTER(without_a_memory_it_is_vram_as_it_stands),
        WITH_ADAPTER(a_queued_blit_has_the_registers),
        WITH_ADAPTER(the_adapter_stays_as_it_is),
        WITH_ADAPTER(a_refusal_is_kept_in_the_handle),
        WITH_ADAPTER(vram_of_a_wrong_length_is_not_touched),
        WITH_ADAPTER(a_hook_may_leave_a_why),
        WITH_ADAPTER(without_memory_the_program_ends),
        WITH_ADAPTER(a_why_is_told_and_traced),
        cmocka_unit_test(a_recording_goes_on_as_if_nothing_was_asked),
        WITH_ADAPTER(a_recording_outlives_refused_whys),
    };
    return RUN_GROUP("why", list, tests);
}
