/* The copper: each instruction, where programs wrap, what is dropped, when it starts and stops. */
#include "tests.h"

enum { COPPER = XOSERA_XR_COPP_AT, ENABLED = COPP_CTRL_COPP_EN_F };

/* The copper runs at a word and the beam stands one step before a place. */
static void run_copper(xosera *x, uint16_t word, uint16_t line, uint16_t position)
{
    x->state.video.copp_ctrl |= ENABLED;
    x->state.beam.copper_running = 1;
    x->state.beam.copper_word = word;
    if (position != 0) {
        set_beam(x, line, (uint16_t)(position - 1));
    } else {
        set_beam(x, line == 0 ? 524 : (uint16_t)(line - 1), 799);
    }
}

/* An instruction at a word of copper memory, by hand. */
static void put(xosera *x, uint16_t word, uint32_t instruction)
{
    x->xr[COPPER + word] = (uint16_t)(instruction >> 16);
    x->xr[COPPER + (word + 1) % 1024] = (uint16_t)(instruction & 0xFFFF);
}

static void put_list(xosera *x, const uint32_t *list, size_t n)
{
    for (size_t i = 0; i < n; i++) {
        put(x, (uint16_t)(2 * i), list[i]);
    }
}
#define PUT_LIST(x, list) put_list(x, list, sizeof(list) / sizeof(list)[0])

/* One instruction in the picture, far from any edge: it goes on at `next`; no other word of the
 * state changes, none of VRAM, and in XR memory the word `at` alone, to `value` (-1: none). */
static void one_instruction(xosera *x, uint16_t word, uint32_t instruction, uint16_t next, int at,
                            uint16_t value)
{
    put(x, word, instruction);
    run_copper(x, word, 100, 400);
    xosera *want = adapter_copy(x);
    want->state.beam.position = 400;
    want->state.beam.copper_word = next;
    if (at >= 0) {
        want->xr[at] = value;
    }
    assert_int_equal(xosera_beam_pixel(x), 1);
    assert_adapter_equal(x, want);
    adapter_free(want);
}

/* WAIT and SKIP. */

static bool reached(int line, int position, int y, int x, int ignore)
{
    const bool right_of_it = position >= 160 + x;
    switch (ignore & 3) {
    case 0: return line > y || (line == y && right_of_it);
    case 1: return right_of_it;
    case 2: return line >= y;
    default: return false; /* no place at all */
    }
}

/* The word that comes next, from word 0. */
static int next_word(bool skip, int ignore, bool there)
{
    if (skip) {
        return there || (ignore & 3) == 3 ? 4 : 2;
    }
    return there ? 2 : 0;
}

static void one_place(xosera *x, int y, int px, int ignore, int line, int position)
{
    for (int skip = 0; skip < 2; skip++) {
        const uint32_t unused = ignore & 4 ? 0x18008000 : 0; /* bits that no field has */
        put(x, 0, XOSERA_COP_PLACE(skip, px, y, ignore) | unused);
        run_copper(x, 0, (uint16_t)line, (uint16_t)position);
        xosera_state want = x->state;
        const bool there = reached(line, position, y, px, ignore);
        want.beam.line = (uint16_t)line;
        want.beam.position = (uint16_t)position;
        want.beam.copper_word = (uint16_t)next_word(skip != 0, ignore, there);
        want.status |= line == 480 && position == 0 ? INT_CTRL_VIDEO_INTR_F : 0;
        assert_int_equal(xosera_beam_pixel(x), 1);
        if (memcmp(&x->state, &want, sizeof want) != 0) {
            fail_msg("%s line %d, pixel %d, ignore %d, at line %d, position %d: word %d",
                     skip ? "SKIP" : "WAIT", y, px, ignore, line, position,
                     (int)x->state.beam.copper_word);
        }
    }
}

/* Every combination of flags, the reserved ones too, round the place waited for. */
static void places_are_reached(void **state)
{
    static const int ys[] = {0, 1, 479, 480, 524, 525, 1124}, pxs[] = {0, 1, 320, 639, 640, 1034};
    xosera *x = (xosera *)*state, *before = adapter_copy(x);
    for (int i = 0; i < 7 * 6 * 16; i++) {
        const int y = ys[i % 7], px = pxs[i / 7 % 6], ignore = i / 42;
        const int lines[] = {0, y - 1, y, y + 1, 100, 480, 524};
        const int positions[] = {0, 1, 159, 160, 159 + px, 160 + px, 161 + px, 799};
        for (int j = 0; j < 7 * 8; j++) {
            const int line = lines[j % 7], position = positions[j / 7];
            if (0 <= line && line < 525 && position < 800) {
                one_place(x, y, px, ignore, line, position);
            }
        }
    }
    memcpy(x->xr + COPPER, before->xr + COPPER, 2 * sizeof x->xr[0]);
    x->state = before->state;
    assert_adapter_equal(x, before); /* the memories: nothing else was written */
    adapter_free(before);
}

/* The same in literal places: 1 where the wait is over. */
/* clang-format off */
static const struct {
    uint32_t wait;
    uint16_t line, position;
    int over;
} places[] = {
    {COP_WAIT_HV(0, 0), 0, 159, 0},       {COP_WAIT_HV(0, 0), 0, 160, 1},
    {COP_WAIT_HV(0, 0), 1, 0, 1},         {COP_WAIT_HV(639, 479), 479, 798, 0},
    {COP_WAIT_HV(639, 479), 479, 799, 1}, {COP_WAIT_HV(640, 479), 479, 799, 0},
    {COP_WAIT_HV(640, 479), 480, 0, 1},   {COP_WAIT_HV(5, 480), 480, 164, 0},
    {COP_WAIT_HV(5, 480), 480, 165, 1},   {COP_WAIT_HV(0, 524), 524, 159, 0},
    {COP_WAIT_HV(0, 524), 524, 160, 1},   {COP_WAIT_HV(0, 525), 524, 799, 0},
    {COP_WAIT_H(0), 0, 159, 0},           {COP_WAIT_H(0), 524, 160, 1},
    {COP_WAIT_H(320), 300, 479, 0},       {COP_WAIT_H(320), 0, 480, 1},
    {COP_WAIT_H(320), 301, 0, 0},         {COP_WAIT_V(240), 239, 799, 0},
    {COP_WAIT_V(240), 240, 0, 1},         {COP_WAIT_V(0), 0, 0, 1},
    {COP_WAIT_V(524), 523, 799, 0},       {COP_WAIT_V(524), 524, 0, 1},
    {COP_WAIT_F(), 0, 0, 0},              {COP_END(), 524, 799, 0},
};
/* clang-format on */

static void places_by_example(void **state)
{
    xosera *x = (xosera *)*state;
    for (size_t i = 0; i < sizeof places / sizeof places[0]; i++) {
        for (uint32_t skip = 0; skip < 2; skip++) {
            put(x, 0, places[i].wait | skip << 29);
            run_copper(x, 0, places[i].line, places[i].position);
            assert_int_equal(xosera_beam_pixel(x), 1);
            const int over = places[i].over || (skip && (places[i].wait & 3) == 3);
            assert_int_equal(x->state.beam.copper_word, 2 * over + (skip ? 2 : 0));
        }
    }
}

static void skip_passes_one_instruction(void **state)
{
    static const uint32_t list[] = {COP_SKIP_V(100), COP_MOVER(1, VID_CTRL), COP_SKIP_V(101),
                                    COP_MOVER(2, VID_LEFT), COP_END()};
    xosera *x = (xosera *)*state;
    PUT_LIST(x, list);
    run_copper(x, 0, 100, 1);
    assert_int_equal(xosera_beam_pixels(x, 10), 10);
    assert_int_equal(x->state.video.vid_ctrl, 0);
    assert_int_equal(x->state.video.vid_left, 2);
    assert_int_equal(x->state.beam.copper_word, 8);
}

/* JMP, and codes that begin with 111. */

static void jumps_are_modulo_1024(void **state)
{
    xosera *x = (xosera *)*state;
    const uint16_t to[] = {0, 1, 5, 100, 1022, 1023, 1024, 1029, 2046, 2047};
    for (size_t i = 0; i < sizeof to / sizeof to[0]; i++) {
        one_instruction(x, 100, COP_JUMP(to[i]), to[i] % 1024, -1, 0);
        one_instruction(x, 100, COP_JUMP(to[i]) | 0x1800FFFF, to[i] % 1024, -1,
                        0); /* unused bits */
    }
}

static void codes_from_111_are_passed_over(void **state)
{
    xosera *x = (xosera *)*state;
    const uint32_t codes[] = {0xE0000000, 0xE0000003, 0xE001FFFF, 0xF5551234, 0xFFFFFFFF};
    for (size_t i = 0; i < sizeof codes / sizeof codes[0]; i++) {
        one_instruction(x, 100, codes[i], 102, -1, 0);
    }
}

/* At word 1,023 the second word is word 0, and the program goes on behind it. */
static void programs_wrap(void **state)
{
    xosera *x = (xosera *)*state;
    one_instruction(x, 1022, COP_MOVEP(0x0ABC, 7), 0, XOSERA_XR_COLOR_AT + 7, 0x0ABC);
    one_instruction(x, 1023, COP_MOVEP(0x0DEF, 7), 1, XOSERA_XR_COLOR_AT + 7, 0x0DEF);
    one_instruction(x, 1023, COP_MOVEC(0x5678, 0), 1, COPPER, 0x5678); /* over its own data */
    one_instruction(x, 1020, COP_SKIP_F(), 0, -1, 0);
    one_instruction(x, 1021, COP_SKIP_F(), 1, -1, 0);
    one_instruction(x, 1022, COP_SKIP_F(), 2, -1, 0);
    one_instruction(x, 1023, COP_SKIP_F(), 3, -1, 0);
    one_instruction(x, 1023, COP_SKIP_HV(640, 100), 1, -1, 0);
    one_instruction(x, 1023, COP_WAIT_HV(240, 100), 1, -1, 0); /* X is in word 0 */
    one_instruction(x, 1023, COP_WAIT_HV(241, 100), 1023, -1, 0);
    one_instruction(x, 1023, 0xE0000000, 1, -1, 0);
}

/* Moves. */

static void moves_go_to_their_memories(void **state)
{
    xosera *x = (xosera *)*state;
    const int tiles[] = {0, 1, 4095, 4096, 5119, 5120, 5632, 8191};
    const int colours[] = {0, 1, 255, 256, 511};
    const int coppers[] = {0, 1, 511, 1022, 1023, 1024, 1025, 2047};
    for (int i = 0; i < 8; i++) {
        one_instruction(x, 100, COP_MOVEF(0x1234 + i, tiles[i]), 102,
                        tiles[i] < 5120 ? tiles[i] : -1, (uint16_t)(0x1234 + i));
        one_instruction(x, 100, COP_MOVEC(0x4321 + i, coppers[i]) | 0x18000000, 102,
                        coppers[i] < 1024 ? COPPER + coppers[i] : -1, (uint16_t)(0x4321 + i));
    }
    for (int i = 0; i < 5; i++) {
        one_instruction(x, 100, COP_MOVEP(0x0F00 + i, colours[i]) | 0x1E000000, 102,
                        XOSERA_XR_COLOR_AT + colours[i], (uint16_t)(0x0F00 + i));
    }
}

/* For each address: what a host's word does to the same state, XM_WR_XADDR and its latches apart,
 * which the copper does not touch. A host's that is refused is a copper's that is dropped. */
static void mover_is_a_hosts_word(xosera *x, const xosera_state *s, uint16_t data, int dropped)
{
    xosera *host = adapter_copy(x);
    host->on_refusal = NULL;
    xosera_clear_refusals(host);
    for (uint32_t xaddr = 0; xaddr < 256; xaddr++) {
        x->state = *s;
        put(x, 100, 0x60000000 | (xaddr & 1 ? 0x1F000000 : 0) | xaddr << 16 | data);
        run_copper(x, 100, 100, 400);
        memcpy(host->xr, x->xr, x->xr_len * sizeof x->xr[0]);
        host->state = x->state;
        host->state.beam.position = 400;
        xosera_xr_setw(host, (uint16_t)xaddr, data);
        host->state.host = s->host;
        if (host->state.beam.copper_running) {
            host->state.beam.copper_word = 102;
        }
        assert_int_equal(xosera_beam_pixel(x), 1);
        assert_state_equal(&x->state, &host->state);
        assert_int_equal(memcmp(x->xr, host->xr, x->xr_len * sizeof x->xr[0]), 0);
    }
    assert_memory_equal(x->vram, host->vram, x->vram_len * sizeof x->vram[0]);
    assert_int_equal(host->refusals, dropped);
    adapter_free(host);
}

static void mover_writes_registers_as_a_host_does(void **state)
{
    xosera *x = (xosera *)*state;
    xosera_state s = mid_line_state(); /* full */
    mover_is_a_hosts_word(x, &s, 0x1234, 10);
    mover_is_a_hosts_word(x, &s, 0x9876, 10);
    s.queued = 0; /* busy */
    mover_is_a_hosts_word(x, &s, 0x0003, 0);
    s = idle_state();
    s.status = 0;
    mover_is_a_hosts_word(x, &s, 0x1234, 0);
    mover_is_a_hosts_word(x, &s, 0xFFFF, 0);
}

static void mover_to_a_full_blitter_is_dropped(void **state)
{
    xosera *x = (xosera *)*state;
    start_blit(x, &(blit){.words = 3});
    start_blit(x, &(blit){.words = 4});
    const xosera_blit_regs before = x->state.blit;
    one_instruction(x, 100, COP_MOVER(0x1234, BLIT_CTRL), 102, -1, 0);
    one_instruction(x, 100, COP_MOVER(0x1234, BLIT_WORDS), 102, -1, 0);
    put(x, 100, 0x603F1234);
    put(x, 102, 0x604A1234);
    put(x, 104, COP_MOVER(0x1234, VID_CTRL));
    run_copper(x, 100, 100, 400);
    assert_int_equal(xosera_beam_pixels(x, 3), 3);
    assert_int_equal(x->state.video.vid_ctrl, 0x1234);
    assert_memory_equal(&x->state.blit, &before, sizeof before);
    assert_int_equal(xosera_run(x, UINT64_MAX), 4 + 5);
}

/* A blit of two words; one of four queued behind it; a third, dropped. No pixel draws. */
static void the_copper_starts_and_queues_blits(void **state)
{
    static const uint32_t list[] = {COP_MOVER(BLIT_CTRL_S_CONST_F, BLIT_CTRL),
                                    COP_MOVER(0x1111, BLIT_SRC_S),
                                    COP_MOVER(0x0040, BLIT_DST_D),
                                    COP_MOVER(0xFF00, BLIT_SHIFT),
                                    COP_MOVER(1, BLIT_WORDS),
                                    COP_MOVER(0x2222, BLIT_SRC_S),
                                    COP_MOVER(0x0050, BLIT_DST_D),
                                    COP_MOVER(3, BLIT_WORDS),
                                    COP_MOVER(0x0060, BLIT_DST_D),
                                    COP_MOVER(9, BLIT_WORDS),
                                    COP_END()};
    xosera *x = (xosera *)*state, *before = adapter_copy(x);
    PUT_LIST(x, list);
    run_copper(x, 0, 100, 400);
    assert_int_equal(xosera_beam_pixels(x, 5), 5);
    assert_int_equal(xosera_words_left(x), 2);
    assert_int_equal(x->state.queued, 0);
    assert_int_equal(xosera_beam_pixels(x, 20), 20);
    assert_int_equal(x->state.queued, 1);
    assert_memory_equal(x->vram, before->vram, x->vram_len * sizeof x->vram[0]);
    assert_int_equal(xosera_run(x, UINT64_MAX), 2 + 4);
    assert_int_equal(x->vram[0x40], 0x1111);
    assert_int_equal(x->vram[0x53], 0x2222);
    assert_int_equal(x->vram[0x54], before->vram[0x54]);
    assert_int_equal(x->vram[0x60], before->vram[0x60]);
    adapter_free(before);
}

/* A list that rewrites itself: the data of an instruction to come, then its own first word, so that
 * it is passed over the next time. */
static void a_list_rewrites_itself(void **state)
{
    static const uint32_t list[] = {COP_MOVEC(0x1111, 3), COP_MOVER(0x0000, VID_CTRL),
                                    COP_MOVEC(0xE000, 4), COP_MOVER(0x2222, VID_LEFT), COP_JUMP(4)};
    xosera *x = (xosera *)*state;
    PUT_LIST(x, list);
    run_copper(x, 0, 100, 400);
    assert_int_equal(xosera_beam_pixels(x, 2), 2);
    assert_int_equal(x->state.video.vid_ctrl, 0x1111);
    assert_int_equal(xosera_beam_pixel(x), 1);
    assert_int_equal(x->xr[COPPER + 4], 0xE000);
    assert_int_equal(x->xr[COPPER + 5], 0xE000); /* the data */
    assert_int_equal(xosera_beam_pixels(x, 2), 2);
    assert_int_equal(x->state.beam.copper_word, 4);
    x->xr[COPPER + 5] = 0x1234;
    assert_int_equal(xosera_beam_pixel(x), 1);
    assert_int_equal(x->state.beam.copper_word, 6);
    assert_int_equal(x->xr[COPPER + 4], 0xE000); /* no move */
}

/* Starts and stops. */

static void it_starts_when_line_0_is_reached(void **state)
{
    xosera *x = (xosera *)*state;
    put(x, 0, COP_MOVER(0x0007, VID_CTRL));
    put(x, 2, COP_END());
    xreg_setw(COPP_CTRL, ENABLED); /* at line 0, which it did not reach just now */
    assert_int_equal(xosera_beam_pixels(x, 900), 900);
    assert_int_equal(x->state.beam.copper_running, 0);
    set_beam(x, 524, 790);
    assert_int_equal(xosera_beam_pixels(x, 9), 9);
    assert_int_equal(x->state.beam.copper_running, 0);
    assert_int_equal(x->state.video.vid_ctrl, 0);
    assert_int_equal(xosera_beam_pixel(x), 1); /* line 0: the first instruction in the same step */
    assert_int_equal(x->state.beam.copper_running, 1);
    assert_int_equal(x->state.beam.copper_word, 2);
    assert_int_equal(x->state.video.vid_ctrl, 7);
    assert_int_equal(xosera_beam_pixels(x, 5000), 5000);
    assert_int_equal(x->state.beam.copper_word, 2);
}

static void it_starts_again_at_line_0(void **state)
{
    xosera *x = (xosera *)*state;
    put(x, 0, COP_JUMP(50));
    put(x, 700, COP_MOVER(0x0007, VID_CTRL));
    run_copper(x, 700, 0, 0);
    assert_int_equal(xosera_beam_pixel(x), 1);
    assert_int_equal(x->state.beam.copper_word, 50); /* of word 0, and not of 700 */
    assert_int_equal(x->state.video.vid_ctrl, 0);
}

static void a_disabled_copper_stays_stopped(void **state)
{
    xosera *x = (xosera *)*state;
    put(x, 0, COP_MOVER(0x0007, VID_CTRL));
    xreg_setw(COPP_CTRL, 0x7FFF);
    set_beam(x, 524, 790);
    assert_int_equal(xosera_beam_pixels(x, 1000), 1000);
    assert_int_equal(x->state.beam.copper_running, 0);
    assert_int_equal(x->state.video.vid_ctrl, 0);
}

static void the_host_stops_it_at_once(void **state)
{
    xosera *x = (xosera *)*state;
    put(x, 700, COP_MOVER(0x0007, VID_CTRL));
    run_copper(x, 700, 100, 400);
    xreg_setw(COPP_CTRL, 0x8123); /* still enabled */
    xm_setw(WR_XADDR, XR_COPP_CTRL);
    xm_setbh(XDATA, 0x7F); /* the even byte only fills the latch */
    assert_int_equal(x->state.beam.copper_running, 1);
    assert_int_equal(x->state.beam.copper_word, 700);
    xm_setbl(XDATA, 0xFF);
    assert_int_equal(x->state.beam.copper_running, 0);
    assert_int_equal(x->state.beam.copper_word, 0);
    xreg_setw(COPP_CTRL, ENABLED); /* starts nothing before line 0 */
    assert_int_equal(xosera_beam_pixels(x, 100), 100);
    assert_int_equal(x->state.beam.copper_running, 0);
    assert_int_equal(x->state.video.vid_ctrl, 0);
}

static void it_stops_itself(void **state)
{
    xosera *x = (xosera *)*state;
    put(x, 700, COP_MOVER(0xFFFF, COPP_CTRL));
    put(x, 702, COP_MOVER(0x0000, SCANLINE)); /* the frame end's bit, in mid-frame */
    put(x, 704, COP_MOVER(0x7FFF, COPP_CTRL));
    run_copper(x, 700, 100, 400);
    assert_int_equal(xosera_beam_pixel(x), 1);
    assert_int_equal(x->state.beam.copper_word, 702);
    assert_int_equal(xosera_beam_pixel(x), 1);
    assert_int_equal(x->state.beam.copper_word, 704);
    assert_int_equal(x->state.status, INT_CTRL_VIDEO_INTR_F);
    assert_int_equal(x->state.beam.line, 100);
    assert_int_equal(xosera_beam_pixel(x), 1);
    assert_int_equal(x->state.beam.copper_running, 0);
    assert_int_equal(x->state.beam.copper_word, 0);
    assert_int_equal(x->state.video.copp_ctrl, 0x7FFF);
}

/* Programs in C. */

/* clang-format off */
static const struct {
    uint32_t is, should;
} words[] = {
    {COP_WAIT_HV(0, 0), 0x00000000},         {COP_WAIT_HV(639, 479), 0x01DF27F0},
    {COP_WAIT_HV(0x7FF, 0x7FF), 0x07FF7FF0}, {COP_WAIT_HV(0x801, 0x802), 0x00020010},
    {COP_WAIT_H(320), 0x00001401},           {COP_WAIT_H(-1), 0x00007FF1},
    {COP_WAIT_V(240), 0x00F00002},           {COP_WAIT_V(-1), 0x07FF0002},
    {COP_WAIT_F(), 0x00000003},              {COP_END(), 0x00000003},
    {COP_SKIP_HV(639, 479), 0x21DF27F0},     {COP_SKIP_H(320), 0x20001401},
    {COP_SKIP_V(240), 0x20F00002},           {COP_SKIP_F(), 0x20000003},
    {COP_JUMP(0x123), 0x41230000},           {COP_JUMP(0xFFFF), 0x47FF0000},
    {COP_JUMP(XR_COPPER_ADDR + 6), 0x40060000},
    {COP_MOVER(0x1234, VID_CTRL), 0x60001234}, {COP_MOVER(0xFFFF, BLIT_WORDS), 0x6049FFFF},
    {COP_MOVER(0x12345, PB_HV_FSCALE), 0x601E2345},
    {COP_MOVEF(0x1234, 5119), 0x93FF1234},   {COP_MOVEF(-1, XR_TILE_ADDR + 1), 0x8001FFFF},
    {COP_MOVEF(0, 0x3FFF), 0x9FFF0000},      {COP_MOVEP(0x0F0F, 511), 0xA1FF0F0F},
    {COP_MOVEP(0, 512), 0xA0000000},         {COP_MOVEP(0x0F0F, XR_COLOR_B_ADDR), 0xA1000F0F},
    {COP_MOVEC(0x8001, 1023), 0xC3FF8001},   {COP_MOVEC(1, XR_COPPER_ADDR), 0xC0000001},
    {COP_MOVEC(0, 0xFFFF), 0xC7FF0000},
};
/* clang-format on */

static void macros_are_their_words(void **state)
{
    (void)state;
    for (size_t i = 0; i < sizeof words / sizeof words[0]; i++) {
        assert_int_equal(words[i].is, words[i].should);
    }
    int h = 1, v = 2;
    assert_int_equal(COP_SKIP_HV(h++, v++), 0x20020010); /* arguments are evaluated once */
    assert_int_equal(h + v, 5);
}

static void a_program_is_loaded(void **state)
{
    static const uint32_t list[] = {COP_WAIT_V(240), COP_MOVER(0x0004, VID_CTRL), COP_END()};
    xosera *x = (xosera *)*state, *want = adapter_copy(x);
    const uint16_t at[] = {0, 1, 100, 1018};
    for (size_t i = 0; i < sizeof at / sizeof at[0]; i++) {
        for (uint16_t n = 0; n < 3; n++) {
            put(want, (uint16_t)(at[i] + 2 * n), list[n]);
        }
        assert_true(xosera_load_copper(x, at[i], list, 3));
        assert_int_equal(xm_getw(WR_XADDR), XR_COPPER_ADDR + at[i] + 6);
        assert_memory_equal(x->xr, want->xr, x->xr_len * sizeof x->xr[0]);
    }
    assert_int_equal(x->refusals, 0);
    adapter_free(want);
}

/* Unless all of it fits, nothing is written, the host's registers included. */
static void a_program_that_does_not_fit_is_not_loaded(void **state)
{
    static const uint32_t list[513] = {COP_END()};
    static const size_t wrong[][2] = {
        {0, 513},    {1, 512},      {2, 512},  {1023, 1},     {1024, 1},         {1025, 0},
        {0xC000, 1}, {0, SIZE_MAX}, {1022, 2}, {SIZE_MAX, 1}, {SIZE_MAX - 1, 1}, {3, SIZE_MAX / 2}};
    xosera *x = (xosera *)*state, *before = adapter_copy(x);
    for (size_t i = 0; i < sizeof wrong / sizeof wrong[0]; i++) {
        assert_false(xosera_load_copper(x, wrong[i][0], list, wrong[i][1]));
        assert_adapter_equal(x, before);
    }
    assert_true(xosera_load_copper(x, 1024, list, 0));
    assert_true(xosera_load_copper(x, 1022, list, 1));
    assert_true(xosera_load_copper(x, 0, list, 512));
    assert_int_equal(x->refusals, 0);
    x->on_refusal = NULL;
    x->vram_len--;
    assert_false(xosera_load_copper(x, 0, list, 1));
    assert_int_equal(x->first_refused.why, XOSERA_VRAM_LENGTH);
    x->vram_len++;
    adapter_free(before);
}

/* From the host's word to the change in the picture: one instruction a pixel. */
static void a_border_changes_in_mid_frame(void **state)
{
    static const uint32_t list[] = {COP_MOVER(0x0001, VID_CTRL), COP_WAIT_HV(320, 240),
                                    COP_MOVER(0x0004, VID_CTRL), COP_END()};
    xosera *x = (xosera *)*state;
    assert_true(xosera_load_copper(x, 0, list, 4));
    xreg_setw(COPP_CTRL, COPP_CTRL_COPP_EN_F);
    set_beam(x, 524, 799);
    assert_int_equal(xosera_beam_pixel(x), 1);
    assert_int_equal(x->state.video.vid_ctrl, 1);
    set_beam(x, 239, 700);
    assert_int_equal(xosera_beam_to(x, 240, 160 + 320), 580);
    assert_int_equal(x->state.video.vid_ctrl, 1); /* the wait is over, the move is next */
    assert_int_equal(xosera_beam_pixel(x), 1);
    assert_int_equal(x->state.video.vid_ctrl, 4);
}

int copper_group(int *tests)
{
    const struct CMUnitTest list[] = {
        WITH_ADAPTER(places_are_reached),
        WITH_ADAPTER(places_by_example),
        WITH_ADAPTER(skip_passes_one_instruction),
        WITH_ADAPTER(jumps_are_modulo_1024),
        WITH_ADAPTER(codes_from_111_are_passed_over),
        WITH_ADAPTER(programs_wrap),
        WITH_ADAPTER(moves_go_to_their_memories),
        WITH_ADAPTER(mover_writes_registers_as_a_host_does),
        WITH_ADAPTER(mover_to_a_full_blitter_is_dropped),
        WITH_ADAPTER(the_copper_starts_and_queues_blits),
        WITH_ADAPTER(a_list_rewrites_itself),
        WITH_ADAPTER(it_starts_when_line_0_is_reached),
        WITH_ADAPTER(it_starts_again_at_line_0),
        WITH_ADAPTER(a_disabled_copper_stays_stopped),
        WITH_ADAPTER(the_host_stops_it_at_once),
        WITH_ADAPTER(it_stops_itself),
        cmocka_unit_test(macros_are_their_words),
        WITH_ADAPTER(a_program_is_loaded),
        WITH_ADAPTER(a_program_that_does_not_fit_is_not_loaded),
        WITH_ADAPTER(a_border_changes_in_mid_frame),
    };
    return RUN_GROUP("copper", list, tests);
}
