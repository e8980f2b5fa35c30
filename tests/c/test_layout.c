/* The header against the library. Nothing else checks that both mean the same word by a field. */
#include "painting.h"

/* The fields in the order of their words. */
typedef struct field {
    const char *name;
    size_t at, size;
} field;

/* clang-format off */
#define FIELD(path) {#path, offsetof(xosera_state, path), sizeof(((xosera_state *)0)->path)}

static const field fields[] = {
    FIELD(host.latch[0]), FIELD(host.latch[1]), FIELD(host.latch[2]), FIELD(host.latch[3]),
    FIELD(host.latch[4]), FIELD(host.latch[5]), FIELD(host.latch[6]), FIELD(host.latch[7]),
    FIELD(host.latch[8]), FIELD(host.latch[9]), FIELD(host.latch[10]), FIELD(host.latch[11]),
    FIELD(host.latch[12]), FIELD(host.latch[13]), FIELD(host.latch[14]), FIELD(host.latch[15]),
    FIELD(host.xr.rd_xaddr.word), FIELD(host.xr.wr_xaddr.word), FIELD(host.xr.rd_xdata),
    FIELD(host.vram.rd_incr), FIELD(host.vram.rd_addr.word), FIELD(host.vram.wr_incr),
    FIELD(host.vram.wr_addr.word), FIELD(host.vram.rd_data), FIELD(host.vram.wr_mask),
    FIELD(host.timer.count), FIELD(host.timer.countdown), FIELD(host.timer.interval),
    FIELD(host.timer.saved), FIELD(host.int_mask), FIELD(queued), FIELD(status),
    FIELD(engine.running), FIELD(engine.line), FIELD(engine.word), FIELD(engine.kept),
    FIELD(engine.regs.ctrl), FIELD(engine.regs.andc), FIELD(engine.regs.xor_),
    FIELD(engine.regs.mod_s), FIELD(engine.regs.src_s), FIELD(engine.regs.mod_d),
    FIELD(engine.regs.dst_d), FIELD(engine.regs.shift), FIELD(engine.regs.lines),
    FIELD(engine.regs.words), FIELD(video.vid_ctrl), FIELD(video.copp_ctrl), FIELD(video.aud_ctrl),
    FIELD(video.vid_left), FIELD(video.vid_right), FIELD(video.pa[0]), FIELD(video.pa[1]),
    FIELD(video.pa[2]), FIELD(video.pa[3]), FIELD(video.pa[4]), FIELD(video.pa[5]),
    FIELD(video.pa[6]), FIELD(video.pb[0]), FIELD(video.pb[1]), FIELD(video.pb[2]),
    FIELD(video.pb[3]), FIELD(video.pb[4]), FIELD(video.pb[5]), FIELD(video.pb[6]),
    FIELD(blit.ctrl), FIELD(blit.andc), FIELD(blit.xor_), FIELD(blit.mod_s), FIELD(blit.src_s),
    FIELD(blit.mod_d), FIELD(blit.dst_d), FIELD(blit.shift), FIELD(blit.lines), FIELD(blit.words),
    FIELD(beam.line), FIELD(beam.position), FIELD(beam.copper_running), FIELD(beam.copper_word),
};
/* clang-format on */
enum { FIELDS = sizeof fields / sizeof fields[0] };

void assert_state_equal(const xosera_state *got, const xosera_state *want)
{
    uint16_t g[XOSERA_STATE_WORDS], w[XOSERA_STATE_WORDS];
    memcpy(g, got, sizeof g);
    memcpy(w, want, sizeof w);
    for (size_t i = 0; i < FIELDS; i++) {
        if (g[i] != w[i]) {
            fail_msg("%s, word %zu: %04X, should be %04X", fields[i].name, i, (unsigned)g[i],
                     (unsigned)w[i]);
        }
    }
}

static void the_table_names_every_word_once(void **state)
{
    (void)state;
    assert_int_equal(FIELDS, XOSERA_STATE_WORDS);
    assert_int_equal(sizeof(xosera_state), 2 * XOSERA_STATE_WORDS);
    for (size_t i = 0; i < FIELDS; i++) {
        assert_int_equal(fields[i].at, 2 * i);
        assert_int_equal(fields[i].size, 2);
    }
}

/* Words by number, all different: a byte of its own in each half. */
static void number_the_words(uint16_t *words)
{
    for (unsigned i = 0; i < XOSERA_STATE_WORDS; i++) {
        words[i] = (uint16_t)((i + 1) << 8 | (0xFF - i));
    }
}

static xosera_state every_word_different(void)
{
    uint16_t words[XOSERA_STATE_WORDS];
    xosera_state s;
    number_the_words(words);
    memcpy(&s, words, sizeof s);
    return s;
}

/* A refused call leaves the state as it was, and touches nothing beside it. */
static void a_refused_call_leaves_every_word(void **state)
{
    xosera *x = (xosera *)*state;
    const xosera_state s = every_word_different();
    assert_refused(x, &s, 1, 1, 3, XOSERA_VRAM_LENGTH);
    assert_refused(x, &s, x->vram_len, 1, 3, XOSERA_XR_LENGTH);
    assert_refused(x, &s, x->vram_len, x->xr_len, 3, XOSERA_STATE_RANGE);
}

/* Reset fills the 79 words and no other. */
static void reset_is_as_the_header_says(void **state)
{
    (void)state;
    struct {
        uint16_t before;
        xosera_state s;
        uint16_t after;
    } got;
    uint16_t words[XOSERA_STATE_WORDS] = {0};
    words[24] = 15;
    words[50] = 640;
    memset(&got, 0xA5, sizeof got);
    xosera_reset(&got.s);
    assert_memory_equal(&got.s, words, sizeof words);
    assert_int_equal(got.before, 0xA5A5);
    assert_int_equal(got.after, 0xA5A5);
    assert_int_equal(got.s.host.vram.wr_mask, 15);
    assert_int_equal(got.s.video.vid_right, 640);
}

/* The same state brought into its ranges, the blitter running in mid-line; still all different. */
static xosera_state in_range(void)
{
    xosera_state s = every_word_different();
    for (int reg = 0; reg < XOSERA_MAIN_REGS; reg++) {
        s.host.latch[reg] &= 0xFF;
    }
    s.host.timer.saved &= 0xFF;
    s.host.timer.countdown = 0x0203;
    s.host.vram.wr_mask = 9;
    s.host.int_mask = 0x2A;
    s.queued = 0;
    s.status = 0x05;
    s.engine.running = 1;
    s.engine.line = 0x0111;
    s.engine.word = 0x0222;
    s.engine.regs.ctrl = 0x3D20; /* VRAM source, no colour test */
    s.beam.line = 0x0123;
    s.beam.position = 0x0234;
    s.beam.copper_running = 0;
    s.beam.copper_word = 0;
    return s;
}

/* Each field by a call that reads or changes it alone: `want` is `s` with the field changed by its
 * name in the header, and must be what the library returns, in every other field too. */

static void expect_write(xosera *x, const xosera_state *s, uint8_t reg, uint8_t byte,
                         const xosera_state *want)
{
    x->state = *s;
    xosera_set_byte(x, reg, true, byte);
    assert_state_equal(&x->state, want);
}

/* The word that an odd write forms. */
static uint16_t formed(const xosera_state *s, uint8_t reg, uint8_t byte)
{
    return (uint16_t)(s->host.latch[reg] << 8 | byte);
}

static void latches_are_in_their_place(void **state)
{
    xosera *x = (xosera *)*state;
    for (uint8_t reg = 0; reg < 16; reg++) {
        xosera_state want = in_range();
        x->state = want;
        xosera_set_byte(x, reg, false, 0xEE);
        want.host.latch[reg] = 0xEE;
        assert_state_equal(&x->state, &want);
    }
}

static void main_registers_are_in_their_place(void **state)
{
    xosera *x = (xosera *)*state;
    xosera_state s = in_range(), want;

    want = s;
    want.host.vram.wr_mask = 0x6;
    expect_write(x, &s, XM_SYS_CTRL, 0xF6, &want);

    s.host.latch[XM_INT_CTRL] = 0x61;
    want = s;
    want.host.int_mask = 0x61;
    want.status = 0x04;
    expect_write(x, &s, XM_INT_CTRL, 0x01, &want);

    want = s;
    want.host.timer.countdown = formed(&s, XM_TIMER, 0xE2);
    want.host.timer.interval = formed(&s, XM_TIMER, 0xE2);
    expect_write(x, &s, XM_TIMER, 0xE2, &want);

    s.host.latch[XM_RD_XADDR] = XR_TILE_ADDR >> 8;
    want = s;
    want.host.xr.rd_xaddr.word = XR_TILE_ADDR + 0xE3;
    want.host.xr.rd_xdata = x->xr[0xE3];
    expect_write(x, &s, XM_RD_XADDR, 0xE3, &want);

    want = s;
    want.host.xr.wr_xaddr.word = formed(&s, XM_WR_XADDR, 0xE4);
    expect_write(x, &s, XM_WR_XADDR, 0xE4, &want);

    want = s;
    want.host.vram.rd_incr = formed(&s, XM_RD_INCR, 0xE6);
    expect_write(x, &s, XM_RD_INCR, 0xE6, &want);

    s.host.latch[XM_RD_ADDR] = 0x01;
    want = s;
    want.host.vram.rd_addr.word = 0x01E7;
    want.host.vram.rd_data = x->vram[0x1E7];
    expect_write(x, &s, XM_RD_ADDR, 0xE7, &want);

    want = s;
    want.host.vram.wr_incr = formed(&s, XM_WR_INCR, 0xE8);
    expect_write(x, &s, XM_WR_INCR, 0xE8, &want);

    want = s;
    want.host.vram.wr_addr.word = formed(&s, XM_WR_ADDR, 0xE9);
    expect_write(x, &s, XM_WR_ADDR, 0xE9, &want);

    want = s;
    want.host.vram.wr_addr.word = (uint16_t)(s.host.vram.wr_addr.word + s.host.vram.wr_incr);
    expect_write(x, &s, XM_DATA, 0xEA, &want);
}

static void main_registers_are_read_from_their_place(void **state)
{
    xosera *x = (xosera *)*state;
    const xosera_state s = in_range();
    const uint16_t words[12] = {(uint16_t)(0x2000 | s.host.vram.wr_mask),
                                (uint16_t)(s.host.int_mask << 8 | s.status),
                                s.host.timer.count,
                                s.host.xr.rd_xaddr.word,
                                s.host.xr.wr_xaddr.word,
                                s.host.xr.rd_xdata,
                                s.host.vram.rd_incr,
                                s.host.vram.rd_addr.word,
                                s.host.vram.wr_incr,
                                s.host.vram.wr_addr.word,
                                s.host.vram.rd_data,
                                s.host.vram.rd_data};
    for (uint8_t reg = 0; reg < 12; reg++) {
        x->state = s;
        assert_int_equal(xosera_getw(x, reg), words[reg]);
    }

    xosera_state want = s;
    x->state = s;
    assert_int_equal(xosera_get_byte(x, XM_TIMER, true), s.host.timer.saved);
    assert_state_equal(&x->state, &want);
    (void)xosera_get_byte(x, XM_TIMER, false);
    want.host.timer.saved = s.host.timer.count & 0xFF;
    assert_state_equal(&x->state, &want);

    want = x->state = s;
    want.host.xr.rd_xaddr.word++;
    want.host.xr.rd_xdata = 0;
    (void)xosera_get_byte(x, XM_XDATA, true);
    assert_state_equal(&x->state, &want);

    want = x->state = s;
    want.host.vram.rd_addr.word = (uint16_t)(s.host.vram.rd_addr.word + s.host.vram.rd_incr);
    want.host.vram.rd_data = x->vram[want.host.vram.rd_addr.word % x->vram_len];
    (void)xosera_get_byte(x, XM_DATA, true);
    assert_state_equal(&x->state, &want);
}

static void timer_and_status_are_in_their_place(void **state)
{
    (void)state;
    xosera_state s = in_range(), want = s;
    want.host.timer.count++;
    want.host.timer.countdown--;
    assert_int_equal(xosera_timer_tick(&s).refusal, XOSERA_DONE);
    assert_state_equal(&s, &want);

    want.host.timer.count++;
    want.host.timer.countdown = s.host.timer.interval;
    want.status |= INT_CTRL_TIMER_INTR_F;
    s.host.timer.countdown = 1;
    assert_int_equal(xosera_timer_tick(&s).refusal, XOSERA_DONE);
    assert_state_equal(&s, &want);

    want.status = s.status |= INT_CTRL_VIDEO_INTR_F;
    want.host.int_mask = s.host.int_mask = INT_CTRL_VIDEO_INTR_F;
    xosera_line_answer l = xosera_interrupt_line(&s);
    assert_int_equal(l.refusal, XOSERA_DONE);
    assert_true(l.up);
    want.host.int_mask = s.host.int_mask = INT_CTRL_BLIT_INTR_F;
    l = xosera_interrupt_line(&s);
    assert_int_equal(l.refusal, XOSERA_DONE);
    assert_false(l.up);
    assert_state_equal(&s, &want);
}

/* The field that an XR register is stored in; NULL where none is. */
static uint16_t *xr_field(xosera_state *s, uint16_t xaddr)
{
    switch (xaddr) {
    case XR_VID_CTRL: return &s->video.vid_ctrl;
    case XR_COPP_CTRL: return &s->video.copp_ctrl;
    case XR_AUD_CTRL: return &s->video.aud_ctrl;
    case XR_VID_LEFT: return &s->video.vid_left;
    case XR_VID_RIGHT: return &s->video.vid_right;
    case XR_PA_GFX_CTRL: return &s->video.pa[0];
    case XR_PA_TILE_CTRL: return &s->video.pa[1];
    case XR_PA_DISP_ADDR: return &s->video.pa[2];
    case XR_PA_LINE_LEN: return &s->video.pa[3];
    case XR_PA_HV_SCROLL: return &s->video.pa[4];
    case XR_PA_LINE_ADDR: return &s->video.pa[5];
    case XR_PA_HV_FSCALE: return &s->video.pa[6];
    case XR_PB_GFX_CTRL: return &s->video.pb[0];
    case XR_PB_TILE_CTRL: return &s->video.pb[1];
    case XR_PB_DISP_ADDR: return &s->video.pb[2];
    case XR_PB_LINE_LEN: return &s->video.pb[3];
    case XR_PB_HV_SCROLL: return &s->video.pb[4];
    case XR_PB_LINE_ADDR: return &s->video.pb[5];
    case XR_PB_HV_FSCALE: return &s->video.pb[6];
    case XR_BLIT_CTRL: return &s->blit.ctrl;
    case XR_BLIT_ANDC: return &s->blit.andc;
    case XR_BLIT_XOR: return &s->blit.xor_;
    case XR_BLIT_MOD_S: return &s->blit.mod_s;
    case XR_BLIT_SRC_S: return &s->blit.src_s;
    case XR_BLIT_MOD_D: return &s->blit.mod_d;
    case XR_BLIT_DST_D: return &s->blit.dst_d;
    case XR_BLIT_SHIFT: return &s->blit.shift;
    case XR_BLIT_LINES: return &s->blit.lines;
    case XR_BLIT_WORDS: return &s->blit.words;
    default: return NULL;
    }
}

static bool reads_back(uint16_t xaddr)
{
    return xaddr < XR_BLIT_CTRL && xaddr != XR_PA_LINE_ADDR && xaddr != XR_PB_LINE_ADDR;
}

static void xr_registers_are_in_their_place(void **state)
{
    xosera *x = (xosera *)*state;
    for (uint16_t xaddr = 0; xaddr < 0x60; xaddr++) {
        xosera_state s = in_range(), want;
        s.host.xr.wr_xaddr.word = xaddr;
        s.host.latch[XM_XDATA] = 0xD1;
        want = s;
        want.host.xr.wr_xaddr.word++;
        if (xr_field(&want, xaddr) != NULL) {
            *xr_field(&want, xaddr) = 0xD1EE;
        }
        if (xaddr == XR_SCANLINE) {
            want.status |= INT_CTRL_VIDEO_INTR_F;
        }
        if (xaddr == XR_BLIT_WORDS) {
            want.queued = 1;
        }
        expect_write(x, &s, XM_XDATA, 0xEE, &want);

        want = s;
        want.host.latch[XM_RD_XADDR] = s.host.latch[XM_RD_XADDR] = 0;
        want.host.xr.rd_xaddr.word = xaddr;
        want.host.xr.rd_xdata =
            xr_field(&s, xaddr) != NULL && reads_back(xaddr) ? *xr_field(&s, xaddr) : 0;
        if (xaddr == XR_SCANLINE) {
            want.host.xr.rd_xdata = s.beam.line;
        }
        expect_write(x, &s, XM_RD_XADDR, (uint8_t)xaddr, &want);
    }
}

static void the_engine_is_in_its_place(void **state)
{
    xosera *x = (xosera *)*state;
    xosera_state s = in_range(), want;

    /* The start copies all ten registers. */
    memset(&s.engine, 0, sizeof s.engine);
    s.host.xr.wr_xaddr.word = XR_BLIT_WORDS;
    s.host.latch[XM_XDATA] = 0x03;
    s.blit.lines |= 0x8000;
    want = s;
    want.host.xr.wr_xaddr.word++;
    want.blit.words = 0x03EE;
    want.engine.running = 1;
    want.engine.regs = want.blit;
    want.engine.regs.lines &= 0x7FFF;
    expect_write(x, &s, XM_XDATA, 0xEE, &want);

    /* A step in mid-line moves word, source and destination on, and keeps the source word. */
    s = in_range();
    want = s;
    want.engine.word++;
    want.engine.kept = x->vram[s.engine.regs.src_s % x->vram_len];
    want.engine.regs.src_s++;
    want.engine.regs.dst_d++;
    x->state = s;
    assert_int_equal(xosera_step(x), 1);
    assert_state_equal(&x->state, &want);

    /* A step at a line's end moves the line on, adds both modulos and keeps the source word. */
    s.engine.word = s.engine.regs.words;
    want = s;
    want.engine.word = 0;
    want.engine.kept = x->vram[s.engine.regs.src_s % x->vram_len];
    want.engine.line++;
    want.engine.regs.src_s = (uint16_t)(s.engine.regs.src_s + 1 + s.engine.regs.mod_s);
    want.engine.regs.dst_d = (uint16_t)(s.engine.regs.dst_d + 1 + s.engine.regs.mod_d);
    x->state = s;
    assert_int_equal(xosera_step(x), 1);
    assert_state_equal(&x->state, &want);

    /* The last step of all ends the blit, or starts the queued one. */
    s.engine.line = s.engine.regs.lines;
    want = s;
    memset(&want.engine, 0, sizeof want.engine);
    want.status |= INT_CTRL_BLIT_INTR_F;
    x->state = s;
    assert_int_equal(xosera_step(x), 1);
    assert_state_equal(&x->state, &want);

    s.queued = 1;
    want.engine.running = 1;
    want.engine.regs = s.blit;
    want.engine.regs.lines &= 0x7FFF;
    x->state = s;
    assert_int_equal(xosera_step(x), 1);
    assert_state_equal(&x->state, &want);
}

static void the_engine_draws_by_its_fields(void **state)
{
    xosera *x = (xosera *)*state;
    xosera_state s = in_range();
    s.engine.word = 0;
    s.engine.regs.ctrl = 0x0001;
    s.engine.regs.src_s = 0x0F3C;
    s.engine.regs.andc = 0x00FF;
    s.engine.regs.xor_ = 0x1111;
    s.engine.regs.dst_d = 0x0123;
    s.engine.regs.shift = 0x7000;
    x->vram[0x123] = 0xFFFF;
    x->state = s;
    assert_int_equal(xosera_step(x), 1);
    assert_int_equal(x->vram[0x123], 0xFE11);
}

static void beam_and_copper_are_in_their_place(void **state)
{
    xosera *x = (xosera *)*state;
    xosera_state s = in_range(), want = s;
    want.beam.position++;
    x->state = s;
    assert_int_equal(xosera_beam_pixel(x), 1);
    assert_state_equal(&x->state, &want);

    set_beam(x, 479, 799);
    want.beam.line = 480;
    want.beam.position = 0;
    want.status |= INT_CTRL_VIDEO_INTR_F;
    assert_int_equal(xosera_beam_pixel(x), 1);
    assert_state_equal(&x->state, &want);

    /* The copper starts at line 0 and does its first instruction. */
    x->xr[XOSERA_XR_COPP_AT] = 0xE000; /* passed over */
    want.video.copp_ctrl = x->state.video.copp_ctrl |= COPP_CTRL_COPP_EN_F;
    set_beam(x, 524, 799);
    want.beam.line = want.beam.position = 0;
    want.beam.copper_running = 1;
    want.beam.copper_word = 2;
    assert_int_equal(xosera_beam_pixel(x), 1);
    assert_state_equal(&x->state, &want);
}

/* One why about a nibble of word 0x20, and its answer byte by byte; byte 5 is padding. */
typedef struct why_bytes {
    xosera_blit_regs regs;
    uint32_t nibble;
    uint8_t bytes[sizeof(xosera_why_answer)];
} why_bytes;

static void the_answer_of_a_why_is_in_its_place(void **state)
{
    static const why_bytes list[] = {
        {{.ctrl = 0x0001, .dst_d = 0x20, .shift = 0xFF00}, 4, {15}},
        {{.ctrl = 0x0001, .dst_d = 0x21, .shift = 0xFF00}, 3, {0, 1}},
        {{.ctrl = 0x0001, .dst_d = 0x20, .shift = 0x0F00}, 3, {0, 2, 1}},
        {{.ctrl = 0x0001, .dst_d = 0x20, .shift = 0xF000}, 3, {0, 2, 0, 1}},
        {{.ctrl = 0x0011, .dst_d = 0x20, .shift = 0xFF00}, 3, {0, 2, 0, 0, 1}},
        {{.mod_d = 0xFFFF, .dst_d = 0x20, .shift = 0xFF00, .lines = 0x0102},
         3,
         {0, 3, 0, 0, 0, 0, 0x02, 0x01}},
        {{.dst_d = 0x0420 - 0x0304, .shift = 0xFF00, .words = 0x0304},
         3,
         {0, 3, 0, 0, 0, 0, 0, 0, 0x04, 0x03}},
    };
    const xosera *x = (xosera *)*state;
    for (size_t i = 0; i < sizeof list / sizeof list[0]; i++) {
        uint16_t work[1024];
        uint8_t got[sizeof(xosera_why_answer)];
        const xosera_why_answer a =
            xosera_why(list[i].regs, x->vram, x->vram_len, work, 1024, 0x20, list[i].nibble);
        memcpy(got, &a, sizeof got);
        got[5] = 0;
        assert_memory_equal(got, list[i].bytes, sizeof got);
    }
}

/* Ten words as the registers of a why, and written to the ten XR registers one after another: both
 * blits leave the same memory, and another one with each word changed. */
static void the_registers_of_a_why_are_in_their_place(void **state)
{
    static uint16_t left[11][1024];
    const xosera *x = (xosera *)*state;
    for (unsigned i = 0; i <= 10; i++) {
        uint16_t words[11] = {0x2510, 0x0F0F, 0x1234, 3, 0x40, 5, 0x200, 0x7E01, 3, 4, 0};
        xosera_blit_regs regs;
        xosera *const y = adapter_copy(x);
        words[i]++; /* with i = 10 none of the ten */
        memcpy(&regs, words, sizeof regs);
        xosera_setw(y, XM_WR_XADDR, XR_BLIT_CTRL);
        for (unsigned k = 0; k < 10; k++) {
            xosera_setw(y, XM_XDATA, words[k]);
        }
        (void)xosera_run(y, UINT64_MAX);
        assert_int_equal(xosera_why(regs, x->vram, x->vram_len, left[i], 1024, 0, 0).refusal, 0);
        assert_memory_equal(left[i], y->vram, sizeof left[i]);
        adapter_free(y);
    }
    for (unsigned i = 0; i < 10; i++) {
        assert_memory_not_equal(left[i], left[10], sizeof left[i]);
    }
}

static void assert_answers(const painter *p, xosera *x)
{
    static const uint8_t want[] = {XOSERA_DONE, XOSERA_NO_BITMAP, XOSERA_NO_LINE,
                                   XOSERA_PIXELS_LENGTH};
    for (unsigned i = 0; i < 4; i++) {
        uint16_t pixels[640];
        uint8_t got[sizeof(xosera_paint_answer)];
        x->state.video.pa[0] = i == 1 ? 0x0000 : 0x0050;
        const xosera_paint_answer a = p->paint(&x->state, x->vram, x->vram_len, x->xr, x->xr_len,
                                               i == 2 ? 480 : 479, pixels, i == 3 ? 639 : 640);
        memcpy(got, &a, sizeof got);
        assert_int_equal(sizeof got, 1);
        assert_int_equal(got[0], want[i]);
    }
}

static void the_answer_of_a_paint_is_in_its_place(void **state)
{
    xosera *x = (xosera *)*state;
    assert_answers(&in_colours, x);
    assert_answers(&in_levels, x);
}

/* The words of the state by which a line is painted: XR_VID_CTRL, XR_VID_LEFT, XR_VID_RIGHT and
 * three of playfield A's. */
static bool paints(unsigned word)
{
    return word == 46 || word == 49 || word == 50 || word == 51 || word == 53 || word == 54;
}

/* With another lowest bit in one of these the line is another; in any other word it is not. */
static void assert_words_paint(const painter *p, const xosera *x)
{
    xosera_state s = idle_state();
    uint16_t plain[640], pixels[640], words[XOSERA_STATE_WORDS];
    unsigned tried = 0;
    xosera_state_set(&s, 49, 100);
    xosera_state_set(&s, 50, 500);
    xosera_state_set(&s, 51, 0xC050);
    assert_int_equal(p->paint(&s, x->vram, x->vram_len, x->xr, x->xr_len, 7, plain, 640).refusal,
                     0);
    for (unsigned i = 0; i < XOSERA_STATE_WORDS; i++) {
        xosera_state t = s;
        xosera_state_set(&t, i, xosera_state_get(&s, i) ^ 1);
        memcpy(words, &t, sizeof words);
        if (words_in_range(words)) {
            assert_int_equal(
                p->paint(&t, x->vram, x->vram_len, x->xr, x->xr_len, 7, pixels, 640).refusal, 0);
            assert_int_equal(memcmp(pixels, plain, sizeof plain) != 0, paints(i));
            tried++;
        }
    }
    assert_true(tried > 60);
}

static void the_words_of_a_paint_are_in_their_place(void **state)
{
    const xosera *x = (xosera *)*state;
    assert_words_paint(&in_colours, x);
    assert_words_paint(&in_levels, x);
}

int layout_group(int *tests)
{
    const struct CMUnitTest list[] = {
        cmocka_unit_test(the_table_names_every_word_once),
        WITH_ADAPTER(a_refused_call_leaves_every_word),
        cmocka_unit_test(reset_is_as_the_header_says),
        WITH_ADAPTER(latches_are_in_their_place),
        WITH_ADAPTER(main_registers_are_in_their_place),
        WITH_ADAPTER(main_registers_are_read_from_their_place),
        cmocka_unit_test(timer_and_status_are_in_their_place),
        WITH_ADAPTER(xr_registers_are_in_their_place),
        WITH_ADAPTER(the_engine_is_in_its_place),
        WITH_ADAPTER(the_engine_draws_by_its_fields),
        WITH_ADAPTER(beam_and_copper_are_in_their_place),
        WITH_ADAPTER(the_answer_of_a_why_is_in_its_place),
        WITH_ADAPTER(the_registers_of_a_why_are_in_their_place),
        WITH_ADAPTER(the_answer_of_a_paint_is_in_its_place),
        WITH_ADAPTER(the_words_of_a_paint_are_in_their_place),
    };
    return RUN_GROUP("layout", list, tests);
}
