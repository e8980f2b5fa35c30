/* The beam: its way through a frame, what the host sees of it, and rest, which a save needs. */
#include "tests.h"

/* Lines and positions at which something begins or ends. */
static const uint16_t lines[] = {0, 1, 239, 478, 479, 480, 481, 523, 524};
static const uint16_t positions[] = {0, 1, 158, 159, 160, 161, 798, 799};
enum { LINES = sizeof lines / sizeof lines[0], POSITIONS = sizeof positions / sizeof positions[0] };

/* One step from a place: where it leads, bit 4 at the frame end and nowhere else, and no other word
 * of the state. */
static void one_step(xosera *x, uint16_t line, uint16_t position)
{
    xosera_state want = x->state;
    const bool next_line = position == 799;
    want.beam.position = next_line ? 0 : (uint16_t)(position + 1);
    want.beam.line = !next_line ? line : line == 524 ? 0 : (uint16_t)(line + 1);
    want.status |= next_line && line == 479 ? INT_CTRL_VIDEO_INTR_F : 0;
    assert_int_equal(xosera_beam_pixel(x), 1);
    assert_state_equal(&x->state, &want);
}

/* 420,000 steps from rest, bit 4 on one of them; with XOSERA_QUICK set, without lines 2 to 477. */
static void a_frame_comes_back_to_rest(void **state)
{
    xosera *x = (xosera *)*state, *before = adapter_copy(x);
    const bool quick = getenv("XOSERA_QUICK") != NULL;
    int frame_ends = 0, steps = 0;
    for (uint16_t line = 0; line < 525; line++) {
        if (quick && line == 2) {
            line = 478;
            set_beam(x, line, 0);
        }
        for (uint16_t position = 0; position < 800; position++) {
            one_step(x, line, position);
            frame_ends += x->state.status == INT_CTRL_VIDEO_INTR_F;
            x->state.status = 0;
            steps++;
        }
    }
    assert_int_equal(frame_ends, 1);
    assert_int_equal(steps, XOSERA_FRAME_STEPS - (quick ? 476 * 800 : 0));
    assert_adapter_equal(x, before);
    adapter_free(before);
}

static void the_ends_of_lines_and_frames(void **state)
{
    xosera *x = (xosera *)*state, *before = adapter_copy(x);
    const xosera_state starts[] = {reset_state(), idle_state(), mid_line_state()};
    for (int i = 0; i < 3 * LINES * POSITIONS; i++) {
        const uint16_t line = lines[i % LINES], position = positions[i / LINES % POSITIONS];
        x->state = starts[i / LINES / POSITIONS];
        x->state.status &= (uint16_t)~INT_CTRL_VIDEO_INTR_F;
        x->state.video.copp_ctrl &= 0x7FFF;
        set_beam(x, line, position);
        one_step(x, line, position);
    }
    x->state = before->state;
    assert_adapter_equal(x, before);
    adapter_free(before);
}

static void a_frame_end_is_an_interrupt(void **state)
{
    xosera *x = (xosera *)*state;
    xm_setw(INT_CTRL, INT_CTRL_VIDEO_EN_F);
    set_beam(x, 479, 798);
    assert_int_equal(xosera_beam_pixel(x), 1);
    assert_false(xosera_line_up(x));
    assert_int_equal(xosera_beam_pixel(x), 1);
    assert_true(xosera_line_up(x));
    xm_setw(INT_CTRL, INT_CTRL_VIDEO_EN_F | INT_CTRL_VIDEO_INTR_F);
    assert_int_equal(xosera_beam_pixels(x, 1000), 1000);
    assert_false(xosera_line_up(x)); /* reached once, not while it lasts */
}

static void flags_show_the_blanking(void **state)
{
    xosera *x = (xosera *)*state;
    assert_int_equal(xm_getw(SYS_CTRL), 0x080F);
    for (int i = 0; i < LINES * POSITIONS; i++) {
        const uint16_t line = lines[i % LINES], position = positions[i / LINES];
        set_beam(x, line, position);
        assert_int_equal(xm_getw(SYS_CTRL), (position < 160 ? XM_SYS_CTRL_HBLANK : 0) |
                                                (line >= 480 ? XM_SYS_CTRL_VBLANK : 0) |
                                                XM_SYS_CTRL_WR_MASK);
    }
    start_blit(x, &(blit){.words = 3});
    start_blit(x, &(blit){.words = 3});
    assert_int_equal(xm_getw(SYS_CTRL), 0x640F); /* line 524, position 799 */
    xm_setw(SYS_CTRL, 0x0C00);                   /* a write sets the nibble mask alone */
    assert_int_equal(xm_getw(SYS_CTRL), 0x6400);
}

static void scanline_reads_the_line(void **state)
{
    xosera *x = (xosera *)*state;
    for (int i = 0; i < LINES; i++) {
        set_beam(x, lines[i], positions[i % POSITIONS]);
        assert_int_equal(xreg_getw(SCANLINE), lines[i]);
        x->state.video.aud_ctrl = 0x1234;
        assert_int_equal(xreg_getw(AUD_CTRL), 0x1234); /* the read loads what comes next */
        assert_int_equal(x->state.host.xr.rd_xdata, lines[i]);
        assert_int_equal(xreg_getw_next(), lines[i]);
    }
    set_beam(x, 99, 799);
    xm_setw(RD_XADDR, XR_SCANLINE);
    assert_int_equal(xosera_beam_pixel(x), 1);
    assert_int_equal(xm_getw(XDATA), 99); /* as it was when the buffer was loaded */
    assert_int_equal(xreg_getw(SCANLINE), 100);
    xreg_setw(SCANLINE, 0x0007);
    assert_int_equal(x->state.status, INT_CTRL_VIDEO_INTR_F);
    assert_int_equal(x->state.beam.line, 100);
}

/* 1 comes before 2 and 2 before 3; nothing changes. */
static void a_step_is_refused_in_order(void **state)
{
    xosera *x = (xosera *)*state;
    x->state = copper_state();
    x->state.beam.line = 525;
    xosera *before = adapter_copy(x);
    const size_t vram_lens[] = {1023, 1024, 1024}, xr_lens[] = {6655, 6655, 6656};
    const int want[] = {XOSERA_VRAM_LENGTH, XOSERA_XR_LENGTH, XOSERA_STATE_RANGE};
    for (int i = 0; i < 3; i++) {
        assert_int_equal(
            xosera_beam_step(&x->state, x->vram, vram_lens[i], x->xr, xr_lens[i]).refusal, want[i]);
        assert_adapter_equal(x, before);
    }
    adapter_free(before);
}

/* The handle. */

static void the_handle_steps_to_a_place(void **state)
{
    xosera *x = (xosera *)*state;
    assert_int_equal(xosera_beam_to(x, 2, 3), 1603);
    assert_int_equal(xosera_beam_to(x, 2, 4), 1);
    assert_int_equal(xosera_beam_pixels(x, 0), 0);
    assert_int_equal(xosera_beam_pixels(x, 796), 796);
    assert_int_equal(x->state.beam.line, 3);
    assert_int_equal(x->state.beam.position, 0);
    assert_int_equal(xosera_beam_to(x, 525, 0), 0); /* a frame has no such place */
    assert_int_equal(xosera_beam_to(x, 0, 800), 0);
    assert_int_equal(x->state.beam.line, 3);
    set_beam(x, 470, 1);
    assert_int_equal(xosera_frame(x), 7999);
    assert_int_equal(x->state.status, INT_CTRL_VIDEO_INTR_F);
    if (getenv("XOSERA_QUICK") == NULL) {
        assert_int_equal(xosera_frame(x), XOSERA_FRAME_STEPS); /* the next one, not this */
        assert_int_equal(xosera_beam_to(x, 480, 0), XOSERA_FRAME_STEPS);
    }
    assert_int_equal(x->refusals, 0);
}

static void waits_end_at_their_flag(void **state)
{
    xosera *x = (xosera *)*state;
    set_beam(x, 478, 200);
    xwait_vblank();
    assert_int_equal(xm_getw(SYS_CTRL), 0x0C0F);
    xwait_vblank(); /* it is up: no time passes */
    assert_int_equal(x->state.beam.line, 480);
    assert_int_equal(x->state.beam.position, 0);
    set_beam(x, 524, 100);
    xwait_not_vblank();
    assert_int_equal(xm_getw(SYS_CTRL), 0x080F);
    xwait_not_vblank(); /* it is down */
    assert_true(at_rest(&x->state));
}

/* Each ends at its first refusal. */
static void waits_end_when_refused(void **state)
{
    xosera *x = (xosera *)*state;
    x->on_refusal = NULL;
    x->xr_len--;
    assert_int_equal(xosera_beam_pixels(x, UINT64_MAX), 0);
    assert_int_equal(xosera_beam_to(x, 100, 100), 0);
    assert_int_equal(xosera_frame(x), 0);
    xwait_vblank();
    set_beam(x, 524, 799);
    xwait_not_vblank();
    assert_int_equal(x->refusals, 5);
    assert_int_equal(x->last_refused.why, XOSERA_XR_LENGTH);
    assert_int_equal(x->last_refused.call, XOSERA_CALL_BEAM_STEP);
    x->xr_len++;
}

/* A step is no access: the blitter gets no share, and the mask stays. */
static void a_step_leaves_the_blitter(void **state)
{
    xosera *x = (xosera *)*state;
    start_blit(x, &(blit){.ctrl = 1, .shift = 0x7F00, .words = 9});
    assert_int_equal(xosera_step(x), 1);
    x->blit_per_access = 2;
    assert_int_equal(xosera_beam_pixels(x, 100), 100);
    assert_int_equal(xosera_words_left(x), 9);
    assert_int_equal(x->mask, 0x7);
}

/* The blitter's share in an access and the waits for it too. */
static void accesses_blits_and_ticks_leave_the_beam(void **state)
{
    xosera *x = (xosera *)*state;
    for (uint64_t share = 0; share < 3; share++) {
        set_beam(x, 479, 799);
        const xosera_beam before = x->state.beam;
        x->blit_per_access = share;
        start_blit(x, &(blit){.words = 99});
        start_blit(x, &(blit){.words = 99});
        vram_setw(0x40, 0x1111);
        assert_int_equal(vram_getw(0x40), 0x1111);
        assert_int_equal(xreg_getw(SCANLINE), 479);
        assert_int_equal(xm_getbh(SYS_CTRL) & SYS_CTRL_VBLANK_F, 0);
        (void)xosera_step(x);
        xwait_blit_ready();
        xwait_blit_done();
        xosera_tick(x);
        (void)xosera_line_up(x);
        assert_memory_equal(&x->state.beam, &before, sizeof before);
        assert_int_equal(x->state.status & INT_CTRL_VIDEO_INTR_F, 0);
    }
}

/* Save and load. */

static int save_all(const xosera *x, size_t room)
{
    static uint8_t file[XOSERA_FILE_BYTES(1024)];
    const xosera_save_answer a =
        xosera_save(&x->state, x->vram, x->vram_len, x->xr, x->xr_len, file, room);
    assert_int_equal(a.length, a.refusal == XOSERA_DONE ? sizeof file : 0);
    assert_int_equal(file[0], a.refusal == XOSERA_DONE ? 3 : 0); /* the room stays as it was */
    file[0] = 0;
    return a.refusal;
}

/* Each word alone keeps it from rest; a short room comes first. */
static void a_save_needs_rest(void **state)
{
    xosera *x = (xosera *)*state;
    const xosera_beam beams[] = {{1, 0, 0, 0},   {0, 1, 0, 0},   {524, 0, 0, 0},
                                 {0, 799, 0, 0}, {0, 0, 1, 0},   {0, 0, 1, 1023},
                                 {480, 0, 0, 0}, {3, 4, 1, 512}, {256, 0, 0, 0}};
    const size_t enough = XOSERA_FILE_BYTES(1024);
    x->state = idle_state(); /* the copper is enabled, which is no matter */
    assert_int_equal(save_all(x, enough), XOSERA_DONE);
    for (size_t i = 0; i < sizeof beams / sizeof beams[0]; i++) {
        x->state.beam = beams[i];
        assert_int_equal(save_all(x, enough), XOSERA_NOT_AT_REST);
        assert_int_equal(save_all(x, enough - 1), XOSERA_ROOM_SHORT);
        x->state.queued = 2;
        assert_int_equal(save_all(x, enough), XOSERA_STATE_RANGE);
        x->state.queued = 0;
    }
}

static void a_load_gives_rest(void **state)
{
    xosera *x = (xosera *)*state, *y = adapter_new(x->vram_len);
    static uint8_t file[XOSERA_FILE_BYTES(1024)];
    const xosera_state busy = copper_state();
    const uint16_t enabled[] = {0x8000, 0x0000};
    for (int i = 0; i < 2; i++) {
        x->state = mid_line_state();
        x->state.video.copp_ctrl = enabled[i];
        assert_int_equal(
            xosera_save(&x->state, x->vram, x->vram_len, x->xr, x->xr_len, file, sizeof file)
                .refusal,
            XOSERA_DONE);
        y->state = busy;
        assert_int_equal(
            xosera_load(&y->state, y->vram, y->vram_len, y->xr, y->xr_len, file, sizeof file)
                .refusal,
            XOSERA_DONE);
        assert_true(at_rest(&y->state));
        assert_adapter_equal(y, x);
        file[0] = 4; /* no saved adapter: the beam stays where it is */
        y->state = busy;
        assert_int_equal(
            xosera_load(&y->state, y->vram, y->vram_len, y->xr, y->xr_len, file, sizeof file)
                .refusal,
            XOSERA_NO_SAVED_ADAPTER);
        assert_int_equal(memcmp(&y->state, &busy, sizeof busy), 0);
    }
    adapter_free(y);
}

int beam_group(int *tests)
{
    const struct CMUnitTest list[] = {
        WITH_ADAPTER(a_frame_comes_back_to_rest),
        WITH_ADAPTER(the_ends_of_lines_and_frames),
        WITH_ADAPTER(a_frame_end_is_an_interrupt),
        WITH_ADAPTER(flags_show_the_blanking),
        WITH_ADAPTER(scanline_reads_the_line),
        WITH_ADAPTER(a_step_is_refused_in_order),
        WITH_ADAPTER(the_handle_steps_to_a_place),
        WITH_ADAPTER(waits_end_at_their_flag),
        WITH_ADAPTER(waits_end_when_refused),
        WITH_ADAPTER(a_step_leaves_the_blitter),
        WITH_ADAPTER(accesses_blits_and_ticks_leave_the_beam),
        WITH_ADAPTER(a_save_needs_rest),
        WITH_ADAPTER(a_load_gives_rest),
    };
    return RUN_GROUP("beam", list, tests);
}
