/* The board's names: display constants and makers, the lines of nested accesses; a program as it is
 * written for the board, run at the board's rates. */
#include "tests.h"

#include "board_code.h"
#include "board_demo.h"

/* Bit positions: GFX_CTRL and VID_CTRL as the change requests have them, the others Xosera's. */
static void fields_have_their_places(void **state)
{
    (void)state;
    assert_int_equal(VID_CTRL_SWAP_AB_F, 0x8000);
    assert_int_equal(VID_CTRL_BORDCOL_F, 0x00FF);
    assert_int_equal(AUD_CTRL_AUD_EN_F, 0x0001);
    assert_int_equal(COPP_CTRL_COPP_EN_F, 0x8000);
    assert_int_equal(GFX_CTRL_COLORBASE_F, 0xFF00);
    assert_int_equal(GFX_CTRL_BLANK_F, 0x0080);
    assert_int_equal(GFX_CTRL_BITMAP_F, 0x0040);
    assert_int_equal(GFX_CTRL_BPP_F, 0x0030);
    assert_int_equal(GFX_CTRL_H_REPEAT_F, 0x000C);
    assert_int_equal(GFX_CTRL_V_REPEAT_F, 0x0003);
    assert_int_equal(XR_GFX_BPP_4 << GFX_CTRL_BPP_B, 0x0010);
    assert_int_equal(XR_GFX_BPP_8 << GFX_CTRL_BPP_B, 0x0020);
    assert_int_equal(TILE_CTRL_TILEBASE_F, 0xFC00);
    assert_int_equal(TILE_CTRL_DISP_TILEMEM_F, 0x0200);
    assert_int_equal(TILE_CTRL_TILE_VRAM_F, 0x0100);
    assert_int_equal(TILE_CTRL_TILEHEIGHT_F, 0x000F);
    assert_int_equal(HV_SCROLL_H_F, 0x1F00);
    assert_int_equal(HV_SCROLL_V_F, 0x003F);
    assert_int_equal(HV_FSCALE_H_F, 0x0700);
    assert_int_equal(HV_FSCALE_V_F, 0x0007);
}

static void status_flags_are_the_words_high_byte(void **state)
{
    (void)state;
    assert_int_equal(SYS_CTRL_MEM_WAIT_F, 0x80);
    assert_int_equal(SYS_CTRL_BLIT_FULL_F, 0x40);
    assert_int_equal(SYS_CTRL_BLIT_BUSY_F, 0x20);
    assert_int_equal(SYS_CTRL_HBLANK_F, 0x08);
    assert_int_equal(SYS_CTRL_VBLANK_F, 0x04);
    assert_int_equal(XM_SYS_CTRL_MEM_WAIT, 0x8000);
    assert_int_equal(XM_SYS_CTRL_BLIT_FULL, 0x4000);
    assert_int_equal(XM_SYS_CTRL_BLIT_BUSY, 0x2000);
    assert_int_equal(XM_SYS_CTRL_HBLANK, 0x0800);
    assert_int_equal(XM_SYS_CTRL_VBLANK, 0x0400);
    assert_int_equal(xm_getbh(SYS_CTRL) & SYS_CTRL_MEM_WAIT_F, 0);
}

/* One field at a time, with all its bits set. */
static void makers_put_each_field_in_its_place(void **state)
{
    (void)state;
    assert_int_equal(MAKE_VID_CTRL(1, 0), 0x8000);
    assert_int_equal(MAKE_VID_CTRL(0, 0xFF), 0x00FF);
    assert_int_equal(MAKE_GFX_CTRL(0xFF, 0, 0, 0, 0, 0), 0xFF00);
    assert_int_equal(MAKE_GFX_CTRL(0, 1, 0, 0, 0, 0), 0x0080);
    assert_int_equal(MAKE_GFX_CTRL(0, 0, XR_GFX_BPP_X, 0, 0, 0), 0x0030);
    assert_int_equal(MAKE_GFX_CTRL(0, 0, 0, 1, 0, 0), 0x0040);
    assert_int_equal(MAKE_GFX_CTRL(0, 0, 0, 0, 3, 0), 0x000C);
    assert_int_equal(MAKE_GFX_CTRL(0, 0, 0, 0, 0, 3), 0x0003);
    assert_int_equal(MAKE_TILE_CTRL(0xFFFF, 0, 0, 1), 0xFC00);
    assert_int_equal(MAKE_TILE_CTRL(0, 1, 0, 1), 0x0200);
    assert_int_equal(MAKE_TILE_CTRL(0, 0, 1, 1), 0x0100);
    assert_int_equal(MAKE_TILE_CTRL(0, 0, 0, 16), 0x000F);
    assert_int_equal(MAKE_HV_SCROLL(31, 0), 0x1F00);
    assert_int_equal(MAKE_HV_SCROLL(0, 63), 0x003F);
    assert_int_equal(MAKE_HV_FSCALE(7, 0), 0x0700);
    assert_int_equal(MAKE_HV_FSCALE(0, 7), 0x0007);
    assert_int_equal(MAKE_BLIT_CTRL(0xFF, 0, 0, 0), 0xFF00);
    assert_int_equal(MAKE_BLIT_CTRL(0, 1, 0, 0), 0x0020);
    assert_int_equal(MAKE_BLIT_CTRL(0, 0, 1, 0), 0x0010);
    assert_int_equal(MAKE_BLIT_CTRL(0, 0, 0, 1), 0x0001);
    assert_int_equal(MAKE_BLIT_SHIFT(0xF, 0, 0), 0xF000);
    assert_int_equal(MAKE_BLIT_SHIFT(0, 0xF, 0), 0x0F00);
    assert_int_equal(MAKE_BLIT_SHIFT(0, 0, 3), 0x0003);
}

/* What does not fit does not reach the field beside it. */
static void makers_cut_their_arguments(void **state)
{
    (void)state;
    assert_int_equal(MAKE_VID_CTRL(2, 0x100), 0);
    assert_int_equal(MAKE_GFX_CTRL(0x100, 2, 4, 2, 4, 4), 0);
    assert_int_equal(MAKE_TILE_CTRL(0x103FF, 2, 2, 17), 0);
    assert_int_equal(MAKE_HV_SCROLL(32, 64), 0);
    assert_int_equal(MAKE_HV_FSCALE(8, 8), 0);
    assert_int_equal(MAKE_BLIT_CTRL(0x100, 2, 2, 2), 0);
    assert_int_equal(MAKE_BLIT_SHIFT(0x10, 0x10, 4), 0);
    assert_int_equal(MAKE_VID_CTRL(-1, -1), 0x80FF);
    assert_int_equal(MAKE_GFX_CTRL(-1, -1, -1, -1, -1, -1), 0xFFFF);
    assert_int_equal(MAKE_TILE_CTRL(-1, -1, -1, 0), 0xFF0F);
    assert_int_equal(MAKE_HV_SCROLL(-1, -1), 0x1F3F);
}

static int counted;

static int count(int value)
{
    counted++;
    return value;
}

static void makers_evaluate_once(void **state)
{
    (void)state;
    counted = 0;
    assert_int_equal(MAKE_VID_CTRL(count(1), count(2)), 0x8002);
    assert_int_equal(counted, 2);
    assert_int_equal(MAKE_GFX_CTRL(count(0x40), count(0), count(1), count(1), count(2), count(3)),
                     0x405B);
    assert_int_equal(counted, 8);
    assert_int_equal(MAKE_TILE_CTRL(count(0x4C00), count(1), count(0), count(8)), 0x4E07);
    assert_int_equal(counted, 12);
    assert_int_equal(MAKE_HV_SCROLL(count(5), count(9)), 0x0509);
    assert_int_equal(MAKE_HV_FSCALE(count(1), count(5)), 0x0105);
    assert_int_equal(MAKE_BLIT_CTRL(count(0x50), count(0), count(1), count(0)), 0x5010);
    assert_int_equal(MAKE_BLIT_SHIFT(count(7), count(14), count(1)), 0x7E01);
    assert_int_equal(counted, 23);
}

static void makers_are_constants(void **state)
{
    static const uint16_t modes[] = {
        MAKE_VID_CTRL(1, 0x12),
        MAKE_GFX_CTRL(0x40, 0, XR_GFX_BPP_4, 1, 1, 1),
        MAKE_TILE_CTRL(XR_TILE_ADDR + 0x0C00, 0, 0, 8),
        MAKE_HV_SCROLL(5, 9),
        MAKE_HV_FSCALE(1, 5),
        MAKE_BLIT_CTRL(0x50, 0, 1, 0),
        MAKE_BLIT_SHIFT(0x7, 0xE, 1),
    };
    static const uint16_t want[] = {0x8012, 0x4055, 0x4C07, 0x0509, 0x0105, 0x5010, 0x7E01};
    (void)state;
    assert_memory_equal(modes, want, sizeof want);
}

/* The registers keep what the makers made. */
static void display_words_read_back(void **state)
{
    xosera *x = (xosera *)*state;
    xreg_setw(VID_CTRL, MAKE_VID_CTRL(1, 0x23));
    xreg_setw(PA_GFX_CTRL, MAKE_GFX_CTRL(0xA0, 0, XR_GFX_BPP_8, 1, 0, 1));
    xreg_setw(PB_TILE_CTRL, MAKE_TILE_CTRL(XR_TILE_ADDR, 1, 1, 12));
    xreg_setw(PB_HV_SCROLL, MAKE_HV_SCROLL(3, 4));
    xreg_setw(AUD0_VOL, 0x8080); /* sound: dropped */
    assert_int_equal(xreg_getw(VID_CTRL), 0x8023);
    assert_int_equal(xreg_getw(PA_GFX_CTRL), 0xA061);
    assert_int_equal(xreg_getw(PB_TILE_CTRL), 0x430B);
    assert_int_equal(xreg_getw(PB_HV_SCROLL), 0x0304);
    assert_int_equal(xreg_getw(AUD0_VOL), 0);
    assert_int_equal(x->state.video.pa[0], 0xA061);
}

/* Refusals are collected here, not failures of the test. */
static void fill_the_blitter(xosera *x)
{
    x->on_refusal = NULL;
    board_clear(0x100, 4, 0x1111);
    board_clear(0x200, 4, 0x2222);
    assert_true(x->state.queued);
}

/* Reads and writes of its own, on lines of their own. */
static uint16_t inner(void)
{
    xm_setw(RD_INCR, 1);
    return vram_getw(0x20);
}

static int refused_line;

static uint16_t refused_inner(void)
{
    refused_line = __LINE__ + 1;
    xreg_setw(BLIT_XOR, 0x1234);
    return vram_getw(0x20);
}

static void a_refusal_has_the_line_of_the_outer_access(void **state)
{
    xosera *x = (xosera *)*state;
    int line;
    fill_the_blitter(x);
    line = __LINE__ + 1;
    xreg_setw(BLIT_CTRL, inner());
    assert_int_equal(x->refusals, 1);
    assert_int_equal(x->last_refused.line, line);
    assert_string_equal(x->last_refused.file, __FILE__);
    xm_setw(WR_XADDR, XR_BLIT_ANDC);
    line = __LINE__ + 1;
    xm_setw(XDATA, xm_getw(RD_INCR) + inner());
    assert_int_equal(x->refusals, 2);
    assert_int_equal(x->last_refused.line, line);
    line = __LINE__ + 1;
    xmem_setw(inner() * 0 + XR_BLIT_ANDC, xmem_getw(XR_TILE_ADDR + inner() % 16));
    assert_int_equal(x->refusals, 3);
    assert_int_equal(x->last_refused.line, line);
}

static void a_refusal_has_the_line_of_the_inner_access(void **state)
{
    xosera *x = (xosera *)*state;
    fill_the_blitter(x);
    vram_setw(0x30, refused_inner());
    assert_int_equal(x->refusals, 1);
    assert_int_equal(x->last_refused.line, refused_line);
    xreg_setw(BLIT_CTRL, refused_inner());
    assert_int_equal(x->refusals, 3);
    assert_int_equal(x->first_refused.line, refused_line);
    assert_int_not_equal(x->last_refused.line, refused_line);
}

static int line_of[XOSERA_MAIN_REGS], last_line;

static void take_down_line(xosera *x, const xosera_access *what)
{
    (void)x;
    line_of[what->reg] = last_line = what->line;
}

/* Every accessor with an argument has its own line, not one of its argument's, and takes it back.
 */
static void every_setter_takes_down_its_own_line(void **state)
{
    xosera *x = (xosera *)*state;
    xm_setw(WR_INCR, 1);
    x->on_access = take_down_line;
#define HOLDS(access) ((access), assert_int_equal(last_line, __LINE__), assert_null(x->file))
    HOLDS(xm_setbh(WR_ADDR, inner()));
    HOLDS(xm_setbl(WR_ADDR, inner()));
    HOLDS(xm_setw(WR_ADDR, inner()));
    HOLDS(xm_setl(WR_INCR, inner()));
    HOLDS(xreg_setw(VID_LEFT, inner()));
    HOLDS(xreg_setw_next(inner()));
    HOLDS(xmem_setw(XR_COLOR_ADDR + inner() % 8, inner()));
    HOLDS((void)xmem_getw(XR_COLOR_ADDR + inner() % 8));
    HOLDS(xmem_setw_next_addr(XR_COLOR_ADDR + inner() % 8));
    HOLDS(xmem_getw_next_addr(XR_COLOR_ADDR + inner() % 8));
    HOLDS(xmem_setw_next(inner()));
    HOLDS(vram_setw(inner(), inner()));
    HOLDS(vram_setl(inner(), inner()));
    HOLDS((void)vram_getw(inner()));
    HOLDS((void)vram_getl(inner()));
    HOLDS(vram_setw_next_addr(inner()));
    HOLDS(vram_getw_next_addr(inner()));
    HOLDS(vram_setw_next(inner()));
    HOLDS(vram_setl_next(inner()));
#undef HOLDS
}

static void accesses_of_one_expression_have_their_lines(void **state)
{
    xosera *x = (xosera *)*state;
    const int line = __LINE__ + 2;
    x->on_access = take_down_line;
    (void)(xm_getw(RD_INCR) +  /* line; the three may be done in any order */
           xm_getbl(WR_INCR) + /* line + 1 */
           xm_getl(RD_XADDR)); /* line + 2 */
    x->on_access = NULL;
    assert_int_equal(line_of[XM_RD_INCR], line);
    assert_int_equal(line_of[XM_WR_INCR], line + 1);
    assert_int_equal(line_of[XM_RD_XADDR], line + 2);
    assert_int_equal(line_of[XM_WR_XADDR], line + 2); /* the long's second word */
}

/* The board as the demo has it: all of VRAM, a CPU of 10 MHz. */
static int demo_setup(void **state)
{
    const int set_up = adapter_setup(state);
    xosera *x = (xosera *)*state;
    uint16_t *const vram = (uint16_t *)realloc(x->vram, XOSERA_VRAM_MAX * sizeof *vram);
    assert_non_null(vram);
    fill(vram, XOSERA_VRAM_MAX, 1);
    x->vram = vram;
    x->vram_len = XOSERA_VRAM_MAX;
    xosera_board_rates(x, 10000000);
    return set_up;
}

#define WITH_DEMO(test) cmocka_unit_test_setup_teardown(test, demo_setup, adapter_teardown)

/* The CPU takes an interrupt while the line is up, but not in the handler or between the bytes of a
 * word. The demo reads the high byte of SYS_CTRL alone. */
static void take_interrupt(xosera *x, const xosera_access *what)
{
    if ((what->odd || what->reg == XM_SYS_CTRL) && what->call == XOSERA_CALL_READ) {
        x->on_access = NULL;
        if (xosera_line_up(x)) {
            demo_interrupt();
        }
        x->on_access = take_interrupt;
    }
}

/* The screen that the demo should have drawn, a pixel a byte. */
enum { DEMO_WIDTH = 4 * DEMO_LINE_WORDS };
static uint8_t screen[DEMO_LINES][DEMO_WIDTH];

static void plain_rectangle(int x, int y, int width, int height, uint8_t colour)
{
    for (int i = 0; i < width * height; i++) {
        screen[y + i / width][x + i % width] = colour;
    }
}

static void plain_sprite(int x, int y)
{
    for (int i = 0; i < DEMO_SPRITE_WIDTH * DEMO_SPRITE_LINES; i++) {
        const int at = i % DEMO_SPRITE_WIDTH, line = i / DEMO_SPRITE_WIDTH;
        const uint8_t colour = demo_sprite[line][at / 4] >> (12 - 4 * (at % 4)) & 0xF;
        if (colour != 0) {
            screen[y + line][x + at] = colour;
        }
    }
}

static void assert_screen(const xosera *x)
{
    for (int i = 0; i < DEMO_LINES * DEMO_WIDTH; i++) {
        const int wanted = screen[i / DEMO_WIDTH][i % DEMO_WIDTH];
        if (xosera_pixel(x, (uint64_t)(DEMO_SCREEN + i / 4), (unsigned)i % 4) != wanted) {
            fail_msg("pixel x %d, y %d is not %d", i % DEMO_WIDTH, i / DEMO_WIDTH, wanted);
        }
    }
}

/* Beside the screen and the sprite VRAM is as it was. */
static void assert_nothing_else(const xosera *x)
{
    for (int i = 0; i < XOSERA_VRAM_MAX; i++) {
        const bool on_screen = DEMO_SCREEN <= i && i < DEMO_SCREEN + DEMO_LINES * DEMO_LINE_WORDS;
        const bool in_sprite =
            DEMO_SPRITE <= i && i < DEMO_SPRITE + DEMO_SPRITE_LINES * DEMO_SPRITE_WORDS;
        if (!on_screen && !in_sprite) {
            assert_int_equal(x->vram[i], (uint16_t)(((uint32_t)i + 1) * 40503u));
        }
    }
}

static void demo_sets_up_its_display(void **state)
{
    xosera *x = (xosera *)*state;
    demo_display();
    demo_palette();
    demo_font();
    assert_int_equal(x->state.video.vid_ctrl, 0x0008);
    assert_int_equal(x->state.video.vid_right, 640);
    assert_int_equal(x->state.video.pa[0], 0x005F);
    assert_int_equal(x->state.video.pa[1], 0x4C07);
    assert_int_equal(x->state.video.pa[2], DEMO_SCREEN);
    assert_int_equal(x->state.video.pa[3], DEMO_LINE_WORDS);
    assert_int_equal(x->state.video.pb[0], 0x0080);
    assert_memory_equal(x->xr + XOSERA_XR_COLOR_AT, demo_colours, sizeof demo_colours);
    assert_int_equal(x->xr[XOSERA_XR_TILE_AT + 0x0C00], 0x1824);
    assert_int_equal(x->xr[XOSERA_XR_TILE_AT + 0x0C07], 0x7C00);
}

/* At every pixel of a word, of every width up to two words, without a wait between them. */
static void demo_draws(void **state)
{
    xosera *x = (xosera *)*state;
    demo_load_sprite();
    demo_clear(3);
    plain_rectangle(0, 0, DEMO_WIDTH, DEMO_LINES, 3);
    for (uint16_t i = 0; i < 32; i++) {
        const uint16_t left = (uint16_t)(i * 4 + i % 4), width = (uint16_t)(1 + i / 4);
        demo_rectangle(left, i, width, 2, i % 16);
        plain_rectangle(left, i, width, 2, i % 16);
        demo_draw_sprite(left, (uint16_t)(40 + i));
        plain_sprite(left, 40 + i);
    }
    demo_wait_blits();
    demo_plot(77, 100, 9);
    screen[100][77] = 9;
    assert_screen(x);
    assert_nothing_else(x);
    assert_int_equal(x->state.engine.running, 0);
}

static void demo_reads_back(void **state)
{
    xosera *x = (xosera *)*state;
    uint32_t sum = 0;
    for (int i = 0; i < 200; i += 2) {
        const uint32_t pair = (uint32_t)x->vram[0x3000 + i] << 16 | x->vram[0x3001 + i];
        sum = (sum << 1 | sum >> 31) ^ pair;
    }
    assert_int_equal(demo_checksum(0x3000, 200), sum);
}

/* Each of these is a loop on a register, and ends because time passes with its accesses. */
static void demo_waits_end(void **state)
{
    xosera *x = (xosera *)*state;
    demo_clear(1);
    demo_clear(2); /* queued */
    demo_clear(3); /* waits for the queue */
    assert_int_equal(x->state.engine.running, 1);
    demo_wait_blits();
    assert_int_equal(x->state.engine.running, 0);
    demo_wait_line(100);
    assert_int_equal(x->state.beam.line, 100);
    demo_wait_left();
    assert_in_range(x->state.beam.position, 0, 160 + 50);
    demo_wait_frame_end();
    assert_in_range(x->state.beam.line, 480, 481);
    demo_wait_visible();
    assert_in_range(x->state.beam.line, 0, 1);
    assert_in_range(demo_delay(5), 5, 6);
    demo_wait_alarm(4);
    assert_int_equal(x->state.host.timer.interval, 0);
    assert_int_equal(xm_getbl(INT_CTRL) & INT_CTRL_TIMER_INTR_F, 0);
}

static void demo_handler_counts(void **state)
{
    xosera *x = (xosera *)*state;
    demo_start_interrupts();
    x->on_access = take_interrupt;
    demo_clear(1);
    demo_clear(2);
    demo_wait_blits();
    assert_int_equal(demo_blits, 2);
    demo_wait_frame_end();
    demo_wait_visible();
    demo_wait_frame_end();
    assert_int_equal(demo_frames, 2);
    xm_setw(TIMER, 3);
    assert_in_range(demo_delay(10), 10, 11);
    assert_int_equal(demo_alarms, 3);
    demo_wait_alarm(4); /* polled: the handler does not see it */
    assert_int_equal(demo_alarms, 3);
    x->on_access = NULL;
}

static void demo_splits_the_border(void **state)
{
    xosera *x = (xosera *)*state;
    demo_display();
    demo_copper();
    demo_wait_frame_end();
    demo_wait_line(100);
    assert_int_equal(xreg_getw(VID_CTRL), DEMO_BORDER);
    demo_wait_line(DEMO_SPLIT_LINE);
    demo_wait_left();
    assert_int_equal(xreg_getw(VID_CTRL), DEMO_BORDER + 1);
    demo_wait_frame_end();
    demo_wait_visible();
    assert_int_equal(xreg_getw(VID_CTRL), DEMO_BORDER);
    assert_int_equal(x->state.beam.copper_running, 1);
}

int board_group(int *tests)
{
    const struct CMUnitTest list[] = {
        cmocka_unit_test(fields_have_their_places),
        WITH_ADAPTER(status_flags_are_the_words_high_byte),
        cmocka_unit_test(makers_put_each_field_in_its_place),
        cmocka_unit_test(makers_cut_their_arguments),
        cmocka_unit_test(makers_evaluate_once),
        cmocka_unit_test(makers_are_constants),
        WITH_ADAPTER(display_words_read_back),
        WITH_ADAPTER(a_refusal_has_the_line_of_the_outer_access),
        WITH_ADAPTER(a_refusal_has_the_line_of_the_inner_access),
        WITH_ADAPTER(every_setter_takes_down_its_own_line),
        WITH_ADAPTER(accesses_of_one_expression_have_their_lines),
        WITH_DEMO(demo_sets_up_its_display),
        WITH_DEMO(demo_draws),
        WITH_DEMO(demo_reads_back),
        WITH_DEMO(demo_waits_end),
        WITH_DEMO(demo_handler_counts),
        WITH_DEMO(demo_splits_the_border),
    };
    return RUN_GROUP("board's names", list, tests);
}
