/* A small program as it is written for the board: a display of four-bit pixels, colours, a font,
 * rectangles and a masked sprite, waits of its own, an interrupt handler, a copper list. Only the
 * include differs there: "xosera_m68k_api.h". */
#include "xosera_model.h"

#include "board_demo.h"

const uint16_t demo_colours[DEMO_COLOURS] = {0x0000, 0x000A, 0x00A0, 0x00AA, 0x0A00, 0x0A0A,
                                             0x0AA0, 0x0AAA, 0x0555, 0x055F, 0x05F5, 0x05FF,
                                             0x0F55, 0x0F5F, 0x0FF5, 0x0FFF};

const uint8_t demo_glyphs[DEMO_GLYPHS][8] = {
    {0x18, 0x24, 0x42, 0x42, 0x7E, 0x42, 0x42, 0x00},
    {0x7C, 0x42, 0x42, 0x7C, 0x42, 0x42, 0x7C, 0x00},
};

/* Colour 0 is not drawn. The last two pixels of each line fill up the word. */
const uint16_t demo_sprite[DEMO_SPRITE_LINES][DEMO_SPRITE_WORDS] = {
    {0x0000, 0xEE00, 0x00FF}, {0x0EEE, 0x11EE, 0xE0FF}, {0xE111, 0x1111, 0x1EFF},
    {0xE111, 0x1111, 0x1EFF}, {0x0EEE, 0x11EE, 0xE0FF}, {0x0000, 0xEE00, 0x00FF},
};

volatile uint16_t demo_frames, demo_blits, demo_alarms;

enum { ENABLED = INT_CTRL_VIDEO_EN_F | INT_CTRL_TIMER_EN_F | INT_CTRL_BLIT_EN_F };

void demo_display(void)
{
    xv_prep();
    xreg_setw(VID_CTRL, MAKE_VID_CTRL(0, DEMO_BORDER));
    xreg_setw(VID_LEFT, 0);
    xreg_setw(VID_RIGHT, 640);
    xreg_setw(PA_GFX_CTRL, MAKE_GFX_CTRL(0x00, 0, XR_GFX_BPP_4, 1, 3, 3));
    xreg_setw(PA_TILE_CTRL, MAKE_TILE_CTRL(DEMO_FONT, 0, 0, 8));
    xreg_setw(PA_DISP_ADDR, DEMO_SCREEN);
    xreg_setw(PA_LINE_LEN, DEMO_LINE_WORDS);
    xreg_setw(PA_HV_SCROLL, MAKE_HV_SCROLL(0, 0));
    xreg_setw(PA_HV_FSCALE, MAKE_HV_FSCALE(0, 0));
    xreg_setw(PB_GFX_CTRL, MAKE_GFX_CTRL(0x00, 1, XR_GFX_BPP_1, 0, 0, 0));
    xreg_setw(AUD_CTRL, 0);
    xm_setbl(SYS_CTRL, SYS_CTRL_WR_MASK_F);
}

void demo_palette(void)
{
    xmem_setw_next_addr(XR_COLOR_A_ADDR);
    for (int i = 0; i < DEMO_COLOURS; i++) {
        xmem_setw_next(demo_colours[i]);
    }
}

/* Two lines of a glyph to a word of tile memory. */
void demo_font(void)
{
    xm_setw(WR_XADDR, DEMO_FONT);
    for (int i = 0; i < DEMO_GLYPHS * 8; i += 2) {
        const uint8_t *const lines = &demo_glyphs[i / 8][i % 8];
        xm_setw(XDATA, (lines[0] << 8) | lines[1]);
    }
}

/* WR_INCR and WR_ADDR stand side by side, and so a long sets both. */
void demo_load_sprite(void)
{
    xm_setl(WR_INCR, (1UL << 16) | DEMO_SPRITE);
    for (int i = 0; i < DEMO_SPRITE_LINES * DEMO_SPRITE_WORDS; i++) {
        vram_setw_next(demo_sprite[i / DEMO_SPRITE_WORDS][i % DEMO_SPRITE_WORDS]);
    }
}

/* Another border below the split line, from the next frame on. */
void demo_copper(void)
{
    static const uint32_t list[] = {
        COP_MOVER(MAKE_VID_CTRL(0, DEMO_BORDER), VID_CTRL),
        COP_WAIT_V(DEMO_SPLIT_LINE),
        COP_MOVER(MAKE_VID_CTRL(0, DEMO_BORDER + 1), VID_CTRL),
        COP_END(),
    };
    xreg_setw(COPP_CTRL, 0);
    xmem_setw_next_addr(XR_COPPER_ADDR);
    for (unsigned i = 0; i < sizeof list / sizeof list[0]; i++) {
        xmem_setw_next(list[i] >> 16);
        xmem_setw_next(list[i] & 0xFFFF);
    }
    xreg_setw(COPP_CTRL, COPP_CTRL_COPP_EN_F);
}

void demo_start_interrupts(void)
{
    demo_frames = demo_blits = demo_alarms = 0;
    xm_setw(INT_CTRL, ENABLED | INT_CTRL_CLEAR_ALL_F);
}

/* What is enabled and pending is acknowledged; the sources stay enabled as they are. */
void demo_interrupt(void)
{
    const uint16_t enabled = xm_getw(INT_CTRL) & INT_CTRL_EN_ALL_F;
    const uint16_t pending = xm_getw(INT_CTRL) & enabled >> 8;
    xm_setw(INT_CTRL, enabled | pending);
    if (pending & INT_CTRL_VIDEO_INTR_F) {
        demo_frames++;
    }
    if (pending & INT_CTRL_BLIT_INTR_F) {
        demo_blits++;
    }
    if (pending & INT_CTRL_TIMER_INTR_F) {
        demo_alarms++;
    }
}

static void wait_queue(void)
{
    while (xm_getbh(SYS_CTRL) & SYS_CTRL_BLIT_FULL_F) {
    }
}

/* Masks and shift for `width` pixels from pixel x of a line on. */
static uint16_t edges(uint16_t x, uint16_t width, bool shifted)
{
    const uint16_t first = x % 4, over = (first + width) % 4;
    return MAKE_BLIT_SHIFT(0xF >> first, over == 0 ? 0xF : 0xF << (4 - over), shifted ? first : 0);
}

void demo_rectangle(uint16_t x, uint16_t y, uint16_t width, uint16_t height, uint16_t colour)
{
    const uint16_t words = (x % 4 + width + 3) / 4;
    wait_queue();
    xreg_setw(BLIT_CTRL, MAKE_BLIT_CTRL(0x00, 0, 0, 1));
    xreg_setw_next(0x0000);                                    /* BLIT_ANDC */
    xreg_setw_next(0x0000);                                    /* BLIT_XOR */
    xreg_setw_next(0x0000);                                    /* BLIT_MOD_S */
    xreg_setw_next(colour * 0x1111);                           /* BLIT_SRC_S */
    xreg_setw_next(DEMO_LINE_WORDS - words);                   /* BLIT_MOD_D */
    xreg_setw_next(DEMO_SCREEN + y * DEMO_LINE_WORDS + x / 4); /* BLIT_DST_D */
    xreg_setw_next(edges(x, width, false));                    /* BLIT_SHIFT */
    xreg_setw_next(height - 1);                                /* BLIT_LINES */
    xreg_setw_next(words - 1);                                 /* BLIT_WORDS */
}

void demo_clear(uint16_t colour)
{
    demo_rectangle(0, 0, DEMO_LINE_WORDS * 4, DEMO_LINES, colour);
}

/* The sprite at any pixel. A line that the shift makes one word longer takes that word from the
 * next line, and MOD_S goes back by it. */
void demo_draw_sprite(uint16_t x, uint16_t y)
{
    const uint16_t words = (x % 4 + DEMO_SPRITE_WIDTH + 3) / 4;
    wait_queue();
    xreg_setw(BLIT_CTRL, MAKE_BLIT_CTRL(0x00, 0, 1, 0));
    xreg_setw(BLIT_ANDC, 0x0000);
    xreg_setw(BLIT_XOR, 0x0000);
    xreg_setw(BLIT_MOD_S, DEMO_SPRITE_WORDS - words);
    xreg_setw(BLIT_SRC_S, DEMO_SPRITE);
    xreg_setw(BLIT_MOD_D, DEMO_LINE_WORDS - words);
    xreg_setw(BLIT_DST_D, DEMO_SCREEN + y * DEMO_LINE_WORDS + x / 4);
    xreg_setw(BLIT_SHIFT, edges(x, DEMO_SPRITE_WIDTH, true));
    xreg_setw(BLIT_LINES, DEMO_SPRITE_LINES - 1);
    xreg_setw(BLIT_WORDS, words - 1);
}

/* One pixel, under the nibble mask. */
void demo_plot(uint16_t x, uint16_t y, uint16_t colour)
{
    xm_setbl(SYS_CTRL, 0x8 >> x % 4);
    vram_setw(DEMO_SCREEN + y * DEMO_LINE_WORDS + x / 4, colour * 0x1111);
    xm_setbl(SYS_CTRL, SYS_CTRL_WR_MASK_F);
}

/* An even number of words, read by longs. */
uint32_t demo_checksum(uint16_t at, uint16_t words)
{
    uint32_t sum = 0;
    xm_setw(RD_INCR, 1);
    xm_setw(RD_ADDR, at);
    for (uint16_t i = 0; i < words; i += 2) {
        sum = (sum << 1 | sum >> 31) ^ xm_getl(DATA);
    }
    return sum;
}

void demo_wait_blits(void)
{
    while (xm_getbh(SYS_CTRL) & SYS_CTRL_BLIT_BUSY_F) {
    }
}

void demo_wait_visible(void)
{
    while (xm_getbh(SYS_CTRL) & SYS_CTRL_VBLANK_F) {
    }
}

void demo_wait_frame_end(void)
{
    while (!(xm_getbh(SYS_CTRL) & SYS_CTRL_VBLANK_F)) {
    }
}

void demo_wait_left(void)
{
    while (!(xm_getw(SYS_CTRL) & XM_SYS_CTRL_HBLANK)) {
    }
}

void demo_wait_line(uint16_t line)
{
    while (xreg_getw(SCANLINE) != line) {
    }
}

/* Polled, with its interrupt masked: the countdown is stopped and the bit acknowledged. */
void demo_wait_alarm(uint16_t tenths)
{
    xm_setw(INT_CTRL, (ENABLED & ~INT_CTRL_TIMER_EN_F) | INT_CTRL_TIMER_INTR_F);
    xm_setw(TIMER, tenths);
    while (!(xm_getbl(INT_CTRL) & INT_CTRL_TIMER_INTR_F)) {
    }
    xm_setw(TIMER, 0);
    xm_setw(INT_CTRL, ENABLED | INT_CTRL_TIMER_INTR_F);
}

/* How long it took. */
uint16_t demo_delay(uint16_t tenths)
{
    const uint16_t start = xm_getw(TIMER);
    while ((uint16_t)(xm_getw(TIMER) - start) < tenths) {
    }
    return (uint16_t)(xm_getw(TIMER) - start);
}
