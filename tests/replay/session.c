/*
 * Records a session of firmware that draws, plots, clears what it drew, looks and waits, to the
 * file that is named.
 */
#include "xosera_model.h"

enum { PICTURE = 0x10, FIELD = 0x20, LINE_WORDS = 2 };

/* Two lines of four pixels from pixel 1 of the field on, without a left mask. */
static void draw(void)
{
    xreg_setw(BLIT_CTRL, MAKE_BLIT_CTRL(0, 0, 0, 0));
    xreg_setw(BLIT_MOD_S, 1 - LINE_WORDS);
    xreg_setw(BLIT_SRC_S, PICTURE);
    xreg_setw(BLIT_DST_D, FIELD);
    xreg_setw(BLIT_SHIFT, MAKE_BLIT_SHIFT(0xF, 0x8, 1));
    xreg_setw(BLIT_LINES, 1);
    xreg_setw(BLIT_WORDS, LINE_WORDS - 1);
    xwait_blit_done();
    xm_setw(INT_CTRL, INT_CTRL_BLIT_INTR_F);
}

static void clear(void)
{
    xreg_setw(BLIT_CTRL, MAKE_BLIT_CTRL(0, 0, 0, 1));
    xreg_setw(BLIT_SRC_S, 0);
    xreg_setw(BLIT_DST_D, FIELD);
    xreg_setw(BLIT_SHIFT, MAKE_BLIT_SHIFT(0xF, 0xF, 0));
    xreg_setw(BLIT_LINES, 1);
    xreg_setw(BLIT_WORDS, LINE_WORDS - 1);
    xwait_blit_done();
}

/* One pixel, under the nibble mask. */
static void plot(void)
{
    xm_setbl(SYS_CTRL, 0x4);
    vram_setw(FIELD, 0x9999);
    xm_setbl(SYS_CTRL, 0xF);
}

/* The word that was there before the store. */
static uint16_t exchange(uint16_t at, uint16_t word)
{
    xm_setw(RD_ADDR, at);
    vram_setw(at, word);
    return xm_getw(DATA);
}

int main(int argc, char **argv)
{
    static uint16_t vram[256], xr[XOSERA_XR_WORDS];
    xosera adapter;
    xosera_attach(&adapter, vram, 256, xr, XOSERA_XR_WORDS);
    xosera_use(&adapter);
    vram[PICTURE] = 0x1234;
    vram[PICTURE + 1] = 0x5678;
    if (argc != 2 || !xosera_file_done(xosera_record(&adapter, argv[1]))) {
        return 2;
    }
    draw();
    plot();
    clear();
    (void)exchange(PICTURE, 0);
    adapter.tick_rate = xosera_per(1, 3);
    while (xm_getw(TIMER) < 10) {
    }
    return xosera_file_done(xosera_record_end(&adapter)) && adapter.refusals == 0 ? 0 : 1;
}
