/* Code as it is written for the board. Only the include differs there: "xosera_m68k_api.h". */
#include "xosera_model.h"

#include "board_code.h"

/* Fill words with the blitter. */
void board_clear(uint16_t at, uint16_t words, uint16_t colour)
{
    xv_prep();
    xwait_blit_ready();
    xreg_setw(BLIT_CTRL, MAKE_BLIT_CTRL(0, 0, 0, 1));
    xreg_setw(BLIT_ANDC, 0);
    xreg_setw(BLIT_XOR, 0);
    xreg_setw(BLIT_MOD_S, 0);
    xreg_setw(BLIT_SRC_S, colour);
    xreg_setw(BLIT_MOD_D, 0);
    xreg_setw(BLIT_DST_D, at);
    xreg_setw(BLIT_SHIFT, MAKE_BLIT_SHIFT(0xF, 0xF, 0));
    xreg_setw(BLIT_LINES, 0);
    xreg_setw(BLIT_WORDS, words - 1);
}

void board_load_colours(const uint16_t *colours, int n)
{
    xmem_setw_next_addr(XR_COLOR_ADDR);
    for (int i = 0; i < n; i++) {
        xmem_setw_next(colours[i]);
    }
}

uint16_t board_sum(uint16_t at, uint16_t words)
{
    uint16_t sum = 0;
    xm_setw(RD_INCR, 1);
    xm_setw(RD_ADDR, at);
    while (words-- != 0) {
        sum = (uint16_t)(sum + vram_getw_next());
    }
    return sum;
}

void board_wait_in_a_loop_of_its_own(void)
{
    while (xm_getbh(SYS_CTRL) & SYS_CTRL_BLIT_BUSY_F) {
    }
}
