// The header as C++17, on the adapter that the C side put in use. The number of the first check
// that does not hold, or 0.
#include <cstring>

#include "xosera_model.h"

#include "board_code.h"

static_assert(__cplusplus >= 201703L, "built as C++17");

int cpp_user()
{
    if (xosera_in_use == nullptr) {
        return 1;
    }
    xm_setw(WR_INCR, 1);
    vram_setw(0x20, 0xC0DE);
    vram_setw_next(0xBEEF);
    if (vram_getw(0x20) != 0xC0DE || vram_getw(0x21) != 0xBEEF) {
        return 2;
    }
    xreg_setw(PA_DISP_ADDR, 0x1234);
    if (xreg_getw(PA_DISP_ADDR) != 0x1234 || xosera_in_use->state.video.pa[2] != 0x1234) {
        return 3;
    }

    // An adapter of C++'s own, beside the one in use.
    static uint16_t vram[256], xr[XOSERA_XR_WORDS];
    xosera own;
    xosera_attach(&own, vram, 256, xr, XOSERA_XR_WORDS);
    xosera *const before = xosera_use(&own);
    board_clear(0x10, 4, 0x7777); // C code sees the same adapter
    xwait_blit_done();
    xosera_use(before);
    if (vram[0x10] != 0x7777 || vram[0x13] != 0x7777 || vram[0x14] != 0 || own.refusals != 0 ||
        own.mask != 0xF) {
        return 4;
    }

    // Saved and loaded again.
    static uint8_t room[XOSERA_FILE_BYTES(256)];
    const xosera_save_answer saved =
        xosera_save(&own.state, own.vram, 256, own.xr, own.xr_len, room, sizeof room);
    vram[0x10] = 0;
    const xosera_load_answer loaded =
        xosera_load(&own.state, own.vram, 256, own.xr, own.xr_len, room, saved.length);
    if (saved.length != sizeof room || loaded.refusal != XOSERA_DONE || vram[0x10] != 0x7777) {
        return 5;
    }
    if (xosera_load_file(&own, "/dev/null").refusal != XOSERA_NO_SAVED_ADAPTER ||
        own.refusals != 1) {
        return 6;
    }

    // A copper list, over line 0 to its move on line 1.
    static const uint32_t list[] = {COP_WAIT_V(1), COP_MOVER(0x0004, VID_CTRL), COP_END()};
    if (!xosera_load_copper(&own, 0, list, 3)) {
        return 7;
    }
    xosera_xr_setw(&own, XR_COPP_CTRL, COPP_CTRL_COPP_EN_F);
    own.state.beam.line = XOSERA_FRAME_LINES - 1;
    if (xosera_beam_to(&own, 1, 1) != 2 * XOSERA_LINE_POSITIONS + 1 ||
        own.state.video.vid_ctrl != 0x0004 || own.state.beam.copper_word != 4) {
        return 8;
    }

    // Why a pixel is as it is.
    char text[100];
    const xosera_why_answer why = xosera_why_pixel(&own, 0x13, 3, nullptr);
    if (why.fate != XOSERA_WRITTEN || why.line != 0 || why.word != 3 ||
        std::strcmp(xosera_why_text(text, sizeof text, why),
                    "written by line 0, word 3 of the blit, both from 0") != 0) {
        return 9;
    }

    // A line painted: eight bits a pixel, from the words that are 0x7777.
    static uint16_t pixels[XOSERA_SCREEN_WIDTH];
    xosera_xr_setw(&own, XR_PA_GFX_CTRL, MAKE_GFX_CTRL(0, 0, XR_GFX_BPP_8, 1, 0, 0));
    xosera_xr_setw(&own, XR_PA_DISP_ADDR, 0x10);
    xosera_xr_setw(&own, XR_COLOR_A_ADDR + 0x77, 0x0123);
    if (xosera_paint_line(&own, 0, pixels, XOSERA_SCREEN_WIDTH).refusal != XOSERA_DONE ||
        pixels[7] != 0x0123 || pixels[8] != 0 || xosera_rgb24(pixels[0]) != 0x112233 ||
        xosera_paint_screen(&own, pixels, XOSERA_SCREEN_WIDTH).refusal != XOSERA_PIXELS_LENGTH ||
        xosera_write_ppm("/dev/null/screen.ppm", pixels, XOSERA_SCREEN_WIDTH, 1)) {
        return 10;
    }

    // The same line in levels.
    if (xosera_paint_grey_line(&own, 0, pixels, XOSERA_SCREEN_WIDTH).refusal != XOSERA_DONE ||
        pixels[7] != 2 || pixels[8] != 0 || xosera_grey(0x0123) != 2 ||
        xosera_paint_grey_screen(&own, pixels, XOSERA_SCREEN_WIDTH).refusal !=
            XOSERA_PIXELS_LENGTH ||
        xosera_write_pgm("/dev/null/screen.pgm", pixels, XOSERA_SCREEN_WIDTH, 1)) {
        return 11;
    }
    return before->vram[0x20] == 0xC0DE ? 0 : 12;
}
