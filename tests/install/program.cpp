// A C++17 program against an installed copy: a blit fills eight words, and header and library are
// of one version. It fails with the number of the first check that does not hold.
#include <algorithm>
#include <vector>

#include "xosera_model.h"

static_assert(__cplusplus >= 201703L, "built as C++17");

int main()
{
    std::vector<uint16_t> vram(256);
    std::vector<uint16_t> xr(XOSERA_XR_WORDS);
    xosera adapter;
    xosera_attach(&adapter, vram.data(), vram.size(), xr.data(), xr.size());
    xosera_use(&adapter);
    xreg_setw(BLIT_CTRL, BLIT_CTRL_S_CONST_F);
    xreg_setw(BLIT_SRC_S, 0x7777);
    xreg_setw(BLIT_DST_D, 0x10);
    xreg_setw(BLIT_SHIFT, 0xFF00);
    xreg_setw(BLIT_WORDS, 7);
    xwait_blit_done();
    if (std::count(vram.begin(), vram.end(), 0x7777) != 8) {
        return 1;
    }
    if (xosera_header_needs_library_1_3_0() != XOSERA_VERSION_NUMBER) {
        return 2;
    }
    return adapter.refusals == 0 ? 0 : 3;
}
