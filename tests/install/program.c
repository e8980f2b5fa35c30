/* A C11 program against an installed copy: a word is written and read back, and header and library
 * are of one version. It fails with the number of the first check that does not hold. */
#include "xosera_model.h"

static uint16_t vram[XOSERA_VRAM_MAX];
static uint16_t xr[XOSERA_XR_WORDS];

int main(void)
{
    xosera adapter;
    xosera_attach(&adapter, vram, XOSERA_VRAM_MAX, xr, XOSERA_XR_WORDS);
    xosera_use(&adapter);
    vram_setw(0x1234, 0xC0DE);
    if (vram[0x1234] != 0xC0DE || vram_getw(0x1234) != 0xC0DE) {
        return 1;
    }
    if (xosera_header_needs_library_1_3_0() != XOSERA_VERSION_NUMBER) {
        return 2;
    }
    return adapter.refusals == 0 ? 0 : 3;
}
