/* A test of firmware code that lies in a shared library: the adapter that the test puts in use is
 * the one that the library draws to. It fails with the number of the first check that does not
 * hold. */
#include "drawing.h"

static uint16_t vram[2][256], xr[2][XOSERA_XR_WORDS];

int main(void)
{
    xosera first, second;
    xosera_attach(&first, vram[0], 256, xr[0], XOSERA_XR_WORDS);
    xosera_attach(&second, vram[1], 256, xr[1], XOSERA_XR_WORDS);
    xosera_use(&first);
    if (drawing_adapter() != &first) {
        return 1;
    }
    drawing_dot(0x20, 0xC0DE);
    if (vram[0][0x20] != 0xC0DE || vram_getw(0x20) != 0xC0DE) {
        return 2;
    }
    xosera_use(&second);
    drawing_dot(0x21, 0xBEEF);
    if (vram[0][0x21] != 0 || vram[1][0x20] != 0 || vram[1][0x21] != 0xBEEF) {
        return 3;
    }
    return first.refusals == 0 && second.refusals == 0 ? 0 : 4;
}
