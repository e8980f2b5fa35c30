/* Firmware code in a shared library of its own. Built with -fvisibility=hidden. */
#include "drawing.h"

void drawing_dot(uint16_t at, uint16_t word)
{
    xm_setw(WR_ADDR, at);
    xm_setw(DATA, word);
}

const xosera *drawing_adapter(void)
{
    return xosera_in_use;
}
