/* A test with functions of its own by the board's names. */
#include "xosera_model.h"

#undef xosera_init
#undef xv_delay

bool xosera_init(int reconfig_num);
void xv_delay(uint32_t ms);

bool xosera_init(int reconfig_num)
{
    xosera_reset(&xosera_here()->state);
    return reconfig_num >= 0;
}

void xv_delay(uint32_t ms)
{
    (void)xosera_ticks(xosera_here(), 10 * (uint64_t)ms);
}
