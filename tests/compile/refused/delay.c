/* refused: no xv_delay here: poll xm_getw(TIMER), or tick in the test */
#include "xosera_model.h"

void rest(void);

void rest(void)
{
    xv_delay(10);
}
