/* refused: registers have no address here: use xm_setw, xm_getw and the like */
#include "xosera_model.h"

uint8_t get(void);

uint8_t get(void)
{
    return *(const volatile uint8_t *)XM_BASEADDR;
}
