/* refused: registers have no address here: use xm_setbh, xm_getbl and the like */
#include "xosera_model.h"

uint8_t get(void);

uint8_t get(void)
{
    return xosera_ptr[XM_DATA >> 2].b.l;
}
