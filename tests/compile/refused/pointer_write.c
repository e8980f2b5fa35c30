/* refused: registers have no address here: use xm_setbh, xm_getbl and the like */
#include "xosera_model.h"

void put(uint8_t byte);

void put(uint8_t byte)
{
    xosera_ptr[XM_DATA >> 2].b.h = byte;
}
