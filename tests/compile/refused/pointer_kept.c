/* refused: xosera_model.h replaces the board's header and has no xmreg_t
 * refused: registers have no address here: use xm_setbh, xm_getbl and the like
 */
#include "xosera_model.h"

uint8_t get(void);

uint8_t get(void)
{
    const xmreg_t *const registers = xosera_ptr;
    return registers[XM_DATA >> 2].b.l;
}
