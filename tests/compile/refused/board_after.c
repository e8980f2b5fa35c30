/* refused: poisoned
 * refused: xosera_model.h replaces the board's header and has no xmreg_t
 */
#include "xosera_model.h"

#include "../board/xosera_m68k_api.h"
