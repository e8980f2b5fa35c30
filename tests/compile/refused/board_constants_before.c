/* refused: takes the place of the board's xosera_m68k_api.h: include one, not both */
#include "../board/xosera_m68k_defs.h"

#include "xosera/registers.h"
