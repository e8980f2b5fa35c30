/* refused: poisoned */
#include "xosera/registers.h"

#include "../board/xosera_m68k_defs.h"
