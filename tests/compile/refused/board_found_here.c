/* refused: include xosera_model.h in place of xosera_m68k_api.h, which is the board's */
#include "xosera_m68k_api.h"
