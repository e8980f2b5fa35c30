/* Every header may come again, in any order. */
#include "xosera/board.h"
#include "xosera/copper.h"
#include "xosera/files.h"
#include "xosera/handle.h"
#include "xosera/calls.h"
#include "xosera/registers.h"
#include "xosera_model.h"
#include "xosera/registers.h"
#include "xosera/board.h"
#include "xosera_model.h"

uint16_t mode(void);

uint16_t mode(void)
{
    return MAKE_GFX_CTRL(0, 0, XR_GFX_BPP_4, 1, 1, 1);
}
