/* refused: no xosera_sync here: the adapter in use is always present */
#include "xosera_model.h"

bool present(void);

bool present(void)
{
    return xosera_sync();
}
