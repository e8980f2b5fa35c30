/* refused: no xosera_init here: the test calls xosera_reset(&adapter.state) */
#include "xosera_model.h"

int start(void);

int start(void)
{
    if (!xosera_init(1)) {
        return 1;
    }
    return 0;
}
