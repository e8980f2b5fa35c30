/* refused: no xosera_info_t here: the model has no description of itself
 * refused: no xosera_get_info here: the model has no description of itself
 */
#include "xosera_model.h"

bool described(void);

bool described(void)
{
    xosera_info_t info;
    return xosera_get_info(&info);
}
