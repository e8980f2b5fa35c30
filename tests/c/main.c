/* Runs every group and says in one line how it went. */
#include "tests.h"

int main(void)
{
    int tests = 0, failed = 0;
    failed += table_group(&tests);
    failed += rules_group(&tests);
    failed += edges_group(&tests);
    failed += cross_group(&tests);
    failed += refusals_group(&tests);
    failed += ranges_group(&tests);
    failed += queue_group(&tests);
    failed += masks_group(&tests);
    failed += why_group(&tests);
    failed += paint_group(&tests);
    failed += grey_group(&tests);
    failed += picture_group(&tests);
    failed += order_group(&tests);
    failed += layout_group(&tests);
    failed += saved_group(&tests);
    failed += files_group(&tests);
    failed += beam_group(&tests);
    failed += copper_group(&tests);
    failed += time_group(&tests);
    failed += watchdog_group(&tests);
    failed += hooks_group(&tests);
    failed += recording_group(&tests);
    failed += state_group(&tests);
    failed += api_group(&tests);
    failed += board_group(&tests);
    printf("C tests: %d passed, %d failed\n", tests - failed, failed);
    return failed == 0 ? 0 : 1;
}
