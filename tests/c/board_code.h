/* Code as it is written for the board; see board_code.c. */
#ifndef BOARD_CODE_H
#define BOARD_CODE_H

#include <stdint.h>

#ifdef __cplusplus
extern "C" {
#endif

void board_clear(uint16_t at, uint16_t words, uint16_t colour);
void board_load_colours(const uint16_t *colours, int n);
uint16_t board_sum(uint16_t at, uint16_t words);
void board_wait_in_a_loop_of_its_own(void);

/* In cpp_user.cpp. */
int cpp_user(void);

#ifdef __cplusplus
}
#endif

#endif
