/* What the C tests share: an adapter with memories of its own, and where to find the groups. */
#ifndef TESTS_H
#define TESTS_H

#include <setjmp.h>
#include <stdarg.h>
#include <stddef.h>
#include <stdint.h>
#include <string.h>

#include <cmocka.h>

#include "xosera_model.h"

/* An adapter over memories from the heap, as long as they are said to be and no longer, so that
 * AddressSanitizer and valgrind see a word touched beside them. */
xosera *adapter_new(size_t vram_len);
xosera *adapter_copy(const xosera *x); /* with memories of its own */
void adapter_free(xosera *x);

/* cmocka's set-up and tear-down: an adapter of 1,024 words, in use, any refusal of which fails the
 * test. The test gets it as *state. */
int adapter_setup(void **state);
int adapter_teardown(void **state);

/* Hooks for a handle: one adds the number of each refusal to the int that `user` points to, one
 * leaves by longjmp, with that number, to the jmp_buf that it points to. */
void add_refusal(xosera *x, const xosera_refused *what);
void leap_on_refusal(xosera *x, const xosera_refused *what);

/* The lengths that VRAM may have. */
enum { VRAM_LENGTHS = 9 };
extern const size_t vram_lengths[VRAM_LENGTHS];

/* Memories full of words that are all different, or nearly so. */
void fill(uint16_t *words, size_t n, uint16_t seed);

/* Any word; the same ones in every run of the tests. */
uint16_t random_word(void);

/* Fails unless the two are equal word by word; names the word. */
void assert_state_equal(const xosera_state *got, const xosera_state *want);

/* The same for state and memories. */
void assert_adapter_equal(const xosera *got, const xosera *want);

/* The state after reset; one that is idle, with no free word 0; one in mid-line with a blit queued;
 * the same with the beam in the picture and the copper running. All but the last are at rest. */
xosera_state reset_state(void);
xosera_state idle_state(void);
xosera_state mid_line_state(void);
xosera_state copper_state(void);

/* Beam and copper are at rest. */
bool at_rest(const xosera_state *s);

/* The ranges once more, by the numbers of the words alone. */
bool words_in_range(const uint16_t *words);

/* Every call that can refuse with `want`, on a copy of the state and on the adapter's memories:
 * each answers it, with byte 0, count 0, mask 0, length 0 or no, and leaves every word of all three
 * as it was. */
void assert_refused(const xosera *x, const xosera_state *s, size_t vram_len, size_t xr_len,
                    uint8_t reg, xosera_refusal want);

/* The ten blitter registers in one go; the last one starts or queues the blit. */
typedef struct blit {
    uint16_t ctrl, andc, xor_, mod_s, src_s, mod_d, dst_d, shift, lines, words;
} blit;
void start_blit(xosera *x, const blit *b);

/* The beam stands here, by hand. */
void set_beam(xosera *x, uint16_t line, uint16_t position);

/* Runs in a child, whose standard error is read: what it printed, and whether it was aborted. */
bool aborts_with(void (*run)(xosera *x), xosera *x, char *text, size_t size);

/* One test file is one group. Each returns the number of tests that failed. */
int table_group(int *tests);
int rules_group(int *tests);
int edges_group(int *tests);
int cross_group(int *tests);
int refusals_group(int *tests);
int ranges_group(int *tests);
int queue_group(int *tests);
int masks_group(int *tests);
int why_group(int *tests);
int paint_group(int *tests);
int grey_group(int *tests);
int picture_group(int *tests);
int order_group(int *tests);
int layout_group(int *tests);
int saved_group(int *tests);
int files_group(int *tests);
int beam_group(int *tests);
int copper_group(int *tests);
int time_group(int *tests);
int watchdog_group(int *tests);
int hooks_group(int *tests);
int recording_group(int *tests);
int state_group(int *tests);
int api_group(int *tests);
int board_group(int *tests);

#define RUN_GROUP(name, list, count)                                                               \
    (*(count) += (int)(sizeof(list) / sizeof((list)[0])),                                          \
     cmocka_run_group_tests_name(name, list, NULL, NULL))
#define WITH_ADAPTER(test) cmocka_unit_test_setup_teardown(test, adapter_setup, adapter_teardown)

#endif
