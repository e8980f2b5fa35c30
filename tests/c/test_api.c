/* The board's spelling: each accessor does the bytes that it stands for. */
#include <pthread.h>

#include "tests.h"

#include "board_code.h"

static void bytes_words_and_longs(void **state)
{
    xosera *x = (xosera *)*state;
    xm_setbh(WR_ADDR, 0x12);
    assert_int_equal(xm_getw(WR_ADDR), 0x0000); /* the even byte only fills the latch */
    xm_setbl(WR_ADDR, 0x34);
    assert_int_equal(xm_getw(WR_ADDR), 0x1234);
    assert_int_equal(xm_getbh(WR_ADDR), 0x12);
    assert_int_equal(xm_getbl(WR_ADDR), 0x34);
    xm_setbl(WR_ADDR, 0x56);
    assert_int_equal(xm_getw(WR_ADDR), 0x1256); /* the latch stays */
    xm_setl(WR_INCR, 0x00010100);               /* WR_INCR, then WR_ADDR */
    assert_int_equal(xm_getl(WR_INCR), 0x00010100);
    xm_setl(DATA, 0xCAFED00D);
    assert_int_equal(x->vram[0x100], 0xCAFE);
    assert_int_equal(x->vram[0x101], 0xD00D);
    xm_setl(WR_XADDR, ((uint32_t)XR_VID_LEFT << 16) | 0x0010);
    assert_int_equal(x->state.video.vid_left, 0x0010);
    xm_setw(RD_INCR, 0x123456); /* cut to the access's width */
    assert_int_equal(xm_getw(RD_INCR), 0x3456);
}

static void vram_accessors(void **state)
{
    xosera *x = (xosera *)*state;
    xm_setw(WR_INCR, 1);
    xm_setw(RD_INCR, 1);
    vram_setw(0x40, 0x1111);
    vram_setw_next(0x2222);
    vram_setl_next(0x33334444);
    vram_setl(0x48, 0x55556666);
    vram_setw_next_addr(0x50);
    vram_setw_next_wait(0x7777);
    assert_int_equal(x->vram[0x40], 0x1111);
    assert_int_equal(x->vram[0x41], 0x2222);
    assert_int_equal(x->vram[0x42], 0x3333);
    assert_int_equal(x->vram[0x43], 0x4444);
    assert_int_equal(x->vram[0x49], 0x6666);
    assert_int_equal(x->vram[0x50], 0x7777);
    assert_int_equal(vram_getw(0x40), 0x1111);
    assert_int_equal(vram_getw_next(), 0x2222);
    assert_int_equal(vram_getl_next(), 0x33334444);
    assert_int_equal(vram_getl(0x48), 0x55556666);
    vram_getw_next_addr(0x50);
    assert_int_equal(vram_getw_next_wait(), 0x7777);
    vram_setw_wait(0x51, 0x8888);
    assert_int_equal(vram_getw_wait(0x51), 0x8888);
}

static void xr_accessors(void **state)
{
    xosera *x = (xosera *)*state;
    xreg_setw(VID_CTRL, 0x0007);
    xreg_setw_next(0x8000); /* XR_COPP_CTRL */
    assert_int_equal(xreg_getw(VID_CTRL), 0x0007);
    assert_int_equal(xreg_getw_next(), 0x8000);
    assert_int_equal(xreg_getw(VID_RIGHT), 640);
    assert_int_equal(xreg_getw(SCANLINE), 0);
    xmem_setw(XR_TILE_ADDR + 0x13FF, 0xAAAA);
    xmem_setw_next(0xBBBB); /* at 0x5400 nothing is stored */
    assert_int_equal(x->xr[XOSERA_XR_TILE_AT + 0x13FF], 0xAAAA);
    assert_int_equal(xmem_getw(XR_TILE_ADDR + 0x13FF), 0xAAAA);
    assert_int_equal(xmem_getw_next(), 0);
    xmem_setw_next_addr(XR_COPPER_ADDR);
    xmem_setw_next_wait(0x1234);
    assert_int_equal(x->xr[XOSERA_XR_COPP_AT], 0x1234);
    xmem_getw_next_addr(XR_COPPER_ADDR);
    assert_int_equal(xmem_getw_next_wait(), 0x1234);
    xmem_setw_wait(XR_COLOR_B_ADDR, 0x0F0F);
    assert_int_equal(xmem_getw_wait(XR_COLOR_B_ADDR), 0x0F0F);
    assert_int_equal(x->xr[XOSERA_XR_COLOR_AT + 0x100], 0x0F0F);
}

static void waiting_lets_time_pass(void **state)
{
    xosera *x = (xosera *)*state;
    xwait_mem_ready();
    set_beam(x, 478, 300);
    xwait_not_vblank();
    assert_int_equal(x->state.beam.position, 300); /* it is down: no time passes */
    assert_int_equal(xm_getbl(INT_CTRL), 0);
    xwait_vblank();
    assert_int_equal(xm_getbl(INT_CTRL), INT_CTRL_VIDEO_INTR_F);
    xm_setw(INT_CTRL, INT_CTRL_CLEAR_ALL_F);
    xwait_blit_done(); /* nothing runs: nothing happens */
    assert_int_equal(x->refusals, 0);
    assert_int_equal(xm_getbl(INT_CTRL), 0);
}

static void board_code_runs_unchanged(void **state)
{
    xosera *x = (xosera *)*state;
    const uint16_t colours[3] = {0x0F00, 0x00F0, 0x000F};
    board_load_colours(colours, 3);
    assert_memory_equal(x->xr + XOSERA_XR_COLOR_AT, colours, sizeof colours);
    board_clear(0x100, 0x80, 0x0003);
    board_clear(0x180, 0x80, 0x0004); /* queued */
    board_clear(0x200, 0x80, 0x0005); /* waits until there is room */
    xwait_blit_done();
    assert_int_equal(board_sum(0x100, 0x180), 0x80 * (3 + 4 + 5));
}

static void a_loop_of_the_boards_own_ends_when_accesses_take_time(void **state)
{
    xosera *x = (xosera *)*state;
    x->blit_per_access = 2;
    board_clear(0x100, 0x80, 0x0003);
    board_wait_in_a_loop_of_its_own();
    assert_int_equal(xosera_words_left(x), 0);
    assert_int_equal(board_sum(0x100, 0x80), 0x80 * 3);
}

static void arguments_are_evaluated_once(void **state)
{
    xosera *x = (xosera *)*state;
    uint16_t word = 7;
    vram_setw(0x60, word++);
    assert_int_equal(word, 8);
    assert_int_equal(x->vram[0x60], 7);
}

static void adapters_do_not_meet(void **state)
{
    xosera *first = (xosera *)*state, *second = adapter_new(256);
    vram_setw(0x10, 0x1111);
    assert_ptr_equal(xosera_use(second), first);
    vram_setw(0x10, 0x2222);
    assert_ptr_equal(xosera_use(first), second);
    assert_int_equal(first->vram[0x10], 0x1111);
    assert_int_equal(second->vram[0x10], 0x2222);
    assert_int_equal(vram_getw(0x10), 0x1111);
    adapter_free(second);
}

/* Another thread: no adapter in use at first, then one of its own. */
static void *elsewhere(void *arg)
{
    xosera *own = (xosera *)arg;
    xosera *const before = xosera_use(own);
    board_clear(0x20, 1, 0x3333);
    xwait_blit_done();
    return before;
}

static void each_thread_has_its_adapter(void **state)
{
    xosera *first = (xosera *)*state, *second = adapter_new(256);
    pthread_t thread;
    void *before = first;
    vram_setw(0x20, 0x1111);
    assert_int_equal(pthread_create(&thread, NULL, elsewhere, second), 0);
    assert_int_equal(pthread_join(thread, &before), 0);
    assert_null(before);
    assert_int_equal(second->vram[0x20], 0x3333);
    assert_int_equal(vram_getw(0x20), 0x1111);
    adapter_free(second);
}

static void a_state_can_be_saved_and_put_back(void **state)
{
    xosera *x = (xosera *)*state;
    xm_setw(WR_ADDR, 0x0123);
    const xosera_state saved = x->state;
    xm_setw(WR_ADDR, 0x0456);
    x->state = saved;
    assert_int_equal(xm_getw(WR_ADDR), 0x0123);
    xosera_reset(&x->state);
    assert_int_equal(xm_getw(WR_ADDR), 0x0000);
}

static void the_header_serves_cpp(void **state)
{
    (void)state;
    assert_int_equal(cpp_user(), 0);
}

int api_group(int *tests)
{
    const struct CMUnitTest list[] = {
        WITH_ADAPTER(bytes_words_and_longs),
        WITH_ADAPTER(vram_accessors),
        WITH_ADAPTER(xr_accessors),
        WITH_ADAPTER(waiting_lets_time_pass),
        WITH_ADAPTER(board_code_runs_unchanged),
        WITH_ADAPTER(a_loop_of_the_boards_own_ends_when_accesses_take_time),
        WITH_ADAPTER(arguments_are_evaluated_once),
        WITH_ADAPTER(adapters_do_not_meet),
        WITH_ADAPTER(each_thread_has_its_adapter),
        WITH_ADAPTER(a_state_can_be_saved_and_put_back),
        WITH_ADAPTER(the_header_serves_cpp),
    };
    return RUN_GROUP("board's spelling", list, tests);
}
