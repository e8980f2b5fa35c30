/* SPDX-License-Identifier: MIT */
/*
 * The board's spelling: xm_setw(WR_ADDR, a), xreg_setw(VID_CTRL, v), vram_setw_next(w), ...
 *
 * These work on the adapter that the test put in use with xosera_use, one for each thread. A
 * register is named without its prefix: xm_setw(WR_ADDR, a) is XM_WR_ADDR, xreg_setw(VID_CTRL, v)
 * is XR_VID_CTRL. Arguments are evaluated once and cut to the width of the access. The line of
 * source is noted after that, so that it is right where an argument has accesses of its own.
 */
#ifndef XOSERA_MODEL_BOARD_H
#define XOSERA_MODEL_BOARD_H

#include <stdbool.h>
#include <stdint.h>

#include "adapter.h"
#include "handle.h"
#include "passing.h"
#include "registers.h"

/* One byte of a word. */
static inline void xosera_set_even(xosera *x, uint64_t reg, uint8_t byte)
{
    xosera_set_byte(x, reg, false, byte);
}

static inline void xosera_set_odd(xosera *x, uint64_t reg, uint8_t byte)
{
    xosera_set_byte(x, reg, true, byte);
}

static inline uint8_t xosera_get_even(xosera *x, uint64_t reg)
{
    return xosera_get_byte(x, reg, false);
}

static inline uint8_t xosera_get_odd(xosera *x, uint64_t reg)
{
    return xosera_get_byte(x, reg, true);
}

/* What the accessors below call: each notes the line, does the access and takes the line back, so
 * that it is that of the access alone, and nothing comes in between. */
static inline void xosera_board_left(xosera *x)
{
    x->file = NULL;
    x->line = 0;
}

#define XOSERA_BOARD_SET(access, first, second)                                                    \
    static inline void xosera_board_##access(const char *file, int line, first at, second value)   \
    {                                                                                              \
        xosera *const x = xosera_at(file, line);                                                   \
        xosera_##access(x, at, value);                                                             \
        xosera_board_left(x);                                                                      \
    }
#define XOSERA_BOARD_GET(answer, access, first)                                                    \
    static inline answer xosera_board_##access(const char *file, int line, first at)               \
    {                                                                                              \
        xosera *const x = xosera_at(file, line);                                                   \
        const answer value = xosera_##access(x, at);                                               \
        xosera_board_left(x);                                                                      \
        return value;                                                                              \
    }
XOSERA_BOARD_SET(set_even, uint64_t, uint8_t)
XOSERA_BOARD_SET(set_odd, uint64_t, uint8_t)
XOSERA_BOARD_SET(setw, uint64_t, uint16_t)
XOSERA_BOARD_SET(setl, uint64_t, uint32_t)
XOSERA_BOARD_SET(xr_setw, uint16_t, uint16_t)
XOSERA_BOARD_SET(vram_setw, uint16_t, uint16_t)
XOSERA_BOARD_SET(vram_setl, uint16_t, uint32_t)
XOSERA_BOARD_GET(uint8_t, get_even, uint64_t)
XOSERA_BOARD_GET(uint8_t, get_odd, uint64_t)
XOSERA_BOARD_GET(uint16_t, getw, uint64_t)
XOSERA_BOARD_GET(uint32_t, getl, uint64_t)
XOSERA_BOARD_GET(uint16_t, xr_getw, uint16_t)
XOSERA_BOARD_GET(uint16_t, vram_getw, uint16_t)
XOSERA_BOARD_GET(uint32_t, vram_getl, uint16_t)

static inline void xosera_board_wait(const char *file, int line, void (*wait)(xosera *x))
{
    xosera *const x = xosera_at(file, line);
    wait(x);
    xosera_board_left(x);
}

/* An access from this line of source: its function, then its arguments. */
#define XOSERA_BOARD(access, ...) xosera_board_##access(__FILE__, __LINE__, __VA_ARGS__)

/* Main registers. */
#define xm_setbh(xmreg, high) XOSERA_BOARD(set_even, XM_##xmreg, (uint8_t)(high))
#define xm_setbl(xmreg, low)  XOSERA_BOARD(set_odd, XM_##xmreg, (uint8_t)(low))
#define xm_setw(xmreg, word)  XOSERA_BOARD(setw, XM_##xmreg, (uint16_t)(word))
#define xm_setl(xmreg, lword) XOSERA_BOARD(setl, XM_##xmreg, (uint32_t)(lword))
#define xm_getbh(xmreg)       XOSERA_BOARD(get_even, XM_##xmreg)
#define xm_getbl(xmreg)       XOSERA_BOARD(get_odd, XM_##xmreg)
#define xm_getw(xmreg)        XOSERA_BOARD(getw, XM_##xmreg)
#define xm_getl(xmreg)        XOSERA_BOARD(getl, XM_##xmreg)

/* XR registers by name; the `_next` forms go on at the address after. */
#define xreg_setw(xreg, word) XOSERA_BOARD(xr_setw, XR_##xreg, (uint16_t)(word))
#define xreg_getw(xreg)       XOSERA_BOARD(xr_getw, XR_##xreg)
#define xreg_setw_next(word)  XOSERA_BOARD(setw, XM_XDATA, (uint16_t)(word))
#define xreg_getw_next()      XOSERA_BOARD(getw, XM_XDATA)

/* XR memory by address. */
#define xmem_setw(xaddr, word)     XOSERA_BOARD(xr_setw, (uint16_t)(xaddr), (uint16_t)(word))
#define xmem_getw(xaddr)           XOSERA_BOARD(xr_getw, (uint16_t)(xaddr))
#define xmem_setw_next_addr(xaddr) XOSERA_BOARD(setw, XM_WR_XADDR, (uint16_t)(xaddr))
#define xmem_getw_next_addr(xaddr) XOSERA_BOARD(setw, XM_RD_XADDR, (uint16_t)(xaddr))
#define xmem_setw_next(word)       XOSERA_BOARD(setw, XM_XDATA, (uint16_t)(word))
#define xmem_getw_next()           XOSERA_BOARD(getw, XM_XDATA)

/* VRAM by address; the `_next` forms go on by XM_WR_INCR or XM_RD_INCR. */
#define vram_setw(addr, word)     XOSERA_BOARD(vram_setw, (uint16_t)(addr), (uint16_t)(word))
#define vram_setl(addr, lword)    XOSERA_BOARD(vram_setl, (uint16_t)(addr), (uint32_t)(lword))
#define vram_getw(addr)           XOSERA_BOARD(vram_getw, (uint16_t)(addr))
#define vram_getl(addr)           XOSERA_BOARD(vram_getl, (uint16_t)(addr))
#define vram_setw_next_addr(addr) XOSERA_BOARD(setw, XM_WR_ADDR, (uint16_t)(addr))
#define vram_getw_next_addr(addr) XOSERA_BOARD(setw, XM_RD_ADDR, (uint16_t)(addr))
#define vram_setw_next(word)      XOSERA_BOARD(setw, XM_DATA, (uint16_t)(word))
#define vram_setl_next(lword)     XOSERA_BOARD(setl, XM_DATA, (uint32_t)(lword))
#define vram_getw_next()          XOSERA_BOARD(getw, XM_DATA)
#define vram_getl_next()          XOSERA_BOARD(getl, XM_DATA)

/* The `_wait` forms wait for contended memory; the model's memory is always ready. */
#define xmem_setw_wait(xaddr, word) xmem_setw(xaddr, word)
#define xmem_getw_wait(xaddr)       xmem_getw(xaddr)
#define xmem_setw_next_wait(word)   xmem_setw_next(word)
#define xmem_getw_next_wait()       xmem_getw_next()
#define vram_setw_wait(addr, word)  vram_setw(addr, word)
#define vram_getw_wait(addr)        vram_getw(addr)
#define vram_setw_next_wait(word)   vram_setw_next(word)
#define vram_getw_next_wait()       vram_getw_next()

/* Waiting lets time pass: with accesses where rates are set; else the blits run, or the beam moves
 * on. */
#define xwait_mem_ready()  ((void)0)
#define xwait_blit_done()  XOSERA_BOARD(wait, xosera_wait_blit_done)
#define xwait_blit_ready() XOSERA_BOARD(wait, xosera_wait_blit_ready)
#define xwait_not_hblank() XOSERA_BOARD(wait, xosera_wait_not_hblank)
#define xwait_hblank()     XOSERA_BOARD(wait, xosera_wait_hblank)
#define xwait_not_vblank() XOSERA_BOARD(wait, xosera_wait_not_vblank)
#define xwait_vblank()     XOSERA_BOARD(wait, xosera_wait_vblank)

/* The board's macro that loads the register base; the model has none. */
#define xv_prep() ((void)0)

/* What the board's header has and the model has not: a use is an error, which says what to write
 * instead. A test with a function of its own by such a name takes the name back with #undef. */
typedef struct xosera_no_register {
    struct {
        uint8_t h, l;
    } b;
} xosera_no_register;
typedef struct xosera_no_info {
    uint8_t none;
} xosera_no_info;

extern xosera_no_register *xosera_no_pointer;
bool xosera_no_init(int reconfig_num);
bool xosera_no_sync(void);
bool xosera_no_get_info(xosera_no_info *info);
void xosera_no_delay(uint32_t ms);

#define xosera_ptr                                                                                 \
    _Pragma("GCC error \"registers have no address here: use xm_setbh, xm_getbl and the like\"")   \
        xosera_no_pointer
#define XM_BASEADDR                                                                                \
    _Pragma("GCC error \"registers have no address here: use xm_setw, xm_getw and the like\"") 0
#define xmreg_t                                                                                    \
    _Pragma("GCC error \"xosera_model.h replaces the board's header and has no xmreg_t\"")         \
        xosera_no_register
#define xosera_init                                                                                \
    _Pragma("GCC error \"no xosera_init here: the test calls xosera_reset(&adapter.state)\"")      \
        xosera_no_init
#define xosera_sync                                                                                \
    _Pragma("GCC error \"no xosera_sync here: the adapter in use is always present\"")             \
        xosera_no_sync
#define xosera_info_t                                                                              \
    _Pragma("GCC error \"no xosera_info_t here: the model has no description of itself\"")         \
        xosera_no_info
#define xosera_get_info                                                                            \
    _Pragma("GCC error \"no xosera_get_info here: the model has no description of itself\"")       \
        xosera_no_get_info
#define xv_delay                                                                                   \
    _Pragma("GCC error \"no xv_delay here: poll xm_getw(TIMER), or tick in the test\"")            \
        xosera_no_delay

#endif /* XOSERA_MODEL_BOARD_H */
