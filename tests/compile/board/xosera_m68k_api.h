/* The board's header, so far as these tests need it: guards, registers at addresses, functions. */
#if !defined(XOSERA_M68K_API_H)
#define XOSERA_M68K_API_H

#include <stdbool.h>
#include <stdint.h>

#include "xosera_m68k_defs.h"

typedef struct xmreg {
    struct {
        uint8_t h, h_pad, l, l_pad;
    } b;
} xmreg_t;
extern volatile xmreg_t *const xosera_ptr;

bool xosera_init(int reconfig_num);
bool xosera_sync(void);
void xv_delay(uint32_t ms);

#define xm_setbh(xmreg, high) (xosera_ptr[(XM_##xmreg) >> 2].b.h = (uint8_t)(high))
#define xm_getbh(xmreg)       (xosera_ptr[(XM_##xmreg) >> 2].b.h)

#endif
