/* The board's constants, so far as these tests need them. */
#if !defined(XOSERA_M68K_DEFS_H)
#define XOSERA_M68K_DEFS_H

#define XM_BASEADDR 0xF80060

#define XM_SYS_CTRL 0x00
#define XM_INT_CTRL 0x04
#define XM_TIMER    0x08
#define XM_DATA     0x28

#define SYS_CTRL_BLIT_FULL_F 0x40

#endif
