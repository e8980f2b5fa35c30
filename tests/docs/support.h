/*
 * What the pieces of C in README.md and docs/ take for granted: an adapter in use with its two
 * memories, fresh for each section, and firmware's boot. extract.awk puts the pieces behind it.
 */
#ifndef XOSERA_DOCS_SUPPORT_H
#define XOSERA_DOCS_SUPPORT_H

#include <assert.h>
#include <errno.h>
#include <stdio.h>
#include <stdlib.h>
#include <string.h>

#include "xosera_model.h"

static uint16_t vram[XOSERA_VRAM_MAX], xr[XOSERA_XR_WORDS];
static xosera adapter;

/* A section begins with an adapter after reset, all memory 0, and without the files of another. */
static inline void begin_section(void)
{
    memset(vram, 0, sizeof vram);
    memset(xr, 0, sizeof xr);
    xosera_attach(&adapter, vram, XOSERA_VRAM_MAX, xr, XOSERA_XR_WORDS);
    xosera_use(&adapter);
    remove("boot.saved");
}

/* A section that shows a refusal forgets it. */
static inline void end_section(void)
{
    assert(adapter.refusals == 0);
    remove("boot.saved");
}

/* The firmware's boot. */
static inline void boot(void)
{
    xm_setw(WR_INCR, 1);
    vram_setw(0x0100, 0x1234);
}

#endif /* XOSERA_DOCS_SUPPORT_H */
