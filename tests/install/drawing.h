/* Firmware code in a shared library with hidden visibility; see drawing.c, which is C and C++. */
#ifndef DRAWING_H
#define DRAWING_H

#include "xosera_model.h"

#ifdef __cplusplus
#define DRAWING_EXPORTED extern "C" __attribute__((visibility("default")))
#else
#define DRAWING_EXPORTED __attribute__((visibility("default")))
#endif

/* Write a word of VRAM through the board's accessors. */
DRAWING_EXPORTED void drawing_dot(uint16_t at, uint16_t word);

/* The adapter that this library has in use. */
DRAWING_EXPORTED const xosera *drawing_adapter(void);

#endif
