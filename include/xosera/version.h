/* SPDX-License-Identifier: MIT */
/*
 * The version of this header, and the library that it needs. Beside a library of another version a
 * program does not link: xosera_header_needs_library_1_3_0 is undefined.
 */
#ifndef XOSERA_MODEL_VERSION_H
#define XOSERA_MODEL_VERSION_H

#include <stdint.h>

#define XOSERA_VERSION_MAJOR 1
#define XOSERA_VERSION_MINOR 3
#define XOSERA_VERSION_PATCH 0
#define XOSERA_VERSION       "1.3.0"

/* For #if: 1.2.3 is 1002003. */
#define XOSERA_VERSION_NUMBER                                                                      \
    (XOSERA_VERSION_MAJOR * 1000000 + XOSERA_VERSION_MINOR * 1000 + XOSERA_VERSION_PATCH)

#ifdef __cplusplus
extern "C" {
#endif

/* The library's XOSERA_VERSION_NUMBER. A library has the function of its own version alone. */
uint32_t xosera_header_needs_library_1_3_0(void);

#ifdef __cplusplus
}
#endif

/* Refers to the function in each file that includes this header. Compiler and linker keep it:
 * `used` at every optimisation, `retain` with --gc-sections. */
#ifdef __has_attribute
#if __has_attribute(retain)
#define XOSERA_KEPT __attribute__((used, retain))
#endif
#endif
#ifndef XOSERA_KEPT
#define XOSERA_KEPT __attribute__((used))
#endif
XOSERA_KEPT static uint32_t (*const xosera_library_needed)(void) =
    xosera_header_needs_library_1_3_0;

#endif /* XOSERA_MODEL_VERSION_H */
