/* SPDX-License-Identifier: MIT */
/*
 * xosera_model.h - link firmware tests to the model of the Xosera video adapter.
 *
 * xosera/registers.h  Constants: main registers, XR registers, XR memories, bits; makers of words.
 * xosera/version.h    The version, and the library that it needs.
 * xosera/calls.h      The library: state, answers and the fourteen calls of libxosera.a.
 * xosera/texts.h      Names and words for messages.
 * xosera/adapter.h    The adapter: a state with its two memories, settings, hooks, refusals.
 * xosera/passing.h    How time passes: steps, ticks, the beam, waits, the board's rates.
 * xosera/handle.h     The handle's accesses: bytes, words, longs, VRAM, XR space, pixels.
 * xosera/state.h      States compared and shown.
 * xosera/why.h        Why a pixel is as it is: which word of a blit wrote it, or what held it back.
 * xosera/files.h      Files: an adapter is saved under a name and loaded again.
 * xosera/paint.h      The picture: lines and the whole screen painted, in colours or in levels of
 *                     grey, and written as a file.
 * xosera/trace.h      A trace: a line of text for every call.
 * xosera/recording.h  Recorded sessions: every call with its answer, as text.
 * xosera/replay.h     A recorded session played again on another build.
 * xosera/copper.h     Copper programs: COP_WAIT_V(v), COP_MOVER(w, VID_CTRL), ...; loading one.
 * xosera/board.h      The board's spelling: xm_setw(WR_ADDR, a), vram_setw_next(w), ...
 *
 * C11 and C++17, gcc or clang, x86-64. Nothing but the library has to be linked.
 * It takes the place of the board's xosera_m68k_api.h, which must not be included beside it.
 * docs/FIRMWARE.md shows a first test and says what to change in code written for the board.
 */
#ifndef XOSERA_MODEL_H
#define XOSERA_MODEL_H

#include "xosera/registers.h"
#include "xosera/version.h"
#include "xosera/calls.h"
#include "xosera/texts.h"
#include "xosera/adapter.h"
#include "xosera/passing.h"
#include "xosera/handle.h"
#include "xosera/state.h"
#include "xosera/why.h"
#include "xosera/files.h"
#include "xosera/paint.h"
#include "xosera/trace.h"
#include "xosera/recording.h"
#include "xosera/replay.h"
#include "xosera/copper.h"
#include "xosera/board.h"

#endif /* XOSERA_MODEL_H */
