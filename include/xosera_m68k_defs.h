/* SPDX-License-Identifier: MIT */
/* Found in place of the board's own header, where this folder is first on the include path. */
#error "include xosera_model.h in place of xosera_m68k_defs.h, which is the board's"
