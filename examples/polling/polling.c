/*
 * Firmware that waits in loops of its own, on an adapter for which time passes with each byte.
 *
 *   polling [-t] [-r FILE]
 *
 * Each loop is written as on the board and ends by the bytes that it accesses, at the rates of a
 * 10 MHz CPU. Printed is how many bytes each took. With -t every call is traced to standard output;
 * with -r the session is recorded to FILE, for `replay FILE`.
 */
#include <stdio.h>
#include <string.h>

#include "xosera_model.h"

enum { CPU_HZ = 10000000 };

/* The firmware, as it stands on the board. */

static void start_blit(uint16_t at, uint16_t words, uint16_t colour)
{
    while (xm_getbh(SYS_CTRL) & SYS_CTRL_BLIT_FULL_F) {
    }
    xreg_setw(BLIT_CTRL, MAKE_BLIT_CTRL(0, 0, 0, 1));
    xreg_setw(BLIT_SRC_S, colour);
    xreg_setw(BLIT_DST_D, at);
    xreg_setw(BLIT_SHIFT, MAKE_BLIT_SHIFT(0xF, 0xF, 0));
    xreg_setw(BLIT_LINES, 0);
    xreg_setw(BLIT_WORDS, words - 1);
}

static void three_blits(void)
{
    start_blit(0x0000, 4000, 0x1111);
    start_blit(0x1000, 4000, 0x2222); /* queued */
    start_blit(0x2000, 4000, 0x3333); /* waits until there is room */
}

static void wait_while_busy(void)
{
    while (xm_getbh(SYS_CTRL) & SYS_CTRL_BLIT_BUSY_F) {
    }
}

static void wait_on_the_timer(void)
{
    const uint16_t start = xm_getw(TIMER);
    while ((uint16_t)(xm_getw(TIMER) - start) < 50) { /* 5 ms */
    }
}

static void wait_for_the_countdown(void)
{
    xm_setw(INT_CTRL, INT_CTRL_TIMER_INTR_F); /* acknowledge an old one */
    xm_setw(TIMER, 20);
    while (!(xm_getbl(INT_CTRL) & INT_CTRL_TIMER_INTR_F)) {
    }
}

static void wait_for_line_100(void)
{
    while (xreg_getw(SCANLINE) != 100) {
    }
}

static void wait_for_vblank(void)
{
    while (xm_getbh(SYS_CTRL) & SYS_CTRL_VBLANK_F) {
    }
    while (!(xm_getbh(SYS_CTRL) & SYS_CTRL_VBLANK_F)) {
    }
}

static void wait_for_the_video_interrupt(void)
{
    xm_setw(INT_CTRL, INT_CTRL_VIDEO_INTR_F);
    while (!(xm_getw(INT_CTRL) & INT_CTRL_VIDEO_INTR_F)) {
    }
}

/* The test. */

static uint16_t vram[XOSERA_VRAM_MAX], xr[XOSERA_XR_WORDS];
static unsigned long bytes;

static void count_bytes(xosera *x, const xosera_access *what)
{
    (void)x;
    bytes += what->call == XOSERA_CALL_WRITE || what->call == XOSERA_CALL_READ ? 1 : 0;
}

static void run_loops(const xosera *adapter)
{
    static const struct {
        const char *name;
        void (*loop)(void);
    } loops[] = {{"room in the queue", three_blits},
                 {"blitter busy", wait_while_busy},
                 {"timer, 5 ms", wait_on_the_timer},
                 {"countdown of 2 ms", wait_for_the_countdown},
                 {"line 100", wait_for_line_100},
                 {"vertical blanking", wait_for_vblank},
                 {"video interrupt", wait_for_the_video_interrupt}};
    for (size_t i = 0; i < sizeof loops / sizeof loops[0]; i++) {
        bytes = 0;
        loops[i].loop();
        printf("%-18s %6lu bytes; timer %4d, beam at line %3d\n", loops[i].name, bytes,
               adapter->state.host.timer.count, adapter->state.beam.line);
    }
}

static int usage(const char *why, const char *what)
{
    fprintf(stderr, "polling: %s%s\nusage: polling [-t] [-r FILE]\n", why, what);
    return 2;
}

/* 0, or the exit status after a sentence about a file. */
static int failed(const char *path, xosera_file_answer a)
{
    char text[300];
    if (!xosera_file_done(a)) {
        return usage("", xosera_file_text(text, sizeof text, path, a));
    }
    return 0;
}

int main(int argc, char **argv)
{
    const char *path = NULL;
    bool trace = false;
    for (int i = 1; i < argc; i++) {
        if (strcmp(argv[i], "-t") == 0) {
            trace = true;
        } else if (strcmp(argv[i], "-r") == 0 && i + 1 < argc) {
            path = argv[++i];
        } else {
            return strcmp(argv[i], "-r") == 0 ? usage("FILE is missing after -r", "")
                                              : usage("not an argument: ", argv[i]);
        }
    }
    xosera adapter;
    xosera_attach(&adapter, vram, XOSERA_VRAM_MAX, xr, XOSERA_XR_WORDS);
    adapter.on_refusal = xosera_abort_on_refusal;
    adapter.on_access = count_bytes;
    xosera_use(&adapter);
    xosera_board_rates(&adapter, CPU_HZ);
    if (trace) {
        xosera_trace_to(&adapter, stdout);
    }
    if (path != NULL && failed(path, xosera_record(&adapter, path)) != 0) {
        return 2;
    }
    run_loops(&adapter);
    return path != NULL ? failed(path, xosera_record_end(&adapter)) : 0;
}
