/*
 * A boot that is done once: what it leaves is saved, and loaded before each later test.
 *
 *   boot FILE [PATTERNS]
 *
 * Without a file of that name the firmware boots, and the adapter is saved there. With one, it is
 * loaded instead. Then a second adapter boots, to show that it comes to the same: both must be
 * equal word by word, and again after the same further drawing. The boot tests VRAM with so many
 * patterns, 256 unless said otherwise, and stores its picture pixel by pixel. What is wrong with an
 * argument is said on stderr, with the usage, and the exit status is 2.
 */
#include <errno.h>
#include <stdio.h>
#include <stdlib.h>
#include <string.h>
#include <time.h>

#include "xosera_model.h"

enum { WIDTH = 640, HEIGHT = 400, PITCH = WIDTH / 4 /* words a line */, SCREEN = 0x0000 };
enum { RING = 40 /* pixels from ring to ring */, BAR_WORDS = 20, BAR_LINES = 30 };

/* The firmware, as it stands on the board. */

static void test_vram(int patterns)
{
    xm_setw(WR_INCR, 1);
    xm_setw(RD_INCR, 1);
    for (int pattern = patterns - 1; pattern >= 0; pattern--) { /* the last one clears */
        const uint16_t word = (uint16_t)(pattern % 256 * 0x0101);
        vram_setw_next_addr(0);
        for (int i = 0; i < XOSERA_VRAM_MAX; i++) {
            vram_setw_next(word);
        }
        vram_getw_next_addr(0);
        for (int i = 0; i < XOSERA_VRAM_MAX; i++) {
            if (vram_getw_next() != word) {
                fprintf(stderr, "VRAM word %d is bad\n", i);
                exit(1);
            }
        }
    }
}

static void set_registers(void)
{
    xm_setw(INT_CTRL, INT_CTRL_BLIT_EN_F | INT_CTRL_CLEAR_ALL_F);
    xm_setw(TIMER, 100);
    xreg_setw(VID_CTRL, 0x0008);    /* border colour 8 */
    xreg_setw(PA_GFX_CTRL, 0x0050); /* bitmap, four bits a pixel */
    xreg_setw(PA_DISP_ADDR, SCREEN);
    xreg_setw(PA_LINE_LEN, PITCH);
    xmem_setw_next_addr(XR_COLOR_ADDR);
    for (int i = 0; i < 16; i++) {
        xmem_setw_next(i * 0x0111);
    }
}

static void set_pixel(int x, int y, int colour)
{
    xm_setbl(SYS_CTRL, 0x8 >> x % 4);
    vram_setw(SCREEN + y * PITCH + x / 4, colour * 0x1111);
}

/* Rings round the middle, each of its own colour. */
static void store_picture(void)
{
    for (int y = 0; y < HEIGHT; y++) {
        for (int x = 0; x < WIDTH; x++) {
            const int dx = x - WIDTH / 2, dy = y - HEIGHT / 2, far = dx * dx + dy * dy;
            for (int ring = 1; ring < 10; ring++) {
                const int radius = ring * RING;
                if (radius * radius <= far && far < (radius + 2) * (radius + 2)) {
                    set_pixel(x, y, ring);
                }
            }
        }
    }
    xm_setbl(SYS_CTRL, SYS_CTRL_WR_MASK_F);
}

/* A bar of one colour, less one pixel at each end of its words. */
static void draw_bar(int x, int y, int colour)
{
    xwait_blit_ready();
    xreg_setw(BLIT_CTRL, MAKE_BLIT_CTRL(0, 0, 0, 1)); /* constant source */
    xreg_setw(BLIT_ANDC, 0x0000);
    xreg_setw(BLIT_XOR, 0x0000);
    xreg_setw(BLIT_MOD_S, 0);
    xreg_setw(BLIT_SRC_S, colour * 0x1111);
    xreg_setw(BLIT_MOD_D, PITCH - BAR_WORDS);
    xreg_setw(BLIT_DST_D, SCREEN + y * PITCH + x / 4);
    xreg_setw(BLIT_SHIFT, MAKE_BLIT_SHIFT(0x7, 0xE, 0));
    xreg_setw(BLIT_LINES, BAR_LINES - 1);
    xreg_setw(BLIT_WORDS, BAR_WORDS - 1);
}

/* It ends with one blit in the middle and one queued. */
static void boot(int patterns)
{
    test_vram(patterns);
    set_registers();
    store_picture();
    draw_bar(40, 20, 0xA);
    draw_bar(520, 20, 0xB);
    (void)xosera_run(xosera_here(), BAR_WORDS * BAR_LINES / 2 + 3);
}

static void draw_on(void)
{
    draw_bar(280, 350, 0xC);
    for (int i = 0; i < 250; i++) {
        xosera_tick(xosera_here());
    }
    xwait_blit_done();
    set_pixel(WIDTH / 2, HEIGHT / 2, 0xF);
}

/* The test. */

static uint16_t vram[2][XOSERA_VRAM_MAX], xr[2][XOSERA_XR_WORDS];
static xosera adapters[2];

static double seconds(void)
{
    struct timespec now;
    timespec_get(&now, TIME_UTC);
    return (double)now.tv_sec + (double)now.tv_nsec / 1e9;
}

/* Firmware runs on this adapter from now on, and ends at a refusal. */
static void run_on(xosera *x)
{
    x->on_refusal = xosera_abort_on_refusal;
    xosera_use(x);
}

/* The time that the boot of an adapter takes. */
static double booted(xosera *x, int patterns)
{
    const double start = seconds();
    run_on(x);
    boot(patterns);
    return seconds() - start;
}

static void end_if_different(const char *when)
{
    if (memcmp(&adapters[0].state, &adapters[1].state, sizeof adapters[0].state) != 0 ||
        memcmp(vram[0], vram[1], sizeof vram[0]) != 0 || memcmp(xr[0], xr[1], sizeof xr[0]) != 0) {
        fprintf(stderr, "the loaded adapter is not the one that booted, %s\n", when);
        exit(1);
    }
}

static void compare(int patterns, double load_time)
{
    const double boot_time = booted(&adapters[1], patterns);
    printf("loaded in %.4f s; the boot takes %.4f s\n", load_time, boot_time);
    end_if_different("after the load");
    for (int i = 0; i < 2; i++) {
        run_on(&adapters[i]);
        draw_on();
    }
    end_if_different("after drawing on");
    puts("both are equal, after the load and after drawing on");
}

/* Say in a sentence what is wrong, then the usage; the exit status for it. */
static int complain(const char *what, const char *argument)
{
    fprintf(stderr, "boot: %s%s\nusage: boot FILE [PATTERNS]\n", what, argument);
    return 2;
}

/* So many patterns; 0 where the text is no number from 1 to 9999. */
static int read_patterns(const char *text)
{
    char *end;
    const long value = strtol(text, &end, 10);
    return end != text && *end == '\0' && 1 <= value && value <= 9999 ? (int)value : 0;
}

int main(int argc, char **argv)
{
    char text[256];
    if (argc < 2) {
        return complain("FILE is missing", "");
    }
    if (argc > 3) {
        return complain("there is an argument too many: ", argv[3]);
    }
    const int patterns = argc == 3 ? read_patterns(argv[2]) : 256;
    if (patterns == 0) {
        return complain("PATTERNS should be a number from 1 to 9999 and is ", argv[2]);
    }
    for (int i = 0; i < 2; i++) {
        xosera_attach(&adapters[i], vram[i], XOSERA_VRAM_MAX, xr[i], XOSERA_XR_WORDS);
    }
    const double start = seconds();
    xosera_file_answer a = xosera_load_file(&adapters[0], argv[1]);
    const double load_time = seconds() - start;
    if (xosera_file_done(a)) {
        compare(patterns, load_time);
        return 0;
    }
    if (a.error == ENOENT) { /* no such file: this is the first time */
        printf("booted in %.4f s\n", booted(&adapters[0], patterns));
        a = xosera_save_file(&adapters[0], argv[1]);
    }
    if (!xosera_file_done(a)) {
        return complain(xosera_file_text(text, sizeof text, argv[1], a), "");
    }
    printf("saved: %s\n", argv[1]);
    return 0;
}
