/*
 * The telescope's screen without a monitor: the cross on playfield A, in a border that a copper
 * list changes halfway down.
 *
 *   screen [--grey] [FILE]
 *
 * The field is 256 by 240 pixels of four bits, each shown as 2 by 2 pixels of the screen: it is 512
 * wide there and leaves 64 on each side to the border. (640 by 480 pixels of four bits would take
 * 76,800 words, more than VRAM has.) The blitter draws the cross in bars of a constant, which the
 * nibble masks cut at odd pixels. The screen is painted once as a whole, before the copper runs,
 * and then line by line as the beam comes to each. Printed are, of the second picture, the lines
 * with their border, the colours along some lines and how often each is seen; then where the first
 * one differs. The second one goes to FILE, as PPM. With --grey both are painted in the sixteen
 * levels of a monochrome tube, FILE is a PGM, and the level of each colour is printed too: colours
 * of one level look alike there. What is wrong with an argument is said on stderr, with the usage,
 * and the exit status is 2.
 */
#include <errno.h>
#include <stdbool.h>
#include <stdio.h>
#include <string.h>

#include "xosera_model.h"

enum { FIELD_W = 256, FIELD_H = 240, PITCH = FIELD_W / 4 /* words a line */, FIELD = 0x1000 };
enum { LEFT = 64, RIGHT = LEFT + 2 * FIELD_W, HALFWAY = 240 };

/* Colour indices: of the border, and of the field by its pixels behind the base. */
enum { UPPER = 0x01, LOWER = 0x04, BASE = 0x10 };
enum { DARK = 0, CROSS = 1, MARK = 2 };

/* What stands there, 0xRGB. */
static const struct {
    uint16_t index, colour;
} colours[] = {{UPPER, 0x0246},
               {LOWER, 0x0642},
               {BASE + DARK, 0x0012},
               {BASE + CROSS, 0x03E5},
               {BASE + MARK, 0x0FA0}};
enum { COLOURS = sizeof colours / sizeof colours[0] };

/* The firmware, as it stands on the board. */

static const uint32_t list[] = {COP_MOVER(UPPER, VID_CTRL), COP_WAIT_V(HALFWAY),
                                COP_MOVER(LOWER, VID_CTRL), COP_END()};
enum { INSTRUCTIONS = sizeof list / sizeof list[0] };

static void load_colours(void)
{
    for (int i = 0; i < COLOURS; i++) {
        xmem_setw(XR_COLOR_A_ADDR + colours[i].index, colours[i].colour);
    }
}

static void show_field(void)
{
    xreg_setw(VID_CTRL, UPPER);
    xreg_setw(VID_LEFT, LEFT);
    xreg_setw(VID_RIGHT, RIGHT);
    xreg_setw(PA_GFX_CTRL, MAKE_GFX_CTRL(BASE, 0, XR_GFX_BPP_4, 1, 2 - 1, 2 - 1));
    xreg_setw(PA_DISP_ADDR, FIELD);
    xreg_setw(PA_LINE_LEN, PITCH);
}

/* A bar of one colour from pixel x, y on: words of a constant, the first and the last of a line cut
 * by the nibble masks. A bar within one word is cut by both. */
static void draw_bar(int x, int y, int width, int height, int colour)
{
    const int words = (x % 4 + width + 3) / 4, over = (x + width) % 4;
    const int first_mask = 0xF >> x % 4, last_mask = over == 0 ? 0xF : 0xF << (4 - over);

    xwait_blit_ready();
    xreg_setw(BLIT_CTRL, MAKE_BLIT_CTRL(0x00, 0, 0, 1));
    xreg_setw(BLIT_ANDC, 0x0000);
    xreg_setw(BLIT_XOR, 0x0000);
    xreg_setw(BLIT_MOD_S, 0x0000);
    xreg_setw(BLIT_SRC_S, 0x1111 * colour);
    xreg_setw(BLIT_MOD_D, PITCH - words);
    xreg_setw(BLIT_DST_D, FIELD + y * PITCH + x / 4);
    xreg_setw(BLIT_SHIFT, MAKE_BLIT_SHIFT(first_mask, last_mask, 0));
    xreg_setw(BLIT_LINES, height - 1);
    xreg_setw(BLIT_WORDS, words - 1); /* starts the blit */
}

/* Both arms, three pixels thick, with a scale of lines one pixel thick, and at the right end one
 * mark above and one below, which say which way to turn. */
static void draw_cross(void)
{
    draw_bar(0, 0, FIELD_W, FIELD_H, DARK);
    draw_bar(21, 118, 213, 3, CROSS);
    draw_bar(126, 13, 3, 213, CROSS);
    for (int i = -5; i <= 5; i++) {
        draw_bar(127 + 19 * i, 113, 1, 13, CROSS);
        draw_bar(121, 119 + 19 * i, 13, 1, CROSS);
    }
    draw_bar(217, 97, 17, 3, MARK);
    draw_bar(217, 139, 17, 3, MARK);
}

static void start_list(void)
{
    xmem_setw_next_addr(XR_COPPER_ADDR);
    for (int i = 0; i < INSTRUCTIONS; i++) {
        xmem_setw_next(list[i] >> 16);
        xmem_setw_next(list[i] & 0xFFFF);
    }
    xwait_not_vblank();
    xwait_vblank(); /* as much time as can be before line 0 */
    xreg_setw(COPP_CTRL, COPP_CTRL_COPP_EN_F);
}

/* The test. */

static bool grey; /* in levels, not in colours */

static uint16_t vram[XOSERA_VRAM_MAX], xr[XOSERA_XR_WORDS];

/* The screen painted at once, and line by line as the beam goes. */
static uint16_t at_once[XOSERA_SCREEN_PIXELS], by_lines[XOSERA_SCREEN_PIXELS];

static uint16_t *pixels_of(int line)
{
    return by_lines + line * XOSERA_SCREEN_WIDTH;
}

/* A frame is painted line by line, each when the beam comes to its first visible pixel. */
static void paint(void)
{
    xosera adapter;
    xosera_attach(&adapter, vram, XOSERA_VRAM_MAX, xr, XOSERA_XR_WORDS);
    adapter.on_refusal = xosera_abort_on_refusal;
    xosera_use(&adapter);
    load_colours();
    show_field();
    draw_cross();
    xwait_blit_done();
    (void)(grey ? xosera_paint_grey_screen : xosera_paint_screen)(&adapter, at_once,
                                                                  XOSERA_SCREEN_PIXELS);
    start_list();
    for (uint16_t line = 0; line < XOSERA_VISIBLE_LINES; line++) {
        (void)xosera_beam_to(&adapter, line, XOSERA_BLANK_POSITIONS);
        (void)(grey ? xosera_paint_grey_line : xosera_paint_line)(&adapter, line, pixels_of(line),
                                                                  XOSERA_SCREEN_WIDTH);
    }
}

/* What a pixel is: a colour in three digits, or a level. */
static void put_pixel(unsigned pixel)
{
    printf(grey ? "level %u" : "%03X", pixel);
}

/* The levels by which the colours are seen. */
static void put_levels(void)
{
    for (int i = 0; i < COLOURS; i++) {
        printf("colour %03X is level %u\n", (unsigned)colours[i].colour,
               (unsigned)xosera_grey(colours[i].colour));
    }
}

/* Runs of lines with one border, by the first pixel of each. */
static void put_borders(void)
{
    int first = 0;
    for (int line = 1; line <= XOSERA_VISIBLE_LINES; line++) {
        if (line == XOSERA_VISIBLE_LINES || *pixels_of(line) != *pixels_of(first)) {
            printf("border of lines %d to %d: ", first, line - 1);
            put_pixel(*pixels_of(first));
            putchar('\n');
            first = line;
        }
    }
}

/* The colours or levels along a line: so many pixels of each. */
static void put_line(int line)
{
    const uint16_t *const pixels = pixels_of(line);
    int first = 0;
    printf("line %3d:", line);
    for (int x = 1; x <= XOSERA_SCREEN_WIDTH; x++) {
        if (x == XOSERA_SCREEN_WIDTH || pixels[x] != pixels[first]) {
            printf(" %d of ", x - first);
            put_pixel(pixels[first]);
            putchar(x == XOSERA_SCREEN_WIDTH ? '\n' : ',');
            first = x;
        }
    }
}

/* How often each colour or level is seen. */
static void put_counts(void)
{
    static int count[0x1000];
    for (int i = 0; i < XOSERA_SCREEN_PIXELS; i++) {
        count[by_lines[i] & 0xFFF]++;
    }
    for (unsigned pixel = 0; pixel < 0x1000; pixel++) {
        if (count[pixel] != 0) {
            printf("%6d pixels of ", count[pixel]);
            put_pixel(pixel);
            putchar('\n');
        }
    }
}

/* Where the picture painted at once is another. */
static void put_difference(void)
{
    int first = XOSERA_VISIBLE_LINES, last = 0, border = 0, field = 0;
    for (int i = 0; i < XOSERA_SCREEN_PIXELS; i++) {
        const int line = i / XOSERA_SCREEN_WIDTH, x = i % XOSERA_SCREEN_WIDTH;
        if (at_once[i] != by_lines[i]) {
            first = line < first ? line : first;
            last = line;
            *(LEFT <= x && x < RIGHT ? &field : &border) += 1;
        }
    }
    printf("painted at once, without the copper: ");
    if (border + field == 0) {
        printf("no pixel differs\n");
    } else {
        printf("lines %d to %d differ, in %d pixels of the border and %d of the field\n", first,
               last, border, field);
    }
}

static int complain(const char *what, const char *more, const char *why)
{
    fprintf(stderr, "screen: %s%s%s\nusage: screen [--grey] [FILE]\n", what, more, why);
    return 2;
}

/* What is printed of the two pictures. */
static void put_pictures(void)
{
    static const int shown[] = {0, 100, 196, 239, 240};
    printf("playfield A: %d by %d pixels of 4 bits, shown 2 by 2 in pixels %d to %d of a line\n",
           FIELD_W, FIELD_H, LEFT, RIGHT - 1);
    if (grey) {
        put_levels();
    }
    put_borders();
    for (size_t i = 0; i < sizeof shown / sizeof shown[0]; i++) {
        put_line(shown[i]);
    }
    put_counts();
    put_difference();
}

int main(int argc, char **argv)
{
    const char *file = NULL;
    for (int i = 1; i < argc; i++) {
        if (strcmp(argv[i], "--grey") == 0) {
            grey = true;
        } else if (argv[i][0] == '-') {
            return complain("there is no option ", argv[i], "");
        } else if (file != NULL) {
            return complain("there is an argument too many: ", argv[i], "");
        } else {
            file = argv[i];
        }
    }
    paint();
    put_pictures();
    if (file != NULL && !(grey ? xosera_write_pgm : xosera_write_ppm)(
                            file, by_lines, XOSERA_SCREEN_WIDTH, XOSERA_VISIBLE_LINES)) {
        return complain(file, " cannot be written: ", strerror(errno));
    }
    return 0;
}
