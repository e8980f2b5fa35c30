/*
 * The telescope's cross, drawn by the blitter through the registers.
 *
 *   cross [-s] [-f] [-w X Y] [X Y WIDTH [FILE]]
 *
 * The cross, with the pair of marks that says which way to turn, lies in VRAM as a picture of even
 * width. It is drawn at pixel X, Y of the field, cropped on its right to WIDTH pixels, odd or even.
 * The field is printed and, with FILE, written as a PNM picture. -f adds last spring's fault, a
 * crop that leaves the right edge mask as it was: the field before (X lit and o dark where it is
 * wrong), the wrong pixels, and the field after. -s does the blit in single steps and lists first
 * each word done, with the nibbles that it wrote; with -f those of both drawings side by side.
 * -w says why pixel X, Y of the field is as it is, in the drawing with the fault and in the right
 * one, last and in place of the field, which then only -f prints. An even WIDTH has no fault.
 * What is wrong with an argument is said on stderr, with the usage, and the exit status is 2.
 */
#include <errno.h>
#include <stdarg.h>
#include <stdbool.h>
#include <stdio.h>
#include <stdlib.h>
#include <string.h>

#include "xosera_model.h"

enum { FIELD_W = 48, FIELD_H = 11, CROSS_H = 9, PITCH = FIELD_W / 4 /* words a line */ };
enum { FIELD = 0x0000, FAULTY = 0x2000, PICTURE = 0x4000 /* VRAM addresses */ };

static uint16_t vram[XOSERA_VRAM_MAX], xr[XOSERA_XR_WORDS];

typedef struct options {
    bool steps, fault, why;
    int x, y, width;
    int why_x, why_y; /* the pixel that is asked about */
    const char *file; /* NULL: none */
} options;

/* A word that the blitter did: its place in the blit, its VRAM address, the nibbles written. */
typedef struct word_done {
    int line, word;
    unsigned address, mask;
} word_done;

/* A drawing: its VRAM address, the width that its right mask belongs to, why the pixel asked about
 * is as it is, and the words done in single steps. */
typedef struct drawing {
    int field, mask_width, words;
    xosera_why_answer why;
    word_done done[CROSS_H * PITCH];
} drawing;

/* Both arms, and at the right end one mark above and one below, three pixels wide. */
static int inked(int column, int row, int width)
{
    const int middle = CROSS_H / 2, is_mark = row == middle - 2 || row == middle + 2;
    return column < width &&
           (row == middle || column == (width - 1) / 2 || (is_mark && column >= width - 3));
}

static void store_picture(int width)
{
    xm_setw(WR_INCR, 1);
    xm_setw(WR_ADDR, PICTURE);
    for (int row = 0; row < CROSS_H; row++) {
        for (int column = 0; column < FIELD_W; column += 4) {
            uint16_t word = 0;
            for (int i = column; i < column + 4; i++) {
                word = (uint16_t)(word << 4 | (inked(i, row, width) ? 0xF : 0x0));
            }
            vram_setw_next(word);
        }
    }
}

/* The VRAM address of the word that a pixel lies in. */
static int address(int field, int x, int y)
{
    return field + y * PITCH + x / 4;
}

/* Draw the picture's first `width` columns at pixel x, y. The left mask holds back the nibbles that
 * the shifter brings along from the line before. The right mask belongs to `mask_width`, which is
 * `width` but for the fault. Colour 0 is transparent. */
static void draw_cross(int field, int x, int y, int width, int mask_width)
{
    const int shift = x % 4, words = (shift + width + 3) / 4, over = (shift + mask_width) % 4;
    const int first_mask = 0xF >> shift, last_mask = over == 0 ? 0xF : 0xF << (4 - over);

    xwait_blit_ready();
    xreg_setw(BLIT_CTRL, MAKE_BLIT_CTRL(0x00, 0, 1, 0));
    xreg_setw(BLIT_ANDC, 0x0000);
    xreg_setw(BLIT_XOR, 0x0000);
    xreg_setw(BLIT_MOD_S, PITCH - words);
    xreg_setw(BLIT_SRC_S, PICTURE);
    xreg_setw(BLIT_MOD_D, PITCH - words);
    xreg_setw(BLIT_DST_D, address(field, x, y));
    xreg_setw(BLIT_SHIFT, MAKE_BLIT_SHIFT(first_mask, last_mask, shift));
    xreg_setw(BLIT_LINES, CROSS_H - 1);
    xreg_setw(BLIT_WORDS, words - 1); /* starts the blit */
}

static void draw(drawing *d, const options *o)
{
    static uint16_t before[XOSERA_VRAM_MAX];
    xosera *const adapter = xosera_here();
    memcpy(before, vram, sizeof before);
    draw_cross(d->field, o->x, o->y, o->width, d->mask_width);
    while (o->steps && adapter->state.engine.running) {
        const xosera_engine next = adapter->state.engine;
        (void)xosera_step(adapter);
        d->done[d->words++] = (word_done){next.line, next.word, next.regs.dst_d, adapter->mask};
    }
    xwait_blit_done();
    if (o->why) {
        const int at = address(d->field, o->why_x, o->why_y);
        d->why = xosera_why_pixel(adapter, (uint64_t)at, (uint64_t)o->why_x % 4, before);
    }
}

static int pixel(int field, int x, int y)
{
    return vram[address(field, x, y)] >> (12 - 4 * (x % 4)) & 0xF;
}

/* `ink` has a character each for dark, lit, dark and wrong, lit and wrong. */
static void put_field(FILE *to, int field, const char *ink)
{
    for (int y = 0; y < FIELD_H; y++) {
        for (int x = 0; x < FIELD_W; x++) {
            const int lit = pixel(field, x, y) != 0;
            const int wrong = pixel(field, x, y) != pixel(FIELD, x, y);
            fputc(ink[lit + 2 * wrong], to);
        }
        fputc('\n', to);
    }
}

static void put_wrong_pixels(void)
{
    int count = 0;
    for (int i = 0; i < FIELD_W * FIELD_H; i++) {
        const int x = i % FIELD_W, y = i / FIELD_W;
        const int is = pixel(FAULTY, x, y), should = pixel(FIELD, x, y);
        if (is != should) {
            printf("wrong: pixel x %d, y %d is %X and should be %X\n", x, y, is, should);
            count++;
        }
    }
    printf("wrong pixels: %d\n", count);
}

/* A row for each word, with what the drawings wrote there side by side. */
static void put_words(const drawing *d, int drawings)
{
    printf("each word done: # nibble written, . held back\n%10s", "");
    for (int i = 0; i < drawings; i++) {
        printf("  right mask of %2d", d[i].mask_width);
    }
    printf("\nline  word");
    for (int i = 0; i < drawings; i++) {
        printf("  address  written");
    }
    putchar('\n');
    for (int w = 0; w < d->words; w++) {
        printf("%4d  %4d", d->done[w].line, d->done[w].word);
        for (int i = 0; i < drawings; i++) {
            printf("   0x%04X     %s", d[i].done[w].address, xosera_mask_text(d[i].done[w].mask));
        }
        puts(d->done[w].mask != d[drawings - 1].done[w].mask ? "  differs" : "");
    }
    putchar('\n');
}

/* Why the pixel is as it is, in the drawing with the fault, if that is another, and in the right
 * one. */
static void put_why(const drawing *d, const options *o)
{
    char text[XOSERA_WHY_TEXT];
    printf("why pixel x %d, y %d is as it is\n", o->why_x, o->why_y);
    for (int i = d[0].mask_width == d[1].mask_width ? 1 : 0; i < 2; i++) {
        printf("  right mask of %2d%-23s colour %X, %s\n", d[i].mask_width,
               d[i].field == FAULTY ? " (last spring's fault):" : ":",
               (unsigned)pixel(d[i].field, o->why_x, o->why_y),
               xosera_why_text(text, sizeof text, d[i].why));
    }
}

static int even_width(int width)
{
    return width + width % 2;
}

/* Say in a sentence what is wrong, then the usage. */
__attribute__((format(printf, 1, 2))) static bool complain(const char *format, ...)
{
    va_list arguments;
    va_start(arguments, format);
    fputs("cross: ", stderr);
    vfprintf(stderr, format, arguments);
    va_end(arguments);
    fprintf(stderr,
            "\nusage: cross [-s] [-f] [-w X Y] [X Y WIDTH [FILE]], inside %d by %d pixels, "
            "%d high\n",
            FIELD_W, FIELD_H, CROSS_H);
    return false;
}

static bool read_number(const char *name, const char *text, int *number)
{
    char *end;
    errno = 0;
    const long value = strtol(text, &end, 10);
    if (end == text || *end != '\0') {
        return complain("%s is not a number: \"%s\"", name, text);
    }
    if (errno == ERANGE || value < -9999 || value > 9999) {
        return complain("%s is far outside the field: %s", name, text);
    }
    *number = (int)value;
    return true;
}

static bool in_range(const char *name, int number, int low, int high)
{
    if (number < low || number > high) {
        return complain("%s is %d and should be %d to %d", name, number, low, high);
    }
    return true;
}

/* The pixel behind -w, of which `n` numbers are there. */
static bool read_pixel(options *o, int n, char **argv)
{
    if (n < 2) {
        return complain("%s missing after %s", n == 0 ? "X and Y are" : "Y is", argv[n]);
    }
    o->why = true;
    return read_number("X of -w", argv[1], &o->why_x) &&
           read_number("Y of -w", argv[2], &o->why_y) &&
           in_range("X of -w", o->why_x, 0, FIELD_W - 1) &&
           in_range("Y of -w", o->why_y, 0, FIELD_H - 1);
}

/* The options at the front; `*next` is the argument behind them. A number below 0 is none. */
static bool read_flags(options *o, int argc, char **argv, int *next)
{
    int i = 1;
    for (; i < argc && argv[i][0] == '-' && strchr("0123456789", argv[i][1]) == NULL; i++) {
        if (strcmp(argv[i], "-s") == 0) {
            o->steps = true;
        } else if (strcmp(argv[i], "-f") == 0) {
            o->fault = true;
        } else if (strcmp(argv[i], "-w") != 0) {
            return complain("there is no option %s", argv[i]);
        } else if (!read_pixel(o, argc - i - 1, argv + i)) {
            return false;
        } else {
            i += 2;
        }
    }
    *next = i;
    return true;
}

/* False, with a sentence, unless the arguments are as the usage says. */
static bool read_options(options *o, int argc, char **argv)
{
    static const char *const missing[] = {"", "Y and WIDTH are", "WIDTH is"};
    int i = 0;
    if (!read_flags(o, argc, argv, &i)) {
        return false;
    }
    const int n = argc - i;
    if (n == 1 || n == 2) {
        return complain("%s missing after %s", missing[n], argv[argc - 1]);
    }
    if (n > 4) {
        return complain("there is an argument too many: %s", argv[i + 4]);
    }
    if (n != 0 && !(read_number("X", argv[i], &o->x) && read_number("Y", argv[i + 1], &o->y) &&
                    read_number("WIDTH", argv[i + 2], &o->width))) {
        return false;
    }
    o->file = n == 4 ? argv[i + 3] : NULL;
    return in_range("WIDTH", o->width, 1, FIELD_W) &&
           in_range("X", o->x, 0, FIELD_W - even_width(o->width)) &&
           in_range("Y", o->y, 0, FIELD_H - CROSS_H);
}

/* The picture of the field, in a file or, without a name, nowhere. */
static bool write_picture(const char *name, int field)
{
    if (name == NULL) {
        return true;
    }
    errno = 0;
    FILE *const file = fopen(name, "w");
    if (file == NULL) {
        return complain("%s cannot be written: %s", name, strerror(errno));
    }
    fprintf(file, "P1\n%d %d\n", FIELD_W, FIELD_H);
    put_field(file, field, "0101");
    const bool written = ferror(file) == 0;
    if (fclose(file) != 0 || !written) {
        return complain("%s cannot be written: %s", name, strerror(errno));
    }
    return true;
}

int main(int argc, char **argv)
{
    options o = {.x = 10, .y = 1, .width = 21};
    if (!read_options(&o, argc, argv)) {
        return 2;
    }

    xosera adapter;
    xosera_attach(&adapter, vram, XOSERA_VRAM_MAX, xr, XOSERA_XR_WORDS);
    adapter.on_refusal = xosera_abort_on_refusal;
    xosera_use(&adapter);

    const int even = even_width(o.width), first = o.fault ? 0 : 1;
    drawing drawings[2] = {{.field = FAULTY, .mask_width = even},
                           {.field = FIELD, .mask_width = o.width}};
    store_picture(even);
    for (int i = o.why ? 0 : first; i < 2; i++) {
        draw(&drawings[i], &o);
    }
    if (o.steps) {
        put_words(drawings + first, 2 - first);
    }
    if (o.fault) {
        printf("before: cropped to %d, right mask still that of %d\n", o.width, even);
        put_field(stdout, FAULTY, ".#oX");
        put_wrong_pixels();
        printf("after: right mask of %d\n", o.width);
    }
    if (o.fault || !o.why) {
        put_field(stdout, FIELD, ".#oX");
    }
    if (o.why) {
        put_why(drawings, &o);
    }
    return write_picture(o.file, drawings[first].field) ? 0 : 2;
}
