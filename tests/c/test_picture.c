/* Painted pixels as a file: colours as PPM, levels as PGM. */
#define _POSIX_C_SOURCE 200809L /* mkdtemp, rmdir */
#include <errno.h>
#include <stdbool.h>
#include <stddef.h>
#include <stdlib.h>
#include <unistd.h>

/* malloc as xosera/paint.h sees it in this file: how many bytes it was asked for, and whether it
 * has them. */
static size_t bytes_asked;
static bool no_memory;

static void *try_malloc(size_t size)
{
    bytes_asked = size;
    return no_memory ? NULL : malloc(size);
}

#define malloc(size) try_malloc(size)
#include "xosera/paint.h"
#undef malloc

#include "painting.h"

/* A form of picture, with a pixel and the file of that pixel alone. */
typedef struct form {
    bool (*write)(const char *path, const uint16_t *pixels, size_t width, size_t lines);
    size_t bytes; /* a pixel */
    uint16_t pixel;
    const char *file;
} form;
static const form ppm = {xosera_write_ppm, 3, 0x0ABC, "P6\n1 1\n255\n\xAA\xBB\xCC"};
static const form pgm = {xosera_write_pgm, 1, 0x000B, "P5\n1 1\n15\n\x0B"};

static void a_colour_has_24_bits(void **state)
{
    (void)state;
    for (uint32_t colour = 0; colour < 65536; colour++) {
        const uint32_t red = colour / 256 % 16, green = colour / 16 % 16, blue = colour % 16;
        assert_int_equal(xosera_rgb24((uint16_t)colour),
                         red * 17 * 65536 + green * 17 * 256 + blue * 17);
    }
    assert_int_equal(xosera_rgb24(0xF48C), 0x4488CC);
}

/* A folder of the test's own, and a path in it. */
typedef struct test_folder {
    char folder[64], path[96];
} test_folder;

static int folder_setup(void **state)
{
    test_folder *t = (test_folder *)malloc(sizeof *t);
    assert_non_null(t);
    strcpy(t->folder, "/tmp/xosera-XXXXXX");
    assert_non_null(mkdtemp(t->folder));
    snprintf(t->path, sizeof t->path, "%s/screen", t->folder);
    no_memory = false;
    *state = t;
    return 0;
}

/* Nothing is left but what the test took away. */
static int folder_teardown(void **state)
{
    test_folder *t = (test_folder *)*state;
    const int removed = rmdir(t->folder);
    free(t);
    return removed;
}
#define WITH_FOLDER(test) cmocka_unit_test_setup_teardown(test, folder_setup, folder_teardown)

/* The file is these bytes and no more. */
static void assert_file(const char *path, const void *bytes, size_t length)
{
    uint8_t *const got = (uint8_t *)malloc(length + 1);
    FILE *const in = fopen(path, "rb");
    assert_true(got != NULL && in != NULL);
    assert_int_equal(fread(got, 1, length + 1, in), length);
    assert_memory_equal(got, bytes, length);
    fclose(in);
    free(got);
}

static void colours_are_a_file(void **state)
{
    const test_folder *t = (test_folder *)*state;
    static const uint16_t pixels[] = {0x0000, 0x0FFF, 0xF123, 0x0F00, 0x00F0, 0x000F};
    static const uint8_t wide[] = "P6\n3 2\n255\n"
                                  "\x00\x00\x00\xFF\xFF\xFF\x11\x22\x33"
                                  "\xFF\x00\x00\x00\xFF\x00\x00\x00\xFF";
    static const uint8_t tall[] = "P6\n1 4\n255\n"
                                  "\x00\x00\x00\xFF\xFF\xFF\x11\x22\x33\xFF\x00\x00";
    assert_true(xosera_write_ppm(t->path, pixels, 3, 2));
    assert_file(t->path, wide, sizeof wide - 1);
    assert_true(xosera_write_ppm(t->path, pixels, 1, 4)); /* over the old file */
    assert_file(t->path, tall, sizeof tall - 1);
    assert_int_equal(remove(t->path), 0);
}

static void levels_are_a_file(void **state)
{
    const test_folder *t = (test_folder *)*state;
    static const uint16_t pixels[] = {0, 15, 1, 14, 10, 7};
    static const uint8_t wide[] = "P5\n3 2\n15\n\x00\x0F\x01\x0E\x0A\x07";
    static const uint8_t tall[] = "P5\n1 4\n15\n\x00\x0F\x01\x0E";
    assert_true(xosera_write_pgm(t->path, pixels, 3, 2));
    assert_file(t->path, wide, sizeof wide - 1);
    assert_true(xosera_write_pgm(t->path, pixels, 1, 4)); /* over the old file */
    assert_file(t->path, tall, sizeof tall - 1);
    assert_int_equal(remove(t->path), 0);
}

/* A whole screen of these pixels is this head with these bytes behind it. */
static void assert_screen_written(const test_folder *t, const form *f, const uint16_t *pixels,
                                  const char *head, const uint8_t *bytes)
{
    const size_t first = strlen(head), length = first + f->bytes * SCREEN;
    uint8_t *const want = (uint8_t *)malloc(length);
    assert_non_null(want);
    memcpy(want, head, first);
    memcpy(want + first, bytes, f->bytes * SCREEN);
    errno = ERANGE; /* stays where nothing fails */
    assert_true(f->write(t->path, pixels, WIDTH, LINES));
    assert_int_equal(errno, ERANGE);
    assert_file(t->path, want, length);
    assert_int_equal(remove(t->path), 0);
    free(want);
}

static void a_screen_is_a_file(void **state)
{
    const test_folder *t = (test_folder *)*state;
    static uint16_t colours[SCREEN], levels[SCREEN];
    static uint8_t parts[3 * SCREEN], bytes[SCREEN];
    for (size_t i = 0; i < SCREEN; i++) {
        colours[i] = random_word();
        for (unsigned part = 0; part < 3; part++) {
            parts[3 * i + part] = (uint8_t)((colours[i] >> (8 - 4 * part)) % 16 * 17);
        }
        levels[i] = bytes[i] = (uint8_t)(colours[i] >> 12);
    }
    assert_screen_written(t, &ppm, colours, "P6\n640 480\n255\n", parts);
    assert_screen_written(t, &pgm, levels, "P5\n640 480\n15\n", bytes);
}

static void assert_not_written(const form *f, const char *path, const uint16_t *pixels,
                               size_t width, size_t lines, int error)
{
    errno = 0;
    assert_false(f->write(path, pixels, width, lines));
    assert_int_equal(errno, error);
}

/* No file is made, and an old one stays. */
static void assert_none_written(const test_folder *t, const form *f)
{
    assert_not_written(f, t->path, &f->pixel, 0, 1, EINVAL);
    assert_not_written(f, t->path, &f->pixel, 1, 0, EINVAL);
    assert_not_written(f, t->path, NULL, 0, 0, EINVAL);
    assert_int_equal(access(t->path, F_OK), -1);
    assert_true(f->write(t->path, &f->pixel, 1, 1));
    bytes_asked = 0;
    assert_not_written(f, t->path, &f->pixel, 0, SIZE_MAX, EINVAL);
    assert_not_written(f, t->path, &f->pixel, SIZE_MAX, 1, ENOMEM); /* more bytes than there are */
    assert_not_written(f, t->path, &f->pixel, 1, SIZE_MAX / f->bytes, ENOMEM);
    assert_not_written(f, t->path, &f->pixel, (size_t)PTRDIFF_MAX / f->bytes, 1, ENOMEM);
    assert_not_written(f, t->path, &f->pixel, (size_t)1 << 32, (size_t)1 << 32, ENOMEM);
    assert_int_equal(bytes_asked, 0);
    no_memory = true;
    assert_not_written(f, t->path, &f->pixel, 1, 1, ENOMEM);
    no_memory = false;
    assert_file(t->path, f->file, strlen(f->file));
    assert_int_equal(remove(t->path), 0);
}

static void a_picture_that_is_none_is_not_written(void **state)
{
    const test_folder *t = (test_folder *)*state;
    assert_none_written(t, &ppm);
    assert_none_written(t, &pgm);
}

/* Wherever it stands, and whatever its low byte is. */
static void a_word_over_15_is_no_level(void **state)
{
    static const uint16_t words[] = {16, 17, 0x00FF, 0x0100, 0x010F, 0x1000, 0x8005, 0xFFFF};
    const test_folder *t = (test_folder *)*state;
    uint16_t levels[12];
    for (unsigned i = 0; i < 12; i++) {
        levels[i] = (uint16_t)(15 - i);
    }
    for (size_t i = 0; i < sizeof words / sizeof words[0]; i++) {
        for (unsigned at = 0; at < 12; at++) {
            const uint16_t was = levels[at];
            levels[at] = words[i];
            assert_not_written(&pgm, t->path, levels, 4, 3, EINVAL);
            assert_int_equal(access(t->path, F_OK), -1);
            levels[at] = was;
        }
    }
    assert_true(pgm.write(t->path, &pgm.pixel, 1, 1));
    assert_not_written(&pgm, t->path, words, 1, 1, EINVAL);
    assert_file(t->path, pgm.file, strlen(pgm.file)); /* the old file stays */
    assert_int_equal(remove(t->path), 0);
}

static void assert_reported(const test_folder *t, const form *f)
{
    char path[128];
    snprintf(path, sizeof path, "%s/folder/screen", t->folder);
    assert_not_written(f, path, &f->pixel, 1, 1, ENOENT);
    assert_not_written(f, t->folder, &f->pixel, 1, 1, EISDIR); /* the new file is removed */
    snprintf(path, sizeof path, "%s.new0", t->folder);
    assert_int_equal(access(path, F_OK), -1);
    assert_true(f->write(t->path, &f->pixel, 1, 1));
    snprintf(path, sizeof path, "%s/screen", t->path);
    assert_not_written(f, path, &f->pixel, 1, 1, ENOTDIR);
    assert_int_equal(remove(t->path), 0);
}

static void what_cannot_be_written_is_reported(void **state)
{
    const test_folder *t = (test_folder *)*state;
    assert_reported(t, &ppm);
    assert_reported(t, &pgm);
}

int picture_group(int *tests)
{
    const struct CMUnitTest list[] = {
        cmocka_unit_test(a_colour_has_24_bits),
        WITH_FOLDER(colours_are_a_file),
        WITH_FOLDER(levels_are_a_file),
        WITH_FOLDER(a_screen_is_a_file),
        WITH_FOLDER(a_picture_that_is_none_is_not_written),
        WITH_FOLDER(a_word_over_15_is_no_level),
        WITH_FOLDER(what_cannot_be_written_is_reported),
    };
    return RUN_GROUP("picture", list, tests);
}
