/* SPDX-License-Identifier: MIT */
/*
 * Files: an adapter is saved under a name and loaded again. docs/SAVED.md has the file's layout.
 *
 * A save writes a new file beside the name and renames it when it is whole, so the name never
 * stands for half a file: after a failure it stands for what it did before. (A link under the name
 * is replaced, not followed.) C11 has no call that waits for the disk: if the machine itself stops
 * soon after a save, the file may be short or empty, and a load then refuses it with 8.
 */
#ifndef XOSERA_MODEL_FILES_H
#define XOSERA_MODEL_FILES_H

#include <errno.h>
#include <stdbool.h>
#include <stddef.h>
#include <stdint.h>
#include <stdio.h>
#include <stdlib.h>
#include <string.h>

#include "calls.h"
#include "adapter.h"
#include "texts.h"

/* How it went: done, refused by the library, or failed by the system. A refusal is also kept in the
 * handle, as that of any call; a failure is only told here, so the answer has to be looked at. */
typedef struct xosera_file_answer {
    uint8_t refusal;  /* one of xosera_refusal */
    int error;        /* errno of the step that failed; 0: none did */
    const char *step; /* the step that failed, for a sentence with "cannot"; NULL: none did */
    bool left;        /* the new file of a failed save could not be removed */
} xosera_file_answer;
#define XOSERA_LOOK_AT_ANSWER __attribute__((warn_unused_result))

static inline bool xosera_file_done(xosera_file_answer a)
{
    return a.refusal == XOSERA_DONE && a.error == 0;
}

/* The answer as a sentence about the path, cut to `size` bytes, in `text`, which is returned. */
static inline const char *xosera_file_text(char *text, size_t size, const char *path,
                                           xosera_file_answer a)
{
    int length = 0;
    if (a.error != 0) {
        length = snprintf(text, size, "%s: cannot %s: %s%s", path, a.step, strerror(a.error),
                          a.left ? " (the new file is left there)" : "");
    } else if (a.refusal != XOSERA_DONE) {
        length = snprintf(text, size, "%s: refused, %d: %s", path, (int)a.refusal,
                          xosera_refusal_text(a.refusal));
    } else {
        length = snprintf(text, size, "%s: done", path);
    }
    return xosera_text_made(text, size, length);
}

/* The steps of xosera_save_file and xosera_load_file, which are below. */

/* A failed step, by errno. Set errno to 0 before the step: C does not say that each one sets it. */
static inline xosera_file_answer xosera_file_failed(const char *step)
{
    const xosera_file_answer a = {XOSERA_DONE, errno != 0 ? errno : EIO, step, false};
    return a;
}

static inline xosera_file_answer xosera_file_went_well(void)
{
    const xosera_file_answer a = {XOSERA_DONE, 0, NULL, false};
    return a;
}

/* Open a new file under a name that none has: the path and a number. `name` has `size` bytes, for
 * the path and XOSERA_FILE_SUFFIX more. NULL, with errno, if that cannot be. */
#define XOSERA_FILE_SUFFIX 16
static inline FILE *xosera_file_make(const char *path, char *name, size_t size)
{
    FILE *made = NULL;
    errno = EEXIST;
    for (int i = 0; i < 100 && made == NULL && errno == EEXIST; i++) {
        snprintf(name, size, "%s.new%d", path, i);
        errno = 0;
        made = fopen(name, "wbx");
    }
    return made;
}

/* Write all bytes and close the file, whether they were written or not. */
static inline xosera_file_answer xosera_file_fill(FILE *file, const uint8_t *bytes, size_t length)
{
    xosera_file_answer a = xosera_file_went_well();
    errno = 0;
    if (fwrite(bytes, 1, length, file) != length || fflush(file) != 0) {
        a = xosera_file_failed("write the new file");
    }
    errno = 0;
    if (fclose(file) != 0 && a.error == 0) {
        a = xosera_file_failed("close the new file");
    }
    return a;
}

/* Give the path to a new file of these bytes. `name` as above. */
static inline xosera_file_answer xosera_file_replace(const char *path, char *name, size_t size,
                                                     const uint8_t *bytes, size_t length)
{
    FILE *const file = xosera_file_make(path, name, size);
    if (file == NULL) {
        return xosera_file_failed("make a new file beside it");
    }
    xosera_file_answer a = xosera_file_fill(file, bytes, length);
    errno = 0;
    if (a.error == 0 && rename(name, path) != 0) {
        a = xosera_file_failed("rename the new file");
    }
    if (a.error != 0) {
        a.left = remove(name) != 0;
    }
    return a;
}

/* The same, with room for the name. */
static inline xosera_file_answer xosera_file_put(const char *path, const uint8_t *bytes,
                                                 size_t length)
{
    const size_t size = strlen(path) + XOSERA_FILE_SUFFIX;
    errno = 0;
    char *const name = (char *)malloc(size);
    if (name == NULL) {
        return xosera_file_failed("get memory for a name");
    }
    const xosera_file_answer a = xosera_file_replace(path, name, size, bytes, length);
    free(name);
    return a;
}

/* Read a file's first bytes, `size` of them or as many as it has. */
static inline xosera_file_answer xosera_file_get(const char *path, uint8_t *bytes, size_t size,
                                                 size_t *length)
{
    errno = 0;
    FILE *const file = fopen(path, "rb");
    if (file == NULL) {
        return xosera_file_failed("open the file");
    }
    xosera_file_answer a = xosera_file_went_well();
    errno = 0;
    *length = fread(bytes, 1, size, file);
    if (ferror(file)) {
        a = xosera_file_failed("read the file");
    }
    errno = 0;
    if (fclose(file) != 0 && a.error == 0) {
        a = xosera_file_failed("close the file");
    }
    return a;
}

/* Save the adapter under a name. A refused save makes no file. */
XOSERA_LOOK_AT_ANSWER static inline xosera_file_answer xosera_save_file(xosera *x, const char *path)
{
    errno = 0;
    uint8_t *const room = (uint8_t *)malloc(XOSERA_FILE_MAX);
    if (room == NULL) {
        return xosera_file_failed("get memory for the file");
    }
    xosera_access what = xosera_asked(XOSERA_CALL_SAVE, 0, false);
    xosera_calling(x);
    const xosera_save_answer saved =
        xosera_save(&x->state, x->vram, x->vram_len, x->xr, x->xr_len, room, XOSERA_FILE_MAX);
    xosera_file_answer a = xosera_file_went_well();
    if (saved.refusal == XOSERA_DONE) {
        a = xosera_file_put(path, room, (size_t)saved.length);
    }
    a.refusal = saved.refusal;
    what.refusal = (xosera_refusal)saved.refusal;
    what.count = saved.length;
    free(room); /* before the hooks, which may not return */
    xosera_called(x, what);
    return a;
}

/* Load the adapter saved under a name into this one, whose VRAM must be as long. State and memories
 * stay as they were unless it is done. One byte more than the longest file is asked for at
 * most: a longer one is refused with 8, as every file that no adapter saves. */
XOSERA_LOOK_AT_ANSWER static inline xosera_file_answer xosera_load_file(xosera *x, const char *path)
{
    size_t length = 0;
    errno = 0;
    uint8_t *const file = (uint8_t *)malloc(XOSERA_FILE_MAX + 1);
    if (file == NULL) {
        return xosera_file_failed("get memory for the file");
    }
    xosera_file_answer a = xosera_file_get(path, file, XOSERA_FILE_MAX + 1, &length);
    if (a.error != 0) {
        free(file);
        return a;
    }
    xosera_access what = xosera_asked(XOSERA_CALL_LOAD, 0, false);
    xosera_calling(x);
    a.refusal =
        xosera_load(&x->state, x->vram, x->vram_len, x->xr, x->xr_len, file, length).refusal;
    what.refusal = (xosera_refusal)a.refusal;
    free(file); /* before the hooks, which may not return */
    if (a.refusal == XOSERA_DONE) {
        xosera_changed(x);
    }
    xosera_called(x, what);
    return a;
}

#endif /* XOSERA_MODEL_FILES_H */
