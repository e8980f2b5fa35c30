/* Files: an adapter saved under a name and loaded again, each failure of the system reported, and
 * the old file under the name whole after each. */
#define _POSIX_C_SOURCE 200809L /* mkdtemp, rmdir, truncate, symlink, chdir, pathconf */
#include <errno.h>
#include <setjmp.h>
#include <stdarg.h>
#include <stdbool.h>
#include <stddef.h>
#include <stdint.h>
#include <stdio.h>
#include <stdlib.h>
#include <string.h>
#include <sys/stat.h>
#include <unistd.h>

#include <cmocka.h>

/* The system's calls as xosera/files.h sees them in this file: the one that `until_fault` counts
 * down to fails with `fault_error`, and so does each removal if `keeps_files`. */
static int until_fault, fault_error;
static bool keeps_files;

static bool faulty(void)
{
    if (until_fault == 0 || --until_fault != 0) {
        return false;
    }
    errno = fault_error;
    return true;
}

static void *try_malloc(size_t size)
{
    return faulty() ? NULL : malloc(size);
}

static FILE *try_fopen(const char *path, const char *mode)
{
    return faulty() ? NULL : fopen(path, mode);
}

static size_t try_fwrite(const void *from, size_t size, size_t n, FILE *file)
{
    return fwrite(from, size, faulty() ? n / 2 : n, file);
}

static int try_fflush(FILE *file)
{
    return faulty() ? EOF : fflush(file);
}

static int try_ferror(FILE *file)
{
    return faulty() ? 1 : ferror(file);
}

static int try_fclose(FILE *file)
{
    const int closed = fclose(file);
    return faulty() ? EOF : closed;
}

static int try_rename(const char *from, const char *to)
{
    return faulty() ? -1 : rename(from, to);
}

static int try_remove(const char *path)
{
    return keeps_files ? -1 : remove(path);
}

#define malloc(size)                try_malloc(size)
#define fopen(path, mode)           try_fopen(path, mode)
#define fwrite(from, size, n, file) try_fwrite(from, size, n, file)
#define fflush(file)                try_fflush(file)
#define ferror(file)                try_ferror(file)
#define fclose(file)                try_fclose(file)
#define rename(from, to)            try_rename(from, to)
#define remove(path)                try_remove(path)
#include "xosera/files.h"
#undef malloc
#undef fopen
#undef fwrite
#undef fflush
#undef ferror
#undef fclose
#undef rename
#undef remove

#include "tests.h"

/* A folder of the test's own, empty at first, a path in it, and a busy adapter. */
typedef struct test_folder {
    xosera *x;
    char folder[64], path[96];
} test_folder;

static int folder_setup(void **state)
{
    test_folder *t = (test_folder *)malloc(sizeof *t);
    assert_non_null(t);
    t->x = adapter_new(256);
    t->x->state = mid_line_state();
    strcpy(t->folder, "/tmp/xosera-XXXXXX");
    assert_non_null(mkdtemp(t->folder));
    snprintf(t->path, sizeof t->path, "%s/adapter", t->folder);
    until_fault = 0;
    keeps_files = false;
    *state = t;
    return 0;
}

/* The folder can be removed: the test took away what it expected there, and nothing else is left.
 */
static int folder_teardown(void **state)
{
    test_folder *t = (test_folder *)*state;
    const int removed = rmdir(t->folder);
    adapter_free(t->x);
    free(t);
    return removed;
}
#define WITH_FOLDER(test) cmocka_unit_test_setup_teardown(test, folder_setup, folder_teardown)

static void assert_done(xosera_file_answer a)
{
    assert_int_equal(a.refusal, XOSERA_DONE);
    assert_int_equal(a.error, 0);
    assert_null(a.step);
    assert_false(a.left);
    assert_true(xosera_file_done(a));
}

static void assert_refusal(xosera_file_answer a, xosera_refusal want)
{
    assert_int_equal(a.refusal, want);
    assert_int_equal(a.error, 0);
    assert_null(a.step);
    assert_false(xosera_file_done(a));
}

static void assert_failure(xosera_file_answer a, int error, const char *step)
{
    assert_int_equal(a.refusal, XOSERA_DONE);
    assert_int_equal(a.error, error);
    assert_non_null(a.step);
    assert_string_equal(a.step, step);
    assert_false(a.left);
    assert_false(xosera_file_done(a));
}

/* Another adapter of the same VRAM length gets from the path what `want` is. */
static void assert_holds(const char *path, const xosera *want)
{
    xosera *y = adapter_new(want->vram_len);
    fill(y->vram, y->vram_len, 99);
    fill(y->xr, y->xr_len, 98);
    assert_done(xosera_load_file(y, path));
    assert_adapter_equal(y, want);
    assert_int_equal(y->refusals, 0);
    adapter_free(y);
}

/* A file of so many bytes, all of them 0. */
static void put_zeros(const char *path, off_t length)
{
    FILE *const file = fopen(path, "wb");
    assert_non_null(file);
    assert_int_equal(fclose(file), 0);
    assert_int_equal(truncate(path, length), 0);
}

static void saved_and_loaded(void **state)
{
    test_folder *t = (test_folder *)*state;
    assert_done(xosera_save_file(t->x, t->path));
    assert_holds(t->path, t->x);
    t->x->vram[7] ^= 1;
    t->x->state.status ^= 1;
    assert_done(xosera_save_file(t->x, t->path)); /* over the old file */
    assert_holds(t->path, t->x);
    assert_int_equal(remove(t->path), 0);
}

static void a_file_is_the_bytes_of_a_save(void **state)
{
    test_folder *t = (test_folder *)*state;
    uint8_t room[XOSERA_FILE_BYTES(256)], file[sizeof room + 1];
    assert_int_equal(
        xosera_save(&t->x->state, t->x->vram, 256, t->x->xr, t->x->xr_len, room, sizeof room)
            .refusal,
        XOSERA_DONE);
    assert_done(xosera_save_file(t->x, t->path));
    FILE *const from = fopen(t->path, "rb");
    assert_non_null(from);
    assert_int_equal(fread(file, 1, sizeof file, from), sizeof room);
    assert_int_equal(fclose(from), 0);
    assert_memory_equal(file, room, sizeof room);
    assert_int_equal(remove(t->path), 0);
}

/* No file is made, an old one stays, and the handle has the refusal. */
static void a_refused_save_makes_no_file(void **state)
{
    test_folder *t = (test_folder *)*state;
    xosera *old = adapter_copy(t->x);
    int heard = 0;
    t->x->on_refusal = add_refusal;
    t->x->user = &heard;
    t->x->state.queued = 2;
    assert_refusal(xosera_save_file(t->x, t->path), XOSERA_STATE_RANGE);
    assert_int_equal(access(t->path, F_OK), -1);
    assert_done(xosera_save_file(old, t->path));
    assert_refusal(xosera_save_file(t->x, t->path), XOSERA_STATE_RANGE);
    t->x->vram_len = 255;
    assert_refusal(xosera_save_file(t->x, t->path), XOSERA_VRAM_LENGTH);
    t->x->vram_len = 256;
    t->x->state.queued = 1;
    t->x->state.beam.position = 1;
    assert_refusal(xosera_save_file(t->x, t->path), XOSERA_NOT_AT_REST);
    assert_holds(t->path, old);
    assert_int_equal(heard, 3 + 3 + 1 + 10);
    assert_int_equal(t->x->refusals, 4);
    assert_int_equal(t->x->first_refused.why, XOSERA_STATE_RANGE);
    assert_int_equal(t->x->first_refused.call, XOSERA_CALL_SAVE);
    adapter_free(old);
    assert_int_equal(remove(t->path), 0);
}

/* The load is refused so, the handle has it, and state and memories are as they were. */
static void assert_load_refused(xosera *x, const char *path, xosera_refusal want)
{
    xosera *before = adapter_copy(x);
    xosera_clear_refusals(x);
    assert_refusal(xosera_load_file(x, path), want);
    assert_adapter_equal(x, before);
    assert_int_equal(x->refusals, 1);
    assert_int_equal(x->last_refused.why, want);
    assert_int_equal(x->last_refused.call, XOSERA_CALL_LOAD);
    adapter_free(before);
}

static void a_refused_load_changes_nothing(void **state)
{
    test_folder *t = (test_folder *)*state;
    xosera *longer = adapter_new(512);
    assert_done(xosera_save_file(longer, t->path));
    assert_load_refused(t->x, t->path, XOSERA_SAVED_VRAM_LENGTH);
    t->x->state.queued = 2;
    assert_load_refused(t->x, t->path, XOSERA_STATE_RANGE);
    t->x->state.queued = 1;
    assert_int_equal(truncate(t->path, (off_t)XOSERA_FILE_BYTES(512) - 1), 0);
    assert_load_refused(t->x, t->path, XOSERA_NO_SAVED_ADAPTER);
    put_zeros(t->path, 0);
    assert_load_refused(t->x, t->path, XOSERA_NO_SAVED_ADAPTER);
    adapter_free(longer);
    assert_int_equal(remove(t->path), 0);
}

/* Longer than any adapter's file by one byte, by a gigabyte, and without an end. */
static void a_file_too_long_is_not_read_to_its_end(void **state)
{
    test_folder *t = (test_folder *)*state;
    xosera *longest = adapter_new(XOSERA_VRAM_MAX);
    assert_done(xosera_save_file(longest, t->path));
    assert_holds(t->path, longest);
    assert_int_equal(truncate(t->path, XOSERA_FILE_MAX + 1), 0);
    assert_load_refused(longest, t->path, XOSERA_NO_SAVED_ADAPTER);
    assert_int_equal(truncate(t->path, 1 << 30), 0);
    assert_load_refused(longest, t->path, XOSERA_NO_SAVED_ADAPTER);
    assert_load_refused(longest, "/dev/zero", XOSERA_NO_SAVED_ADAPTER);
    adapter_free(longest);
    assert_int_equal(remove(t->path), 0);
}

static void what_is_not_there_is_reported(void **state)
{
    test_folder *t = (test_folder *)*state;
    xosera *before = adapter_copy(t->x);
    char path[128];
    assert_failure(xosera_load_file(t->x, t->path), ENOENT, "open the file");
    snprintf(path, sizeof path, "%s/folder/adapter", t->folder);
    assert_failure(xosera_load_file(t->x, path), ENOENT, "open the file");
    assert_failure(xosera_save_file(t->x, path), ENOENT, "make a new file beside it");
    assert_adapter_equal(t->x, before);
    assert_int_equal(t->x->refusals, 0); /* a failure is no refusal */
    adapter_free(before);
}

static void a_folder_under_the_name_is_reported(void **state)
{
    test_folder *t = (test_folder *)*state;
    assert_int_equal(mkdir(t->path, 0700), 0);
    assert_failure(xosera_load_file(t->x, t->path), EISDIR, "read the file");
    assert_failure(xosera_save_file(t->x, t->path), EISDIR, "rename the new file");
    assert_int_equal(rmdir(t->path), 0);
}

/* A path below a file, which is no folder. The file stays. */
static void a_path_below_a_file_is_reported(void **state)
{
    test_folder *t = (test_folder *)*state;
    char path[128];
    assert_done(xosera_save_file(t->x, t->path));
    snprintf(path, sizeof path, "%s/adapter", t->path);
    assert_failure(xosera_load_file(t->x, path), ENOTDIR, "open the file");
    assert_failure(xosera_save_file(t->x, path), ENOTDIR, "make a new file beside it");
    assert_holds(t->path, t->x);
    assert_int_equal(remove(t->path), 0);
}

/* A folder without write permission: what was saved there can be loaded and stays. */
static void a_folder_that_may_not_be_written_is_reported(void **state)
{
    test_folder *t = (test_folder *)*state;
    if (geteuid() == 0) {
        print_message("not tried: root may write to every folder\n");
        return;
    }
    xosera *old = adapter_copy(t->x);
    assert_done(xosera_save_file(old, t->path));
    t->x->vram[7] ^= 1;
    assert_int_equal(chmod(t->folder, 0500), 0);
    const xosera_file_answer a = xosera_save_file(t->x, t->path);
    assert_int_equal(chmod(t->folder, 0700), 0);
    assert_failure(a, EACCES, "make a new file beside it");
    assert_holds(t->path, old);
    adapter_free(old);
    assert_int_equal(remove(t->path), 0);
}

/* The empty path names no file. The new one, .new0 in the current folder, is removed. */
static void an_empty_path_is_reported(void **state)
{
    test_folder *t = (test_folder *)*state;
    char current[4096];
    assert_non_null(getcwd(current, sizeof current));
    assert_int_equal(chdir(t->folder), 0);
    const xosera_file_answer loaded = xosera_load_file(t->x, "");
    const xosera_file_answer saved = xosera_save_file(t->x, "");
    assert_int_equal(chdir(current), 0);
    assert_failure(loaded, ENOENT, "open the file");
    assert_failure(saved, ENOENT, "rename the new file");
}

/* Of the five longest names that the system takes, it takes none with .new0 behind it: a save fails
 * and leaves the file that has the name. With the next shorter one it is done. */
static void a_name_too_long_for_a_new_file_is_reported(void **state)
{
    test_folder *t = (test_folder *)*state;
    char path[sizeof t->folder + 1024];
    struct stat found;
    const size_t start = (size_t)snprintf(path, sizeof path, "%s/", t->folder);
    const long longest = pathconf(t->folder, _PC_NAME_MAX); /* 255 on most systems */
    assert_in_range(longest, 16, 1023);
    memset(path + start, 'a', (size_t)longest);
    for (long length = longest; length > longest - 5; length--) {
        path[start + (size_t)length] = '\0';
        put_zeros(path, 3);
        assert_failure(xosera_save_file(t->x, path), ENAMETOOLONG, "make a new file beside it");
        assert_int_equal(stat(path, &found), 0);
        assert_int_equal(found.st_size, 3);
        assert_int_equal(remove(path), 0);
    }
    path[start + (size_t)longest - 5] = '\0';
    assert_done(xosera_save_file(t->x, path));
    assert_holds(path, t->x);
    assert_int_equal(remove(path), 0);
}

/* A link under the name is replaced by the file. What it pointed to stays as it was; if that was
 * nothing, nothing is made there. */
static void a_link_is_replaced(void **state)
{
    test_folder *t = (test_folder *)*state;
    xosera *old = adapter_copy(t->x);
    char target[128];
    struct stat found;
    snprintf(target, sizeof target, "%s/target", t->folder);
    assert_done(xosera_save_file(old, target));
    assert_int_equal(symlink(target, t->path), 0);
    assert_holds(t->path, old); /* a load follows the link */
    t->x->vram[7] ^= 1;
    assert_done(xosera_save_file(t->x, t->path));
    assert_int_equal(lstat(t->path, &found), 0);
    assert_true(S_ISREG(found.st_mode));
    assert_holds(t->path, t->x);
    assert_holds(target, old);
    assert_int_equal(remove(t->path), 0);
    assert_int_equal(remove(target), 0);

    assert_int_equal(symlink(target, t->path), 0);
    assert_done(xosera_save_file(t->x, t->path));
    assert_int_equal(access(target, F_OK), -1);
    assert_holds(t->path, t->x);
    assert_int_equal(remove(t->path), 0);
    adapter_free(old);
}

static void a_full_disk_is_reported(void **state)
{
    (void)state;
    static const uint8_t bytes[XOSERA_FILE_MAX];
    FILE *const file = fopen("/dev/full", "wb");
    assert_non_null(file);
    assert_failure(xosera_file_fill(file, bytes, 1), ENOSPC, "write the new file");
    FILE *const again = fopen("/dev/full", "wb");
    assert_non_null(again);
    assert_failure(xosera_file_fill(again, bytes, sizeof bytes), ENOSPC, "write the new file");
}

/* Each step of a save fails in turn: the old file stays, and no new one is left. */
static void a_failed_save_leaves_the_old_file(void **state)
{
    static const char *const steps[] = {"get memory for the file",   "get memory for a name",
                                        "make a new file beside it", "write the new file",
                                        "write the new file",        "close the new file",
                                        "rename the new file"};
    enum { STEPS = sizeof steps / sizeof steps[0] };
    test_folder *t = (test_folder *)*state;
    xosera *old = adapter_copy(t->x);
    assert_done(xosera_save_file(old, t->path));
    t->x->vram[7] ^= 1;
    for (int error = 0; error <= ENOSPC; error += ENOSPC) { /* 0: the system gives no reason */
        for (int i = 0; i < STEPS; i++) {
            fault_error = error;
            until_fault = i + 1;
            assert_failure(xosera_save_file(t->x, t->path), error != 0 ? error : EIO, steps[i]);
            assert_int_equal(until_fault, 0);
            assert_holds(t->path, old);
        }
    }
    until_fault = STEPS + 1;
    assert_done(xosera_save_file(t->x, t->path));
    assert_int_equal(until_fault, 1); /* there is no other step */
    until_fault = 0;
    assert_holds(t->path, t->x);
    assert_int_equal(t->x->refusals, 0);
    adapter_free(old);
    assert_int_equal(remove(t->path), 0);
}

/* Each step of a load fails in turn: nothing changes. */
static void a_failed_load_changes_nothing(void **state)
{
    static const char *const steps[] = {"get memory for the file", "open the file", "read the file",
                                        "close the file"};
    enum { STEPS = sizeof steps / sizeof steps[0] };
    test_folder *t = (test_folder *)*state;
    xosera *before, *saved = adapter_new(256);
    assert_done(xosera_save_file(saved, t->path));
    before = adapter_copy(t->x);
    for (int i = 0; i < STEPS; i++) {
        fault_error = ENOMEM;
        until_fault = i + 1;
        assert_failure(xosera_load_file(t->x, t->path), ENOMEM, steps[i]);
        assert_int_equal(until_fault, 0);
        assert_adapter_equal(t->x, before);
    }
    until_fault = STEPS + 1;
    assert_done(xosera_load_file(t->x, t->path));
    assert_int_equal(until_fault, 1);
    until_fault = 0;
    assert_adapter_equal(t->x, saved);
    adapter_free(before);
    adapter_free(saved);
    assert_int_equal(remove(t->path), 0);
}

static void a_new_file_that_stays_is_reported(void **state)
{
    test_folder *t = (test_folder *)*state;
    char name[128], text[256], want[256];
    fault_error = ENOSPC;
    until_fault = 4;
    keeps_files = true;
    const xosera_file_answer a = xosera_save_file(t->x, t->path);
    assert_int_equal(a.error, ENOSPC);
    assert_true(a.left);
    snprintf(want, sizeof want, "%s: cannot write the new file: %s (the new file is left there)",
             t->path, strerror(ENOSPC));
    assert_string_equal(xosera_file_text(text, sizeof text, t->path, a), want);
    snprintf(name, sizeof name, "%s.new0", t->path);
    assert_int_equal(remove(name), 0);
}

/* Files that others left under the names of new ones stay, and the next name is taken. */
static void taken_names_are_passed_over(void **state)
{
    test_folder *t = (test_folder *)*state;
    char names[100][128];
    struct stat found;
    for (int i = 0; i < 100; i++) {
        snprintf(names[i], sizeof names[i], "%s.new%d", t->path, i);
        put_zeros(names[i], i + 1);
    }
    assert_failure(xosera_save_file(t->x, t->path), EEXIST, "make a new file beside it");
    assert_int_equal(remove(names[50]), 0);
    assert_done(xosera_save_file(t->x, t->path));
    assert_holds(t->path, t->x);
    assert_int_equal(access(names[50], F_OK), -1);
    for (int i = 0; i < 100; i++) {
        if (i != 50) {
            assert_int_equal(stat(names[i], &found), 0);
            assert_int_equal(found.st_size, i + 1);
            assert_int_equal(remove(names[i]), 0);
        }
    }
    assert_int_equal(remove(t->path), 0);
}

static void the_answer_as_a_sentence(void **state)
{
    test_folder *t = (test_folder *)*state;
    char text[128], want[128];
    volatile size_t nine = 9; /* no length that the compiler could warn of */
    const xosera_file_answer missing = xosera_load_file(t->x, t->path);
    snprintf(want, sizeof want, "here: cannot open the file: %s", strerror(ENOENT));
    assert_string_equal(xosera_file_text(text, sizeof text, "here", missing), want);
    assert_string_equal(xosera_file_text(text, nine, "here", missing), "here: ca");
    const xosera_file_answer refused = xosera_load_file(t->x, "/dev/null");
    assert_string_equal(xosera_file_text(text, sizeof text, "there", refused),
                        "there: refused, 8: file is not a saved adapter");
    assert_done(xosera_save_file(t->x, t->path));
    const xosera_file_answer done = xosera_load_file(t->x, t->path);
    assert_string_equal(xosera_file_text(text, sizeof text, "where", done), "where: done");
    assert_int_equal(remove(t->path), 0);
}

/* A hook that does not return: no memory is lost, as the sanitizers and valgrind see. */
static void a_hook_may_leave(void **state)
{
    test_folder *t = (test_folder *)*state;
    jmp_buf left;
    t->x->on_refusal = leap_on_refusal;
    t->x->user = &left;
    const int why = setjmp(left);
    if (why == 0) {
        (void)xosera_file_done(xosera_load_file(t->x, "/dev/null"));
        fail_msg("the hook returned");
    }
    if (why == XOSERA_NO_SAVED_ADAPTER) {
        t->x->state.queued = 2;
        (void)xosera_file_done(xosera_save_file(t->x, t->path));
        fail_msg("the hook returned");
    }
    assert_int_equal(why, XOSERA_STATE_RANGE);
}

int files_group(int *tests)
{
    const struct CMUnitTest list[] = {
        WITH_FOLDER(saved_and_loaded),
        WITH_FOLDER(a_file_is_the_bytes_of_a_save),
        WITH_FOLDER(a_refused_save_makes_no_file),
        WITH_FOLDER(a_refused_load_changes_nothing),
        WITH_FOLDER(a_file_too_long_is_not_read_to_its_end),
        WITH_FOLDER(what_is_not_there_is_reported),
        WITH_FOLDER(a_folder_under_the_name_is_reported),
        WITH_FOLDER(a_path_below_a_file_is_reported),
        WITH_FOLDER(a_folder_that_may_not_be_written_is_reported),
        WITH_FOLDER(an_empty_path_is_reported),
        WITH_FOLDER(a_name_too_long_for_a_new_file_is_reported),
        WITH_FOLDER(a_link_is_replaced),
        cmocka_unit_test(a_full_disk_is_reported),
        WITH_FOLDER(a_failed_save_leaves_the_old_file),
        WITH_FOLDER(a_failed_load_changes_nothing),
        WITH_FOLDER(a_new_file_that_stays_is_reported),
        WITH_FOLDER(taken_names_are_passed_over),
        WITH_FOLDER(the_answer_as_a_sentence),
        WITH_FOLDER(a_hook_may_leave),
    };
    return RUN_GROUP("files", list, tests);
}
