/* Recorded sessions: what is recorded is played equal, and what differs is found at its line. */
#define _POSIX_C_SOURCE 200809L
#include <unistd.h>

#include "tests.h"

static const char path[] = "build/session.txt";

/* A session with every kind of line: words by hand, bytes, blits, time that passes, refusals. */
static void some_session(xosera *x)
{
    const blit b = {BLIT_CTRL_S_CONST_F, 0, 0, 0, 0x5555, 0, 0x20, 0x7F00, 1, 19};
    errno = EDOM;
    xm_setw(RD_INCR, 1);
    (void)vram_getw(0x11);
    start_blit(x, &b);
    xosera_step(x);
    xosera_run(x, 3);
    xosera_board_rates(x, 10000000);
    while (xm_getbh(SYS_CTRL) & SYS_CTRL_BLIT_BUSY_F) {
    }
    xosera_board_rates(x, 0);
    x->vram[0x11] ^= 0x0F00; /* by hand */
    x->xr[5000] = 77;
    x->state.beam.line = 470;
    (void)vram_getw(0x11);
    xosera_ticks(x, 5);
    xosera_frame(x);
    (void)xosera_line_up(x);
    (void)xosera_get_byte(x, 99, true);
    xosera_reset(&x->state);
    vram_setw(0x60, 0xBEEF);
    assert_int_equal(errno, EDOM); /* the test's own is as it was */
}

static xosera *recorded(void **state, void (*session)(xosera *))
{
    xosera *x = (xosera *)*state;
    x->on_refusal = NULL;
    assert_true(xosera_file_done(xosera_record(x, path)));
    session(x);
    assert_true(xosera_file_done(xosera_record_end(x)));
    return x;
}

/* The file's text, and what is to be played instead of it. */
static char text[400000];

static void read_text(void)
{
    FILE *in = fopen(path, "r");
    assert_non_null(in);
    text[fread(text, 1, sizeof text - 1, in)] = '\0';
    fclose(in);
}

static void write_text(const char *what)
{
    FILE *out = fopen(path, "w");
    assert_non_null(out);
    fputs(what, out);
    fclose(out);
}

static void a_session_is_played_equal(void **state)
{
    (void)recorded(state, some_session);
    const xosera_replayed r = xosera_replay(path);
    if (!r.equal) {
        fail_msg("%s", r.text);
    }
    assert_true(r.whole);
    assert_int_equal(r.line, 0);
    assert_true(r.calls > 50);
    read_text();
    assert_non_null(strstr(text, "\nwrite 6 even 00 = 0 0 # "));
    assert_non_null(strstr(text, "\nstep = 0 1 7"));
    assert_non_null(strstr(text, "\nstate beam.line 01D6\n"));
    assert_non_null(strstr(text, "\nxr 1388 004D\n"));
    assert_non_null(strstr(text, "\ntick 5 = 0 5"));
    assert_non_null(strstr(text, "\nread 99 odd = 4 00"));
    assert_non_null(strstr(text, "\ncheck state host.vram.wr_addr 0060\n"));
    assert_int_equal(remove(path), 0);
}

/* A blit whose words the next one writes over, and whose interrupt is acknowledged unseen. */
static int line_of_the_wait;

static void write_over(xosera *x)
{
    const blit copy = {0, 0, 0, 0, 0x10, 0, 0x20, 0xFF01, 0, 2};
    const blit clear = {BLIT_CTRL_S_CONST_F, 0, 0, 0, 0, 0, 0x20, 0xFF00, 0, 2};
    start_blit(x, &copy);
    line_of_the_wait = __LINE__ + 1;
    xwait_blit_done();
    xm_setw(INT_CTRL, INT_CTRL_BLIT_INTR_F);
    start_blit(x, &clear);
    start_blit(x, &copy); /* queued: shown by itself */
    xosera_run(x, 4);
    xosera_run(x, 2);
    start_blit(x, &clear);
    xosera_step(x);
    xosera_run(x, 9);
}

static void what_a_blit_left_is_shown_at_its_end(void **state)
{
    xosera *x = (xosera *)*state;
    const uint16_t words[] = {0x1234, 0x5678, 0x9ABC};
    char source[300], lines[1000];
    memcpy(x->vram + 0x10, words, sizeof words);
    memset(x->vram + 0x20, 0, sizeof words);
    (void)recorded(state, write_over);
    const xosera_replayed r = xosera_replay(path);
    assert_true(r.equal && r.whole);
    read_text();
    snprintf(source, sizeof source, " # %s:%d\n", __FILE__, line_of_the_wait);
    snprintf(lines, sizeof lines,
             "run 18446744073709551615 = 0 3 F%scheck state status 0040%s"
             "check vram 0020 0123 4567 89AB%s",
             source, source, source);
    assert_non_null(strstr(text, lines));
    assert_non_null(
        strstr(text, "run 4 = 0 4 F\ncheck state status 0040\ncheck vram 0021 0000 0000\n"));
    assert_non_null(strstr(text, "run 2 = 0 2 F\ncheck vram 0021 4567 89AB\n"));
    assert_non_null(strstr(text, "run 9 = 0 2 F\ncheck vram 0020 0000 0000 0000\n"));
    assert_int_equal(remove(path), 0);
}

/* Words stored through the ports, at both ends of each XR memory, beside them and under a mask. */
static void store_words(xosera *x)
{
    static const uint16_t addresses[] = {0x3FFF, 0x4000, 0x53FF, 0x5400, 0x7FFF, 0x8000, 0x81FF,
                                         0x8200, 0xBFFF, 0xC000, 0xC3FF, 0xC400, 0x0000};
    for (size_t i = 0; i < sizeof addresses / sizeof addresses[0]; i++) {
        xosera_xr_setw(x, addresses[i], (uint16_t)(0xA000 + i));
    }
    xosera_xr_setw(x, 0x8000, 0xA005); /* as it was */
    xosera_setw(x, XM_SYS_CTRL, 0x6);
    xosera_vram_setw(x, 0x0720, 0x1234); /* 0x0320 of 1,024 words */
    xosera_set_byte(x, XM_DATA_2, true, 0x56);
}

static void a_stored_word_is_shown_at_its_store(void **state)
{
    xosera *x = (xosera *)*state;
    x->vram[0x320] = 0xFFFF;
    (void)recorded(state, store_words);
    const xosera_replayed r = xosera_replay(path);
    assert_true(r.equal && r.whole);
    read_text();
    static const char *const behind[] = {"write 5 odd 01 = 0 0\ncheck xr 0000 A001\n",
                                         "write 5 odd 02 = 0 0\ncheck xr 13FF A002\n",
                                         "write 5 odd 05 = 0 0\ncheck xr 1400 A005\n",
                                         "write 5 odd 06 = 0 0\ncheck xr 15FF A006\n",
                                         "write 5 odd 09 = 0 0\ncheck xr 1600 A009\n",
                                         "write 5 odd 0A = 0 0\ncheck xr 19FF A00A\n",
                                         "write 10 odd 34 = 0 6\ncheck vram 0320 F23F\n",
                                         "write 11 odd 56 = 0 6\ncheck vram 0320 F05F\n"};
    for (size_t i = 0; i < sizeof behind / sizeof behind[0]; i++) {
        assert_non_null(strstr(text, behind[i]));
    }
    const char *at = text;
    size_t checks = 0;
    while ((at = strstr(at, "\ncheck xr ")) != NULL) {
        at++;
        checks++;
    }
    assert_int_equal(checks, 7); /* one more for the word as it was */
    assert_int_equal(remove(path), 0);
}

/* XR registers by the host, and by a copper list that also stores words. */
static void set_registers(xosera *x)
{
    static const uint32_t list[] = {COP_MOVER(7, VID_CTRL), COP_MOVEP(0x0123, 5), COP_END()};
    xosera_xr_setw(x, XR_PA_LINE_ADDR, 0x1111);
    xosera_xr_setw(x, XR_PA_LINE_ADDR, 0x2222);
    assert_true(xosera_load_copper(x, 0, list, 3));
    xosera_xr_setw(x, XR_COPP_CTRL, COPP_CTRL_COPP_EN_F);
    x->state.beam.line = 524;
    xosera_beam_pixels(x, 801);
    xosera_xr_setw(x, XR_COLOR_ADDR + 5, 0); /* written over */
    xosera_xr_setw(x, XR_VID_CTRL, 0);
}

static void registers_are_shown_where_they_change(void **state)
{
    (void)recorded(state, set_registers);
    const xosera_replayed r = xosera_replay(path);
    assert_true(r.equal && r.whole);
    read_text();
    assert_non_null(strstr(text, "write 5 odd 11 = 0 0\ncheck state video.pa[5] 1111\n"));
    assert_non_null(strstr(text, "write 5 odd 22 = 0 0\ncheck state video.pa[5] 2222\n"));
    assert_non_null(strstr(text, "beam 801 = 0 801\ncheck state video.vid_ctrl 0007\n"
                                 "check xr 1405 0123\n"));
    assert_non_null(strstr(text, "write 5 odd 00 = 0 0\ncheck state video.vid_ctrl 0000\n"));
    assert_int_equal(remove(path), 0);
}

/* Change one answer after another: each is found at its line. A tick or a beam step that is refused
 * and done is no answer. */
static void each_changed_answer_is_found(void **state)
{
    (void)recorded(state, some_session);
    read_text();
    uint64_t line = 1, found = 0;
    for (char *at = text; *at != '\0'; at = strchr(at, '\n') + 1, line++) {
        char *const end = strchr(at, '\n');
        char *const answer = strstr(at, " = ");
        if (answer == NULL || answer > end || line % 3 != 0) {
            continue;
        }
        char *const digit = answer + 3;
        const char was = *digit;
        *digit = was == '0' ? '1' : '0'; /* another refusal */
        write_text(text);
        *digit = was;
        const xosera_replayed r = xosera_replay(path);
        assert_false(r.equal);
        assert_int_equal(r.line, line);
        const bool none = strncmp(at, "tick", 4) == 0 || strncmp(at, "beam", 4) == 0;
        assert_non_null(strstr(r.text, none ? "not a line of a recording: " : "answered "));
        found++;
    }
    assert_true(found > 20);
    assert_int_equal(remove(path), 0);
}

/* The file with a piece replaced: where the replay stops, and what it says. */
static void assert_stops(const char *piece, const char *instead, const char *says)
{
    static char changed[sizeof text];
    char *const at = strstr(text, piece);
    assert_non_null(at);
    snprintf(changed, sizeof changed, "%.*s%s%s", (int)(at - text), text, instead,
             at + strlen(piece));
    write_text(changed);
    const xosera_replayed r = xosera_replay(path);
    assert_false(r.equal);
    if (strstr(r.text, says) == NULL) {
        fail_msg("\"%s\" does not say \"%s\"", r.text, says);
    }
}

/* The whole line of the text that begins so. */
static const char *whole_line(const char *begin)
{
    static char line[XOSERA_RECORDING_LINE + 2];
    const char *const at = strstr(text, begin);
    assert_non_null(at);
    snprintf(line, sizeof line, "%.*s", (int)(strchr(at, '\n') + 1 - at), at);
    return line;
}

static void the_end_is_compared(void **state)
{
    (void)recorded(state, some_session);
    read_text();
    assert_stops("check vram 0060 BEEF", "check vram 0060 BEEE",
                 "word 0060 of VRAM is BEEF, recorded BEEE");
    assert_stops(whole_line("check vram 0060 BEEF"), "", "word 0060 of VRAM is BEEF, recorded ");
    assert_stops("host.vram.wr_addr 0060", "host.vram.wr_addr 0061",
                 "XM_WR_ADDR is 0060, recorded 0061");
    assert_int_equal(remove(path), 0);
}

static void a_line_that_is_none_is_named(void **state)
{
    static const char *const bad[] = {
        "wrote 1 even 00 = 0 0",
        "write 1 even 00",
        "write 1 both 00 = 0 0",
        "write 256 odd 00 = 4 0",
        "write 1 even 0 = 0 0",
        "read 1 even = 0 0",
        "step 1 = 0 0 0",
        "run = 0 0 0",
        "run 1 = 0 0 f",
        "tick x = 0 0",
        "tick 9 = 0 8",
        "tick 9 = 3 9",
        "beam 1 = 0",
        "line = 0 2",
        "vram 0400 0000",
        "vram 0000",
        "vram 0000 00ag",
        "vram 0 0000",
        "state beam.line",
        "state beam.line 10000",
        "check beam.line 0000",
        "end of it",
        "memory 1024",
        "read  6 even = 0 00",
    };
    (void)recorded(state, some_session);
    read_text();
    for (size_t i = 0; i < sizeof bad / sizeof bad[0]; i++) {
        char with[200], says[200];
        snprintf(says, sizeof says, ": not a line of a recording: %s", bad[i]);
        snprintf(with, sizeof with, "\n%s\nstate beam.line 01D6\n", bad[i]);
        assert_stops("\nstate beam.line 01D6\n", with, says);
        snprintf(with, sizeof with, "end\n%s\n", bad[i]);
        assert_stops("end\n", with, says); /* nothing follows the end */
    }
    assert_stops("\nstate beam.line 01D6\n", "\nstate beam.dot 0001\n",
                 ": a field that this build's state has not: beam.dot");
    assert_stops("xosera recording 1", "xosera recording 2", ":1: not a recording of form 1");
    assert_stops("end\n", "end\nend\n", "not a line of a recording: end");
    assert_int_equal(remove(path), 0);
}

static void a_session_without_its_end(void **state)
{
    (void)recorded(state, some_session);
    read_text();
    *strstr(text, "end\n") = '\0';
    write_text(text);
    xosera_replayed r = xosera_replay(path);
    assert_true(r.equal && !r.whole);
    assert_non_null(strstr(r.text, "; its end is missing"));
    text[strlen(text) - 3] = '\0'; /* in the middle of a line */
    write_text(text);
    r = xosera_replay(path);
    assert_true(r.equal && !r.whole);
    assert_int_equal(remove(path), 0);
}

static void change_memories(xosera *x)
{
    static uint16_t other[256];
    uint16_t *const vram = x->vram;
    vram_setw(0x20, 0x1111);
    other[3] = 0x3333;
    x->vram = other;
    x->vram_len = 256;
    vram_setw(0x21, 0x2222);
    (void)vram_getw(3);
    x->vram_len = 100; /* refused */
    (void)vram_getw(3);
    x->vram = vram;
    x->vram_len = 1024;
    vram_setw(0x22, 0x3333);
}

static void memories_may_be_exchanged(void **state)
{
    (void)recorded(state, change_memories);
    const xosera_replayed r = xosera_replay(path);
    if (!r.equal) {
        fail_msg("%s", r.text);
    }
    assert_true(r.whole);
    assert_int_equal(remove(path), 0);
}

/* What calls left is recorded before the test overwrites it. */
static void overwrite(xosera *x)
{
    vram_setw(0x20, 0x1111);
    xmem_setw(XR_COLOR_ADDR + 1, 0x2222);
    x->vram[0x20] = 0;
    x->xr[XOSERA_XR_COLOR_AT + 1] = 0;
    x->state.host.vram.wr_addr.word = 0x0777;
    (void)xosera_line_up(x);
    vram_setw(0x30, 0x3333);
    x->vram_len = 512; /* and before it lends another memory */
    (void)xosera_line_up(x);
    x->vram_len = 1024;
}

static void overwritten_words_are_checked(void **state)
{
    (void)recorded(state, overwrite);
    assert_true(xosera_replay(path).whole);
    read_text();
    assert_stops("check vram 0020 1111", "check vram 0020 1112",
                 "word 0020 of VRAM is 1111, recorded 1112");
    assert_stops(whole_line("check vram 0020 1111"), "", "word 0020 of VRAM is 1111, recorded ");
    assert_stops("check xr 1401 2222", "check xr 1401 2223",
                 "word 1401 of XR memory is 2222, recorded 2223");
    assert_stops("check state host.vram.wr_addr 0020\nstate",
                 "check state host.vram.wr_addr 0021\nstate", "XM_WR_ADDR is 0020, recorded 0021");
    assert_stops(whole_line("check vram 0030 3333"), "", "word 0030 of VRAM is 3333, recorded ");
    assert_int_equal(remove(path), 0);
}

/* Lengths that the library refuses: no word is touched, however long the memory is. */
static void refused_lengths(xosera *x)
{
    uint16_t *const vram = x->vram;
    x->vram_len = 1500; /* of 1024 words */
    (void)vram_getw(3);
    x->vram = NULL;
    x->vram_len = SIZE_MAX;
    (void)vram_getw(3);
    x->vram = vram;
    x->vram_len = 1024;
    (void)vram_getw(3);
}

static void memories_of_refused_lengths_are_not_touched(void **state)
{
    xosera *x = recorded(state, refused_lengths);
    const xosera_replayed r = xosera_replay(path);
    assert_true(r.equal && r.whole);
    assert_int_equal(x->refusals, 8);
    assert_int_equal(remove(path), 0);
}

/* A hook that sets a word while time passes. */
static void set_a_word(xosera *x, const xosera_access *what)
{
    if (what->odd && !what->passing) {
        x->vram[0x10] = (uint16_t)(x->vram[0x10] + 0x1111);
    }
}

static void words_set_in_a_hook(xosera *x)
{
    const blit b = {BLIT_CTRL_TRANSP_F, 0, 0, 0xFFFF, 0x10, 0, 0x20, 0xFF00, 20, 0};
    x->blit_per_access = 1;
    x->tick_rate = xosera_per(1, 3);
    x->on_access = set_a_word;
    start_blit(x, &b);
    while (xm_getw(SYS_CTRL) & XM_SYS_CTRL_BLIT_BUSY) {
    }
    x->on_access = NULL;
}

static void hooks_may_set_words(void **state)
{
    (void)recorded(state, words_set_in_a_hook);
    const xosera_replayed r = xosera_replay(path);
    if (!r.equal) {
        fail_msg("%s", r.text);
    }
    assert_int_equal(remove(path), 0);
}

/* A handle is recorded, whatever is copied into it; a copy is not. */
static void a_handle_is_recorded_and_no_copy(void **state)
{
    xosera *x = (xosera *)*state;
    assert_true(xosera_file_done(xosera_record(x, path)));
    xosera copy = *x;
    xosera_vram_setw(&copy, 3, 0x1111);
    vram_setw(4, 0x2222);
    assert_true(xosera_file_done(xosera_record_end(x)));
    xosera_vram_setw(&copy, 5, 0x3333);
    assert_int_equal(xosera_record_end(&copy).error, EINVAL);
    xosera_replayed r = xosera_replay(path);
    assert_true(r.equal && r.whole);
    assert_int_equal(r.calls, 4);
    *x = copy; /* of the time when it was recorded */
    vram_setw(6, 0x4444);
    assert_true(xosera_file_done(xosera_record(x, path)));
    copy = *x;
    vram_setw(7, 0x5555);
    *x = copy;
    vram_setw(8, 0x6666);
    assert_true(xosera_file_done(xosera_record_end(x)));
    r = xosera_replay(path);
    assert_true(r.equal && r.whole);
    assert_int_equal(r.calls, 8);
    assert_int_equal(remove(path), 0);
}

static void attaching_leaves_a_recording(void **state)
{
    xosera *x = (xosera *)*state;
    assert_true(xosera_file_done(xosera_record(x, path)));
    vram_setw(6, 0x4444);
    xosera_attach(x, x->vram, x->vram_len, x->xr, x->xr_len);
    vram_setw(7, 0x5555);
    assert_int_equal(xosera_record_end(x).error, EINVAL);
    xosera_replayed r = xosera_replay(path);
    assert_true(r.equal && !r.whole);
    assert_int_equal(r.calls, 4);
    assert_true(xosera_file_done(xosera_record(x, path))); /* and anew */
    assert_true(xosera_file_done(xosera_record_end(x)));
    assert_int_equal(remove(path), 0);
}

/* As many as there are places, and one more. */
static void many_are_recorded_at_a_time(void **state)
{
    static xosera many[XOSERA_RECORDED_MAX + 1];
    const xosera *x = (xosera *)*state;
    char name[50];
    for (unsigned i = 0; i <= XOSERA_RECORDED_MAX; i++) {
        xosera_attach(&many[i], x->vram, x->vram_len, x->xr, x->xr_len);
        snprintf(name, sizeof name, "build/session%u.txt", i);
        const xosera_file_answer a = xosera_record(&many[i], name);
        assert_int_equal(a.error, i < XOSERA_RECORDED_MAX ? 0 : EMFILE);
    }
    assert_int_equal(remove(name), -1); /* no file was touched */
    for (unsigned i = 0; i < XOSERA_RECORDED_MAX; i++) {
        xosera_tick(&many[i]);
        assert_true(xosera_file_done(xosera_record_end(&many[i])));
        snprintf(name, sizeof name, "build/session%u.txt", i);
        const xosera_replayed r = xosera_replay(name);
        assert_true(r.whole);
        assert_int_equal(r.calls, 1);
        assert_int_equal(remove(name), 0);
    }
}

static void save_and_load(xosera *x)
{
    vram_setw(0x20, 0x1111);
    assert_true(xosera_file_done(xosera_save_file(x, "build/recording.saved")));
    vram_setw(0x20, 0x2222);
    assert_true(xosera_file_done(xosera_load_file(x, "build/recording.saved")));
    assert_int_equal(vram_getw(0x20), 0x1111);
    assert_int_equal(remove("build/recording.saved"), 0);
}

static void a_load_is_words_set_by_hand(void **state)
{
    (void)recorded(state, save_and_load);
    const xosera_replayed r = xosera_replay(path);
    assert_true(r.equal && r.whole);
    read_text();
    assert_non_null(strstr(text, "\nvram 0020 1111\n"));
    assert_int_equal(remove(path), 0);
}

static void failures_are_answered(void **state)
{
    xosera *x = (xosera *)*state;
    xosera_file_answer a = xosera_record(x, "no such folder/session.txt");
    assert_int_equal(a.error, ENOENT);
    a = xosera_record_end(x);
    assert_int_equal(a.error, EINVAL);
    assert_true(xosera_file_done(xosera_record(x, path)));
    a = xosera_record(x, path);
    assert_int_equal(a.error, EBUSY);
    assert_true(xosera_file_done(xosera_record_end(x)));
    assert_int_equal(remove(path), 0);
    if (access("/dev/full", W_OK) == 0) {
        assert_true(xosera_file_done(xosera_record(x, "/dev/full")));
        (void)xosera_line_up(x);
        assert_int_equal(xosera_record_end(x).error, ENOSPC);
    }
    const xosera_replayed r = xosera_replay(path);
    assert_false(r.equal);
    assert_string_equal(r.text,
                        "build/session.txt: cannot open the file: No such file or directory");
}

int recording_group(int *tests)
{
    const struct CMUnitTest list[] = {
        WITH_ADAPTER(a_session_is_played_equal),
        WITH_ADAPTER(what_a_blit_left_is_shown_at_its_end),
        WITH_ADAPTER(a_stored_word_is_shown_at_its_store),
        WITH_ADAPTER(registers_are_shown_where_they_change),
        WITH_ADAPTER(each_changed_answer_is_found),
        WITH_ADAPTER(the_end_is_compared),
        WITH_ADAPTER(a_line_that_is_none_is_named),
        WITH_ADAPTER(a_session_without_its_end),
        WITH_ADAPTER(memories_may_be_exchanged),
        WITH_ADAPTER(overwritten_words_are_checked),
        WITH_ADAPTER(memories_of_refused_lengths_are_not_touched),
        WITH_ADAPTER(hooks_may_set_words),
        WITH_ADAPTER(a_handle_is_recorded_and_no_copy),
        WITH_ADAPTER(attaching_leaves_a_recording),
        WITH_ADAPTER(many_are_recorded_at_a_time),
        WITH_ADAPTER(a_load_is_words_set_by_hand),
        WITH_ADAPTER(failures_are_answered),
    };
    return RUN_GROUP("recordings", list, tests);
}
