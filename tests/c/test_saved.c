/* Save and load: the file byte by byte, refusals in their order, and any other file refused. */
#include "tests.h"

/* Bytes from the heap, as long as they are said to be and no longer. */
typedef struct bytes {
    uint8_t *at;
    size_t length;
} bytes;

static bytes bytes_new(size_t length)
{
    const bytes b = {(uint8_t *)malloc(length + (length == 0)), length};
    assert_non_null(b.at);
    memset(b.at, 0xA5, length);
    return b;
}

static xosera_save_answer save_to(const xosera *x, bytes room)
{
    return xosera_save(&x->state, x->vram, x->vram_len, x->xr, x->xr_len, room.at, room.length);
}

static int load_from(xosera *x, bytes file)
{
    return xosera_load(&x->state, x->vram, x->vram_len, x->xr, x->xr_len, file.at, file.length)
        .refusal;
}

/* The adapter's file, in a room exactly as long. */
static bytes file_of(const xosera *x)
{
    const bytes file = bytes_new(XOSERA_FILE_BYTES(x->vram_len));
    const xosera_save_answer a = save_to(x, file);
    assert_int_equal(a.refusal, XOSERA_DONE);
    assert_int_equal(a.length, file.length);
    return file;
}

static xosera *adapter_in(xosera_state s, size_t vram_len)
{
    xosera *x = adapter_new(vram_len);
    x->state = s;
    return x;
}

/* One with other words in all places. */
static xosera *another(size_t vram_len)
{
    xosera *x = adapter_in(reset_state(), vram_len);
    fill(x->vram, x->vram_len, 1234);
    fill(x->xr, x->xr_len, 4321);
    return x;
}

/* The load is refused so and changes nothing. */
static void assert_load_refused(xosera *x, bytes file, xosera_refusal want)
{
    xosera *before = adapter_copy(x);
    assert_int_equal(load_from(x, file), want);
    assert_adapter_equal(x, before);
    adapter_free(before);
}

/* The same with 8; frees the file. */
static void assert_load_not_saved(xosera *x, bytes file)
{
    assert_load_refused(x, file, XOSERA_NO_SAVED_ADAPTER);
    free(file.at);
}

/* The save is refused so, answers 0 and changes nothing; the room is full of A5. */
static void assert_save_refused(const xosera *x, size_t room_length, xosera_refusal want)
{
    const bytes room = bytes_new(room_length), as_before = bytes_new(room_length);
    xosera *before = adapter_copy(x);
    const xosera_save_answer a = save_to(x, room);
    assert_int_equal(a.refusal, want);
    assert_int_equal(a.length, 0);
    assert_memory_equal(room.at, as_before.at, room_length);
    assert_adapter_equal(x, before);
    adapter_free(before);
    free(room.at);
    free(as_before.at);
}

/* The file as the request describes it, from left to right. */

static uint8_t *put_number(uint8_t *at, size_t number, int size)
{
    while (size-- > 0) {
        *at++ = (uint8_t)(number >> (8 * size));
    }
    return at;
}

static uint8_t *put_words(uint8_t *at, const uint16_t *words, size_t n)
{
    for (size_t i = 0; i < n; i++) {
        at = put_number(at, words[i], 2);
    }
    return at;
}

/* The bytes of a section, by its kind. With one of another kind, and 9 bytes for its entry, a file
 * is as long as that of an adapter with 256 words more. */
static size_t bytes_of(const xosera *x, int kind)
{
    switch (kind) {
    case 1: return 2 * XOSERA_FILE_STATE_WORDS;
    case 2: return 2 * x->xr_len;
    case 3: return 2 * x->vram_len;
    default: return 2 * 256 - 9;
    }
}

static uint8_t *put_body(uint8_t *at, const xosera *x, int kind)
{
    uint16_t state[XOSERA_STATE_WORDS];
    memcpy(state, &x->state, sizeof state);
    switch (kind) {
    case 1: return put_words(at, state, XOSERA_FILE_STATE_WORDS);
    case 2: return put_words(at, x->xr, x->xr_len);
    case 3: return put_words(at, x->vram, x->vram_len);
    default: return at + bytes_of(x, kind);
    }
}

/* The length of a file with sections of these kinds and no gap. */
static size_t length_of(const xosera *x, const char *kinds)
{
    size_t length = 1 + 9 * strlen(kinds);
    for (size_t i = 0; kinds[i] != '\0'; i++) {
        length += bytes_of(x, kinds[i] - '0');
    }
    return length;
}

/* Sections of these kinds in this order, with a gap of so many bytes, all A5, before the one of
 * that number, from 0, or behind the last. The contents say so. */
static bytes arranged(const xosera *x, const char *kinds, size_t before, size_t gap)
{
    const size_t sections = strlen(kinds);
    const bytes file = bytes_new(length_of(x, kinds) + gap);
    uint8_t *entry = put_number(file.at, sections, 1), *body = entry + 9 * sections;
    for (size_t i = 0; i < sections; i++) {
        const int kind = kinds[i] - '0';
        body += i == before ? gap : 0;
        entry = put_number(entry, (size_t)kind, 1);
        entry = put_number(entry, (size_t)(body - file.at), 4);
        entry = put_number(entry, bytes_of(x, kind), 4);
        body = put_body(body, x, kind);
    }
    assert_ptr_equal(body + (before >= sections ? gap : 0), file.at + file.length);
    return file;
}

/* For a state and each VRAM length: the file is as the request says; what it loads is the adapter,
 * which saves the same file again. */
static void there_and_back(xosera_state s)
{
    for (size_t i = 0; i < VRAM_LENGTHS; i++) {
        xosera *x = adapter_in(s, vram_lengths[i]), *y = another(vram_lengths[i]);
        const bytes file = file_of(x), want = arranged(x, "123", 0, 0);
        assert_int_equal(file.length, 13490 + 2 * vram_lengths[i]);
        assert_memory_equal(file.at, want.at, want.length);
        assert_int_equal(load_from(y, file), XOSERA_DONE);
        assert_adapter_equal(y, x);
        const bytes again = file_of(y);
        assert_memory_equal(again.at, file.at, file.length);
        free(file.at);
        free(want.at);
        free(again.at);
        adapter_free(x);
        adapter_free(y);
    }
}

static void every_vram_length_there_and_back(void **state)
{
    (void)state;
    there_and_back(mid_line_state());
    there_and_back(idle_state());
}

static void what_stands_behind_the_file_stays(void **state)
{
    xosera *x = (xosera *)*state;
    const bytes file = file_of(x);
    const size_t more[] = {1, 2, 3, 1000};
    for (size_t i = 0; i < sizeof more / sizeof more[0]; i++) {
        const bytes room = bytes_new(file.length + more[i]);
        const xosera_save_answer a = save_to(x, room);
        assert_int_equal(a.refusal, XOSERA_DONE);
        assert_int_equal(a.length, file.length);
        assert_memory_equal(room.at, file.at, file.length);
        for (size_t behind = file.length; behind < room.length; behind++) {
            assert_int_equal(room.at[behind], 0xA5);
        }
        free(room.at);
    }
    free(file.at);
}

static void a_save_is_refused_in_order(void **state)
{
    (void)state;
    xosera *x = adapter_in(mid_line_state(), 256);
    const size_t enough = XOSERA_FILE_BYTES(256);
    const size_t short_rooms[] = {0, 1, 27, 28, 178, 13490, enough / 2, enough - 2, enough - 1};
    for (size_t i = 0; i < sizeof short_rooms / sizeof short_rooms[0]; i++) {
        assert_save_refused(x, short_rooms[i], XOSERA_ROOM_SHORT);
    }
    for (int room = 0; room < 2; room++) { /* none at all, or more than enough */
        const size_t length = room == 0 ? 0 : XOSERA_FILE_MAX;
        x->state.queued = 2;
        assert_save_refused(x, length, XOSERA_STATE_RANGE);
        x->xr_len--;
        assert_save_refused(x, length, XOSERA_XR_LENGTH);
        x->vram_len--;
        assert_save_refused(x, length, XOSERA_VRAM_LENGTH);
        x->vram_len++;
        x->xr_len++;
        x->state.queued = 1;
    }
    adapter_free(x);
}

/* Each with a file that would load and with one that would not. */
static void a_load_is_refused_in_order(void **state)
{
    (void)state;
    xosera *x = another(256), *longer = adapter_in(mid_line_state(), 512);
    bytes files[3] = {file_of(x), file_of(longer), file_of(longer)};
    files[2].at[0] = 4; /* 8 and 9 apply */
    const xosera_refusal want[3] = {XOSERA_DONE, XOSERA_SAVED_VRAM_LENGTH, XOSERA_NO_SAVED_ADAPTER};
    for (int i = 0; i < 3; i++) {
        assert_load_refused(x, files[i], want[i]);
        x->state.status = 128;
        assert_load_refused(x, files[i], XOSERA_STATE_RANGE);
        x->xr_len--;
        assert_load_refused(x, files[i], XOSERA_XR_LENGTH);
        x->vram_len--;
        assert_load_refused(x, files[i], XOSERA_VRAM_LENGTH);
        x->vram_len++;
        x->xr_len++;
        x->state.status = 0;
        free(files[i].at);
    }
    adapter_free(x);
    adapter_free(longer);
}

static void a_file_of_another_vram_length_is_9(void **state)
{
    (void)state;
    for (size_t i = 0; i < VRAM_LENGTHS; i++) {
        xosera *from = adapter_in(idle_state(), vram_lengths[i]);
        const bytes file = file_of(from);
        for (size_t j = 0; j < VRAM_LENGTHS; j++) {
            xosera *into = another(vram_lengths[j]);
            if (i != j) {
                assert_load_refused(into, file, XOSERA_SAVED_VRAM_LENGTH);
            }
            adapter_free(into);
        }
        free(file.at);
        adapter_free(from);
    }
}

/* Every length but the right one is 8: each one shorter, and longer by so little that no other VRAM
 * length fits. */
static void a_file_cut_or_longer_is_8(void **state)
{
    (void)state;
    xosera *x = another(256), *from = adapter_in(mid_line_state(), 256);
    const bytes file = file_of(from), room = bytes_new(file.length + 2);
    xosera *before = adapter_copy(x);
    memcpy(room.at, file.at, file.length);
    for (size_t length = 0; length <= room.length; length++) {
        if (length != file.length) {
            const bytes part = {room.at, length};
            assert_int_equal(load_from(x, part), XOSERA_NO_SAVED_ADAPTER);
            assert_int_equal(memcmp(&x->state, &before->state, sizeof x->state), 0);
        }
    }
    assert_adapter_equal(x, before);

    /* The same at the ends of sections with no byte behind. */
    const size_t ends[] = {0, 1, 27, 28, 29, 177, 178, 179, 13489, 13490, 13491, file.length - 1};
    for (size_t i = 0; i < sizeof ends / sizeof ends[0]; i++) {
        const bytes part = bytes_new(ends[i]);
        memcpy(part.at, file.at, part.length);
        assert_load_not_saved(x, part);
    }
    free(file.at);
    free(room.at);
    adapter_free(x);
    adapter_free(from);
    adapter_free(before);
}

/* Sections of these kinds with such a gap, at each place in turn: 8 in each of both adapters. */
static void assert_not_arranged_so(xosera *const into[2], const xosera *from, const char *kinds,
                                   size_t gap)
{
    for (size_t before = 0; before <= strlen(kinds); before++) {
        const bytes file = arranged(from, kinds, before, gap);
        assert_load_refused(into[0], file, XOSERA_NO_SAVED_ADAPTER);
        assert_load_not_saved(into[1], file);
    }
}

/* Files whose contents are true, but not those of a saved adapter: another number or order of
 * sections, one of them twice, one of another kind, or a gap. Each is also made as long as the
 * files of adapters are, by the gap. */
static void only_one_arrangement_is_a_file(void **state)
{
    (void)state;
    const char *const kinds[] = {"123",  "",     "1",    "12",   "13",   "23",
                                 "132",  "213",  "231",  "312",  "321",  "122",
                                 "1123", "1223", "1233", "1231", "1234", "0123"};
    const uint8_t numbers[] = {0, 1, 2, 4, 255};
    xosera *from = adapter_in(mid_line_state(), 256);
    xosera *const into[2] = {another(256), another(512)};
    for (size_t i = 0; i < sizeof kinds / sizeof kinds[0]; i++) {
        const size_t least = length_of(from, kinds[i]);
        for (size_t gap = i == 0; gap < 3; gap++) { /* "123" without a gap is right */
            assert_not_arranged_so(into, from, kinds[i], gap);
        }
        for (size_t j = 0; j < VRAM_LENGTHS; j++) {
            if (XOSERA_FILE_BYTES(vram_lengths[j]) > least) {
                assert_not_arranged_so(into, from, kinds[i],
                                       XOSERA_FILE_BYTES(vram_lengths[j]) - least);
            }
        }
    }
    for (size_t i = 0; i < sizeof numbers; i++) {
        const bytes file = arranged(from, "123", 0, 0);
        file.at[0] = numbers[i]; /* of sections; the entries are right */
        assert_load_not_saved(into[0], file);
    }
    adapter_free(from);
    adapter_free(into[0]);
    adapter_free(into[1]);
}

/* The right sections, but a memory has a wrong length, or a byte too many. */
static void the_memories_have_their_lengths(void **state)
{
    (void)state;
    const size_t wrong[] = {0, 1, 128, 255, 257, 384, 65535, 65537, 131072};
    xosera *x = another(256), *from = adapter_in(mid_line_state(), 256);
    from->xr_len--;
    assert_load_not_saved(x, arranged(from, "123", 0, 0));
    from->xr_len++;

    bytes longer = arranged(from, "123", 0, 0);
    longer.at = (uint8_t *)realloc(longer.at, ++longer.length);
    assert_non_null(longer.at);
    longer.at[27]++; /* the low byte of VRAM's length */
    longer.at[longer.length - 1] = 0;
    assert_load_not_saved(x, longer);
    adapter_free(from);

    /* The words that one memory lacks the other has more: in all as many as in a right file. */
    from = adapter_in(mid_line_state(), 512);
    from->xr_len -= 256;
    assert_int_equal(length_of(from, "123"), XOSERA_FILE_BYTES(256));
    assert_load_not_saved(x, arranged(from, "123", 0, 0));
    adapter_free(from);
    for (size_t i = 0; i < sizeof wrong / sizeof wrong[0]; i++) {
        from = adapter_in(mid_line_state(), wrong[i]);
        assert_load_not_saved(x, arranged(from, "123", 0, 0));
        adapter_free(from);
    }
    adapter_free(x);
}

/* A file of which a byte was changed. With the right contents and a state within its ranges it is
 * the file of the adapter that it loads; else it is 8 and changes nothing. Before the load, the
 * first and the last word of each memory are not those of the file. */
static void one_changed_file(xosera *into, bytes file, bool right_contents, bytes again)
{
    static const xosera_state before; /* all words 0 */
    uint16_t *const ends[4] = {&into->vram[0], &into->vram[into->vram_len - 1], &into->xr[0],
                               &into->xr[into->xr_len - 1]};
    uint16_t words[XOSERA_STATE_WORDS] = {0}; /* a load gives rest */
    for (size_t i = 0; i < XOSERA_FILE_STATE_WORDS; i++) {
        words[i] = (uint16_t)(file.at[28 + 2 * i] << 8 | file.at[29 + 2 * i]);
    }
    into->state = before;
    for (int i = 0; i < 4; i++) {
        *ends[i] = 0xA5A5;
    }
    const int refusal = load_from(into, file);
    if (right_contents && words_in_range(words)) {
        assert_int_equal(refusal, XOSERA_DONE);
        assert_int_equal(save_to(into, again).refusal, XOSERA_DONE);
        assert_int_equal(memcmp(again.at, file.at, file.length), 0);
        return;
    }
    assert_int_equal(refusal, XOSERA_NO_SAVED_ADAPTER);
    assert_int_equal(memcmp(&into->state, &before, sizeof before), 0);
    for (int i = 0; i < 4; i++) {
        assert_int_equal(*ends[i], 0xA5A5);
    }
}

/* Each byte of contents and state takes its 255 other values; with XOSERA_QUICK set, 15 of them. */
static void every_byte_counts(xosera_state s)
{
    xosera *x = adapter_in(s, 256), *into = another(256);
    const bytes file = file_of(x), again = bytes_new(file.length);
    const int step = getenv("XOSERA_QUICK") != NULL ? 17 : 1;
    for (size_t at = 0; at < XOSERA_FILE_XR_AT; at++) {
        const uint8_t right = file.at[at];
        for (int more = step; more < 256; more += step) {
            file.at[at] = (uint8_t)(right + more);
            one_changed_file(into, file, at >= XOSERA_FILE_STATE_AT, again);
        }
        file.at[at] = right;
    }
    assert_int_equal(load_from(into, file), XOSERA_DONE);
    assert_adapter_equal(into, x);
    free(file.at);
    free(again.at);
    adapter_free(x);
    adapter_free(into);
}

static void every_byte_of_a_busy_adapter_counts(void **state)
{
    (void)state;
    every_byte_counts(mid_line_state());
}

static void every_byte_of_an_idle_adapter_counts(void **state)
{
    (void)state;
    every_byte_counts(idle_state());
}

/* A word kept from the line before is saved and loaded. With its line changed to 0 it would be on
 * the blit's first word, where the shifter is empty: no adapter's file. On the second word it is
 * one. */
static void a_word_kept_from_the_line_before(void **state)
{
    (void)state;
    enum { LINE_AT = XOSERA_FILE_STATE_AT + 2 * 33, WORD_AT = LINE_AT + 2 };
    xosera_state s = mid_line_state();
    s.engine.word = 0;
    there_and_back(s);
    xosera *x = adapter_in(s, 256), *into = another(256);
    const bytes file = file_of(x);
    memset(file.at + LINE_AT, 0, 2);
    assert_load_refused(into, file, XOSERA_NO_SAVED_ADAPTER);
    file.at[WORD_AT + 1] = 1;
    assert_int_equal(load_from(into, file), XOSERA_DONE);
    assert_int_equal(into->state.engine.line, 0);
    assert_int_equal(into->state.engine.word, 1);
    assert_int_equal(into->state.engine.kept, 0xBEEF);
    free(file.at);
    adapter_free(x);
    adapter_free(into);
}

/* After any number of words, of the first blit or of the queued one: saved, loaded into another
 * adapter and finished, all is as if nobody had saved. */
static void a_blit_goes_on_after_a_load(void **state)
{
    xosera *x = (xosera *)*state;
    const blit shifted = {.ctrl = MAKE_BLIT_CTRL(0x30, 0, 1, 0),
                          .mod_s = 3,
                          .src_s = 0x3F8,
                          .mod_d = 1,
                          .dst_d = 0x3FB, /* over the source and the end of VRAM */
                          .shift = MAKE_BLIT_SHIFT(0xF, 0xC, 1), /* open to the line before */
                          .lines = 3,
                          .words = 4};
    const blit constant = {.ctrl = BLIT_CTRL_S_CONST_F,
                           .mod_s = 0x11,
                           .src_s = 0x1234,
                           .dst_d = 0x3FF,
                           .shift = 0xFF00,
                           .lines = 1,
                           .words = 2};
    start_blit(x, &shifted);
    start_blit(x, &constant);
    xosera *whole = adapter_copy(x);
    assert_int_equal(xosera_run(whole, UINT64_MAX), 26);
    for (uint64_t done = 0; done <= 26; done++) {
        xosera *half = adapter_copy(x), *other = another(x->vram_len);
        assert_int_equal(xosera_run(half, done), done);
        const bytes file = file_of(half);
        assert_int_equal(load_from(other, file), XOSERA_DONE);
        assert_int_equal(xosera_run(other, UINT64_MAX), 26 - done);
        assert_adapter_equal(other, whole);
        free(file.at);
        adapter_free(half);
        adapter_free(other);
    }
    adapter_free(whole);
}

/* Half a word written, the timer's low byte taken down, a data read prepared. */
static void accesses_go_on_after_a_load(void **state)
{
    xosera *x = (xosera *)*state, *other = another(x->vram_len);
    for (int i = 0; i < 0x1FF; i++) {
        xosera_tick(x);
    }
    xm_setw(RD_ADDR, 0x10);
    const uint16_t ahead = x->vram[0x10];
    vram_setw(0x10, 0x0000);
    xm_setbh(WR_ADDR, 0x12);
    assert_int_equal(xm_getbh(TIMER), 0x01);
    const bytes file = file_of(x);
    assert_int_equal(load_from(other, file), XOSERA_DONE);
    xosera_use(other);
    xosera_tick(other);
    assert_int_equal(xm_getbl(TIMER), 0xFF);
    assert_int_equal(xm_getw(DATA), ahead);
    xm_setbl(WR_ADDR, 0x34);
    assert_int_equal(xm_getw(WR_ADDR), 0x1234);
    xosera_use(x);
    free(file.at);
    adapter_free(other);
}

int saved_group(int *tests)
{
    const struct CMUnitTest list[] = {
        cmocka_unit_test(every_vram_length_there_and_back),
        WITH_ADAPTER(what_stands_behind_the_file_stays),
        cmocka_unit_test(a_save_is_refused_in_order),
        cmocka_unit_test(a_load_is_refused_in_order),
        cmocka_unit_test(a_file_of_another_vram_length_is_9),
        cmocka_unit_test(a_file_cut_or_longer_is_8),
        cmocka_unit_test(only_one_arrangement_is_a_file),
        cmocka_unit_test(the_memories_have_their_lengths),
        cmocka_unit_test(every_byte_of_a_busy_adapter_counts),
        cmocka_unit_test(every_byte_of_an_idle_adapter_counts),
        cmocka_unit_test(a_word_kept_from_the_line_before),
        WITH_ADAPTER(a_blit_goes_on_after_a_load),
        WITH_ADAPTER(accesses_go_on_after_a_load),
    };
    return RUN_GROUP("saved adapters", list, tests);
}
