/* SPDX-License-Identifier: MIT */
/*
 * Recorded sessions played again on this build of the library, up to the first answer that differs.
 * docs/RECORDING.md has the text's form.
 */
#ifndef XOSERA_MODEL_REPLAY_H
#define XOSERA_MODEL_REPLAY_H

#include <errno.h>
#include <stdbool.h>
#include <stddef.h>
#include <stdint.h>
#include <stdio.h>
#include <stdlib.h>
#include <string.h>

#include "adapter.h"
#include "calls.h"
#include "files.h"
#include "recording.h"
#include "state.h"

/* How it went. */
typedef struct xosera_replayed {
    bool equal;     /* every answer, and at the end every word, is as recorded */
    bool whole;     /* the file was played to its end */
    uint64_t line;  /* of the file: the first that differs or cannot be read; 0: none */
    uint64_t calls; /* made */
    char text[2 * XOSERA_RECORDING_LINE]; /* the same as a sentence */
} xosera_replayed;

#define XOSERA_RECORDING_WORDS (XOSERA_RECORDING_ROW + 4) /* more than any line has */

typedef struct xosera_player {
    xosera_session session;
    xosera_replayed went;
    const char *path;
    char line[XOSERA_RECORDING_LINE + 2]; /* as read, without what follows # */
    char source[XOSERA_RECORDING_LINE];   /* what follows # */
    char split[XOSERA_RECORDING_LINE + 2];
    const char *word[XOSERA_RECORDING_WORDS]; /* the line in words */
    unsigned words;
} xosera_player;

/* The replay ends here: why. */
static inline bool xosera_play_stops(xosera_player *p, const char *why, const char *more)
{
    p->went.equal = false;
    snprintf(p->went.text, sizeof p->went.text, "%.200s:%llu: %.60s%.300s%s%.300s", p->path,
             (unsigned long long)p->went.line, why, more, p->source[0] != '\0' ? " at " : "",
             p->source);
    return false;
}

static inline bool xosera_play_unreadable(xosera_player *p)
{
    return xosera_play_stops(p, "not a line of a recording: ", p->line);
}

/* Word i of the line as a number, at most `most`, spelled as a recording spells it: decimal
 * (`digits` is 0), or hexadecimal with so many digits and more only where it needs them. */
static inline bool xosera_play_number(const xosera_player *p, unsigned i, int digits, uint64_t most,
                                      uint64_t *number)
{
    char again[30];
    const char *const text = i < p->words ? p->word[i] : "";
    const unsigned long long value = strtoull(text, NULL, digits == 0 ? 10 : 16);
    if (digits == 0) {
        snprintf(again, sizeof again, "%llu", value);
    } else {
        snprintf(again, sizeof again, "%0*llX", digits, value);
    }
    *number = value;
    return value <= most && strcmp(again, text) == 0;
}

static inline bool xosera_play_is(const xosera_player *p, unsigned i, const char *text)
{
    return i < p->words && strcmp(p->word[i], text) == 0;
}

/* What a line of a call asks for. */
static inline bool xosera_play_asked(const xosera_player *p, xosera_access *what)
{
    static const char *const calls[] = {"write", "read", "step", "run", "tick", "beam", "line"};
    uint64_t reg = 0;
    uint64_t byte = 0;
    uint64_t n = 1;
    unsigned call = 0;
    while (call <= XOSERA_CALL_LINE && !xosera_play_is(p, 0, calls[call])) {
        call++;
    }
    *what = xosera_asked((xosera_call)call, 0, false);
    bool well = call <= XOSERA_CALL_LINE;
    if (call <= XOSERA_CALL_READ) {
        well = xosera_play_number(p, 1, 0, UINT8_MAX, &reg) &&
               (xosera_play_is(p, 2, "even") || xosera_play_is(p, 2, "odd"));
    }
    if (call == XOSERA_CALL_WRITE) {
        well = well && xosera_play_number(p, 3, 2, UINT8_MAX, &byte);
    }
    if (call == XOSERA_CALL_RUN || call == XOSERA_CALL_TICK || call == XOSERA_CALL_BEAM_STEP) {
        well = xosera_play_number(p, 1, 0, UINT64_MAX, &n);
    }
    what->reg = (unsigned)reg;
    what->odd = xosera_play_is(p, 2, "odd");
    what->byte = (uint8_t)byte;
    what->n = n;
    return well;
}

/* What a line of a call answers, behind `=`, is spelled as an answer of such a call, and can be
 * one: all ticks and steps are done unless one is refused. */
static inline bool xosera_play_answer(const xosera_player *p, xosera_access what)
{
    static const unsigned asked[] = {4, 3, 1, 2, 2, 2, 1}; /* words before `=` */
    const unsigned at = asked[what.call] + 2;              /* behind the refusal */
    uint64_t refusal = 0;
    uint64_t value = 0;
    if (!xosera_play_is(p, at - 2, "=") || !xosera_play_number(p, at - 1, 0, UINT8_MAX, &refusal)) {
        return false;
    }
    switch (what.call) {
    case XOSERA_CALL_WRITE: return p->words == at + 1 && xosera_play_number(p, at, 1, 15, &value);
    case XOSERA_CALL_READ:
        return p->words == at + 1 && xosera_play_number(p, at, 2, UINT8_MAX, &value);
    case XOSERA_CALL_STEP:
    case XOSERA_CALL_RUN:
        return p->words == at + 2 && xosera_play_number(p, at, 0, UINT64_MAX, &value) &&
               xosera_play_number(p, at + 1, 1, 15, &value);
    case XOSERA_CALL_TICK:
    case XOSERA_CALL_BEAM_STEP:
        return p->words == at + 1 && xosera_play_number(p, at, 0, UINT64_MAX, &value) &&
               (refusal == 0 ? value == what.n : value < what.n);
    case XOSERA_CALL_LINE: return p->words == at + 1 && xosera_play_number(p, at, 0, 1, &value);
    case XOSERA_CALL_SAVE:
    case XOSERA_CALL_LOAD:
    case XOSERA_CALL_WHY:
    case XOSERA_CALL_PAINT:
    case XOSERA_CALL_PAINT_GREY:
    default: return false;
    }
}

/* A call: made, and its answer compared. */
static inline bool xosera_play_call(xosera_player *p)
{
    xosera_access what;
    char line[XOSERA_RECORDING_LINE];
    char more[XOSERA_RECORDING_LINE];
    if (!xosera_play_asked(p, &what) || !xosera_play_answer(p, what)) {
        return xosera_play_unreadable(p);
    }
    what = xosera_make(&p->session.x, what);
    const size_t asked = xosera_call_line(line, sizeof line, &what);
    p->went.calls++;
    if (strcmp(line, p->line) == 0) {
        return true;
    }
    line[asked] = '\0';
    snprintf(more, sizeof more, "%.100sanswered %.100s, recorded %.100s", line, line + asked + 2,
             p->line + asked + 2);
    return xosera_play_stops(p, "", more);
}

/* A word of the state is set (`at` is 1), or checked (2). */
static inline bool xosera_play_state(xosera_player *p, unsigned at)
{
    char more[XOSERA_RECORDING_LINE];
    uint64_t word = 0;
    unsigned i = 0;
    while (i < XOSERA_STATE_WORDS && !xosera_play_is(p, at, xosera_state_word(i).field)) {
        i++;
    }
    if (p->words != at + 2 || !xosera_play_number(p, at + 1, 4, UINT16_MAX, &word)) {
        return xosera_play_unreadable(p);
    }
    if (i == XOSERA_STATE_WORDS) {
        return xosera_play_stops(p, "a field that this build's state has not: ", p->word[at]);
    }
    if (at == 1) {
        xosera_state_set(&p->session.x.state, i, (uint16_t)word);
        return true;
    }
    const uint16_t now = xosera_state_get(&p->session.x.state, i);
    snprintf(more, sizeof more, "%.100s is %04X, recorded %04X", xosera_state_word(i).name,
             (unsigned)now, (unsigned)word);
    return now == word ? true : xosera_play_stops(p, "", more);
}

/* A word of a memory is not as recorded. */
static inline bool xosera_play_word_differs(xosera_player *p, const char *name, size_t at,
                                            unsigned now, unsigned recorded)
{
    char more[100];
    snprintf(more, sizeof more, "word %04zX of %.20s is %04X, recorded %04X", at, name, now,
             recorded);
    return xosera_play_stops(p, "", more);
}

/* Words of a memory are set, or checked; likewise. A word that is set was as told before. */
static inline bool xosera_play_row(xosera_player *p, unsigned at, const char *name,
                                   uint16_t *memory, uint16_t *told, size_t length)
{
    uint64_t address = 0;
    uint64_t word = 0;
    if (!xosera_play_number(p, at, 4, length, &address) || p->words <= at + 1 ||
        p->words > at + 1 + XOSERA_RECORDING_ROW) {
        return xosera_play_unreadable(p);
    }
    for (unsigned i = at + 1; i < p->words; i++, address++) {
        if (address >= length || !xosera_play_number(p, i, 4, UINT16_MAX, &word)) {
            return xosera_play_unreadable(p);
        }
        const uint16_t recorded = at == 2 ? (uint16_t)word : told[address];
        if (memory[address] != recorded) {
            return xosera_play_word_differs(p, name, address, memory[address], recorded);
        }
        memory[address] = (uint16_t)word;
        told[address] = (uint16_t)word;
    }
    return true;
}

/* Lines `state`, `vram` and `xr`; with `at` 2 behind `check`. */
static inline bool xosera_play_words(xosera_player *p, unsigned at)
{
    const xosera *const x = &p->session.x;
    const char *const kind = p->word[at - 1];
    if (strcmp(kind, "state") == 0) {
        return xosera_play_state(p, at);
    }
    if (strcmp(kind, "vram") == 0) {
        return xosera_play_row(p, at, "VRAM", x->vram, p->session.vram_told, x->vram_len);
    }
    return xosera_play_row(p, at, "XR memory", x->xr, p->session.xr_told, x->xr_len);
}

/* Every word of a memory is as told. */
static inline bool xosera_play_told(xosera_player *p, const char *name, const uint16_t *memory,
                                    const uint16_t *told, size_t length)
{
    size_t at = 0;
    while (at < length && memory[at] == told[at]) {
        at++;
    }
    return at == length ? true : xosera_play_word_differs(p, name, at, memory[at], told[at]);
}

static inline bool xosera_play_all_told(xosera_player *p)
{
    const xosera_session *const s = &p->session;
    return xosera_play_told(p, "VRAM", s->x.vram, s->vram_told, s->x.vram_len) &&
           xosera_play_told(p, "XR memory", s->x.xr, s->xr_told, s->x.xr_len);
}

/* Line `memory`. */
static inline bool xosera_play_memory(xosera_player *p)
{
    uint64_t vram_len = 0;
    uint64_t xr_len = 0;
    if (p->words != 3 || !xosera_play_number(p, 1, 0, XOSERA_RECORDING_VRAM_MAX, &vram_len) ||
        !xosera_play_number(p, 2, 0, XOSERA_RECORDING_XR_MAX, &xr_len)) {
        return xosera_play_unreadable(p);
    }
    if (!xosera_play_all_told(p)) {
        return false;
    }
    if (!xosera_session_start(&p->session, (size_t)vram_len, (size_t)xr_len)) {
        return xosera_play_stops(p, "no memory for the session", "");
    }
    return true;
}

/* Any line but the first; false where the replay stops. */
static inline bool xosera_play_line(xosera_player *p)
{
    static const char *const kinds[] = {"state", "vram", "xr"};
    bool set = false;
    bool check = false;
    for (unsigned i = 0; i < 3; i++) {
        set = set || xosera_play_is(p, 0, kinds[i]);
        check = check || (xosera_play_is(p, 0, "check") && xosera_play_is(p, 1, kinds[i]));
    }
    if (p->went.whole || (p->session.vram_told == NULL && !xosera_play_is(p, 0, "memory"))) {
        return xosera_play_unreadable(p);
    }
    if (xosera_play_is(p, 0, "memory")) {
        return xosera_play_memory(p);
    }
    if (set || check) {
        return xosera_play_words(p, check ? 2 : 1);
    }
    if (xosera_play_is(p, 0, "end") && p->words == 1) {
        p->went.whole = xosera_play_all_told(p);
        return p->went.whole;
    }
    return xosera_play_call(p);
}

/* Take the line apart: what follows # is the line of source, the rest is split at blanks. */
static inline void xosera_play_split(xosera_player *p)
{
    char *const mark = strchr(p->line, '#');
    p->source[0] = '\0';
    if (mark != NULL) {
        snprintf(p->source, sizeof p->source, "%s", mark + strspn(mark, "# "));
        *mark = '\0';
    }
    for (char *end = mark; end != NULL && end > p->line && end[-1] == ' '; end--) {
        end[-1] = '\0';
    }
    memcpy(p->split, p->line, sizeof p->split);
    char *at = p->split[0] != '\0' ? p->split : NULL;
    while (at != NULL && p->words < XOSERA_RECORDING_WORDS) {
        p->word[p->words++] = at;
        at = strchr(at, ' ');
        if (at != NULL) {
            *at++ = '\0';
        }
    }
}

/* The next line that has words; false at the end of the file, or where its last line is cut. */
static inline bool xosera_play_read(xosera_player *p, FILE *in)
{
    p->words = 0;
    while (p->words == 0 && fgets(p->line, sizeof p->line, in) != NULL) {
        char *const end = strchr(p->line, '\n');
        if (end == NULL && feof(in) && !p->went.whole) {
            return false;
        }
        p->went.line++;
        if (end != NULL) {
            *end = '\0';
        }
        xosera_play_split(p);
        if (end == NULL) { /* longer than any line of a recording */
            p->words = XOSERA_RECORDING_WORDS;
            p->word[0] = "";
        }
    }
    return p->words != 0;
}

/* Play an open file. */
static inline void xosera_play_file(xosera_player *p, FILE *in)
{
    bool well = true;
    const bool begun = xosera_play_read(p, in);
    if (!begun || p->words != 3 || strcmp(p->line, XOSERA_RECORDING_HEAD) != 0) {
        p->went.line += begun ? 0 : 1;
        (void)xosera_play_stops(p, ferror(in) ? "cannot be read" : "not a recording of form 1", "");
        return;
    }
    while (well && xosera_play_read(p, in)) {
        well = xosera_play_line(p);
    }
    if (well && ferror(in)) {
        well = xosera_play_stops(p, "cannot be read on", "");
    }
    if (well) {
        p->went.equal = true;
        p->went.line = 0;
        snprintf(p->went.text, sizeof p->went.text, "%.200s: %llu calls answered as recorded%s",
                 p->path, (unsigned long long)p->went.calls,
                 p->went.whole ? "" : "; its end is missing");
    }
}

/* Play the session recorded in a file, with memories of its own. */
static inline xosera_replayed xosera_replay(const char *path)
{
    xosera_player p;
    char text[XOSERA_RECORDING_LINE];
    memset(&p, 0, sizeof p);
    p.path = path;
    errno = 0;
    FILE *const in = fopen(path, "r");
    if (in == NULL) {
        const xosera_file_answer a = xosera_file_failed("open the file");
        snprintf(p.went.text, sizeof p.went.text, "%s",
                 xosera_file_text(text, sizeof text, path, a));
        return p.went;
    }
    xosera_play_file(&p, in);
    fclose(in);
    xosera_session_free(&p.session);
    return p.went;
}

#endif /* XOSERA_MODEL_REPLAY_H */
