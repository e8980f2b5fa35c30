/*
 * The border changes colour halfway down the field, by a copper list.
 *
 *   border
 *
 * Two lists wait for a line and then set XR_VID_CTRL, whose low byte is the border colour; at line
 * 0 each sets it back. The first waits for line 240, the second, with two digits swapped, for line
 * 204. Each runs for two frames, pixel by pixel. Printed are the line and the pixel at which
 * XR_VID_CTRL changed, for one list and for the other, and the lines whose border the second one
 * has wrong.
 */
#include <assert.h>
#include <stdio.h>
#include <string.h>

#include "xosera_model.h"

enum { UPPER = 0x0001, LOWER = 0x0004, HALFWAY = 240, SWAPPED = 204 };
enum { FRAMES = 2, MOST_CHANGES = 8 };

/* The firmware, as it stands on the board. */

#define BORDER_LIST(line)                                                                          \
    {                                                                                              \
        COP_MOVER(UPPER, VID_CTRL), COP_WAIT_V(line), COP_MOVER(LOWER, VID_CTRL), COP_END()        \
    }
static const uint32_t right_list[] = BORDER_LIST(HALFWAY), wrong_list[] = BORDER_LIST(SWAPPED);
enum { INSTRUCTIONS = sizeof right_list / sizeof right_list[0] };

static void start_list(const uint32_t *list)
{
    xreg_setw(VID_CTRL, UPPER);
    xmem_setw_next_addr(XR_COPPER_ADDR);
    for (int i = 0; i < INSTRUCTIONS; i++) {
        xmem_setw_next(list[i] >> 16);
        xmem_setw_next(list[i] & 0xFFFF);
    }
    xwait_not_vblank();
    xwait_vblank(); /* as much time as can be before line 0 */
    xreg_setw(COPP_CTRL, COPP_CTRL_COPP_EN_F);
}

/* The test. */

static uint16_t vram[XOSERA_VRAM_MIN], xr[XOSERA_XR_WORDS];

/* A change of XR_VID_CTRL: the beam was there when it was made. */
typedef struct change {
    int frame, line, position;
    unsigned from, to;
} change;

/* What a list did in its frames: the changes, and the border colour at the first visible pixel of
 * each line. */
typedef struct run {
    int changes;
    change change[MOST_CHANGES];
    unsigned border[FRAMES][XOSERA_VISIBLE_LINES];
} run;

/* After a step of the beam. */
static void watch(run *r, int frame, const xosera_state *before, const xosera_state *now)
{
    const xosera_beam *const at = &now->beam;
    const unsigned from = before->video.vid_ctrl, to = now->video.vid_ctrl;
    if (from != to) {
        assert(r->changes < MOST_CHANGES);
        r->change[r->changes++] = (change){frame, at->line, at->position, from, to};
    }
    if (at->line < XOSERA_VISIBLE_LINES && at->position == XOSERA_BLANK_POSITIONS) {
        r->border[frame][at->line] = to & 0xFF;
    }
}

/* A fresh adapter runs the list. Its frames begin where the copper does, at line 0. */
static void run_list(run *r, const uint32_t *list)
{
    xosera adapter;
    xosera_attach(&adapter, vram, XOSERA_VRAM_MIN, xr, XOSERA_XR_WORDS);
    adapter.on_refusal = xosera_abort_on_refusal;
    xosera_use(&adapter);
    memset(r, 0, sizeof *r);
    start_list(list);
    (void)xosera_beam_to(&adapter, XOSERA_FRAME_LINES - 1, XOSERA_LINE_POSITIONS - 1);
    for (int frame = 0; frame < FRAMES; frame++) {
        for (int i = 0; i < XOSERA_FRAME_STEPS; i++) {
            const xosera_state before = adapter.state;
            (void)xosera_beam_pixel(&adapter);
            watch(r, frame, &before, &adapter.state);
        }
    }
}

/* By frame, line and pixel. Left blanking comes before the line's pixel 0. */
static void put_change(const change *c)
{
    printf("  frame %d, line %3d, ", c->frame + 1, c->line);
    if (c->position < XOSERA_BLANK_POSITIONS) {
        printf("before pixel 0");
    } else {
        printf("at pixel %d", c->position - XOSERA_BLANK_POSITIONS);
    }
    printf(" (position %d): 0x%04X to 0x%04X", c->position, c->from, c->to);
}

/* The changes that a list made, marked where the right one made another. */
static void put_changes(int line, const run *r, const run *right)
{
    printf("wait for line %d: XR_VID_CTRL changed %d times in %d frames\n", line, r->changes,
           FRAMES);
    for (int i = 0; i < r->changes; i++) {
        put_change(&r->change[i]);
        puts(memcmp(&r->change[i], &right->change[i], sizeof(change)) == 0 ? "" : "  differs");
    }
}

/* Runs of lines whose border differs, in the last frame. */
static void put_wrong_lines(const run *right, const run *wrong)
{
    const unsigned *const should = right->border[FRAMES - 1], *const is = wrong->border[FRAMES - 1];
    int count = 0;
    for (int line = 0; line < XOSERA_VISIBLE_LINES; line++) {
        const int first = line;
        while (line < XOSERA_VISIBLE_LINES && is[line] != should[line] && is[line] == is[first] &&
               should[line] == should[first]) {
            line++;
        }
        if (line != first) {
            printf("wrong: border of lines %d to %d is %u and should be %u\n", first, line - 1,
                   is[first], should[first]);
            count += line - first;
            line--;
        }
    }
    printf("wrong lines: %d\n", count);
}

int main(int argc, char **argv)
{
    static run right, wrong;
    if (argc > 1) {
        fprintf(stderr, "border: there is an argument too many: %s\nusage: border\n", argv[1]);
        return 2;
    }
    run_list(&right, right_list);
    run_list(&wrong, wrong_list);
    put_changes(HALFWAY, &right, &right);
    put_changes(SWAPPED, &wrong, &right);
    put_wrong_lines(&right, &wrong);
    return 0;
}
