#include "painting.h"

static uint16_t same(uint16_t colour)
{
    return colour;
}

const painter in_colours = {"paint",           XOSERA_CALL_PAINT,   xosera_paint,
                            xosera_paint_line, xosera_paint_screen, same};
const painter in_levels = {"paint grey",           XOSERA_CALL_PAINT_GREY,   xosera_paint_grey,
                           xosera_paint_grey_line, xosera_paint_grey_screen, level_of};

void show(xosera *x, shown by)
{
    xosera_video *const v = &x->state.video;
    v->pa[XR_PA_GFX_CTRL - XR_PA_GFX_CTRL] = by.gfx_ctrl;
    v->pa[XR_PA_DISP_ADDR - XR_PA_GFX_CTRL] = by.disp_addr;
    v->pa[XR_PA_LINE_LEN - XR_PA_GFX_CTRL] = by.line_len;
    v->vid_left = by.left;
    v->vid_right = by.right;
    v->vid_ctrl = by.vid_ctrl;
}

shown shown_by(const xosera *x)
{
    const xosera_video *const v = &x->state.video;
    return (shown){v->pa[0], v->pa[2], v->pa[3], v->vid_left, v->vid_right, v->vid_ctrl};
}

xosera *any_memories(size_t vram_len)
{
    xosera *x = adapter_new(vram_len);
    for (size_t i = 0; i < vram_len; i++) {
        x->vram[i] = random_word();
    }
    for (size_t i = 0; i < x->xr_len; i++) {
        x->xr[i] = random_word();
    }
    return x;
}

static unsigned field(unsigned word, unsigned high, unsigned low)
{
    return word >> low & ((2u << (high - low)) - 1);
}

/* "Inside the window": the bits of a row are counted from the high end of its first word on. */
static unsigned index_inside(const xosera *x, const shown *by, unsigned line, unsigned from_left)
{
    const unsigned h_repeat = field(by->gfx_ctrl, 3, 2) + 1;
    const unsigned v_repeat = field(by->gfx_ctrl, 1, 0) + 1;
    const unsigned bits = field(by->gfx_ctrl, 5, 4) == 1 ? 4 : 8;
    const unsigned bit = from_left / h_repeat * bits;
    const unsigned row = (by->disp_addr + line / v_repeat * by->line_len) % 65536;
    const unsigned address = (row + bit / 16) % 65536;
    const unsigned word = x->vram[address % x->vram_len];
    const unsigned pixel = field(word, 15 - bit % 16, 16 - bits - bit % 16);
    return bits == 4 ? field(by->gfx_ctrl, 15, 12) * 16 + pixel : pixel;
}

uint16_t colour_at(const xosera *x, unsigned line, unsigned at)
{
    const shown by = shown_by(x);
    unsigned index = field(by.vid_ctrl, 7, 0); /* the border */
    if (field(by.gfx_ctrl, 7, 7) == 1) {
        index ^= field(by.gfx_ctrl, 15, 8);
    } else if (by.left <= at && at < by.right) {
        index = index_inside(x, &by, line, at - by.left);
    }
    return x->xr[5120 + index];
}

/* "Blank clear and either not bitmap or another depth". */
bool no_bitmap(unsigned gfx_ctrl)
{
    const unsigned depth = field(gfx_ctrl, 5, 4);
    return field(gfx_ctrl, 7, 7) == 0 && (field(gfx_ctrl, 6, 6) == 0 || (depth != 1 && depth != 2));
}

/* "(299R + 587G + 114B + 500) / 1000 rounded down". */
uint16_t level_of(uint16_t colour)
{
    const unsigned red = field(colour, 11, 8);
    const unsigned green = field(colour, 7, 4);
    const unsigned blue = field(colour, 3, 0);
    return (uint16_t)((299 * red + 587 * green + 114 * blue + 500) / 1000);
}

void clear_words(uint16_t *words, size_t n)
{
    for (size_t i = 0; i < n; i++) {
        words[i] = UNTOUCHED;
    }
}

void assert_stayed(const uint16_t *words, size_t n)
{
    for (size_t i = 0; i < n; i++) {
        if (words[i] != UNTOUCHED) {
            fail_msg("word %zu was touched: %04X", i, (unsigned)words[i]);
        }
    }
}

xosera_refusal paint(const painter *p, const xosera *x, uint32_t line, size_t length, strip *s)
{
    xosera *const was = adapter_copy(x);
    clear_words((uint16_t *)s, sizeof *s / sizeof(uint16_t));
    const xosera_paint_answer a =
        p->paint(&x->state, x->vram, x->vram_len, x->xr, x->xr_len, line, s->pixels, length);
    assert_adapter_equal(x, was);
    assert_stayed(s->before, ASIDE);
    assert_stayed(s->behind, ASIDE);
    adapter_free(was);
    return (xosera_refusal)a.refusal;
}
