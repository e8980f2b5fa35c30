/* examples/cross: the cross at every place and of every width, pixel by pixel; why each pixel is as
 * it is. */
#define main cross_main
#include "../../examples/cross/cross.c"
#undef main
#include "tests.h"

static void assert_cross(int x, int y, int width)
{
    for (int i = 0; i < FIELD_W * FIELD_H; i++) {
        const int column = i % FIELD_W - x, row = i / FIELD_W - y;
        const bool inside = 0 <= column && column < width && 0 <= row && row < CROSS_H;
        const int want = inside && inked(column, row, even_width(width)) ? 0xF : 0x0;
        if (pixel(FIELD, i % FIELD_W, i / FIELD_W) != want) {
            fail_msg("cross %d %d %d: column %d of row %d should be %X", x, y, width, column, row,
                     (unsigned)want);
        }
    }
}

static void the_cross_is_right_everywhere(void **state)
{
    (void)state;
    xosera adapter;
    xosera_attach(&adapter, vram, XOSERA_VRAM_MAX, xr, XOSERA_XR_WORDS);
    adapter.on_refusal = xosera_abort_on_refusal;
    xosera *const before = xosera_use(&adapter);
    for (int width = 1; width <= FIELD_W; width++) {
        store_picture(even_width(width));
        for (int x = 0; x <= FIELD_W - even_width(width); x++) {
            for (int y = 0; y <= FIELD_H - CROSS_H; y++) {
                memset(vram + FIELD, 0, PITCH * FIELD_H * sizeof vram[0]);
                draw_cross(FIELD, x, y, width, width);
                xwait_blit_done();
                assert_cross(x, y, width);
            }
        }
    }
    xosera_use(before);
}

/* One pixel of a drawing on a dark field: lit if and only if it was written, and never reached
 * beside the words of the blit. */
static void assert_why(drawing d, const options *o)
{
    const int column = o->why_x / 4 - o->x / 4, row = o->why_y - o->y;
    const int words = (o->x % 4 + o->width + 3) / 4;
    const bool reached = 0 <= column && column < words && 0 <= row && row < CROSS_H;
    memset(vram + d.field, 0, PITCH * FIELD_H * sizeof vram[0]);
    draw(&d, o);
    const bool lit = pixel(d.field, o->why_x, o->why_y) != 0;
    assert_int_equal(d.why.fate, lit       ? XOSERA_WRITTEN
                                 : reached ? XOSERA_HELD_BACK
                                           : XOSERA_NEVER_REACHED);
}

static void each_pixel_has_its_reason(void **state)
{
    (void)state;
    xosera adapter;
    xosera_attach(&adapter, vram, XOSERA_VRAM_MAX, xr, XOSERA_XR_WORDS);
    adapter.on_refusal = xosera_abort_on_refusal;
    xosera *const before = xosera_use(&adapter);
    options o = {.why = true, .x = 10, .y = 1, .width = 21};
    store_picture(even_width(o.width));
    for (int i = 0; i < FIELD_W * FIELD_H; i++) {
        o.why_x = i % FIELD_W;
        o.why_y = i / FIELD_W;
        assert_why((drawing){.field = FIELD, .mask_width = o.width}, &o);
        assert_why((drawing){.field = FAULTY, .mask_width = even_width(o.width)}, &o);
    }
    xosera_use(before);
}

int cross_group(int *tests)
{
    const struct CMUnitTest list[] = {
        cmocka_unit_test(the_cross_is_right_everywhere),
        cmocka_unit_test(each_pixel_has_its_reason),
    };
    return RUN_GROUP("examples/cross", list, tests);
}
