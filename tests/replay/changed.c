/*
 * The library's calls with one rule changed, RULE. The library's own have the names real_..., as
 * run.sh makes them.
 */
#include "xosera/calls.h"

xosera_blit_answer real_blit_step(xosera_state *s, uint16_t *vram, size_t vram_len,
                                  const uint16_t *xr, size_t xr_len);
xosera_blit_answer real_blit_run(xosera_state *s, uint16_t *vram, size_t vram_len,
                                 const uint16_t *xr, size_t xr_len, uint64_t n);
xosera_read_answer real_read_byte(xosera_state *s, const uint16_t *vram, size_t vram_len,
                                  const uint16_t *xr, size_t xr_len, uint8_t reg, bool odd);
xosera_write_answer real_write_byte(xosera_state *s, uint16_t *vram, size_t vram_len, uint16_t *xr,
                                    size_t xr_len, uint8_t reg, bool odd, uint8_t byte);
xosera_state_answer real_timer_tick(xosera_state *s);

enum {
    NO_RULE,
    WHOLE_RIGHT_EDGE,
    EMPTY_AT_A_LINE,
    SILENT_END,
    WHOLE_WORDS,
    LIVE_READS,
    DOUBLE_TICKS
};

/* A step without the right edge mask, with the shifter emptied at a line's end, or without the
 * interrupt at a blit's. */
xosera_blit_answer xosera_blit_step(xosera_state *s, uint16_t *vram, size_t vram_len,
                                    const uint16_t *xr, size_t xr_len)
{
    const xosera_engine was = s->engine;
    const uint16_t status = s->status;
    const bool blit_ends = was.line == was.regs.lines && was.word == was.regs.words;
    if (RULE == WHOLE_RIGHT_EDGE && was.running) {
        s->engine.regs.shift |= 0x0F00;
    }
    const xosera_blit_answer a = real_blit_step(s, vram, vram_len, xr, xr_len);
    if (was.running && !blit_ends) {
        s->engine.regs.shift = was.regs.shift;
    }
    if (RULE == EMPTY_AT_A_LINE && s->engine.word == 0) {
        s->engine.kept = 0;
    }
    if (RULE == SILENT_END) {
        s->status = status;
    }
    return a;
}

/* A run is its steps. */
xosera_blit_answer xosera_blit_run(xosera_state *s, uint16_t *vram, size_t vram_len,
                                   const uint16_t *xr, size_t xr_len, uint64_t n)
{
    xosera_blit_answer all = real_blit_run(s, vram, vram_len, xr, xr_len, 0);
    bool goes_on = all.refusal == XOSERA_DONE && n != 0;
    while (goes_on) {
        const xosera_blit_answer a = xosera_blit_step(s, vram, vram_len, xr, xr_len);
        all.refusal = a.refusal;
        all.mask = a.count != 0 ? a.mask : all.mask;
        all.count += a.count;
        goes_on = a.count != 0 && all.count < n;
    }
    return all;
}

/* A data write stores whole words, and answers as if it had not. */
xosera_write_answer xosera_write_byte(xosera_state *s, uint16_t *vram, size_t vram_len,
                                      uint16_t *xr, size_t xr_len, uint8_t reg, bool odd,
                                      uint8_t byte)
{
    const uint16_t mask = s->host.vram.wr_mask;
    const bool whole = RULE == WHOLE_WORDS && odd && (reg == XM_DATA || reg == XM_DATA_2);
    s->host.vram.wr_mask = whole ? mask | 0xF : mask;
    xosera_write_answer a = real_write_byte(s, vram, vram_len, xr, xr_len, reg, odd, byte);
    if (whole) {
        s->host.vram.wr_mask = mask;
        a.mask = a.refusal == XOSERA_DONE ? (uint8_t)mask : 0;
    }
    return a;
}

/* A data read gives VRAM as it is, not the loaded buffer. */
xosera_read_answer xosera_read_byte(xosera_state *s, const uint16_t *vram, size_t vram_len,
                                    const uint16_t *xr, size_t xr_len, uint8_t reg, bool odd)
{
    const bool data = reg == XM_DATA || reg == XM_DATA_2;
    if (RULE == LIVE_READS && data && vram_len != 0) {
        s->host.vram.rd_data = vram[s->host.vram.rd_addr.word % vram_len];
    }
    return real_read_byte(s, vram, vram_len, xr, xr_len, reg, odd);
}

/* The timer ticks twice. */
xosera_state_answer xosera_timer_tick(xosera_state *s)
{
    if (RULE == DOUBLE_TICKS) {
        (void)real_timer_tick(s);
    }
    return real_timer_tick(s);
}
