/* A small program for the board; see board_demo.c. */
#ifndef BOARD_DEMO_H
#define BOARD_DEMO_H

#include <stdint.h>

/* The screen: 160 by 120 pixels of four bits. The sprite: 10 by 6, its lines filled up to words. */
enum {
    DEMO_SCREEN = 0x0100,
    DEMO_LINE_WORDS = 40,
    DEMO_LINES = 120,
    DEMO_SPRITE = 0x4000,
    DEMO_SPRITE_WIDTH = 10,
    DEMO_SPRITE_WORDS = 3,
    DEMO_SPRITE_LINES = 6,
    DEMO_FONT = 0x4C00,
    DEMO_GLYPHS = 2,
    DEMO_COLOURS = 16,
    DEMO_BORDER = 8,
    DEMO_SPLIT_LINE = 240
};

extern const uint16_t demo_colours[DEMO_COLOURS];
extern const uint8_t demo_glyphs[DEMO_GLYPHS][8];
extern const uint16_t demo_sprite[DEMO_SPRITE_LINES][DEMO_SPRITE_WORDS];

/* What the interrupt handler has counted. */
extern volatile uint16_t demo_frames, demo_blits, demo_alarms;

void demo_display(void);
void demo_palette(void);
void demo_font(void);
void demo_load_sprite(void);
void demo_copper(void);
void demo_start_interrupts(void);
void demo_interrupt(void);

void demo_rectangle(uint16_t x, uint16_t y, uint16_t width, uint16_t height, uint16_t colour);
void demo_clear(uint16_t colour);
void demo_draw_sprite(uint16_t x, uint16_t y);
void demo_plot(uint16_t x, uint16_t y, uint16_t colour);
uint32_t demo_checksum(uint16_t at, uint16_t words);

void demo_wait_blits(void);
void demo_wait_visible(void);
void demo_wait_frame_end(void);
void demo_wait_left(void);
void demo_wait_line(uint16_t line);
void demo_wait_alarm(uint16_t tenths);
uint16_t demo_delay(uint16_t tenths);

#endif
