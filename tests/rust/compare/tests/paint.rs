//! A line painted (change request 6): the library against the plain model, at once and pixel by pixel, at
//! every edge that the request has; against itself, where one picture follows from another; and what is
//! refused.
//!
//! XOSERA_SEED=n gives an earlier run's lines again.

use compare::calls::{Calls, VRAM_LENGTHS};
use compare::convert::in_range;
use compare::paint::{self, line, paintable, Cases, BLANK, EIGHT_BITS, FOUR_BITS};
use compare::playfield::{adapter, coloured, pairs, windowed, with, DEPTHS, H_REPEATS};
use compare::playfield::{all_bases, all_edges, all_repeats, any_lines};
use compare::refused::{first_refusals, lines_and_lengths};
use compare::tube::Tube;
use xosera::{Adapter, State, SCREEN_WIDTH, STATE_WORDS, VISIBLE_LINES, XR_COLOUR_AT};

/// The words of the state that painting goes by: `VID_CTRL`, `VID_LEFT`, `VID_RIGHT`, `GFX_CTRL`,
/// `DISP_ADDR`, `LINE_LEN`.
const PART: [usize; 6] = [46, 49, 50, 51, 53, 54];

fn painted(x: &Adapter, at: u32) -> Vec<u16> {
    paint::painted(Tube::Colour, x, at)
}

fn no_cases() -> Cases {
    Cases::of(Tube::Colour)
}

/// Colour `i` is 0xC000 + i. Window from 3 to 14, H repeat 2, V repeat 3: line 7 is in row 2, which starts
/// at 0xFFF0 + 2 x 8, so at 0. The border is 5E, the base A6.
#[test]
fn lines_worked_out_by_hand() {
    let mut x = adapter(256);
    coloured(&mut x, 0xC000);
    x.vram[..3].copy_from_slice(&[0x1234, 0x5678, 0x9ABC]);
    x.state.video.vid_ctrl = 0xFF5E;
    let mut shows = |gfx: u16, window: [u8; 11]| {
        with(&mut x, gfx, 0xFFF0, 8);
        windowed(&mut x, 3, 14);
        let mut line = [0xC05E; SCREEN_WIDTH];
        for (pixel, index) in line[3..].iter_mut().zip(window) {
            *pixel = 0xC000 + u16::from(index);
        }
        assert_eq!(painted(&x, 7), line, "{:04X}", gfx);
    };
    let four = [1, 1, 2, 2, 3, 3, 4, 4, 5, 5, 6].map(|nibble| 0xA0 + nibble);
    shows(0xA656, four);
    let eight = [
        0x12, 0x12, 0x34, 0x34, 0x56, 0x56, 0x78, 0x78, 0x9A, 0x9A, 0xBC,
    ];
    shows(0xA666, eight);
    with(&mut x, 0xA686, 0xFFF0, 8);
    assert_eq!(painted(&x, 7), [0xC0F8; SCREEN_WIDTH]);
}

#[test]
fn every_line_is_painted_at_every_repeat() {
    let mut cases = no_cases();
    all_repeats(|x| {
        for at in 0..VISIBLE_LINES {
            line(x, at, &mut cases);
        }
    });
    assert_eq!(cases.lines(), 2 * 16 * 480);
    cases.say("both depths, 16 repeats, 480 lines");
}

/// Each edge at every pixel and a few beyond, with the other at several.
#[test]
fn a_window_can_begin_and_end_at_every_pixel() {
    let mut x = adapter(1024);
    x.state.video.vid_ctrl = 0x0047;
    let mut cases = no_cases();
    for (depth, h_repeat) in pairs(&DEPTHS, &H_REPEATS) {
        with(&mut x, 0x9600 | depth | h_repeat, 0, 0);
        for edge in 0..=645 {
            for right in [640, 321, 65535] {
                windowed(&mut x, edge, right);
                line(&x, 0, &mut cases);
            }
            for left in [0, 7] {
                windowed(&mut x, left, edge);
                line(&x, 0, &mut cases);
            }
        }
    }
    cases.say("windows with an edge at every pixel");
}

#[test]
fn edges_are_compared_as_16_bit_numbers() {
    let mut cases = no_cases();
    all_edges(|x, border, none| {
        let pixels = line(x, 0, &mut cases);
        assert_eq!(none, pixels == [border; SCREEN_WIDTH]);
    });
    cases.say("pairs of edges");
}

/// Starts and lengths near the ends of VRAM and of 65,536, in every VRAM.
#[test]
fn rows_wrap() {
    let starts = [0, 1, 254, 255, 256, 32700, 32768, 65380, 65534, 65535];
    let lengths = [0, 1, 2, 80, 160, 255, 320, 32767, 32768, 65534, 65535];
    let lines = [0, 1, 2, 3, 4, 5, 100, 239, 240, 477, 478, 479];
    let mut cases = no_cases();
    for vram in VRAM_LENGTHS {
        let mut x = adapter(vram);
        for (start, length) in pairs(&starts, &lengths) {
            for (at, v_repeat) in pairs(&lines, &[0, 1, 2, 3]) {
                let depth = DEPTHS[usize::from(start % 2 == length % 2)];
                with(&mut x, depth | v_repeat, start, length);
                line(&x, at, &mut cases);
            }
        }
    }
    for name in [
        "a row that starts beyond 65,535",
        "a row from 65,535 to 0",
        "a row beyond the length",
        "a row over the length",
        "LINE_LEN 0",
    ] {
        assert!(cases.number(name) > 100, "{}", name);
    }
    cases.say("rows that wrap, in nine lengths of VRAM");
}

/// Every 331st address and those near 65,536: each word of the row is at its address modulo the length.
#[test]
fn a_row_can_start_anywhere() {
    for vram in VRAM_LENGTHS {
        let mut x = adapter(vram);
        coloured(&mut x, 0xC000);
        for start in (0..=65535).step_by(331).chain(65200..=65535) {
            with(&mut x, EIGHT_BITS, start, 0x4321);
            let words = (0..320).map(|i| x.vram[(usize::from(start) + i) % 65536 % vram]);
            let bytes = words.flat_map(u16::to_be_bytes);
            let colours: Vec<u16> = bytes.map(|byte| 0xC000 + u16::from(byte)).collect();
            assert_eq!(painted(&x, 0), colours, "{} words, {}", vram, start);
        }
    }
}

/// Every base with every border: the index under blank, whatever the other bits.
#[test]
fn blank_shows_the_border_xor_the_base() {
    let mut x = adapter(256);
    let mut lines = 0;
    for base in 0..256u16 {
        for border in 0..256u16 {
            let others = (base ^ (7 * border)) & 0x7F;
            with(&mut x, base << 8 | BLANK | others, 0, 160);
            windowed(&mut x, border, 3 * base);
            x.state.video.vid_ctrl = border | !base << 8;
            let colour = x.xr[XR_COLOUR_AT + usize::from(base ^ border)];
            let pixels = painted(&x, u32::from(border) + lines % 200);
            assert!(pixels == [colour; SCREEN_WIDTH], "{:X?}", x.state.video);
            lines += 1;
        }
    }
    println!("paint: blank: {} pairs of base and border", lines);
}

#[test]
fn every_index_is_shown() {
    let mut cases = no_cases();
    all_bases(|x| {
        line(x, 1, &mut cases);
    });
    assert_eq!(cases.indices(), [256; 4]);
    cases.say("every base, with each index of blank, border, four bits, eight bits");
}

/// All words of `GFX_CTRL`: what is refused with 11, and what is painted by the others.
#[test]
fn every_gfx_ctrl_is_painted_or_refused() {
    let mut x = adapter(256);
    let mut cases = no_cases();
    let mut refused = 0;
    for gfx in 0..=0xFFFF {
        with(&mut x, gfx, 0x00F0, 40);
        windowed(&mut x, 11, 611);
        let (blank, bitmap, depth) = (gfx & 0x80 != 0, gfx & 0x40 != 0, gfx >> 4 & 3);
        let refuses = !blank && (!bitmap || depth == 0 || depth == 3);
        assert_eq!(refuses, !paintable(gfx));
        if refuses {
            let (refusal, _) = paint::paint(Tube::Colour, &x, 5, SCREEN_WIDTH);
            assert_eq!(refusal, 11, "{:04X}", gfx);
            refused += 1;
        } else {
            line(&x, 5, &mut cases);
        }
    }
    assert_eq!((refused, cases.lines()), (24_576, 40_960));
    cases.say("every GFX_CTRL, 24576 refused");
}

/// Line `n` is line 0 of a playfield that starts at its row.
#[test]
fn a_line_is_the_first_of_another_start() {
    let mut x = adapter(65536);
    for (v_repeat, (start, length)) in pairs(
        &[1, 2, 3, 4],
        &[(0, 160), (0xFFFF, 1), (0x8000, 0xFFFF), (12345, 54321)],
    ) {
        for at in 0..VISIBLE_LINES {
            with(&mut x, FOUR_BITS | (v_repeat - 1) as u16, start, length);
            let pixels = painted(&x, at);
            let row = u32::from(start) + at / v_repeat * u32::from(length);
            with(&mut x, FOUR_BITS, (row % 65536) as u16, length);
            assert!(painted(&x, 0) == pixels, "line {}", at);
        }
    }
}

/// A window further right shows the same, further right.
#[test]
fn pixels_count_from_the_windows_left() {
    let mut x = adapter(1024);
    for (depth, h_repeat) in pairs(&DEPTHS, &H_REPEATS) {
        with(&mut x, depth | h_repeat, 0x0123, 0);
        let whole = painted(&x, 0);
        for left in 0..640 {
            windowed(&mut x, left, 640);
            let (border, moved) = (x.xr[XR_COLOUR_AT], usize::from(left));
            let pixels = painted(&x, 0);
            assert!(pixels[moved..] == whole[..640 - moved], "{}", left);
            assert!(pixels[..moved].iter().all(|&pixel| pixel == border));
        }
    }
}

/// Each word of the state that has no part in painting, over and over with other words within its ranges;
/// the upper byte of `VID_CTRL`; all XR memory but 256 colours; all words of VRAM beside the row, which at
/// V repeat 2 is row 2 and at 3 row 1, 150 words that start at 460 and at 380.
#[test]
fn nothing_else_has_a_part() {
    let mut calls = Calls::seeded();
    let mut x = adapter(1024);
    let mut changed = [0; STATE_WORDS];
    for (gfx, row) in [(0x7A51, 460..610), (0x7A66, 380..530), (0x7A80, 0..0)] {
        for _ in 0..1_000 {
            with(&mut x, gfx, 300, 80);
            windowed(&mut x, 20, 620);
            x.state.video.vid_ctrl = 0x0099;
            let pixels = painted(&x, 5);
            let mut other = calls.state_in_range();
            let mut words = *other.words();
            for number in PART {
                words[number] = x.state.words()[number];
            }
            words[PART[0]] |= calls.random().word() & 0xFF00;
            other = State::from_words(words);
            for (number, n) in changed.iter_mut().enumerate() {
                *n += u32::from(other.words()[number] != x.state.words()[number]);
            }
            assert!(in_range(other.words()));
            let mut y = Adapter {
                state: other,
                ..x.clone()
            };
            for (at, word) in y.xr.iter_mut().enumerate() {
                if !(XR_COLOUR_AT..XR_COLOUR_AT + 256).contains(&at) {
                    *word = calls.random().word();
                }
            }
            for (at, word) in y.vram.iter_mut().enumerate() {
                if !row.contains(&at) {
                    *word = calls.random().word();
                }
            }
            assert!(painted(&y, 5) == pixels, "{:X?}", y.state);
        }
    }
    for (number, n) in changed.into_iter().enumerate() {
        let part = PART[1..].contains(&number);
        assert_eq!(part, n == 0, "word {}", number);
    }
    println!("paint: no part of {} state words", STATE_WORDS - PART.len());
}

#[test]
fn any_line_is_painted() {
    let mut cases = no_cases();
    any_lines(|x, at| {
        line(x, at, &mut cases);
    });
    cases.report("random lines");
}

#[test]
fn the_first_refusal_is_given_and_changes_nothing() {
    first_refusals(Tube::Colour);
}

#[test]
fn only_visible_lines_of_640_words_are_painted() {
    lines_and_lengths(Tube::Colour);
}
