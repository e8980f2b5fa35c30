//! Adapters whose lines are painted.

use xosera::{Adapter, SCREEN_WIDTH, VISIBLE_LINES, XR_COLOUR_AT};

use crate::calls::{Calls, VRAM_LENGTHS};
use crate::paint::{paintable, BLANK, DISP_ADDR, EIGHT_BITS, FOUR_BITS, GFX_CTRL, LINE_LEN};

pub const DEPTHS: [u16; 2] = [FOUR_BITS, EIGHT_BITS];

/// `GFX_CTRL` 3:2 for each H repeat.
pub const H_REPEATS: [u16; 4] = [0, 4, 8, 12];

/// How many random lines there are.
const ANY_LINES: usize = 40_000;

/// `VID_LEFT` and `VID_RIGHT` near and far, as 16-bit numbers.
const EDGES: [u16; 27] = [
    0, 1, 2, 3, 4, 5, 127, 128, 255, 256, 257, 319, 320, 511, 512, 513, 638, 639, 640, 641, 642,
    848, 1023, 32767, 32768, 65534, 65535,
];

/// A reset adapter. No two words of VRAM are equal, and no two of XR memory.
pub fn adapter(vram: usize) -> Adapter {
    let mut x = Adapter::new(vram);
    for (i, word) in (0..=0xFFFFu16).zip(&mut x.vram) {
        *word = i.wrapping_mul(40503) ^ 0x1B2D;
    }
    for (i, word) in (0..).zip(&mut x.xr) {
        *word = 40503u16.wrapping_mul(i);
    }
    x
}

/// The adapter with this `GFX_CTRL`, rows of this start and length, in the whole line.
pub fn with(x: &mut Adapter, gfx: u16, start: u16, length: u16) {
    let video = &mut x.state.video;
    video.pa[GFX_CTRL] = gfx;
    (video.pa[DISP_ADDR], video.pa[LINE_LEN]) = (start, length);
    (video.vid_left, video.vid_right) = (0, SCREEN_WIDTH as u16);
}

pub fn windowed(x: &mut Adapter, left: u16, right: u16) {
    (x.state.video.vid_left, x.state.video.vid_right) = (left, right);
}

/// The adapter with 256 colours from this word up.
pub fn coloured(x: &mut Adapter, first: u16) {
    for (i, colour) in (0..256).zip(&mut x.xr[XR_COLOUR_AT..]) {
        *colour = first + i;
    }
}

/// Each of these with each of those.
pub fn pairs<T: Copy, U: Copy>(these: &[T], those: &[U]) -> Vec<(T, U)> {
    let with_each = |&this: &T| those.iter().map(move |&that| (this, that));
    these.iter().flat_map(with_each).collect()
}

/// Both depths, all repeats, in a window.
pub fn all_repeats(mut each: impl FnMut(&Adapter)) {
    let mut x = adapter(4096);
    for (depth, repeats) in pairs(&DEPTHS, &(0..16).collect::<Vec<u16>>()) {
        with(&mut x, 0x3500 | depth | repeats, 0xFF00, 160);
        windowed(&mut x, 2, 637);
        each(&x);
    }
}

/// All pairs of edges: windows, none where left is not below right, and some beyond the line. The colour of
/// the border, and whether there is no window.
pub fn all_edges(mut each: impl FnMut(&Adapter, u16, bool)) {
    let mut x = adapter(1024);
    x.state.video.vid_ctrl = 0x0047;
    let border = x.xr[XR_COLOUR_AT + 0x47];
    for (depth, h_repeat) in pairs(&DEPTHS, &H_REPEATS) {
        with(&mut x, depth | h_repeat, 0x1234, 0);
        for (left, right) in pairs(&EDGES, &EDGES) {
            windowed(&mut x, left, right);
            each(&x, border, left >= right || left >= 640);
        }
    }
}

/// Every base, at both depths between borders of every index, and blank.
pub fn all_bases(mut each: impl FnMut(&Adapter)) {
    let mut x = adapter(1024);
    for base in 0..256 {
        for (gfx, border) in [(FOUR_BITS, base), (EIGHT_BITS, base), (BLANK, 0x5A)] {
            with(&mut x, base << 8 | gfx, 5 * base, 160);
            windowed(&mut x, 1, 639);
            x.state.video.vid_ctrl = 0xA500 | border;
            each(&x);
        }
    }
}

/// Random registers in random states, on lines and memories of any kind.
pub fn any_lines(mut each: impl FnMut(&Adapter, u32)) {
    let mut calls = Calls::seeded();
    let mut memory = adapter(65536);
    for i in 0..ANY_LINES {
        if i % 200 == 0 {
            let r = calls.random();
            for word in memory.vram.iter_mut().chain(&mut memory.xr) {
                *word = r.word();
            }
        }
        let mut state = calls.state_in_range();
        state.video = calls.display(state.video);
        if !paintable(state.video.pa[GFX_CTRL]) {
            state.video.pa[GFX_CTRL] |= BLANK;
        }
        let vram = calls.random().pick(&VRAM_LENGTHS);
        let x = Adapter {
            state,
            vram: memory.vram[..vram].to_vec(),
            xr: memory.xr.clone(),
        };
        each(&x, calls.scanline().0 % VISIBLE_LINES);
    }
}
