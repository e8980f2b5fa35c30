//! The adapter of document 01 a second time, in plain Rust.
//!
//! This crate shares nothing with the library. It follows document 01 and the change requests alone, a
//! chapter or a request to a module, and says everything in the plainest way, nibble by nibble. The
//! crate `compare` runs both side by side.

mod beam;
mod blitter;
mod grey;
mod host;
mod paint;
mod saved;
mod state;
mod why;
mod xr;

pub use blitter::{words_left, Blitted};
pub use grey::{grey, level};
pub use paint::{Depth, Pixel, Source};
pub use state::{Blit, Refusal, State};
pub use why::{why, Account, Fate, Reach, Reasons};

/// Words of XR memory: tile 5,120, colour 512, copper 1,024.
pub const XR_WORDS: usize = 6656;

/// `XR_COPP_CTRL` among the XR registers.
const COPP_CTRL: usize = 0x01;

/// The status bit of the frame end.
const VIDEO: u8 = 1 << 4;

/// VRAM is a power of two of words from 256 to 65,536.
pub fn is_vram_len(words: usize) -> bool {
    (256..=65536).contains(&words) && words.is_power_of_two()
}

/// A VRAM address is taken modulo the length when memory is touched, never when stored.
fn place(addr: u16, words: usize) -> usize {
    addr as usize % words
}

/// Nibble `i` of a word, counted from the left: 0 is bits 15:12, 3 is bits 3:0.
const fn nibble(word: u16, i: u32) -> u16 {
    word >> (12 - 4 * i) & 0xF
}

/// Does bit 3 - i of a four-bit mask let nibble `i` through? Bit 3 guards bits 15:12.
fn lets(mask: u16, i: u32) -> bool {
    mask >> (3 - i) & 1 == 1
}

/// The old word with those nibbles of the new one that the mask lets through.
fn masked(old: u16, new: u16, mask: u16) -> u16 {
    (0..4).fold(0, |word, i| {
        word << 4 | nibble(if lets(mask, i) { new } else { old }, i)
    })
}
