//! Safe Rust calls to `libxosera.a`, the model of the Xosera video adapter.
//!
//! The functions at the top level are the library's own fourteen calls, with the state and the memories
//! lent by reference.
//! [`Adapter`] owns a state and both memories and answers with `Result`.
//!
//! ```
//! use xosera::Adapter;
//!
//! let mut x = Adapter::new(65536);
//! x.write_word(xosera::XM_WR_INCR, 1)?;
//! x.write_word(xosera::XM_WR_ADDR, 0x1000)?;
//! let mask = x.write_word(xosera::XM_DATA, 0xBEEF)?;
//! assert_eq!((x.vram[0x1000], mask), (0xBEEF, 15));
//! # Ok::<(), xosera::Refusal>(())
//! ```

mod adapter;
mod layout;

pub use adapter::{Adapter, Blitted, Fate, Refusal};
pub use layout::*;

/// The calls as C has them.
pub mod ffi {
    use crate::layout::*;

    extern "C" {
        pub fn xosera_reset(s: *mut State);
        pub fn xosera_write_byte(
            s: *mut State,
            vram: *mut u16,
            vram_len: usize,
            xr: *mut u16,
            xr_len: usize,
            reg: u8,
            odd: bool,
            byte: u8,
        ) -> WriteAnswer;
        pub fn xosera_read_byte(
            s: *mut State,
            vram: *const u16,
            vram_len: usize,
            xr: *const u16,
            xr_len: usize,
            reg: u8,
            odd: bool,
        ) -> ReadAnswer;
        pub fn xosera_blit_step(
            s: *mut State,
            vram: *mut u16,
            vram_len: usize,
            xr: *const u16,
            xr_len: usize,
        ) -> BlitAnswer;
        pub fn xosera_blit_run(
            s: *mut State,
            vram: *mut u16,
            vram_len: usize,
            xr: *const u16,
            xr_len: usize,
            n: u64,
        ) -> BlitAnswer;
        pub fn xosera_timer_tick(s: *mut State) -> StateAnswer;
        pub fn xosera_beam_step(
            s: *mut State,
            vram: *const u16,
            vram_len: usize,
            xr: *mut u16,
            xr_len: usize,
        ) -> StateAnswer;
        pub fn xosera_interrupt_line(s: *const State) -> LineAnswer;
        pub fn xosera_save(
            s: *const State,
            vram: *const u16,
            vram_len: usize,
            xr: *const u16,
            xr_len: usize,
            room: *mut u8,
            room_len: usize,
        ) -> SaveAnswer;
        pub fn xosera_load(
            s: *mut State,
            vram: *mut u16,
            vram_len: usize,
            xr: *mut u16,
            xr_len: usize,
            file: *const u8,
            file_len: usize,
        ) -> LoadAnswer;
        pub fn xosera_why(
            regs: BlitRegs,
            before: *const u16,
            before_len: usize,
            work: *mut u16,
            work_len: usize,
            address: u32,
            nibble: u32,
        ) -> WhyAnswer;
        pub fn xosera_paint(
            s: *const State,
            vram: *const u16,
            vram_len: usize,
            xr: *const u16,
            xr_len: usize,
            line: u32,
            pixels: *mut u16,
            pixels_len: usize,
        ) -> PaintAnswer;
        pub fn xosera_grey(colour: u16) -> u8;
        pub fn xosera_paint_grey(
            s: *const State,
            vram: *const u16,
            vram_len: usize,
            xr: *const u16,
            xr_len: usize,
            line: u32,
            pixels: *mut u16,
            pixels_len: usize,
        ) -> PaintAnswer;
    }
}

// SAFETY, for every call below: the state is `repr(C)`, words and no padding; a slice is its pointer
// and its length, in words for a memory and for pixels, in bytes for a file and its room. All are lent
// for the call alone and, where they are `&mut`, to nobody else, so that none overlaps another that is
// written. The library takes slices of any length and any words as state.

/// Fill the state as after reset.
pub fn reset(s: &mut State) {
    unsafe { ffi::xosera_reset(s) }
}

/// The host writes the high (`odd` false) or low byte of main register `reg`.
pub fn write_byte(
    s: &mut State,
    vram: &mut [u16],
    xr: &mut [u16],
    reg: u8,
    odd: bool,
    byte: u8,
) -> WriteAnswer {
    let (v, vn) = (vram.as_mut_ptr(), vram.len());
    unsafe { ffi::xosera_write_byte(s, v, vn, xr.as_mut_ptr(), xr.len(), reg, odd, byte) }
}

/// The host reads the high (`odd` false) or low byte of main register `reg`.
pub fn read_byte(s: &mut State, vram: &[u16], xr: &[u16], reg: u8, odd: bool) -> ReadAnswer {
    let (v, vn) = (vram.as_ptr(), vram.len());
    unsafe { ffi::xosera_read_byte(s, v, vn, xr.as_ptr(), xr.len(), reg, odd) }
}

/// The blitter does one word.
pub fn blit_step(s: &mut State, vram: &mut [u16], xr: &[u16]) -> BlitAnswer {
    unsafe { ffi::xosera_blit_step(s, vram.as_mut_ptr(), vram.len(), xr.as_ptr(), xr.len()) }
}

/// The blitter does up to `n` words.
pub fn blit_run(s: &mut State, vram: &mut [u16], xr: &[u16], n: u64) -> BlitAnswer {
    unsafe { ffi::xosera_blit_run(s, vram.as_mut_ptr(), vram.len(), xr.as_ptr(), xr.len(), n) }
}

/// A tenth of a millisecond passes.
pub fn timer_tick(s: &mut State) -> StateAnswer {
    unsafe { ffi::xosera_timer_tick(s) }
}

/// The beam moves on by one native pixel, and a running copper does one instruction.
pub fn beam_step(s: &mut State, vram: &[u16], xr: &mut [u16]) -> StateAnswer {
    let (v, vn) = (vram.as_ptr(), vram.len());
    unsafe { ffi::xosera_beam_step(s, v, vn, xr.as_mut_ptr(), xr.len()) }
}

/// Is the interrupt line up?
pub fn interrupt_line(s: &State) -> LineAnswer {
    unsafe { ffi::xosera_interrupt_line(s) }
}

/// Write the adapter's file (docs/SAVED.md) at the front of the room.
pub fn save(s: &State, vram: &[u16], xr: &[u16], room: &mut [u8]) -> SaveAnswer {
    let (v, vn, x, xn) = (vram.as_ptr(), vram.len(), xr.as_ptr(), xr.len());
    unsafe { ffi::xosera_save(s, v, vn, x, xn, room.as_mut_ptr(), room.len()) }
}

/// Become the adapter whose file this is.
pub fn load(s: &mut State, vram: &mut [u16], xr: &mut [u16], file: &[u8]) -> LoadAnswer {
    let (v, vn, x, xn) = (vram.as_mut_ptr(), vram.len(), xr.as_mut_ptr(), xr.len());
    unsafe { ffi::xosera_load(s, v, vn, x, xn, file.as_ptr(), file.len()) }
}

/// Why a nibble, 0 to 3 from the left, of the word at this address is as the blit of these registers,
/// begun on the memory before, leaves it. The second memory ends as the blit leaves it.
pub fn why(
    regs: BlitRegs,
    before: &[u16],
    work: &mut [u16],
    address: u32,
    nibble: u32,
) -> WhyAnswer {
    let (b, bn, w, wn) = (before.as_ptr(), before.len(), work.as_mut_ptr(), work.len());
    unsafe { ffi::xosera_why(regs, b, bn, w, wn, address, nibble) }
}

/// Fill 640 words with the colours of playfield A on a visible line, 0 to 479.
pub fn paint(s: &State, vram: &[u16], xr: &[u16], line: u32, pixels: &mut [u16]) -> PaintAnswer {
    let (v, vn, x, xn) = (vram.as_ptr(), vram.len(), xr.as_ptr(), xr.len());
    unsafe { ffi::xosera_paint(s, v, vn, x, xn, line, pixels.as_mut_ptr(), pixels.len()) }
}

/// The level, 0 to 15, of a colour 0xRGB on a monochrome tube. Bits 15:12 are ignored.
pub fn grey(colour: u16) -> u8 {
    unsafe { ffi::xosera_grey(colour) }
}

/// The same as [`paint`], with the level of each colour in its place.
pub fn paint_grey(
    s: &State,
    vram: &[u16],
    xr: &[u16],
    line: u32,
    pixels: &mut [u16],
) -> PaintAnswer {
    let (v, vn, x, xn) = (vram.as_ptr(), vram.len(), xr.as_ptr(), xr.len());
    unsafe { ffi::xosera_paint_grey(s, v, vn, x, xn, line, pixels.as_mut_ptr(), pixels.len()) }
}
