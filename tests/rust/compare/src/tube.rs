//! The two calls that paint a line: in colours (change request 6), in levels of grey (7).

use model::level;
use xosera::ffi::{xosera_paint, xosera_paint_grey};
use xosera::State;

/// What a line is painted for.
#[derive(Clone, Copy, Debug, PartialEq, Eq)]
pub enum Tube {
    Colour,
    Grey,
}

impl Tube {
    /// What the lines that are printed of its call begin with.
    pub fn name(self) -> &'static str {
        match self {
            Tube::Colour => "paint",
            Tube::Grey => "grey",
        }
    }

    /// What is painted of a colour, by the request.
    pub fn shows(self, colour: u16) -> u16 {
        match self {
            Tube::Colour => colour,
            Tube::Grey => level(colour).into(),
        }
    }

    /// The library's call, with all that it is lent open to writes, which would be seen. The refusal.
    pub fn on_library(
        self,
        s: &mut State,
        vram: &mut [u16],
        xr: &mut [u16],
        line: u32,
        pixels: &mut [u16],
    ) -> u8 {
        let call = match self {
            Tube::Colour => xosera_paint,
            Tube::Grey => xosera_paint_grey,
        };
        let s: *mut State = s;
        let (v, vn, x, xn) = (vram.as_mut_ptr(), vram.len(), xr.as_mut_ptr(), xr.len());
        // SAFETY: as in the wrapper.
        unsafe { call(s, v, vn, x, xn, line, pixels.as_mut_ptr(), pixels.len()) }.refusal
    }

    /// The model's call.
    pub fn on_model(
        self,
        s: &model::State,
        vram: &[u16],
        xr: &[u16],
        line: u32,
        pixels: &mut [u16],
    ) -> Result<(), model::Refusal> {
        match self {
            Tube::Colour => s.paint(vram, xr, line, pixels),
            Tube::Grey => s.paint_grey(vram, xr, line, pixels),
        }
    }
}
