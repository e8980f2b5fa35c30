//! "The grey eyepiece": change request 7. The level of a colour by its rule, the table of all levels, and a
//! painted line taken through it.

use crate::{nibble, Refusal, State};

/// Colours 0xRGB.
const COLOURS: usize = 4096;

/// The level of each colour.
static LEVELS: [u8; COLOURS] = levels();

const fn levels() -> [u8; COLOURS] {
    let mut levels = [0; COLOURS];
    let mut colour = 0;
    while colour < COLOURS {
        levels[colour] = level(colour as u16);
        colour += 1;
    }
    levels
}

/// (299R + 587G + 114B + 500) / 1000 rounded down, of a colour 0xRGB. Its top four bits are ignored.
pub const fn level(colour: u16) -> u8 {
    let red = nibble(colour, 1) as u32;
    let green = nibble(colour, 2) as u32;
    let blue = nibble(colour, 3) as u32;
    ((299 * red + 587 * green + 114 * blue + 500) / 1000) as u8
}

/// The level of a colour by the table.
pub fn grey(colour: u16) -> u8 {
    LEVELS[usize::from(colour) % COLOURS]
}

impl State {
    /// Fill the pixels with the levels of a line.
    pub fn paint_grey(
        &self,
        vram: &[u16],
        xr: &[u16],
        line: u32,
        pixels: &mut [u16],
    ) -> Result<(), Refusal> {
        self.paint(vram, xr, line, pixels)?;
        for pixel in pixels {
            *pixel = grey(*pixel).into();
        }
        Ok(())
    }
}

#[cfg(test)]
mod tests {
    use super::*;
    use crate::XR_WORDS;

    /// 299 x 3 + 587 x 2 + 114 x 4 is 2,527: the level is 3.
    #[test]
    fn levels_worked_out_by_hand() {
        for (colour, level_of) in [
            (0x000, 0),
            (0x001, 0),
            (0x004, 0),
            (0x005, 1),
            (0x00F, 2),
            (0x010, 1),
            (0x0F0, 9),
            (0x100, 0),
            (0x200, 1),
            (0xF00, 4),
            (0x324, 3),
            (0xFF0, 13),
            (0xFFF, 15),
        ] {
            assert_eq!(level(colour), level_of, "{:03X}", colour);
        }
        for n in 0..16 {
            assert_eq!(u16::from(level(0x111 * n)), n);
        }
    }

    #[test]
    fn the_table_is_the_rule_whatever_the_top_four_bits() {
        for word in 0..=0xFFFF {
            assert_eq!(grey(word), level(word), "{:04X}", word);
            assert_eq!(grey(word), grey(word & 0x0FFF), "{:04X}", word);
        }
    }

    /// Eight bits a pixel: two of each, and the border behind them.
    #[test]
    fn a_grey_line_is_the_painted_line_in_levels() {
        let (mut s, mut vram, mut xr) = (State::reset(), [0; 256], [0; XR_WORDS]);
        (s.xreg[0x00], s.xreg[0x05], s.xreg[0x10]) = (3, 6, 0x0064);
        vram[..2].copy_from_slice(&[0x0102, 0x0000]);
        xr[5120..5124].copy_from_slice(&[0x70F0, 0x0FFF, 0xF200, 0x8324]);
        let mut pixels = [0x5A5A; 640];
        assert_eq!(s.paint_grey(&vram, &xr, 0, &mut pixels), Ok(()));
        assert_eq!(pixels[..7], [15, 15, 1, 1, 9, 9, 3]);
        assert_eq!(pixels[6..], [3; 634]);
    }

    #[test]
    fn a_refused_line_stays_as_it_was() {
        let (s, mut pixels) = (State::reset(), [0x5A5A; 640]);
        let answer = s.paint_grey(&[0; 256], &[0; XR_WORDS], 0, &mut pixels);
        assert_eq!(answer, Err(Refusal::NoBitmap));
        assert_eq!(pixels, [0x5A5A; 640]);
    }
}
