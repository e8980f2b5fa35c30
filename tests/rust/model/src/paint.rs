//! "Paint a scanline": change request 6. Where each pixel of a line has its colour from, one pixel at a
//! time, and the whole line at once.

use crate::{nibble, place, Refusal, State};

/// The lines that can be painted, and the pixels of each.
const LINES: u32 = 480;
const PIXELS: usize = 640;

/// The first half of colour memory, behind the tiles.
const COLOURS_AT: usize = 5120;
const COLOURS: usize = 256;

/// Registers among the XR registers.
const VID_CTRL: usize = 0x00;
const VID_LEFT: usize = 0x04;
const VID_RIGHT: usize = 0x05;
const GFX_CTRL: usize = 0x10;
const DISP_ADDR: usize = 0x12;
const LINE_LEN: usize = 0x13;

/// The bits of a bitmap's pixel.
#[derive(Clone, Copy, Debug, PartialEq, Eq)]
pub enum Depth {
    Four,
    Eight,
}

impl Depth {
    /// The pixels in a word.
    fn in_a_word(self) -> u16 {
        match self {
            Depth::Four => 4,
            Depth::Eight => 2,
        }
    }
}

/// `GFX_CTRL` by its fields.
struct Gfx {
    base: u8,
    blank: bool,
    /// Nothing where there is no bitmap, or one of another depth.
    depth: Option<Depth>,
    h_repeat: u16,
    v_repeat: u16,
}

impl Gfx {
    fn of(word: u16) -> Gfx {
        let bitmap = word >> 6 & 1 == 1;
        let depth = match word >> 4 & 3 {
            1 => Some(Depth::Four),
            2 => Some(Depth::Eight),
            _ => None,
        };
        Gfx {
            base: (word >> 8) as u8,
            blank: word >> 7 & 1 == 1,
            depth: depth.filter(|_| bitmap),
            h_repeat: (word >> 2 & 3) + 1,
            v_repeat: (word & 3) + 1,
        }
    }

    /// The index of pixel `i` of a word, the one of the high bits first.
    fn index(&self, depth: Depth, word: u16, i: u16) -> u8 {
        match depth {
            Depth::Four => self.base & 0xF0 | nibble(word, i.into()) as u8,
            Depth::Eight => word.to_be_bytes()[usize::from(i)],
        }
    }
}

/// Where a pixel's colour comes from.
#[derive(Clone, Copy, Debug, PartialEq, Eq)]
pub enum Source {
    /// The playfield is blank.
    Blank,
    /// The pixel is outside the window.
    Border,
    /// It shows the bitmap's pixel of this number, from 0 at the window's left, of the word at this address.
    Bitmap {
        depth: Depth,
        number: u16,
        address: u16,
    },
}

/// A pixel of a line, and its colour's index.
#[derive(Clone, Copy, Debug, PartialEq, Eq)]
pub struct Pixel {
    pub source: Source,
    pub index: u8,
}

impl State {
    /// Pixel `x` of a line, sentence by sentence. The line can be painted.
    pub fn pixel(&self, vram: &[u16], line: u32, x: u16) -> Pixel {
        let gfx = Gfx::of(self.xreg[GFX_CTRL]);
        let border = self.border();
        if gfx.blank {
            return Pixel {
                source: Source::Blank,
                index: border ^ gfx.base,
            };
        }
        let (left, right) = (self.xreg[VID_LEFT], self.xreg[VID_RIGHT]);
        if x < left || x >= right {
            return Pixel {
                source: Source::Border,
                index: border,
            };
        }
        let depth = gfx.depth.expect("a line that can be painted");
        let number = (x - left) / gfx.h_repeat;
        let (word, i) = (number / depth.in_a_word(), number % depth.in_a_word());
        let address = self.row(line).wrapping_add(word);
        Pixel {
            source: Source::Bitmap {
                depth,
                number,
                address,
            },
            index: gfx.index(depth, vram[place(address, vram.len())], i),
        }
    }

    /// The index of the border's colour.
    fn border(&self) -> u8 {
        (self.xreg[VID_CTRL] % 256) as u8
    }

    /// The address at which the row of a line starts.
    fn row(&self, line: u32) -> u16 {
        let gfx = Gfx::of(self.xreg[GFX_CTRL]);
        let (start, length) = (self.xreg[DISP_ADDR], self.xreg[LINE_LEN]);
        let rows = line / u32::from(gfx.v_repeat);
        start.wrapping_add((rows as u16).wrapping_mul(length))
    }

    /// Fill the pixels with the colours of a line.
    #[inline] // into both calls that paint, each one function
    pub fn paint(
        &self,
        vram: &[u16],
        xr: &[u16],
        line: u32,
        pixels: &mut [u16],
    ) -> Result<(), Refusal> {
        self.check(vram, xr)?;
        let gfx = Gfx::of(self.xreg[GFX_CTRL]);
        if !gfx.blank && gfx.depth.is_none() {
            return Err(Refusal::NoBitmap);
        }
        if line >= LINES {
            return Err(Refusal::NoLine);
        }
        if pixels.len() != PIXELS {
            return Err(Refusal::PixelsLength);
        }
        let colours = &xr[COLOURS_AT..COLOURS_AT + COLOURS];
        let colour = |index: u8| colours[usize::from(index)];
        match gfx.depth {
            Some(depth) if !gfx.blank => {
                pixels.fill(colour(self.border()));
                let left = usize::from(self.xreg[VID_LEFT]).min(PIXELS);
                let right = usize::from(self.xreg[VID_RIGHT]).clamp(left, PIXELS);
                let (wide, in_a_word) = (usize::from(gfx.h_repeat), depth.in_a_word());
                let mut address = self.row(line);
                for shown in pixels[left..right].chunks_mut(wide * usize::from(in_a_word)) {
                    let word = vram[place(address, vram.len())];
                    for (i, pixel) in (0..).zip(shown.chunks_mut(wide)) {
                        pixel.fill(colour(gfx.index(depth, word, i)));
                    }
                    address = address.wrapping_add(1);
                }
            }
            _ => pixels.fill(colour(self.border() ^ gfx.base)),
        }
        Ok(())
    }
}

#[cfg(test)]
mod tests {
    use super::*;
    use crate::XR_WORDS;

    /// XR memory in which no two words are equal. Colour `i` of the first half is 0xC000 + i.
    fn colours() -> Vec<u16> {
        let at = |word: usize| (0xC000 - COLOURS_AT + word) as u16;
        (0..XR_WORDS).map(at).collect()
    }

    /// A state with these registers, for the whole line.
    fn playfield(gfx: u16, start: u16, length: u16) -> State {
        let mut s = State::reset();
        s.xreg[GFX_CTRL] = gfx;
        s.xreg[DISP_ADDR] = start;
        s.xreg[LINE_LEN] = length;
        s.xreg[VID_CTRL] = 0x7E99;
        s
    }

    /// The same with a window.
    fn window(gfx: u16, left: u16, right: u16) -> State {
        let mut s = playfield(gfx, 0, 0);
        (s.xreg[VID_LEFT], s.xreg[VID_RIGHT]) = (left, right);
        s
    }

    /// Memory of so many words, 0 but for these at its start.
    fn memory(words: usize, first: &[u16]) -> Vec<u16> {
        let mut memory = vec![0; words];
        memory[..first.len()].copy_from_slice(first);
        memory
    }

    /// The indices of a line, painted at once and pixel by pixel.
    fn indices(s: &State, vram: &[u16], line: u32) -> Vec<u8> {
        let mut pixels = [0; PIXELS];
        assert_eq!(s.paint(vram, &colours(), line, &mut pixels), Ok(()));
        let painted: Vec<u8> = pixels.iter().map(|pixel| (pixel - 0xC000) as u8).collect();
        let each = (0..PIXELS as u16).map(|x| s.pixel(vram, line, x).index);
        assert_eq!(painted, each.collect::<Vec<u8>>());
        painted
    }

    #[test]
    fn high_bits_come_first() {
        let vram = memory(256, &[0x1234, 0x5678]);
        let four = indices(&playfield(0xAB50, 0, 0), &vram, 0);
        let upper = [0xA1, 0xA2, 0xA3, 0xA4, 0xA5, 0xA6, 0xA7, 0xA8, 0xA0];
        assert_eq!(four[..9], upper);
        let eight = indices(&playfield(0xAB60, 0, 0), &vram, 0);
        assert_eq!(eight[..5], [0x12, 0x34, 0x56, 0x78, 0x00]);
    }

    #[test]
    fn a_pixel_is_h_repeat_wide() {
        let vram = memory(256, &[0x1234]);
        let twice = indices(&playfield(0x0054, 0, 0), &vram, 0);
        assert_eq!(twice[..9], [1, 1, 2, 2, 3, 3, 4, 4, 0]);
        let thrice = indices(&playfield(0x0068, 0, 0), &vram, 0);
        let wide = [0x12, 0x12, 0x12, 0x34, 0x34, 0x34, 0];
        assert_eq!(thrice[..7], wide);
        let fourfold = indices(&playfield(0x005C, 0, 0), &vram, 0);
        assert_eq!(fourfold[..5], [1, 1, 1, 1, 2]);
    }

    /// Rows of two words, each line's row by its first pixel.
    #[test]
    fn a_row_is_v_repeat_high() {
        let vram = memory(256, &[0x1000, 0, 0x2000, 0, 0x3000, 0, 0x4000]);
        for (gfx, rows) in [
            (0x0050, [1, 2, 3, 4, 0, 0, 0, 0]),
            (0x0051, [1, 1, 2, 2, 3, 3, 4, 4]),
            (0x0052, [1, 1, 1, 2, 2, 2, 3, 3]),
            (0x0053, [1, 1, 1, 1, 2, 2, 2, 2]),
        ] {
            let s = playfield(gfx, 0, 2);
            let firsts: Vec<u8> = (0..8).map(|line| indices(&s, &vram, line)[0]).collect();
            assert_eq!(firsts, rows);
        }
    }

    /// The border's index is 99. Pixels count from the window's left.
    #[test]
    fn the_border_is_outside_the_window() {
        let vram = memory(256, &[0x1234, 0x5678]);
        let inside = indices(&window(0x0050, 2, 5), &vram, 0);
        assert_eq!(inside[..6], [0x99, 0x99, 1, 2, 3, 0x99]);
        assert_eq!(inside[639], 0x99);
        let end = indices(&window(0x0054, 637, 0xFFFF), &vram, 0);
        assert_eq!(end[636..], [0x99, 1, 1, 2]);
        for (left, right) in [(5, 5), (6, 5), (640, 641), (0xFFFE, 0xFFFF), (0xFFFF, 0)] {
            let none = indices(&window(0x0050, left, right), &vram, 0);
            assert_eq!(none, [0x99; PIXELS]);
        }
    }

    /// 99 xor A6 is 3F, whatever the bitmap.
    #[test]
    fn blank_is_everywhere() {
        for gfx in [0xA680, 0xA6FF, 0xA6D0, 0xA6A5] {
            let blank = indices(&window(gfx, 2, 5), &[0x1234; 256], 479);
            assert_eq!(blank, [0x3F; PIXELS]);
        }
    }

    /// A row that starts at 65,535 goes on at 0; line 3 of rows of 32,768 starts at 32,767.
    #[test]
    fn addresses_wrap() {
        let mut vram = memory(65536, &[0x5678]);
        (vram[32767], vram[65535]) = (0xABCD, 0x1234);
        let s = playfield(0x0060, 0xFFFF, 0x8000);
        assert_eq!(indices(&s, &vram, 478)[..4], [0x12, 0x34, 0x56, 0x78]);
        assert_eq!(indices(&s, &vram, 3)[..3], [0xAB, 0xCD, 0]);
        let mut small = memory(256, &[0x5678]);
        small[255] = 0x1234;
        assert_eq!(indices(&s, &small, 3)[..4], [0x12, 0x34, 0x56, 0x78]);
    }

    #[test]
    fn a_pixel_tells_where_it_is_from() {
        let vram = memory(256, &[0x1234]);
        let s = window(0x0054, 2, 640);
        let bitmap = |number: u16, address: u16| Source::Bitmap {
            depth: Depth::Four,
            number,
            address,
        };
        let sources = [1, 2, 3, 9, 10].map(|x| s.pixel(&vram, 0, x).source);
        let [border, first, again, fourth, fifth] = sources;
        assert_eq!(
            (border, first, again),
            (Source::Border, bitmap(0, 0), first)
        );
        assert_eq!((fourth, fifth), (bitmap(3, 0), bitmap(4, 1)));
        let blank = window(0x0080, 2, 640).pixel(&vram, 0, 1);
        assert_eq!((blank.source, blank.index), (Source::Blank, 0x99));
    }

    /// In the order of the request; the pixels stay.
    #[test]
    fn what_cannot_be_painted_is_refused() {
        use Refusal::{NoBitmap, NoLine, PixelsLength, StateRange, VramLength, XrLength};
        let (four, none) = (0x0050, 0x0070);
        for (lengths, status, gfx, line, words, refusal) in [
            ([255, 6655], 128, none, 480, 639, VramLength),
            ([256, 6655], 128, none, 480, 639, XrLength),
            ([256, 6656], 128, none, 480, 639, StateRange),
            ([256, 6656], 0, none, 480, 639, NoBitmap),
            ([256, 6656], 0, 0x0010, 0, 640, NoBitmap),
            ([256, 6656], 0, 0x0040, 0, 640, NoBitmap),
            ([256, 6656], 0, four, 480, 639, NoLine),
            ([256, 6656], 0, 0x0080, u32::MAX, 640, NoLine),
            ([256, 6656], 0, four, 479, 639, PixelsLength),
            ([256, 6656], 0, 0x0080, 0, 641, PixelsLength),
            ([256, 6656], 0, four, 0, 0, PixelsLength),
        ] {
            let s = State {
                status,
                ..playfield(gfx, 0, 0)
            };
            let (vram, xr, mut pixels) = ([0; 256], [0; 6656], [0x5A5A; 641]);
            let lent = &mut pixels[..words];
            let answer = s.paint(&vram[..lengths[0]], &xr[..lengths[1]], line, lent);
            assert_eq!(answer, Err(refusal));
            assert_eq!(pixels, [0x5A5A; 641]);
        }
    }
}
