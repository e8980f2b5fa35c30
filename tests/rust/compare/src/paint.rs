//! Painted lines (change requests 6 and 7): the library's, with all that must stay; the model's, at once and
//! pixel by pixel; and the situations that came up.

use model::{Depth, Pixel, Source};
use xosera::{Adapter, Video, SCREEN_WIDTH, VISIBLE_LINES, XR_COLOUR_AT};

use crate::convert::typed;
use crate::tube::Tube;

/// The registers of playfield A in their order.
pub const GFX_CTRL: usize = 0;
pub const DISP_ADDR: usize = 2;
pub const LINE_LEN: usize = 3;

/// Bits of `GFX_CTRL`.
pub const BLANK: u16 = 0x80;
pub const FOUR_BITS: u16 = 0x50;
pub const EIGHT_BITS: u16 = 0x60;

/// Words beside the pixels that no call may touch, a line on each side, and what the pixels are before it.
const FENCE: [u16; SCREEN_WIDTH] = [0xA55A; SCREEN_WIDTH];
const UNPAINTED: u16 = 0x5AA5;

/// Can a line be painted by this `GFX_CTRL`?
pub fn paintable(gfx: u16) -> bool {
    gfx & BLANK != 0 || matches!(gfx & 0x70, FOUR_BITS | EIGHT_BITS)
}

/// Have the library paint a line for this tube in so many words. State, memories and what stands beside the
/// pixels must stay, the pixels too if it is refused. The refusal, and the pixels after it.
pub fn paint(tube: Tube, x: &Adapter, line: u32, words: usize) -> (u8, Vec<u16>) {
    let mut lent = x.clone();
    let mut room = [&FENCE[..], &vec![UNPAINTED; words], &FENCE].concat();
    let pixels = &mut room[FENCE.len()..][..words];
    let refusal = tube.on_library(&mut lent.state, &mut lent.vram, &mut lent.xr, line, pixels);
    let pixels = pixels.to_vec();
    assert!(lent == *x, "state or memories changed");
    let whole = room.starts_with(&FENCE) && room.ends_with(&FENCE);
    assert!(whole, "a word beside the pixels changed");
    let untouched = pixels.iter().all(|&pixel| pixel == UNPAINTED);
    assert!(refusal == 0 || untouched, "refused, and pixels changed");
    (refusal, pixels)
}

/// A painted line, by the library alone.
pub fn painted(tube: Tube, x: &Adapter, line: u32) -> Vec<u16> {
    let (refusal, pixels) = paint(tube, x, line, SCREEN_WIDTH);
    assert_eq!(refusal, 0, "{}", at(x, line));
    pixels
}

/// A line that can be painted, by the library, for the cases' tube. It must be the model's, and each pixel
/// must show the colour of the index that it has by itself.
pub fn line(x: &Adapter, line: u32, cases: &mut Cases) -> Vec<u16> {
    let tube = cases.tube;
    let pixels = painted(tube, x, line);
    let s = typed(x.state.words()).expect("a state in range");
    let mut plain = vec![UNPAINTED; SCREEN_WIDTH];
    let answer = tube.on_model(&s, &x.vram, &x.xr, line, &mut plain);
    assert_eq!(answer, Ok(()), "{}", at(x, line));
    let each: Vec<Pixel> = (0..SCREEN_WIDTH as u16)
        .map(|pixel| s.pixel(&x.vram, line, pixel))
        .collect();
    for (i, pixel) in each.iter().enumerate() {
        let shown = tube.shows(x.xr[XR_COLOUR_AT + usize::from(pixel.index)]);
        let both = [pixels[i], plain[i]];
        assert_eq!(both, [shown; 2], "pixel {}: {}", i, at(x, line));
    }
    cases.count(x, line, &each);
    pixels
}

/// What a line was painted by, for a message.
fn at(x: &Adapter, line: u32) -> String {
    let (words, video) = (x.vram.len(), x.state.video);
    format!("line {}, {} words, {:X?}", line, words, video)
}

/// A line that was painted.
struct Line<'a> {
    video: &'a Video,
    vram: usize,
    colours: &'a [u16],
    line: u32,
    pixels: &'a [Pixel],
}

impl Line<'_> {
    fn gfx(&self) -> u16 {
        self.video.pa[GFX_CTRL]
    }

    fn is_blank(&self) -> bool {
        self.gfx() & BLANK != 0
    }

    fn h_repeat(&self) -> u16 {
        (self.gfx() >> 2 & 3) + 1
    }

    fn v_repeat(&self) -> u16 {
        (self.gfx() & 3) + 1
    }

    /// Does it show pixels of the bitmap, and so?
    fn shows(&self, so: bool) -> bool {
        so && self.bitmap().next().is_some()
    }

    /// The bitmap's pixels that it shows: number and address.
    fn bitmap(&self) -> impl Iterator<Item = (u16, u16)> + '_ {
        self.pixels.iter().filter_map(|pixel| match pixel.source {
            Source::Bitmap {
                number, address, ..
            } => Some((number, address)),
            _ => None,
        })
    }

    fn depth(&self) -> Option<Depth> {
        self.pixels.iter().find_map(|pixel| match pixel.source {
            Source::Bitmap { depth, .. } => Some(depth),
            _ => None,
        })
    }

    fn is_border(&self, x: usize) -> bool {
        self.pixels[x].source == Source::Border
    }

    /// Is its last pixel of the bitmap shown less wide than the others?
    fn cuts_a_pixel(&self) -> bool {
        self.bitmap().count() % usize::from(self.h_repeat()) > 0
    }

    /// Where its row starts, before that wraps.
    fn start(&self) -> u64 {
        let rows = u64::from(self.line) / u64::from(self.v_repeat());
        u64::from(self.video.pa[DISP_ADDR]) + rows * u64::from(self.video.pa[LINE_LEN])
    }

    /// Do two addresses of it, one after another, stand so?
    fn goes(&self, from: impl Fn(u16) -> bool, to: u16) -> bool {
        let mut pairs = self.bitmap().zip(self.bitmap().skip(1));
        pairs.any(|((_, before), (_, after))| from(before) && after == to)
    }

    /// Does its row go on at the first word of VRAM, below 65,535?
    fn turns_over(&self) -> bool {
        let mut addresses = self.bitmap().skip(1).map(|(_, address)| address);
        addresses.any(|address| {
            let place = usize::from(address) % self.vram;
            address != 0 && place == 0 && self.goes(|before| before == address - 1, address)
        })
    }
}

/// A situation by its name.
type OfLine = (&'static str, fn(&Line) -> bool);

/// What a line can be like.
const LINES: [OfLine; 43] = [
    ("blank", |l| l.is_blank()),
    ("blank, no bitmap", |l| l.is_blank() && l.gfx() & 0x40 == 0),
    ("blank, depth 0", |l| l.is_blank() && l.gfx() & 0x30 == 0),
    ("blank, depth 3", |l| l.is_blank() && l.gfx() & 0x30 == 0x30),
    ("four bits", |l| l.depth() == Some(Depth::Four)),
    ("eight bits", |l| l.depth() == Some(Depth::Eight)),
    ("H repeat 1", |l| l.shows(l.h_repeat() == 1)),
    ("H repeat 2", |l| l.shows(l.h_repeat() == 2)),
    ("H repeat 3", |l| l.shows(l.h_repeat() == 3)),
    ("H repeat 4", |l| l.shows(l.h_repeat() == 4)),
    ("V repeat 1", |l| l.shows(l.v_repeat() == 1)),
    ("V repeat 2", |l| l.shows(l.v_repeat() == 2)),
    ("V repeat 3", |l| l.shows(l.v_repeat() == 3)),
    ("V repeat 4", |l| l.shows(l.v_repeat() == 4)),
    ("line 0", |l| l.shows(l.line == 0)),
    ("line 479", |l| l.shows(l.line == VISIBLE_LINES - 1)),
    ("all in the window", |l| {
        l.bitmap().count() == l.pixels.len()
    }),
    ("border at the left", |l| l.shows(l.is_border(0))),
    ("border at the right", |l| l.shows(l.is_border(639))),
    ("a window of one pixel", |l| l.bitmap().count() == 1),
    ("left at right", |l| {
        !l.is_blank() && l.video.vid_left == l.video.vid_right
    }),
    ("left above right", |l| {
        !l.is_blank() && l.video.vid_left > l.video.vid_right
    }),
    ("left beyond the line", |l| {
        let Video {
            vid_left: left,
            vid_right: right,
            ..
        } = *l.video;
        !l.is_blank() && left >= 640 && left < right
    }),
    ("left above 32,767", |l| {
        !l.is_blank() && l.video.vid_left > 32767
    }),
    ("right beyond the line", |l| {
        l.shows(l.video.vid_right > 640)
    }),
    ("right above 32,767", |l| l.shows(l.video.vid_right > 32767)),
    ("a pixel cut by the window", |l| {
        l.cuts_a_pixel() && l.video.vid_right <= 640
    }),
    ("a pixel cut by the line's end", |l| {
        l.cuts_a_pixel() && l.video.vid_right > 640
    }),
    ("LINE_LEN 0", |l| {
        l.shows(l.line > 3 && l.video.pa[LINE_LEN] == 0)
    }),
    ("a row that starts beyond 65,535", |l| {
        l.shows(l.start() > 65535)
    }),
    ("a row from 65,535 to 0", |l| {
        l.goes(|before| before == 65535, 0)
    }),
    ("a row beyond the length", |l| {
        l.bitmap()
            .any(|(_, address)| usize::from(address) >= l.vram)
    }),
    ("a row over the length", |l| l.turns_over()),
    ("lower nibble of the base", |l| {
        l.depth() == Some(Depth::Four) && l.gfx() & 0x0F00 != 0
    }),
    ("a base at eight bits", |l| {
        l.depth() == Some(Depth::Eight) && l.gfx() >> 8 != 0
    }),
    ("colours with bits 15:12", |l| {
        let mut indices = l.pixels.iter().map(|pixel| usize::from(pixel.index));
        indices.any(|index| l.colours[index] > 0x0FFF)
    }),
    ("swap", |l| l.video.vid_ctrl >> 15 == 1),
    ("VID_CTRL 14:8", |l| l.video.vid_ctrl & 0x7F00 != 0),
    ("TILE_CTRL", |l| l.video.pa[1] != 0),
    ("scroll", |l| l.video.pa[4] != 0),
    ("LINE_ADDR", |l| l.video.pa[5] != 0),
    ("fraction", |l| l.video.pa[6] != 0),
    ("playfield B", |l| l.video.pb[GFX_CTRL] != 0),
];

/// Where the index of a colour can come from.
const SOURCES: [&str; 4] = ["blank", "border", "four bits", "eight bits"];

fn which(source: Source) -> usize {
    match source {
        Source::Blank => 0,
        Source::Border => 1,
        Source::Bitmap { depth, .. } => 2 + usize::from(depth == Depth::Eight),
    }
}

/// How often each situation came up, so that a run in which too little happened is seen.
#[derive(Clone)]
pub struct Cases {
    tube: Tube,
    lines: u64,
    situations: [u64; LINES.len()],
    /// Pixels of each index, by where it comes from.
    indices: [[u64; 256]; SOURCES.len()],
}

impl Cases {
    /// Those of no line yet, of lines for this tube.
    pub fn of(tube: Tube) -> Cases {
        Cases {
            tube,
            lines: 0,
            situations: [0; LINES.len()],
            indices: [[0; 256]; SOURCES.len()],
        }
    }

    fn count(&mut self, x: &Adapter, line: u32, pixels: &[Pixel]) {
        let painted = Line {
            video: &x.state.video,
            vram: x.vram.len(),
            colours: &x.xr[XR_COLOUR_AT..],
            line,
            pixels,
        };
        self.lines += 1;
        for (n, (_, so)) in self.situations.iter_mut().zip(LINES) {
            *n += u64::from(so(&painted));
        }
        for pixel in pixels {
            self.indices[which(pixel.source)][usize::from(pixel.index)] += 1;
        }
    }

    pub fn lines(&self) -> u64 {
        self.lines
    }

    /// How many of the 256 indices came up, of blank, border, four bits and eight bits.
    pub fn indices(&self) -> [usize; 4] {
        self.indices
            .map(|each| each.iter().filter(|&&n| n > 0).count())
    }

    /// How often the situation of this name came up.
    pub fn number(&self, name: &str) -> u64 {
        let found = LINES.iter().position(|(of, _)| *of == name);
        self.situations[found.unwrap_or_else(|| panic!("no situation {:?}", name))]
    }

    /// Says how many lines there were.
    pub fn say(&self, what: &str) {
        let (name, lines) = (self.tube.name(), self.lines);
        println!("{}: {}: {} lines, each word equal", name, what, lines);
    }

    /// Says how often the situations came up. Each did, and each index of each source.
    pub fn report(&self, what: &str) {
        let names = LINES.iter().map(|(name, _)| *name);
        let numbers: Vec<(&str, u64)> = names.zip(self.situations).collect();
        let (name, least) = numbers.iter().min_by_key(|(_, n)| n).unwrap();
        assert!(*least > 0, "{}: {:?}", what, numbers);
        assert_eq!(self.indices(), [256; 4], "{}: {:?}", what, SOURCES);
        println!(
            "{}: {}: {} lines of {} kinds, each at least {} times ({}), with each index of {}; each word equal",
            self.tube.name(),
            what,
            self.lines,
            numbers.len(),
            least,
            name,
            SOURCES.join(", ")
        );
    }
}
