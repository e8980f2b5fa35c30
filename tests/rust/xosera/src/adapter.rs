//! A state with its two memories, and refusals as errors.

use std::fmt;

use crate::{saved_bytes, BlitAnswer, State, WhyAnswer, SCREEN_WIDTH, XR_WORDS};

/// A refused call, by its number in document 01's table. It changed nothing.
#[derive(Clone, Copy, Debug, PartialEq, Eq)]
pub struct Refusal(pub u8);

impl fmt::Display for Refusal {
    fn fmt(&self, f: &mut fmt::Formatter<'_>) -> fmt::Result {
        let text = match self.0 {
            1 => "VRAM length is no power of two from 256 to 65536",
            2 => "XR memory is not 6656 words",
            3 => "state out of its ranges",
            4 => "register number over 15",
            5 => "blitter register written while the blitter is full",
            6 => "XM_INT_CTRL written with bit 15 set",
            7 => "room too short for the saved adapter",
            8 => "not a saved adapter",
            9 => "saved VRAM is not as long as the memory lent",
            10 => "beam or copper not at rest",
            11 => "playfield A is neither blank nor a bitmap of 4 or 8 bits",
            12 => "line over 479",
            13 => "pixels are not 640 words",
            15 => "nibble over 3 or address not below the VRAM length",
            _ => "unknown refusal",
        };
        write!(f, "refusal {}: {}", self.0, text)
    }
}

impl std::error::Error for Refusal {}

/// The answer, or the refusal.
fn done<T>(answer: T, refusal: u8) -> Result<T, Refusal> {
    match refusal {
        0 => Ok(answer),
        number => Err(Refusal(number)),
    }
}

/// What a step or a run did: so many words, and of the last of them the nibbles in the mask, whose bit 3
/// stands for bits 15:12. The mask of no word is 0.
#[derive(Clone, Copy, Debug, Default, PartialEq, Eq)]
pub struct Blitted {
    pub count: u64,
    pub mask: u8,
}

fn blitted(a: BlitAnswer) -> Result<Blitted, Refusal> {
    let (count, mask) = (a.count, a.mask);
    done(Blitted { count, mask }, a.refusal)
}

/// What a blit did to a nibble.
#[derive(Clone, Copy, Debug, PartialEq, Eq)]
pub enum Fate {
    NeverReached,
    /// No reach wrote it; all that held it back at the last.
    HeldBack {
        first_mask: bool,
        last_mask: bool,
        colour_test: bool,
    },
    /// The line and word, from 0, of the last write.
    Written {
        line: u16,
        word: u16,
    },
}

fn fate(a: WhyAnswer) -> Result<Fate, Refusal> {
    done((), a.refusal)?;
    Ok(match a.fate {
        1 => Fate::NeverReached,
        2 => Fate::HeldBack {
            first_mask: a.first_mask,
            last_mask: a.last_mask,
            colour_test: a.colour_test,
        },
        3 => Fate::Written {
            line: a.line,
            word: a.word,
        },
        other => unreachable!("fate {}", other),
    })
}

/// An adapter that owns its memories. All fields are open: a test may set up any situation.
#[derive(Clone, Debug, PartialEq, Eq)]
pub struct Adapter {
    pub state: State,
    pub vram: Vec<u16>,
    pub xr: Vec<u16>,
}

impl Adapter {
    /// A reset adapter over memories full of 0.
    pub fn new(vram_words: usize) -> Adapter {
        Adapter {
            state: State::reset(),
            vram: vec![0; vram_words],
            xr: vec![0; XR_WORDS],
        }
    }

    /// The mask of the nibbles that an odd data write wrote; 0 of any other write.
    pub fn write_byte(&mut self, reg: u8, odd: bool, byte: u8) -> Result<u8, Refusal> {
        let (s, vram, xr) = (&mut self.state, &mut self.vram, &mut self.xr);
        let a = crate::write_byte(s, vram, xr, reg, odd, byte);
        done(a.mask, a.refusal)
    }

    pub fn read_byte(&mut self, reg: u8, odd: bool) -> Result<u8, Refusal> {
        let a = crate::read_byte(&mut self.state, &self.vram, &self.xr, reg, odd);
        done(a.byte, a.refusal)
    }

    /// The even byte, then the odd one, whose mask is given.
    pub fn write_word(&mut self, reg: u8, word: u16) -> Result<u8, Refusal> {
        self.write_byte(reg, false, (word >> 8) as u8)?;
        self.write_byte(reg, true, (word & 0xFF) as u8)
    }

    /// The even byte, then the odd one.
    pub fn read_word(&mut self, reg: u8) -> Result<u16, Refusal> {
        let high = self.read_byte(reg, false)?;
        let low = self.read_byte(reg, true)?;
        Ok(u16::from(high) << 8 | u16::from(low))
    }

    /// Write a word in the XR space.
    pub fn write_xr(&mut self, xaddr: u16, word: u16) -> Result<(), Refusal> {
        self.write_word(crate::XM_WR_XADDR, xaddr)?;
        self.write_word(crate::XM_XDATA, word)?;
        Ok(())
    }

    /// Read a word in the XR space.
    pub fn read_xr(&mut self, xaddr: u16) -> Result<u16, Refusal> {
        self.write_word(crate::XM_RD_XADDR, xaddr)?;
        self.read_word(crate::XM_XDATA)
    }

    /// One word of blitting; none when idle.
    pub fn blit_step(&mut self) -> Result<Blitted, Refusal> {
        let (s, vram, xr) = (&mut self.state, &mut self.vram, &self.xr);
        blitted(crate::blit_step(s, vram, xr))
    }

    /// Up to `n` words of blitting.
    pub fn blit_run(&mut self, n: u64) -> Result<Blitted, Refusal> {
        let (s, vram, xr) = (&mut self.state, &mut self.vram, &self.xr);
        blitted(crate::blit_run(s, vram, xr, n))
    }

    pub fn timer_tick(&mut self) -> Result<(), Refusal> {
        done((), crate::timer_tick(&mut self.state).refusal)
    }

    /// One native pixel of the beam, and one instruction of a running copper.
    pub fn beam_step(&mut self) -> Result<(), Refusal> {
        let (s, vram, xr) = (&mut self.state, &self.vram, &mut self.xr);
        done((), crate::beam_step(s, vram, xr).refusal)
    }

    pub fn interrupt_line(&self) -> Result<bool, Refusal> {
        let a = crate::interrupt_line(&self.state);
        done(a.up, a.refusal)
    }

    /// Write the file at the front of the room, given beam and copper at rest; its
    /// length in bytes.
    pub fn save(&self, room: &mut [u8]) -> Result<usize, Refusal> {
        let a = crate::save(&self.state, &self.vram, &self.xr, room);
        done(a.length as usize, a.refusal)
    }

    /// The file, in a room of its own.
    pub fn saved(&self) -> Result<Vec<u8>, Refusal> {
        let mut room = vec![0; saved_bytes(self.vram.len())];
        let length = self.save(&mut room)?;
        room.truncate(length);
        Ok(room)
    }

    /// Become the adapter whose file this is, beam and copper at rest. Its VRAM must be as long as this
    /// one's.
    pub fn load(&mut self, file: &[u8]) -> Result<(), Refusal> {
        let (s, vram, xr) = (&mut self.state, &mut self.vram, &mut self.xr);
        done((), crate::load(s, vram, xr, file).refusal)
    }

    /// Why a nibble, 0 to 3 from the left, is as the blit of the registers as they stand leaves it, begun
    /// on the memory before. That is VRAM as it was when the blit started, not as it is.
    pub fn why(&self, before: &[u16], address: u32, nibble: u32) -> Result<Fate, Refusal> {
        let mut work = vec![0; before.len()];
        let regs = self.state.blit;
        fate(crate::why(regs, before, &mut work, address, nibble))
    }

    /// Fill 640 words with the colours of playfield A on a visible line.
    pub fn paint(&self, line: u32, pixels: &mut [u16]) -> Result<(), Refusal> {
        let a = crate::paint(&self.state, &self.vram, &self.xr, line, pixels);
        done((), a.refusal)
    }

    /// The line, in words of its own.
    pub fn painted(&self, line: u32) -> Result<Vec<u16>, Refusal> {
        filled(|pixels| self.paint(line, pixels))
    }

    /// Fill 640 words with the levels of playfield A on a visible line.
    pub fn paint_grey(&self, line: u32, pixels: &mut [u16]) -> Result<(), Refusal> {
        let a = crate::paint_grey(&self.state, &self.vram, &self.xr, line, pixels);
        done((), a.refusal)
    }

    /// The grey line, in words of its own.
    pub fn painted_grey(&self, line: u32) -> Result<Vec<u16>, Refusal> {
        filled(|pixels| self.paint_grey(line, pixels))
    }
}

/// A line of 640 words that the call has filled.
fn filled(call: impl FnOnce(&mut [u16]) -> Result<(), Refusal>) -> Result<Vec<u16>, Refusal> {
    let mut pixels = vec![0; SCREEN_WIDTH];
    call(&mut pixels)?;
    Ok(pixels)
}
