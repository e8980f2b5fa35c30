//! "What a call can say": the refusals, the state and its ranges.

use crate::{is_vram_len, XR_WORDS};

/// What a call can say instead of "done". The lowest number that applies is given.
#[derive(Clone, Copy, Debug, PartialEq, Eq)]
pub enum Refusal {
    VramLength = 1,
    XrLength = 2,
    StateRange = 3,
    NoRegister = 4,
    BlitterFull = 5,
    Reconfigure = 6,
    RoomTooShort = 7,
    NotSaved = 8,
    OtherVram = 9,
    NotAtRest = 10,
    NoBitmap = 11,
    NoLine = 12,
    PixelsLength = 13,
    NoPlace = 15,
}

/// The blitter's ten registers in the order of their addresses, 0x40 to 0x49.
#[derive(Clone, Copy, Debug, Default, PartialEq, Eq)]
pub struct Blit {
    pub ctrl: u16,
    pub andc: u16,
    pub xor: u16,
    pub mod_s: u16,
    pub src_s: u16,
    pub mod_d: u16,
    pub dst_d: u16,
    pub shift: u16,
    pub lines: u16,
    pub words: u16,
}

/// The adapter but for its memories.
#[derive(Clone, Copy, Debug, PartialEq, Eq)]
pub struct State {
    pub latch: [u8; 16],

    pub nibble_mask: u8,
    pub int_mask: u8,
    pub status: u8,

    pub timer: u16,
    pub timer_saved: u8,
    pub countdown: u16,
    pub interval: u16,

    pub rd_xaddr: u16,
    pub wr_xaddr: u16,
    pub xdata: u16,

    pub rd_incr: u16,
    pub rd_addr: u16,
    pub wr_incr: u16,
    pub wr_addr: u16,
    pub data: u16,

    /// The XR registers 0x00 to 0x1F by address; those that are not stored stay 0.
    pub xreg: [u16; 0x20],
    pub blit: Blit,

    pub running: bool,
    pub queued: bool,
    /// The running blit's registers as copied; `src_s` and `dst_d` move on.
    pub copied: Blit,
    pub line: u16,
    pub word: u16,
    pub kept: u16,

    pub beam_line: u16,
    pub beam_position: u16,
    pub copper_running: bool,
    /// The program address of the copper's next instruction.
    pub copper_word: u16,
}

impl State {
    /// All 0 but the nibble mask and `XR_VID_RIGHT`.
    pub fn reset() -> State {
        let mut xreg = [0; 0x20];
        xreg[0x05] = 640;
        State {
            latch: [0; 16],
            nibble_mask: 15,
            int_mask: 0,
            status: 0,
            timer: 0,
            timer_saved: 0,
            countdown: 0,
            interval: 0,
            rd_xaddr: 0,
            wr_xaddr: 0,
            xdata: 0,
            rd_incr: 0,
            rd_addr: 0,
            wr_incr: 0,
            wr_addr: 0,
            data: 0,
            xreg,
            blit: Blit::default(),
            running: false,
            queued: false,
            copied: Blit::default(),
            line: 0,
            word: 0,
            kept: 0,
            beam_line: 0,
            beam_position: 0,
            copper_running: false,
            copper_word: 0,
        }
    }

    /// Is every part in its range?
    pub fn in_range(&self) -> bool {
        let countdown_ok = (1 <= self.countdown && self.countdown <= self.interval)
            || (self.countdown == 0 && self.interval == 0);
        let engine_ok = if self.running {
            self.line <= self.copied.lines
                && self.word <= self.copied.words
                && self.copied.lines <= 32767
                && (self.line != 0 || self.word != 0 || self.kept == 0)
        } else {
            self.copied == Blit::default() && self.line == 0 && self.word == 0 && self.kept == 0
        };
        self.nibble_mask <= 15
            && self.int_mask <= 127
            && self.status <= 127
            && countdown_ok
            && (!self.queued || self.running)
            && engine_ok
            && self.beam_in_range()
    }

    /// Refusals 1 to 3, which every access, run and step, of blitter or beam, can give.
    pub(crate) fn check(&self, vram: &[u16], xr: &[u16]) -> Result<(), Refusal> {
        if !is_vram_len(vram.len()) {
            return Err(Refusal::VramLength);
        }
        if xr.len() != XR_WORDS {
            return Err(Refusal::XrLength);
        }
        self.check_range()
    }

    /// Refusal 3 alone, for the calls that take no memory.
    pub(crate) fn check_range(&self) -> Result<(), Refusal> {
        if self.in_range() {
            Ok(())
        } else {
            Err(Refusal::StateRange)
        }
    }
}
