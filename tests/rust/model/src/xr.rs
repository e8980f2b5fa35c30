//! "The XR space": what stands at each extended address.

use crate::{State, COPP_CTRL, VIDEO};

/// What an XR address names.
enum Target {
    /// A word of XR memory.
    Memory(usize),
    /// A register that is stored and read back.
    Stored(usize),
    /// A register that is stored and reads 0.
    WriteOnly(usize),
    /// 0x01: stored and read back; without bit 15 the copper stops.
    CopperControl,
    /// 0x03: reads the beam's line; a write sets status bit 4.
    Scanline,
    /// A blitter register, 0 to 9: stored, reads 0.
    Blitter(usize),
    /// Reads 0 and drops writes.
    Nothing,
}

fn target(addr: u16) -> Target {
    let a = addr as usize;
    match addr {
        0x00 | 0x02 | 0x04 | 0x05 => Target::Stored(a),
        0x10..=0x14 | 0x16 => Target::Stored(a),
        0x18..=0x1C | 0x1E => Target::Stored(a),
        0x15 | 0x1D => Target::WriteOnly(a),
        0x01 => Target::CopperControl,
        0x03 => Target::Scanline,
        0x40..=0x49 => Target::Blitter(a - 0x40),
        0x4000..=0x53FF => Target::Memory(a - 0x4000),
        0x8000..=0x81FF => Target::Memory(5120 + a - 0x8000),
        0xC000..=0xC3FF => Target::Memory(5120 + 512 + a - 0xC000),
        _ => Target::Nothing,
    }
}

impl State {
    /// The word that an XR address reads.
    pub(crate) fn xr_read(&self, xr: &[u16], addr: u16) -> u16 {
        match target(addr) {
            Target::Memory(i) => xr[i],
            Target::Stored(a) => self.xreg[a],
            Target::CopperControl => self.xreg[COPP_CTRL],
            Target::Scanline => self.beam_line,
            Target::WriteOnly(_) | Target::Blitter(_) | Target::Nothing => 0,
        }
    }

    /// Is the blitter full and this one of its registers? Then a word to it is refused to the host, and
    /// dropped from the copper.
    pub(crate) fn is_held_off(&self, addr: u16) -> bool {
        self.queued && (0x40..=0x49).contains(&addr)
    }

    /// A word to an XR address, by the host or by the copper.
    pub(crate) fn xr_write(&mut self, xr: &mut [u16], addr: u16, word: u16) {
        match target(addr) {
            Target::Memory(i) => xr[i] = word,
            Target::Stored(a) | Target::WriteOnly(a) => self.xreg[a] = word,
            Target::CopperControl => {
                self.xreg[COPP_CTRL] = word;
                if !self.copper_enabled() {
                    self.stop_copper();
                }
            }
            Target::Scanline => self.status |= VIDEO,
            Target::Blitter(i) => self.blit_write(i, word),
            Target::Nothing => {}
        }
    }
}
