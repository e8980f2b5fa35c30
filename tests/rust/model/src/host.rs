//! "Host bytes": the sixteen main registers, the timer and the interrupt line. Change request 2: a data
//! write answers its mask. Change request 3: `XM_SYS_CTRL` reads blank flags.

use crate::{masked, place, Refusal, State};

const TIMER: u8 = 1 << 5;

impl State {
    /// The host writes a byte. An even write only fills the register's latch; an odd write acts on
    /// latch x 256 + byte. An odd data write answers its mask, every other 0.
    pub fn write_byte(
        &mut self,
        vram: &mut [u16],
        xr: &mut [u16],
        reg: u8,
        odd: bool,
        byte: u8,
    ) -> Result<u8, Refusal> {
        self.check(vram, xr)?;
        if reg > 15 {
            return Err(Refusal::NoRegister);
        }
        if !odd {
            self.latch[reg as usize] = byte;
            return Ok(0);
        }
        let word = self.latch[reg as usize] as u16 * 256 + byte as u16;
        if reg == 5 && self.is_held_off(self.wr_xaddr) {
            return Err(Refusal::BlitterFull);
        }
        if reg == 1 && word >= 0x8000 {
            return Err(Refusal::Reconfigure);
        }
        Ok(self.act(vram, xr, reg, word))
    }

    /// What an odd write does with its word; the mask of a data write, or 0.
    fn act(&mut self, vram: &mut [u16], xr: &mut [u16], reg: u8, word: u16) -> u8 {
        match reg {
            0 => self.nibble_mask = (word % 16) as u8,
            1 => {
                self.int_mask = (word / 256) as u8;
                self.status &= !((word % 128) as u8);
            }
            2 => {
                self.countdown = word;
                self.interval = word;
            }
            3 => {
                self.rd_xaddr = word;
                self.xdata = self.xr_read(xr, self.rd_xaddr);
            }
            4 => self.wr_xaddr = word,
            5 => {
                self.xr_write(xr, self.wr_xaddr, word);
                self.wr_xaddr = self.wr_xaddr.wrapping_add(1);
            }
            6 => self.rd_incr = word,
            7 => {
                self.rd_addr = word;
                self.data = vram[place(self.rd_addr, vram.len())];
            }
            8 => self.wr_incr = word,
            9 => self.wr_addr = word,
            10 | 11 => {
                let at = place(self.wr_addr, vram.len());
                vram[at] = masked(vram[at], word, self.nibble_mask as u16);
                self.wr_addr = self.wr_addr.wrapping_add(self.wr_incr);
                return self.nibble_mask;
            }
            _ => {}
        }
        0
    }

    /// The host reads a byte: the high byte at an even read, the low byte at an odd one, which then
    /// acts. `XM_TIMER` saves its low byte at the even read.
    pub fn read_byte(
        &mut self,
        vram: &[u16],
        xr: &[u16],
        reg: u8,
        odd: bool,
    ) -> Result<u8, Refusal> {
        self.check(vram, xr)?;
        if reg > 15 {
            return Err(Refusal::NoRegister);
        }
        if reg == 2 {
            if odd {
                return Ok(self.timer_saved);
            }
            self.timer_saved = (self.timer % 256) as u8;
            return Ok((self.timer / 256) as u8);
        }
        let word = self.word_at(reg);
        if !odd {
            return Ok((word / 256) as u8);
        }
        match reg {
            5 => {
                self.rd_xaddr = self.rd_xaddr.wrapping_add(1);
                self.xdata = self.xr_read(xr, self.rd_xaddr);
            }
            10 | 11 => {
                self.rd_addr = self.rd_addr.wrapping_add(self.rd_incr);
                self.data = vram[place(self.rd_addr, vram.len())];
            }
            _ => {}
        }
        Ok((word % 256) as u8)
    }

    /// The word that a main register reads, `XM_TIMER` apart.
    fn word_at(&self, reg: u8) -> u16 {
        match reg {
            0 => {
                let full = (self.queued as u16) << 14;
                let busy = (self.running as u16) << 13;
                let hblank = (self.in_left_blanking() as u16) << 11;
                let vblank = (self.below_the_picture() as u16) << 10;
                full + busy + hblank + vblank + self.nibble_mask as u16
            }
            1 => self.int_mask as u16 * 256 + self.status as u16,
            3 => self.rd_xaddr,
            4 => self.wr_xaddr,
            5 => self.xdata,
            6 => self.rd_incr,
            7 => self.rd_addr,
            8 => self.wr_incr,
            9 => self.wr_addr,
            10 | 11 => self.data,
            _ => 0,
        }
    }

    /// A timer tick: the timer goes up; a running countdown goes down, and at 0 sets status bit 5 and
    /// starts again.
    pub fn timer_tick(&mut self) -> Result<(), Refusal> {
        self.check_range()?;
        self.timer = self.timer.wrapping_add(1);
        if self.countdown > 0 {
            self.countdown -= 1;
            if self.countdown == 0 {
                self.status |= TIMER;
                self.countdown = self.interval;
            }
        }
        Ok(())
    }

    /// The line is up when some bit is set in both mask and status.
    pub fn interrupt_line(&self) -> Result<bool, Refusal> {
        self.check_range()?;
        Ok(self.int_mask & self.status != 0)
    }
}
