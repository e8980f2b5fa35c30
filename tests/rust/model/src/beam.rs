//! "Beam and copper": change request 3, and the copper table of source document 001.

use crate::{Refusal, State, COPP_CTRL, VIDEO, XR_WORDS};

/// Positions in a line, of which the first are blank.
const POSITIONS: u16 = 800;
const BLANK: u16 = 160;

/// Lines in a frame, of which the first are visible.
const LINES: u16 = 525;
const VISIBLE: u16 = 480;

/// The copper's program: the last words of XR memory.
const PROGRAM: u16 = 1024;
const COPPER: usize = XR_WORDS - PROGRAM as usize;

impl State {
    /// The beam moves on by one native pixel. Then a running copper does one instruction.
    pub fn beam_step(&mut self, vram: &[u16], xr: &mut [u16]) -> Result<(), Refusal> {
        self.check(vram, xr)?;
        self.move_beam();
        if self.copper_running {
            self.do_instruction(xr);
        }
        Ok(())
    }

    pub(crate) fn beam_in_range(&self) -> bool {
        let copper_ok = if self.copper_running {
            self.copper_enabled() && self.copper_word < PROGRAM
        } else {
            self.copper_word == 0
        };
        self.beam_line < LINES && self.beam_position < POSITIONS && copper_ok
    }

    /// Beam and copper as after reset.
    pub(crate) fn at_rest(&self) -> bool {
        self.beam_line == 0
            && self.beam_position == 0
            && !self.copper_running
            && self.copper_word == 0
    }

    pub(crate) fn in_left_blanking(&self) -> bool {
        self.beam_position < BLANK
    }

    pub(crate) fn below_the_picture(&self) -> bool {
        self.beam_line >= VISIBLE
    }

    /// `XR_COPP_CTRL` bit 15.
    pub(crate) fn copper_enabled(&self) -> bool {
        self.xreg[COPP_CTRL] >> 15 == 1
    }

    pub(crate) fn stop_copper(&mut self) {
        self.copper_running = false;
        self.copper_word = 0;
    }

    /// To the next position, line or frame. Line 480 is the frame end; line 0 starts an enabled copper.
    fn move_beam(&mut self) {
        self.beam_position += 1;
        if self.beam_position < POSITIONS {
            return;
        }
        self.beam_position = 0;
        self.beam_line += 1;
        if self.beam_line == VISIBLE {
            self.status |= VIDEO;
        }
        if self.beam_line == LINES {
            self.beam_line = 0;
            if self.copper_enabled() {
                self.copper_running = true;
                self.copper_word = 0;
            }
        }
    }

    /// The instruction at the copper's word: two words of its program, which goes on at its front.
    fn do_instruction(&mut self, xr: &mut [u16]) {
        let first = xr[COPPER + self.copper_word as usize];
        let second = xr[COPPER + self.on_by(1) as usize];
        match first >> 13 {
            0b000 => {
                if self.reached(first, second).unwrap_or(false) {
                    self.copper_word = self.on_by(2);
                }
            }
            0b001 => {
                let skips = self.reached(first, second).unwrap_or(true);
                self.copper_word = self.on_by(if skips { 4 } else { 2 });
            }
            0b010 => self.copper_word = first % PROGRAM,
            0b011 => self.copper_move(xr, first % 0x100, second),
            0b100 => self.copper_move(xr, 0x4000 + first % 0x2000, second),
            0b101 => self.copper_move(xr, 0x8000 + first % 0x200, second),
            0b110 => self.copper_move(xr, 0xC000 + first % 0x800, second),
            _ => self.copper_word = self.on_by(2),
        }
    }

    /// The program address so many words on.
    fn on_by(&self, words: u16) -> u16 {
        (self.copper_word + words) % PROGRAM
    }

    /// A move to an XR address. The copper is on its next instruction by then, so that it stays at 0 if
    /// it stops itself.
    fn copper_move(&mut self, xr: &mut [u16], addr: u16, word: u16) {
        self.copper_word = self.on_by(2);
        if !self.is_held_off(addr) {
            self.xr_write(xr, addr, word);
        }
    }

    /// Has the beam reached the position of this `WAIT` or `SKIP`? No answer where it ignores both axes.
    fn reached(&self, first: u16, second: u16) -> Option<bool> {
        let y = first % 0x800;
        let x = second >> 4 & 0x7FF;
        let pixel_reached = self.beam_position >= BLANK + x;
        let ignores_line = second & 1 == 1;
        let ignores_pixel = second >> 1 & 1 == 1;
        match (ignores_line, ignores_pixel) {
            (false, false) => Some(self.beam_line > y || (self.beam_line == y && pixel_reached)),
            (true, false) => Some(pixel_reached),
            (false, true) => Some(self.beam_line >= y),
            (true, true) => None,
        }
    }
}

#[cfg(test)]
mod tests {
    use super::*;

    const ENABLED: u16 = 0x8000;

    /// An adapter whose copper runs this program.
    struct Adapter {
        s: State,
        vram: Vec<u16>,
        xr: Vec<u16>,
    }

    impl Adapter {
        fn new(program: &[u16]) -> Adapter {
            let mut xr = vec![0; XR_WORDS];
            xr[COPPER..][..program.len()].copy_from_slice(program);
            let mut s = State::reset();
            s.xreg[COPP_CTRL] = ENABLED;
            s.copper_running = true;
            Adapter {
                s,
                vram: vec![0; 256],
                xr,
            }
        }

        /// Step to this place, not line 0's first position; the copper's word then.
        fn step_to(&mut self, line: u16, position: u16) -> u16 {
            (self.s.beam_line, self.s.beam_position) = match position {
                0 => (line - 1, POSITIONS - 1),
                _ => (line, position - 1),
            };
            self.s.beam_step(&self.vram, &mut self.xr).unwrap();
            assert_eq!((self.s.beam_line, self.s.beam_position), (line, position));
            self.s.copper_word
        }

        fn step(&mut self) {
            self.s.beam_step(&self.vram, &mut self.xr).unwrap();
        }
    }

    /// Does this instruction, at word 0, leave the copper at this word with the beam at this place?
    fn goes(instruction: [u16; 2], to: u16, line: u16, position: u16) -> bool {
        Adapter::new(&instruction).step_to(line, position) == to
    }

    #[test]
    fn a_frame_has_420_000_positions_and_one_end() {
        let mut x = Adapter::new(&[]);
        x.s = State::reset();
        let mut ends = Vec::new();
        for _ in 0..420_000 {
            assert_eq!(x.s.status, 0);
            x.step();
            if x.s.status != 0 {
                assert_eq!(x.s.status, 1 << 4);
                ends.push((x.s.beam_line, x.s.beam_position));
                x.s.status = 0;
            }
        }
        assert_eq!(ends, [(480, 0)]);
        assert_eq!(x.s, State::reset());
    }

    #[test]
    fn a_position_is_reached_on_its_line_or_later() {
        // Line 100, pixel 3.
        let (wait, skip) = ([100, 3 << 4], [0x2000 | 100, 3 << 4]);
        for (reached, line, position) in [
            (false, 99, 799),
            (false, 100, 0),
            (false, 100, 160),
            (false, 100, 162),
            (true, 100, 163),
            (true, 100, 799),
            (true, 101, 0),
            (true, 524, 1),
        ] {
            assert_eq!(goes(wait, 2, line, position), reached);
            assert_eq!(goes(wait, 0, line, position), !reached);
            assert_eq!(goes(skip, 4, line, position), reached);
            assert_eq!(goes(skip, 2, line, position), !reached);
        }
        // X is 0: not in left blanking.
        assert!(goes([100, 0], 0, 100, 159));
        assert!(goes([100, 0], 2, 100, 160));
        // X is 639, and one more, which no line has.
        assert!(goes([500, 639 << 4], 2, 500, 799));
        assert!(goes([500, 640 << 4], 0, 500, 799));
    }

    #[test]
    fn one_axis_decides_alone() {
        let by_pixel = [400, 3 << 4 | 0b01];
        assert!(goes(by_pixel, 2, 5, 163));
        assert!(goes(by_pixel, 0, 5, 162));
        assert!(goes(by_pixel, 0, 401, 0));
        let by_line = [400, 3 << 4 | 0b10];
        assert!(goes(by_line, 0, 399, 799));
        assert!(goes(by_line, 2, 400, 0));
        let by_none = |code: u16| [code, 0b11];
        assert!(goes(by_none(0), 0, 524, 799));
        assert!(goes(by_none(0x2000), 4, 1, 0));
    }

    #[test]
    fn moves_go_to_their_memories() {
        let mut x = Adapter::new(&[
            0x7F00, 0x1111, // MOVER to 0x00, its flags set
            0x93FF, 0x2222, // MOVEF to tile word 5,119
            0x9400, 0x3333, // and to 5,120: dropped
            0xBFFF, 0x4444, // MOVEP to colour word 511
            0xDBFF, 0x5555, // MOVEC to copper word 1,023
            0xC400, 0x6666, // and to 1,024: dropped
            0xFFFF, 0x7777, // passed over
            0x4C01, 0x8888, // JMP to 1,025, word 1
        ]);
        let mut expected = x.xr.clone();
        (expected[5119], expected[5631], expected[6655]) = (0x2222, 0x4444, 0x5555);
        for word in [2, 4, 6, 8, 10, 12, 14, 1] {
            assert_eq!(x.step_to(200, 300), word);
        }
        assert_eq!(x.s.xreg[0x00], 0x1111);
        assert_eq!(x.xr, expected);
    }

    #[test]
    fn a_program_goes_on_at_its_front() {
        // MOVER to 0x04 of word 0, which is WAIT then; at word 1,022 both words are passed over.
        let mut x = Adapter::new(&[0x0123]);
        x.xr[COPPER + 1023] = 0x6004;
        x.s.copper_word = 1023;
        assert_eq!(x.step_to(9, 9), 1);
        assert_eq!(x.s.xreg[0x04], 0x0123);
        x.xr[COPPER + 1022] = 0xE000;
        x.s.copper_word = 1022;
        assert_eq!(x.step_to(9, 9), 0);
        x.xr[COPPER + 1022] = 0x2000;
        x.s.copper_word = 1022;
        assert_eq!(x.step_to(9, 9), 2);
    }

    #[test]
    fn line_0_sets_an_enabled_copper_running() {
        let before = |ctrl: u16, running: bool| {
            let mut x = Adapter::new(&[0xE000, 0]);
            x.s.xreg[COPP_CTRL] = ctrl;
            x.s.copper_running = running;
            x.s.copper_word = if running { 77 } else { 0 };
            (x.s.beam_line, x.s.beam_position) = (524, 799);
            x
        };
        for running in [false, true] {
            let mut x = before(ENABLED, running);
            x.step();
            // Started, and the first instruction done.
            assert_eq!((x.s.copper_running, x.s.copper_word), (true, 2));
        }
        let mut x = before(0x7FFF, false);
        x.step();
        assert!(x.s.at_rest());
        // Enabled on the way, it waits for line 0.
        x.s.xr_write(&mut x.xr, 0x01, ENABLED);
        x.step();
        assert!(!x.s.copper_running);
    }

    #[test]
    fn the_copper_writes_registers_as_the_host_does() {
        let mut x = Adapter::new(&[
            0x6003, 0, // the scanline: status bit 4
            0x6049, 5, // starts a blit
            0x6049, 6, // queues one
            0x6049, 7, // dropped, and this one
            0x6040, 8, //
            0x603F, 9, // nothing stands there
            0x6001, 0x7FFF, // stops the copper
        ]);
        for _ in 0..3 {
            x.step();
        }
        assert_eq!((x.s.status, x.s.running, x.s.queued), (1 << 4, true, true));
        let blit = x.s.blit;
        assert_eq!((x.s.copied.words, blit.words), (5, 6));
        for word in [8, 10, 12] {
            x.step();
            assert_eq!((x.s.copper_word, x.s.blit), (word, blit));
        }
        x.step();
        assert_eq!((x.s.copper_running, x.s.copper_word), (false, 0));
        assert_eq!(x.s.xreg[COPP_CTRL], 0x7FFF);
        x.step();
        assert!(!x.s.copper_running);
    }
}
