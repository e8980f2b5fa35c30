//! "The blitter": starting, queueing, and one word at a time. Change request 2: its mask is answered.
//! Change request 4: the shifter is emptied only when a blit starts or ends or by a constant.

use crate::{masked, nibble, place, Blit, Refusal, State};

const BLITTER: u8 = 1 << 6;

/// What a step or a run answers: the words done, and the four-bit mask of the nibbles that the last of
/// them wrote, 0 if it did none.
#[derive(Clone, Copy, Debug, Default, PartialEq, Eq)]
pub struct Blitted {
    pub count: u64,
    pub mask: u8,
}

/// Words left in the running blit and in the queued one.
pub fn words_left(s: &State) -> u64 {
    let width = |b: &Blit| b.words as u64 + 1;
    let height = |b: &Blit| b.lines as u64 % 32768 + 1;
    let mut left = 0;
    if s.running {
        let done = s.line as u64 * width(&s.copied) + s.word as u64;
        left += width(&s.copied) * height(&s.copied) - done;
    }
    if s.queued {
        left += width(&s.blit) * height(&s.blit);
    }
    left
}

impl State {
    /// A write to blitter register `i`, 0 for `CTRL` to 9 for `WORDS`.
    pub(crate) fn blit_write(&mut self, i: usize, word: u16) {
        match i {
            0 => self.blit.ctrl = word,
            1 => self.blit.andc = word,
            2 => self.blit.xor = word,
            3 => self.blit.mod_s = word,
            4 => self.blit.src_s = word,
            5 => self.blit.mod_d = word,
            6 => self.blit.dst_d = word,
            7 => self.blit.shift = word,
            8 => self.blit.lines = word,
            _ => {
                self.blit.words = word;
                if self.running {
                    self.queued = true;
                } else {
                    self.start();
                }
            }
        }
    }

    /// Copy all ten registers, `LINES` taken mod 32,768, and start.
    fn start(&mut self) {
        self.running = true;
        self.copied = self.blit;
        self.copied.lines %= 32768;
        self.line = 0;
        self.word = 0;
        self.kept = 0;
    }

    /// One blit step: one word. Counts 1, or 0 when idle.
    pub fn blit_step(&mut self, vram: &mut [u16], xr: &[u16]) -> Result<Blitted, Refusal> {
        self.check(vram, xr)?;
        if !self.running {
            return Ok(Blitted { count: 0, mask: 0 });
        }
        let (_, mask) = self.do_word(vram);
        Ok(Blitted { count: 1, mask })
    }

    /// A run of up to `n` steps; counts those that did a word.
    pub fn blit_run(&mut self, vram: &mut [u16], xr: &[u16], n: u64) -> Result<Blitted, Refusal> {
        self.check(vram, xr)?;
        let (mut count, mut mask) = (0, 0);
        while count < n && self.running {
            (_, mask) = self.do_word(vram);
            count += 1;
        }
        Ok(Blitted { count, mask })
    }

    /// One word, by the chapter's five points; its source, shifted, and its mask.
    pub(crate) fn do_word(&mut self, vram: &mut [u16]) -> (u16, u8) {
        let s = self.source(vram);
        let result = (s & !self.copied.andc) ^ self.copied.xor;
        let mask = self.not_held_back(s);
        let at = place(self.copied.dst_d, vram.len());
        vram[at] = masked(vram[at], result, mask);
        self.go_on();
        (s, mask as u8)
    }

    /// 1 and 2: the source word, shifted.
    fn source(&mut self, vram: &[u16]) -> u16 {
        let constant = self.copied.ctrl & 1 == 1;
        if constant {
            self.kept = 0;
            return self.copied.src_s;
        }
        let read = vram[place(self.copied.src_s, vram.len())];
        self.copied.src_s = self.copied.src_s.wrapping_add(1);
        let s = shifted(self.kept, read, self.copied.shift % 4);
        self.kept = read;
        s
    }

    /// Is this word its line's last?
    fn is_last(&self) -> bool {
        self.word == self.copied.words
    }

    /// 4: a four-bit mask of the nibbles that are not held back.
    fn not_held_back(&self, s: u16) -> u16 {
        let mut mask = 0b1111;
        if self.word == 0 {
            mask &= self.copied.shift / 0x1000;
        }
        if self.is_last() {
            mask &= self.copied.shift / 0x100 % 16;
        }
        if self.copied.ctrl >> 4 & 1 == 1 {
            mask &= !colour_held(s, self.copied.ctrl);
        }
        mask
    }

    /// 5: on to the next word, line, or blit.
    fn go_on(&mut self) {
        self.copied.dst_d = self.copied.dst_d.wrapping_add(1);
        if !self.is_last() {
            self.word += 1;
            return;
        }
        self.copied.src_s = self.copied.src_s.wrapping_add(self.copied.mod_s);
        self.copied.dst_d = self.copied.dst_d.wrapping_add(self.copied.mod_d);
        self.word = 0;
        if self.line < self.copied.lines {
            self.line += 1;
            return;
        }
        self.status |= BLITTER;
        if self.queued {
            self.queued = false;
            self.start();
        } else {
            self.running = false;
            self.copied = Blit::default();
            self.line = 0;
            self.kept = 0;
        }
    }
}

/// The word moved right by `k` nibbles; the low nibbles of the word before enter at the top.
fn shifted(before: u16, word: u16, k: u16) -> u16 {
    let pair = before as u32 * 0x10000 + word as u32;
    (pair >> (4 * k)) as u16
}

/// A four-bit mask of the nibbles that the colour test holds back: those of `s` equal to T, the upper
/// byte of `CTRL`, its upper nibble for nibbles 0 and 2, its lower for 1 and 3. With bit 5 whole bytes.
pub(crate) fn colour_held(s: u16, ctrl: u16) -> u16 {
    let t = ctrl / 256;
    let t_twice = t * 256 + t;
    let equal = |i: u32| nibble(s, i) == nibble(t_twice, i);
    let by_bytes = ctrl >> 5 & 1 == 1;
    let held = |i: u32| {
        if by_bytes {
            let high = i / 2 * 2;
            equal(high) && equal(high + 1)
        } else {
            equal(i)
        }
    };
    (0..4).fold(0, |mask, i| mask << 1 | held(i) as u16)
}

#[cfg(test)]
mod tests {
    use super::*;

    #[test]
    fn the_shifter_moves_whole_nibbles() {
        assert_eq!(shifted(0, 0x1234, 1), 0x0123);
        assert_eq!(shifted(0x1234, 0x5678, 1), 0x4567);
        assert_eq!(shifted(0x1234, 0x5678, 3), 0x2345);
        assert_eq!(shifted(0x1234, 0x5678, 0), 0x5678);
    }

    #[test]
    fn the_colour_test_holds_back_equal_nibbles_or_bytes() {
        assert_eq!(colour_held(0x0B0A, 0x0A10), 0b1011);
        assert_eq!(colour_held(0x0B0A, 0x0A30), 0b0011);
    }
    /// An adapter with these blits started, one running and one queued at most.
    fn started(blits: &[[u16; 10]]) -> (State, Vec<u16>, Vec<u16>) {
        let mut s = State::reset();
        for blit in blits {
            for (i, &word) in blit.iter().enumerate() {
                s.blit_write(i, word);
            }
        }
        (s, vec![0xFFFF; 256], vec![0; crate::XR_WORDS])
    }

    /// Shift 1, masks open, sources 1234 and 5678.
    #[test]
    fn the_shifter_does_not_empty_between_lines_but_between_blits() {
        let two_lines: &[_] = &[[0, 0, 0, 0, 16, 0, 0, 0xFF01, 1, 0]];
        let two_blits: &[_] = &[
            [0, 0, 0, 0, 16, 0, 0, 0xFF01, 0, 0],
            [0, 0, 0, 0, 17, 0, 1, 0xFF01, 0, 0],
        ];
        for (blits, second) in [(two_lines, 0x4567), (two_blits, 0x0567)] {
            let (mut s, mut vram, xr) = started(blits);
            vram[16..18].copy_from_slice(&[0x1234, 0x5678]);
            assert_eq!(s.blit_run(&mut vram, &xr, 9).unwrap().count, 2);
            assert_eq!(vram[..3], [0x0123, second, 0xFFFF]);
            assert_eq!(s.kept, 0);
        }
    }

    #[test]
    fn a_step_answers_the_mask_after_edges_and_colour_test() {
        // Two lines of two words, edges 7 and E; the second line's constant is 1 more, 0x0B0B.
        let (mut s, mut vram, xr) = started(&[[0x0A11, 0, 0, 1, 0x0B0A, 0, 0, 0x7E00, 1, 1]]);
        for mask in [0b0100, 0b0100, 0b0101, 0b0100] {
            assert_eq!(s.blit_step(&mut vram, &xr), Ok(Blitted { count: 1, mask }));
        }
        assert_eq!(vram[..4], [0xFBFF, 0xFBFF, 0xFBFB, 0xFBFF]);
        let idle = Blitted { count: 0, mask: 0 };
        assert_eq!(s.blit_step(&mut vram, &xr), Ok(idle));
        assert_eq!(s.blit_step(&mut [], &xr), Err(Refusal::VramLength));
    }

    #[test]
    fn a_run_answers_the_mask_of_its_last_word() {
        // Three words, then two of the queued blit.
        let blits = [
            [1, 0, 0, 0, 0x1234, 0, 0, 0x7E00, 0, 2],
            [1, 0, 0, 0, 0x5678, 0, 8, 0x3C00, 0, 1],
        ];
        for (n, mask) in (0..).zip([0, 0x7, 0xF, 0xE, 0x3, 0xC, 0xC]) {
            let (mut s, mut vram, xr) = started(&blits);
            let count = n.min(5);
            assert_eq!(
                s.blit_run(&mut vram, &xr, n),
                Ok(Blitted { count, mask }),
                "a run of {}",
                n
            );
        }
    }
}
