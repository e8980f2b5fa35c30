//! "Tell me why this pixel is as it is": change request 5. An account of every nibble, which keeps all
//! the reaches, and the answer for one place, which keeps only the fate.

use crate::blitter::colour_held;
use crate::{is_vram_len, lets, place, Blit, Refusal, State};

/// `WORDS` among the blitter's registers: a write to it starts an idle engine.
const WORDS: usize = 9;

/// What holds a nibble back.
#[derive(Clone, Copy, Debug, Default, PartialEq, Eq)]
pub struct Reasons {
    pub first_mask: bool,
    pub last_mask: bool,
    pub colour_test: bool,
}

/// A word of the blit, by its line and word from 0, that came to a nibble's place, and what held the
/// nibble back there, if anything did.
#[derive(Clone, Copy, Debug, PartialEq, Eq)]
pub struct Reach {
    pub line: u16,
    pub word: u16,
    pub held: Reasons,
}

impl Reach {
    /// What a word of the blit of these registers did to nibble `i` of its place.
    fn of(regs: &Blit, done: &Word, i: u32) -> Reach {
        let (first, last) = (done.word == 0, done.word == regs.words);
        let test = regs.ctrl >> 4 & 1 == 1;
        Reach {
            line: done.line,
            word: done.word,
            held: Reasons {
                first_mask: first && !lets(regs.shift / 0x1000, i),
                last_mask: last && !lets(regs.shift / 0x100 % 16, i),
                colour_test: test && lets(colour_held(done.s, regs.ctrl), i),
            },
        }
    }

    /// Did it write the nibble?
    pub fn wrote(&self) -> bool {
        self.held == Reasons::default()
    }
}

/// A word that was done: its line and word, its place in VRAM, its source, shifted, and its mask.
struct Word {
    line: u16,
    word: u16,
    at: usize,
    s: u16,
    mask: u8,
}

impl Word {
    /// Do the next word of a running blit.
    fn next(running: &mut State, vram: &mut [u16]) -> Word {
        let (line, word) = (running.line, running.word);
        let at = place(running.copied.dst_d, vram.len());
        let (s, mask) = running.do_word(vram);
        Word {
            line,
            word,
            at,
            s,
            mask,
        }
    }
}

/// What a blit did to a nibble.
#[derive(Clone, Copy, Debug, PartialEq, Eq)]
pub enum Fate {
    NeverReached,
    /// No reach wrote it; all that held it back at the last.
    HeldBack(Reasons),
    /// The line and word of the last write.
    Written {
        line: u16,
        word: u16,
    },
}

impl Fate {
    /// The fate after one more reach.
    fn then(self, reach: Reach) -> Fate {
        match self {
            _ if reach.wrote() => Fate::Written {
                line: reach.line,
                word: reach.word,
            },
            Fate::Written { .. } => self,
            _ => Fate::HeldBack(reach.held),
        }
    }
}

/// All reaches of each nibble, by place and nibble, in the order of the blit's steps.
pub struct Account(Vec<[Vec<Reach>; 4]>);

impl Account {
    /// Do the whole blit of these registers on VRAM and keep account.
    pub fn of(regs: Blit, vram: &mut [u16]) -> Account {
        let mut reaches = vec![<[Vec<Reach>; 4]>::default(); vram.len()];
        let mut s = started(regs);
        while s.running {
            let done = Word::next(&mut s, vram);
            for (i, nibble) in (0..).zip(&mut reaches[done.at]) {
                let reach = Reach::of(&regs, &done, i);
                let in_mask = lets(done.mask.into(), i);
                assert_eq!(reach.wrote(), in_mask, "the mask knows another reason");
                nibble.push(reach);
            }
        }
        Account(reaches)
    }

    /// The reaches of nibble `i`, 0 to 3 from the left, of the word at this address.
    pub fn reaches(&self, address: usize, i: usize) -> &[Reach] {
        &self.0[address][i]
    }

    /// The fate of that nibble.
    pub fn fate(&self, address: usize, i: usize) -> Fate {
        let reaches = self.reaches(address, i);
        let last_write = reaches.iter().rev().find(|reach| reach.wrote());
        match (last_write, reaches.last()) {
            (Some(&Reach { line, word, .. }), _) => Fate::Written { line, word },
            (None, Some(last)) => Fate::HeldBack(last.held),
            (None, None) => Fate::NeverReached,
        }
    }
}

/// An idle engine on which the blit of these registers has been started.
fn started(regs: Blit) -> State {
    let mut s = State::reset();
    s.blit = regs;
    s.blit_write(WORDS, regs.words);
    s
}

/// Why nibble `i` at this address is as it is: what the whole blit of these registers did to it, begun
/// on the memory before. The second memory ends as the blit leaves it.
pub fn why(
    regs: Blit,
    before: &[u16],
    work: &mut [u16],
    address: u32,
    i: u32,
) -> Result<Fate, Refusal> {
    if !is_vram_len(before.len()) || !is_vram_len(work.len()) || before.len() != work.len() {
        return Err(Refusal::VramLength);
    }
    if i > 3 || address as usize >= before.len() {
        return Err(Refusal::NoPlace);
    }
    work.copy_from_slice(before);
    let mut s = started(regs);
    let mut fate = Fate::NeverReached;
    while s.running {
        let done = Word::next(&mut s, work);
        if done.at == address as usize {
            fate = fate.then(Reach::of(&regs, &done, i));
        }
    }
    Ok(fate)
}

#[cfg(test)]
mod tests {
    use super::*;

    const NEVER: Fate = Fate::NeverReached;
    const FIRST: Fate = held(true, false, false);
    const LAST: Fate = held(false, true, false);
    const EDGES: Fate = held(true, true, false);
    const COLOUR: Fate = held(false, false, true);
    const ALL: Fate = held(true, true, true);

    const fn held(first_mask: bool, last_mask: bool, colour_test: bool) -> Fate {
        Fate::HeldBack(Reasons {
            first_mask,
            last_mask,
            colour_test,
        })
    }

    fn at(line: u16, word: u16) -> Fate {
        Fate::Written { line, word }
    }

    /// Ten registers in the order of their addresses.
    fn blit(regs: [u16; 10]) -> Blit {
        let mut s = State::reset();
        for (i, &word) in regs.iter().enumerate() {
            s.blit_write(i, word);
        }
        s.blit
    }

    /// Memory of 256 words, FFFF but for these from an address on.
    fn memory(address: usize, words: &[u16]) -> Vec<u16> {
        let mut memory = vec![0xFFFF; 256];
        memory[address..][..words.len()].copy_from_slice(words);
        memory
    }

    /// The blit ends with these words, each with the fates of its nibbles, from an address on, and has not
    /// reached any other.
    fn ends(regs: [u16; 10], before: &[u16], address: usize, words: &[(u16, [Fate; 4])]) {
        let mut after = before.to_vec();
        let account = Account::of(blit(regs), &mut after);
        for place in 0..256usize {
            let (word, fates) = match words.get(place.wrapping_sub(address)) {
                Some(&known) => known,
                None => (before[place], [NEVER; 4]),
            };
            assert_eq!(after[place], word, "word {}", place);
            for (i, fate) in fates.into_iter().enumerate() {
                assert_eq!(account.fate(place, i), fate, "word {}, nibble {}", place, i);
                let mut work = vec![0x5A5A; 256];
                let answer = why(blit(regs), before, &mut work, place as u32, i as u32);
                assert_eq!((answer, &work), (Ok(fate), &after));
            }
        }
    }

    /// The bench table's rows of the blitter: each nibble that kept its F is held back.
    #[test]
    fn the_bench_table_is_explained() {
        let open = memory(0, &[]);
        let row = |ctrl: u16, constant: u16, shift: u16, word: u16, fates: [Fate; 4]| {
            let regs = [ctrl, 0, 0, 0, constant, 0, 0, shift, 0, 0];
            ends(regs, &open, 0, &[(word, fates)]);
        };
        let [w0, w1, w2] = [at(0, 0), at(0, 1), at(0, 2)];
        row(0x0A11, 0x0B0A, 0xFF00, 0xFBFF, [COLOUR, w0, COLOUR, COLOUR]);
        row(0x0A31, 0x0B0A, 0xFF00, 0x0BFF, [w0, w0, COLOUR, COLOUR]);
        row(0x0001, 0x1234, 0x7E00, 0xF23F, [FIRST, w0, w0, LAST]);

        let shifted = [
            (0xF123, [FIRST, w0, w0, w0]),
            (0x4567, [w1; 4]),
            (0x8FFF, [w2, LAST, LAST, LAST]),
        ];
        let before = memory(16, &[0x1234, 0x5678, 0x9ABC]);
        ends([0, 0, 0, 0, 16, 0, 0, 0x7801, 0, 2], &before, 0, &shifted);
        let overlapping = [(0xA, [w0; 4]), (0xA, [w1; 4]), (0xA, [w2; 4])];
        let regs = [0, 0, 0, 0, 0x10, 0, 0x11, 0xFF00, 0, 2];
        ends(regs, &memory(0x10, &[0xA]), 0x11, &overlapping);
    }

    /// The rows with lines of one word.
    #[test]
    fn lines_are_counted_from_0() {
        let open = memory(0, &[]);
        let [l0, l1, l2] = [at(0, 0), at(1, 0), at(2, 0)];
        let rising = [(7, [l0; 4]), (8, [l1; 4]), (9, [l2; 4])];
        ends([1, 0, 0, 1, 7, 0, 0, 0xFF00, 2, 0], &open, 0, &rising);
        let one_line = [(7, [l0; 4])];
        ends(
            [1, 0, 0, 1, 7, 0, 0, 0xFF00, 0x8000, 0],
            &open,
            0,
            &one_line,
        );
        let wrapping = [(0x0123, [l0; 4]), (0x4567, [l1; 4])];
        let before = memory(16, &[0x1234, 0x5678]);
        ends([0, 0, 0, 0, 16, 0, 0, 0xFF01, 1, 0], &before, 0, &wrapping);
    }

    /// The masks are 3 and 5. T is 12, S 1212: with the colour test every nibble is held back.
    #[test]
    fn all_reasons_are_given() {
        let open = memory(0, &[]);
        let (first, last) = (held(true, false, true), held(false, true, true));
        let with_test = [(0xFFFF, [ALL, first, last, COLOUR])];
        let without = [(0xFFF2, [EDGES, FIRST, LAST, at(0, 0)])];
        for (ctrl, word) in [(0x1211, with_test), (0x1201, without)] {
            let regs = [ctrl, 0, 0, 0, 0x1212, 0, 3, 0x3500, 0, 0];
            ends(regs, &open, 3, &word);
        }
    }

    /// Lines of one word, all at 9: `MOD_D` is -1, and the constant goes up by 1. T is F7.
    #[test]
    fn a_write_counts_whatever_else_held_back() {
        let at_9 =
            |constant: u16, lines: u16| [0xF711, 0, 0, 1, constant, 0xFFFF, 9, 0xFF00, lines, 0];
        let before = memory(9, &[0]);
        let [w0, w1, w2] = [at(0, 0), at(1, 0), at(2, 0)];
        // 6 is written.
        ends(at_9(6, 0), &before, 9, &[(0x0006, [w0; 4])]);
        // 7 is held back later, and 8 is written again.
        ends(at_9(6, 1), &before, 9, &[(0x0006, [w1, w1, w1, w0])]);
        ends(at_9(6, 2), &before, 9, &[(0x0008, [w2; 4])]);
        // 7 is held back first.
        ends(at_9(7, 0), &before, 9, &[(0x0000, [w0, w0, w0, COLOUR])]);
        ends(at_9(7, 1), &before, 9, &[(0x0008, [w1; 4])]);
    }

    /// Lines of two words, each line a word before the one above: `MOD_D` is -3. The masks are closed.
    #[test]
    fn the_reasons_of_the_last_reach_are_given() {
        let closed = |lines: u16| [0x0011, 0, 0, 0, 0xF0F0, 0xFFFD, 9, 0, lines, 1];
        let open = memory(0, &[]);
        let (first, last) = (held(true, false, true), held(false, true, true));
        let firsts = (0xFFFF, [FIRST, first, FIRST, first]);
        let lasts = (0xFFFF, [LAST, last, LAST, last]);
        ends(closed(0), &open, 9, &[firsts, lasts]);
        ends(closed(1), &open, 8, &[firsts, lasts, lasts]);
        ends(closed(2), &open, 7, &[firsts, lasts, lasts, lasts]);
    }

    /// From FFFF to 0, which are the places 255 and 0 of 256 words.
    #[test]
    fn places_are_taken_modulo_the_length() {
        let regs = [1, 0, 0, 0, 0x1234, 0, 0xFFFF, 0xFF00, 0, 1];
        let mut work = memory(0, &[]);
        let account = Account::of(blit(regs), &mut work);
        assert_eq!((work[255], work[0]), (0x1234, 0x1234));
        let fates = [255, 0, 1].map(|address| account.fate(address, 3));
        assert_eq!(fates, [at(0, 0), at(0, 1), NEVER]);
    }

    #[test]
    fn a_value_that_stays_can_be_written() {
        let regs = [1, 0, 0, 0, 0xFFFF, 0, 5, 0xFF00, 0, 0];
        ends(regs, &memory(0, &[]), 5, &[(0xFFFF, [at(0, 0); 4])]);
    }

    /// The lengths first, then the place; both memories stay.
    #[test]
    fn no_place_and_no_vram_are_refused() {
        use Refusal::{NoPlace, VramLength};
        let before = [0x1234; 1024];
        for (lengths, address, i, refusal) in [
            ([255, 255], 0, 0, VramLength),
            ([256, 257], 0, 0, VramLength),
            ([0, 256], 256, 4, VramLength),
            ([512, 256], 0, 0, VramLength),
            ([512, 1024], 600, 3, VramLength),
            ([512, 512], 512, 3, NoPlace),
            ([512, 512], u32::MAX, 3, NoPlace),
            ([512, 512], 511, 4, NoPlace),
            ([512, 512], 511, u32::MAX, NoPlace),
        ] {
            let mut work = [0x5A5A; 1024];
            let (b, w) = (&before[..lengths[0]], &mut work[..lengths[1]]);
            let answer = why(Blit::default(), b, w, address, i);
            assert_eq!(answer, Err(refusal), "{:?}", lengths);
            assert_eq!(work, [0x5A5A; 1024]);
        }
    }
}
