//! "Save the adapter, and load it again": change request 1. docs/SAVED.md fixes the state's order. Change
//! request 3: only an adapter at rest is saved, and a load gives rest.

use std::slice::ChunksExact;

use crate::{is_vram_len, Blit, Refusal, State, XR_WORDS};

/// One byte for the number of sections, then a kind, a start and a length for each.
const CONTENTS: usize = 1 + SECTIONS * ENTRY;
const SECTIONS: usize = 3;
const ENTRY: usize = 1 + 4 + 4;

/// 75 words of two bytes: all but beam and copper.
const STATE_BYTES: usize = 150;

impl State {
    /// Write the file at the front of the room; its length.
    pub fn save(&self, vram: &[u16], xr: &[u16], room: &mut [u8]) -> Result<u64, Refusal> {
        self.check(vram, xr)?;
        let state = self.in_file_order();
        let bodies = [&state[..], xr, vram];
        let length = CONTENTS + bodies.iter().map(|body| 2 * body.len()).sum::<usize>();
        let file = room.get_mut(..length).ok_or(Refusal::RoomTooShort)?;
        if !self.at_rest() {
            return Err(Refusal::NotAtRest);
        }

        let (contents, mut rest) = file.split_at_mut(CONTENTS);
        contents[0] = SECTIONS as u8;
        let mut start = CONTENTS;
        let entries = contents[1..].chunks_exact_mut(ENTRY);
        for ((kind, body), entry) in (1..).zip(bodies).zip(entries) {
            let bytes = 2 * body.len();
            entry[0] = kind;
            entry[1..5].copy_from_slice(&(start as u32).to_be_bytes());
            entry[5..9].copy_from_slice(&(bytes as u32).to_be_bytes());
            start += bytes;

            let (place, behind) = rest.split_at_mut(bytes);
            for (pair, word) in place.chunks_exact_mut(2).zip(body) {
                pair.copy_from_slice(&word.to_be_bytes());
            }
            rest = behind;
        }
        Ok(length as u64)
    }

    /// Become the adapter whose file this is.
    pub fn load(&mut self, vram: &mut [u16], xr: &mut [u16], file: &[u8]) -> Result<(), Refusal> {
        self.check(vram, xr)?;
        let (state, [xr_body, vram_body]) = parts(file).ok_or(Refusal::NotSaved)?;
        if vram_body.len() != 2 * vram.len() {
            return Err(Refusal::OtherVram);
        }
        *self = state;
        for (body, words) in [(xr_body, xr), (vram_body, vram)] {
            for (word, pair) in words.iter_mut().zip(body.chunks_exact(2)) {
                *word = u16::from_be_bytes([pair[0], pair[1]]);
            }
        }
        Ok(())
    }

    /// The state's words in the order of the table in docs/SAVED.md.
    fn in_file_order(&self) -> Vec<u16> {
        let mut words = Vec::with_capacity(STATE_BYTES / 2);
        words.extend(self.latch.map(u16::from));
        words.extend([self.rd_xaddr, self.wr_xaddr, self.xdata]);
        words.extend([self.rd_incr, self.rd_addr, self.wr_incr, self.wr_addr]);
        words.extend([self.data, u16::from(self.nibble_mask)]);
        words.extend([self.timer, self.countdown, self.interval]);
        words.extend([self.timer_saved, self.int_mask].map(u16::from));
        words.extend([u16::from(self.queued), u16::from(self.status)]);
        words.extend([u16::from(self.running), self.line, self.word, self.kept]);
        words.extend(registers(&self.copied));
        words.extend(STORED.map(|at| self.xreg[at]));
        words.extend(registers(&self.blit));
        words
    }
}

/// The stored XR registers by address.
const STORED: [usize; 19] = [
    0x00, 0x01, 0x02, 0x04, 0x05, 0x10, 0x11, 0x12, 0x13, 0x14, 0x15, 0x16, 0x18, 0x19, 0x1A, 0x1B,
    0x1C, 0x1D, 0x1E,
];

/// The blitter's registers in the order of their addresses.
fn registers(b: &Blit) -> [u16; 10] {
    [
        b.ctrl, b.andc, b.xor, b.mod_s, b.src_s, b.mod_d, b.dst_d, b.shift, b.lines, b.words,
    ]
}

/// The state, and the bodies of XR memory and of VRAM, if the file is a saved adapter.
fn parts(file: &[u8]) -> Option<(State, [&[u8]; 2])> {
    let [state, xr, vram] = bodies(file)?;
    let lengths = state.len() == STATE_BYTES
        && xr.len() == 2 * XR_WORDS
        && vram.len() % 2 == 0
        && is_vram_len(vram.len() / 2);
    if !lengths {
        return None;
    }
    let state = Body(state.chunks_exact(2)).state()?;
    state.in_range().then_some((state, [xr, vram]))
}

/// The three bodies: their kinds in order, each from where the one before it ends to where its length
/// says, the last to the file's end.
fn bodies(file: &[u8]) -> Option<[&[u8]; SECTIONS]> {
    let number = |bytes: &[u8]| bytes.iter().fold(0, |n, &byte| n << 8 | byte as usize);
    let contents = file.get(..CONTENTS)?;
    if contents[0] as usize != SECTIONS {
        return None;
    }
    let mut found = [&file[..0]; SECTIONS];
    let mut rest = &file[CONTENTS..];
    for (i, entry) in contents[1..].chunks_exact(ENTRY).enumerate() {
        let (kind, start, length) = (entry[0], number(&entry[1..5]), number(&entry[5..9]));
        let begun = file.len() - rest.len();
        if kind as usize != i + 1 || start != begun || length > rest.len() {
            return None;
        }
        let (body, behind) = rest.split_at(length);
        found[i] = body;
        rest = behind;
    }
    rest.is_empty().then_some(found)
}

/// The state's body, read from the front.
struct Body<'a>(ChunksExact<'a, u8>);

impl Body<'_> {
    fn word(&mut self) -> Option<u16> {
        let pair = self.0.next()?;
        Some(u16::from_be_bytes([pair[0], pair[1]]))
    }

    fn byte(&mut self) -> Option<u8> {
        u8::try_from(self.word()?).ok()
    }

    fn flag(&mut self) -> Option<bool> {
        match self.word()? {
            0 => Some(false),
            1 => Some(true),
            _ => None,
        }
    }

    fn blit(&mut self) -> Option<Blit> {
        Some(Blit {
            ctrl: self.word()?,
            andc: self.word()?,
            xor: self.word()?,
            mod_s: self.word()?,
            src_s: self.word()?,
            mod_d: self.word()?,
            dst_d: self.word()?,
            shift: self.word()?,
            lines: self.word()?,
            words: self.word()?,
        })
    }

    /// The fields as they stand in the table in docs/SAVED.md, beam and copper at rest, or nothing where
    /// a word is no byte or flag but should be one.
    fn state(&mut self) -> Option<State> {
        let mut s = State::reset();
        for latch in s.latch.iter_mut() {
            *latch = self.byte()?;
        }
        s.rd_xaddr = self.word()?;
        s.wr_xaddr = self.word()?;
        s.xdata = self.word()?;
        s.rd_incr = self.word()?;
        s.rd_addr = self.word()?;
        s.wr_incr = self.word()?;
        s.wr_addr = self.word()?;
        s.data = self.word()?;
        s.nibble_mask = self.byte()?;
        s.timer = self.word()?;
        s.countdown = self.word()?;
        s.interval = self.word()?;
        s.timer_saved = self.byte()?;
        s.int_mask = self.byte()?;
        s.queued = self.flag()?;
        s.status = self.byte()?;
        s.running = self.flag()?;
        s.line = self.word()?;
        s.word = self.word()?;
        s.kept = self.word()?;
        s.copied = self.blit()?;
        for at in STORED {
            s.xreg[at] = self.word()?;
        }
        s.blit = self.blit()?;
        Some(s)
    }
}

#[cfg(test)]
mod tests {
    use super::*;

    #[test]
    fn a_reset_adapter_has_this_file() {
        let (mut vram, mut xr) = (vec![0; 256], vec![0; XR_WORDS]);
        (vram[255], xr[1]) = (0x1234, 0xABCD);
        let mut room = vec![0xEE; 14_003];
        let saved = State::reset().save(&vram, &xr, &mut room);
        assert_eq!(saved, Ok(14_002));
        let contents = [
            [3].as_slice(),
            &[1, 0, 0, 0, 28, 0, 0, 0, 150],
            &[2, 0, 0, 0, 178, 0, 0, 0x34, 0],
            &[3, 0, 0, 0x34, 0xB2, 0, 0, 2, 0],
        ];
        assert_eq!(room[..28], contents.concat());
        let others: Vec<_> = (28..).zip(&room[28..]).filter(|&(_, &b)| b != 0).collect();
        let by_hand = [
            (77, &15),
            (128, &2),
            (129, &0x80),
            (180, &0xAB),
            (181, &0xCD),
            (14_000, &0x12),
            (14_001, &0x34),
            (14_002, &0xEE),
        ];
        assert_eq!(others, by_hand);
    }

    #[test]
    fn bodies_stand_one_behind_the_other() {
        let mut file = vec![0; 28 + 6];
        file[0] = 3;
        for (i, start) in [(1, 28), (2, 30), (3, 31)] {
            file[9 * i - 8] = i as u8;
            file[9 * i - 4] = start;
        }
        (file[9], file[18], file[27]) = (2, 1, 3);
        file[28..].copy_from_slice(&[1, 2, 3, 4, 5, 6]);
        assert_eq!(bodies(&file), Some([&[1, 2][..], &[3], &[4, 5, 6]]));
        for at in 0..28 {
            let mut other = file.clone();
            other[at] ^= 1;
            assert_eq!(bodies(&other), None, "byte {}", at);
        }
        assert_eq!(bodies(&file[..33]), None);
        file.push(7);
        assert_eq!(bodies(&file), None);
    }
}
