//! Copper programs, by the table of source document 001, and what came up while they ran.

use crate::random::Random;

/// Where the program stands in XR memory, and how many words it has.
pub const PROGRAM_AT: usize = 5632;
pub const PROGRAM_WORDS: usize = 1024;

/// Positions in a line, those of them that are blank; lines in a frame, those of them that are visible.
pub const POSITIONS: u16 = 800;
pub const BLANK: u16 = 160;
pub const LINES: u16 = 525;
pub const VISIBLE: u16 = 480;

/// `XR_COPP_CTRL` bit 15.
pub const ENABLED: u16 = 0x8000;

/// The operation codes, top three bits of an instruction's first word.
pub const CODES: [&str; 8] = [
    "WAIT", "SKIP", "JMP", "MOVER", "MOVEF", "MOVEP", "MOVEC", "none",
];
pub const WAIT: u16 = 0;
pub const SKIP: u16 = 1;
pub const JMP: u16 = 2;
pub const MOVER: u16 = 3;
pub const MOVEF: u16 = 4;
pub const MOVEP: u16 = 5;
pub const MOVEC: u16 = 6;

/// The flags of `WAIT` and `SKIP` that mean something.
pub const IGNORE_LINE: u16 = 1;
pub const IGNORE_PIXEL: u16 = 2;

pub type Instruction = [u16; 2];

/// An instruction of this code, its address or line, and its second word.
pub fn instruction(code: u16, low: u16, second: u16) -> Instruction {
    [code << 13 | low, second]
}

/// A `WAIT` or `SKIP` for this line and pixel.
pub fn position(code: u16, line: u16, pixel: u16, flags: u16) -> Instruction {
    instruction(code, line, pixel << 4 | flags)
}

/// A whole program of random words.
pub fn any_words(r: &mut Random) -> Vec<u16> {
    (0..PROGRAM_WORDS).map(|_| r.word()).collect()
}

/// A whole program of valid instructions, whose waits go down the picture and are short.
pub fn any_program(r: &mut Random) -> Vec<u16> {
    let mut line = 0;
    let mut program = Vec::new();
    while program.len() < PROGRAM_WORDS {
        program.extend(any_instruction(r, &mut line));
    }
    program
}

/// A valid instruction. A wait for a line is for this one, which moves on.
pub fn any_instruction(r: &mut Random, line: &mut u16) -> Instruction {
    match r.below(16) {
        0..=2 => {
            *line = (*line + r.below(4) as u16) % LINES;
            any_position(r, WAIT, *line)
        }
        3 | 4 => {
            let line = r.below(u64::from(LINES)) as u16;
            any_position(r, SKIP, line)
        }
        5 => {
            let unused = r.word() & 0x1800;
            instruction(JMP, unused | any_address(r), r.word())
        }
        6..=9 => any_register_move(r),
        10 => {
            let addr = match r.below(4) {
                0 => r.pick(&[0, 5119, 5120, 5121, 8191]),
                _ => r.below(8192) as u16,
            };
            instruction(MOVEF, addr, r.word())
        }
        11 => instruction(MOVEP, r.word() & 0x1FFF, r.word()),
        12..=14 => any_program_move(r, line),
        _ => instruction(7, r.word() & 0x1FFF, r.word()),
    }
}

/// A wait or a skip, seldom one that ignores both axes.
fn any_position(r: &mut Random, code: u16, line: u16) -> Instruction {
    let pixel = match r.below(8) {
        0 => r.pick(&[0, 1, 638, 639, 640, 2047]),
        _ => r.below(640) as u16,
    };
    let flags = match r.below(64) {
        0 => IGNORE_LINE | IGNORE_PIXEL,
        1..=24 => IGNORE_LINE,
        25..=40 => IGNORE_PIXEL,
        _ => 0,
    };
    let unused = r.word() & 0x1800;
    position(code, unused | line, pixel, flags | r.word() & 0x800C)
}

/// A program address, mostly of an instruction's first word, seldom beyond the program.
fn any_address(r: &mut Random) -> u16 {
    match r.below(16) {
        0 => r.below(2048) as u16,
        1 => r.pick(&[0, 1, 2, 1021, 1022, 1023, 1024, 1025, 2046, 2047]),
        _ => r.below(512) as u16 * 2,
    }
}

/// A `MOVER`: small blits, and `XR_COPP_CTRL`, mostly with bit 15 set.
fn any_register_move(r: &mut Random) -> Instruction {
    let (addr, word) = match r.below(10) {
        0..=2 => (0x49, r.below(8) as u16),
        3 => (0x48, r.below(4) as u16 | r.word() & 0x8000),
        4 => (0x40 + r.below(8) as u16, r.word()),
        5 => (0x03, r.word()),
        6 => match r.below(4) {
            0 => (0x01, r.word() & !ENABLED),
            _ => (0x01, r.word() | ENABLED),
        },
        7 => (r.pick(&[0x3F, 0x4A, 0x00, 0x05, 0x15, 0xFF]), r.word()),
        _ => match r.below(256) as u16 {
            addr @ (0x01 | 0x40..=0x49) => (addr + 0x10, r.word()),
            addr => (addr, r.word()),
        },
    };
    instruction(MOVER, r.word() & 0x1F00 | addr, word)
}

/// A `MOVEC` that puts a word of some instruction where such a word stands.
fn any_program_move(r: &mut Random, line: &mut u16) -> Instruction {
    let addr = any_address(r);
    let words = match r.below(4) {
        0 => [r.word(), r.word()],
        1 => instruction(MOVEP, r.word() & 0x1FFF, r.word()),
        2 => any_register_move(r),
        _ => any_position(r, WAIT, *line),
    };
    let odd = r.one_in(4);
    let unused = r.word() & 0x1800;
    let addr = unused | addr & !1 | u16::from(odd);
    instruction(MOVEC, addr, words[usize::from(odd)])
}

/// A beam anywhere, often beside a place where something happens, and the copper stopped.
pub fn any_beam(r: &mut Random) -> xosera::Beam {
    let near_edge = r.one_in(4);
    let line = match r.below(3) {
        _ if near_edge => r.pick(&[479, 524]),
        0 => r.below(u64::from(LINES)) as u16,
        _ => r.pick(&[0, 1, 239, 478, 479, 480, 481, 523, 524]),
    };
    let position = match r.below(3) {
        _ if near_edge => POSITIONS - 1 - r.below(8) as u16,
        0 => r.below(u64::from(POSITIONS)) as u16,
        _ => r.pick(&[0, 1, 158, 159, 160, 161, 797, 798, 799]),
    };
    xosera::Beam {
        line,
        position,
        ..xosera::Beam::default()
    }
}

/// A running copper's word.
pub fn any_copper_word(r: &mut Random) -> u16 {
    match r.below(3) {
        0 => r.pick(&[0, 1, 2, 511, 512, 1020, 1021, 1022, 1023]),
        _ => r.below(PROGRAM_WORDS as u64) as u16,
    }
}

/// The place that the beam comes to in its next step: line and position.
pub fn next_place(beam: &xosera::Beam) -> (u16, u16) {
    match (beam.line, beam.position + 1) {
        (524, POSITIONS) => (0, 0),
        (line, POSITIONS) => (line + 1, 0),
        (line, position) => (line, position),
    }
}

/// Where the instruction stands that the next beam step does, if it does one.
fn next_word(s: &xosera::State) -> Option<u16> {
    if next_place(&s.beam) == (0, 0) && s.video.copp_ctrl & ENABLED != 0 {
        return Some(0);
    }
    (s.beam.copper_running == 1).then_some(s.beam.copper_word)
}

/// The instruction that the next beam step does, if it does one.
pub fn next_instruction(s: &xosera::State, xr: &[u16]) -> Option<Instruction> {
    let at = usize::from(next_word(s)?);
    let program = &xr[PROGRAM_AT..];
    Some([program[at], program[(at + 1) % PROGRAM_WORDS]])
}

/// What beam steps did, so that a run in which too little happened is seen.
#[derive(Default)]
pub struct Coppers {
    pub steps: u64,
    /// Steps that reached line 480; line 0 with the copper stopped, set running, still running.
    frame_ends: u64,
    at_line_0: [u64; 3],
    /// Instructions by code.
    codes: [u64; 8],
    /// `WAIT` and `SKIP` by the flags that mean something: not reached, reached.
    waits: [[u64; 2]; 4],
    skips: [[u64; 2]; 4],
    /// Moves dropped: on a full blitter, beyond tile memory, beyond copper memory.
    dropped: [u64; 3],
    /// Blits that a `MOVER` started and queued.
    blits: [u64; 2],
    /// A `MOVER` that stopped the copper, and one that left it enabled.
    controls: [u64; 2],
    /// Instructions with a word at both ends of the program.
    split: u64,
}

impl Coppers {
    /// One beam step that was done and agreed on both sides, from this state, which does this
    /// instruction, if any.
    pub fn count(
        &mut self,
        before: &xosera::State,
        next: Option<Instruction>,
        after: &xosera::State,
    ) {
        self.steps += 1;
        match (after.beam.line, after.beam.position) {
            (VISIBLE, 0) => self.frame_ends += 1,
            (0, 0) => {
                let which = match (before.beam.copper_running, next) {
                    (_, None) => 0,
                    (0, _) => 1,
                    _ => 2,
                };
                self.at_line_0[which] += 1;
            }
            _ => {}
        }
        if let (Some(at), Some(next)) = (next_word(before), next) {
            self.count_instruction(before, at, next, after);
        }
    }

    fn count_instruction(
        &mut self,
        before: &xosera::State,
        at: u16,
        [first, second]: Instruction,
        after: &xosera::State,
    ) {
        let code = first >> 13;
        let on = (after.beam.copper_word + PROGRAM_WORDS as u16 - at) % PROGRAM_WORDS as u16;
        let flags = usize::from(second & 3);
        self.codes[usize::from(code)] += 1;
        self.split += u64::from(at == 1023);
        match code {
            WAIT => self.waits[flags][usize::from(on == 2)] += 1,
            SKIP => self.skips[flags][usize::from(on == 4)] += 1,
            MOVER => match first & 0xFF {
                0x40..=0x49 if before.queued == 1 => self.dropped[0] += 1,
                0x49 => self.blits[usize::from(before.engine.running == 1)] += 1,
                0x01 => self.controls[usize::from(second & ENABLED != 0)] += 1,
                _ => {}
            },
            MOVEF => self.dropped[1] += u64::from(first & 0x1FFF >= 5120),
            MOVEC => self.dropped[2] += u64::from(first & 0x7FF >= 1024),
            _ => {}
        }
    }

    /// The instructions done, by their code.
    pub fn by_code(&self) -> String {
        let each = CODES.iter().zip(self.codes);
        let each: Vec<String> = each.map(|(name, n)| format!("{} {}", name, n)).collect();
        each.join(", ")
    }

    pub fn print(&self) {
        println!(
            "  beam       single steps {}, frame ends {}; at line 0 the copper stopped {}, set running {}, still running {}",
            self.steps, self.frame_ends, self.at_line_0[0], self.at_line_0[1], self.at_line_0[2]
        );
        println!(
            "  copper     {}; words at both ends {}",
            self.by_code(),
            self.split
        );
        println!(
            "  positions  not reached, reached, by flags 0 to 3: waits {:?}, skips {:?}",
            self.waits, self.skips
        );
        println!(
            "  moves      dropped on a full blitter {}, beyond tile memory {}, beyond copper memory {}; blits started {}, queued {}; copper stopped {}, left enabled {}",
            self.dropped[0],
            self.dropped[1],
            self.dropped[2],
            self.blits[0],
            self.blits[1],
            self.controls[0],
            self.controls[1]
        );
    }

    /// How often each situation came up.
    pub fn numbers(&self) -> Vec<u64> {
        let lines = [&[self.frame_ends][..], &self.at_line_0].concat();
        [lines, self.instructions()].concat()
    }

    /// How often each situation of an instruction came up, all but those that cannot: a wait that
    /// ignores both axes is never over, such a skip always skips.
    pub fn instructions(&self) -> Vec<u64> {
        [
            &[self.split][..],
            &self.codes,
            &self.waits.concat()[..7],
            &self.skips.concat()[..6],
            &self.skips[3][1..],
            &self.dropped,
            &self.blits,
            &self.controls,
        ]
        .concat()
    }

    /// That a wait which ignores both axes went on, or that such a skip did not skip.
    pub fn impossible(&self) -> u64 {
        self.waits[3][1] + self.skips[3][0]
    }
}
