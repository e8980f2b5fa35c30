//! Random calls, chosen so that blits start, overlap, wrap, queue and get refused all the time, and that
//! the beam is near its edges and the copper runs.

use std::collections::VecDeque;

use crate::convert::{typed, Words, NARROW};
use crate::copper::{any_beam, any_copper_word, any_instruction};
use crate::copper::{BLANK, ENABLED, LINES, POSITIONS, VISIBLE};
use crate::paint;
use crate::pair::{Call, Lent};
use crate::random::Random;
use crate::settings::seed;
use xosera::STATE_WORDS;

/// The nine VRAM lengths.
pub const VRAM_LENGTHS: [usize; 9] = [256, 512, 1024, 2048, 4096, 8192, 16384, 32768, 65536];

/// XR addresses at which something begins or ends, and their neighbours.
pub const XR_EDGES: [u16; 40] = [
    0x00, 0x01, 0x02, 0x03, 0x04, 0x05, 0x06, 0x0F, 0x10, 0x14, 0x15, 0x16, 0x17, 0x18, 0x1C, 0x1D,
    0x1E, 0x1F, 0x20, 0x29, 0x3F, 0x40, 0x49, 0x4A, 0x4B, 0x4C, 0x3FFF, 0x4000, 0x53FF, 0x5400,
    0x7FFF, 0x8000, 0x81FF, 0x8200, 0xBFFF, 0xC000, 0xC3FF, 0xC400, 0xC7FF, 0xFFFF,
];

/// The most lines less one, as copied.
const MOST_LINES: u16 = 32767;

/// Words that a run may have to do at most.
const LONGEST_RUN: u64 = 20_000;

/// Words of a blit at most for which it is asked why a nibble is as it is.
const LONGEST_WHY: u64 = 2_000;

/// Planned beam steps of which it is not settled how many they are.
const MANY: u64 = 0;

/// The source of calls: what is planned, with loose calls in between.
pub struct Calls {
    random: Random,
    planned: VecDeque<Call>,
}

impl Calls {
    pub fn new(random: Random) -> Calls {
        Calls {
            random,
            planned: VecDeque::new(),
        }
    }

    /// Those of XOSERA_SEED, or of a seed from the clock, which is printed.
    pub fn seeded() -> Calls {
        let seed = seed();
        println!("calls of XOSERA_SEED={}", seed);
        Calls::new(Random::new(seed))
    }

    pub fn random(&mut self) -> &mut Random {
        &mut self.random
    }

    /// The next call on an adapter in state `s`.
    pub fn next(&mut self, s: &xosera::State) -> Call {
        if self.random.one_in(6) {
            return self.loose(s);
        }
        if self.planned.is_empty() {
            self.plan(s);
        }
        match self.planned.pop_front() {
            // How far a run or the beam goes is settled now, by what is left.
            Some(Call::Run { .. }) => Call::Run { n: self.steps(s) },
            Some(Call::Beam { steps: MANY }) => Call::Beam {
                steps: self.beam_steps(s),
            },
            Some(call) => call,
            None => self.loose(s),
        }
    }

    /// The memories lent: mostly whole, now and then another length, right or wrong.
    pub fn lend(&mut self, vram: usize, room: Lent) -> Lent {
        self.lend_wrong_in(60, vram, room)
    }

    /// The same, once in `n` times with another length of VRAM.
    pub fn lend_wrong_in(&mut self, n: u64, vram: usize, room: Lent) -> Lent {
        let mut lent = Lent {
            vram,
            xr: model::XR_WORDS,
        };
        if self.random.one_in(n) {
            let near = [0, 1, 255, vram / 2, vram - 1, vram + 1, vram * 2];
            lent.vram = self.random.pick(&near).min(room.vram);
        }
        if self.random.one_in(n + n / 2) {
            let near = [0, 512, 5120, 6144, 6655, 6657, 8192];
            lent.xr = self.random.pick(&near).min(room.xr);
        }
        lent
    }

    /// These registers, for fewer words where they are for many.
    pub fn shortened(&mut self, regs: xosera::BlitRegs) -> xosera::BlitRegs {
        let words = (u64::from(regs.lines % 32768) + 1) * (u64::from(regs.words) + 1);
        let mut regs = regs;
        if words > LONGEST_WHY {
            regs.lines = regs.lines & 0x8000 | self.random.below(8) as u16;
            regs.words = self.random.below(8) as u16;
        }
        regs
    }

    /// An address and a nibble, mostly near the target of a blit, now and then where there is none.
    pub fn place(&mut self, target: u16, vram: usize) -> (u32, u32) {
        let r = &mut self.random;
        let (target, vram) = (u32::from(target), vram as u32);
        let near = (target + r.below(4) as u32) % vram;
        let address = match r.below(16) {
            0 => r.pick(&[vram, vram + 1, vram + near, 65536, 65536 + near, u32::MAX]),
            1 => r.number() as u32,
            2 => r.pick(&[0, vram - 1]),
            3 => r.below(u64::from(vram)) as u32,
            _ => near,
        };
        let nibble = match r.below(20) {
            0 => r.pick(&[4, 5, 7, 8, 256, 65536, u32::MAX]),
            _ => r.below(4) as u32,
        };
        (address, nibble)
    }

    /// These registers with others for playfield A and its window, mostly such that a line can be painted,
    /// with edges near the line's and rows near the ends of VRAM.
    pub fn display(&mut self, video: xosera::Video) -> xosera::Video {
        let mut video = video;
        let gfx = match self.random.below(8) {
            0 => self.random.word(),
            1 => self.random.word() | paint::BLANK,
            _ => {
                let depth = self.random.pick(&[paint::FOUR_BITS, paint::EIGHT_BITS]);
                self.random.word() & 0xFF0F | depth
            }
        };
        let (left, right) = (self.window_edge(), self.window_edge());
        (video.vid_left, video.vid_right) = match self.random.one_in(8) {
            true => (left, right),
            false => (left.min(right), left.max(right)),
        };
        video.vid_ctrl = self.random.word();
        video.pa[paint::GFX_CTRL] = gfx;
        video.pa[paint::DISP_ADDR] = self.word();
        video.pa[paint::LINE_LEN] = match self.random.flip() {
            true => self.random.pick(&[80, 160, 320]),
            false => self.word(),
        };
        video
    }

    /// `VID_LEFT` or `VID_RIGHT`.
    fn window_edge(&mut self) -> u16 {
        match self.random.below(8) {
            0 => self.word(),
            1 => 0,
            2 => 640,
            3 => self.random.below(8) as u16,
            4 => 636 + self.random.below(8) as u16,
            _ => self.random.below(640) as u16,
        }
    }

    /// A line, mostly one that is visible, and how many words it is to be painted in, mostly 640.
    pub fn scanline(&mut self) -> (u32, usize) {
        let r = &mut self.random;
        let visible = r.below(u64::from(VISIBLE)) as u32;
        let line = match r.below(20) {
            0 => r.pick(&[480, 481, 524, 525, 65535, 65536, u32::MAX]),
            1 => r.pick(&[512, 65536, 0x8000_0000]) + visible,
            2 => r.pick(&[0, 479]),
            _ => visible,
        };
        let words = match r.below(20) {
            0 => r.pick(&[0, 1, 320, 639, 641, 642, 848, 1280]),
            _ => xosera::SCREEN_WIDTH,
        };
        (line, words)
    }

    /// Any call that fits between two others.
    fn loose(&mut self, s: &xosera::State) -> Call {
        match self.random.below(16) {
            0..=2 => Call::Step,
            3 => Call::Run { n: self.steps(s) },
            4 => Call::Tick,
            5 => Call::Beam { steps: 1 },
            6 | 7 => Call::Line,
            8..=11 => Call::Read {
                reg: self.register(),
                odd: self.random.flip(),
            },
            12 if self.random.one_in(40) => Call::Reset,
            _ => Call::Write {
                reg: self.register(),
                odd: self.random.one_in(3),
                byte: self.random.byte(),
            },
        }
    }

    /// A register number, now and then one over 15.
    fn register(&mut self) -> u8 {
        match self.random.below(40) {
            0 => self.random.pick(&[16, 17, 31, 128, 255]),
            1 => self.random.byte(),
            _ => self.random.below(16) as u8,
        }
    }

    /// A number of steps: few, those to the end of the running blit or of all, one more or less, or
    /// without end.
    fn steps(&mut self, s: &xosera::State) -> u64 {
        let few = self.random.below(40);
        let s = match typed(s.words()) {
            Some(s) if s.in_range() => s,
            _ => return few,
        };
        let mut end = model::words_left(&s);
        if end > LONGEST_RUN {
            return few;
        }
        if self.random.one_in(3) {
            end = model::words_left(&model::State { queued: false, ..s });
        }
        match self.random.below(10) {
            0..=2 => end,
            3 => end + 1,
            4 => end.saturating_sub(1),
            5 => u64::MAX,
            6 => 0,
            _ => few,
        }
    }

    /// A number of beam steps: few, or those to the first visible pixel, to the next line, or to line
    /// 480 or 0 where that is near; one more or less.
    fn beam_steps(&mut self, s: &xosera::State) -> u64 {
        let (line, position) = (s.beam.line, s.beam.position);
        let lines = [VISIBLE, LINES].map(|edge| edge.saturating_sub(line));
        let lines = lines.into_iter().find(|n| (1..10).contains(n));
        let to_line = u64::from(POSITIONS.saturating_sub(position));
        let steps = match self.random.below(4) {
            0 => u64::from(BLANK.saturating_sub(position)),
            1 => to_line,
            2 => to_line + u64::from(POSITIONS) * u64::from(lines.unwrap_or(2) - 1),
            _ => self.random.below(100),
        };
        (steps + self.random.below(3)).saturating_sub(1).max(1)
    }

    /// A word that is often at an edge.
    fn word(&mut self) -> u16 {
        match self.random.below(8) {
            0 => 0,
            1 => 1,
            2 => 0xFFFF,
            3 => self.random.pick(&[0xFFFE, 0x7FFF, 0x8000, 0x00FF, 0xFF00]),
            4 => self.random.below(64) as u16,
            _ => self.random.word(),
        }
    }

    fn put(&mut self, reg: u8, word: u16) {
        self.planned.push_back(Call::Write {
            reg,
            odd: false,
            byte: (word >> 8) as u8,
        });
        self.planned.push_back(Call::Write {
            reg,
            odd: true,
            byte: word as u8,
        });
    }

    fn get(&mut self, reg: u8) {
        self.planned.push_back(Call::Read { reg, odd: false });
        self.planned.push_back(Call::Read { reg, odd: true });
    }

    fn plan(&mut self, s: &xosera::State) {
        let busy = if s.queued != 0 { 6 } else { 2 };
        if s.engine.running != 0 && !self.random.one_in(busy) {
            return self.plan_steps();
        }
        match self.random.below(20) {
            0 => {
                let (reg, word) = (self.register(), self.word());
                self.put(reg, word);
            }
            1 => {
                let reg = self.register();
                self.get(reg);
            }
            2 => self.plan_vram_writes(),
            3 => self.plan_vram_reads(),
            4 => self.plan_xr_writes(),
            5 => self.plan_xr_reads(),
            6 => self.plan_countdown(),
            7 => self.plan_interrupts(),
            8 => self.plan_nibble_mask(),
            9..=12 => self.plan_blit(),
            13 => {
                self.plan_blit();
                self.plan_blit();
                self.plan_touch_full();
            }
            14..=15 => self.plan_beam(),
            16 => self.plan_copper_control(),
            17..=18 => self.plan_program(s),
            _ => self.plan_steps(),
        }
    }

    fn plan_vram_writes(&mut self) {
        let (incr, addr) = (self.word(), self.word());
        self.put(8, incr);
        self.put(9, addr);
        for _ in 0..self.random.below(5) {
            let (reg, word) = (self.random.pick(&[10, 11]), self.word());
            self.put(reg, word);
        }
    }

    fn plan_vram_reads(&mut self) {
        let (incr, addr) = (self.word(), self.word());
        self.put(6, incr);
        self.put(7, addr);
        for _ in 0..self.random.below(5) {
            let reg = self.random.pick(&[10, 11]);
            self.get(reg);
        }
    }

    fn xr_address(&mut self) -> u16 {
        match self.random.below(8) {
            0 => self.random.word(),
            1 => self.random.below(0x60) as u16,
            2 => 0x4000 + self.random.below(5120) as u16,
            3 => 0x8000 + self.random.below(512) as u16,
            4 => 0xC000 + self.random.below(1024) as u16,
            _ => self.random.pick(&XR_EDGES),
        }
    }

    fn plan_xr_writes(&mut self) {
        let addr = self.xr_address();
        self.put(4, addr);
        for _ in 0..1 + self.random.below(3) {
            let word = self.word();
            self.put(5, word);
        }
        if self.random.flip() {
            self.put(3, addr);
            self.get(5);
            self.get(5);
        }
    }

    fn plan_xr_reads(&mut self) {
        let addr = self.xr_address();
        self.put(3, addr);
        for _ in 0..1 + self.random.below(3) {
            self.get(5);
        }
    }

    fn plan_countdown(&mut self) {
        let interval = self.random.below(5) as u16;
        self.put(2, interval);
        for _ in 0..self.random.below(12) {
            self.planned.push_back(Call::Tick);
        }
        self.get(2);
    }

    fn plan_interrupts(&mut self) {
        let mask = self.random.byte() & if self.random.one_in(8) { 0xFF } else { 0x7F };
        let clear = self.random.byte();
        self.put(1, u16::from(mask) << 8 | u16::from(clear));
        self.planned.push_back(Call::Line);
        self.get(1);
    }

    fn plan_nibble_mask(&mut self) {
        let mask = if self.random.flip() {
            15
        } else {
            self.random.word()
        };
        self.put(0, mask);
        self.get(0);
    }

    /// The blitter's ten registers, in the order of their addresses.
    pub fn blit_regs(&mut self) -> [u16; 10] {
        let source = self.word();
        [
            self.blit_ctrl(),
            self.logic(),
            self.logic(),
            self.word(),
            source,
            self.word(),
            self.blit_target(source),
            self.blit_shift(),
            self.blit_lines(),
            self.blit_words(),
        ]
    }

    /// The blitter's registers, some or all of them, and a start or a queueing.
    fn plan_blit(&mut self) {
        let regs = self.blit_regs();
        let from = match self.random.below(4) {
            0 => self.random.below(10) as usize,
            _ => 0,
        };
        self.put(4, 0x40 + from as u16);
        for &word in &regs[from..] {
            self.put(5, word);
        }
    }

    /// `CTRL`: constant or not, every kind of colour test, sometimes bits without a meaning.
    fn blit_ctrl(&mut self) -> u16 {
        let constant = u16::from(self.random.one_in(3));
        let test = self.random.pick(&[0x00, 0x00, 0x10, 0x10, 0x20, 0x30]);
        let colour = match self.random.below(4) {
            0 => u16::from(self.random.byte()),
            _ => self.random.pick(&[0x00, 0x0A, 0xA0, 0xAA, 0xFF, 0xF0]),
        };
        let unused = match self.random.below(8) {
            0 => self.random.word() & 0xCE,
            _ => 0,
        };
        colour << 8 | test | constant | unused
    }

    /// `ANDC` and `XOR`.
    fn logic(&mut self) -> u16 {
        match self.random.flip() {
            true => 0,
            false => self.word(),
        }
    }

    /// `DST_D`: often so near the source that the blit reads what it wrote.
    fn blit_target(&mut self, source: u16) -> u16 {
        let near = self.random.below(5) as u16;
        match self.random.below(4) {
            0 => source.wrapping_add(near),
            1 => source.wrapping_sub(near),
            _ => self.word(),
        }
    }

    /// `SHIFT`: masks open or not, every shift, sometimes bits without a meaning.
    fn blit_shift(&mut self) -> u16 {
        let masks = match self.random.below(4) {
            0 => 0xFF00,
            _ => self.random.word() & 0xFF00,
        };
        let unused = match self.random.below(4) {
            0 => self.random.word() & 0xFC,
            _ => 0,
        };
        masks | unused | self.random.below(4) as u16
    }

    /// `LINES`: few, with bit 15 or without it, seldom the most there are or any number.
    fn blit_lines(&mut self) -> u16 {
        let few = self.random.below(4) as u16;
        match self.random.below(100) {
            0 => self.random.pick(&[MOST_LINES, 0xFFFF, 0x7FFE]),
            1 => self.random.word(),
            2..=25 => few | 0x8000,
            _ => few,
        }
    }

    /// `WORDS`: few, seldom many, seldom any number.
    fn blit_words(&mut self) -> u16 {
        match self.random.below(100) {
            0 => self.random.word(),
            1..=3 => self.random.below(1000) as u16,
            _ => self.random.below(6) as u16,
        }
    }

    /// Writes to the blitter's registers and beside them, refused while it is full.
    fn plan_touch_full(&mut self) {
        for _ in 0..1 + self.random.below(3) {
            let (addr, word) = (
                self.random.pick(&[0x3F, 0x40, 0x41, 0x48, 0x49, 0x4A]),
                self.word(),
            );
            self.put(4, addr);
            self.put(5, word);
            self.get(4);
        }
    }

    fn plan_steps(&mut self) {
        for _ in 0..self.random.below(8) {
            let call = match self.random.below(3) {
                0 => Call::Beam { steps: 1 },
                _ => Call::Step,
            };
            self.planned.push_back(call);
        }
        if self.random.flip() {
            self.planned.push_back(Call::Run { n: 0 });
        }
    }

    /// Beam steps, singly and many at once, and what the host sees of the beam.
    fn plan_beam(&mut self) {
        if self.random.flip() {
            self.planned.push_back(Call::Beam { steps: MANY });
        }
        for _ in 0..self.random.below(12) {
            self.planned.push_back(Call::Beam { steps: 1 });
        }
        if self.random.flip() {
            self.get(0);
            self.put(3, 0x03);
            self.get(5);
        }
    }

    /// `XR_COPP_CTRL`, mostly with bit 15 set.
    fn plan_copper_control(&mut self) {
        let word = match self.random.below(4) {
            0 => self.word(),
            _ => self.word() | ENABLED,
        };
        self.put(4, 0x01);
        self.put(5, word);
        self.plan_beam();
    }

    /// Instructions into copper memory, often where the copper goes on.
    fn plan_program(&mut self, s: &xosera::State) {
        let at = match self.random.flip() {
            true => s.beam.copper_word % 1024,
            false => any_copper_word(&mut self.random),
        };
        self.put(4, 0xC000 + at);
        let mut line = s.beam.line % LINES;
        for _ in 0..1 + self.random.below(5) {
            for word in any_instruction(&mut self.random, &mut line) {
                self.put(5, word);
            }
        }
        self.plan_beam();
    }

    /// Some state within its ranges, beam and copper at rest.
    pub fn state_at_rest(&mut self) -> xosera::State {
        xosera::State {
            beam: xosera::Beam::default(),
            ..self.state_in_range()
        }
    }

    /// Some state within its ranges, reachable or not.
    pub fn state_in_range(&mut self) -> xosera::State {
        let mut s = self.any_state();
        let r = &mut self.random;
        s.host.vram.wr_mask &= 15;
        s.host.int_mask &= 127;
        s.status &= 127;
        s.host.timer.interval = if r.flip() {
            1 + r.below(4) as u16
        } else {
            r.word()
        };
        s.host.timer.countdown = match s.host.timer.interval {
            0 => 0,
            n => 1 + r.below(u64::from(n)) as u16,
        };
        if s.engine.running == 1 {
            let e = &mut s.engine;
            e.regs.lines &= MOST_LINES;
            if r.one_in(4) {
                e.regs.lines = MOST_LINES;
            }
            if r.one_in(8) {
                e.regs.words = 0xFFFF;
            }
            e.line = e.regs.lines - (r.below(4) as u16).min(e.regs.lines);
            e.word = e.regs.words - (r.below(4) as u16).min(e.regs.words);
            if r.flip() {
                e.line = r.below(u64::from(e.regs.lines) + 1) as u16;
            }
            if r.flip() {
                e.word = 0;
            }
            if e.line == 0 && e.word == 0 {
                e.kept = 0;
            }
            if s.queued == 1 && r.flip() {
                s.blit.lines = r.below(3) as u16 | s.blit.lines & 0x8000;
                s.blit.words = r.below(5) as u16;
            }
        } else {
            s.engine = xosera::Engine::default();
            s.queued = 0;
        }
        if s.video.copp_ctrl & ENABLED == 0 || s.beam.copper_running == 0 {
            s.beam.copper_running = 0;
            s.beam.copper_word = 0;
        }
        s
    }

    /// A state in range with one part pushed out of it, one or two words damaged, or any words.
    pub fn state_out_of_range(&mut self, s: xosera::State) -> xosera::State {
        let mut s = s;
        let r = &mut self.random;
        match r.below(25) {
            0 => s.host.vram.wr_mask |= r.pick(&[16, 32, 64, 128]),
            1 => s.host.int_mask |= 128,
            2 => s.status |= 128,
            3 => s.host.timer.countdown = s.host.timer.interval.wrapping_add(1),
            4 => {
                s.host.timer.countdown = 0;
                s.host.timer.interval = 1 + r.below(0xFFFF) as u16;
            }
            5 => {
                s.engine = xosera::Engine::default();
                s.queued = 1;
            }
            6 => {
                s.engine.running = 1;
                s.engine.line = s.engine.regs.lines.wrapping_add(1);
            }
            7 => {
                s.engine.running = 1;
                s.engine.word = s.engine.regs.words.wrapping_add(1);
            }
            8 => {
                s.engine.running = 1;
                s.engine.regs.lines |= 0x8000;
            }
            9 => {
                s.engine.running = 1;
                s.engine.line = 0;
                s.engine.word = 0;
                s.engine.kept = 1 + r.below(0xFFFF) as u16;
            }
            10 => {
                s.engine.running = 0;
                s.engine.kept = 1;
            }
            11 => {
                s.engine.running = 0;
                let e = &mut s.engine;
                let field = [
                    &mut e.line,
                    &mut e.word,
                    &mut e.kept,
                    &mut e.regs.ctrl,
                    &mut e.regs.andc,
                    &mut e.regs.xor,
                    &mut e.regs.mod_s,
                    &mut e.regs.src_s,
                    &mut e.regs.mod_d,
                    &mut e.regs.dst_d,
                    &mut e.regs.shift,
                    &mut e.regs.lines,
                    &mut e.regs.words,
                ];
                let which = r.below(13) as usize;
                for (i, f) in field.into_iter().enumerate() {
                    *f = u16::from(i == which) << r.below(16);
                }
            }
            12 => s.engine.running ^= 1,
            13 => s = self.any_state(),
            14 => s = xosera::State::from_words(self.any_words()),
            15 => {
                s = self.damaged(s);
                s = self.damaged(s);
            }
            16 => s.beam.line = r.pick(&[LINES, LINES + 1, 0x8000, 0xFFFF]),
            17 => s.beam.position = r.pick(&[POSITIONS, POSITIONS + 1, 0x8000, 0xFFFF]),
            18 => {
                s.video.copp_ctrl &= !ENABLED;
                s.beam.copper_running = 1;
            }
            19 => {
                s.video.copp_ctrl |= ENABLED;
                s.beam.copper_running = 1;
                s.beam.copper_word = r.pick(&[1024, 1025, 2047, 0x8000, 0xFFFF]);
            }
            20 => {
                s.beam.copper_running = 0;
                s.beam.copper_word = 1 << r.below(16);
            }
            _ => s = self.damaged(s),
        }
        s
    }

    /// One word changed, mostly one that is a byte or a flag, to what could be taken for another.
    fn damaged(&mut self, s: xosera::State) -> xosera::State {
        let mut words = *s.words();
        let r = &mut self.random;
        let number = match r.below(3) {
            0 => r.below(words.len() as u64) as usize,
            _ => r.pick(&NARROW),
        };
        let word = &mut words[number];
        *word = match r.below(6) {
            0 => r.word(),
            1 => r.pick(&[2, 3, 16, 128, 255, 256, 257, 0x7FFF, 0x8000, 0xFF00, 0xFFFF]),
            2 => *word | 0x0100,
            3 => *word | 0x8000,
            4 => *word ^ 1 << r.below(16),
            _ => *word | (1 + r.below(255) as u16) << 8,
        };
        xosera::State::from_words(words)
    }

    /// Any words.
    fn any_words(&mut self) -> Words {
        let mut words = [0; STATE_WORDS];
        for word in words.iter_mut() {
            *word = self.word();
        }
        words
    }

    /// A state of any bits, bytes and flags as wide as they should be.
    fn any_state(&mut self) -> xosera::State {
        let r = &mut self.random;
        let mut s = xosera::State::default();
        s.host.timer.count = if r.flip() { 0xFFFE } else { r.word() };
        s.host.timer.countdown = r.word();
        s.host.timer.interval = r.word();
        s.host.timer.saved = u16::from(r.byte());
        s.host.xr.rd_xaddr.0 = r.pick(&XR_EDGES);
        s.host.xr.wr_xaddr.0 = r.pick(&XR_EDGES);
        s.host.xr.rd_xdata = r.word();
        s.host.vram.rd_incr = r.word();
        s.host.vram.rd_addr.0 = r.word();
        s.host.vram.wr_incr = r.word();
        s.host.vram.wr_addr.0 = r.word();
        s.host.vram.rd_data = r.word();
        s.host.vram.wr_mask = u16::from(r.byte());
        s.host.int_mask = u16::from(r.byte());
        for latch in s.host.latch.iter_mut() {
            *latch = u16::from(r.byte());
        }
        s.video.vid_ctrl = r.word();
        s.video.copp_ctrl = r.word() | if r.flip() { ENABLED } else { 0 };
        s.video.aud_ctrl = r.word();
        s.video.vid_left = r.word();
        s.video.vid_right = r.word();
        for word in s.video.pa.iter_mut().chain(s.video.pb.iter_mut()) {
            *word = r.word();
        }
        s.blit = any_blit(r);
        s.engine.running = u16::from(r.flip());
        s.engine.line = r.word();
        s.engine.word = r.word();
        s.engine.kept = r.word();
        s.engine.regs = any_blit(r);
        s.queued = u16::from(r.flip());
        s.status = u16::from(r.byte());
        s.beam = any_beam(r);
        s.beam.copper_running = u16::from(r.flip());
        s.beam.copper_word = any_copper_word(r);
        s
    }
}

fn any_blit(r: &mut Random) -> xosera::BlitRegs {
    let few = r.flip();
    xosera::BlitRegs {
        ctrl: r.word(),
        andc: r.word(),
        xor: r.word(),
        mod_s: r.word(),
        src_s: r.word(),
        mod_d: r.word(),
        dst_d: r.word(),
        shift: r.word(),
        lines: if few { r.below(4) as u16 } else { r.word() },
        words: if few { r.below(6) as u16 } else { r.word() },
    }
}
