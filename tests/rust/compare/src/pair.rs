//! One call to the library and to the plain Rust model, from the same state and memories.

use std::fmt;

use crate::convert::{blit, differences, misfit, typed, words, Words};
use crate::copper::{any_program, PROGRAM_AT};
use crate::random::Random;
use crate::tube::Tube;
use crate::why::{numbered, unlike};

/// A call with its arguments, or so many beam steps, at least one, one after another. A save, a load, the
/// question why and a line that is painted, which are lent a room, a file, a second memory or pixels too,
/// are functions of [`Pair`].
#[derive(Clone, Copy, Debug, PartialEq, Eq)]
pub enum Call {
    Reset,
    Write { reg: u8, odd: bool, byte: u8 },
    Read { reg: u8, odd: bool },
    Step,
    Run { n: u64 },
    Tick,
    Beam { steps: u64 },
    Line,
}

/// What a call says beside the state: the refusal; a byte, a count, a length, or 1 for a line that is
/// up; the mask of a write, a step or a run.
#[derive(Clone, Copy, Debug, PartialEq, Eq)]
pub struct Said {
    pub refusal: u8,
    pub value: u64,
    pub mask: u8,
}

fn said(refusal: u8, value: u64, mask: u8) -> Said {
    Said {
        refusal,
        value,
        mask,
    }
}

/// How many words of each memory a call is lent.
#[derive(Clone, Copy, Debug, PartialEq, Eq)]
pub struct Lent {
    pub vram: usize,
    pub xr: usize,
}

/// Memory with room on both sides that no call may touch.
#[derive(Clone)]
struct Memory {
    words: Vec<u16>,
}

const MARGIN: usize = 16;

impl Memory {
    fn new(words: usize) -> Memory {
        Memory {
            words: vec![0; words + 2 * MARGIN],
        }
    }

    fn lent(&mut self, n: usize) -> &mut [u16] {
        &mut self.words[MARGIN..MARGIN + n]
    }

    fn room(&self) -> usize {
        self.words.len() - 2 * MARGIN
    }
}

/// Pixels with a line on both sides that no call may touch.
#[derive(Clone, PartialEq, Eq)]
struct Pixels {
    words: Vec<u16>,
}

impl Pixels {
    const AROUND: usize = xosera::SCREEN_WIDTH;

    /// So many of them, none like its neighbours.
    fn untouched(words: usize) -> Pixels {
        let all = 0..words + 2 * Pixels::AROUND;
        Pixels {
            words: all.map(|i| !(40503 * i) as u16).collect(),
        }
    }

    fn lent(&mut self) -> &mut [u16] {
        let end = self.words.len() - Pixels::AROUND;
        &mut self.words[Pixels::AROUND..end]
    }

    /// The first word that the model's are not equal in.
    fn difference(&self, model: &Pixels) -> Option<String> {
        let mut both = (0..).zip(self.words.iter().zip(&model.words));
        let (i, (library, model)) = both.find(|(_, (library, model))| library != model)?;
        Some(format!(
            "pixel {}: library {:04X}, model {:04X}",
            i - Pixels::AROUND as i64,
            library,
            model
        ))
    }
}

/// A state with words on both sides that no call may touch.
#[repr(C)]
struct Fenced {
    above: [u16; MARGIN],
    state: xosera::State,
    below: [u16; MARGIN],
}

const FENCE: [u16; MARGIN] = [0xA55A; MARGIN];

impl Fenced {
    fn new(state: xosera::State) -> Fenced {
        Fenced {
            above: FENCE,
            state,
            below: FENCE,
        }
    }

    fn whole(&self) -> bool {
        self.above == FENCE && self.below == FENCE
    }
}

/// Both sides' memories. The library and the model never see the other's.
pub struct Pair {
    library_vram: Memory,
    library_xr: Memory,
    model_vram: Memory,
    model_xr: Memory,
}

/// Where the two disagreed.
pub struct Mismatch {
    pub call: String,
    pub lent: Lent,
    pub before: xosera::State,
    pub what: String,
}

impl fmt::Display for Mismatch {
    fn fmt(&self, f: &mut fmt::Formatter<'_>) -> fmt::Result {
        writeln!(f, "{}", self.what)?;
        writeln!(f, "call   {}", self.call)?;
        writeln!(f, "lent   {:?}", self.lent)?;
        write!(f, "before {:#X?}", self.before)
    }
}

/// One side after a call: the state's words and what it said.
type Outcome = (Words, Said);

impl Pair {
    /// Room for the largest memories that will be lent, all words 0.
    pub fn new(room: Lent) -> Pair {
        Pair {
            library_vram: Memory::new(room.vram),
            library_xr: Memory::new(room.xr),
            model_vram: Memory::new(room.vram),
            model_xr: Memory::new(room.xr),
        }
    }

    /// Fill both sides alike, with few different nibbles, so that colours often match, and with a copper
    /// program or any words.
    pub fn fill(&mut self, random: &mut Random) {
        let palette = [0, 0, random.word() & 0xF, random.word() & 0xF, 0xA, 0xF];
        for word in self.library_vram.words.iter_mut() {
            *word = if random.one_in(4) {
                random.word()
            } else {
                (0..4).fold(0, |w, _| w << 4 | random.pick(&palette))
            };
        }
        for word in self.library_xr.words.iter_mut() {
            *word = random.word();
        }
        self.model_vram.words.clone_from(&self.library_vram.words);
        self.model_xr.words.clone_from(&self.library_xr.words);
        if random.flip() {
            self.put_xr(PROGRAM_AT, &any_program(random));
        }
    }

    /// XR memory as it stands on both sides.
    pub fn xr(&self) -> &[u16] {
        &self.library_xr.words[MARGIN..]
    }

    /// Put these words in XR memory on both sides.
    pub fn put_xr(&mut self, at: usize, words: &[u16]) {
        for memory in [&mut self.library_xr, &mut self.model_xr] {
            memory.words[MARGIN + at..][..words.len()].copy_from_slice(words);
        }
    }

    /// Do one call on both sides. Every word of the state, answer, mask, refusal and every word of both
    /// memories, also those not lent, must agree; a refusal must leave all of them as they were. The
    /// state after it.
    pub fn call(
        &mut self,
        before: xosera::State,
        lent: Lent,
        call: Call,
    ) -> Result<(xosera::State, Said), Box<Mismatch>> {
        let mut fenced = Fenced::new(before);
        let vram = self.library_vram.lent(lent.vram);
        let xr = self.library_xr.lent(lent.xr);
        let said = on_library(&mut fenced.state, vram, xr, call);
        let model = self.on_model(before.words(), lent, call);
        match self.difference(&fenced, said, model) {
            None => Ok((fenced.state, said)),
            Some(what) => Err(Box::new(Mismatch {
                call: format!("{:?}", call),
                lent,
                before,
                what,
            })),
        }
    }

    /// Save on both sides, in a room of so many bytes with more around it. As for every call all must
    /// agree, the bytes too, of which all but the file's stay as they were. The file, empty if refused.
    pub fn save(
        &mut self,
        before: xosera::State,
        lent: Lent,
        room: usize,
    ) -> Result<(Said, Vec<u8>), Box<Mismatch>> {
        let untouched: Vec<u8> = (0..room + 2 * MARGIN).map(|i| (167 * i) as u8).collect();
        let (mut library_room, mut model_room) = (untouched.clone(), untouched.clone());
        let fenced = Fenced::new(before);
        let vram = self.library_vram.lent(lent.vram);
        let xr = self.library_xr.lent(lent.xr);
        let inner = MARGIN..MARGIN + room;
        let a = xosera::save(&fenced.state, vram, xr, &mut library_room[inner.clone()]);
        let said = said(a.refusal, a.length, 0);
        let vram = self.model_vram.lent(lent.vram);
        let xr = self.model_xr.lent(lent.xr);
        let s = typed(before.words()).unwrap_or_else(misfit);
        let answer = s.save(vram, xr, &mut model_room[inner]);
        let model = outcome(before.words(), &s, answer.map(|length| (length, 0)));

        let what = self.difference(&fenced, said, model).or_else(|| {
            let (front, end) = (MARGIN, MARGIN + said.value as usize);
            let kept = library_room[..front] == untouched[..front]
                && library_room[end..] == untouched[end..];
            match (0..untouched.len()).find(|&i| library_room[i] != model_room[i]) {
                Some(i) => Some(format!(
                    "byte {} of the room: library {:02X}, model {:02X}",
                    i as i64 - MARGIN as i64,
                    library_room[i],
                    model_room[i]
                )),
                None if kept => None,
                None => Some("a byte beside the file changed".to_string()),
            }
        });
        match what {
            None => {
                let file = library_room[MARGIN..][..said.value as usize].to_vec();
                Ok((said, file))
            }
            Some(what) => Err(Box::new(Mismatch {
                call: format!("save in {} bytes", room),
                lent,
                before,
                what,
            })),
        }
    }

    /// Load the file on both sides. As for every call all must agree; an adapter that was loaded has
    /// this very file. The state after it.
    pub fn load(
        &mut self,
        before: xosera::State,
        lent: Lent,
        file: &[u8],
    ) -> Result<(xosera::State, Said), Box<Mismatch>> {
        let mut fenced = Fenced::new(before);
        let vram = self.library_vram.lent(lent.vram);
        let xr = self.library_xr.lent(lent.xr);
        let a = xosera::load(&mut fenced.state, vram, xr, file);
        let said = said(a.refusal, 0, 0);
        let vram = self.model_vram.lent(lent.vram);
        let xr = self.model_xr.lent(lent.xr);
        let mut s = typed(before.words()).unwrap_or_else(misfit);
        let answer = s.load(vram, xr, file).map(|()| (0, 0));
        let model = outcome(before.words(), &s, answer);

        let what = self.difference(&fenced, said, model).or_else(|| {
            let other = said.refusal == 0 && self.file(fenced.state, lent.vram) != file;
            other.then(|| "the adapter that was loaded has another file".to_string())
        });
        match what {
            None => Ok((fenced.state, said)),
            Some(what) => Err(Box::new(Mismatch {
                call: format!("load of {} bytes", file.len()),
                lent,
                before,
                what,
            })),
        }
    }

    /// Ask on both sides why a nibble is as the blit of this state's registers leaves it, with VRAM as the
    /// memory before, and a second memory, of words that VRAM does not have. As for every call all must
    /// agree, the second memory too, with the words around it. The answer.
    pub fn why(
        &mut self,
        before: xosera::State,
        [vram, second]: [usize; 2],
        address: u32,
        nibble: u32,
    ) -> Result<xosera::WhyAnswer, Box<Mismatch>> {
        let words = unlike(&self.model_vram.words[..second + 2 * MARGIN]);
        let mut library_work = Memory { words };
        let mut model_work = library_work.clone();
        let fenced = Fenced::new(before);
        let lent = self.library_vram.lent(vram);
        let work = library_work.lent(second);
        let answer = xosera::why(fenced.state.blit, lent, work, address, nibble);
        let lent = self.model_vram.lent(vram);
        let work = model_work.lent(second);
        let model = numbered(model::why(blit(&before.blit), lent, work, address, nibble));

        let nothing = said(answer.refusal, 0, 0);
        let what = if answer != model {
            Some(format!("library says {:?}, model {:?}", answer, model))
        } else if library_work.words != model_work.words {
            Some("the second memory differs".to_string())
        } else {
            self.difference(&fenced, nothing, (*before.words(), nothing))
        };
        match what {
            None => Ok(answer),
            Some(what) => Err(Box::new(Mismatch {
                call: format!("why {} {}, in {} words", address, nibble, second),
                lent: Lent { vram, xr: 0 },
                before,
                what,
            })),
        }
    }

    /// Paint a line on both sides, in so many words with a line around them. As for every call all must
    /// agree, the pixels too, with the words around them. The answer.
    pub fn paint(
        &mut self,
        tube: Tube,
        before: xosera::State,
        lent: Lent,
        line: u32,
        words: usize,
    ) -> Result<Said, Box<Mismatch>> {
        let untouched = Pixels::untouched(words);
        let (mut library, mut plain) = (untouched.clone(), untouched.clone());
        let mut fenced = Fenced::new(before);
        let vram = self.library_vram.lent(lent.vram);
        let xr = self.library_xr.lent(lent.xr);
        let refusal = tube.on_library(&mut fenced.state, vram, xr, line, library.lent());
        let said = said(refusal, 0, 0);
        let vram = self.model_vram.lent(lent.vram);
        let xr = self.model_xr.lent(lent.xr);
        let s = typed(before.words()).unwrap_or_else(misfit);
        let answer = tube.on_model(&s, vram, xr, line, plain.lent());
        let model = outcome(before.words(), &s, answer.map(|()| (0, 0)));

        let differs = self.difference(&fenced, said, model);
        let what = differs.or_else(|| match library.difference(&plain) {
            None if refusal != 0 && library != untouched => {
                Some("a refused call changed a pixel".to_string())
            }
            pixel => pixel,
        });
        match what {
            None => Ok(said),
            Some(what) => Err(Box::new(Mismatch {
                call: format!("{}: line {} in {} words", tube.name(), line, words),
                lent,
                before,
                what,
            })),
        }
    }

    /// The file of a state in range and at rest with so many words of VRAM, by the model.
    pub fn file(&mut self, s: xosera::State, vram: usize) -> Vec<u8> {
        let mut file = vec![0; xosera::saved_bytes(vram)];
        let vram = self.model_vram.lent(vram);
        let xr = self.model_xr.lent(model::XR_WORDS);
        let s = typed(s.words()).expect("a state in range");
        let saved = s.save(vram, xr, &mut file);
        assert_eq!(saved, Ok(file.len() as u64));
        file
    }

    /// What the two sides do not agree on after a call.
    fn difference(&self, fenced: &Fenced, said: Said, model: Outcome) -> Option<String> {
        let (model_after, model_said) = model;
        let after = fenced.state;
        if said != model_said {
            return Some(format!("library says {:?}, model {:?}", said, model_said));
        }
        if *after.words() != model_after {
            let differing = differences(after.words(), &model_after);
            return Some(format!("the state after it differs:\n{}", differing));
        }
        if !fenced.whole() {
            return Some("a word beside the state changed".to_string());
        }
        let memories = [
            ("VRAM", &self.library_vram, &self.model_vram),
            ("XR memory", &self.library_xr, &self.model_xr),
        ];
        for (name, library, model) in memories {
            if library.words != model.words {
                let both = library.words.iter().zip(model.words.iter());
                let (i, (l, m)) = both.enumerate().find(|(_, (l, m))| l != m).unwrap();
                return Some(format!(
                    "{} word {}: library {:04X}, model {:04X}",
                    name,
                    i as i64 - MARGIN as i64,
                    l,
                    m
                ));
            }
        }
        None
    }

    fn on_model(&mut self, before: &Words, lent: Lent, call: Call) -> Outcome {
        let vram = self.model_vram.lent(lent.vram);
        let xr = self.model_xr.lent(lent.xr);
        let mut s = typed(before).unwrap_or_else(misfit);
        let blitted = |b: model::Blitted| (b.count, b.mask);
        let answer = match call {
            Call::Reset => {
                s = model::State::reset();
                Ok((0, 0))
            }
            Call::Write { reg, odd, byte } => {
                let answer = s.write_byte(vram, xr, reg, odd, byte);
                answer.map(|mask| (0, mask))
            }
            Call::Read { reg, odd } => {
                let answer = s.read_byte(vram, xr, reg, odd);
                answer.map(|byte| (u64::from(byte), 0))
            }
            Call::Step => s.blit_step(vram, xr).map(blitted),
            Call::Run { n } => s.blit_run(vram, xr, n).map(blitted),
            Call::Tick => s.timer_tick().map(|()| (0, 0)),
            Call::Beam { steps } => {
                let mut each = (0..steps).map(|_| s.beam_step(vram, xr));
                each.find(Result::is_err).unwrap_or(Ok(())).map(|()| (0, 0))
            }
            Call::Line => s.interrupt_line().map(|up| (u64::from(up), 0)),
        };
        outcome(before, &s, answer)
    }

    /// The largest memories that can be lent.
    pub fn room(&self) -> Lent {
        Lent {
            vram: self.library_vram.room(),
            xr: self.library_xr.room(),
        }
    }
}

/// The value and the mask, or the refusal.
type Answer = Result<(u64, u8), model::Refusal>;

/// The model after a call. Where it refused, its words are those before, value and mask 0.
fn outcome(before: &Words, after: &model::State, answer: Answer) -> Outcome {
    match answer {
        Ok((value, mask)) => (words(after), said(0, value, mask)),
        Err(refusal) => (*before, said(refusal as u8, 0, 0)),
    }
}

/// One call to the library: what it says.
pub fn on_library(s: &mut xosera::State, vram: &mut [u16], xr: &mut [u16], call: Call) -> Said {
    let blitted = |a: xosera::BlitAnswer| said(a.refusal, a.count, a.mask);
    match call {
        Call::Reset => {
            xosera::reset(s);
            said(0, 0, 0)
        }
        Call::Write { reg, odd, byte } => {
            let a = xosera::write_byte(s, vram, xr, reg, odd, byte);
            said(a.refusal, 0, a.mask)
        }
        Call::Read { reg, odd } => {
            let a = xosera::read_byte(s, vram, xr, reg, odd);
            said(a.refusal, u64::from(a.byte), 0)
        }
        Call::Step => blitted(xosera::blit_step(s, vram, xr)),
        Call::Run { n } => blitted(xosera::blit_run(s, vram, xr, n)),
        Call::Tick => said(xosera::timer_tick(s).refusal, 0, 0),
        Call::Beam { steps } => {
            let mut each = (0..steps).map(|_| xosera::beam_step(s, vram, xr).refusal);
            said(each.find(|&refusal| refusal != 0).unwrap_or(0), 0, 0)
        }
        Call::Line => {
            let a = xosera::interrupt_line(s);
            said(a.refusal, u64::from(a.up), 0)
        }
    }
}
