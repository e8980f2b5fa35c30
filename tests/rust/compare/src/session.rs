//! Recorded sessions played on the library and on the plain Rust model.

use std::fmt;

use crate::convert::{misfit, typed, words};
use crate::pair::{on_library, Call, Said};
use crate::recording::{answer_text, Asked, Line, Reader, Refused, Words};
use xosera::{Adapter, State};

/// What a session is played on: the state after a reset, and the calls. What a call leaves alone where
/// it is refused is for the side to see to.
pub trait Side {
    fn reset(&mut self) -> State;
    fn call(&mut self, x: &mut Adapter, asked: Asked) -> Said;
}

pub struct Library;

pub struct Plain;

impl Side for Library {
    fn reset(&mut self) -> State {
        State::reset()
    }

    fn call(&mut self, x: &mut Adapter, asked: Asked) -> Said {
        let mut one = |call| on_library(&mut x.state, &mut x.vram, &mut x.xr, call);
        match asked {
            Asked::Write { reg, odd, byte } => one(Call::Write { reg, odd, byte }),
            Asked::Read { reg, odd } => one(Call::Read { reg, odd }),
            Asked::Step => one(Call::Step),
            Asked::Run { n } => one(Call::Run { n }),
            Asked::Tick { n } => up_to(n, || one(Call::Tick).refusal),
            Asked::Beam { n } => up_to(n, || one(Call::Beam { steps: 1 }).refusal),
            Asked::Line => one(Call::Line),
        }
    }
}

impl Side for Plain {
    fn reset(&mut self) -> State {
        State::from_words(words(&model::State::reset()))
    }

    fn call(&mut self, x: &mut Adapter, asked: Asked) -> Said {
        let mut s = typed(x.state.words()).unwrap_or_else(misfit);
        let said = on_plain(&mut s, &mut x.vram, &mut x.xr, asked);
        if said.refusal == 0 || said.value != 0 {
            x.state = State::from_words(words(&s));
        }
        said
    }
}

fn on_plain(s: &mut model::State, vram: &mut [u16], xr: &mut [u16], asked: Asked) -> Said {
    let blitted = |b: model::Blitted| (b.count, b.mask);
    match asked {
        Asked::Write { reg, odd, byte } => {
            answered(s.write_byte(vram, xr, reg, odd, byte).map(|mask| (0, mask)))
        }
        Asked::Read { reg, odd } => {
            let answer = s.read_byte(vram, xr, reg, odd);
            answered(answer.map(|byte| (u64::from(byte), 0)))
        }
        Asked::Step => answered(s.blit_step(vram, xr).map(blitted)),
        Asked::Run { n } => answered(s.blit_run(vram, xr, n).map(blitted)),
        Asked::Tick { n } => up_to(n, || kept(s, |s| s.timer_tick())),
        Asked::Beam { n } => up_to(n, || kept(s, |s| s.beam_step(vram, xr))),
        Asked::Line => answered(s.interrupt_line().map(|up| (u64::from(up), 0))),
    }
}

/// A call of the model that leaves the state where it is refused: the refusal's number.
fn kept(
    s: &mut model::State,
    call: impl FnOnce(&mut model::State) -> Result<(), model::Refusal>,
) -> u8 {
    let mut next = *s;
    match call(&mut next) {
        Ok(()) => {
            *s = next;
            0
        }
        Err(refusal) => refusal as u8,
    }
}

fn answered(answer: Result<(u64, u8), model::Refusal>) -> Said {
    let (refusal, (value, mask)) = match answer {
        Ok(answer) => (0, answer),
        Err(refusal) => (refusal as u8, (0, 0)),
    };
    Said {
        refusal,
        value,
        mask,
    }
}

/// A call n times or up to the first that is refused: that refusal, and how many were done.
fn up_to(n: u64, mut call: impl FnMut() -> u8) -> Said {
    let (mut refusal, mut value) = (0, 0);
    while value < n && refusal == 0 {
        refusal = call();
        value += u64::from(refusal == 0);
    }
    Said {
        refusal,
        value,
        mask: 0,
    }
}

/// A session that went as recorded: how many lines and calls, whether its `end` was there, and the
/// adapter at the end.
#[derive(Clone, Debug, PartialEq, Eq)]
pub struct Played {
    pub whole: bool,
    pub lines: usize,
    pub calls: usize,
    pub adapter: Adapter,
}

/// Why a session stopped, and at which line of the file.
#[derive(Clone, Debug, PartialEq, Eq)]
pub enum Stopped {
    Refused(Refused),
    Differs { line: usize, what: String },
}

impl Stopped {
    pub fn line(&self) -> usize {
        match self {
            Stopped::Refused(refused) => refused.line,
            Stopped::Differs { line, .. } => *line,
        }
    }
}

impl fmt::Display for Stopped {
    fn fmt(&self, f: &mut fmt::Formatter<'_>) -> fmt::Result {
        match self {
            Stopped::Refused(refused) => write!(f, "line {}: {}", refused.line, refused.why),
            Stopped::Differs { line, what } => write!(f, "line {}: {}", line, what),
        }
    }
}

/// Play a file: up to its end, or to the first line that differs or is refused.
pub fn play(file: &[u8], side: &mut impl Side) -> Result<Played, Stopped> {
    let mut reader = Reader::new(file);
    let mut session = Session::new(side);
    let mut lines = 0;
    while let Some(next) = reader.next() {
        let (line, says) = next.map_err(Stopped::Refused)?;
        let done = session.line(&says, |field| reader.field(field));
        done.map_err(|what| Stopped::Differs { line, what })?;
        lines += 1;
    }
    Ok(Played {
        whole: reader.whole(),
        lines,
        calls: session.calls,
        adapter: session.x,
    })
}

/// The adapter as it is, and its memories as `vram`, `xr` and `check` lines have them.
struct Session<'s, S> {
    side: &'s mut S,
    x: Adapter,
    vram: Vec<u16>,
    xr: Vec<u16>,
    calls: usize,
}

impl<'s, S: Side> Session<'s, S> {
    fn new(side: &'s mut S) -> Session<'s, S> {
        let state = side.reset();
        let (vram, xr) = (Vec::new(), Vec::new());
        Session {
            side,
            x: Adapter { state, vram, xr },
            vram: Vec::new(),
            xr: Vec::new(),
            calls: 0,
        }
    }

    /// Do what the line says; if something differs, what.
    fn line<'a>(&mut self, line: &Line, field: impl Fn(usize) -> &'a str) -> Result<(), String> {
        match line {
            Line::Memory { vram, xr } => {
                self.as_told()?;
                self.x.state = self.side.reset();
                (self.x.vram, self.x.xr) = (vec![0; *vram], vec![0; *xr]);
                (self.vram, self.xr) = (vec![0; *vram], vec![0; *xr]);
                Ok(())
            }
            Line::Set(words) => self.set(words),
            Line::Call { asked, answer } => self.call(*asked, *answer),
            Line::Check(words) => self.check(words, field),
            Line::End => self.as_told(),
        }
    }

    /// Is every word of both memories as the last line that names it has it?
    fn as_told(&self) -> Result<(), String> {
        same("VRAM", 0, &self.x.vram, &self.vram)?;
        same("XR memory", 0, &self.x.xr, &self.xr)
    }

    fn set(&mut self, words: &Words) -> Result<(), String> {
        match words {
            Words::State { field, word } => {
                let mut words = *self.x.state.words();
                words[*field] = *word;
                self.x.state = State::from_words(words);
                Ok(())
            }
            Words::Vram { at, words } => {
                let now = &mut self.x.vram[*at..][..words.len()];
                set_words("VRAM", *at, now, &mut self.vram[*at..], words)
            }
            Words::Xr { at, words } => {
                let now = &mut self.x.xr[*at..][..words.len()];
                set_words("XR memory", *at, now, &mut self.xr[*at..], words)
            }
        }
    }

    fn call(&mut self, asked: Asked, recorded: Said) -> Result<(), String> {
        self.calls += 1;
        let said = self.side.call(&mut self.x, asked);
        if said == recorded {
            return Ok(());
        }
        let (said, recorded) = (answer_text(asked, said), answer_text(asked, recorded));
        Err(format!("answered {}, recorded {}", said, recorded))
    }

    fn check<'a>(&mut self, words: &Words, field: impl Fn(usize) -> &'a str) -> Result<(), String> {
        match words {
            Words::State { field: i, word } => {
                let now = self.x.state.words()[*i];
                let what = || format!("{} is {:04X}, recorded {:04X}", field(*i), now, word);
                (now == *word).then_some(()).ok_or_else(what)
            }
            Words::Vram { at, words } => {
                same("VRAM", *at, &self.x.vram[*at..][..words.len()], words)?;
                self.vram[*at..][..words.len()].copy_from_slice(words);
                Ok(())
            }
            Words::Xr { at, words } => {
                same("XR memory", *at, &self.x.xr[*at..][..words.len()], words)?;
                self.xr[*at..][..words.len()].copy_from_slice(words);
                Ok(())
            }
        }
    }
}

/// Set words of a memory, from an address on, which are as told until then.
fn set_words(
    name: &str,
    at: usize,
    now: &mut [u16],
    told: &mut [u16],
    words: &[u16],
) -> Result<(), String> {
    let told = &mut told[..words.len()];
    same(name, at, now, told)?;
    now.copy_from_slice(words);
    told.copy_from_slice(words);
    Ok(())
}

/// Are the words of a memory, from an address on, as recorded?
fn same(name: &str, at: usize, now: &[u16], recorded: &[u16]) -> Result<(), String> {
    match now.iter().zip(recorded).position(|(now, then)| now != then) {
        None => Ok(()),
        Some(i) => Err(format!(
            "word {:04X} of {} is {:04X}, recorded {:04X}",
            at + i,
            name,
            now[i],
            recorded[i]
        )),
    }
}
