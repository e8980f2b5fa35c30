//! Recorded sessions: the text of docs/RECORDING.md, form 1, line by line.

use crate::fields;
use crate::pair::Said;

const HEAD: &str = "xosera recording 1";

/// The longest line, without its line feed.
const LONGEST: usize = 500;

/// Words of a memory on a line.
const ROW: usize = 16;

/// The longest memories, in words.
const MOST_VRAM: u64 = 1_048_576;
const MOST_XR: u64 = 65_536;

/// What a line asks of the adapter.
#[derive(Clone, Copy, Debug, PartialEq, Eq)]
pub enum Asked {
    Write { reg: u8, odd: bool, byte: u8 },
    Read { reg: u8, odd: bool },
    Step,
    Run { n: u64 },
    Tick { n: u64 },
    Beam { n: u64 },
    Line,
}

/// Words of the state or of a memory, to be set or checked.
#[derive(Clone, Debug, PartialEq, Eq)]
pub enum Words {
    State { field: usize, word: u16 },
    Vram { at: usize, words: Vec<u16> },
    Xr { at: usize, words: Vec<u16> },
}

/// A line behind the first one.
#[derive(Clone, Debug, PartialEq, Eq)]
pub enum Line {
    Memory { vram: usize, xr: usize },
    Set(Words),
    Call { asked: Asked, answer: Said },
    Check(Words),
    End,
}

/// A line that the page does not allow: its number, from 1, and why.
#[derive(Clone, Debug, PartialEq, Eq)]
pub struct Refused {
    pub line: usize,
    pub why: String,
}

/// What may come next.
#[derive(Clone, Copy, Debug, PartialEq, Eq)]
enum Stage {
    Head,
    Memory,
    Calls,
    Nothing,
    Refused,
}

/// The lines of a file that say something, with their numbers, up to the first that is refused.
pub struct Reader<'a> {
    rest: &'a [u8],
    line: usize,
    stage: Stage,
    fields: Vec<String>,
    vram: usize,
    xr: usize,
}

impl<'a> Reader<'a> {
    pub fn new(file: &'a [u8]) -> Reader<'a> {
        Reader {
            rest: file,
            line: 0,
            stage: Stage::Head,
            fields: fields::names(),
            vram: 0,
            xr: 0,
        }
    }

    /// Was `end` read?
    pub fn whole(&self) -> bool {
        self.stage == Stage::Nothing
    }

    /// The name of a word of the state.
    pub fn field(&self, number: usize) -> &str {
        &self.fields[number]
    }

    /// The next line, without its line feed; nothing where none is whole.
    fn whole_line(&mut self) -> Option<&'a [u8]> {
        let end = self.rest.iter().position(|&byte| byte == b'\n')?;
        let line = &self.rest[..end];
        self.rest = &self.rest[end + 1..];
        self.line += 1;
        Some(line)
    }

    fn refused(&mut self, why: String) -> Refused {
        self.stage = Stage::Refused;
        self.rest = &[];
        Refused {
            line: self.line,
            why,
        }
    }

    /// Behind the last whole line.
    fn at_end(&mut self) -> Option<Refused> {
        let why = match self.stage {
            Stage::Head => format!("the file does not begin with `{}`", HEAD),
            Stage::Nothing if !self.rest.is_empty() => "something follows `end`".to_string(),
            _ if self.rest.len() > LONGEST => too_long(),
            _ => return None,
        };
        self.line += 1;
        Some(self.refused(why))
    }

    /// What a line says; nothing where it is ignored, or the first.
    fn said(&mut self, line: &[u8]) -> Result<Option<Line>, String> {
        if line.len() > LONGEST {
            return Err(too_long());
        }
        if line.contains(&0) {
            return Err("a byte 0".to_string());
        }
        let text = match line.iter().position(|&byte| byte == b'#') {
            Some(comment) => &line[..comment],
            None => line,
        };
        let commented = text.len() < line.len();
        let text = match std::str::from_utf8(text) {
            Ok(text) if commented => text.trim_end_matches(' '),
            Ok(text) => text,
            Err(_) => return Err("not ASCII".to_string()),
        };
        if !text.is_ascii() {
            return Err("not ASCII".to_string());
        }
        if text.is_empty() {
            return Ok(None);
        }
        if self.stage == Stage::Head {
            self.stage = Stage::Memory;
            return match text {
                HEAD => Ok(None),
                _ => Err(format!("the file does not begin with `{}`", HEAD)),
            };
        }
        let line = self.parsed(text)?;
        self.stage = self.after(&line)?;
        Ok(Some(line))
    }

    fn parsed(&mut self, text: &str) -> Result<Line, String> {
        let mut parts = Parts::new(text)?;
        let line = match parts.next()? {
            "memory" => {
                self.vram = parts.decimal(MOST_VRAM)? as usize;
                self.xr = parts.decimal(MOST_XR)? as usize;
                let (vram, xr) = (self.vram, self.xr);
                Line::Memory { vram, xr }
            }
            "check" => {
                let kind = parts.next()?;
                Line::Check(self.words(kind, &mut parts)?)
            }
            kind @ ("state" | "vram" | "xr") => Line::Set(self.words(kind, &mut parts)?),
            "end" => Line::End,
            kind => call(kind, &mut parts)?,
        };
        parts.end()?;
        Ok(line)
    }

    fn words(&self, kind: &str, parts: &mut Parts) -> Result<Words, String> {
        match kind {
            "state" => {
                let name = parts.next()?;
                let word = parts.hex(4)? as u16;
                let field = self.fields.iter().position(|field| field == name);
                let field = field.ok_or_else(|| format!("no field of the state: {}", name))?;
                Ok(Words::State { field, word })
            }
            "vram" => row(self.vram, parts).map(|(at, words)| Words::Vram { at, words }),
            "xr" => row(self.xr, parts).map(|(at, words)| Words::Xr { at, words }),
            _ => Err(format!("no line begins with `check {}`", kind)),
        }
    }

    /// What may come behind this line, if it may come here.
    fn after(&self, line: &Line) -> Result<Stage, String> {
        match (self.stage, line) {
            (Stage::Nothing, _) => Err("a line behind `end`".to_string()),
            (Stage::Memory, Line::Memory { .. }) => Ok(Stage::Calls),
            (Stage::Memory, _) => Err("the second line is not `memory`".to_string()),
            (_, Line::End) => Ok(Stage::Nothing),
            _ => Ok(Stage::Calls),
        }
    }
}

impl Iterator for Reader<'_> {
    type Item = Result<(usize, Line), Refused>;

    fn next(&mut self) -> Option<Self::Item> {
        while let Some(line) = self.whole_line() {
            match self.said(line) {
                Ok(None) => {}
                Ok(Some(line)) => return Some(Ok((self.line, line))),
                Err(why) => return Some(Err(self.refused(why))),
            }
        }
        self.at_end().map(Err)
    }
}

fn too_long() -> String {
    format!("longer than {} characters", LONGEST)
}

/// An address below `length` and the words from there on.
fn row(length: usize, parts: &mut Parts) -> Result<(usize, Vec<u16>), String> {
    let at = parts.address()?;
    let mut words = vec![parts.hex(4)? as u16];
    while !parts.0.is_empty() {
        words.push(parts.hex(4)? as u16);
    }
    if words.len() > ROW {
        return Err(format!("more than {} words on a line", ROW));
    }
    if at > length as u64 || at as usize + words.len() > length {
        return Err("an address beyond the memory".to_string());
    }
    Ok((at as usize, words))
}

fn call(kind: &str, parts: &mut Parts) -> Result<Line, String> {
    let asked = match kind {
        "write" => Asked::Write {
            reg: parts.decimal(255)? as u8,
            odd: parts.half()?,
            byte: parts.hex(2)? as u8,
        },
        "read" => Asked::Read {
            reg: parts.decimal(255)? as u8,
            odd: parts.half()?,
        },
        "step" => Asked::Step,
        "run" => Asked::Run {
            n: parts.decimal(u64::MAX)?,
        },
        "tick" => Asked::Tick {
            n: parts.decimal(u64::MAX)?,
        },
        "beam" => Asked::Beam {
            n: parts.decimal(u64::MAX)?,
        },
        "line" => Asked::Line,
        _ => return Err(format!("no line begins with `{}`", kind)),
    };
    match parts.next()? {
        "=" => answer(asked, parts).map(|answer| Line::Call { asked, answer }),
        other => Err(format!("`=` should stand here: {}", other)),
    }
}

fn answer(asked: Asked, parts: &mut Parts) -> Result<Said, String> {
    let refusal = parts.decimal(255)? as u8;
    let value = match asked {
        Asked::Write { .. } => 0,
        Asked::Read { .. } => parts.hex(2)?,
        Asked::Line => parts.decimal(1)?,
        _ => parts.decimal(u64::MAX)?,
    };
    let mask = match asked {
        Asked::Write { .. } | Asked::Step | Asked::Run { .. } => parts.hex(1)? as u8,
        _ => 0,
    };
    let all = match asked {
        Asked::Tick { n } | Asked::Beam { n } if refusal == 0 => value == n,
        Asked::Tick { n } | Asked::Beam { n } => value < n,
        _ => true,
    };
    let answer = Said {
        refusal,
        value,
        mask,
    };
    all.then_some(answer)
        .ok_or_else(|| "all are done, unless one is refused".to_string())
}

/// An answer in the words of a line.
pub fn answer_text(asked: Asked, said: Said) -> String {
    let (refusal, value, mask) = (said.refusal, said.value, said.mask);
    match asked {
        Asked::Write { .. } => format!("{} {:X}", refusal, mask),
        Asked::Read { .. } => format!("{} {:02X}", refusal, value),
        Asked::Step | Asked::Run { .. } => format!("{} {} {:X}", refusal, value, mask),
        Asked::Tick { .. } | Asked::Beam { .. } | Asked::Line => format!("{} {}", refusal, value),
    }
}

/// The parts of a line that are still to be read.
struct Parts<'a>(Vec<&'a str>);

impl<'a> Parts<'a> {
    fn new(text: &'a str) -> Result<Parts<'a>, String> {
        let parts: Vec<&str> = text.split(' ').rev().collect();
        match parts.contains(&"") {
            true => Err("a blank too many".to_string()),
            false => Ok(Parts(parts)),
        }
    }

    fn next(&mut self) -> Result<&'a str, String> {
        let next = self.0.pop();
        next.ok_or_else(|| "the line is too short".to_string())
    }

    fn end(&self) -> Result<(), String> {
        match self.0.last() {
            None => Ok(()),
            Some(more) => Err(format!("more than the line has: {}", more)),
        }
    }

    fn half(&mut self) -> Result<bool, String> {
        match self.next()? {
            "even" => Ok(false),
            "odd" => Ok(true),
            other => Err(format!("neither `even` nor `odd`: {}", other)),
        }
    }

    /// A decimal number, at most this one, without zeros before it.
    fn decimal(&mut self, most: u64) -> Result<u64, String> {
        let text = self.next()?;
        let digits = text.bytes().all(|byte| byte.is_ascii_digit());
        if !digits || (text.len() > 1 && text.starts_with('0')) {
            return Err(format!("no decimal number: {}", text));
        }
        match text.parse() {
            Ok(number) if number <= most => Ok(number),
            _ => Err(format!("a number over {}: {}", most, text)),
        }
    }

    /// A hexadecimal number of so many digits.
    fn hex(&mut self, digits: usize) -> Result<u64, String> {
        let text = self.next()?;
        match text.len() == digits && is_hex(text) {
            true => Ok(u64::from_str_radix(text, 16).expect("hexadecimal digits")),
            false => Err(format!("not {} hexadecimal digits: {}", digits, text)),
        }
    }

    /// An address: four hexadecimal digits, or more where it needs them.
    fn address(&mut self) -> Result<u64, String> {
        let text = self.next()?;
        if text.len() < 4 || (text.len() > 4 && text.starts_with('0')) || !is_hex(text) {
            return Err(format!("no address: {}", text));
        }
        u64::from_str_radix(text, 16).map_err(|_| "an address beyond the memory".to_string())
    }
}

/// Hexadecimal digits, the letters in capitals.
fn is_hex(text: &str) -> bool {
    text.bytes()
        .all(|byte| byte.is_ascii_digit() || (b'A'..=b'F').contains(&byte))
}
