//! Why a nibble is as it is (change request 5): the question to the library, the model's answer by the
//! library's numbers, and the situations that came up in small blits.

use model::{Account, Fate, Reach, Reasons, Refusal};
use xosera::{BlitRegs, WhyAnswer};

use crate::convert::blit;

/// Words beside the second memory that no call may touch.
const FENCE: [u16; 16] = [0xA55A; 16];

/// The model's answer as the library numbers it.
pub fn numbered(answer: Result<Fate, Refusal>) -> WhyAnswer {
    let none = WhyAnswer::default();
    match answer {
        Err(refusal) => WhyAnswer {
            refusal: refusal as u8,
            ..none
        },
        Ok(Fate::NeverReached) => WhyAnswer { fate: 1, ..none },
        Ok(Fate::HeldBack(reasons)) => WhyAnswer {
            fate: 2,
            first_mask: reasons.first_mask,
            last_mask: reasons.last_mask,
            colour_test: reasons.colour_test,
            ..none
        },
        Ok(Fate::Written { line, word }) => WhyAnswer {
            fate: 3,
            line,
            word,
            ..none
        },
    }
}

/// The whole blit on the memory before, by the model: the account of every nibble, and the memory after.
pub fn account(regs: [u16; 10], before: &[u16]) -> (Account, Vec<u16>) {
    let mut after = before.to_vec();
    let account = Account::of(blit(&regs.into()), &mut after);
    (account, after)
}

/// A memory that has in no nibble what this one has.
pub fn unlike(memory: &[u16]) -> Vec<u16> {
    memory.iter().map(|word| !word).collect()
}

/// Ask the library, with these words in the second memory. The memory before must stay, and what stands
/// beside the second. The answer, and the second memory after it.
pub fn ask(
    regs: BlitRegs,
    before: &[u16],
    second: &[u16],
    address: u32,
    nibble: u32,
) -> (WhyAnswer, Vec<u16>) {
    let copy = before.to_vec();
    let mut room = [&FENCE, second, &FENCE].concat();
    let work = FENCE.len()..FENCE.len() + second.len();
    let answer = xosera::why(regs, before, &mut room[work.clone()], address, nibble);
    assert!(before == copy, "the memory before changed");
    let whole = room.starts_with(&FENCE) && room.ends_with(&FENCE);
    assert!(whole, "a word beside the second memory changed");
    (answer, room[work].to_vec())
}

/// The library's answer for a place of this memory, asked with a second memory that differs from it in
/// every nibble, and which must end so.
pub fn answer(
    regs: [u16; 10],
    [before, after]: [&[u16]; 2],
    address: usize,
    nibble: usize,
) -> WhyAnswer {
    let (address, nibble) = (address as u32, nibble as u32);
    let (answer, worked) = ask(regs.into(), before, &unlike(before), address, nibble);
    let place = (0..after.len()).find(|&at| worked[at] != after[at]);
    assert_eq!(place, None, "the second memory differs: {:X?}", regs);
    answer
}

/// Every place and nibble: answer and second memory of the library against the model's account.
pub fn everywhere(regs: [u16; 10], before: &[u16], cases: &mut Cases) {
    let (account, after) = account(regs, before);
    for address in 0..before.len() {
        for i in 0..4 {
            let answer = answer(regs, [before, &after], address, i);
            let expected = numbered(Ok(account.fate(address, i)));
            assert_eq!(
                answer, expected,
                "word {}, nibble {}: {:X?}",
                address, i, regs
            );
        }
    }
    cases.count(regs, [before, &after], &account);
}

/// What came to a nibble, and whether its value stayed.
struct Nibble<'a> {
    reaches: &'a [Reach],
    stayed: bool,
}

impl Nibble<'_> {
    fn writes(&self) -> usize {
        self.reaches.iter().filter(|reach| reach.wrote()).count()
    }

    fn begins_with_a_write(&self) -> bool {
        self.reaches.first().map_or(false, Reach::wrote)
    }

    fn ends_with_a_write(&self) -> bool {
        self.reaches.last().map_or(false, Reach::wrote)
    }

    /// Held back, each time, and the last time by these.
    fn held(&self, first_mask: bool, last_mask: bool, colour_test: bool) -> bool {
        let reasons = Reasons {
            first_mask,
            last_mask,
            colour_test,
        };
        self.writes() == 0 && self.reaches.last().map_or(false, |r| r.held == reasons)
    }

    /// Held back, each time, but not always by what did the last time.
    fn held_otherwise(&self) -> bool {
        let last = self.reaches.last();
        let other = |reach: &Reach| last.map_or(false, |last| last.held != reach.held);
        self.writes() == 0 && self.reaches.iter().any(other)
    }
}

/// A word of a blit: its line and word, and the places that it takes its source from and goes to.
struct Step {
    at: (u16, u16),
    source: u16,
    target: u16,
}

/// A blit that was done.
struct Blit<'a> {
    regs: BlitRegs,
    vram: usize,
    steps: Vec<Step>,
    account: &'a Account,
}

impl Blit<'_> {
    fn is_constant(&self) -> bool {
        self.regs.ctrl & 1 == 1
    }

    /// Does it take words of VRAM and shift them by so many nibbles?
    fn shifts(&self, by: u16) -> bool {
        !self.is_constant() && self.regs.shift & 3 == by
    }

    fn has_lines(&self) -> bool {
        self.regs.lines % 32768 > 0
    }

    /// Does some address of the steps go from 65,535 to 0?
    fn wraps(&self, address: fn(&Step) -> u16) -> bool {
        let pairs = self.steps.windows(2);
        let mut pairs = pairs.map(|pair| (address(&pair[0]), address(&pair[1])));
        pairs.any(|pair| pair == (0xFFFF, 0))
    }

    /// Is the source of some step a word of which a nibble is written in a step to which it stands so?
    fn reads(&self, so: fn(&(u16, u16), &(u16, u16)) -> bool) -> bool {
        !self.is_constant() && self.steps.iter().any(|step| self.meets(step, so))
    }

    fn meets(&self, step: &Step, so: fn(&(u16, u16), &(u16, u16)) -> bool) -> bool {
        let place = usize::from(step.source) % self.vram;
        let reaches = (0..4).flat_map(|i| self.account.reaches(place, i));
        let mut writes = reaches.filter(|reach| reach.wrote());
        writes.any(|reach| so(&step.at, &(reach.line, reach.word)))
    }
}

/// The steps of a blit by their addresses.
fn steps(regs: &BlitRegs) -> Vec<Step> {
    let mut steps = Vec::new();
    let (mut source, mut target) = (regs.src_s, regs.dst_d);
    for line in 0..=regs.lines % 32768 {
        for word in 0..=regs.words {
            let at = (line, word);
            steps.push(Step { at, source, target });
            source = source.wrapping_add(1 - (regs.ctrl & 1));
            target = target.wrapping_add(1);
        }
        source = source.wrapping_add(regs.mod_s);
        target = target.wrapping_add(regs.mod_d);
    }
    steps
}

/// A situation by its name.
type OfNibble = (&'static str, fn(&Nibble) -> bool);
type OfBlit = (&'static str, fn(&Blit) -> bool);

/// What can happen to a nibble.
const NIBBLES: [OfNibble; 15] = [
    ("never reached", |n| n.reaches.is_empty()),
    ("written once", |n| n.writes() == 1),
    ("written again", |n| n.writes() > 1),
    ("written, then held back", |n| {
        n.begins_with_a_write() && !n.ends_with_a_write()
    }),
    ("held back, then written", |n| {
        !n.begins_with_a_write() && n.ends_with_a_write()
    }),
    ("written with the value it had", |n| {
        n.writes() > 0 && n.stayed
    }),
    ("reached five times or more", |n| n.reaches.len() >= 5),
    ("held back otherwise before", |n| n.held_otherwise()),
    ("first mask", |n| n.held(true, false, false)),
    ("last mask", |n| n.held(false, true, false)),
    ("both masks", |n| n.held(true, true, false)),
    ("colour test", |n| n.held(false, false, true)),
    ("first mask and colour test", |n| n.held(true, false, true)),
    ("last mask and colour test", |n| n.held(false, true, true)),
    ("all three", |n| n.held(true, true, true)),
];

/// What a blit can be like.
const BLITS: [OfBlit; 20] = [
    ("constant", |b| b.is_constant()),
    ("shift 0", |b| b.shifts(0)),
    ("shift 1", |b| b.shifts(1)),
    ("shift 2", |b| b.shifts(2)),
    ("shift 3", |b| b.shifts(3)),
    ("no colour test", |b| b.regs.ctrl & 0x10 == 0),
    ("colour test by nibbles", |b| b.regs.ctrl & 0x30 == 0x10),
    ("colour test by bytes", |b| b.regs.ctrl & 0x30 == 0x30),
    ("first mask 0", |b| b.regs.shift >> 12 == 0),
    ("last mask 0", |b| b.regs.shift >> 8 & 15 == 0),
    ("lines of one word", |b| b.regs.words == 0 && b.has_lines()),
    ("one word", |b| b.regs.words == 0 && !b.has_lines()),
    ("LINES with bit 15", |b| b.regs.lines >> 15 == 1),
    ("MOD_S below 0", |b| {
        b.regs.mod_s >> 15 == 1 && b.has_lines()
    }),
    ("MOD_D below 0", |b| {
        b.regs.mod_d >> 15 == 1 && b.has_lines()
    }),
    ("source from 65,535 to 0", |b| b.wraps(|step| step.source)),
    ("target from 65,535 to 0", |b| b.wraps(|step| step.target)),
    ("target beyond the length", |b| {
        let mut steps = b.steps.iter();
        steps.any(|step| usize::from(step.target) >= b.vram)
    }),
    ("reads what it wrote", |b| b.reads(|at, write| write < at)),
    ("reads what it writes later", |b| {
        b.reads(|at, write| write > at)
    }),
];

/// How often each situation came up, so that a run in which too little happened is seen.
#[derive(Clone, Default)]
pub struct Cases {
    nibbles: [u64; NIBBLES.len()],
    blits: [u64; BLITS.len()],
}

impl Cases {
    fn count(&mut self, regs: [u16; 10], [before, after]: [&[u16]; 2], account: &Account) {
        for address in 0..before.len() {
            let changed = before[address] ^ after[address];
            for i in 0..4 {
                let nibble = Nibble {
                    reaches: account.reaches(address, i),
                    stayed: changed >> (12 - 4 * i) & 15 == 0,
                };
                for (n, (_, so)) in self.nibbles.iter_mut().zip(NIBBLES) {
                    *n += u64::from(so(&nibble));
                }
            }
        }
        let regs = BlitRegs::from(regs);
        let blit = Blit {
            regs,
            vram: before.len(),
            steps: steps(&regs),
            account,
        };
        for (n, (_, so)) in self.blits.iter_mut().zip(BLITS) {
            *n += u64::from(so(&blit));
        }
    }

    /// Each situation by its name.
    pub fn numbers(&self) -> Vec<(&'static str, u64)> {
        let nibbles = NIBBLES.iter().map(|(name, _)| *name).zip(self.nibbles);
        let blits = BLITS.iter().map(|(name, _)| *name).zip(self.blits);
        nibbles.chain(blits).collect()
    }

    /// How often the situation of this name came up.
    pub fn number(&self, name: &str) -> u64 {
        let numbers = self.numbers();
        let found = numbers.iter().find(|(of, _)| *of == name);
        found.unwrap_or_else(|| panic!("no situation {:?}", name)).1
    }

    /// Says how often the situations came up. Each did.
    pub fn report(&self, what: &str) {
        let numbers = self.numbers();
        let (name, least) = numbers.iter().min_by_key(|(_, n)| n).unwrap();
        assert!(*least > 0, "{}: {:?}", what, numbers);
        println!(
            "why: {}: {} situations of nibbles and blits, each at least {} times ({})",
            what,
            numbers.len(),
            least,
            name
        );
    }
}
