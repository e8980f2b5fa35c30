//! The library against the plain Rust model, call by call.
//!
//! XOSERA_CALLS=n   how many calls (4,000,000 unless set)
//! XOSERA_SEED=n    the calls of an earlier run again (from the clock unless set)

use compare::calls::{Calls, VRAM_LENGTHS, XR_EDGES};
use compare::convert::{fits, in_range, typed, NARROW};
use compare::copper::{next_instruction, Coppers, ENABLED};
use compare::files::{file, room, KINDS, ROOMS};
use compare::masks::Masks;
use compare::paint;
use compare::pair::{Call, Lent, Mismatch, Pair, Said};
use compare::random::Random;
use compare::settings::{number, seed};
use compare::tube::Tube;

/// Calls between two fresh starts.
const EPISODE: u64 = 1500;

/// One call in so many is a save or a load. Each goes over all of both memories.
const SAVED: u64 = 500;

/// One call in so many asks why a nibble is as it is. Each goes over all of VRAM and of a second one.
const WHY: u64 = 400;

/// One call in so many paints a line, in colours or in levels.
const PAINTED: u64 = 150;

/// Lines by what they were painted from: four bits, eight bits, blank; and those refused with 1 to 3 and 11
/// to 13.
#[derive(Default)]
struct Lines {
    painted: [u64; 3],
    refused: [u64; 6],
}

impl Lines {
    fn count(&mut self, gfx: u16, refusal: u8) {
        let (blank, eight) = (gfx & paint::BLANK != 0, gfx & 0x70 == paint::EIGHT_BITS);
        match usize::from(refusal) {
            0 if blank => self.painted[2] += 1,
            0 => self.painted[usize::from(eight)] += 1,
            low @ 1..=3 => self.refused[low - 1] += 1,
            high => self.refused[high - 8] += 1,
        }
    }

    fn print(&self, name: &str) {
        println!(
            "  {:<10} painted by four bits, eight bits, blank {:?}; refused with 1 to 3, 11 to 13 {:?}",
            name, self.painted, self.refused
        );
    }
}

/// What happened, so that a run in which too little happened is seen.
#[derive(Default)]
struct Tally {
    calls: u64,
    kinds: [u64; 13],
    refusals: [u64; 16],
    lengths: [u64; 9],
    edges: Vec<u64>,
    words: u64,
    shifted: u64,
    /// Steps and runs whose first word takes nibbles from the line before, and those with a constant that
    /// empties the shifter.
    carried: u64,
    emptied: u64,
    constant: u64,
    colour: u64,
    one_word_lines: u64,
    wrapped: u64,
    started: u64,
    queued: u64,
    followed: u64,
    idle: u64,
    /// Calls refused for a word kept on a blit's first word, and for nothing else.
    kept_at_start: u64,
    expired: u64,
    line_up: u64,
    /// Saves by room, and by what they said.
    rooms: [u64; 5],
    saves: [u64; 11],
    /// Saves refused with 10, with one alone not at rest: line, position, copper.
    unrest: [u64; 3],
    /// Loads by file, those that were done by file, and all by what they said.
    files: [u64; 13],
    loaded: [u64; 13],
    loads: [u64; 11],
    /// Loads that brought beam or copper to rest, and that gave a kept word on a later line's first word.
    rested: u64,
    loaded_kept: u64,
    /// States with one word alone that does not fit its byte or flag, by `NARROW`.
    misfits: [u64; 23],
    masks: Masks,
    /// Single beam steps by what they did, and all those of bursts.
    coppers: Coppers,
    bursts: u64,
    /// Beam steps refused with 1, 2 and 3.
    unmoved: [u64; 3],
    /// Reads of `XM_SYS_CTRL` by the blank flags, and loads of a line other than 0.
    blanks: [u64; 4],
    scanlines: u64,
    /// Writes to `XR_COPP_CTRL` that stopped the copper.
    stopped: u64,
    /// Questions why, refused with 1 and with 15; never reached, held back, written; held back by the first
    /// mask, by the last, by the colour test.
    unasked: [u64; 2],
    fates: [u64; 3],
    reasons: [u64; 3],
    /// Lines in colours, and in levels.
    painted: Lines,
    grey: Lines,
}

impl Tally {
    fn count(&mut self, before: &xosera::State, after: &xosera::State, call: Call, said: Said) {
        self.masks.count(before, call, said);
        let value = said.value;
        let stepping = matches!(call, Call::Step | Call::Run { .. });
        if stepping && value > 0 {
            let r = &before.engine.regs;
            self.words += value;
            self.shifted += u64::from(r.ctrl & 1 == 0 && r.shift & 3 != 0);
            self.constant += u64::from(r.ctrl & 1 == 1);
            self.colour += u64::from(r.ctrl & 0x10 != 0);
            self.one_word_lines += u64::from(r.words == 0);
            self.wrapped +=
                u64::from(after.engine.running == 1 && after.engine.regs.dst_d < r.dst_d);
            self.followed += u64::from(before.queued == 1 && after.queued == 0);
            self.idle += u64::from(after.engine.running == 0);
        }
        if let Call::Write {
            reg: 5, odd: true, ..
        } = call
        {
            let at = before.host.xr.wr_xaddr.0;
            if let Some(i) = XR_EDGES.iter().position(|&edge| edge == at) {
                self.edges[i] += 1;
            }
            self.started += u64::from(before.engine.running == 0 && after.engine.running == 1);
            self.queued += u64::from(before.queued == 0 && after.queued == 1);
        }
        let misfit = |&number: &usize| !fits(number, before.words()[number]);
        let mut misfits = (0..).zip(&NARROW).filter(|&(_, number)| misfit(number));
        if let (Some((i, _)), None) = (misfits.next(), misfits.next()) {
            self.misfits[i] += 1;
        }
        self.count_beam(before, after, call, said);
        self.count_shifter(before, stepping, said);
        self.expired += u64::from(call == Call::Tick && before.host.timer.countdown == 1);
        self.line_up += u64::from(call == Call::Line && value == 1);
    }

    fn count_why(&mut self, said: xosera::WhyAnswer) {
        match (said.refusal, said.fate) {
            (0, fate) => self.fates[usize::from(fate) - 1] += 1,
            (refusal, _) => self.unasked[usize::from(refusal == 15)] += 1,
        }
        let reasons = [said.first_mask, said.last_mask, said.colour_test];
        for (n, applied) in self.reasons.iter_mut().zip(reasons) {
            *n += u64::from(applied);
        }
    }

    fn count_shifter(&mut self, before: &xosera::State, stepping: bool, said: Said) {
        let e = &before.engine;
        if stepping && said.value > 0 {
            self.carried += u64::from(shows_line_before(e));
            self.emptied += u64::from(e.regs.ctrl & 1 == 1 && e.kept != 0);
        }
        if said.refusal == 3 && e.running == 1 {
            let mut empty = *before;
            empty.engine.kept = 0;
            self.kept_at_start += u64::from(in_range(empty.words()));
        }
    }

    fn count_beam(
        &mut self,
        before: &xosera::State,
        after: &xosera::State,
        call: Call,
        said: Said,
    ) {
        match (call, said.refusal) {
            (Call::Beam { steps }, 0) => self.bursts += if steps > 1 { steps } else { 0 },
            (Call::Beam { .. }, refusal) => self.unmoved[refusal as usize - 1] += 1,
            (Call::Read { reg: 0, odd: false }, 0) => {
                self.blanks[said.value as usize >> 2 & 3] += 1;
            }
            (
                Call::Write {
                    reg: 3, odd: true, ..
                }
                | Call::Read { reg: 5, odd: true },
                0,
            ) => {
                let scanline = after.host.xr.rd_xaddr.0 == 0x03;
                self.scanlines += u64::from(scanline && after.beam.line > 0);
            }
            (
                Call::Write {
                    reg: 5, odd: true, ..
                },
                0,
            ) => {
                self.stopped += u64::from(before.beam.copper_running > after.beam.copper_running);
            }
            _ => {}
        }
    }

    fn print(&self) {
        let names = [
            "reset", "write", "read", "step", "run", "tick", "beam", "line", "save", "load", "why",
            "paint", "grey",
        ];
        let kinds: Vec<String> = names
            .iter()
            .zip(self.kinds)
            .map(|(name, n)| format!("{} {}", name, n))
            .collect();
        println!("  calls      {}", kinds.join(", "));
        println!(
            "  answers    done {}, refusals 1 to 13: {:?}, 15: {}",
            self.refusals[0],
            &self.refusals[1..14],
            self.refusals[15]
        );
        println!(
            "  VRAM       calls by length, 256 to 65536: {:?}",
            self.lengths
        );
        println!(
            "  blits      started {}, queued {}, followed on {}, ended idle {}; {} words",
            self.started, self.queued, self.followed, self.idle, self.words
        );
        println!(
            "  steps      shifted {}, constant {}, colour test {}, one-word lines {}, wrapped {}",
            self.shifted, self.constant, self.colour, self.one_word_lines, self.wrapped
        );
        println!(
            "  shifter    nibbles from the line before {}, emptied by a constant {}, kept word on a blit's first word refused {}, loaded on a later line's {}",
            self.carried, self.emptied, self.kept_at_start, self.loaded_kept
        );
        println!(
            "  host       countdown expired {}, line up {}, XR edges written at least {} times each",
            self.expired,
            self.line_up,
            self.edges.iter().min().unwrap()
        );
        let rooms = named(&ROOMS, &self.rooms);
        println!(
            "  saves      done {}; line, position or copper alone not at rest {:?}; rooms: {}",
            self.saves[0], self.unrest, rooms
        );
        let done = named(&KINDS, &self.loaded);
        println!(
            "  loads      done {}, {} of them to rest: {}",
            self.loads[0], self.rested, done
        );
        println!("  files      {}", named(&KINDS, &self.files));
        println!(
            "  words      each byte and flag alone out of range at least {} times",
            self.misfits.iter().min().unwrap()
        );
        println!(
            "  seen       XM_SYS_CTRL by its blank flags {:?}, XR_SCANLINE not 0 {}; copper stopped by the host {}; beam steps in bursts {}, refused {:?}",
            self.blanks, self.scanlines, self.stopped, self.bursts, self.unmoved
        );
        println!(
            "  whys       never reached, held back, written {:?}; by first mask, last mask, colour test {:?}; refused with 1, 15 {:?}",
            self.fates, self.reasons, self.unasked
        );
        self.painted.print("lines");
        self.grey.print("grey lines");
    }

    /// Everything that the papers speak of has happened.
    fn require_all(&self) {
        let of_save = [0, 1, 2, 3, 7, 10].map(|said| self.saves[said]);
        let of_load = [0, 1, 2, 3, 8, 9].map(|said| self.loads[said]);
        // An own file, another's, and one with a byte changed that is another's then.
        let loaded = ["own", "another's", "of the state", "any byte"].map(|name| {
            let at = KINDS.iter().position(|&(_, of)| of == name);
            self.loaded[at.expect("one of them")]
        });
        let each = [
            &self.kinds[..],
            &of_save[..],
            &of_load[..],
            &self.rooms[..],
            &self.files[..],
            &loaded[..],
            &self.refusals[..14],
            &self.painted.painted[..],
            &self.painted.refused[..],
            &self.grey.painted[..],
            &self.grey.refused[..],
            &self.unasked[..],
            &self.fates[..],
            &self.reasons[..],
            &self.lengths[..],
            &self.edges[..],
            &self.misfits[..],
            &self.masks.numbers(),
            &self.coppers.numbers(),
            &self.unrest[..],
            &self.unmoved[..],
            &self.blanks[..],
            &[
                self.shifted,
                self.carried,
                self.emptied,
                self.kept_at_start,
                self.loaded_kept,
                self.constant,
                self.colour,
                self.one_word_lines,
                self.wrapped,
                self.started,
                self.queued,
                self.followed,
                self.idle,
                self.expired,
                self.line_up,
                self.rested,
                self.scanlines,
                self.stopped,
            ],
        ];
        assert!(
            each.iter().all(|group| group.iter().all(|&n| n >= 20)),
            "some situation came up fewer than 20 times: the choice of calls needs a look"
        );
    }
}

/// Does a nibble, other than 0, that was pushed off the end of the line before come under an open first
/// mask in the next step?
fn shows_line_before(e: &xosera::Engine) -> bool {
    let from_vram = e.regs.ctrl & 1 == 0;
    let entering = u32::from(e.kept) << (16 - 4 * (e.regs.shift & 3)) & 0xFFFF;
    let open = (0..4).any(|i| e.regs.shift >> (12 + i) & 1 == 1 && entering >> (4 * i) & 15 != 0);
    from_vram && e.line > 0 && e.word == 0 && open
}

/// Names with numbers, those of 0 left out.
fn named<T>(names: &[(T, &str)], numbers: &[u64]) -> String {
    let each = names.iter().zip(numbers).filter(|&(_, &n)| n > 0);
    let each: Vec<String> = each
        .map(|((_, name), n)| format!("{} {}", name, n))
        .collect();
    each.join(", ")
}

const SAVE: usize = 8;
const LOAD: usize = 9;
const ASKED_WHY: usize = 10;
const PAINT: usize = 11;
const PAINT_GREY: usize = 12;

fn kind(call: Call) -> usize {
    match call {
        Call::Reset => 0,
        Call::Write { .. } => 1,
        Call::Read { .. } => 2,
        Call::Step => 3,
        Call::Run { .. } => 4,
        Call::Tick => 5,
        Call::Beam { .. } => 6,
        Call::Line => 7,
    }
}

/// The steps that a call asks for.
fn asked(call: Call) -> Option<u64> {
    match call {
        Call::Step => Some(1),
        Call::Run { n } => Some(n),
        _ => None,
    }
}

/// One episode: fresh memories of one length, then calls, each from what the one before it left.
fn episode(calls: &mut Calls, tally: &mut Tally, length: usize, n: u64) -> Result<(), String> {
    let vram = VRAM_LENGTHS[length];
    let room = Lent {
        vram: 2 * vram + 16,
        xr: 8192,
    };
    let mut pair = Pair::new(room);
    pair.fill(calls.random());
    let mut state = xosera::State::reset();
    let mut own = None;
    for i in 0..n {
        if calls.random().one_in(300) {
            state = calls.state_in_range();
        }
        if calls.random().one_in(SAVED) {
            state = save_or_load(calls, tally, &mut pair, vram, state, &mut own)
                .map_err(|mismatch| format!("call {} of the episode\n{}", i, mismatch))?;
            tally.calls += 1;
            tally.lengths[length] += 1;
            continue;
        }
        if calls.random().one_in(WHY) {
            ask_why(calls, tally, &mut pair, vram, state)
                .map_err(|mismatch| format!("call {} of the episode\n{}", i, mismatch))?;
            tally.calls += 1;
            tally.lengths[length] += 1;
            continue;
        }
        if calls.random().one_in(PAINTED) {
            paint_line(calls, tally, &mut pair, vram, state)
                .map_err(|mismatch| format!("call {} of the episode\n{}", i, mismatch))?;
            tally.calls += 1;
            tally.lengths[length] += 1;
            continue;
        }
        let astray = calls.random().one_in(40);
        let before = if astray {
            calls.state_out_of_range(state)
        } else {
            state
        };
        let call = calls.next(&before);
        let lent = calls.lend(vram, pair.room());
        let instruction = match call {
            Call::Beam { steps: 1 } if in_range(before.words()) => {
                next_instruction(&before, pair.xr())
            }
            _ => None,
        };
        let (after, said) = pair
            .call(before, lent, call)
            .map_err(|mismatch| format!("call {} of the episode\n{}", i, mismatch))?;
        if said.refusal == 0 {
            if let Some(steps) = asked(call) {
                let left = model::words_left(&typed(before.words()).expect("not refused"));
                assert_eq!(
                    said.value,
                    steps.min(left),
                    "{:?} with {} words left",
                    call,
                    left
                );
            }
        }
        tally.calls += 1;
        tally.kinds[kind(call)] += 1;
        tally.refusals[said.refusal as usize] += 1;
        tally.lengths[length] += 1;
        tally.count(&before, &after, call, said);
        if call == (Call::Beam { steps: 1 }) && said.refusal == 0 {
            tally.coppers.count(&before, instruction, &after);
        }
        if !astray || in_range(before.words()) {
            state = after;
        }
    }
    Ok(())
}

/// A save, or a load of some file. The state that the episode goes on with.
fn save_or_load(
    calls: &mut Calls,
    tally: &mut Tally,
    pair: &mut Pair,
    vram: usize,
    state: xosera::State,
    own: &mut Option<Vec<u8>>,
) -> Result<xosera::State, Box<Mismatch>> {
    let state = or_at_rest(calls, state);
    let before = match calls.random().one_in(10) {
        true => calls.state_out_of_range(state),
        false => state,
    };
    let lent = calls.lend_wrong_in(10, vram, pair.room());
    let (call, after, said) = if calls.random().one_in(if own.is_none() { 2 } else { 4 }) {
        let which = calls.random().pick(&[0, 0, 0, 1, 2, 2, 3, 4]);
        let room = room(calls, ROOMS[which].0, lent.vram);
        let (said, saved) = pair.save(before, lent, room)?;
        if said.refusal == 0 {
            assert_eq!(said.value as usize, xosera::saved_bytes(lent.vram));
            *own = Some(saved);
        }
        tally.rooms[which] += 1;
        tally.saves[said.refusal as usize] += 1;
        if said.refusal == 10 {
            let beam = before.beam;
            match [beam.line, beam.position, beam.copper_running] {
                [_, 0, 0] => tally.unrest[0] += 1,
                [0, _, 0] => tally.unrest[1] += 1,
                [0, 0, _] => tally.unrest[2] += 1,
                _ => {}
            }
        }
        (SAVE, before, said)
    } else {
        let which = calls.random().below(15).saturating_sub(2) as usize;
        let rest = xosera::State {
            beam: xosera::Beam::default(),
            ..state
        };
        let own = own.get_or_insert_with(|| pair.file(rest, vram));
        let kind = KINDS[which].0;
        let file = file(calls, kind, vram, own);
        let (after, said) = pair.load(before, lent, &file)?;
        assert!(
            kind.may_load() || matches!(said.refusal, 1 | 2 | 3 | 8),
            "{:?} says {}",
            kind,
            said.refusal
        );
        tally.files[which] += 1;
        tally.loaded[which] += u64::from(said.refusal == 0);
        tally.loads[said.refusal as usize] += 1;
        tally.rested += u64::from(said.refusal == 0 && before.beam != rest.beam);
        let e = &after.engine;
        let kept = e.line > 0 && e.word == 0 && e.kept != 0;
        tally.loaded_kept += u64::from(said.refusal == 0 && kept);
        (LOAD, after, said)
    };
    tally.kinds[call] += 1;
    tally.refusals[said.refusal as usize] += 1;
    Ok(if in_range(before.words()) {
        after
    } else {
        state
    })
}

/// A question why a nibble is as it is, of the adapter's registers, for fewer words where they are for
/// many, and with its VRAM as the memory before. It leaves the adapter as it is.
fn ask_why(
    calls: &mut Calls,
    tally: &mut Tally,
    pair: &mut Pair,
    vram: usize,
    state: xosera::State,
) -> Result<(), Box<Mismatch>> {
    let blit = calls.shortened(state.blit);
    let lent = calls.lend_wrong_in(20, vram, pair.room()).vram;
    let second = match calls.random().one_in(20) {
        true => calls.lend_wrong_in(2, vram, pair.room()).vram,
        false => lent,
    };
    let (address, nibble) = calls.place(blit.dst_d, vram);
    let before = xosera::State { blit, ..state };
    let said = pair.why(before, [lent, second], address, nibble)?;
    tally.kinds[ASKED_WHY] += 1;
    tally.refusals[said.refusal as usize] += 1;
    tally.count_why(said);
    Ok(())
}

/// A line painted with other registers for playfield A, for either tube. It leaves the adapter as it is.
fn paint_line(
    calls: &mut Calls,
    tally: &mut Tally,
    pair: &mut Pair,
    vram: usize,
    state: xosera::State,
) -> Result<(), Box<Mismatch>> {
    let video = calls.display(state.video);
    let state = xosera::State { video, ..state };
    let before = match calls.random().one_in(10) {
        true => calls.state_out_of_range(state),
        false => state,
    };
    let lent = calls.lend_wrong_in(20, vram, pair.room());
    let (line, words) = calls.scanline();
    let (tube, kind, lines) = match calls.random().flip() {
        true => (Tube::Colour, PAINT, &mut tally.painted),
        false => (Tube::Grey, PAINT_GREY, &mut tally.grey),
    };
    let said = pair.paint(tube, before, lent, line, words)?;
    tally.kinds[kind] += 1;
    tally.refusals[said.refusal as usize] += 1;
    lines.count(before.video.pa[paint::GFX_CTRL], said.refusal);
    Ok(())
}

/// The state, mostly with beam and copper at rest, or all but one of them.
fn or_at_rest(calls: &mut Calls, state: xosera::State) -> xosera::State {
    let (mut s, r) = (state, calls.random());
    let which = r.below(8);
    if which > 0 {
        s.beam = xosera::Beam::default();
    }
    match which {
        1 => s.beam.line = r.pick(&[1, 480, 524]),
        2 => s.beam.position = r.pick(&[1, 160, 799]),
        3 | 4 => s.beam.copper_running = u16::from(s.video.copp_ctrl & ENABLED != 0),
        _ => {}
    }
    s
}

#[test]
fn library_and_model_agree() {
    let seed = seed();
    let wanted = number("XOSERA_CALLS").unwrap_or(4_000_000);
    println!(
        "random calls: seed {} (XOSERA_SEED={} gives them again)",
        seed, seed
    );
    let mut tally = Tally {
        edges: vec![0; XR_EDGES.len()],
        ..Tally::default()
    };
    let mut seeds = Random::new(seed);
    let mut done = 0;
    let mut episodes = 0;
    while done < wanted {
        let mut calls = Calls::new(Random::new(seeds.number()));
        let length = calls.random().below(9) as usize;
        let n = EPISODE.min(wanted - done);
        if let Err(text) = episode(&mut calls, &mut tally, length, n) {
            panic!("seed {}, episode {}, {}", seed, episodes, text);
        }
        done += n;
        episodes += 1;
    }
    tally.print();
    tally.masks.print();
    tally.coppers.print();
    assert_eq!(tally.coppers.impossible(), 0);
    if wanted >= 1_000_000 {
        tally.require_all();
    }
    println!(
        "random calls: {} calls in {} episodes, state, memories and answers equal after each",
        tally.calls, episodes
    );
}
