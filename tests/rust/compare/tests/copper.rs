//! Beam and copper (change request 3): the library against the plain Rust model, step by step, the state
//! and both memories compared after each.
//!
//! XOSERA_SEED=n gives an earlier run's programs again; XOSERA_FRAMES=n says how many frames a program of
//! random words and one of instructions are run (4 unless set).

use compare::calls::Calls;
use compare::copper::{any_beam, any_copper_word, any_instruction, any_program, any_words};
use compare::copper::{instruction, next_instruction, next_place, position};
use compare::copper::{Coppers, Instruction, BLANK, ENABLED, LINES, POSITIONS, VISIBLE};
use compare::copper::{JMP, MOVEC, MOVER, PROGRAM_AT, PROGRAM_WORDS, SKIP, WAIT};
use compare::pair::{Call, Lent, Pair, Said};
use compare::random::Random;
use compare::settings::number;
use xosera::{Adapter, Beam, State};

const LENT: Lent = Lent {
    vram: 256,
    xr: xosera::XR_WORDS,
};

/// Beam steps in a frame.
const FRAME: u64 = 420_000;

const STEP: Call = Call::Beam { steps: 1 };

/// The library and the model, a state that both are in, and what came up.
struct Both {
    pair: Pair,
    state: State,
    coppers: Coppers,
}

impl Both {
    fn new(r: &mut Random) -> Both {
        let mut pair = Pair::new(LENT);
        pair.fill(r);
        Both {
            pair,
            state: State::reset(),
            coppers: Coppers::default(),
        }
    }

    fn call(&mut self, call: Call) -> Said {
        let (after, said) = match self.pair.call(self.state, LENT, call) {
            Ok(agreed) => agreed,
            Err(mismatch) => panic!("{}", mismatch),
        };
        assert_eq!(said.refusal, 0, "{:?} from {:#X?}", call, self.state);
        self.state = after;
        said
    }

    /// One beam step.
    fn step(&mut self) {
        let before = self.state;
        let next = next_instruction(&before, self.pair.xr());
        self.call(STEP);
        self.coppers.count(&before, next, &self.state);
        let reached = (self.state.beam.line, self.state.beam.position);
        assert_eq!(reached, next_place(&before.beam));
    }

    /// The copper runs at this word of its program, where this instruction stands.
    fn set_copper(&mut self, at: u16, [first, second]: Instruction) {
        self.state.video.copp_ctrl |= ENABLED;
        self.state.beam.copper_running = 1;
        self.state.beam.copper_word = at;
        let (at, after) = (usize::from(at), usize::from(at + 1) % PROGRAM_WORDS);
        self.pair.put_xr(PROGRAM_AT + at, &[first]);
        self.pair.put_xr(PROGRAM_AT + after, &[second]);
    }

    /// The beam is one step before this place, the copper as it was.
    fn set_beam_before(&mut self, line: u16, position: u16) {
        let (line, position) = match (line, position) {
            (0, 0) => (LINES - 1, POSITIONS - 1),
            (line, 0) => (line - 1, POSITIONS - 1),
            (line, position) => (line, position - 1),
        };
        self.state.beam.line = line;
        self.state.beam.position = position;
    }

    /// How far the copper's word is from there.
    fn gone_on(&self, at: u16) -> u16 {
        let words = PROGRAM_WORDS as u16;
        (self.state.beam.copper_word + words - at) % words
    }
}

/// The numbers around this one that are below `end`.
fn around(n: u16, end: u16) -> impl Iterator<Item = u16> {
    (n.saturating_sub(1)..=n.saturating_add(1)).filter(move |&n| n < end)
}

/// Has a beam at this place reached that one, by the request's sentences? As `WAIT` and `SKIP` see it.
fn reached(code: u16, [line, position]: [u16; 2], [y, x]: [u16; 2], flags: u16) -> bool {
    let pixel = position.checked_sub(BLANK);
    let right_of = pixel.map_or(false, |pixel| pixel >= x);
    match flags & 3 {
        0 if line > y => true,
        0 => line == y && right_of,
        1 => right_of,
        2 => line >= y,
        _ => code == SKIP,
    }
}

/// `WAIT` and `SKIP` under all flags, for positions at all edges and beyond, with the beam around them.
#[test]
fn waits_and_skips_around_their_positions() {
    let mut calls = Calls::seeded();
    let mut both = Both::new(calls.random());
    let edge_lines = [0, 1, VISIBLE - 1, VISIBLE, LINES - 2, LINES - 1];
    for y in edge_lines.into_iter().chain([LINES, 1024, 2047]) {
        let mut lines: Vec<u16> = around(y, LINES).chain([0, 479, 480, 524]).collect();
        lines.sort_unstable();
        lines.dedup();
        for x in [0, 1, 320, 638, 639, 640, 641, 1024, 2047] {
            let edges = [0, 1, BLANK - 1, BLANK, BLANK + 1, 799];
            let near = around(BLANK + x, POSITIONS).chain(edges);
            let mut positions: Vec<u16> = near.collect();
            positions.sort_unstable();
            positions.dedup();
            for (&line, &at) in lines
                .iter()
                .flat_map(|line| positions.iter().map(move |at| (line, at)))
            {
                around_one(&mut both, calls.random(), [line, at], [y, x]);
            }
        }
    }
    println!(
        "copper: WAIT and SKIP under all flags around their positions: {} steps as the plain model's",
        both.coppers.steps
    );
}

/// All flags for one place of the beam and one position, bits without a meaning set at random.
fn around_one(both: &mut Both, r: &mut Random, [line, at]: [u16; 2], [y, x]: [u16; 2]) {
    for (code, flags) in [WAIT, SKIP]
        .iter()
        .flat_map(|&c| (0..16).map(move |f| (c, f)))
    {
        // A copper that starts at line 0 does so at word 0.
        let word = match (line, at) {
            (0, 0) => 0,
            _ => any_copper_word(r),
        };
        let unused = [r.word() & 0x1800, r.word() & 0x8000];
        let [first, second] = position(code, y, x, flags);
        both.set_copper(word, [first | unused[0], second | unused[1]]);
        both.set_beam_before(line, at);
        both.step();
        let on = match (code, reached(code, [line, at], [y, x], flags)) {
            (WAIT, reached) => 2 * u16::from(reached),
            (_, reached) => 2 + 2 * u16::from(reached),
        };
        assert_eq!(
            both.gone_on(word),
            on,
            "code {} for {:?} under {:X} at {:?}",
            code,
            [y, x],
            flags,
            [line, at]
        );
    }
}

/// The blitter idle, with a blit running, and full.
fn blitters(calls: &mut Calls) -> [State; 3] {
    let regs = [1, 0, 0, 0, 0x1234, 0, 0, 0xFF00, 3, 3];
    let mut x = Adapter::new(256);
    [0, 1, 2].map(|blits| {
        x.state = calls.state_in_range();
        x.state.engine = xosera::Engine::default();
        x.state.queued = 0;
        for (xaddr, word) in (0..blits).flat_map(|_| (0x40..).zip(regs)) {
            x.write_xr(xaddr, word).unwrap();
        }
        x.state
    })
}

/// Every first word, on an idle, a busy and a full blitter, the second word with bit 15 and without it.
#[test]
fn every_first_word() {
    let mut calls = Calls::seeded();
    let mut both = Both::new(calls.random());
    for state in blitters(&mut calls) {
        for first in 0..=0xFFFF {
            for bit in [0, ENABLED] {
                let r = calls.random();
                let (at, second) = (any_copper_word(r), r.word() & !ENABLED | bit);
                both.state = state;
                both.state.beam = any_beam(r);
                if next_place(&both.state.beam) == (0, 0) {
                    both.state.beam = Beam::default();
                }
                both.set_copper(at, [first, second]);
                both.step();
                check_word(&both, at, [first, second]);
            }
        }
    }
    println!(
        "copper: every first word on an idle, a busy and a full blitter: {} steps as the plain model's",
        both.coppers.steps
    );
    assert_eq!(both.coppers.impossible(), 0);
}

/// Where the copper goes on, `WAIT` and `SKIP` apart.
fn check_word(both: &Both, at: u16, [first, second]: Instruction) {
    let beam = &both.state.beam;
    match first >> 13 {
        WAIT | SKIP => {}
        JMP => assert_eq!(beam.copper_word, first & 1023),
        MOVER if first & 0xFF == 0x01 && second & ENABLED == 0 => {
            assert_eq!((beam.copper_running, beam.copper_word), (0, 0));
        }
        _ => assert_eq!((beam.copper_running, both.gone_on(at)), (1, 2)),
    }
}

/// Frames from rest with the copper enabled; `between` is done before each step.
fn frames(both: &mut Both, n: u64, mut between: impl FnMut(&mut Both)) {
    both.state = State::reset();
    both.state.video.copp_ctrl = ENABLED;
    both.state.beam.line = LINES - 1;
    both.state.beam.position = POSITIONS - 1;
    for _ in 0..n * FRAME {
        between(both);
        both.step();
    }
}

fn wanted() -> u64 {
    number("XOSERA_FRAMES").unwrap_or(4)
}

/// Words that are no program. Where the copper waits for what does not come it gets other words.
#[test]
fn frames_of_random_words() {
    let mut calls = Calls::seeded();
    let mut both = Both::new(calls.random());
    both.pair.put_xr(PROGRAM_AT, &any_words(calls.random()));
    frames(&mut both, wanted(), |both| {
        let r = calls.random();
        if r.one_in(200) {
            let at = usize::from(both.state.beam.copper_word);
            both.pair.put_xr(PROGRAM_AT + at, &[r.word()]);
        }
        if r.one_in(20_000) {
            both.pair.put_xr(PROGRAM_AT, &any_words(r));
        }
        enable_again(both, r);
    });
    report("random words", &both);
}

/// A stopped copper is enabled again, and sometimes found running in mid-frame.
fn enable_again(both: &mut Both, r: &mut Random) {
    if both.state.beam.copper_running == 0 && r.one_in(300) {
        both.state.video.copp_ctrl |= ENABLED;
        both.state.beam.copper_running = 1;
        both.state.beam.copper_word = any_copper_word(r);
    }
}

/// Instructions with short waits that rewrite the program, start blits and jump, while the blits are
/// stepped in between.
#[test]
fn frames_of_instructions() {
    let mut calls = Calls::seeded();
    let mut both = Both::new(calls.random());
    both.pair.put_xr(PROGRAM_AT, &any_program(calls.random()));
    let mut words = 0;
    frames(&mut both, wanted(), |both| {
        let r = calls.random();
        if r.one_in(40) {
            words += both.call(Call::Step).value;
        }
        if r.one_in(400) {
            words += end_blit(both);
        }
        if r.one_in(1_000) {
            let at = usize::from(both.state.beam.copper_word) & !1;
            let mut line = both.state.beam.line;
            let next = any_instruction(r, &mut line);
            both.pair.put_xr(PROGRAM_AT + at, &next);
        }
        if r.one_in(20_000) {
            both.pair.put_xr(PROGRAM_AT, &any_program(r));
        }
        enable_again(both, r);
    });
    assert!(words > 1_000, "{} words", words);
    assert!(
        both.coppers.instructions().into_iter().all(|n| n > 0),
        "some situation did not come up"
    );
    let what = format!("instructions, {} words of blits in between", words);
    report(&what, &both);
}

/// The running blit done to its end from its last line's last word on; the words done.
fn end_blit(both: &mut Both) -> u64 {
    let engine = &mut both.state.engine;
    (engine.line, engine.word) = (engine.regs.lines, engine.regs.words);
    if engine.line == 0 && engine.word == 0 {
        engine.kept = 0;
    }
    both.call(Call::Run { n: 1 }).value
}

fn report(what: &str, both: &Both) {
    assert_eq!(both.coppers.impossible(), 0);
    println!(
        "copper: {} frames of {}: state and memories as the plain model's after each of {} steps: {}",
        wanted(),
        what,
        both.coppers.steps,
        both.coppers.by_code()
    );
}

/// From rest with the copper off: back at rest after 420,000 steps, the frame end once, each place once,
/// and at each of them what the host reads.
#[test]
fn a_frame_from_rest() {
    let mut x = Adapter::new(256);
    let rest = x.clone();
    let mut ends = Vec::new();
    for line in 0..LINES {
        for position in 0..POSITIONS {
            let place = (x.state.beam.line, x.state.beam.position);
            assert_eq!(place, (line, position));
            let flags = u8::from(position < 160) << 3 | u8::from(line >= 480) << 2;
            assert_eq!(x.read_byte(xosera::XM_SYS_CTRL, false), Ok(flags));
            x.beam_step().unwrap();
            if x.state.status != 0 {
                assert_eq!(x.state.status, 1 << 4);
                ends.push((x.state.beam.line, x.state.beam.position));
                x.state.status = 0;
            }
        }
        assert_eq!(x.clone().read_xr(0x03), Ok((line + 1) % LINES));
    }
    assert_eq!(ends, [(480, 0)]);
    assert!(x == rest);
    println!(
        "copper: a frame from rest with the copper off: {} steps, one frame end, at rest again",
        FRAME
    );
}

/// A list that counts: its second instruction's data goes up by what a third writes there.
#[test]
fn a_list_rewrites_itself() {
    let mut x = Adapter::new(256);
    let list = [
        instruction(MOVER, 0x00, 0x0001),
        instruction(MOVEC, 1, 0x0002),
        instruction(MOVEC, 3, 0x0003),
        instruction(JMP, 1024, 0),
    ];
    x.xr[PROGRAM_AT..][..8].copy_from_slice(&list.concat());
    x.state.video.copp_ctrl = ENABLED;
    x.state.beam.copper_running = 1;
    for border in [1, 2, 3, 3] {
        x.beam_step().unwrap();
        assert_eq!(x.state.video.vid_ctrl, border);
        for _ in 0..3 {
            x.beam_step().unwrap();
        }
        assert_eq!(x.state.beam.copper_word, 0);
    }
}

/// Bit 15 starts nothing before line 0, where also a running copper starts again; without it the copper
/// stops at once.
#[test]
fn the_host_enables_and_stops_the_copper() {
    let mut x = Adapter::new(256);
    // Passed over, then waiting for the frame's end.
    let list = [instruction(7, 0, 0), position(WAIT, 0, 0, 3)];
    x.xr[PROGRAM_AT..][..4].copy_from_slice(&list.concat());
    let copper = |x: &Adapter| (x.state.beam.copper_running, x.state.beam.copper_word);
    x.state.beam.line = LINES - 1;
    x.write_xr(0x01, ENABLED).unwrap();
    for _ in 1..POSITIONS {
        x.beam_step().unwrap();
        assert_eq!(copper(&x), (0, 0));
    }
    for word in [2, 2, 2] {
        x.beam_step().unwrap();
        assert_eq!(copper(&x), (1, word));
    }
    x.write_xr(0x01, 0xFFFF).unwrap();
    assert_eq!(copper(&x), (1, 2));
    x.state.beam.line = LINES - 1;
    x.state.beam.position = POSITIONS - 1;
    x.state.beam.copper_word = 777;
    x.beam_step().unwrap();
    assert_eq!(copper(&x), (1, 2));
    x.write_xr(0x01, 0x7FFF).unwrap();
    assert_eq!(copper(&x), (0, 0));
    x.write_xr(0x01, ENABLED).unwrap();
    x.beam_step().unwrap();
    assert_eq!(copper(&x), (0, 0));
}

/// Line, position and copper at the edges of their ranges and beyond, with bit 15 and without it.
#[test]
fn the_ranges_of_beam_and_copper() {
    let states = |(line, position): (u16, u16)| {
        let words = [0, 1, 2, 1023, 1024, 0xFFFF];
        let coppers = (0..3).flat_map(move |running| words.map(|word| (running, word)));
        coppers.map(move |(copper_running, copper_word)| Beam {
            line,
            position,
            copper_running,
            copper_word,
        })
    };
    let places = [
        (0, 0),
        (524, 799),
        (525, 0),
        (0, 800),
        (65535, 0),
        (0, 65535),
    ];
    for (beam, copp_ctrl) in places
        .into_iter()
        .flat_map(states)
        .flat_map(|beam| [0, 0x7FFF, 0x8000].map(|ctrl| (beam, ctrl)))
    {
        let mut x = Adapter::new(256);
        (x.state.beam, x.state.video.copp_ctrl) = (beam, copp_ctrl);
        let copper = match beam.copper_running {
            0 => beam.copper_word == 0,
            1 => copp_ctrl == 0x8000 && beam.copper_word < 1024,
            _ => false,
        };
        let inside = beam.line < 525 && beam.position < 800 && copper;
        let said = match inside {
            true => Ok(()),
            false => Err(xosera::Refusal(3)),
        };
        assert_eq!(x.clone().beam_step(), said, "{:?}", beam);
        assert_eq!(x.clone().timer_tick(), said, "{:?}", beam);
        assert_eq!(x.blit_step().map(|_| ()), said, "{:?}", beam);
    }
}

/// 1, 2 and 3, in this order; they change nothing.
#[test]
fn refused_beam_steps() {
    let mut calls = Calls::seeded();
    for _ in 0..200 {
        let mut x = Adapter::new(256);
        let s = calls.state_in_range();
        x.state = calls.state_out_of_range(s);
        x.state.status |= 128;
        for (refusal, vram, xr) in [(3, 256, 6656), (2, 256, 6655), (1, 257, 6655)] {
            x.vram.resize(vram, 0x5A5A);
            x.xr.resize(xr, 0x6001);
            let before = x.clone();
            assert_eq!(x.beam_step(), Err(xosera::Refusal(refusal)));
            assert!(x == before);
        }
    }
}
