//! The masks that steps, runs and writes answer (change request 2): against an account of the blitter's
//! points nibble by nibble, and against what VRAM shows.
//!
//! XOSERA_SEED=n gives an earlier run's blits again.

use compare::calls::Calls;
use compare::pair::{on_library, Call, Said};
use xosera::{Adapter, Blitted};

const VRAM: usize = 256;

/// Random blits in a test.
const BLITS: usize = 20_000;

/// A reset adapter, its VRAM of few colours, so that they are often those of a colour test.
fn painted(calls: &mut Calls) -> Adapter {
    let r = calls.random();
    let mut x = Adapter::new(VRAM);
    for word in x.vram.iter_mut() {
        *word = (0..4).fold(0, |w, _| w << 4 | r.pick(&[0, 0xA, 0xF, 0xA, 5]));
    }
    x
}

/// Any registers, for at most 4 lines of 6 words, or for one line of at most 40.
fn small_blit(calls: &mut Calls) -> [u16; 10] {
    let mut regs = calls.blit_regs();
    let r = calls.random();
    let size = match r.one_in(20) {
        true => [0x8000, r.below(40) as u16],
        false => [r.below(4) as u16, r.below(6) as u16],
    };
    regs[8..].copy_from_slice(&size);
    regs
}

/// Start a blit, or queue it behind the running one.
fn start(x: &mut Adapter, regs: [u16; 10]) {
    for (xaddr, word) in (0x40..).zip(regs) {
        x.write_xr(xaddr, word).unwrap();
    }
}

fn place(addr: u16) -> usize {
    addr as usize % VRAM
}

/// The nibbles of a word, from the left.
fn nibbles(word: u16) -> [u16; 4] {
    [word >> 12, word >> 8 & 15, word >> 4 & 15, word & 15]
}

/// The four-bit mask of the nibbles, from the left, of which this is true. Bit 3 is bits 15:12.
fn mask(of: impl Fn(usize) -> bool) -> u8 {
    (0..4).fold(0, |mask, i| mask << 1 | u8::from(of(i)))
}

/// The nibbles in which two words differ.
fn differing(a: u16, b: u16) -> u8 {
    mask(|i| nibbles(a)[i] != nibbles(b)[i])
}

/// Points 1 and 2: the word S of the next step. Of the word before and this one, side by side, it is
/// the four nibbles that stand `SHIFT` 1:0 to the left of this one's.
fn source(x: &Adapter) -> u16 {
    let e = &x.state.engine;
    if e.regs.ctrl & 1 == 1 {
        return e.regs.src_s;
    }
    let word = x.vram[place(e.regs.src_s)];
    let both = [nibbles(e.kept), nibbles(word)].concat();
    let from = 4 - usize::from(e.regs.shift & 3);
    both[from..from + 4].iter().fold(0, |s, n| s << 4 | n)
}

/// Point 4: is nibble `i` of S, from the left, written in the next step?
fn written(e: &xosera::Engine, s: u16, i: usize) -> bool {
    let closed = |mask: u16| mask >> (3 - i) & 1 == 0;
    let by_first = e.word == 0 && closed(e.regs.shift >> 12);
    let by_last = e.word == e.regs.words && closed(e.regs.shift >> 8);
    let (ctrl, t) = (e.regs.ctrl, e.regs.ctrl >> 8);
    let equal = match (ctrl & 0x20, i) {
        (0, 0 | 2) => nibbles(s)[i] == t >> 4,
        (0, _) => nibbles(s)[i] == t & 15,
        (_, 0 | 1) => s >> 8 == t,
        (_, _) => s & 0xFF == t,
    };
    let by_colour = ctrl & 0x10 != 0 && equal;
    !(by_first || by_last || by_colour)
}

/// One step of a running blit. It answers the nibbles of the account, and no other changes in VRAM.
fn step(x: &mut Adapter) -> u8 {
    let (e, s, before) = (x.state.engine, source(x), x.vram.clone());
    let expected = Blitted {
        count: 1,
        mask: mask(|i| written(&e, s, i)),
    };
    assert_eq!(x.blit_step(), Ok(expected), "S is {:04X}: {:#X?}", s, e);
    let target = place(e.regs.dst_d);
    for (at, (&old, &new)) in before.iter().zip(&x.vram).enumerate() {
        let free = if at == target { expected.mask } else { 0 };
        assert_eq!(differing(old, new) & !free, 0, "VRAM {}: {:#X?}", at, e);
    }
    expected.mask
}

/// All steps of what is running and queued, counted by their masks.
fn steps(x: &mut Adapter, by_mask: &mut [u64; 16]) {
    while x.state.engine.running == 1 {
        by_mask[usize::from(step(x))] += 1;
    }
}

/// Says how many masks there were. Each came up.
fn report(what: &str, by_mask: [u64; 16]) {
    let least = by_mask.iter().min().unwrap();
    assert!(*least > 0, "{}: {:?}", what, by_mask);
    let all: u64 = by_mask.iter().sum();
    println!("masks: {}: {}, each mask at least {}", what, all, least);
}

/// All pairs of edge masks, on two lines of one, two and three words.
#[test]
fn steps_answer_the_edges() {
    let mut by_mask = [0; 16];
    for edges in 0..=0xFF {
        for words in 0..3 {
            let mut x = Adapter::new(VRAM);
            start(&mut x, [1, 0, 0, 0, 0xFFFF, 0, 0, edges << 8, 1, words]);
            steps(&mut x, &mut by_mask);
        }
    }
    report("steps under all edges", by_mask);
}

/// All colours, on constants that agree with them in each choice of nibbles, by nibbles and by bytes.
#[test]
fn steps_answer_the_colour_test() {
    let mut calls = Calls::seeded();
    let mut by_nibbles = [0; 16];
    let mut by_bytes = [0; 16];
    for t in 0..=0xFF {
        for other in 0..16u16 {
            let any = 1 + calls.random().below(15) as u16;
            let s = (0..4).fold(t << 8 | t, |s, i| s ^ ((other >> i & 1) * any) << (4 * i));
            let mut x = Adapter::new(VRAM);
            start(&mut x, [t << 8 | 0x11, 0, 0, 0, s, 0, 0, 0xFF00, 0, 0]);
            steps(&mut x, &mut by_nibbles);
            start(&mut x, [t << 8 | 0x31, 0, 0, 0, s, 0, 0, 0xFF00, 0, 0]);
            steps(&mut x, &mut by_bytes);
        }
    }
    assert_eq!(by_nibbles, [256; 16]);
    // A byte is held back in one case of four.
    let at = |mask: usize| by_bytes[mask];
    assert_eq!([at(0), at(3), at(12), at(15)], [256, 768, 768, 2304]);
}

/// Any blits: shifted, overlapping, wrapping, with the next one queued.
#[test]
fn steps_answer_edges_and_colour_test_together() {
    let mut calls = Calls::seeded();
    let mut by_mask = [0; 16];
    for _ in 0..BLITS / 2 {
        let mut x = painted(&mut calls);
        start(&mut x, small_blit(&mut calls));
        start(&mut x, small_blit(&mut calls));
        steps(&mut x, &mut by_mask);
    }
    report("steps of any blits", by_mask);
}

/// The target is first made the complement of what the step leaves there, found on a copy. So every
/// nibble that the step writes changes, and those that change are the mask.
#[test]
fn the_mask_is_what_changes() {
    let mut calls = Calls::seeded();
    let mut by_mask = [0; 16];
    for _ in 0..BLITS {
        let mut x = painted(&mut calls);
        start(&mut x, small_blit(&mut calls));
        while x.state.engine.running == 1 {
            let regs = x.state.engine.regs;
            let at = place(regs.dst_d);
            let reads_target = regs.ctrl & 1 == 0 && place(regs.src_s) == at;
            if !reads_target {
                let mut copy = x.clone();
                step(&mut copy);
                x.vram[at] = !copy.vram[at];
            }
            let before = x.vram[at];
            let answered = step(&mut x);
            if !reads_target {
                assert_eq!(differing(before, x.vram[at]), answered, "{:#X?}", regs);
                by_mask[usize::from(answered)] += 1;
            }
        }
    }
    report("steps seen in VRAM", by_mask);
}

/// Runs of every length from here on, and beyond the end, against as many steps. How many of them went
/// into the queued blit.
fn runs_from(x: &Adapter, by_mask: &mut [u64; 16]) -> u64 {
    let run = |n: u64, stepped: &Adapter, last: Blitted| {
        let mut y = x.clone();
        assert_eq!(y.blit_run(n), Ok(last));
        assert!(y == *stepped, "a run of {}", n);
    };
    let (mut stepped, mut last, mut followed) = (x.clone(), Blitted::default(), 0);
    run(0, &stepped, last);
    while stepped.state.engine.running == 1 {
        last.mask = step(&mut stepped);
        last.count += 1;
        run(last.count, &stepped, last);
        by_mask[usize::from(last.mask)] += 1;
        followed += u64::from(x.state.queued == 1 && stepped.state.queued == 0);
    }
    for beyond in [last.count + 1, last.count + 2, u64::MAX] {
        run(beyond, &stepped, last);
    }
    followed
}

/// From every word of a blit and of the one queued behind it.
#[test]
fn a_run_answers_the_mask_of_the_last_of_as_many_steps() {
    let mut calls = Calls::seeded();
    let (mut by_mask, mut followed) = ([0; 16], 0);
    for _ in 0..BLITS / 100 {
        let mut x = painted(&mut calls);
        start(&mut x, small_blit(&mut calls));
        start(&mut x, small_blit(&mut calls));
        while x.state.engine.running == 1 {
            followed += runs_from(&x, &mut by_mask);
            step(&mut x);
        }
    }
    let what = format!("runs, {} of them into the queued blit", followed);
    report(&what, by_mask);
}

/// An idle adapter, and one with a blit running and one queued. The word that a data write stores in
/// next, at 5, agrees in no nibble with 0x1234, whose upper byte is in every latch.
fn about_to_write() -> [Adapter; 2] {
    let mut idle = Adapter::new(VRAM);
    let mut full = idle.clone();
    for _ in 0..2 {
        start(&mut full, [1, 0, 0, 0, 0x5678, 0, 0x80, 0xFF00, 3, 3]);
    }
    for x in [&mut idle, &mut full] {
        x.vram[5] = !0x1234;
        x.state.host.latch = [0x12; 16];
        x.state.host.vram.wr_addr.0 = 0x0105;
        x.state.host.xr.wr_xaddr.0 = 0x4000;
    }
    [idle, full]
}

fn odd_write(reg: u8) -> Call {
    let (odd, byte) = (true, 0x34);
    Call::Write { reg, odd, byte }
}

/// What a call on a copy says, and the copy after it.
fn said(x: &Adapter, call: Call) -> (Said, Adapter) {
    let mut y = x.clone();
    let said = on_library(&mut y.state, &mut y.vram, &mut y.xr, call);
    (said, y)
}

fn answer(refusal: u8, mask: u8) -> Said {
    Said {
        refusal,
        value: 0,
        mask,
    }
}

/// The call says this refusal or 0, counts nothing, has mask 0, and leaves the adapter as it is.
fn changes_nothing(x: &Adapter, call: Call, refusal: u8) {
    let (said, after) = said(x, call);
    assert_eq!(said, answer(refusal, 0), "{:?}", call);
    assert!(after == *x, "{:?}", call);
}

/// Every register number, even and odd, under every nibble mask.
#[test]
fn an_odd_data_write_answers_the_nibble_mask_and_every_other_0() {
    for mut x in about_to_write() {
        for (reg, nibble_mask) in (0..=255).flat_map(|reg| (0..16).map(move |m| (reg, m))) {
            x.state.host.vram.wr_mask = u16::from(nibble_mask);
            let refusal = if reg > 15 { 4 } else { 0 };
            let mask = if reg == 10 || reg == 11 {
                nibble_mask
            } else {
                0
            };

            let (odd, after) = said(&x, odd_write(reg));
            assert_eq!(odd, answer(refusal, mask), "register {}", reg);
            assert_eq!(differing(x.vram[5], after.vram[5]), mask);
            assert!(after.vram[..5] == x.vram[..5] && after.vram[6..] == x.vram[6..]);

            let (odd, byte) = (false, 0x12);
            changes_nothing(&x, Call::Write { reg, odd, byte }, refusal);
        }
    }
}

/// Calls whose mask is F where they are done.
#[test]
fn a_refused_call_answers_0() {
    let [_, full] = about_to_write();
    let mut wrong = [full.clone(), full.clone(), full.clone()];
    wrong[0].vram.push(0);
    wrong[1].xr.push(0);
    wrong[2].state.status = 128;
    for call in [Call::Step, Call::Run { n: 5 }, odd_write(10), odd_write(11)] {
        assert_eq!(said(&full, call).0.mask, 0xF);
        for (refusal, x) in (1..).zip(&wrong) {
            changes_nothing(x, call, refusal);
        }
    }
    let mut x = full;
    x.state.host.xr.wr_xaddr.0 = 0x49;
    changes_nothing(&x, odd_write(5), 5);
    x.state.host.latch[1] = 0x80;
    changes_nothing(&x, odd_write(1), 6);
}

#[test]
fn no_word_has_mask_0() {
    let [idle, full] = about_to_write();
    changes_nothing(&full, Call::Run { n: 0 }, 0);
    changes_nothing(&idle, Call::Step, 0);
    for n in [0, 1, u64::MAX] {
        changes_nothing(&idle, Call::Run { n }, 0);
    }
}
