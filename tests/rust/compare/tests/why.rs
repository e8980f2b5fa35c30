//! Why a nibble is as it is (change request 5): every place and nibble of small blits against the plain
//! model's account pixel by pixel, against the library's own steps, and what is refused.
//!
//! XOSERA_SEED=n gives an earlier run's blits again.

use compare::calls::{Calls, VRAM_LENGTHS};
use compare::why::{account, answer, ask, everywhere, numbered, unlike, Cases};
use xosera::{Adapter, WhyAnswer};

const VRAM: usize = 256;

/// Random blits in a test.
const BLITS: usize = 1_500;

/// Chosen blits, each with situations that it is there for.
const CHOSEN: [(&[&str], [u16; 10]); 19] = [
    (
        &["never reached", "written once", "shift 0", "no colour test"],
        [0, 0, 0, 0, 0x10, 8, 0x80, 0xFF00, 1, 7],
    ),
    (
        &["written with the value it had"],
        [0, 0, 0, 0, 0x10, 0, 0x10, 0xFF00, 0, 7],
    ),
    (
        &["shift 1", "first mask", "last mask"],
        [0, 0, 0, 0, 0x10, 12, 0x40, 0x7801, 3, 3],
    ),
    (
        &["shift 2", "colour test by nibbles", "colour test"],
        [0x0A10, 0, 0xFFFF, 0, 0x10, 4, 0x40, 0xFF02, 2, 5],
    ),
    (
        &["shift 3", "colour test by bytes", "colour test"],
        [0x0030, 0, 0, 0, 0x10, 4, 0x40, 0xFF03, 2, 5],
    ),
    (
        &["reads what it wrote"],
        [0, 0, 0, 0, 0x10, 0, 0x11, 0xFF00, 0, 9],
    ),
    (
        &["reads what it writes later"],
        [0, 0, 0, 0, 0x11, 0, 0x10, 0xFF01, 0, 9],
    ),
    (
        &["source from 65,535 to 0", "target from 65,535 to 0"],
        [0, 0, 0, 0, 0xFFFB, 0, 0xFFFE, 0xFF00, 0, 9],
    ),
    // Lines of two words, 256 words apart.
    (
        &["target beyond the length", "written again"],
        [1, 0, 0, 1, 0x1234, 0x00FE, 0x1234, 0xFF00, 5, 1],
    ),
    // Lines of one word, all at 9. The constant goes up, and the 7 at the right is held back.
    (
        &["reached five times or more", "lines of one word"],
        [0xF711, 0, 0, 1, 4, 0xFFFF, 9, 0xFF00, 5, 0],
    ),
    (
        &["written, then held back", "constant"],
        [0xF711, 0, 0, 1, 6, 0xFFFF, 9, 0xFF00, 1, 0],
    ),
    (
        &["held back, then written", "MOD_D below 0"],
        [0xF711, 0, 0, 1, 7, 0xFFFF, 9, 0xFF00, 1, 0],
    ),
    // Each line a word before the one above.
    (
        &[
            "held back otherwise before",
            "first mask and colour test",
            "last mask and colour test",
        ],
        [0x0011, 0, 0, 0, 0xF0F0, 0xFFFD, 9, 0, 2, 1],
    ),
    // The same with lines of three words: first, inner, last.
    (
        &["held back otherwise before", "first mask 0", "last mask 0"],
        [0x0011, 0, 0, 0, 0xF0F0, 0xFFFC, 9, 0, 2, 2],
    ),
    (
        &["all three", "one word"],
        [0x1211, 0, 0, 0, 0x1212, 0, 3, 0x3500, 0, 0],
    ),
    (
        &["both masks", "one word"],
        [0x1201, 0, 0, 0, 0x1212, 0, 3, 0x3500, 0, 0],
    ),
    (
        &["LINES with bit 15"],
        [1, 0, 0, 0, 0x5A5A, 0, 0, 0xFF00, 0x8001, 3],
    ),
    (
        &["MOD_S below 0", "shift 2"],
        [0, 0, 0, 0xFFF8, 0x20, 0x10, 0x80, 0x3C02, 4, 7],
    ),
    (
        &["MOD_S below 0", "constant"],
        [0x0711, 0, 0, 0xFFFF, 9, 0xFFFF, 9, 0xFF00, 4, 0],
    ),
];

/// Memory of five words in turn.
fn striped() -> Vec<u16> {
    let five = [0x0A5F, 0xA00A, 0xFFFF, 0x0000, 0x5A0A];
    five.into_iter().cycle().take(VRAM).collect()
}

/// Memory of few colours.
fn painted(calls: &mut Calls, words: usize) -> Vec<u16> {
    let r = calls.random();
    let mut word = || (0..4).fold(0, |w, _| w << 4 | r.pick(&[0, 0xA, 0xF, 0xA, 5]));
    (0..words).map(|_| word()).collect()
}

/// Any registers, for at most 6 lines of 6 words. The lines often go over each other.
fn small_blit(calls: &mut Calls) -> [u16; 10] {
    let mut regs = calls.blit_regs();
    let r = calls.random();
    let (lines, words) = (r.below(6) as u16, r.below(6) as u16);
    regs[8] = lines | regs[8] & 0x8000;
    regs[9] = words;
    if r.flip() {
        let back = words + 1 + r.below(3) as u16;
        regs[5] = (r.below(3) as u16).wrapping_sub(back);
    }
    regs
}

/// Start a blit on an idle adapter.
fn start(x: &mut Adapter, regs: [u16; 10]) {
    for (xaddr, word) in (0x40..).zip(regs) {
        x.write_xr(xaddr, word).unwrap();
    }
}

/// Each of these with each of those.
fn pairs<T: Copy, const N: usize, const M: usize>(these: [T; N], those: [T; M]) -> Vec<(T, T)> {
    let with_each = |this| those.map(|that| (this, that));
    these.into_iter().flat_map(with_each).collect()
}

/// Every place of VRAM with every nibble.
fn places() -> impl Iterator<Item = (usize, usize)> {
    (0..VRAM).flat_map(|address| (0..4).map(move |i| (address, i)))
}

/// Nibble `i` of a word, from the left.
fn nibble(word: u16, i: usize) -> u16 {
    word >> (12 - 4 * i) & 15
}

fn never_reached() -> WhyAnswer {
    WhyAnswer {
        fate: 1,
        ..WhyAnswer::default()
    }
}

fn held_back(first_mask: bool, last_mask: bool, colour_test: bool) -> WhyAnswer {
    WhyAnswer {
        fate: 2,
        first_mask,
        last_mask,
        colour_test,
        ..WhyAnswer::default()
    }
}

fn written(line: u16, word: u16) -> WhyAnswer {
    WhyAnswer {
        fate: 3,
        line,
        word,
        ..WhyAnswer::default()
    }
}

/// Says how many answers there were. Each fate came up, and nothing was refused.
fn report(what: &str, fates: [u64; 4]) {
    let [refused, told @ ..] = fates;
    assert!(refused == 0 && told.iter().all(|&n| n > 100), "{:?}", fates);
    println!(
        "why: {}: never reached, held back, written {:?}",
        what, told
    );
}

/// Three lines of three words, each line a word before the one above, so that 9 is reached by a first, an
/// inner and a last word. T is 00, and the masks are 7 and B: the first holds back nibble 0, the last
/// nibble 1, the colour test 2 and 3.
#[test]
fn a_blit_worked_out_by_hand() {
    let regs = [0x0011, 0, 0, 0, 0x1200, 0xFFFC, 0xFF09, 0x7B00, 2, 2];
    let before = vec![0xFFFF; VRAM];
    let mut after = before.clone();
    after[7..12].copy_from_slice(&[0xF2FF, 0x12FF, 0x12FF, 0x12FF, 0x1FFF]);
    let fates = |address: usize| [0, 1, 2, 3].map(|i| answer(regs, [&before, &after], address, i));
    let (first, last) = (held_back(true, false, false), held_back(false, true, false));
    let colour = held_back(false, false, true);
    assert_eq!(fates(6), [never_reached(); 4]);
    assert_eq!(fates(7), [first, written(2, 0), colour, colour]);
    assert_eq!(fates(8), [written(2, 1), written(2, 1), colour, colour]);
    assert_eq!(fates(9), [written(2, 2), written(1, 1), colour, colour]);
    assert_eq!(fates(10), [written(1, 2), written(0, 1), colour, colour]);
    assert_eq!(fates(11), [written(0, 2), last, colour, colour]);
    assert_eq!(fates(12), [never_reached(); 4]);
}

/// Every place of the chosen blits. Each shows what it is there for, and together they show all.
#[test]
fn chosen_blits_are_explained_everywhere() {
    let before = striped();
    let mut cases = Cases::default();
    for (shows, regs) in CHOSEN {
        let earlier = cases.clone();
        everywhere(regs, &before, &mut cases);
        for name in shows {
            let more = cases.number(name) - earlier.number(name);
            assert!(more > 0, "not {}: {:X?}", name, regs);
        }
    }
    cases.report(&format!("{} chosen blits", CHOSEN.len()));
}

/// Constant and VRAM source with each shift, no colour test, one by nibbles, one by bytes, masks open and
/// closed, three lines of one to three words, each line where the one above is or a word beside it.
fn kinds() -> Vec<[u16; 10]> {
    let mut kinds = Vec::new();
    for ctrl in [0x0000, 0x0A10, 0xAA30, 0x0001, 0x0A11, 0xAA31] {
        let source = if ctrl & 1 == 1 { 0x0AAA } else { 0x00FE };
        for (masks, by) in pairs([0xFF00, 0x7E00, 0x3500, 0x0000], [0, 1, 2, 3]) {
            for (words, back) in pairs([0, 1, 2], [0, 1, 2]) {
                let (mod_d, shift) = (0u16.wrapping_sub(words + back), masks | by);
                kinds.push([ctrl, 0, 0, 0xFFFF, source, mod_d, 0xFFFD, shift, 2, words]);
            }
        }
    }
    kinds
}

#[test]
fn every_kind_of_blit_is_explained_everywhere() {
    let mut calls = Calls::seeded();
    let mut cases = Cases::default();
    for regs in kinds() {
        everywhere(regs, &painted(&mut calls, VRAM), &mut cases);
    }
    println!("why: {} kinds of blits", kinds().len());
}

/// Any small blits.
#[test]
fn any_blit_is_explained_everywhere() {
    let mut calls = Calls::seeded();
    let mut cases = Cases::default();
    for _ in 0..BLITS {
        let before = painted(&mut calls, VRAM);
        everywhere(small_blit(&mut calls), &before, &mut cases);
    }
    cases.report(&format!("{} random blits", BLITS));
}

/// Blits of many words: lines and words up to the most there are.
fn large_blits(calls: &mut Calls) -> Vec<[u16; 10]> {
    let near = calls.random().word();
    vec![
        [0x0010, 0, 0, 0, 0, 0, 0x8000, 0x7801, 255, 255],
        [0, 0, 0, 0, near, 0, near.wrapping_add(1), 0x3C02, 0, 0xFFFF],
        // Lines of one word, all at one place.
        [0xFF31, 0, 0, 1, near, 0xFFFF, near, 0x7D00, 0x7FFF, 0],
        [0x0A11, 0, 0, 1, near, 0xFFFD, near, 0x5A00, 0xFFFF, 1],
        [0, 0, 0, 7, near, 0xFFF0, 0xFF80, 0xF803, 99, 99],
        [0x0030, 0xF, 0xA5, 0xFFFF, near, 3, near, 0x0000, 30, 300],
    ]
}

/// The ends of VRAM, the ends of the target, and places anywhere.
fn sampled(calls: &mut Calls, regs: [u16; 10], vram: usize) -> Vec<usize> {
    let first = usize::from(regs[6]);
    let last = first + usize::from(regs[9]);
    let mut places = vec![0, vram - 1, first, first + 1, last, last + 1];
    for _ in 0..6 {
        places.push(calls.random().below(vram as u64) as usize);
    }
    places.iter().map(|place| place % vram).collect()
}

#[test]
fn larger_memories_are_explained_at_sampled_places() {
    let mut calls = Calls::seeded();
    let mut fates = [0; 4];
    for vram in VRAM_LENGTHS {
        for regs in large_blits(&mut calls) {
            let before = painted(&mut calls, vram);
            let (account, after) = account(regs, &before);
            for address in sampled(&mut calls, regs, vram) {
                for i in 0..4 {
                    let answer = answer(regs, [&before, &after], address, i);
                    let expected = numbered(Ok(account.fate(address, i)));
                    assert_eq!(answer, expected, "word {}: {:X?}", address, regs);
                    fates[usize::from(answer.fate)] += 1;
                }
            }
        }
    }
    report("larger memories", fates);
}

/// The last line there is, and the last word.
#[test]
fn lines_and_words_go_to_the_most_there_are() {
    let before = vec![0xFFFF; VRAM];
    let mut after = before.clone();
    after[3] = 0x1234;
    let one_place = [1, 0, 0, 0, 0x1234, 0xFFFF, 3, 0xFF00, 0xFFFF, 0];
    assert_eq!(
        answer(one_place, [&before, &after], 3, 0),
        written(32767, 0)
    );
    let one_line = [1, 0, 0, 0, 0x1234, 0, 3, 0xFF00, 0x8000, 0xFFFF];
    let all = vec![0x1234; VRAM];
    assert_eq!(answer(one_line, [&before, &all], 2, 3), written(0, 65535));
    assert_eq!(answer(one_line, [&before, &all], 3, 3), written(0, 65280));
}

/// Through the registers: the second memory ends as VRAM, asked by the registers as they stand after the
/// blit, and a nibble that was not written has the value that it had.
#[test]
fn a_run_leaves_what_the_second_memory_shows() {
    let mut calls = Calls::seeded();
    let mut fates = [0; 4];
    for _ in 0..BLITS / 5 {
        let mut x = Adapter::new(VRAM);
        x.vram = painted(&mut calls, VRAM);
        let before = x.vram.clone();
        start(&mut x, small_blit(&mut calls));
        x.blit_run(u64::MAX).unwrap();
        for (address, i) in places() {
            let (place, from_left) = (address as u32, i as u32);
            let second = unlike(&before);
            let (answer, work) = ask(x.state.blit, &before, &second, place, from_left);
            assert!(work == x.vram, "{:X?}", x.state.blit);
            let [old, new] = [before[address], x.vram[address]].map(|word| nibble(word, i));
            assert!(answer.fate == 3 || old == new, "{:X?}", x.state.blit);
            fates[usize::from(answer.fate)] += 1;
        }
    }
    report("runs", fates);
}

/// The nibbles that the next step, done on a copy, holds back with these bits of `CTRL` and `SHIFT`.
fn held(x: &Adapter, ctrl: u16, shift: u16) -> u8 {
    let mut copy = x.clone();
    (copy.state.engine.regs.ctrl, copy.state.engine.regs.shift) = (ctrl, shift);
    15 - copy.blit_step().unwrap().mask
}

/// The next step by the library's own masks: the nibbles that are held back by the first mask alone, by
/// the last alone and by the colour test alone; and those that are written.
fn step(x: &mut Adapter) -> ([u8; 3], u8) {
    let (ctrl, shift) = (x.state.engine.regs.ctrl, x.state.engine.regs.shift);
    let without_test = ctrl & !0x10;
    let first = held(x, without_test, shift | 0x0F00);
    let last = held(x, without_test, shift | 0xF000);
    let colour = held(x, ctrl, shift | 0xFF00);
    ([first, last, colour], x.blit_step().unwrap().mask)
}

/// All steps of the running blit; the answers for every place by what they said.
fn stepped(x: &mut Adapter) -> Vec<[WhyAnswer; 4]> {
    let mut fates = vec![[never_reached(); 4]; VRAM];
    while x.state.engine.running == 1 {
        let e = x.state.engine;
        let (by_each, mask) = step(x);
        let place = &mut fates[usize::from(e.regs.dst_d) % VRAM];
        for (i, fate) in place.iter_mut().enumerate() {
            let [first, last, colour] = by_each.map(|held| held >> (3 - i) & 1 == 1);
            if mask >> (3 - i) & 1 == 1 {
                *fate = written(e.line, e.word);
            } else if fate.fate != 3 {
                *fate = held_back(first, last, colour);
            }
        }
    }
    fates
}

#[test]
fn single_steps_give_the_same_account() {
    let mut calls = Calls::seeded();
    let mut fates = [0; 4];
    for _ in 0..BLITS / 5 {
        let mut x = Adapter::new(VRAM);
        x.vram = painted(&mut calls, VRAM);
        let before = x.vram.clone();
        let regs = small_blit(&mut calls);
        start(&mut x, regs);
        for (address, expected) in stepped(&mut x).into_iter().enumerate() {
            let answers = [0, 1, 2, 3].map(|i| answer(regs, [&before, &x.vram], address, i));
            assert_eq!(answers, expected, "word {}: {:X?}", address, regs);
            for answer in answers {
                fates[usize::from(answer.fate)] += 1;
            }
        }
    }
    report("single steps", fates);
}

/// Lengths at and beside those of a VRAM.
const LENGTHS: [usize; 13] = [
    0, 1, 255, 256, 257, 511, 512, 513, 32768, 65535, 65536, 65537, 131072,
];

/// The refusal that request 5 lists first.
fn refusal(lengths: [usize; 2], address: u32, nibble: u32) -> u8 {
    let [before, work] = lengths;
    if before != work || !VRAM_LENGTHS.contains(&before) {
        1
    } else if nibble > 3 || address as usize >= before {
        15
    } else {
        0
    }
}

/// Every pair of these lengths and every place at and beside the edges. A refused question answers its
/// number alone, and both memories stay.
#[test]
fn what_is_refused_changes_nothing() {
    let memory: Vec<u16> = (0..131072u64).map(|i| (i * 40503) as u16).collect();
    let regs = [1, 0, 0, 0, 0x1234, 0, 0, 0xFF00, 3, 3];
    let mut said = [0; 16];
    for (b, w) in pairs(LENGTHS, LENGTHS) {
        let (before, second) = (&memory[..b], unlike(&memory[..w]));
        let edge = b as u32;
        let addresses = [0, edge.saturating_sub(1), edge, edge + 1, 65536, u32::MAX];
        for (address, nibble) in pairs(addresses, [0, 3, 4, 256, 65536, u32::MAX]) {
            let (answer, work) = ask(regs.into(), before, &second, address, nibble);
            let what = format!("{} and {} words, {}, {}", b, w, address, nibble);
            let refusal = refusal([b, w], address, nibble);
            assert_eq!(answer.refusal, refusal, "{}", what);
            said[usize::from(refusal)] += 1;
            if refusal != 0 {
                let only = WhyAnswer {
                    refusal,
                    ..WhyAnswer::default()
                };
                assert_eq!(answer, only, "{}", what);
                assert!(work == second, "{}", what);
            }
        }
    }
    let said = [said[0], said[1], said[15]];
    assert!(said.iter().all(|&n| n > 0));
    println!("why: done, refused with 1, with 15: {:?}", said);
}
