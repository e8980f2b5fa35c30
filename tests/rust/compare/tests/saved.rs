//! Saved adapters: every file that is one loads as that adapter, every other is refused.
//!
//! XOSERA_SEED=n gives an earlier run's adapters again.

use compare::calls::{Calls, VRAM_LENGTHS};
use compare::convert::{typed, words};
use compare::files::{arranged, gaps, sections, with_state, Section};
use compare::files::{ARRANGEMENTS, STATE_AT, STATE_END};
use xosera::{saved_bytes, Adapter, Beam, Blitted, Refusal, State};
use xosera::{SAVED_STATE_WORDS, STATE_WORDS, XR_WORDS};

const NOT_SAVED: Refusal = Refusal(8);
const OTHER_VRAM: Refusal = Refusal(9);

/// Some adapter in range.
fn any_target(calls: &mut Calls, vram: usize) -> Adapter {
    let state = calls.state_in_range();
    let r = calls.random();
    Adapter {
        state,
        vram: (0..vram).map(|_| r.word()).collect(),
        xr: (0..XR_WORDS).map(|_| r.word()).collect(),
    }
}

/// Some adapter at rest.
fn any_adapter(calls: &mut Calls, vram: usize) -> Adapter {
    Adapter {
        state: calls.state_at_rest(),
        ..any_target(calls, vram)
    }
}

/// Some adapter whose engine is idle, or runs with a blit queued.
fn any_adapter_running(calls: &mut Calls, running: bool, vram: usize) -> Adapter {
    loop {
        let x = any_adapter(calls, vram);
        let queued = x.state.queued == 1 && x.state.engine.word > 0;
        if (running && queued) || (!running && x.state.engine.running == 0) {
            return x;
        }
    }
}

/// Load by the library and by the model. They agree, and a refusal leaves the adapter as it was.
fn load(x: &Adapter, file: &[u8]) -> Result<Adapter, Refusal> {
    let mut library = x.clone();
    let said = library.load(file);

    let mut plain = x.clone();
    let mut state = typed(x.state.words()).expect("an adapter in range");
    let plain_said = state.load(&mut plain.vram, &mut plain.xr, file);
    plain.state = State::from_words(words(&state));
    assert_eq!(said, plain_said.map_err(|refusal| Refusal(refusal as u8)));
    assert!(library == plain, "the library and the model differ");
    if said.is_err() {
        assert!(library == *x, "a refused load changed something");
    }
    said.map(|()| library)
}

/// The words behind the contents.
fn read(file: &[u8]) -> Vec<u16> {
    let pairs = file[STATE_AT..].chunks_exact(2);
    pairs.map(|p| u16::from_be_bytes([p[0], p[1]])).collect()
}

/// The words of a state at rest, of which the first are those of a file.
fn at_rest(saved: &[u16]) -> [u16; STATE_WORDS] {
    let mut words = [0; STATE_WORDS];
    words[..SAVED_STATE_WORDS].copy_from_slice(&saved[..SAVED_STATE_WORDS]);
    words
}

/// Is this the file of some adapter? If so, of the one whose words stand in it.
fn is_saved(file: &[u8]) -> bool {
    let mut lengths = VRAM_LENGTHS.into_iter();
    if !lengths.any(|vram| saved_bytes(vram) == file.len()) {
        return false;
    }
    let words = read(file);
    let (state, memories) = words.split_at(SAVED_STATE_WORDS);
    let (xr, vram) = memories.split_at(XR_WORDS);
    let mut again = vec![0; file.len()];
    let saved = typed(&at_rest(state)).map(|s| s.save(vram, xr, &mut again));
    matches!(saved, Some(Ok(_))) && again == file
}

/// Every byte of contents and state changed to each other value: refused with 8, or the file of another
/// adapter, which is loaded. In the contents no byte can change.
#[test]
fn every_byte_of_contents_and_state_counts() {
    let mut calls = Calls::seeded();
    let target = any_target(&mut calls, 256);
    let mut reset = any_adapter(&mut calls, 256);
    reset.state = State::reset();
    let adapters = [
        reset,
        any_adapter_running(&mut calls, false, 256),
        any_adapter_running(&mut calls, true, 256),
    ];
    let (mut refused, mut loaded) = (0, 0);
    for x in &adapters {
        let mut file = x.saved().unwrap();
        for at in 0..STATE_END {
            let right = file[at];
            for byte in (0..=255).filter(|&byte| byte != right) {
                file[at] = byte;
                match load(&target, &file) {
                    Ok(y) => {
                        assert!(at >= STATE_AT, "byte {} of the contents", at);
                        assert_eq!(*y.state.words(), at_rest(&read(&file)));
                        assert!(y.vram == x.vram && y.xr == x.xr);
                        assert!(y.saved().unwrap() == file, "byte {} is {}", at, byte);
                        loaded += 1;
                    }
                    Err(refusal) => {
                        assert_eq!(refusal, NOT_SAVED, "byte {} is {}", at, byte);
                        assert!(!is_saved(&file), "byte {} is {}", at, byte);
                        refused += 1;
                    }
                }
            }
            file[at] = right;
        }
    }
    println!(
        "saved: every byte of contents and state of {} files changed: {} refused, {} loaded",
        adapters.len(),
        refused,
        loaded
    );
}

/// Any byte of a memory may be any other: the file is another adapter's.
#[test]
fn every_word_of_the_memories_is_kept() {
    let mut calls = Calls::seeded();
    let x = any_adapter(&mut calls, 256);
    let target = any_target(&mut calls, 256);
    let mut file = x.saved().unwrap();
    for at in STATE_END..file.len() {
        let right = file[at];
        file[at] ^= 1 + calls.random().below(255) as u8;
        let y = load(&target, &file).unwrap();
        let mut expected = x.clone();
        let number = (at - STATE_END) / 2;
        let word = match number.checked_sub(XR_WORDS) {
            None => &mut expected.xr[number],
            Some(number) => &mut expected.vram[number],
        };
        let even = at - at % 2;
        *word = u16::from_be_bytes([file[even], file[even + 1]]);
        assert!(y == expected, "byte {}", at);
        file[at] = right;
    }
}

#[test]
fn a_part_of_a_file_is_refused() {
    let mut calls = Calls::seeded();
    let file = any_adapter(&mut calls, 256).saved().unwrap();
    let target = any_target(&mut calls, 256);
    for length in 0..file.len() {
        assert_eq!(load(&target, &file[..length]), Err(NOT_SAVED));
    }
    let file = any_adapter(&mut calls, 1024).saved().unwrap();
    for vram in [256, 512] {
        let target = any_target(&mut calls, vram);
        let front = &file[..saved_bytes(vram)];
        assert_eq!(load(&target, front), Err(NOT_SAVED));
    }
}

#[test]
fn bytes_behind_a_file_are_refused() {
    let mut calls = Calls::seeded();
    let file = any_adapter(&mut calls, 256).saved().unwrap();
    for vram in [256, 512] {
        let target = any_target(&mut calls, vram);
        for more in (1..=40).chain([512, 513, 1536, 130_560, 200_000]) {
            for byte in [0, 1, 255] {
                let mut longer = file.clone();
                longer.resize(file.len() + more, byte);
                assert_eq!(load(&target, &longer), Err(NOT_SAVED), "{} more", more);
            }
        }
        let twice = [&file[..], &file[..]].concat();
        assert_eq!(load(&target, &twice), Err(NOT_SAVED));
    }
}

/// Contents that agree with one another and with the file's length, but not with this form.
#[test]
fn other_sections_are_refused() {
    let mut calls = Calls::seeded();
    let x = any_adapter(&mut calls, 256);
    let file = x.saved().unwrap();
    let right = sections(&file, &[1, 2, 3]);
    let (state, xr, vram) = (right[0].1, right[1].1, right[2].1);
    let made = |sections: &[Section]| arranged(sections, 0, 0);
    assert!(made(&right) == file);
    let refused = |wrong: Vec<u8>| {
        assert_eq!(load(&x, &wrong), Err(NOT_SAVED));
    };
    refused(made(&right[..2]));
    refused(made(&[(2, state), (1, xr), right[2]]));
    refused(made(&[right[0], right[1], right[2], (4, &[])]));
    refused(made(&[(0, &[]), right[0], right[1], right[2]]));
    refused(made(&[(1, &state[..148]), right[1], right[2]]));
    refused(made(&[right[0], (2, &xr[2..]), right[2]]));
    // As long as the right file, and as one of 512 words.
    let (longer_xr, longer_vram) = ([xr, vram].concat(), [vram, vram].concat());
    refused(made(&[right[0], (2, &xr[512..]), (3, &longer_vram)]));
    refused(made(&[right[0], (2, &longer_xr), right[2]]));
    for bytes in [0, 2, 254, 510, 511] {
        refused(made(&[right[0], right[1], (3, &vram[..bytes])]));
    }
    refused(made(&[
        right[0],
        right[1],
        (3, &[vram, &vram[..128]].concat()),
    ]));
    refused(made(&[right[0], right[1], (3, &vec![0; 2 * 131_072])]));
    for number in [0, 1, 2, 4, 255] {
        refused([&[number], &file[1..]].concat());
    }
    refused(Vec::new());
    refused(vec![0; file.len()]);
    refused(vec![3; file.len()]);
}

/// The same with a gap at each place, which also makes the file as long as those of adapters are.
#[test]
fn no_gap_makes_other_sections_a_file() {
    let mut calls = Calls::seeded();
    let file = any_adapter(&mut calls, 256).saved().unwrap();
    let targets = [256, 512].map(|vram| any_target(&mut calls, vram));
    let mut loads = 0;
    for kinds in ARRANGEMENTS {
        let sections = sections(&file, kinds);
        for gap in gaps(&sections).into_iter().chain([1, 2]) {
            for before in 0..=kinds.len() {
                let wrong = arranged(&sections, before, gap);
                for target in &targets {
                    let said = load(target, &wrong);
                    assert_eq!(said, Err(NOT_SAVED), "{:?}: {} at {}", kinds, gap, before);
                    loads += 1;
                }
            }
        }
    }
    println!(
        "saved: {} loads of sections arranged otherwise, all refused",
        loads
    );
}

/// Every length there and back, in a room just long enough or longer; 9 in a memory of another length.
#[test]
fn every_length_there_and_back() {
    let mut calls = Calls::seeded();
    let targets = VRAM_LENGTHS.map(|vram| any_target(&mut calls, vram));
    for vram in VRAM_LENGTHS {
        let x = any_adapter(&mut calls, vram);
        let bytes = 13_490 + 2 * vram;
        let mut room = vec![0xA5; bytes + 100];
        assert_eq!(x.save(&mut room[..bytes]), Ok(bytes));
        assert!(room[bytes..].iter().all(|&byte| byte == 0xA5));
        let mut longer = vec![0x5A; bytes + 100];
        assert_eq!(x.save(&mut longer), Ok(bytes));
        assert!(longer[..bytes] == room[..bytes]);
        assert!(longer[bytes..].iter().all(|&byte| byte == 0x5A));

        let file = &room[..bytes];
        for target in &targets {
            if target.vram.len() == vram {
                let y = load(target, file).unwrap();
                assert!(y == x);
                assert!(y.saved().unwrap() == file);
            } else {
                assert_eq!(load(target, file), Err(OTHER_VRAM));
            }
        }
    }
}

/// A refused save leaves the room, whatever the reason, and says length 0.
#[test]
fn a_refused_save_leaves_the_room() {
    let mut calls = Calls::seeded();
    let x = any_adapter(&mut calls, 256);
    let bytes = saved_bytes(256);
    let said = |x: &Adapter, length: usize| {
        let mut room = vec![0xA5; length];
        let said = xosera::save(&x.state, &x.vram, &x.xr, &mut room);
        assert_eq!(said.length, 0);
        assert!(room.iter().all(|&byte| byte == 0xA5));
        said.refusal
    };
    for length in 0..bytes {
        assert_eq!(said(&x, length), 7);
    }
    let mut wrong = x.clone();
    wrong.state.status = 128;
    assert_eq!((said(&wrong, 2 * bytes), said(&wrong, 0)), (3, 3));
    wrong.xr.push(0);
    assert_eq!((said(&wrong, 2 * bytes), said(&wrong, 0)), (2, 2));
    wrong.vram.push(0);
    assert_eq!((said(&wrong, 2 * bytes), said(&wrong, 0)), (1, 1));
}

/// 10 unless all of beam and copper are 0, after 7 and whatever else the state holds.
#[test]
fn only_an_adapter_at_rest_is_saved() {
    let mut calls = Calls::seeded();
    let mut x = any_adapter(&mut calls, 256);
    x.state.video.copp_ctrl |= 0x8000;
    let file = x.saved().unwrap();
    for (line, position, copper_running, copper_word) in [
        (1, 0, 0, 0),
        (524, 0, 0, 0),
        (0, 1, 0, 0),
        (0, 799, 0, 0),
        (0, 0, 1, 0),
        (0, 0, 1, 1023),
        (524, 799, 1, 1023),
    ] {
        x.state.beam = Beam {
            line,
            position,
            copper_running,
            copper_word,
        };
        for length in [file.len(), file.len() + 1] {
            let mut room = vec![0xA5; length];
            let said = xosera::save(&x.state, &x.vram, &x.xr, &mut room);
            assert_eq!((said.refusal, said.length), (10, 0), "{:?}", x.state.beam);
            assert!(room.iter().all(|&byte| byte == 0xA5));
        }
        assert_eq!(x.save(&mut vec![0; file.len() - 1]), Err(Refusal(7)));
        let y = load(&x, &file).unwrap();
        assert_eq!(y.state.beam, Beam::default());
        assert!(y.saved().unwrap() == file);
    }
}

/// Of the refusals that apply to a load the first is given: of what is lent, then of the file.
#[test]
fn the_first_refusal_of_a_load_is_given() {
    let mut calls = Calls::seeded();
    let x = any_adapter(&mut calls, 256);
    let other = any_adapter(&mut calls, 512).saved().unwrap();
    let said = |x: &Adapter, file: &[u8]| {
        let mut after = x.clone();
        let said = after.load(file);
        assert!(after == *x);
        said.unwrap_err().0
    };
    assert_eq!((said(&x, &other), said(&x, &[])), (9, 8));
    let mut wrong = x.clone();
    wrong.state.engine.running = 2;
    assert_eq!((said(&wrong, &other), said(&wrong, &[])), (3, 3));
    wrong.xr.pop();
    assert_eq!((said(&wrong, &other), said(&wrong, &[])), (2, 2));
    wrong.vram.pop();
    assert_eq!((said(&wrong, &other), said(&wrong, &[])), (1, 1));
    assert_eq!(said(&wrong, &x.saved().unwrap()), 1);
}

/// 9 is given exactly where a memory as long as the saved one would be loaded.
#[test]
fn only_a_saved_adapter_has_another_length() {
    let mut calls = Calls::seeded();
    let small = any_adapter(&mut calls, 256);
    let large = any_adapter(&mut calls, 512);
    let right = any_adapter_running(&mut calls, true, 512).saved().unwrap();
    let (mut saved, mut not) = (0, 0);
    for _ in 0..2000 {
        let s = calls.state_in_range();
        let s = match calls.random().flip() {
            true => calls.state_out_of_range(s),
            false => s,
        };
        let mut file = with_state(right.clone(), &s);
        if calls.random().one_in(4) {
            let at = calls.random().below(STATE_AT as u64) as usize;
            file[at] ^= 1 << calls.random().below(8);
        }
        match load(&large, &file) {
            Ok(_) => {
                assert!(is_saved(&file));
                assert_eq!(load(&small, &file), Err(OTHER_VRAM));
                saved += 1;
            }
            Err(refusal) => {
                assert!(!is_saved(&file));
                assert_eq!(refusal, NOT_SAVED);
                assert_eq!(load(&small, &file), Err(NOT_SAVED));
                not += 1;
            }
        }
    }
    assert!(saved > 100 && not > 100);
}

/// A blit of 15 words with one of 8 queued behind it, saved before each word, loaded elsewhere and
/// finished: as if it had not been interrupted.
#[test]
fn a_blit_goes_on_after_a_load() {
    let mut calls = Calls::seeded();
    let mut x = any_adapter(&mut calls, 256);
    x.state = State::reset();
    let blits = [
        [0x3310, 0x0F00, 0x1111, 3, 0x10, 5, 0x12, 0x7E01, 2, 4],
        [0x0000, 0x00F0, 0x8001, 1, 0x20, 2, 0xF8, 0xFF03, 1, 3],
    ];
    for (xaddr, word) in blits.iter().flat_map(|blit| (0x40..).zip(blit)) {
        x.write_xr(xaddr, *word).unwrap();
    }
    assert_eq!((x.state.engine.running, x.state.queued), (1, 1));
    let mut whole = x.clone();
    let count = |done: Result<Blitted, Refusal>| done.unwrap().count;
    assert_eq!(count(whole.blit_run(u64::MAX)), 23);
    for done in 0..=23 {
        let file = x.saved().unwrap();
        let target = any_target(&mut calls, 256);
        let mut y = load(&target, &file).unwrap();
        assert_eq!(y.state.queued, u16::from(done < 15));
        assert_eq!(y.state.engine.running, u16::from(done < 23));
        assert_eq!(count(y.blit_run(u64::MAX)), 23 - done);
        assert!(y == whole, "saved after {} words", done);
        assert_eq!(count(x.blit_step()), u64::from(done < 23));
    }
}
