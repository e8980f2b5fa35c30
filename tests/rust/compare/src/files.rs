//! Files to load, right and wrong, and rooms to save in.

use crate::calls::{Calls, VRAM_LENGTHS};
use crate::convert::typed;
use xosera::{saved_bytes, XR_WORDS};

/// Where the state's section begins, and where it ends.
pub const STATE_AT: usize = 28;
pub const STATE_END: usize = 178;

/// Lengths at which something begins or ends, and their neighbours.
const EDGES: [usize; 12] = [
    0, 1, 27, 28, 29, 177, 178, 179, 13_489, 13_490, 13_491, 14_002,
];

/// Kinds of sections in their order: the right ones, which a gap makes wrong; another number or order,
/// one of them twice, one of another kind.
pub const ARRANGEMENTS: [&[u8]; 18] = [
    &RIGHT,
    &[],
    &[1],
    &[1, 2],
    &[1, 3],
    &[2, 3],
    &[1, 3, 2],
    &[2, 1, 3],
    &[2, 3, 1],
    &[3, 1, 2],
    &[3, 2, 1],
    &[1, 2, 2],
    &[1, 1, 2, 3],
    &[1, 2, 2, 3],
    &[1, 2, 3, 3],
    &[1, 2, 3, 1],
    &[1, 2, 3, 4],
    &[0, 1, 2, 3],
];
const RIGHT: [u8; 3] = [1, 2, 3];

/// What a file is, or what is wrong with it.
#[derive(Clone, Copy, Debug, PartialEq, Eq)]
pub enum Kind {
    /// The adapter's own, saved before.
    Own,
    /// Another adapter's.
    Another,
    /// Another adapter's, with a VRAM of another length.
    OtherLength,
    /// One byte changed: in the contents, in the state, or anywhere.
    ContentsByte,
    StateByte,
    AnyByte,
    /// Words for a state that are mostly out of their ranges.
    StateRange,
    /// The contents of a file of another length.
    OtherContents,
    /// Other sections, or a gap, and true contents.
    Arranged,
    Cut,
    Longer,
    /// Random bytes, or all 0.
    Bytes,
    Zeros,
}

pub const KINDS: [(Kind, &str); 13] = [
    (Kind::Own, "own"),
    (Kind::Another, "another's"),
    (Kind::OtherLength, "of another length"),
    (Kind::ContentsByte, "a byte of the contents"),
    (Kind::StateByte, "of the state"),
    (Kind::AnyByte, "any byte"),
    (Kind::StateRange, "state's range"),
    (Kind::OtherContents, "other contents"),
    (Kind::Arranged, "arranged otherwise"),
    (Kind::Cut, "cut"),
    (Kind::Longer, "longer"),
    (Kind::Bytes, "random"),
    (Kind::Zeros, "all 0"),
];

impl Kind {
    /// Can a file of this kind be a saved adapter?
    pub fn may_load(self) -> bool {
        match self {
            Kind::Own | Kind::Another | Kind::OtherLength => true,
            Kind::StateByte | Kind::AnyByte | Kind::StateRange => true,
            Kind::ContentsByte | Kind::OtherContents | Kind::Arranged => false,
            Kind::Cut | Kind::Longer | Kind::Bytes | Kind::Zeros => false,
        }
    }
}

/// How long a room is, beside the file.
#[derive(Clone, Copy, Debug, PartialEq, Eq)]
pub enum Room {
    Exact,
    OneShort,
    Longer,
    Shorter,
    Empty,
}

pub const ROOMS: [(Room, &str); 5] = [
    (Room::Exact, "exact"),
    (Room::OneShort, "one byte short"),
    (Room::Longer, "longer"),
    (Room::Shorter, "shorter"),
    (Room::Empty, "empty"),
];

/// The bytes of such a room for an adapter with so many words of VRAM.
pub fn room(calls: &mut Calls, room: Room, vram: usize) -> usize {
    let exact = saved_bytes(vram);
    match room {
        Room::Exact => exact,
        Room::OneShort => exact - 1,
        Room::Longer => exact + calls.random().pick(&[1, 2, 9, 512, 4000]),
        Room::Shorter => match calls.random().flip() {
            true => calls.random().pick(&EDGES).min(exact - 1),
            false => calls.random().below(exact as u64) as usize,
        },
        Room::Empty => 0,
    }
}

/// A file of that kind for an adapter with so many words of VRAM, whose own file is given.
pub fn file(calls: &mut Calls, kind: Kind, vram: usize, own: &[u8]) -> Vec<u8> {
    match kind {
        Kind::Own => own.to_vec(),
        Kind::Another => another(calls, vram),
        Kind::OtherLength => {
            let others: Vec<usize> = VRAM_LENGTHS.into_iter().filter(|&n| n != vram).collect();
            let other = calls.random().pick(&others);
            another(calls, other)
        }
        wrong => {
            let right = match calls.random().below(8) {
                0 => another(calls, vram),
                1 => {
                    let small = calls.random().pick(&VRAM_LENGTHS[..5]);
                    another(calls, small)
                }
                _ => own.to_vec(),
            };
            damaged(calls, wrong, right)
        }
    }
}

/// A file with one thing wrong.
fn damaged(calls: &mut Calls, kind: Kind, file: Vec<u8>) -> Vec<u8> {
    let length = file.len();
    match kind {
        Kind::Own | Kind::Another | Kind::OtherLength => file,
        Kind::ContentsByte => changed(calls, file, 0, STATE_AT),
        Kind::StateByte => changed(calls, file, STATE_AT, STATE_END),
        Kind::AnyByte => changed(calls, file, 0, length),
        Kind::StateRange => {
            let s = calls.state_in_range();
            let s = calls.state_out_of_range(s);
            with_state(file, &s)
        }
        Kind::OtherContents => with_contents(calls, file),
        Kind::Arranged => arranged_otherwise(calls, &file),
        Kind::Cut => cut(calls, file),
        Kind::Longer => longer(calls, file),
        Kind::Bytes => any_bytes(calls, length),
        Kind::Zeros => vec![0; length],
    }
}

/// The file of some adapter at rest with so many words of VRAM, by the model.
pub fn another(calls: &mut Calls, vram: usize) -> Vec<u8> {
    let s = calls.state_at_rest();
    let vram = any_words(calls, vram);
    let xr = any_words(calls, XR_WORDS);
    let mut file = vec![0; saved_bytes(vram.len())];
    let s = typed(s.words()).expect("a state in range");
    let saved = s.save(&vram, &xr, &mut file);
    assert_eq!(saved, Ok(file.len() as u64));
    file
}

/// The file with other words for its state.
pub fn with_state(mut file: Vec<u8>, s: &xosera::State) -> Vec<u8> {
    let places = file[STATE_AT..STATE_END].chunks_exact_mut(2);
    for (place, word) in places.zip(s.words()) {
        place.copy_from_slice(&word.to_be_bytes());
    }
    file
}

/// One byte from `start` up to `end` changed.
fn changed(calls: &mut Calls, mut file: Vec<u8>, start: usize, end: usize) -> Vec<u8> {
    let r = calls.random();
    let at = start + r.below((end - start) as u64) as usize;
    file[at] ^= match r.flip() {
        true => 1 << r.below(8),
        false => 1 + r.below(255) as u8,
    };
    file
}

/// Contents that do not fit the file: of another VRAM length, of another order or number of sections,
/// with the low byte first, or with a number moved on.
fn with_contents(calls: &mut Calls, mut file: Vec<u8>) -> Vec<u8> {
    let r = calls.random();
    let entry = 1 + 9 * r.below(3) as usize;
    match r.below(6) {
        0 => {
            let bytes = (file.len() - saved_bytes(0)) as u32;
            let other = if r.flip() { bytes * 2 } else { bytes / 2 };
            file[24..28].copy_from_slice(&other.to_be_bytes());
        }
        1 => {
            let (first, second) = file[1..].split_at_mut(9);
            first.swap_with_slice(&mut second[..9]);
        }
        2 => file[0] = r.pick(&[0, 1, 2, 4, 255]),
        3 => file[entry + 1..entry + 5].reverse(),
        4 => file[entry + 5..entry + 9].reverse(),
        _ => {
            let number = &mut file[entry + r.pick(&[1, 5])..][..4];
            let moved = u32::from_be_bytes([number[0], number[1], number[2], number[3]])
                .wrapping_add(r.pick(&[1, 2, 256, u32::MAX, 0x8000_0000]));
            number.copy_from_slice(&moved.to_be_bytes());
        }
    }
    file
}

/// A section: its kind and its body.
pub type Section<'a> = (u8, &'a [u8]);

/// Sections of these kinds out of an adapter's file. With one of another kind, and 9 bytes for its
/// entry, a file is as long as that of an adapter with 256 words more.
pub fn sections<'a>(file: &'a [u8], kinds: &[u8]) -> Vec<Section<'a>> {
    let body = |kind| match kind {
        1 => &file[STATE_AT..STATE_END],
        2 => &file[STATE_END..saved_bytes(0)],
        3 => &file[saved_bytes(0)..],
        _ => &[0x5A; 2 * 256 - 9],
    };
    kinds.iter().map(|&kind| (kind, body(kind))).collect()
}

/// A file of these sections, with a gap of so many bytes before the one of that number, from 0, or
/// behind the last. The contents say so.
pub fn arranged(sections: &[Section], before: usize, gap: usize) -> Vec<u8> {
    let mut contents = vec![sections.len() as u8];
    let mut bodies = Vec::new();
    for (i, &(kind, body)) in sections.iter().enumerate() {
        if i == before {
            bodies.resize(gap + bodies.len(), 0xA5);
        }
        let start = 1 + 9 * sections.len() + bodies.len();
        contents.push(kind);
        contents.extend((start as u32).to_be_bytes());
        contents.extend((body.len() as u32).to_be_bytes());
        bodies.extend(body);
    }
    if before >= sections.len() {
        bodies.resize(gap + bodies.len(), 0xA5);
    }
    [contents, bodies].concat()
}

/// The gaps with which these sections make a file as long as some adapter's. With none the right ones
/// are an adapter's file, so 0 is left out for them.
pub fn gaps(sections: &[Section]) -> Vec<usize> {
    let least = arranged(sections, 0, 0).len();
    let right = sections.iter().map(|section| section.0).eq(RIGHT);
    let lengths = VRAM_LENGTHS.into_iter().map(saved_bytes);
    let gaps = lengths.filter_map(|length| length.checked_sub(least));
    gaps.filter(|&gap| gap > 0 || !right).collect()
}

/// Sections arranged otherwise, often by the gap alone. The file is as long as some adapter's, if it
/// can be.
fn arranged_otherwise(calls: &mut Calls, file: &[u8]) -> Vec<u8> {
    let r = calls.random();
    let kinds = if r.flip() {
        &RIGHT
    } else {
        r.pick(&ARRANGEMENTS)
    };
    let sections = sections(file, kinds);
    let gap = match gaps(&sections)[..] {
        [] => 1,
        ref gaps => r.pick(gaps),
    };
    let before = r.below(sections.len() as u64 + 1) as usize;
    arranged(&sections, before, gap)
}

/// A part of the file from its first byte.
fn cut(calls: &mut Calls, mut file: Vec<u8>) -> Vec<u8> {
    let r = calls.random();
    let most = file.len() - 1;
    let length = match r.below(4) {
        0 => r.below(file.len() as u64) as usize,
        1 => most - r.below(4) as usize,
        2 => saved_bytes(r.pick(&VRAM_LENGTHS)),
        _ => r.pick(&EDGES),
    };
    file.truncate(length.min(most));
    file
}

/// The file with more behind it.
fn longer(calls: &mut Calls, mut file: Vec<u8>) -> Vec<u8> {
    let r = calls.random();
    let more = match r.below(3) {
        0 => 1,
        1 => 1 + r.below(40) as usize,
        // As long as one of twice the VRAM.
        _ => file.len() - saved_bytes(0),
    };
    let with = r.pick(&[0, 3, 255]);
    file.resize(file.len() + more, with);
    file
}

/// Any bytes, now and then with a right first one.
fn any_bytes(calls: &mut Calls, length: usize) -> Vec<u8> {
    let length = match calls.random().below(3) {
        0 => calls.random().below(300) as usize,
        _ => length,
    };
    let words = any_words(calls, (length + 1) / 2);
    let mut file: Vec<u8> = words.into_iter().flat_map(u16::to_be_bytes).collect();
    file.truncate(length);
    if let (true, Some(first)) = (calls.random().flip(), file.first_mut()) {
        *first = 3;
    }
    file
}

fn any_words(calls: &mut Calls, n: usize) -> Vec<u16> {
    let r = calls.random();
    (0..n).map(|_| r.word()).collect()
}
