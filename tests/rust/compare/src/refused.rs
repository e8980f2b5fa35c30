//! Calls to paint a line that are refused, by either tube's call alike.

use xosera::{Adapter, State, SCREEN_WIDTH};

use crate::calls::VRAM_LENGTHS;
use crate::paint::{paint, BLANK, EIGHT_BITS, FOUR_BITS, GFX_CTRL};
use crate::playfield::{adapter, with};
use crate::tube::Tube;

/// A call with something wrong, or without.
#[derive(Clone)]
struct Asked {
    state: State,
    vram: usize,
    xr: usize,
    line: u32,
    words: usize,
}

/// A way in which a call can be wrong.
type Wrong = fn(&mut Asked);

/// The refusals in the order of the request, each with ways in which a call can deserve it.
const REFUSALS: [(u8, &[Wrong]); 6] = [
    (
        1,
        &[
            |a| a.vram = 0,
            |a| a.vram = 1,
            |a| a.vram = 255,
            |a| a.vram = 257,
            |a| a.vram = 768,
        ],
    ),
    (
        2,
        &[
            |a| a.xr = 0,
            |a| a.xr = 5376,
            |a| a.xr = 6655,
            |a| a.xr = 6657,
        ],
    ),
    (
        3,
        &[
            |a| a.state.status = 128,
            |a| a.state.host.latch[3] = 256,
            |a| a.state.queued = 1,
            |a| a.state.beam.line = 525,
            |a| a.state.host.timer.countdown = 1,
        ],
    ),
    (
        11,
        &[
            |a| a.state.video.pa[GFX_CTRL] = 0x0000,
            |a| a.state.video.pa[GFX_CTRL] = 0x0010,
            |a| a.state.video.pa[GFX_CTRL] = 0xFF2F,
            |a| a.state.video.pa[GFX_CTRL] = 0x0040,
            |a| a.state.video.pa[GFX_CTRL] = 0xFF7F,
        ],
    ),
    (
        12,
        &[
            |a| a.line = 480,
            |a| a.line = 65535,
            |a| a.line = 65536,
            |a| a.line = u32::MAX,
        ],
    ),
    (
        13,
        &[
            |a| a.words = 0,
            |a| a.words = 639,
            |a| a.words = 641,
            |a| a.words = 848,
            |a| a.words = 1280,
        ],
    ),
];

/// The call with each way of these refusals, and without it: all sets of what can be wrong, each given the
/// first refusal that it deserves.
fn all_wrongs(
    asked: &Asked,
    deserved: u8,
    refusals: &[(u8, &[Wrong])],
    each: &mut impl FnMut(&Asked, u8),
) {
    match refusals {
        [] => each(asked, deserved),
        [(number, ways), later @ ..] => {
            all_wrongs(asked, deserved, later, each);
            for way in *ways {
                let mut wrong = asked.clone();
                way(&mut wrong);
                let first = if deserved == 0 { *number } else { deserved };
                all_wrongs(&wrong, first, later, each);
            }
        }
    }
}

/// All sets of what can be wrong at both depths and blank: the first refusal is given, and changes nothing.
/// Says how often each was.
pub fn first_refusals(tube: Tube) {
    let memory: Vec<u16> = (0..8192u32).map(|i| (i * 40503) as u16).collect();
    let mut said = [0; 14];
    for gfx in [FOUR_BITS, EIGHT_BITS | 0x9D0F, BLANK] {
        let mut x = Adapter::new(256);
        with(&mut x, gfx, 0, 160);
        let asked = Asked {
            state: x.state,
            vram: 256,
            xr: 6656,
            line: 479,
            words: SCREEN_WIDTH,
        };
        all_wrongs(&asked, 0, &REFUSALS, &mut |asked, deserved| {
            x.state = asked.state;
            x.vram.clear();
            x.vram.extend_from_slice(&memory[..asked.vram]);
            x.xr.clear();
            x.xr.extend_from_slice(&memory[..asked.xr]);
            let (refusal, _) = paint(tube, &x, asked.line, asked.words);
            assert_eq!(refusal, deserved, "{:?}", asked.state.video);
            said[usize::from(refusal)] += 1;
        });
    }
    let said = [0, 1, 2, 3, 11, 12, 13].map(|number| said[number]);
    assert!(said.iter().all(|&n| n > 0));
    let name = tube.name();
    println!(
        "{}: done, refused with 1, 2, 3, 11, 12, 13: {:?}",
        name, said
    );
}

/// Lengths of VRAM and of XR memory, lines and lengths of pixels, each alone, far beyond the edges.
pub fn lines_and_lengths(tube: Tube) {
    let mut x = adapter(256);
    with(&mut x, FOUR_BITS, 0, 160);
    let refusal = |x: &Adapter, at: u32, words: usize| paint(tube, x, at, words).0;
    let powers = (0..32).map(|power| 1u32 << power);
    let near = powers.flat_map(|power| [power - 1, power, power + 1, power + 479]);
    for at in (0..2_000).chain(near).chain(65_000..66_100) {
        let number = if at < 480 { 0 } else { 12 };
        assert_eq!(refusal(&x, at, SCREEN_WIDTH), number, "line {}", at);
    }
    for words in (0..1_400).chain([65536 + 640, 131072 + 640]) {
        let number = if words == 640 { 0 } else { 13 };
        assert_eq!(refusal(&x, 479, words), number, "{} words", words);
    }
    for words in (0..1_100).chain([65535, 65536, 65537, 131072]) {
        x.vram.resize(words, 0x1234);
        let number = if VRAM_LENGTHS.contains(&words) { 0 } else { 1 };
        assert_eq!(refusal(&x, 0, SCREEN_WIDTH), number, "{} words", words);
    }
    x.vram.truncate(256);
    for words in [0, 5120, 5375, 5376, 5632, 6655, 6656, 6657, 13312] {
        x.xr.resize(words, 0x1234);
        let number = if words == 6656 { 0 } else { 2 };
        assert_eq!(refusal(&x, 0, SCREEN_WIDTH), number, "{} words", words);
    }
}
