//! Grey levels (change request 7): the level of every word against the rule; grey lines against the
//! plain model and against the library's own painted lines; and what is refused.
//!
//! XOSERA_SEED=n gives an earlier run's lines again.

use compare::paint::{self, painted, Cases, EIGHT_BITS};
use compare::playfield::{adapter, coloured, pairs, with};
use compare::playfield::{all_bases, all_edges, all_repeats, any_lines};
use compare::refused::{first_refusals, lines_and_lengths};
use compare::tube::Tube;
use model::level;
use xosera::{grey, Adapter, SCREEN_WIDTH, VISIBLE_LINES};

fn no_cases() -> Cases {
    Cases::of(Tube::Grey)
}

/// A grey line that is the model's, and the library's own painted line with each word taken to its level.
fn line(x: &Adapter, at: u32, cases: &mut Cases) -> Vec<u16> {
    let levels = paint::line(x, at, cases);
    let colours = painted(Tube::Colour, x, at);
    let taken: Vec<u16> = colours.into_iter().map(|c| grey(c).into()).collect();
    assert!(levels == taken, "line {}: {:X?}", at, x.state.video);
    levels
}

#[test]
fn every_word_has_the_level_of_the_rule() {
    let mut given = [0; 16];
    for word in 0..=0xFFFF {
        let says = grey(word);
        assert_eq!([says, model::grey(word)], [level(word); 2], "{:04X}", word);
        given[usize::from(says)] += 1;
    }
    assert!(given.iter().all(|&words| words > 0));
    println!("grey: 65536 words by level, 0 to 15: {:?}", given);
}

/// The greys nnn, black and white among them, have level n; colours of one part, with top bits and without.
#[test]
fn levels_worked_out_by_hand() {
    for n in 0..16 {
        assert_eq!(u16::from(grey(0x111 * n)), n);
    }
    let colours = [0x100, 0x200, 0x010, 0x004, 0x005, 0xF00, 0x0F0, 0x00F];
    assert_eq!(colours.map(grey), [0, 1, 1, 0, 1, 4, 9, 2]);
    let with_top_bits = colours.map(|colour| grey(0xF000 | colour));
    assert_eq!(with_top_bits, [0, 1, 1, 0, 1, 4, 9, 2]);
}

/// Every colour, with each of its parts one higher.
#[test]
fn levels_never_fall_when_a_part_rises() {
    let (mut rises, mut higher) = (0, 0);
    for (colour, part) in pairs(&(0..4096).collect::<Vec<u16>>(), &[0x100, 0x010, 0x001]) {
        if colour / part % 16 < 15 {
            let (before, after) = (grey(colour), grey(colour + part));
            assert!(before <= after, "{:03X} and {:03X}", colour, colour + part);
            rises += 1;
            higher += u32::from(before < after);
        }
    }
    assert_eq!(rises, 3 * 15 * 256);
    println!(
        "grey: a part one higher {} times, the level {}",
        rises, higher
    );
}

/// Each of the 65,536 words is a colour of some line, 256 at a time.
#[test]
fn every_word_is_shown_by_its_level() {
    let mut x = adapter(256);
    with(&mut x, EIGHT_BITS, 0, 0);
    for (i, word) in (0..).zip(&mut x.vram) {
        *word = u16::from_be_bytes([2 * i, 2 * i + 1].map(|index| index as u8));
    }
    for first in (0..=0xFF00).step_by(256) {
        coloured(&mut x, first);
        let levels = painted(Tube::Grey, &x, 0);
        let words = (0..256).chain(0..256).chain(0..128).map(|i| first + i);
        let rule: Vec<u16> = words.map(|word| level(word).into()).collect();
        assert!(levels == rule, "colours from {:04X}", first);
    }
}

#[test]
fn lines_are_grey_at_every_repeat() {
    let mut cases = no_cases();
    all_repeats(|x| {
        for at in 0..VISIBLE_LINES {
            line(x, at, &mut cases);
        }
    });
    cases.say("both depths, 16 repeats, 480 lines");
}

#[test]
fn windows_are_grey_inside_and_outside() {
    let mut cases = no_cases();
    all_edges(|x, border, none| {
        let levels = line(x, 0, &mut cases);
        let border = u16::from(level(border));
        assert!(!none || levels == [border; SCREEN_WIDTH]);
    });
    cases.say("pairs of edges");
}

#[test]
fn every_index_is_shown_by_its_level() {
    let mut cases = no_cases();
    all_bases(|x| {
        line(x, 1, &mut cases);
    });
    assert_eq!(cases.indices(), [256; 4]);
    cases.say("every base, with each index of blank, border, four bits, eight bits");
}

#[test]
fn any_line_is_grey() {
    let mut cases = no_cases();
    any_lines(|x, at| {
        let levels = line(x, at, &mut cases);
        assert!(levels.iter().all(|&level| level < 16));
    });
    cases.report("random lines");
}

#[test]
fn the_first_refusal_is_given_and_changes_nothing() {
    first_refusals(Tube::Grey);
}

#[test]
fn only_visible_lines_of_640_words_are_grey() {
    lines_and_lengths(Tube::Grey);
}
