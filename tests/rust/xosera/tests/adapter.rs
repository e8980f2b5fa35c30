//! The owning adapter: words, the XR space, blits, saved files, painted lines, grey ones too, and refusals
//! as errors.

use xosera::{saved_bytes, Adapter, Blitted, Fate, Refusal};
use xosera::{XM_DATA, XM_DATA_2, XM_INT_CTRL, XM_RD_ADDR, XM_SYS_CTRL, XM_WR_ADDR, XM_WR_INCR};

fn blitted(count: u64, mask: u8) -> Result<Blitted, Refusal> {
    Ok(Blitted { count, mask })
}

#[test]
fn words_go_in_and_come_back() {
    let mut x = Adapter::new(256);
    x.write_word(XM_WR_ADDR, 0x20).unwrap();
    x.write_word(XM_DATA, 0xCAFE).unwrap();
    x.write_word(XM_RD_ADDR, 0x20).unwrap();
    assert_eq!(x.read_word(XM_DATA), Ok(0xCAFE));
    x.write_xr(0x8001, 0x0ABC).unwrap();
    assert_eq!(x.read_xr(0x8001), Ok(0x0ABC));
    assert_eq!(x.xr[5121], 0x0ABC);
}

#[test]
fn a_data_write_gives_the_nibble_mask() {
    let mut x = Adapter::new(256);
    assert_eq!(x.write_word(XM_DATA, 0x1234), Ok(0xF));
    assert_eq!(x.write_word(XM_SYS_CTRL, 0xA), Ok(0));
    assert_eq!(x.write_byte(XM_DATA, false, 0x56), Ok(0));
    assert_eq!(x.write_byte(XM_DATA, true, 0x78), Ok(0xA));
    assert_eq!(x.vram[0], 0x5274);
    assert_eq!(x.write_word(XM_DATA_2, 0x9999), Ok(0xA));
    assert_eq!(x.write_word(XM_WR_ADDR, 1), Ok(0));
}

#[test]
fn a_blit_takes_a_step_a_word() {
    let mut x = Adapter::new(256);
    for (xaddr, word) in [
        (0x40, 1),
        (0x44, 0x5555),
        (0x46, 0x10),
        (0x47, 0x7C00),
        (0x49, 2),
    ] {
        x.write_xr(xaddr, word).unwrap();
    }
    assert_eq!(x.read_word(XM_SYS_CTRL), Ok(0x280F));
    assert_eq!(x.blit_run(0), blitted(0, 0));
    assert_eq!(x.blit_step(), blitted(1, 0x7));
    assert_eq!(x.vram[0x10..0x14], [0x0555, 0, 0, 0]);
    assert_eq!(x.blit_run(u64::MAX), blitted(2, 0xC));
    assert_eq!(x.vram[0x10..0x14], [0x0555, 0x5555, 0x5500, 0]);
    assert_eq!(x.blit_step(), blitted(0, 0));
}

/// Lines of one word, the second over the first: `MOD_D` is -1. The constant goes from 0506 to 0507, the
/// colour test holds back 7 at the right, the masks the first and the third nibble.
#[test]
fn a_blit_is_explained() {
    let mut x = Adapter::new(256);
    x.vram.fill(0x9999);
    let before = x.vram.clone();
    let regs = [0xF711, 0, 0, 1, 0x0506, 0xFFFF, 0x1020, 0x7D00, 1, 0];
    for (xaddr, word) in (0x40..).zip(regs) {
        x.write_xr(xaddr, word).unwrap();
    }
    assert_eq!(x.blit_run(9), blitted(2, 0x4));
    assert_eq!(x.vram[0x20], 0x9596);

    let held = |first_mask: bool, last_mask: bool, colour_test: bool| Fate::HeldBack {
        first_mask,
        last_mask,
        colour_test,
    };
    let why = |nibble: u32| x.why(&before, 0x20, nibble);
    assert_eq!(why(0), Ok(held(true, false, false)));
    assert_eq!(why(1), Ok(Fate::Written { line: 1, word: 0 }));
    assert_eq!(why(2), Ok(held(false, true, false)));
    assert_eq!(why(3), Ok(Fate::Written { line: 0, word: 0 }));
    assert_eq!(x.why(&before, 0x21, 0), Ok(Fate::NeverReached));
}

/// The second memory ends as the blit leaves VRAM, whatever was in it; a refused question leaves it.
#[test]
fn a_second_memory_is_worked_in() {
    let regs = [1, 0, 0, 0, 0x1234, 0, 0x1020, 0xFF00, 0, 0].into();
    let (before, mut work) = ([0x9999; 256], [0x5A5A; 256]);
    assert_eq!(xosera::why(regs, &before, &mut work, 256, 0).refusal, 15);
    assert_eq!(work, [0x5A5A; 256]);
    assert_eq!(xosera::why(regs, &before, &mut work, 255, 0).refusal, 0);
    let mut after = before;
    after[0x20] = 0x1234;
    assert_eq!(work, after);
}

/// Through the registers: two words of VRAM in a window from 4 to 13, at four bits and at eight, H repeat 2,
/// V repeat 2; the border's colour is 9, the base 2F. Line 3 is in row 1, which starts at 0x1010 + 0x10.
#[test]
fn a_line_is_painted() {
    let mut x = Adapter::new(256);
    x.write_word(XM_WR_INCR, 1).unwrap();
    x.write_word(XM_WR_ADDR, 0x20).unwrap();
    x.write_word(XM_DATA, 0x1234).unwrap();
    x.write_word(XM_DATA, 0x5678).unwrap();
    for i in 0..512 {
        x.write_xr(0x8000 + i, 0xA000 + i).unwrap();
    }
    for (xaddr, word) in [
        (0x00, 0x8009),
        (0x04, 4),
        (0x05, 13),
        (0x10, 0x2F55),
        (0x12, 0x1010),
        (0x13, 0x0010),
    ] {
        x.write_xr(xaddr, word).unwrap();
    }
    let mut shows = |gfx: u16, window: [u16; 9]| {
        x.write_xr(0x10, gfx).unwrap();
        let mut line = [0xA009; 640];
        line[4..13].copy_from_slice(&window.map(|index| 0xA000 + index));
        assert_eq!(x.painted(3), Ok(line.to_vec()));
    };
    let four = [0x21, 0x21, 0x22, 0x22, 0x23, 0x23, 0x24, 0x24, 0x25];
    shows(0x2F55, four);
    let eight = [0x12, 0x12, 0x34, 0x34, 0x56, 0x56, 0x78, 0x78, 0x00];
    shows(0x2F65, eight);
    x.write_xr(0x10, 0x2F80).unwrap();
    assert_eq!(x.painted(3), Ok(vec![0xA026; 640]));
}

/// 480 lines of 640 words; a refused call leaves the words.
#[test]
fn other_lines_are_refused() {
    let mut x = Adapter::new(256);
    let mut pixels = [0x5A5A; 641];
    assert_eq!(x.paint(0, &mut pixels[..640]), Err(Refusal(11)));
    x.write_xr(0x10, 0x0050).unwrap();
    assert_eq!(x.paint(480, &mut pixels[..640]), Err(Refusal(12)));
    assert_eq!(x.paint(479, &mut pixels[..639]), Err(Refusal(13)));
    assert_eq!(x.paint(479, &mut pixels), Err(Refusal(13)));
    assert_eq!(pixels, [0x5A5A; 641]);
    assert_eq!(x.paint(479, &mut pixels[..640]), Ok(()));
    assert_eq!((pixels[0], pixels[639], pixels[640]), (0, 0, 0x5A5A));
    let texts = [11, 12, 13].map(|number| Refusal(number).to_string());
    let [no_bitmap, no_line, length] = texts;
    assert_eq!(
        no_bitmap,
        "refusal 11: playfield A is neither blank nor a bitmap of 4 or 8 bits"
    );
    assert_eq!(no_line, "refusal 12: line over 479");
    assert_eq!(length, "refusal 13: pixels are not 640 words");
}

/// 299 x 3 + 587 x 2 + 114 x 4 + 500 is 3,027; bits 15:12 are ignored.
#[test]
fn a_colour_has_a_level() {
    assert_eq!([0x000, 0x324, 0xFFF].map(xosera::grey), [0, 3, 15]);
    assert_eq!([0xF000, 0x8324, 0x1FFF].map(xosera::grey), [0, 3, 15]);
}

/// Two pixels of eight bits in a border; a refused call leaves the words.
#[test]
fn a_line_is_painted_grey() {
    let mut x = Adapter::new(256);
    let mut pixels = [0x5A5A; 641];
    assert_eq!(x.paint_grey(0, &mut pixels[..640]), Err(Refusal(11)));
    for (xaddr, word) in [
        (0x05, 2),
        (0x10, 0x0060),
        (0x8000, 0x10F0),
        (0x8001, 0xFF00),
    ] {
        x.write_xr(xaddr, word).unwrap();
    }
    x.vram[0] = 0x0100;
    assert_eq!(x.paint_grey(480, &mut pixels[..640]), Err(Refusal(12)));
    assert_eq!(x.paint_grey(479, &mut pixels), Err(Refusal(13)));
    assert_eq!(pixels, [0x5A5A; 641]);
    assert_eq!(x.paint_grey(479, &mut pixels[..640]), Ok(()));
    let mut levels = vec![9; 640];
    levels[0] = 4;
    assert_eq!(pixels[..640], levels);
    assert_eq!((x.painted_grey(0), pixels[640]), (Ok(levels), 0x5A5A));
}

#[test]
fn time_raises_the_line() {
    let mut x = Adapter::new(256);
    x.write_word(XM_INT_CTRL, 0x3000).unwrap();
    assert_eq!(x.interrupt_line(), Ok(false));
    (x.state.beam.line, x.state.beam.position) = (479, 799);
    x.beam_step().unwrap();
    assert_eq!(x.interrupt_line(), Ok(true));
    x.write_word(XM_INT_CTRL, 0x3010).unwrap();
    assert_eq!(x.interrupt_line(), Ok(false));
    x.write_word(xosera::XM_TIMER, 1).unwrap();
    x.timer_tick().unwrap();
    assert_eq!(x.read_word(XM_INT_CTRL), Ok(0x3020));
}

/// Blank flags and scanline on line 479 and on line 480.
#[test]
fn the_beam_is_seen_by_the_host() {
    let mut x = Adapter::new(256);
    assert_eq!(x.read_word(XM_SYS_CTRL), Ok(0x080F));
    (x.state.beam.line, x.state.beam.position) = (479, 158);
    for flags in [0x080F, 0x000F, 0x000F] {
        x.beam_step().unwrap();
        assert_eq!(x.read_word(XM_SYS_CTRL), Ok(flags));
    }
    assert_eq!(x.read_xr(0x03), Ok(479));
    x.state.beam.position = 799;
    x.beam_step().unwrap();
    assert_eq!(x.read_word(XM_SYS_CTRL), Ok(0x0C0F));
    assert_eq!(x.read_xr(0x03), Ok(480));
    x.state.beam.position = 159;
    x.beam_step().unwrap();
    assert_eq!(x.read_word(XM_SYS_CTRL), Ok(0x040F));
}

/// Wait for line 240, pixel 8; set `XR_VID_CTRL`; wait for the frame's end.
#[test]
fn a_copper_list_changes_the_border() {
    let mut x = Adapter::new(256);
    let list = [240, 8 << 4, 0x6000, 0x1234, 0, 0b11];
    for (xaddr, word) in (0xC000..).zip(list) {
        x.write_xr(xaddr, word).unwrap();
    }
    x.write_xr(0x01, 0x8000).unwrap();
    (x.state.beam.line, x.state.beam.position) = (524, 799);
    x.beam_step().unwrap();
    let at_line_0 = xosera::Beam {
        copper_running: 1,
        ..xosera::Beam::default()
    };
    assert_eq!(x.state.beam, at_line_0);
    for _ in 0..240 * 800 + 168 {
        x.beam_step().unwrap();
        assert_eq!(x.state.video.vid_ctrl, 0);
    }
    x.beam_step().unwrap();
    assert_eq!((x.state.beam.line, x.state.beam.position), (240, 169));
    assert_eq!(x.state.video.vid_ctrl, 0x1234);
    for _ in 0..1000 {
        x.beam_step().unwrap();
        assert_eq!(x.state.beam.copper_word, 4);
    }
    x.write_xr(0x01, 0).unwrap();
    let (running, word) = (x.state.beam.copper_running, x.state.beam.copper_word);
    assert_eq!((running, word), (0, 0));
}

#[test]
fn a_refusal_is_an_error_and_changes_nothing() {
    let mut x = Adapter::new(256);
    let before = x.clone();
    assert_eq!(x.write_byte(16, true, 1), Err(Refusal(4)));
    assert_eq!(x.read_byte(255, false), Err(Refusal(4)));
    assert_eq!(x, before);
    assert_eq!(Refusal(4).to_string(), "refusal 4: register number over 15");
    assert_eq!(Adapter::new(300).blit_step(), Err(Refusal(1)));
    assert_eq!(Adapter::new(300).beam_step(), Err(Refusal(1)));
    assert_eq!(x.why(&[0; 300], 0, 0), Err(Refusal(1)));
    assert_eq!(x.why(&[0; 256], 0, 4), Err(Refusal(15)));
    let no_place = "refusal 15: nibble over 3 or address not below the VRAM length";
    assert_eq!(Refusal(15).to_string(), no_place);
    assert_eq!(Adapter::new(300).painted(480), Err(Refusal(1)));
    assert_eq!(x.painted(480), Err(Refusal(11)));
    assert_eq!(Adapter::new(300).painted_grey(480), Err(Refusal(1)));
    assert_eq!(x.painted_grey(480), Err(Refusal(11)));
    x.state.status = 128;
    assert_eq!(x.interrupt_line(), Err(Refusal(3)));
    assert_eq!(x.timer_tick(), Err(Refusal(3)));
}

#[test]
fn a_saved_adapter_comes_back() {
    let mut x = Adapter::new(256);
    x.write_word(XM_WR_ADDR, 0x20).unwrap();
    x.write_word(XM_DATA, 0xCAFE).unwrap();
    x.write_xr(0x8001, 0x0ABC).unwrap();
    let file = x.saved().unwrap();
    assert_eq!(file.len(), saved_bytes(256));
    assert_eq!(file.len(), 14_002);
    assert_eq!(file[13_490 + 0x40..][..2], [0xCA, 0xFE]);

    let mut y = Adapter::new(256);
    y.write_word(XM_INT_CTRL, 0x1000).unwrap();
    y.load(&file).unwrap();
    assert_eq!(y, x);
    assert_eq!(y.saved(), Ok(file));
}

#[test]
fn a_save_leaves_the_room_behind_the_file() {
    let x = Adapter::new(512);
    let file = x.saved().unwrap();
    let mut room = vec![0xA5; file.len() + 3];
    assert_eq!(x.save(&mut room), Ok(file.len()));
    assert_eq!(room[..file.len()], file);
    assert_eq!(room[file.len()..], [0xA5; 3]);

    let mut short = vec![0xA5; file.len() - 1];
    assert_eq!(x.save(&mut short), Err(Refusal(7)));
    assert!(short.iter().all(|&byte| byte == 0xA5));
}

#[test]
fn only_an_adapter_at_rest_is_saved() {
    let mut x = Adapter::new(256);
    let file = x.saved().unwrap();
    x.beam_step().unwrap();
    assert_eq!(x.saved(), Err(Refusal(10)));
    assert_eq!(x.save(&mut [0; 14_001]), Err(Refusal(7)));
    assert_eq!(
        Refusal(10).to_string(),
        "refusal 10: beam or copper not at rest"
    );
    x.load(&file).unwrap();
    assert_eq!(x, Adapter::new(256));
}

#[test]
fn another_file_is_refused() {
    let mut x = Adapter::new(256);
    let before = x.clone();
    let mut file = Adapter::new(512).saved().unwrap();
    assert_eq!(x.load(&file), Err(Refusal(9)));
    file.push(0);
    assert_eq!(x.load(&file), Err(Refusal(8)));
    assert_eq!(x.load(&[]), Err(Refusal(8)));
    assert_eq!(x, before);
    assert_eq!(Refusal(8).to_string(), "refusal 8: not a saved adapter");
}
