//! The structs' places: the state's fields are the words of their numbers, the answers are C's.

use std::mem::{align_of, size_of};
use std::ptr::addr_of;

use xosera::{
    BlitAnswer, LineAnswer, LoadAnswer, PaintAnswer, ReadAnswer, SaveAnswer, StateAnswer,
    WhyAnswer, WriteAnswer,
};
use xosera::{BlitRegs, State, STATE_WORDS};

/// Where a field stands in its struct.
macro_rules! place {
    ($answer:ident.$field:ident) => {
        addr_of!($answer.$field) as usize - addr_of!($answer) as usize
    };
}

fn numbered() -> State {
    let mut words = [0; STATE_WORDS];
    for (number, word) in (0..).zip(words.iter_mut()) {
        *word = number;
    }
    State::from_words(words)
}

fn ten(b: &BlitRegs) -> [u16; 10] {
    [
        b.ctrl, b.andc, b.xor, b.mod_s, b.src_s, b.mod_d, b.dst_d, b.shift, b.lines, b.words,
    ]
}

#[test]
fn each_field_is_the_word_of_its_number() {
    assert_eq!((size_of::<State>(), align_of::<State>()), (158, 2));
    let s = numbered();
    let (xr, vram, timer) = (s.host.xr, s.host.vram, s.host.timer);
    let (e, v, beam) = (s.engine, s.video, s.beam);
    let mut fields = s.host.latch.to_vec();
    fields.extend([xr.rd_xaddr.0, xr.wr_xaddr.0, xr.rd_xdata]);
    fields.extend([vram.rd_incr, vram.rd_addr.0, vram.wr_incr, vram.wr_addr.0]);
    fields.extend([vram.rd_data, vram.wr_mask]);
    fields.extend([timer.count, timer.countdown, timer.interval, timer.saved]);
    fields.extend([s.host.int_mask, s.queued, s.status]);
    fields.extend([e.running, e.line, e.word, e.kept]);
    fields.extend(ten(&e.regs));
    fields.extend([v.vid_ctrl, v.copp_ctrl, v.aud_ctrl, v.vid_left, v.vid_right]);
    fields.extend(v.pa.iter().chain(&v.pb));
    fields.extend(ten(&s.blit));
    fields.extend([beam.line, beam.position]);
    fields.extend([beam.copper_running, beam.copper_word]);
    assert_eq!(fields, s.words());
    assert_eq!(State::from_words(*s.words()), s);
}

#[test]
fn a_field_set_is_a_word_set() {
    let mut s = State::reset();
    assert_eq!((s.words()[24], s.words()[50]), (15, 640));
    assert_eq!(s.words().iter().filter(|&&w| w != 0).count(), 2);
    s.host.latch[15] = 0xFFFF;
    s.blit.words = 0x8000;
    s.beam.copper_word = 1023;
    assert_eq!((s.words()[15], s.words()[74]), (0xFFFF, 0x8000));
    assert_eq!(s.words()[78], 1023);
}

#[test]
fn answers_are_laid_out_as_in_c() {
    let blit = BlitAnswer {
        refusal: 0,
        mask: 0,
        count: 0,
    };
    assert_eq!((place!(blit.refusal), place!(blit.mask)), (0, 1));
    assert_eq!((size_of::<BlitAnswer>(), place!(blit.count)), (16, 8));
    let write = WriteAnswer {
        refusal: 0,
        mask: 0,
    };
    assert_eq!((place!(write.refusal), place!(write.mask)), (0, 1));
    let saved = SaveAnswer {
        refusal: 0,
        length: 0,
    };
    assert_eq!((size_of::<SaveAnswer>(), place!(saved.length)), (16, 8));
    assert_eq!((size_of::<StateAnswer>(), size_of::<LoadAnswer>()), (1, 1));
    assert_eq!((size_of::<PaintAnswer>(), size_of::<WriteAnswer>()), (1, 2));
    assert_eq!((size_of::<ReadAnswer>(), size_of::<LineAnswer>()), (2, 2));
}

#[test]
fn the_answer_to_why_is_laid_out_as_in_c() {
    let a = WhyAnswer::default();
    assert_eq!((size_of::<WhyAnswer>(), align_of::<WhyAnswer>()), (10, 2));
    assert_eq!((place!(a.refusal), place!(a.fate)), (0, 1));
    assert_eq!((place!(a.first_mask), place!(a.last_mask)), (2, 3));
    assert_eq!(place!(a.colour_test), 4);
    assert_eq!((place!(a.line), place!(a.word)), (6, 8));
}

#[test]
fn ten_registers_are_words_in_their_order() {
    let regs = [1, 2, 3, 4, 5, 6, 7, 8, 9, 10];
    assert_eq!(ten(&BlitRegs::from(regs)), regs);
    assert_eq!((size_of::<BlitRegs>(), align_of::<BlitRegs>()), (20, 2));
}

/// Words that no flag or byte can be, nor a beam or a stopped copper, are refused, and stay.
#[test]
fn words_out_of_range_are_refused() {
    let mut x = xosera::Adapter::new(256);
    let file = x.saved().unwrap();
    let bytes_and_flags = [(0, 256), (15, 0x8000), (28, 256), (30, 2), (32, 0x0100)];
    let beam_and_copper = [(75, 525), (76, 800), (77, 1), (77, 2), (78, 1)];
    for (number, word) in bytes_and_flags.into_iter().chain(beam_and_copper) {
        let mut words = *State::reset().words();
        words[number] = word;
        x.state = State::from_words(words);
        let before = x.clone();
        assert_eq!(x.write_byte(9, true, 1), Err(xosera::Refusal(3)));
        assert_eq!(x.read_byte(2, false), Err(xosera::Refusal(3)));
        assert_eq!(x.blit_run(10), Err(xosera::Refusal(3)));
        assert_eq!(x.timer_tick(), Err(xosera::Refusal(3)));
        assert_eq!(x.beam_step(), Err(xosera::Refusal(3)));
        assert_eq!(x.interrupt_line(), Err(xosera::Refusal(3)));
        assert_eq!(x.saved(), Err(xosera::Refusal(3)));
        assert_eq!(x.load(&file), Err(xosera::Refusal(3)));
        assert_eq!(x.painted(0), Err(xosera::Refusal(3)));
        assert_eq!(x.painted_grey(0), Err(xosera::Refusal(3)));
        assert_eq!(x, before);
    }
}
