//! The state's words as the plain Rust model's state, and back. Nothing here asks the library.

use model::{Blit, State};
use xosera::STATE_WORDS;

pub type Words = [u16; STATE_WORDS];

/// The words by name, in their order, and how many each name has.
const NAMES: [(&str, usize); 42] = [
    ("latch", 16),
    ("rd_xaddr", 1),
    ("wr_xaddr", 1),
    ("xdata", 1),
    ("rd_incr", 1),
    ("rd_addr", 1),
    ("wr_incr", 1),
    ("wr_addr", 1),
    ("data", 1),
    ("nibble_mask", 1),
    ("timer", 1),
    ("countdown", 1),
    ("interval", 1),
    ("timer_saved", 1),
    ("int_mask", 1),
    ("queued", 1),
    ("status", 1),
    ("running", 1),
    ("line", 1),
    ("word", 1),
    ("kept", 1),
    ("copied ctrl", 1),
    ("copied andc", 1),
    ("copied xor", 1),
    ("copied mod_s", 1),
    ("copied src_s", 1),
    ("copied mod_d", 1),
    ("copied dst_d", 1),
    ("copied shift", 1),
    ("copied lines", 1),
    ("copied words", 1),
    ("vid_ctrl", 1),
    ("copp_ctrl", 1),
    ("aud_ctrl", 1),
    ("vid_left", 1),
    ("vid_right", 1),
    ("playfields", 14),
    ("blit", 10),
    ("beam_line", 1),
    ("beam_position", 1),
    ("copper_running", 1),
    ("copper_word", 1),
];

/// The words that are a byte (latches, nibble mask, saved timer byte, interrupt mask and status) or a
/// flag (queued, running, copper running).
pub const NARROW: [usize; 23] = [
    0, 1, 2, 3, 4, 5, 6, 7, 8, 9, 10, 11, 12, 13, 14, 15, 24, 28, 29, 31, QUEUED, RUNNING, COPPER,
];
const QUEUED: usize = 30;
const RUNNING: usize = 32;
const COPPER: usize = 77;

/// Does the word fit its byte or flag, if it is one?
pub fn fits(number: usize, word: u16) -> bool {
    match number {
        QUEUED | RUNNING | COPPER => word <= 1,
        _ => word <= 255 || !NARROW.contains(&number),
    }
}

/// The words as the model's state, or nothing where a word does not fit its byte or flag.
pub fn typed(w: &Words) -> Option<State> {
    if !w.iter().enumerate().all(|(i, &word)| fits(i, word)) {
        return None;
    }
    let mut latch = [0; 16];
    for (byte, &word) in latch.iter_mut().zip(w) {
        *byte = word as u8;
    }
    let mut xreg = [0; 0x20];
    xreg[0x00..0x03].copy_from_slice(&w[46..49]);
    xreg[0x04..0x06].copy_from_slice(&w[49..51]);
    xreg[0x10..0x17].copy_from_slice(&w[51..58]);
    xreg[0x18..0x1F].copy_from_slice(&w[58..65]);
    Some(State {
        latch,
        rd_xaddr: w[16],
        wr_xaddr: w[17],
        xdata: w[18],
        rd_incr: w[19],
        rd_addr: w[20],
        wr_incr: w[21],
        wr_addr: w[22],
        data: w[23],
        nibble_mask: w[24] as u8,
        timer: w[25],
        countdown: w[26],
        interval: w[27],
        timer_saved: w[28] as u8,
        int_mask: w[29] as u8,
        queued: w[QUEUED] == 1,
        status: w[31] as u8,
        running: w[RUNNING] == 1,
        line: w[33],
        word: w[34],
        kept: w[35],
        copied: to_blit(&w[36..46]),
        xreg,
        blit: to_blit(&w[65..75]),
        beam_line: w[75],
        beam_position: w[76],
        copper_running: w[COPPER] == 1,
        copper_word: w[78],
    })
}

/// The words of the model's state.
pub fn words(s: &State) -> Words {
    let mut w = [0; STATE_WORDS];
    for (word, &byte) in w.iter_mut().zip(&s.latch) {
        *word = u16::from(byte);
    }
    w[16] = s.rd_xaddr;
    w[17] = s.wr_xaddr;
    w[18] = s.xdata;
    w[19] = s.rd_incr;
    w[20] = s.rd_addr;
    w[21] = s.wr_incr;
    w[22] = s.wr_addr;
    w[23] = s.data;
    w[24] = u16::from(s.nibble_mask);
    w[25] = s.timer;
    w[26] = s.countdown;
    w[27] = s.interval;
    w[28] = u16::from(s.timer_saved);
    w[29] = u16::from(s.int_mask);
    w[QUEUED] = u16::from(s.queued);
    w[31] = u16::from(s.status);
    w[RUNNING] = u16::from(s.running);
    w[33] = s.line;
    w[34] = s.word;
    w[35] = s.kept;
    w[36..46].copy_from_slice(&of_blit(&s.copied));
    w[46..49].copy_from_slice(&s.xreg[0x00..0x03]);
    w[49..51].copy_from_slice(&s.xreg[0x04..0x06]);
    w[51..58].copy_from_slice(&s.xreg[0x10..0x17]);
    w[58..65].copy_from_slice(&s.xreg[0x18..0x1F]);
    w[65..75].copy_from_slice(&of_blit(&s.blit));
    w[75] = s.beam_line;
    w[76] = s.beam_position;
    w[COPPER] = u16::from(s.copper_running);
    w[78] = s.copper_word;
    w
}

/// Are the words a state within its ranges?
pub fn in_range(w: &Words) -> bool {
    typed(w).map_or(false, |s| s.in_range())
}

/// What the model is given for words that it has no state for: a state that is out of range too.
pub fn misfit() -> State {
    State {
        status: 255,
        ..State::reset()
    }
}

/// The library's ten blit registers as the model's.
pub fn blit(regs: &xosera::BlitRegs) -> Blit {
    Blit {
        ctrl: regs.ctrl,
        andc: regs.andc,
        xor: regs.xor,
        mod_s: regs.mod_s,
        src_s: regs.src_s,
        mod_d: regs.mod_d,
        dst_d: regs.dst_d,
        shift: regs.shift,
        lines: regs.lines,
        words: regs.words,
    }
}

fn to_blit(w: &[u16]) -> Blit {
    Blit {
        ctrl: w[0],
        andc: w[1],
        xor: w[2],
        mod_s: w[3],
        src_s: w[4],
        mod_d: w[5],
        dst_d: w[6],
        shift: w[7],
        lines: w[8],
        words: w[9],
    }
}

fn of_blit(b: &Blit) -> [u16; 10] {
    [
        b.ctrl, b.andc, b.xor, b.mod_s, b.src_s, b.mod_d, b.dst_d, b.shift, b.lines, b.words,
    ]
}

/// The words in which two states differ, one to a line.
pub fn differences(library: &Words, model: &Words) -> String {
    let names = NAMES
        .iter()
        .flat_map(|&(name, n)| (0..n).map(move |i| (name, i)));
    let mut text = String::new();
    for (((name, i), number), (l, m)) in names.zip(0..).zip(library.iter().zip(model)) {
        if l != m {
            text += &format!(
                "  word {}, {} {}: library {:04X}, model {:04X}\n",
                number, name, i, l, m
            );
        }
    }
    text
}
