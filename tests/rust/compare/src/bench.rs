//! How fast the library is, beside the plain Rust model in the same process.
//!
//! Millions a second, of the library and of the plain model, and the ratio of the two. Both are called
//! through a pointer to a C function, with the state and the memories lent and changed in place, by
//! loops that are written once. Both do the same work on memories of their own; answers, states and
//! memories are compared after every round, so neither can leave any out. Each figure is the best of
//! many rounds, the sides taking turns.

use std::time::Instant;

use compare::convert::{typed, words};
use compare::copper::{instruction, position, ENABLED, JMP, MOVEC, MOVER, PROGRAM_AT, WAIT};
use compare::tube::Tube;
use xosera::{
    saved_bytes, BlitAnswer, BlitRegs, LineAnswer, LoadAnswer, PaintAnswer, ReadAnswer, SaveAnswer,
    StateAnswer, WhyAnswer, WriteAnswer, SCREEN_WIDTH, VISIBLE_LINES, XR_COLOUR_AT,
};

const VRAM_WORDS: usize = 65536;

/// Many short rounds: on a busy machine some of them are left alone.
const ROUNDS: usize = 600;

/// The words of a blit.
const WORDS: u64 = 65536;

/// Its `LINES` and `WORDS`: 256 lines of 256, or 32,768 of 2, where every word is at an edge.
const WIDE: [u16; 2] = [255, 255];
const NARROW: [u16; 2] = [32767, 1];

/// Single calls in a round.
const CALLS: u64 = 4096;

/// The words of a file: state, XR memory and VRAM.
const FILE_WORDS: u64 = (xosera::SAVED_STATE_WORDS + xosera::XR_WORDS + VRAM_WORDS) as u64;

/// The pixels of a screen.
const SCREEN: usize = VISIBLE_LINES as usize * SCREEN_WIDTH;

/// A call that paints a line, on a state of type `S`.
type Painter<S> = unsafe extern "C" fn(
    *const S,
    *const u16,
    usize,
    *const u16,
    usize,
    u32,
    *mut u16,
    usize,
) -> PaintAnswer;

/// A side's thirteen calls, on a state of type `S`.
#[derive(Clone, Copy)]
struct Calls<S> {
    write_byte:
        unsafe extern "C" fn(*mut S, *mut u16, usize, *mut u16, usize, u8, bool, u8) -> WriteAnswer,
    read_byte:
        unsafe extern "C" fn(*mut S, *const u16, usize, *const u16, usize, u8, bool) -> ReadAnswer,
    blit_step: unsafe extern "C" fn(*mut S, *mut u16, usize, *const u16, usize) -> BlitAnswer,
    blit_run: unsafe extern "C" fn(*mut S, *mut u16, usize, *const u16, usize, u64) -> BlitAnswer,
    timer_tick: unsafe extern "C" fn(*mut S) -> StateAnswer,
    beam_step: unsafe extern "C" fn(*mut S, *const u16, usize, *mut u16, usize) -> StateAnswer,
    interrupt_line: unsafe extern "C" fn(*const S) -> LineAnswer,
    save: unsafe extern "C" fn(
        *const S,
        *const u16,
        usize,
        *const u16,
        usize,
        *mut u8,
        usize,
    ) -> SaveAnswer,
    load: unsafe extern "C" fn(
        *mut S,
        *mut u16,
        usize,
        *mut u16,
        usize,
        *const u8,
        usize,
    ) -> LoadAnswer,
    why: unsafe extern "C" fn(BlitRegs, *const u16, usize, *mut u16, usize, u32, u32) -> WhyAnswer,
    paint: Painter<S>,
    grey: unsafe extern "C" fn(u16) -> u8,
    paint_grey: Painter<S>,
}

const LIBRARY: Calls<xosera::State> = Calls {
    write_byte: xosera::ffi::xosera_write_byte,
    read_byte: xosera::ffi::xosera_read_byte,
    blit_step: xosera::ffi::xosera_blit_step,
    blit_run: xosera::ffi::xosera_blit_run,
    timer_tick: xosera::ffi::xosera_timer_tick,
    beam_step: xosera::ffi::xosera_beam_step,
    interrupt_line: xosera::ffi::xosera_interrupt_line,
    save: xosera::ffi::xosera_save,
    load: xosera::ffi::xosera_load,
    why: xosera::ffi::xosera_why,
    paint: xosera::ffi::xosera_paint,
    grey: xosera::ffi::xosera_grey,
    paint_grey: xosera::ffi::xosera_paint_grey,
};

const PLAIN: Calls<model::State> = Calls {
    write_byte: plain::write_byte,
    read_byte: plain::read_byte,
    blit_step: plain::blit_step,
    blit_run: plain::blit_run,
    timer_tick: plain::timer_tick,
    beam_step: plain::beam_step,
    interrupt_line: plain::interrupt_line,
    save: plain::save,
    load: plain::load,
    why: plain::why,
    paint: plain::paint::<false>,
    grey: plain::grey,
    paint_grey: plain::paint::<true>,
};

/// The plain model's calls as C functions. Pointers and lengths are those of live memory, as for the
/// library's.
mod plain {
    use std::slice::{from_raw_parts, from_raw_parts_mut};

    use compare::convert::blit;
    use compare::why::numbered;
    use model::{Blitted, Refusal, State};
    use xosera::{
        BlitAnswer, BlitRegs, LineAnswer, LoadAnswer, PaintAnswer, ReadAnswer, SaveAnswer,
        StateAnswer, WhyAnswer, WriteAnswer,
    };

    /// The refusal's number and the answer, 0 if refused.
    fn said<T: Default>(answer: Result<T, Refusal>) -> (u8, T) {
        match answer {
            Ok(value) => (0, value),
            Err(refusal) => (refusal as u8, T::default()),
        }
    }

    fn blitted(answer: Result<Blitted, Refusal>) -> BlitAnswer {
        let (refusal, Blitted { count, mask }) = said(answer);
        BlitAnswer {
            refusal,
            mask,
            count,
        }
    }

    #[inline(never)]
    #[allow(clippy::too_many_arguments)]
    pub unsafe extern "C" fn write_byte(
        s: *mut State,
        vram: *mut u16,
        vram_len: usize,
        xr: *mut u16,
        xr_len: usize,
        reg: u8,
        odd: bool,
        byte: u8,
    ) -> WriteAnswer {
        let vram = from_raw_parts_mut(vram, vram_len);
        let xr = from_raw_parts_mut(xr, xr_len);
        let (refusal, mask) = said((*s).write_byte(vram, xr, reg, odd, byte));
        WriteAnswer { refusal, mask }
    }

    #[inline(never)]
    pub unsafe extern "C" fn read_byte(
        s: *mut State,
        vram: *const u16,
        vram_len: usize,
        xr: *const u16,
        xr_len: usize,
        reg: u8,
        odd: bool,
    ) -> ReadAnswer {
        let vram = from_raw_parts(vram, vram_len);
        let xr = from_raw_parts(xr, xr_len);
        let (refusal, byte) = said((*s).read_byte(vram, xr, reg, odd));
        ReadAnswer { refusal, byte }
    }

    #[inline(never)]
    pub unsafe extern "C" fn blit_step(
        s: *mut State,
        vram: *mut u16,
        vram_len: usize,
        xr: *const u16,
        xr_len: usize,
    ) -> BlitAnswer {
        let vram = from_raw_parts_mut(vram, vram_len);
        let xr = from_raw_parts(xr, xr_len);
        blitted((*s).blit_step(vram, xr))
    }

    #[inline(never)]
    pub unsafe extern "C" fn blit_run(
        s: *mut State,
        vram: *mut u16,
        vram_len: usize,
        xr: *const u16,
        xr_len: usize,
        n: u64,
    ) -> BlitAnswer {
        let vram = from_raw_parts_mut(vram, vram_len);
        let xr = from_raw_parts(xr, xr_len);
        blitted((*s).blit_run(vram, xr, n))
    }

    #[inline(never)]
    pub unsafe extern "C" fn timer_tick(s: *mut State) -> StateAnswer {
        let (refusal, ()) = said((*s).timer_tick());
        StateAnswer { refusal }
    }

    #[inline(never)]
    pub unsafe extern "C" fn beam_step(
        s: *mut State,
        vram: *const u16,
        vram_len: usize,
        xr: *mut u16,
        xr_len: usize,
    ) -> StateAnswer {
        let vram = from_raw_parts(vram, vram_len);
        let xr = from_raw_parts_mut(xr, xr_len);
        let (refusal, ()) = said((*s).beam_step(vram, xr));
        StateAnswer { refusal }
    }

    #[inline(never)]
    pub unsafe extern "C" fn interrupt_line(s: *const State) -> LineAnswer {
        let (refusal, up) = said((*s).interrupt_line());
        LineAnswer { refusal, up }
    }

    #[inline(never)]
    pub unsafe extern "C" fn save(
        s: *const State,
        vram: *const u16,
        vram_len: usize,
        xr: *const u16,
        xr_len: usize,
        room: *mut u8,
        room_len: usize,
    ) -> SaveAnswer {
        let vram = from_raw_parts(vram, vram_len);
        let xr = from_raw_parts(xr, xr_len);
        let room = from_raw_parts_mut(room, room_len);
        let (refusal, length) = said((*s).save(vram, xr, room));
        SaveAnswer { refusal, length }
    }

    #[inline(never)]
    pub unsafe extern "C" fn load(
        s: *mut State,
        vram: *mut u16,
        vram_len: usize,
        xr: *mut u16,
        xr_len: usize,
        file: *const u8,
        file_len: usize,
    ) -> LoadAnswer {
        let vram = from_raw_parts_mut(vram, vram_len);
        let xr = from_raw_parts_mut(xr, xr_len);
        let file = from_raw_parts(file, file_len);
        let (refusal, ()) = said((*s).load(vram, xr, file));
        LoadAnswer { refusal }
    }

    #[inline(never)]
    pub unsafe extern "C" fn why(
        regs: BlitRegs,
        before: *const u16,
        before_len: usize,
        work: *mut u16,
        work_len: usize,
        address: u32,
        nibble: u32,
    ) -> WhyAnswer {
        let before = from_raw_parts(before, before_len);
        let work = from_raw_parts_mut(work, work_len);
        numbered(model::why(blit(&regs), before, work, address, nibble))
    }

    #[inline(never)]
    pub unsafe extern "C" fn grey(colour: u16) -> u8 {
        model::grey(colour)
    }

    /// A line in colours, or in levels of grey.
    #[inline(never)]
    #[allow(clippy::too_many_arguments)]
    pub unsafe extern "C" fn paint<const GREY: bool>(
        s: *const State,
        vram: *const u16,
        vram_len: usize,
        xr: *const u16,
        xr_len: usize,
        line: u32,
        pixels: *mut u16,
        pixels_len: usize,
    ) -> PaintAnswer {
        let vram = from_raw_parts(vram, vram_len);
        let xr = from_raw_parts(xr, xr_len);
        let pixels = from_raw_parts_mut(pixels, pixels_len);
        let (refusal, ()) = said(match GREY {
            false => (*s).paint(vram, xr, line, pixels),
            true => (*s).paint_grey(vram, xr, line, pixels),
        });
        PaintAnswer { refusal }
    }
}

/// A side: its calls, the state that every round starts from, its memories, room for a file, a second
/// VRAM, and a screen.
struct Side<S> {
    calls: Calls<S>,
    start: S,
    state: S,
    vram: Vec<u16>,
    xr: Vec<u16>,
    room: Vec<u8>,
    second: Vec<u16>,
    screen: Vec<u16>,
}

impl<S: Copy> Side<S> {
    fn new<W: Work>(calls: Calls<S>, start: S, x: &xosera::Adapter, work: &W) -> Side<S> {
        Side {
            // Read as the loops will see it: which functions they call is not known there.
            calls: unsafe { std::ptr::read_volatile(&calls) },
            start,
            state: start,
            vram: x.vram.clone(),
            xr: x.xr.clone(),
            room: vec![0; work.room()],
            second: vec![0; work.second()],
            screen: vec![0; work.screen()],
        }
    }

    /// One round from the start: seconds, and a number that depends on every answer.
    fn round<W: Work>(&mut self, work: &W) -> (f64, u64) {
        let start = Instant::now();
        self.state = self.start;
        let answers = work.done_by(self);
        (start.elapsed().as_secs_f64(), answers)
    }

    fn memories_equal<T>(&self, other: &Side<T>) -> bool {
        self.vram == other.vram
            && self.xr == other.xr
            && self.room == other.room
            && self.second == other.second
            && self.screen == other.screen
    }
}

/// One round's work, the same for every side; the answers in one number.
trait Work {
    fn done_by<S>(&self, m: &mut Side<S>) -> u64;

    /// Bytes of room that it needs.
    fn room(&self) -> usize {
        0
    }

    /// Words of a second VRAM that it needs.
    fn second(&self) -> usize {
        0
    }

    /// Words of a screen that it needs.
    fn screen(&self) -> usize {
        0
    }
}

/// One run to the blit's end.
struct Run;

impl Work for Run {
    fn done_by<S>(&self, m: &mut Side<S>) -> u64 {
        let (v, vn, x, xn) = (m.vram.as_mut_ptr(), m.vram.len(), m.xr.as_ptr(), m.xr.len());
        let a = unsafe { (m.calls.blit_run)(&mut m.state, v, vn, x, xn, u64::MAX) };
        a.count << 8 | u64::from(a.mask)
    }
}

/// Single steps.
struct Steps;

impl Work for Steps {
    fn done_by<S>(&self, m: &mut Side<S>) -> u64 {
        let (v, vn, x, xn) = (m.vram.as_mut_ptr(), m.vram.len(), m.xr.as_ptr(), m.xr.len());
        let mut sum = 0;
        for _ in 0..CALLS {
            let a = unsafe { (m.calls.blit_step)(&mut m.state, v, vn, x, xn) };
            sum = mixed(sum, a.count as u8, a.mask);
        }
        sum
    }
}

/// Even and odd bytes in turn, written to one register.
struct Writes(u8);

impl Work for Writes {
    fn done_by<S>(&self, m: &mut Side<S>) -> u64 {
        let (v, vn, x, xn) = (
            m.vram.as_mut_ptr(),
            m.vram.len(),
            m.xr.as_mut_ptr(),
            m.xr.len(),
        );
        let mut sum = 0;
        for i in 0..CALLS {
            let (odd, byte) = (i % 2 == 1, i as u8);
            let a = unsafe { (m.calls.write_byte)(&mut m.state, v, vn, x, xn, self.0, odd, byte) };
            sum = mixed(sum, a.refusal, a.mask);
        }
        sum
    }
}

/// Even and odd bytes in turn, read from one register.
struct Reads(u8);

impl Work for Reads {
    fn done_by<S>(&self, m: &mut Side<S>) -> u64 {
        let (v, vn, x, xn) = (m.vram.as_ptr(), m.vram.len(), m.xr.as_ptr(), m.xr.len());
        let mut sum = 0;
        for i in 0..CALLS {
            let odd = i % 2 == 1;
            let a = unsafe { (m.calls.read_byte)(&mut m.state, v, vn, x, xn, self.0, odd) };
            sum = mixed(sum, a.refusal, a.byte);
        }
        sum
    }
}

struct Ticks;

impl Work for Ticks {
    fn done_by<S>(&self, m: &mut Side<S>) -> u64 {
        let mut refused = 0;
        for _ in 0..CALLS {
            refused += u64::from(unsafe { (m.calls.timer_tick)(&mut m.state).refusal });
        }
        refused
    }
}

/// Beam steps.
struct Beam;

impl Work for Beam {
    fn done_by<S>(&self, m: &mut Side<S>) -> u64 {
        let (v, vn, x, xn) = (m.vram.as_ptr(), m.vram.len(), m.xr.as_mut_ptr(), m.xr.len());
        let mut refused = 0;
        for _ in 0..CALLS {
            let a = unsafe { (m.calls.beam_step)(&mut m.state, v, vn, x, xn) };
            refused += u64::from(a.refusal);
        }
        refused
    }
}

/// Timer ticks, each followed by an even read of `XM_TIMER`, which saves the timer's low byte.
struct TicksRead;

impl Work for TicksRead {
    fn done_by<S>(&self, m: &mut Side<S>) -> u64 {
        let (v, vn, x, xn) = (m.vram.as_ptr(), m.vram.len(), m.xr.as_ptr(), m.xr.len());
        let mut sum = 0;
        for _ in 0..CALLS / 2 {
            sum += u64::from(unsafe { (m.calls.timer_tick)(&mut m.state).refusal });
            let a =
                unsafe { (m.calls.read_byte)(&mut m.state, v, vn, x, xn, xosera::XM_TIMER, false) };
            sum = mixed(sum, a.refusal, a.byte);
        }
        sum
    }
}

struct Lines;

impl Work for Lines {
    fn done_by<S>(&self, m: &mut Side<S>) -> u64 {
        let mut sum = 0;
        for _ in 0..CALLS {
            let a = unsafe { (m.calls.interrupt_line)(&m.state) };
            sum = mixed(sum, a.refusal, u8::from(a.up));
        }
        sum
    }
}

/// One save.
struct Save;

impl Work for Save {
    fn done_by<S>(&self, m: &mut Side<S>) -> u64 {
        let (v, vn, x, xn) = (m.vram.as_ptr(), m.vram.len(), m.xr.as_ptr(), m.xr.len());
        let (r, rn) = (m.room.as_mut_ptr(), m.room.len());
        unsafe { (m.calls.save)(&m.state, v, vn, x, xn, r, rn).length }
    }

    fn room(&self) -> usize {
        saved_bytes(VRAM_WORDS)
    }
}

/// One load of this file.
struct Load(Vec<u8>);

impl Work for Load {
    fn done_by<S>(&self, m: &mut Side<S>) -> u64 {
        let (v, vn, x, xn) = (
            m.vram.as_mut_ptr(),
            m.vram.len(),
            m.xr.as_mut_ptr(),
            m.xr.len(),
        );
        let (f, n) = (self.0.as_ptr(), self.0.len());
        u64::from(unsafe { (m.calls.load)(&mut m.state, v, vn, x, xn, f, n).refusal })
    }
}

/// Why a nibble in the middle of the target is as the blit of these registers leaves it.
struct Why(BlitRegs);

impl Work for Why {
    fn done_by<S>(&self, m: &mut Side<S>) -> u64 {
        let (v, vn) = (m.vram.as_ptr(), m.vram.len());
        let (w, wn) = (m.second.as_mut_ptr(), m.second.len());
        let address = u32::from(self.0.dst_d) ^ 0x8000;
        let a = unsafe { (m.calls.why)(self.0, v, vn, w, wn, address, 2) };
        let reasons = [a.first_mask, a.last_mask, a.colour_test];
        let reasons = reasons.iter().fold(0, |n, &yes| 2 * n + u8::from(yes));
        mixed(
            u64::from(a.line) << 32 | u64::from(a.word) << 16,
            a.fate,
            reasons,
        )
    }

    fn second(&self) -> usize {
        VRAM_WORDS
    }
}

/// A screen, line by line.
struct Paint(Tube);

impl Work for Paint {
    fn done_by<S>(&self, m: &mut Side<S>) -> u64 {
        let paint = match self.0 {
            Tube::Colour => m.calls.paint,
            Tube::Grey => m.calls.paint_grey,
        };
        let (v, vn, x, xn) = (m.vram.as_ptr(), m.vram.len(), m.xr.as_ptr(), m.xr.len());
        let mut refused = 0;
        for (line, pixels) in (0..).zip(m.screen.chunks_mut(SCREEN_WIDTH)) {
            let (p, pn) = (pixels.as_mut_ptr(), pixels.len());
            let a = unsafe { paint(&m.state, v, vn, x, xn, line, p, pn) };
            refused += u64::from(a.refusal);
        }
        refused
    }

    fn screen(&self) -> usize {
        SCREEN
    }
}

/// The levels of colours one after another.
struct Levels;

impl Work for Levels {
    fn done_by<S>(&self, m: &mut Side<S>) -> u64 {
        let mut sum = 0;
        for colour in 0..CALLS {
            let level = unsafe { (m.calls.grey)(colour as u16) };
            sum = mixed(sum, 0, level);
        }
        sum
    }
}

/// The sum with an answer's two parts in it.
fn mixed(sum: u64, upper: u8, lower: u8) -> u64 {
    sum.rotate_left(1) ^ u64::from(upper) << 8 ^ u64::from(lower)
}

/// Print the rates of the library and of the plain model, and their ratio. The rounds that the library
/// does in a second.
fn compare<W: Work>(name: &str, unit: &str, units: u64, x: &xosera::Adapter, work: W) -> f64 {
    let plain_start = typed(x.state.words()).expect("a state that a call left");
    let mut library = Side::new(LIBRARY, x.state, x, &work);
    let mut plain = Side::new(PLAIN, plain_start, x, &work);
    let mut best = [f64::MAX; 2];
    for _ in 0..ROUNDS {
        let (library_time, library_answers) = library.round(&work);
        let (plain_time, plain_answers) = plain.round(&work);
        best = [best[0].min(library_time), best[1].min(plain_time)];
        assert!(
            library_answers == plain_answers
                && *library.state.words() == words(&plain.state)
                && library.memories_equal(&plain),
            "{}: the sides differ",
            name
        );
    }
    let rate = best.map(|seconds| units as f64 / seconds / 1e6);
    println!(
        "{:<36} {:>8.1} {:>8.1} {:>7.2}  {}",
        name,
        rate[0],
        rate[1],
        rate[0] / rate[1],
        unit
    );
    1.0 / best[0]
}

/// An adapter just after the start of a blit.
fn started(ctrl: u16, source: u16, shift: u16, [lines, words]: [u16; 2]) -> xosera::Adapter {
    let mut x = xosera::Adapter::new(VRAM_WORDS);
    for (i, word) in x.vram.iter_mut().enumerate() {
        *word = (i as u16).wrapping_mul(40503) ^ (i as u16 >> 5);
    }
    let regs = [ctrl, 0, 0, 0, source, 0, 0x8000, shift, lines, words];
    for (xaddr, &word) in (0x40..).zip(&regs) {
        x.write_xr(xaddr, word)
            .expect("an idle adapter takes a blit");
    }
    x
}

/// A reset adapter that counts up at both data ports and down from 3 at every tick, with the video
/// interrupt enabled.
fn prepared() -> xosera::Adapter {
    let mut x = xosera::Adapter::new(VRAM_WORDS);
    for (reg, word) in [
        (xosera::XM_WR_INCR, 1),
        (xosera::XM_RD_INCR, 1),
        (xosera::XM_WR_XADDR, 0x4000),
        (xosera::XM_TIMER, 3),
        (xosera::XM_INT_CTRL, 0x1000),
    ] {
        x.write_word(reg, word)
            .expect("a reset adapter takes a word");
    }
    x
}

fn main() {
    if cfg!(debug_assertions) {
        eprintln!("built without --profile bench: the figures mean nothing");
    }
    println!(
        "{:<36} {:>8} {:>8} {:>7}",
        "millions a second", "library", "plain", "ratio"
    );
    let busy = blits();
    let x = prepared();
    bytes(&x);
    compare("timer ticks", "Mcalls/s", CALLS, &x, Ticks);
    compare("ticks and even reads", "Mcalls/s", CALLS, &x, TicksRead);
    beam_steps(&x);
    let mut up = x;
    up.write_xr(0x03, 0).expect("a word that sets status bit 4");
    compare("interrupt line questions", "Mcalls/s", CALLS, &up, Lines);

    let file = busy.saved().expect("an adapter that calls left");
    compare("a save", "Mwords/s", FILE_WORDS, &busy, Save);
    compare("a load", "Mwords/s", FILE_WORDS, &up, Load(file));
    screens(busy);
}

/// Runs, single steps, and why a nibble is as it is. An adapter with a blit running.
fn blits() -> xosera::Adapter {
    let blits = [
        ("plain copy", started(0x0000, 0x0000, 0xFF00, WIDE)),
        (
            "shift and colour test",
            started(0x0010, 0x0000, 0x7801, WIDE),
        ),
        ("constant fill", started(0x0001, 0x1234, 0xFF00, WIDE)),
    ];
    for (name, x) in &blits {
        compare(&format!("one run, {}", name), "Mwords/s", WORDS, x, Run);
    }
    let narrow = started(0x0000, 0x0000, 0x7E00, NARROW);
    let name = "one run, lines of two words";
    compare(name, "Mwords/s", WORDS, &narrow, Run);
    for (name, x) in &blits {
        let name = format!("single steps, {}", name);
        compare(&name, "Mwords/s", CALLS, x, Steps);
    }
    for (name, x) in &blits {
        let name = format!("why, {}", name);
        compare(&name, "Mwords/s", WORDS, x, Why(x.state.blit));
    }
    let name = "why, lines of two words";
    compare(name, "Mwords/s", WORDS, &narrow, Why(narrow.state.blit));
    let [_, (_, busy), _] = blits;
    busy
}

/// Beam steps from line 100 on, a few lines, with the copper off and with it in each of these programs.
fn beam_steps(x: &xosera::Adapter) {
    let mut x = x.clone();
    x.state.beam.line = 100;
    compare("beam steps, copper off", "Mcalls/s", CALLS, &x, Beam);
    let back = instruction(JMP, 0, 0);
    for (name, [first, second]) in [
        ("in a WAIT", [position(WAIT, 400, 0, 0), back]),
        ("MOVER and JMP", [instruction(MOVER, 0x00, 0x1234), back]),
        ("MOVEC and JMP", [instruction(MOVEC, 1000, 0x1234), back]),
    ] {
        x.xr[PROGRAM_AT..][..4].copy_from_slice(&[first, second].concat());
        x.state.video.copp_ctrl = ENABLED;
        x.state.beam.copper_running = 1;
        let name = format!("beam steps, {}", name);
        compare(&name, "Mcalls/s", CALLS, &x, Beam);
    }
}

/// Byte writes and reads.
fn bytes(x: &xosera::Adapter) {
    for (name, reg) in [
        ("XM_DATA", xosera::XM_DATA),
        ("XM_XDATA", xosera::XM_XDATA),
        ("XM_TIMER", xosera::XM_TIMER),
    ] {
        let (writes, reads) = (
            format!("byte writes to {}", name),
            format!("byte reads of {}", name),
        );
        compare(&writes, "Mcalls/s", CALLS, x, Writes(reg));
        compare(&reads, "Mcalls/s", CALLS, x, Reads(reg));
    }
}

/// A screen: its name, `GFX_CTRL`, `LINE_LEN` and window.
type Screen = (&'static str, u16, u16, [u16; 2]);

/// Painted lines, in colours and in levels, and levels by themselves.
fn screens(x: xosera::Adapter) {
    let mut x = x;
    for (i, colour) in (0..).zip(&mut x.xr[XR_COLOUR_AT..][..256]) {
        *colour = (0x0101 * i) & 0x0FFF;
    }
    let whole = [0, SCREEN_WIDTH as u16];
    let four = ("four bits", 0x0050, 160, whole);
    let eight = ("eight bits", 0x0060, 320, whole);
    let all = [
        four,
        ("four bits, twice as wide", 0x0055, 80, whole),
        eight,
        ("eight bits, twice as wide", 0x0065, 160, whole),
        ("half of it border", 0x0050, 80, [160, 480]),
        ("blank", 0x0080, 160, whole),
    ];
    let colours = painting("painting", Tube::Colour, &mut x, &all);
    let levels = painting("painting grey", Tube::Grey, &mut x, &[four, eight]);
    compare("levels of single colours", "Mcalls/s", CALLS, &x, Levels);
    println!("screens a second, library: {}", colours);
    println!("grey screens a second, library: {}", levels);
}

/// Screens of rows one after another in VRAM, a row of the table for each. How many a second the library
/// paints.
fn painting(row: &str, tube: Tube, x: &mut xosera::Adapter, screens: &[Screen]) -> String {
    let each = screens.iter().map(|&(name, gfx, length, [left, right])| {
        x.state.video.pa = [gfx, 0, 0, length, 0, 0, 0];
        (x.state.video.vid_left, x.state.video.vid_right) = (left, right);
        let row = format!("{}, {}", row, name);
        let rounds = compare(&row, "Mpixels/s", SCREEN as u64, x, Paint(tube));
        format!("{} {:.0}", name, rounds)
    });
    each.collect::<Vec<String>>().join("; ")
}
