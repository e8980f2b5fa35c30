//! The library's structs, field by field, and the main registers' numbers.

pub const XM_SYS_CTRL: u8 = 0;
pub const XM_INT_CTRL: u8 = 1;
pub const XM_TIMER: u8 = 2;
pub const XM_RD_XADDR: u8 = 3;
pub const XM_WR_XADDR: u8 = 4;
pub const XM_XDATA: u8 = 5;
pub const XM_RD_INCR: u8 = 6;
pub const XM_RD_ADDR: u8 = 7;
pub const XM_WR_INCR: u8 = 8;
pub const XM_WR_ADDR: u8 = 9;
pub const XM_DATA: u8 = 10;
pub const XM_DATA_2: u8 = 11;

/// Words of XR memory.
pub const XR_WORDS: usize = 6656;

/// Where colour memory begins in XR memory. Painted lines have the colours of its first 256 words.
pub const XR_COLOUR_AT: usize = 5120;

/// Visible lines, and the pixels of each.
pub const VISIBLE_LINES: u32 = 480;
pub const SCREEN_WIDTH: usize = 640;

/// Bytes of a saved adapter's file (docs/SAVED.md): contents, state and XR memory, then VRAM.
pub const fn saved_bytes(vram_words: usize) -> usize {
    28 + 2 * SAVED_STATE_WORDS + 2 * XR_WORDS + 2 * vram_words
}

/// An address in VRAM.
#[repr(C)]
#[derive(Clone, Copy, Debug, Default, PartialEq, Eq)]
pub struct VramAddr(pub u16);

/// An address in the XR space.
#[repr(C)]
#[derive(Clone, Copy, Debug, Default, PartialEq, Eq)]
pub struct XrAddr(pub u16);

#[repr(C)]
#[derive(Clone, Copy, Debug, Default, PartialEq, Eq)]
pub struct Timer {
    pub count: u16,
    pub countdown: u16,
    pub interval: u16,
    pub saved: u16,
}

#[repr(C)]
#[derive(Clone, Copy, Debug, Default, PartialEq, Eq)]
pub struct XrPort {
    pub rd_xaddr: XrAddr,
    pub wr_xaddr: XrAddr,
    pub rd_xdata: u16,
}

#[repr(C)]
#[derive(Clone, Copy, Debug, Default, PartialEq, Eq)]
pub struct VramPort {
    pub rd_incr: u16,
    pub rd_addr: VramAddr,
    pub wr_incr: u16,
    pub wr_addr: VramAddr,
    pub rd_data: u16,
    pub wr_mask: u16,
}

#[repr(C)]
#[derive(Clone, Copy, Debug, Default, PartialEq, Eq)]
pub struct Host {
    pub latch: [u16; 16],
    pub xr: XrPort,
    pub vram: VramPort,
    pub timer: Timer,
    pub int_mask: u16,
}

#[repr(C)]
#[derive(Clone, Copy, Debug, Default, PartialEq, Eq)]
pub struct Video {
    pub vid_ctrl: u16,
    pub copp_ctrl: u16,
    pub aud_ctrl: u16,
    pub vid_left: u16,
    pub vid_right: u16,
    pub pa: [u16; 7],
    pub pb: [u16; 7],
}

#[repr(C)]
#[derive(Clone, Copy, Debug, Default, PartialEq, Eq)]
pub struct BlitRegs {
    pub ctrl: u16,
    pub andc: u16,
    pub xor: u16,
    pub mod_s: u16,
    pub src_s: u16,
    pub mod_d: u16,
    pub dst_d: u16,
    pub shift: u16,
    pub lines: u16,
    pub words: u16,
}

impl From<[u16; 10]> for BlitRegs {
    /// The ten registers in the order of their addresses.
    fn from(regs: [u16; 10]) -> BlitRegs {
        let [ctrl, andc, xor, mod_s, src_s, mod_d, dst_d, shift, lines, words] = regs;
        BlitRegs {
            ctrl,
            andc,
            xor,
            mod_s,
            src_s,
            mod_d,
            dst_d,
            shift,
            lines,
            words,
        }
    }
}

#[repr(C)]
#[derive(Clone, Copy, Debug, Default, PartialEq, Eq)]
pub struct Engine {
    pub running: u16,
    pub line: u16,
    pub word: u16,
    pub kept: u16,
    pub regs: BlitRegs,
}

/// Where the beam is, and the copper: whether it runs, and the program address of its next instruction.
/// All 0 is called rest.
#[repr(C)]
#[derive(Clone, Copy, Debug, Default, PartialEq, Eq)]
pub struct Beam {
    pub line: u16,
    pub position: u16,
    pub copper_running: u16,
    pub copper_word: u16,
}

/// The whole state but for the memories: words, flags (0 or 1) and bytes too, and no padding.
/// [`State::reset`] makes one; `default` is all 0.
#[repr(C)]
#[derive(Clone, Copy, Debug, Default, PartialEq, Eq)]
pub struct State {
    pub host: Host,
    pub queued: u16,
    pub status: u16,
    pub engine: Engine,
    pub video: Video,
    pub blit: BlitRegs,
    pub beam: Beam,
}

/// Words of the state.
pub const STATE_WORDS: usize = 79;

/// Those of them that a saved adapter's file holds, the first: all but beam and copper.
pub const SAVED_STATE_WORDS: usize = 75;

const _: [(); 2 * STATE_WORDS] = [(); std::mem::size_of::<State>()];

impl State {
    /// The state after reset.
    pub fn reset() -> State {
        let mut s = State::default();
        crate::reset(&mut s);
        s
    }

    /// The state as its words.
    pub fn words(&self) -> &[u16; STATE_WORDS] {
        // SAFETY: the struct is `repr(C)` and all of it is `u16`, as many as the array has.
        unsafe { &*(self as *const State as *const [u16; STATE_WORDS]) }
    }

    /// The state of these words, in range or not.
    pub fn from_words(words: [u16; STATE_WORDS]) -> State {
        // SAFETY: as above, and every word is a `u16`.
        unsafe { std::mem::transmute(words) }
    }
}

/// In every answer `refusal` is 0 for done. Bit 3 of a `mask` says whether bits 15:12 of the word were
/// written, bit 0 whether 3:0 were; a write other than an odd data write has mask 0, a refused one too.
#[repr(C)]
#[derive(Clone, Copy, Debug, PartialEq, Eq)]
pub struct WriteAnswer {
    pub refusal: u8,
    pub mask: u8,
}

#[repr(C)]
#[derive(Clone, Copy, Debug, PartialEq, Eq)]
pub struct ReadAnswer {
    pub refusal: u8,
    pub byte: u8,
}

/// The words done, and the mask of the last of them, 0 if none was.
#[repr(C)]
#[derive(Clone, Copy, Debug, PartialEq, Eq)]
pub struct BlitAnswer {
    pub refusal: u8,
    pub mask: u8,
    pub count: u64,
}

#[repr(C)]
#[derive(Clone, Copy, Debug, PartialEq, Eq)]
pub struct StateAnswer {
    pub refusal: u8,
}

#[repr(C)]
#[derive(Clone, Copy, Debug, PartialEq, Eq)]
pub struct LineAnswer {
    pub refusal: u8,
    pub up: bool,
}

/// `length` is the file's in bytes, 0 if refused.
#[repr(C)]
#[derive(Clone, Copy, Debug, PartialEq, Eq)]
pub struct SaveAnswer {
    pub refusal: u8,
    pub length: u64,
}

#[repr(C)]
#[derive(Clone, Copy, Debug, PartialEq, Eq)]
pub struct LoadAnswer {
    pub refusal: u8,
}

/// `fate` is 0 if refused, 1 for a nibble never reached, 2 for one held back, with the reasons, 3 for one
/// written, with line and word. What does not belong to the fate is 0.
#[repr(C)]
#[derive(Clone, Copy, Debug, Default, PartialEq, Eq)]
pub struct WhyAnswer {
    pub refusal: u8,
    pub fate: u8,
    pub first_mask: bool,
    pub last_mask: bool,
    pub colour_test: bool,
    pub line: u16,
    pub word: u16,
}

#[repr(C)]
#[derive(Clone, Copy, Debug, PartialEq, Eq)]
pub struct PaintAnswer {
    pub refusal: u8,
}
