//! Form 1 of a saved adapter stays as it is: the file of one adapter, written here by the offsets of
//! docs/SAVED.md, is what the library saves, and its hash is fixed.

use xosera::{Adapter, BlitRegs, State};

/// The FNV-1a hash, of 64 bits, of that file. It never changes: another form has another file.
const HASH: u64 = 0x20BB_99F9_C5FB_4274;

/// XR memory: offset in the file, first and last XR address.
const XR_PARTS: [(usize, u16, u16); 3] = [
    (178, 0x4000, 0x53FF),
    (10_418, 0x8000, 0x81FF),
    (11_442, 0xC000, 0xC3FF),
];

fn fnv_1a(bytes: &[u8]) -> u64 {
    bytes.iter().fold(0xCBF2_9CE4_8422_2325, |hash, &byte| {
        (hash ^ u64::from(byte)).wrapping_mul(0x0000_0100_0000_01B3)
    })
}

/// The word at an address of VRAM or XR memory. No two are equal.
fn word_at(address: u16) -> u16 {
    address.wrapping_mul(0x9E37).wrapping_add(0x79B9)
}

/// A blit runs, in mid-line, and one is queued. No two fields are equal but these two flags.
fn state() -> State {
    let mut s = State::reset();
    s.host.latch = std::array::from_fn(|i| 0xA1 + i as u16);
    s.host.xr.rd_xaddr.0 = 0x4123;
    s.host.xr.wr_xaddr.0 = 0xC2D4;
    s.host.xr.rd_xdata = 0x9A8B;
    s.host.vram.rd_incr = 0x0107;
    s.host.vram.rd_addr.0 = 0xFEDC;
    s.host.vram.wr_incr = 0xFFFD;
    s.host.vram.wr_addr.0 = 0x3A5C;
    s.host.vram.rd_data = 0x6E7F;
    s.host.vram.wr_mask = 0x000B;
    s.host.timer.count = 0xF0E2;
    s.host.timer.countdown = 0x1D2C;
    s.host.timer.interval = 0x8E9D;
    s.host.timer.saved = 0x00D3;
    s.host.int_mask = 0x0059;
    s.queued = 1;
    s.status = 0x0036;
    s.engine.running = 1;
    s.engine.line = 0x2B3C;
    s.engine.word = 0x4D5E;
    s.engine.kept = 0xBEEF;
    s.engine.regs = blit(0x5061);
    s.video.vid_ctrl = 0x7182;
    s.video.copp_ctrl = 0x8001;
    s.video.aud_ctrl = 0x93A4;
    s.video.vid_left = 0x0014;
    s.video.vid_right = 0x026C;
    s.video.pa = std::array::from_fn(|i| 0xA5B0 + 0x0111 * i as u16);
    s.video.pb = std::array::from_fn(|i| 0xD7E0 + 0x0111 * i as u16);
    s.blit = blit(0xE0F1);
    s
}

/// Ten registers, each 257 more than the one before.
fn blit(ctrl: u16) -> BlitRegs {
    BlitRegs {
        ctrl,
        andc: ctrl + 0x0101,
        xor: ctrl + 0x0202,
        mod_s: ctrl + 0x0303,
        src_s: ctrl + 0x0404,
        mod_d: ctrl + 0x0505,
        dst_d: ctrl + 0x0606,
        shift: ctrl + 0x0707,
        lines: ctrl + 0x0808,
        words: ctrl + 0x0909,
    }
}

/// That state and 256 words of VRAM. XR memory is written by its addresses.
fn adapter() -> Adapter {
    let mut x = Adapter::new(256);
    for (_, first, last) in XR_PARTS {
        for address in first..=last {
            x.write_xr(address, word_at(address)).unwrap();
        }
    }
    x.vram = (0..256).map(word_at).collect();
    x.state = state();
    x
}

/// The bytes of a file, each written once.
struct Bytes(Vec<Option<u8>>);

impl Bytes {
    /// A number of so many bytes, high byte first.
    fn put(&mut self, offset: usize, bytes: usize, number: usize) {
        for i in 0..bytes {
            let byte = (number >> (8 * (bytes - 1 - i))) as u8;
            let before = self.0[offset + i].replace(byte);
            assert_eq!(before, None, "byte {} is written twice", offset + i);
        }
    }

    fn word(&mut self, offset: usize, word: u16) {
        self.put(offset, 2, usize::from(word));
    }

    fn words(&mut self, offset: usize, words: &[u16]) {
        for (i, &word) in words.iter().enumerate() {
            self.word(offset + 2 * i, word);
        }
    }

    fn blit(&mut self, offset: usize, b: &BlitRegs) {
        self.word(offset, b.ctrl);
        self.word(offset + 2, b.andc);
        self.word(offset + 4, b.xor);
        self.word(offset + 6, b.mod_s);
        self.word(offset + 8, b.src_s);
        self.word(offset + 10, b.mod_d);
        self.word(offset + 12, b.dst_d);
        self.word(offset + 14, b.shift);
        self.word(offset + 16, b.lines);
        self.word(offset + 18, b.words);
    }

    fn contents(&mut self) {
        self.put(0, 1, 3);
        self.put(1, 1, 1);
        self.put(2, 4, 28);
        self.put(6, 4, 150);
        self.put(10, 1, 2);
        self.put(11, 4, 178);
        self.put(15, 4, 13_312);
        self.put(19, 1, 3);
        self.put(20, 4, 13_490);
        self.put(24, 4, 512);
    }

    fn state(&mut self, s: &State) {
        self.words(28, &s.host.latch);
        self.word(60, s.host.xr.rd_xaddr.0);
        self.word(62, s.host.xr.wr_xaddr.0);
        self.word(64, s.host.xr.rd_xdata);
        self.word(66, s.host.vram.rd_incr);
        self.word(68, s.host.vram.rd_addr.0);
        self.word(70, s.host.vram.wr_incr);
        self.word(72, s.host.vram.wr_addr.0);
        self.word(74, s.host.vram.rd_data);
        self.word(76, s.host.vram.wr_mask);
        self.word(78, s.host.timer.count);
        self.word(80, s.host.timer.countdown);
        self.word(82, s.host.timer.interval);
        self.word(84, s.host.timer.saved);
        self.word(86, s.host.int_mask);
        self.word(88, s.queued);
        self.word(90, s.status);
        self.word(92, s.engine.running);
        self.word(94, s.engine.line);
        self.word(96, s.engine.word);
        self.word(98, s.engine.kept);
        self.blit(100, &s.engine.regs);
        self.word(120, s.video.vid_ctrl);
        self.word(122, s.video.copp_ctrl);
        self.word(124, s.video.aud_ctrl);
        self.word(126, s.video.vid_left);
        self.word(128, s.video.vid_right);
        self.words(130, &s.video.pa);
        self.words(144, &s.video.pb);
        self.blit(158, &s.blit);
    }
}

/// The adapter's file by the tables of docs/SAVED.md.
fn by_the_tables() -> Vec<u8> {
    let mut file = Bytes(vec![None; 14_002]);
    file.contents();
    file.state(&state());
    for (offset, first, last) in XR_PARTS {
        let words: Vec<u16> = (first..=last).map(word_at).collect();
        file.words(offset, &words);
    }
    for a in 0..256 {
        file.word(13_490 + 2 * usize::from(a), word_at(a));
    }
    let bytes: Option<Vec<u8>> = file.0.into_iter().collect();
    bytes.expect("every byte is written")
}

#[test]
fn form_1_is_as_it_was() {
    let file = by_the_tables();
    let hash = fnv_1a(&file);
    assert_eq!(hash, HASH, "the file's hash is {:#018X}", hash);

    let x = adapter();
    let saved = x.saved().unwrap();
    let differs = saved.iter().zip(&file).position(|(s, f)| s != f);
    assert_eq!(differs, None, "the first byte that differs");
    assert_eq!(saved.len(), file.len());
    let mut y = Adapter::new(256);
    assert_eq!(y.load(&file), Ok(()));
    assert!(y == x);
    println!(
        "saved: form 1: one adapter's file has the hash {:016X}",
        hash
    );
}

/// So no two fields can change places unseen, nor the bytes of a word.
#[test]
fn the_fields_differ() {
    let s = state();
    let mut words = s.words()[..75].to_vec();
    words.sort();
    words.dedup();
    assert_eq!(words.len(), 74, "all but the two flags");
    assert!(words.iter().all(|&word| word >> 8 != word & 0xFF));
}

#[test]
fn the_hash_is_fnv_1a() {
    assert_eq!(fnv_1a(b""), 0xCBF2_9CE4_8422_2325);
    assert_eq!(fnv_1a(b"a"), 0xAF63_DC4C_8601_EC8C);
    assert_eq!(fnv_1a(b"foobar"), 0x8594_4171_F739_67E8);
}
