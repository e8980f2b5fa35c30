//! Demand 3 on the library: a blit done word by word among other events ends as if it had been done
//! whole at its start.
//!
//! XOSERA_SEED=n gives an earlier run's lists again; XOSERA_LISTS=n says how many (5,000 unless set).

use compare::calls::{Calls, VRAM_LENGTHS};
use compare::pair::{on_library, Call, Said};
use compare::random::Random;
use compare::settings::{number, seed};

const BLITTER_BIT: u16 = 1 << 6;

/// `XR_COPP_CTRL` bit 15, clear throughout.
const ENABLED: u16 = 0x8000;

#[derive(Clone)]
struct Adapter {
    state: xosera::State,
    vram: Vec<u16>,
    xr: Vec<u16>,
}

impl Adapter {
    fn call(&mut self, call: Call) -> Said {
        on_library(&mut self.state, &mut self.vram, &mut self.xr, call)
    }

    fn place(&self, addr: u16) -> usize {
        addr as usize % self.vram.len()
    }
}

/// The VRAM words that a blit reads and those that it writes a nibble of, found by doing its steps
/// alone.
struct Footprint {
    reads: Vec<bool>,
    writes: Vec<bool>,
    words: u64,
}

fn footprint(started: &Adapter) -> Footprint {
    let mut x = started.clone();
    let mut f = Footprint {
        reads: vec![false; x.vram.len()],
        writes: vec![false; x.vram.len()],
        words: 0,
    };
    while x.state.engine.running == 1 {
        let regs = x.state.engine.regs;
        if regs.ctrl & 1 == 0 {
            f.reads[x.place(regs.src_s)] = true;
        }
        let target = x.place(regs.dst_d);
        let said = x.call(Call::Step);
        assert_eq!((said.refusal, said.value), (0, 1));
        f.writes[target] |= said.mask != 0;
        f.words += 1;
    }
    f
}

/// May this event stand in the list? Judged where it stands.
fn allowed(x: &Adapter, f: &Footprint, call: Call) -> bool {
    let port = &x.state.host.vram;
    let latch = |reg: u8| x.state.host.latch[reg as usize] << 8;
    match call {
        Call::Reset => false,
        Call::Write {
            reg: 5,
            odd: true,
            byte,
        } => match x.state.host.xr.wr_xaddr.0 {
            0x01 => (latch(5) | u16::from(byte)) & ENABLED == 0,
            xaddr => xaddr != 0x49,
        },
        Call::Write {
            reg: 7,
            odd: true,
            byte,
        } => !f.writes[x.place(latch(7) | u16::from(byte))],
        Call::Write {
            reg: 10, odd: true, ..
        }
        | Call::Write {
            reg: 11, odd: true, ..
        } => {
            let at = x.place(port.wr_addr.0);
            port.wr_mask == 0 || !(f.reads[at] || f.writes[at])
        }
        Call::Read { reg: 10, odd: true } | Call::Read { reg: 11, odd: true } => {
            !f.writes[x.place(port.rd_addr.0.wrapping_add(port.rd_incr))]
        }
        _ => true,
    }
}

/// What the two orders must agree on: bit 6 as read at 1, bit 13 as read at 0 and the line may differ.
fn agreed(call: Call, said: Said) -> Said {
    let free = match call {
        Call::Read { reg: 1, odd: true } => 0x40,
        Call::Read { reg: 0, odd: false } => 0x20,
        Call::Line => 1,
        _ => 0,
    };
    Said {
        value: said.value & !free,
        ..said
    }
}

/// One start and one list, in both orders. How many events it had, how many beside the blit steps, and
/// how far the beam went.
fn one_list(list: u64, seed: u64) -> [u64; 3] {
    let mut calls = Calls::new(Random::new(seed));
    let length = VRAM_LENGTHS[calls.random().below(4) as usize];
    let mut x = Adapter {
        state: calls.state_in_range(),
        vram: Vec::new(),
        xr: Vec::new(),
    };
    x.vram = (0..length).map(|_| calls.random().word()).collect();
    x.xr = (0..xosera::XR_WORDS)
        .map(|_| calls.random().word())
        .collect();

    // Any idle adapter with the copper disabled, about to start a blit of some 1 to 64 words.
    x.state.engine = xosera::Engine::default();
    x.state.queued = 0;
    x.state.video.copp_ctrl &= !ENABLED;
    x.state.beam.copper_running = 0;
    x.state.beam.copper_word = 0;
    x.state.host.xr.wr_xaddr.0 = 0x49;
    x.state.host.latch[5] = 0;
    x.state.blit.lines = calls.random().below(8) as u16 | x.state.blit.lines & 0x8000;
    let words = calls.random().below(8) as u8;
    let start = Call::Write {
        reg: 5,
        odd: true,
        byte: words,
    };
    assert_eq!(x.call(start).refusal, 0);
    let f = footprint(&x);
    assert_eq!(
        f.words,
        (u64::from(x.state.engine.regs.lines) + 1) * (u64::from(words) + 1)
    );

    // The other order: the whole blit first.
    let mut whole = x.clone();
    for _ in 0..f.words {
        whole.call(Call::Step);
    }

    let (mut steps, mut events, mut beside, mut beam) = (0u64, 0, 0, 0);
    while steps < f.words || calls.random().below(20) != 0 {
        let call = if steps < f.words && events > 200 {
            Call::Run { n: f.words }
        } else {
            calls.next(&x.state)
        };
        if !allowed(&x, &f, call) {
            continue;
        }
        events += 1;
        let said = x.call(call);
        assert_eq!(x.state.video.copp_ctrl & ENABLED, 0);
        match call {
            Call::Step => steps = steps.saturating_add(1),
            Call::Run { n } => steps = steps.saturating_add(n),
            _ => {
                beside += 1;
                if let Call::Beam { steps } = call {
                    beam += steps;
                }
                let other = whole.call(call);
                assert_eq!(
                    agreed(call, said),
                    agreed(call, other),
                    "list {}: {:?}",
                    list,
                    call
                );
            }
        }
    }
    x.state.status &= !BLITTER_BIT;
    whole.state.status &= !BLITTER_BIT;
    assert_eq!(x.state, whole.state, "list {}: the states differ", list);
    assert!(x.vram == whole.vram, "list {}: VRAM differs", list);
    assert!(x.xr == whole.xr, "list {}: XR memory differs", list);
    [events, beside, beam]
}

#[test]
fn the_order_does_not_matter() {
    let seed = seed();
    let lists = number("XOSERA_LISTS").unwrap_or(5_000);
    println!(
        "order: seed {} (XOSERA_SEED={} gives the lists again)",
        seed, seed
    );
    let mut seeds = Random::new(seed);
    let mut all = [0; 3];
    for list in 0..lists {
        let one = one_list(list, seeds.number());
        all = [0, 1, 2].map(|i| all[i] + one[i]);
    }
    println!(
        "order: {} lists, {} events, {} of them beside the blit steps, {} positions of the beam: both orders end alike",
        lists, all[0], all[1], all[2]
    );
}
