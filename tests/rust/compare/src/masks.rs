//! The masks that came up in random calls, where runs ended and what was refused.

use crate::convert::typed;
use crate::pair::{Call, Said};

/// Where a run ended: with nothing to do; of one blit; of a running one and a queued one.
const ENDS: [&str; 9] = [
    "none to do",
    "in a blit",
    "at its end",
    "beyond it",
    "in the first of two",
    "at its end",
    "in the second",
    "at its end",
    "beyond it",
];

#[derive(Default)]
pub struct Masks {
    /// Odd data writes, steps and runs that did something, by their mask.
    writes: [u64; 16],
    steps: [u64; 16],
    runs: [u64; 16],
    /// Runs by `ENDS`.
    ends: [u64; 9],
    /// Steps in which the colour test held back what the edges let through, by nibbles and by bytes.
    held: [u64; 2],
    /// Odd data writes, steps and runs refused with 1, 2 and 3.
    refused: [[u64; 3]; 3],
}

impl Masks {
    /// A call that agreed on both sides.
    pub fn count(&mut self, before: &xosera::State, call: Call, said: Said) {
        let (which, by_mask) = match call {
            Call::Write {
                reg: 10 | 11,
                odd: true,
                ..
            } => (0, &mut self.writes),
            Call::Step => (1, &mut self.steps),
            Call::Run { .. } => (2, &mut self.runs),
            _ => return,
        };
        if said.refusal > 0 {
            self.refused[which][said.refusal as usize - 1] += 1;
            return;
        }
        by_mask[said.mask as usize] += u64::from(which == 0 || said.value > 0);
        match call {
            Call::Run { n } => self.ends[end(before, n)] += 1,
            Call::Step => self.count_held(&before.engine, said),
            _ => {}
        }
    }

    fn count_held(&mut self, e: &xosera::Engine, said: Said) {
        let edge = |there: bool, mask: u16| if there { mask & 15 } else { 15 };
        let first = edge(e.word == 0, e.regs.shift >> 12);
        let last = edge(e.word == e.regs.words, e.regs.shift >> 8);
        if said.value > 0 && u16::from(said.mask) != first & last {
            self.held[usize::from(e.regs.ctrl >> 5 & 1)] += 1;
        }
    }

    pub fn print(&self) {
        let least = |by_mask: &[u64; 16]| *by_mask.iter().min().unwrap();
        println!(
            "  masks      each at least: data writes {}, steps {}, runs {}; colour held back: nibbles {}, bytes {}",
            least(&self.writes),
            least(&self.steps),
            least(&self.runs),
            self.held[0],
            self.held[1]
        );
        let ends: Vec<String> = ENDS
            .iter()
            .zip(self.ends)
            .map(|(name, n)| format!("{} {}", name, n))
            .collect();
        println!("  runs       ended {}", ends.join(", "));
        println!(
            "  refused    1 to 3: data writes {:?}, steps {:?}, runs {:?}",
            self.refused[0], self.refused[1], self.refused[2]
        );
    }

    /// How often each situation came up.
    pub fn numbers(&self) -> Vec<u64> {
        let by_mask = [self.writes, self.steps, self.runs].concat();
        [
            by_mask,
            self.ends.to_vec(),
            self.held.to_vec(),
            self.refused.concat(),
        ]
        .concat()
    }
}

/// Where a run of `n` from this state ends, as a place in `ENDS`.
fn end(before: &xosera::State, n: u64) -> usize {
    use std::cmp::Ordering::{Equal, Greater, Less};
    let s = typed(before.words()).expect("a state that was not refused");
    let all = model::words_left(&s);
    let first = model::words_left(&model::State { queued: false, ..s });
    match (s.queued, n.cmp(&first), n.cmp(&all)) {
        _ if n.min(all) == 0 => 0,
        (false, Less, _) => 1,
        (false, Equal, _) => 2,
        (false, Greater, _) => 3,
        (true, Less, _) => 4,
        (true, Equal, _) => 5,
        (true, Greater, Less) => 6,
        (true, Greater, Equal) => 7,
        (true, Greater, Greater) => 8,
    }
}
