//! docs/SAVED.md held against files that the library saved: its tables row by row, its example.

use compare::calls::{Calls, VRAM_LENGTHS};
use compare::files::{with_state, STATE_AT, STATE_END};
use compare::random::Random;
use compare::settings::seed;
use xosera::{Adapter, BlitRegs, State, SAVED_STATE_WORDS, XM_DATA, XM_WR_ADDR};

const PAGE: &str = include_str!("../../../../docs/SAVED.md");

/// The page from that heading to the next one.
fn chapter(heading: &str) -> impl Iterator<Item = &'static str> {
    let mut lines = PAGE.lines();
    assert!(lines.any(|line| line == heading), "no {}", heading);
    lines.take_while(|line| !line.starts_with('#'))
}

/// The cells of the chapter's first table, whose columns these are.
fn table<const N: usize>(heading: &str, columns: [&str; N]) -> Vec<[String; N]> {
    let lines = chapter(heading).skip_while(|line| !line.starts_with('|'));
    let mut rows = lines.take_while(|line| line.starts_with('|')).map(|line| {
        let cells = line.trim_matches('|').split('|');
        let cells: Vec<String> = cells.map(|cell| cell.trim().to_string()).collect();
        <[String; N]>::try_from(cells).unwrap_or_else(|_| panic!("{} columns: {}", N, line))
    });
    assert_eq!(rows.next().expect("a table"), columns);
    assert_eq!(rows.next().expect("a rule"), [(); N].map(|()| "---"));
    rows.collect()
}

/// A number, decimal with or without commas or with 0x, or one that the length of VRAM gives.
fn number(cell: &str, vram: usize) -> usize {
    let text = cell.replace(',', "");
    let parsed = match (text.as_str(), text.strip_prefix("0x")) {
        ("2 x VRAM words", _) => return 2 * vram,
        (_, Some(hex)) => usize::from_str_radix(hex, 16),
        (decimal, None) => decimal.parse(),
    };
    parsed.unwrap_or_else(|_| panic!("no number: {}", cell))
}

/// The number that stands in these bytes, high byte first.
fn stands(bytes: &[u8]) -> usize {
    bytes.iter().fold(0, |n, &byte| n << 8 | byte as usize)
}

/// The rows go from `start` up to `end` without a gap or an overlap.
fn cover(rows: impl Iterator<Item = (usize, usize)>, start: usize, end: usize) {
    let reached = rows.fold(start, |at, (offset, bytes)| {
        assert_eq!(offset, at, "the row that should be at byte {}", at);
        at + bytes
    });
    assert_eq!(reached, end);
}

/// The word that a field names in C.
fn field<'a>(s: &'a mut State, name: &str) -> Option<&'a mut u16> {
    if let Some((array, rest)) = name.split_once('[') {
        let i: usize = rest.strip_suffix(']')?.parse().ok()?;
        return match array {
            "host.latch" => s.host.latch.get_mut(i),
            "video.pa" => s.video.pa.get_mut(i),
            "video.pb" => s.video.pb.get_mut(i),
            _ => None,
        };
    }
    if let Some(register) = name.strip_prefix("engine.regs.") {
        return blit_field(&mut s.engine.regs, register);
    }
    if let Some(register) = name.strip_prefix("blit.") {
        return blit_field(&mut s.blit, register);
    }
    Some(match name {
        "host.xr.rd_xaddr.word" => &mut s.host.xr.rd_xaddr.0,
        "host.xr.wr_xaddr.word" => &mut s.host.xr.wr_xaddr.0,
        "host.xr.rd_xdata" => &mut s.host.xr.rd_xdata,
        "host.vram.rd_incr" => &mut s.host.vram.rd_incr,
        "host.vram.rd_addr.word" => &mut s.host.vram.rd_addr.0,
        "host.vram.wr_incr" => &mut s.host.vram.wr_incr,
        "host.vram.wr_addr.word" => &mut s.host.vram.wr_addr.0,
        "host.vram.rd_data" => &mut s.host.vram.rd_data,
        "host.vram.wr_mask" => &mut s.host.vram.wr_mask,
        "host.timer.count" => &mut s.host.timer.count,
        "host.timer.countdown" => &mut s.host.timer.countdown,
        "host.timer.interval" => &mut s.host.timer.interval,
        "host.timer.saved" => &mut s.host.timer.saved,
        "host.int_mask" => &mut s.host.int_mask,
        "queued" => &mut s.queued,
        "status" => &mut s.status,
        "engine.running" => &mut s.engine.running,
        "engine.line" => &mut s.engine.line,
        "engine.word" => &mut s.engine.word,
        "engine.kept" => &mut s.engine.kept,
        "video.vid_ctrl" => &mut s.video.vid_ctrl,
        "video.copp_ctrl" => &mut s.video.copp_ctrl,
        "video.aud_ctrl" => &mut s.video.aud_ctrl,
        "video.vid_left" => &mut s.video.vid_left,
        "video.vid_right" => &mut s.video.vid_right,
        _ => return None,
    })
}

fn blit_field<'a>(regs: &'a mut BlitRegs, name: &str) -> Option<&'a mut u16> {
    Some(match name {
        "ctrl" => &mut regs.ctrl,
        "andc" => &mut regs.andc,
        "xor_" => &mut regs.xor,
        "mod_s" => &mut regs.mod_s,
        "src_s" => &mut regs.src_s,
        "mod_d" => &mut regs.mod_d,
        "dst_d" => &mut regs.dst_d,
        "shift" => &mut regs.shift,
        "lines" => &mut regs.lines,
        "words" => &mut regs.words,
        _ => return None,
    })
}

/// A row of the state's table.
struct Row {
    offset: usize,
    bytes: usize,
    field: String,
    range: String,
}

impl Row {
    fn value(&self, s: &State) -> u16 {
        let mut s = *s;
        *field(&mut s, &self.field).unwrap_or_else(|| panic!("no field {}", self.field))
    }

    /// Is the field in the range that the row gives it?
    fn in_range(&self, s: &State) -> bool {
        let value = self.value(s);
        let of = |cell: &str| {
            let name = cell
                .strip_prefix('`')
                .and_then(|cell| cell.strip_suffix('`'));
            match name {
                Some(name) => *field(&mut { *s }, name).unwrap_or_else(|| panic!("no {}", name)),
                None => u16::try_from(number(cell, 0)).expect("a word"),
            }
        };
        self.range.split("; ").all(|part| {
            let part = match part.strip_prefix("idle: ") {
                Some(_) if s.engine.running != 0 => return true,
                Some(part) => part,
                None => part,
            };
            if part == "any" || part.starts_with("see ") {
                true
            } else if part == "0" || part == "0 or 1" {
                value <= u16::from(part == "0 or 1")
            } else if let Some(most) = part.strip_prefix("at most ") {
                value <= of(most)
            } else if let Some(to) = part.strip_prefix("1 to ") {
                let most = of(to.strip_suffix(", or both 0").expect("or both 0"));
                (1..=most).contains(&value) || (value, most) == (0, 0)
            } else if let Some(at) = part.strip_prefix("0 where ") {
                let fields = at.strip_suffix(" are 0").expect("are 0");
                value == 0 || fields.split(" and ").any(|field| of(field) != 0)
            } else {
                panic!("range of {}: {}", self.field, part)
            }
        })
    }
}

fn state_rows() -> Vec<Row> {
    let columns = ["Offset", "Bytes", "Field", "Meaning", "Range"];
    let rows = table("## The state", columns).into_iter();
    rows.map(|[offset, bytes, field, _, range]| Row {
        offset: number(&offset, 0),
        bytes: number(&bytes, 0),
        field: field.trim_matches('`').to_string(),
        range,
    })
    .collect()
}

fn saved(state: State) -> Option<Vec<u8>> {
    let mut x = Adapter::new(256);
    x.state = state;
    x.saved().ok()
}

#[test]
fn the_parts_stand_where_the_page_says() {
    for vram in VRAM_LENGTHS {
        let file = Adapter::new(vram).saved().unwrap();
        let parts = table("# A saved adapter", ["Offset", "Bytes", "Part"]);
        let parts = parts
            .iter()
            .map(|[offset, bytes, _]| (number(offset, vram), number(bytes, vram)));
        cover(parts.clone(), 0, file.len());

        let contents = table("## Contents", ["Offset", "Bytes", "Value", "Meaning"]);
        let mut values = Vec::new();
        let rows = contents.iter().map(|[offset, bytes, value, _]| {
            let (offset, bytes) = (number(offset, vram), number(bytes, vram));
            values.push(number(value, vram));
            assert_eq!(stands(&file[offset..][..bytes]), *values.last().unwrap());
            (offset, bytes)
        });
        cover(rows, 0, STATE_AT);
        // Number of sections; kind, start and length of each.
        let mut named = vec![3];
        for (kind, (start, length)) in (1..).zip(parts.skip(1)) {
            named.extend([kind, start, length]);
        }
        assert_eq!(values, named);
    }
}

/// Each field alone set to a number of its own: the file changes in the row's bytes alone, and the
/// number stands there.
#[test]
fn each_field_stands_where_the_page_says() {
    let rows = state_rows();
    assert_eq!(rows.len(), SAVED_STATE_WORDS);
    cover(
        rows.iter().map(|row| (row.offset, row.bytes)),
        STATE_AT,
        STATE_END,
    );

    let idle = State::reset();
    let mut running = idle;
    running.host.timer.countdown = 1;
    running.host.timer.interval = 0xFFFF;
    running.engine.running = 1;
    (running.engine.line, running.engine.regs.lines) = (1, 0x7FFF);
    (running.engine.word, running.engine.regs.words) = (1, 0xFFFF);
    let mut queued = running;
    queued.queued = 1;
    for (n, row) in (0..).zip(&rows) {
        // The first of these numbers that the field can have, in the first state that lets it.
        let numbers = [0xC000 + n, 0x4000 + n, 0x80 + n, 0x20 + n, n % 16, 1];
        let states = [queued, running, idle];
        let tries = numbers
            .iter()
            .flat_map(|&number| states.map(|s| (number, s)));
        let found = tries.into_iter().find_map(|(number, before)| {
            let mut after = before;
            *field(&mut after, &row.field)? = number;
            let (before, after) = (saved(before)?, saved(after)?);
            (before != after).then_some((number, before, after))
        });
        let (number, before, after) = found.unwrap_or_else(|| panic!("no field {}", row.field));
        let place = row.offset..row.offset + row.bytes;
        assert_eq!(
            stands(&after[place.clone()]),
            number as usize,
            "{}",
            row.field
        );
        let mut others = (0..after.len()).filter(|at| !place.contains(at));
        assert!(others.all(|at| before[at] == after[at]), "{}", row.field);
    }
    println!(
        "saved: docs/SAVED.md: {} fields stand where it says",
        rows.len()
    );
}

/// A file is loaded exactly where every field is in the range that the page gives it.
#[test]
fn each_range_is_as_the_page_says() {
    let rows = state_rows();
    let seed = seed();
    let mut calls = Calls::new(Random::new(seed));
    let mut x = Adapter::new(256);
    let right = x.saved().unwrap();
    let (mut inside, mut outside) = (0, vec![0; rows.len()]);
    for _ in 0..40_000 {
        let s = calls.state_in_range();
        let s = match calls.random().one_in(8) {
            true => s,
            false => calls.state_out_of_range(s),
        };
        let wrong: Vec<usize> = (0..rows.len()).filter(|&i| !rows[i].in_range(&s)).collect();
        let loaded = x.load(&with_state(right.clone(), &s)).is_ok();
        assert_eq!(loaded, wrong.is_empty(), "seed {}: {:#?}", seed, s);
        inside += usize::from(loaded);
        for i in wrong {
            outside[i] += 1;
        }
    }
    assert!(inside > 1000);
    for (row, n) in rows.iter().zip(outside) {
        let free = row.range == "any" || row.range.starts_with("see ");
        assert_eq!(n == 0, free, "{}: {} times out of its range", row.field, n);
    }
}

#[test]
fn the_memories_stand_where_the_page_says() {
    let mut x = Adapter::new(256);
    let columns = ["Offset", "Bytes", "XR addresses", "Memory"];
    let rows = table("## XR memory", columns);
    let places = rows
        .iter()
        .map(|[offset, bytes, _, _]| (number(offset, 0), number(bytes, 0)));
    cover(places.clone(), STATE_END, 13_490);
    for ([_, _, addresses, _], (offset, bytes)) in rows.iter().zip(places) {
        let (first, last) = addresses.split_once(" to ").expect("first and last");
        let (first, last) = (number(first, 0), number(last, 0));
        assert_eq!(bytes, 2 * (last + 1 - first));
        for (word, at) in [
            (0x1234, first),
            (0xABCD, (first + last) / 2),
            (0xFFFE, last),
        ] {
            x.write_xr(at as u16, word).unwrap();
            let file = x.saved().unwrap();
            let place = offset + 2 * (at - first);
            assert_eq!(stands(&file[place..place + 2]), word as usize);
        }
    }
    for (a, word) in [(0, 0x1234), (1, 0xABCD), (255, 0x8001)] {
        x.write_word(XM_WR_ADDR, a).unwrap();
        x.write_word(XM_DATA, word).unwrap();
        let place = 13_490 + 2 * a as usize;
        let file = x.saved().unwrap();
        assert_eq!(stands(&file[place..place + 2]), word as usize);
    }
}

#[test]
fn the_example_is_a_reset_adapter() {
    let file = Adapter::new(256).saved().unwrap();
    let lines = chapter("## Example")
        .skip_while(|line| *line != "```")
        .skip(1);
    let mut shown = 0;
    for line in lines.take_while(|line| *line != "```") {
        let (offset, bytes) = line.split_once(' ').unwrap_or((line, ""));
        assert_eq!(offset.parse(), Ok(shown));
        for byte in bytes.split_whitespace() {
            let byte = u8::from_str_radix(byte, 16).expect("a byte");
            assert_eq!(byte, file[shown], "byte {}", shown);
            shown += 1;
        }
    }
    assert_eq!(shown, 192);
    assert!(file[shown..].iter().all(|&byte| byte == 0));
}
