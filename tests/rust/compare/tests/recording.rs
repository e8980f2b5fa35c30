//! Recorded sessions (docs/RECORDING.md) read, and played on the library and on the plain Rust model:
//! the page's example and the files of tests/recordings; then files that were changed.

use std::fs;
use std::ops::Range;
use std::path::{Path, PathBuf};

use compare::fields;
use compare::pair::Said;
use compare::recording::{Asked, Line, Reader, Words};
use compare::session::{play, Library, Plain, Played, Side, Stopped};
use xosera::{Adapter, State, STATE_WORDS};

const PAGE: &str = include_str!("../../../../docs/RECORDING.md");

/// The page's example.
fn example() -> String {
    let block = PAGE.lines().skip_while(|line| *line != "```text").skip(1);
    let lines = block.take_while(|line| *line != "```");
    lines.map(|line| format!("{}\n", line)).collect()
}

/// The files of tests/recordings by name.
fn recordings() -> Vec<PathBuf> {
    let folder = Path::new(env!("CARGO_MANIFEST_DIR")).join("../../recordings");
    let entries = fs::read_dir(folder).expect("tests/recordings");
    let mut paths: Vec<PathBuf> = entries.map(|entry| entry.unwrap().path()).collect();
    paths.sort();
    paths
}

fn recording(name: &str) -> String {
    let mut paths = recordings().into_iter();
    let path = paths.find(|path| path.ends_with(name)).expect(name);
    fs::read_to_string(path).expect(name)
}

/// Played on both, with the same end.
fn on_both(file: &[u8]) -> Result<Played, Stopped> {
    let library = play(file, &mut Library);
    let plain = play(file, &mut Plain);
    let text = |outcome: &Result<Played, Stopped>| match outcome {
        Ok(played) => format!("{} calls answered as recorded", played.calls),
        Err(stopped) => stopped.to_string(),
    };
    let (of_library, of_plain) = (text(&library), text(&plain));
    assert!(library == plain, "{}; the model: {}", of_library, of_plain);
    library
}

fn played(name: &str, file: &str) -> Played {
    on_both(file.as_bytes()).unwrap_or_else(|stopped| panic!("{}: {}", name, stopped))
}

/// The lines of a file, and the file again.
fn lines(file: &str) -> Vec<String> {
    file.lines().map(str::to_string).collect()
}

fn file(lines: &[String]) -> String {
    lines.iter().map(|line| format!("{}\n", line)).collect()
}

#[test]
fn the_example_is_played_alike() {
    let example = example();
    assert!(example.starts_with("xosera recording 1\nmemory 256 6656\n"));
    let played = played("the example", &example);
    assert_eq!((played.whole, played.lines, played.calls), (true, 8, 4));
    assert_eq!(played.adapter.vram[0x10], 0x1234);
    assert_eq!(played.adapter.state.host.vram.rd_addr.0, 0x10);
}

#[test]
fn the_files_are_played_alike() {
    for path in recordings() {
        let name = path.file_name().unwrap().to_string_lossy();
        let text = fs::read_to_string(&path).unwrap();
        let played = played(&name, &text);
        assert!(played.whole, "{} has no end", name);
        println!(
            "recording: {}: {} calls in {} lines answered alike by library and model",
            name,
            played.calls,
            text.lines().count()
        );
    }
}

/// Together the files have a line of every kind, every field set and checked, and every refusal that a
/// recorded call can give.
#[test]
fn the_files_have_lines_of_every_kind() {
    let (mut kinds, mut refusals) = ([false; 12], [false; 7]);
    let (mut set, mut checked) = ([false; STATE_WORDS], [false; STATE_WORDS]);
    for path in recordings() {
        for line in Reader::new(&fs::read(path).unwrap()) {
            let (_, line) = line.unwrap();
            kinds[kind(&line)] = true;
            match line {
                Line::Call { answer, .. } => refusals[answer.refusal as usize] = true,
                Line::Set(Words::State { field, .. }) => set[field] = true,
                Line::Check(Words::State { field, .. }) => checked[field] = true,
                _ => {}
            }
        }
    }
    assert_eq!((kinds, refusals), ([true; 12], [true; 7]));
    let names = fields::names();
    let both = set
        .iter()
        .zip(&checked)
        .map(|(set, checked)| *set && *checked);
    let missing = names.iter().zip(both).filter(|(_, both)| !both);
    let missing: Vec<&String> = missing.map(|(name, _)| name).collect();
    assert!(missing.is_empty(), "not set, or not checked: {:?}", missing);
}

fn kind(line: &Line) -> usize {
    match line {
        Line::Call { asked, .. } => match asked {
            Asked::Write { .. } => 0,
            Asked::Read { .. } => 1,
            Asked::Step => 2,
            Asked::Run { .. } => 3,
            Asked::Tick { .. } => 4,
            Asked::Beam { .. } => 5,
            Asked::Line => 6,
        },
        Line::Set(_) => 7,
        Line::Check(Words::State { .. }) => 8,
        Line::Check(_) => 9,
        Line::Memory { .. } => 10,
        Line::End => 11,
    }
}

#[test]
fn the_fields_are_those_of_the_state() {
    let names = fields::names();
    let word = |name: &str| names.iter().position(|field| field == name).expect(name);
    let mut s = State::default();
    s.host.latch[3] = 1;
    s.host.vram.wr_addr.0 = 2;
    s.host.timer.interval = 3;
    s.engine.regs.xor = 4;
    s.video.pb[6] = 5;
    s.blit.words = 6;
    s.beam.copper_word = 7;
    let fields = [
        "host.latch[3]",
        "host.vram.wr_addr",
        "host.timer.interval",
        "engine.regs.xor_",
        "video.pb[6]",
        "blit.words",
        "beam.copper_word",
    ];
    for (name, number) in fields.into_iter().zip(1..) {
        assert_eq!(s.words()[word(name)], number, "{}", name);
    }
}

/// Another digit than this one.
fn other(digit: u8) -> u8 {
    match digit {
        b'9' | b'F' => digit - 1,
        _ => digit + 1,
    }
}

/// Where the answer of a line stands, or the last word that it checks.
fn answer_of(line: &str) -> Range<usize> {
    let text = line.split(" #").next().expect("a first part");
    match (text.find("= "), text.starts_with("check ")) {
        (Some(at), _) => at + 2..text.len(),
        (None, true) => text.len() - 4..text.len(),
        (None, false) => 0..0,
    }
}

/// Every digit of the answers of some lines, changed: found at its line by both. How many.
fn changes_found(name: &str, every: usize) -> usize {
    let right = lines(&recording(name));
    let mut changes = 0;
    for (i, line) in right.iter().enumerate().step_by(every) {
        let mut cut = right[..=i].to_vec();
        for at in answer_of(line).filter(|&at| line.as_bytes()[at] != b' ') {
            let mut changed = line.clone().into_bytes();
            changed[at] = other(changed[at]);
            cut[i] = String::from_utf8(changed).expect("ASCII");
            let stopped = on_both(file(&cut).as_bytes()).expect_err(&cut[i]);
            assert_eq!(stopped.line(), i + 1, "{}", stopped);
            let never = ["line", "tick", "beam"].iter().any(|l| line.starts_with(l));
            assert!(
                never || matches!(stopped, Stopped::Differs { .. }),
                "{}",
                stopped
            );
            changes += 1;
        }
    }
    changes
}

#[test]
fn a_changed_answer_is_found_at_its_line() {
    let changes = changes_found("state.recording", 1) + changes_found("drawing.recording", 97);
    println!(
        "recording: {} digits of answers changed, each found at its line",
        changes
    );
}

/// A memory that is not as the file has it is found where words of it are set or it is exchanged, or
/// at `end`.
#[test]
fn a_check_left_out_is_found() {
    for name in ["drawing.recording", "state.recording"] {
        let right = lines(&recording(name));
        let checks = ["check vram", "check xr"];
        for i in 0..right.len() {
            if checks.iter().any(|check| right[i].starts_with(check)) {
                let mut all = right.clone();
                all.remove(i);
                let stopped = on_both(file(&all).as_bytes()).expect_err(&right[i]);
                let line = &all[stopped.line() - 1];
                let there = ["vram", "xr", "memory", "end"];
                assert!(there.iter().any(|l| line.starts_with(l)), "{}", line);
                assert!(stopped.line() > i, "{}", right[i]);
                assert!(matches!(stopped, Stopped::Differs { .. }));
            }
        }
    }
}

/// The plain model with one rule changed: what is done after each call.
struct Changed<F>(F);

impl<F: FnMut(&mut Adapter, Asked, &mut Said)> Side for Changed<F> {
    fn reset(&mut self) -> State {
        Plain.reset()
    }

    fn call(&mut self, x: &mut Adapter, asked: Asked) -> Said {
        let mut said = Plain.call(x, asked);
        (self.0)(x, asked, &mut said);
        said
    }
}

/// Where the drawing stops with this rule: the line, without its comment.
fn stops(rule: impl FnMut(&mut Adapter, Asked, &mut Said)) -> String {
    let text = recording("drawing.recording");
    let stopped = play(text.as_bytes(), &mut Changed(rule)).expect_err("another rule");
    assert!(matches!(stopped, Stopped::Differs { .. }), "{}", stopped);
    let line = text.lines().nth(stopped.line() - 1).expect("its line");
    line.split(" #").next().expect("a first part").to_string()
}

/// At the first answer or word that shows it.
#[test]
fn a_changed_rule_is_found() {
    let line = stops(|_, asked, said| {
        if let Asked::Run { .. } = asked {
            said.mask ^= 1;
        }
    });
    assert!(line.starts_with("run "), "{}", line);
    let line = stops(|x, asked, _| {
        if let Asked::Tick { .. } = asked {
            x.state.host.timer.count += 1;
        }
    });
    assert!(line.starts_with("read 2 "), "{}", line);
    let line = stops(|x, asked, _| {
        if let Asked::Beam { .. } = asked {
            x.state.status &= !(1 << 4);
        }
    });
    assert!(line.starts_with("check state status "), "{}", line);
    let line = stops(|x, asked, _| {
        if let Asked::Run { .. } = asked {
            x.state.engine.kept = 0;
        }
    });
    assert!(line.starts_with("check vram "), "{}", line);
    let line = stops(|x, asked, _| {
        if let Asked::Line = asked {
            x.xr[7] = 1;
        }
    });
    assert_eq!(line, "end");
}

/// A file of these lines behind the first two, with an `end`.
fn with(lines: &str) -> String {
    format!("xosera recording 1\nmemory 256 6656\n{}\nend\n", lines)
}

/// Lines that the page allows and that go as they say.
const ALLOWED: [&str; 19] = [
    "# a comment",
    "",
    "   # blanks before it",
    "step = 0 0 0 # draw.c:57",
    "step = 0 0 0# at once",
    "step = 0 0 0   #",
    "step = 0 0 0 # \u{e9}.c:57",
    "state host.vram.wr_addr FFFF",
    "vram 00FF 0001",
    "xr 19FF 1234",
    "write 255 odd FF = 4 0",
    "run 18446744073709551615 = 0 0 0",
    "tick 0 = 0 0",
    "beam 2 = 0 2\nbeam 0 = 0 0",
    "line = 0 0",
    "memory 100 0\nread 0 even = 1 00",
    "memory 1048576 65536\nstep = 1 0 0\nvram FFFFF 0001\nxr FFFF 0001",
    "check state video.vid_right 0280",
    "vram 0000 0001\ncheck vram 0000 0001\ncheck xr 0000 0000",
];

#[test]
fn what_the_page_allows_is_read() {
    let row = format!("vram 00F0{}", " ABCD".repeat(16));
    let checked = format!("{}\ncheck {}", row, row);
    let long = format!("line = 0 0 #{}", "x".repeat(488));
    assert_eq!(long.len(), 500);
    for text in ALLOWED.iter().chain(&[&*checked, &*long]) {
        let played = played(text, &with(text));
        assert!(played.whole, "{}", text);
    }
}

/// Lines that the page does not allow, with a part of the reason.
const NOT_ALLOWED: [(&str, &str); 55] = [
    ("tick 9 = 0 8", "all are done"),
    ("beam 9 = 3 9", "all are done"),
    ("step = 0 0 0 0", "more than"),
    ("step = 0 0", "too short"),
    ("step 0 0 0", "`=`"),
    ("Step = 0 0 0", "no line begins with"),
    ("reset", "no line begins with"),
    ("end end", "more than"),
    ("step  = 0 0 0", "blank"),
    (" step = 0 0 0", "blank"),
    ("step = 0 0 0 ", "blank"),
    (" ", "blank"),
    ("step\t= 0 0 0", "no line begins with"),
    ("step = 0 0 0\r", "hexadecimal"),
    ("step = 0 0 0 \u{e9}", "ASCII"),
    ("step = 0 0 0 # \0", "a byte 0"),
    ("write 7 even 0a = 0 0", "hexadecimal"),
    ("write 7 even A = 0 0", "hexadecimal"),
    ("write 7 even 0x0A = 0 0", "hexadecimal"),
    ("write 7 even 100 = 0 0", "hexadecimal"),
    ("write 7 high 0A = 0 0", "neither"),
    ("write 256 even 0A = 0 0", "over 255"),
    ("write 07 even 0A = 0 0", "decimal"),
    ("write A even 0A = 0 0", "decimal"),
    ("write -1 even 0A = 0 0", "decimal"),
    ("write 7 even 0A = 0 f", "hexadecimal"),
    ("write 7 even 0A = 0 10", "hexadecimal"),
    ("write 7 even 0A = 256 0", "over 255"),
    ("read 7 even = 0 0", "hexadecimal"),
    ("run 18446744073709551616 = 0 0 0", "over"),
    ("tick +1 = 0 1", "decimal"),
    ("line = 0 2", "over 1"),
    ("memory 1048577 6656", "over"),
    ("memory 256 65537", "over"),
    ("memory 0256 6656", "decimal"),
    ("memory 256", "too short"),
    ("state queued 0", "hexadecimal"),
    ("state queued 00000", "hexadecimal"),
    ("state queue 0000", "no field"),
    ("state host.vram.wr_addr.word 0000", "no field"),
    ("state host.latch[16] 0000", "no field"),
    ("state host.latch[03] 0000", "no field"),
    ("check state beam 0000", "no field"),
    ("check", "too short"),
    ("check memory 256 6656", "`check memory`"),
    ("vram 0000", "too short"),
    ("vram 000 0000", "no address"),
    ("vram 00000 0000", "no address"),
    ("vram 00fF 0000", "no address"),
    ("vram 0100 0000", "beyond"),
    ("vram 00FF 0000 0000", "beyond"),
    ("xr 1A00 0000", "beyond"),
    ("xr FFFFFFFFFFFFFFFFF 0000", "beyond"),
    ("check vram 0100 0000", "beyond"),
    ("vram 0000 0000  0000", "blank"),
];

/// Each, where it stands.
#[test]
fn what_the_page_does_not_allow_is_refused() {
    let row = format!("vram 0000{}", " 0000".repeat(17));
    let long = format!("# {}", "x".repeat(499));
    let more = [(&*row, "more than 16 words"), (&*long, "longer")];
    for (line, why) in NOT_ALLOWED.iter().chain(&more) {
        is_refused(&with(line), 3, why);
        is_refused(&with(&format!("# first\nline = 0 0\n{}", line)), 5, why);
    }
}

fn is_refused(file: &str, line: usize, why: &str) {
    match on_both(file.as_bytes()) {
        Err(Stopped::Refused(refused)) => {
            assert_eq!(refused.line, line, "{}: {}", refused.why, file);
            assert!(refused.why.contains(why), "{}: {}", refused.why, file);
        }
        other => panic!("{:?}: {}", other.map(|played| played.calls), file),
    }
}

#[test]
fn lines_in_another_order_are_refused() {
    let begin = "does not begin with";
    is_refused("", 1, begin);
    is_refused("xosera recording 1", 1, begin);
    is_refused("xosera recording 2\nmemory 256 6656\nend\n", 1, begin);
    is_refused("Xosera recording 1\nmemory 256 6656\nend\n", 1, begin);
    is_refused("memory 256 6656\nend\n", 1, begin);
    is_refused("xosera recording 1\nend\n", 2, "`memory`");
    is_refused("xosera recording 1\nstep = 1 0 0\n", 2, "`memory`");
    let check = "check state status 0000";
    for line in [
        "step = 0 0 0",
        "state status 0000",
        "vram 0000 0000",
        "memory 256 6656",
    ] {
        assert!(played("check", &with(&format!("{}\n{}", check, line))).whole);
        is_refused(&with(&format!("end\n{}", line)), 4, "behind `end`");
    }
    is_refused(&with("end"), 4, "behind `end`");
    is_refused(&(with("# nothing") + "cut"), 5, "follows `end`");
    let comment = on_both((with("# nothing") + "# a comment\n\n").as_bytes());
    assert!(comment.unwrap().whole);
}

/// Without `end` a file is played to its last whole line.
#[test]
fn a_file_cut_anywhere_is_played_to_its_last_whole_line() {
    let text = example();
    let head = text.find('\n').unwrap() + 1;
    for length in head..text.len() {
        let cut = played("cut", &text[..length]);
        assert!(!cut.whole);
        let lines = text[..length].matches('\n').count();
        assert_eq!(cut.lines, lines - 1);
    }
    assert!(played("whole", &text).whole);
    let cut = text[..head].to_string() + &"x".repeat(500);
    assert!(!played("cut", &cut).whole);
    is_refused(&(cut + "x"), 2, "longer");
}
