//! The names of the state's words, from the table of docs/CALLS.md.

use xosera::STATE_WORDS;

const PAGE: &str = include_str!("../../../../docs/CALLS.md");

/// The fields of `xosera_state` in the order of their words. An address, which is a struct of one
/// word in C, goes by the struct's name.
pub fn names() -> Vec<String> {
    let mut lines = PAGE.lines().skip_while(|line| *line != "## The state");
    let header = lines.any(|line| line == "| Words | Field (C) | Range |");
    assert!(header, "docs/CALLS.md has no table of the state");
    let mut names: Vec<String> = Vec::new();
    for line in lines.skip(1).take_while(|line| line.starts_with('|')) {
        let cells: Vec<&str> = line.split('|').map(str::trim).collect();
        let more = fields(cells[2], &names);
        let numbers: Vec<usize> = (names.len()..names.len() + more.len()).collect();
        assert_eq!(words(cells[1]), numbers, "{}", line);
        names.extend(more);
    }
    assert_eq!(names.len(), STATE_WORDS);
    names
}

/// The numbers of a cell as `26, 27` or `51 to 57, 58 to 64`.
fn words(cell: &str) -> Vec<usize> {
    let number = |text: &str| -> usize { text.parse().expect("the number of a word") };
    let part = |part: &str| match part.split_once(" to ") {
        Some((first, last)) => number(first)..=number(last),
        None => number(part)..=number(part),
    };
    cell.split(", ").flat_map(part).collect()
}

/// The fields of a cell. Those behind `struct`: are the struct's, and so are those behind a first one
/// that has its struct before it.
fn fields(cell: &str, before: &[String]) -> Vec<String> {
    let text = cell.replace('`', "");
    if let Some((new, old)) = text.split_once(": as ") {
        let same = before.iter().filter_map(|name| name.strip_prefix(old));
        return same.map(|name| format!("{}{}", new, name)).collect();
    }
    let (mut within, list) = match text.split_once(": ") {
        Some((within, list)) => (format!("{}.", within), list),
        None => (String::new(), text.as_str()),
    };
    let mut all = Vec::new();
    for name in list.split(", ") {
        let name = match name.ends_with("addr.word") {
            true => name.trim_end_matches(".word"),
            false => name,
        };
        all.extend(elements(&format!("{}{}", within, name)));
        if let Some((structure, _)) = name.rsplit_once('.') {
            let array = name.ends_with(']');
            within = if array {
                within
            } else {
                format!("{}.", structure)
            };
        }
    }
    all
}

/// `name[3]` is `name[0]`, `name[1]` and `name[2]`.
fn elements(name: &str) -> Vec<String> {
    match name.split_once('[') {
        None => vec![name.to_string()],
        Some((array, length)) => {
            let length: usize = length.trim_end_matches(']').parse().expect("a length");
            (0..length).map(|i| format!("{}[{}]", array, i)).collect()
        }
    }
}
