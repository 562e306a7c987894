//! Texts, most often with something wrong in them.

use std::ops::Range;

use super::rng::Rng;
use super::unplayed::{any_sizes, commands, odd_sizes};
use crate::header::HEADER_BYTES;
use crate::lines::{first_line, push_line};
use crate::sizes::MAX_LIST;

/// Bytes that matter in a text, and some that never should be there.
const BYTES: &[u8] = b"\n\n\r\t\0   00129/:+-.,aeistAZ\x0b\x1f\x7f\x80\xa0\xff";

/// What stands between two line feeds, with the one at its end.
type Line = Vec<u8>;

/// Ways to damage one line, and ways to damage the text.
const LINE_DAMAGE: [fn(&mut Rng, &mut Line); 12] = [
    change_byte,
    insert_byte,
    remove_byte,
    respell_number,
    respell_number,
    respell_number,
    add_blank,
    add_at_end,
    drop_word,
    add_word,
    raise_letters,
    add_odd_byte,
];
const TEXT_DAMAGE: [fn(&mut Rng, &mut Vec<Line>); 7] = [
    double_line,
    move_first_line,
    drop_first_line,
    empty_line,
    join_lines,
    drop_last_feed,
    cut,
];

/// The lines of a list of so many bytes.
pub fn good(rng: &mut Rng, bytes: usize) -> Vec<Line> {
    let first = first_line(&any_sizes(rng));
    let others = commands(rng, bytes).into_iter().map(|command| {
        let mut line = Line::new();
        push_line(&mut line, command);
        line
    });
    [first].into_iter().chain(others).collect()
}

/// Lines of a list that is about as long as can be, with odd sizes half of the
/// time; half of the time the last line is damaged.
pub fn crowded(rng: &mut Rng) -> Vec<u8> {
    let sizes = if rng.chance(50) {
        odd_sizes(rng)
    } else {
        any_sizes(rng)
    };
    let list = MAX_LIST - 1 + rng.choose(&[0, 1, 1, 2, 2, 300]);
    let mut last = b"recover 7\n".to_vec();
    if rng.chance(50) {
        let damage = rng.choose(&LINE_DAMAGE);
        damage(rng, &mut last);
    }
    let starts = b"start\n".repeat(list - HEADER_BYTES - 2);
    [first_line(&sizes), starts, last].concat()
}

/// Damages a text: the first, the last or any line of it, or how they follow
/// each other. One that has an empty end or nothing at all is left.
pub fn damage(rng: &mut Rng, lines: &mut Vec<Line>) {
    if lines.is_empty() || lines.iter().any(Line::is_empty) {
        return;
    }
    if rng.chance(65) {
        let at = match rng.below(10) {
            0..=1 => 0,
            2 => lines.len() - 1,
            _ => rng.below(lines.len()),
        };
        let damage = rng.choose(&LINE_DAMAGE);
        damage(rng, &mut lines[at]);
    } else {
        let damage = rng.choose(&TEXT_DAMAGE);
        damage(rng, lines);
    }
}

/// Bytes that are no text, or words without sense.
pub fn senseless(rng: &mut Rng, size: usize) -> Vec<u8> {
    const WORDS: [&str; 12] = [
        "sites", "commit", "abort", "willing", "start", "deliver", "timeout", "crash", "recover",
        "0", "3", "65535",
    ];
    match rng.below(3) {
        0 => rng.bytes(size),
        1 => (0..size).map(|_| rng.choose(BYTES)).collect(),
        _ => (0..size / 4)
            .map(|_| rng.choose(&WORDS).to_owned() + rng.choose(&[" ", " ", "\n"]))
            .collect::<String>()
            .into(),
    }
}

fn change_byte(rng: &mut Rng, line: &mut Line) {
    let at = rng.below(line.len());
    line[at] = match rng.below(3) {
        0 => rng.choose(BYTES),
        1 => line[at].wrapping_add(rng.choose(&[1, 255])),
        _ => rng.draw() as u8,
    };
}

fn insert_byte(rng: &mut Rng, line: &mut Line) {
    let at = rng.below(line.len() + 1);
    line.insert(at, rng.choose(BYTES));
}

fn remove_byte(rng: &mut Rng, line: &mut Line) {
    line.remove(rng.below(line.len()));
}

/// One of the numbers is spelled otherwise, or is another one.
fn respell_number(rng: &mut Rng, line: &mut Line) {
    if let Some(place) = rng.pick(numbers(line)) {
        let word = String::from_utf8_lossy(&line[place.clone()]).into_owned();
        line.splice(place, other_number(rng, &word).into_bytes());
    }
}

/// Where the numbers of a line are.
fn numbers(line: &[u8]) -> Vec<Range<usize>> {
    let is_alike = |left: &u8, right: &u8| left.is_ascii_digit() == right.is_ascii_digit();
    let mut numbers = Vec::new();
    let mut at = 0;
    for part in line.chunk_by(is_alike) {
        if part[0].is_ascii_digit() {
            numbers.push(at..at + part.len());
        }
        at += part.len();
    }
    numbers
}

/// A word in place of a number.
fn other_number(rng: &mut Rng, word: &str) -> String {
    let value: u128 = word.parse().unwrap_or(0);
    match rng.below(8) {
        0 => format!("0{word}"),
        1 => rng.choose(&["00", "000", "", "x", "0x1", "1e1"]).into(),
        2 => format!("{}{word}", rng.choose(&["+", "-"])),
        3 => format!("{word}{}", rng.choose(&[".", ".0", ",", "0"])),
        4 => rng
            .choose(&["255", "256", "65535", "65536", "99999"])
            .into(),
        5 => (value + (1 << rng.choose(&[8, 16]))).to_string(),
        6 => (value + (1 << rng.choose(&[24, 31, 32, 63, 64, 65]))).to_string(),
        _ => {
            let digits = rng.between(4, 300);
            (0..digits).map(|_| rng.choose(&['1', '5', '9'])).collect()
        }
    }
}

/// One blank more, or something else for a blank.
fn add_blank(rng: &mut Rng, line: &mut Line) {
    let blanks = (0..line.len()).filter(|&at| line[at] == b' ');
    match (rng.below(3), rng.pick(blanks)) {
        (0, Some(at)) => line.insert(at, b' '),
        (1, Some(at)) => line[at] = b'\t',
        _ => line.insert(0, b' '),
    }
}

/// A byte before the line feed.
fn add_at_end(rng: &mut Rng, line: &mut Line) {
    let at = line.len().saturating_sub(1);
    line.insert(at, rng.choose(b"\r\r  \t0"));
}

fn drop_word(rng: &mut Rng, line: &mut Line) {
    let words: Vec<&[u8]> = line.split(|&byte| byte == b' ').collect();
    let keep = rng.below(words.len());
    *line = words[..keep].join(&b' ');
    line.push(b'\n');
}

fn add_word(rng: &mut Rng, line: &mut Line) {
    let word = rng.choose(&[" 0", " 1", " 255", " start", " #"]);
    let at = line.len().saturating_sub(1);
    line.splice(at..at, word.bytes());
}

/// One letter in upper case, or the first word.
fn raise_letters(rng: &mut Rng, line: &mut Line) {
    let letters = (0..line.len()).filter(|&at| line[at].is_ascii_lowercase());
    match (rng.chance(50), rng.pick(letters)) {
        (true, Some(at)) => line[at] = line[at].to_ascii_uppercase(),
        _ => line.make_ascii_uppercase(),
    }
}

/// Something that cannot be seen: NUL, another control, a byte order mark.
fn add_odd_byte(rng: &mut Rng, line: &mut Line) {
    let bytes = rng.choose(&[&b"\0"[..], b"\x0b", b"\x7f", b"\xc2\xa0", b"\xef\xbb\xbf"]);
    let at = rng.choose(&[0, line.len().saturating_sub(1)]);
    line.splice(at..at, bytes.iter().copied());
}

fn double_line(rng: &mut Rng, lines: &mut Vec<Line>) {
    let at = rng.below(lines.len());
    lines.insert(at, lines[at].clone());
}

/// The first line stands somewhere else, or there too.
fn move_first_line(rng: &mut Rng, lines: &mut Vec<Line>) {
    let to = rng.between(1, lines.len());
    lines.insert(to, lines[0].clone());
    if rng.chance(50) {
        lines.remove(0);
    }
}

/// Without the first line, or any line.
fn drop_first_line(rng: &mut Rng, lines: &mut Vec<Line>) {
    lines.remove(0);
    if rng.chance(25) {
        lines.clear();
    }
}

fn empty_line(rng: &mut Rng, lines: &mut Vec<Line>) {
    let at = rng.below(lines.len() + 1);
    lines.insert(at, b"\n".to_vec());
}

/// The line feed between two lines is missing, or is a blank.
fn join_lines(rng: &mut Rng, lines: &mut Vec<Line>) {
    let at = rng.below(lines.len());
    lines[at].pop();
    if rng.chance(50) {
        lines[at].push(b' ');
    }
    if at + 1 < lines.len() {
        let next = lines.remove(at + 1);
        lines[at].extend(next);
    }
}

fn drop_last_feed(_: &mut Rng, lines: &mut Vec<Line>) {
    if let Some(mut last) = lines.pop() {
        last.pop();
        lines.push(last);
    }
}

/// A line is cut, and nothing comes after it.
fn cut(rng: &mut Rng, lines: &mut Vec<Line>) {
    let at = rng.below(lines.len());
    lines.truncate(at + 1);
    let size = rng.below(lines[at].len());
    lines[at].truncate(size);
}
