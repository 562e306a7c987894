//! From lines to a list's bytes.

use super::Refusal;
use crate::command::Command;
use crate::header::{Edition, Header};
use crate::number;
use crate::sizes::Sizes;

/// Highest willing bits and row number.
const MOST_IN_TWO_BYTES: usize = 65_535;
/// Highest number of any other sort.
const MOST_IN_A_BYTE: usize = 255;
/// Digits of the highest number there is.
const MOST_DIGITS: usize = 5;

/// The list that a text spells, or a refusal by 19, 1, or 3 to 5. Commands are
/// not played.
pub fn list_spelled(text: &[u8]) -> Result<Vec<u8>, Refusal> {
    let list = spelled(text)?;
    Header::of_first_edition(&list).map_err(Refusal::at_start)?;
    Ok(list)
}

/// The bytes that the lines spell, however many and whatever the sizes are.
/// Check 19.
fn spelled(text: &[u8]) -> Result<Vec<u8>, Refusal> {
    let bad_line = |place| Refusal {
        number: number::LINE,
        place,
    };
    let mut lines = text.split_inclusive(|&byte| byte == b'\n');
    let first = lines.next().unwrap_or_default();
    let sizes = sizes_of(first).ok_or(bad_line(0))?;
    let mut list = Edition::First.header(&sizes);
    let mut place = first.len();
    for line in lines {
        command_of(line).ok_or(bad_line(place))?.push(&mut list);
        place += line.len();
    }
    Ok(list)
}

/// The sizes that a first line spells, its line feed taken in.
pub fn sizes_of(line: &[u8]) -> Option<Sizes> {
    let mut words = words(line)?;
    let n = named(&mut words, b"sites", MOST_IN_A_BYTE)?;
    let commit_quorum = named(&mut words, b"commit", MOST_IN_A_BYTE)?;
    let abort_quorum = named(&mut words, b"abort", MOST_IN_A_BYTE)?;
    let willing = named(&mut words, b"willing", MOST_IN_TWO_BYTES)? as u16;
    let sizes = Sizes::new(n, commit_quorum, abort_quorum, willing);
    words.next().is_none().then_some(sizes)
}

/// The command that any other line spells, its line feed taken in.
pub fn command_of(line: &[u8]) -> Option<Command> {
    let mut words = words(line)?;
    let command = match words.next()? {
        b"start" => Command::Start,
        b"deliver" => {
            let row = decimal(words.next()?, MOST_IN_TWO_BYTES)?;
            Command::deliver(row, decimal(words.next()?, MOST_IN_A_BYTE)?)
        }
        b"timeout" => Command::Timeout(decimal(words.next()?, MOST_IN_A_BYTE)?),
        b"crash" => Command::Crash(decimal(words.next()?, MOST_IN_A_BYTE)?),
        b"recover" => Command::Recover(decimal(words.next()?, MOST_IN_A_BYTE)?),
        _ => return None,
    };
    words.next().is_none().then_some(command)
}

/// What stands between the blanks of a line; two blanks have an empty word
/// between them. None if there is no line feed at its end.
fn words(line: &[u8]) -> Option<impl Iterator<Item = &[u8]>> {
    let line = line.strip_suffix(b"\n")?;
    Some(line.split(|&byte| byte == b' '))
}

/// The number after this name.
fn named<'a>(
    words: &mut impl Iterator<Item = &'a [u8]>,
    name: &[u8],
    most: usize,
) -> Option<usize> {
    (words.next()? == name).then_some(())?;
    decimal(words.next()?, most)
}

/// A decimal number without leading noughts; none if it is past the most.
fn decimal(word: &[u8], most: usize) -> Option<usize> {
    let is_plain = match word {
        [] => false,
        [b'0', rest @ ..] => rest.is_empty(),
        _ => word.len() <= MOST_DIGITS && word.iter().all(u8::is_ascii_digit),
    };
    if !is_plain {
        return None;
    }
    let tens = |sum, &digit: &u8| 10 * sum + usize::from(digit - b'0');
    let number = word.iter().fold(0, tens);
    (number <= most).then_some(number)
}
