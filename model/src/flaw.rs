//! What can be wrong with a line, and how the line would be without it.

use crate::lines::{command_of, sizes_of};

/// Things for which check 19 refuses a line.
#[derive(Clone, Copy, Debug, PartialEq, Eq, PartialOrd, Ord)]
pub enum Flaw {
    /// There is no line at all.
    EmptyText,
    /// A command is the first line.
    CommandFirst,
    /// The line with the sizes comes again.
    SecondSites,
    /// Nothing stands before the line feed.
    EmptyLine,
    /// The text ends without a line feed.
    NoLineFeed,
    CarriageReturn,
    LeadingBlank,
    TrailingBlank,
    TwoBlanks,
    /// A tab for a blank.
    Tab,
    LeadingNought,
    /// From 256 up, where one byte is the limit.
    PastOneByte,
    /// From 65,536 up, where two bytes are.
    PastTwoBytes,
    /// A number that fits once 32 bits of it are taken.
    Past32Bits,
    /// A number that fits once 64 bits of it are taken.
    Past64Bits,
    Sign,
    UpperCase,
    /// A letter of a word is another one.
    WrongLetter,
    /// The last number is missing.
    WordMissing,
    /// A word stands after the last number.
    WordTooMany,
    /// A byte that is no letter, digit or blank of any sort.
    OddByte,
}

/// The sizes that a text without any could be taken to have.
const USUAL: &[u8] = b"sites 3 commit 2 abort 2 willing 7\n";

/// All words but the numbers.
const NAMES: [&[u8]; 9] = [
    b"sites", b"commit", b"abort", b"willing", b"start", b"deliver", b"timeout", b"crash",
    b"recover",
];

/// The words of a line.
type Words = Vec<Vec<u8>>;

/// The flaws of the line that begins at a place of a text: it is bad, and would
/// be good without that flaw alone.
pub fn flaws(text: &[u8], place: usize) -> Vec<Flaw> {
    let line = lines(&text[place..]).next().unwrap_or_default();
    let is_first = place == 0;
    let is_flaw = |flaw: &Flaw| flaw.mended_line(line, is_first).is_some();
    Flaw::ALL.into_iter().filter(is_flaw).collect()
}

/// The lines of a text, their line feeds taken in; one empty line if there is
/// none.
fn lines(text: &[u8]) -> impl Iterator<Item = &[u8]> {
    let nothing = text.is_empty().then_some(text);
    let lines = text.split_inclusive(|&byte| byte == b'\n');
    nothing.into_iter().chain(lines)
}

fn is_good(line: &[u8], is_first: bool) -> bool {
    match is_first {
        true => sizes_of(line).is_some(),
        false => command_of(line).is_some(),
    }
}

/// Are all these lines good, of which there may be none but at the beginning?
fn are_good(part: &[u8], is_first: bool) -> bool {
    let is_none = part.is_empty() && !is_first;
    is_none
        || lines(part)
            .enumerate()
            .all(|(at, line)| is_good(line, is_first && at == 0))
}

impl Flaw {
    pub const ALL: [Flaw; 21] = [
        Flaw::EmptyText,
        Flaw::CommandFirst,
        Flaw::SecondSites,
        Flaw::EmptyLine,
        Flaw::NoLineFeed,
        Flaw::CarriageReturn,
        Flaw::LeadingBlank,
        Flaw::TrailingBlank,
        Flaw::TwoBlanks,
        Flaw::Tab,
        Flaw::LeadingNought,
        Flaw::PastOneByte,
        Flaw::PastTwoBytes,
        Flaw::Past32Bits,
        Flaw::Past64Bits,
        Flaw::Sign,
        Flaw::UpperCase,
        Flaw::WrongLetter,
        Flaw::WordMissing,
        Flaw::WordTooMany,
        Flaw::OddByte,
    ];

    /// A text without this flaw in its lines; a line that has another one too
    /// stays as it is.
    pub fn mended(self, text: &[u8]) -> Vec<u8> {
        let mend = |(at, line): (usize, &[u8])| {
            let mended = self.mended_line(line, at == 0);
            mended.unwrap_or_else(|| line.to_vec())
        };
        lines(text).enumerate().flat_map(mend).collect()
    }

    /// A bad line without this flaw, if it is good then.
    fn mended_line(self, line: &[u8], is_first: bool) -> Option<Vec<u8>> {
        if is_good(line, is_first) {
            return None;
        }
        let mended = self.without(line, is_first);
        are_good(&mended, is_first).then_some(mended)
    }

    /// A line without this flaw, if it has it.
    fn without(self, line: &[u8], is_first: bool) -> Vec<u8> {
        match (self, line) {
            (Flaw::EmptyText, []) => USUAL.to_vec(),
            (Flaw::CommandFirst, [_, ..]) if is_first => [USUAL, line].concat(),
            (Flaw::SecondSites, _) if is_good(line, true) => Vec::new(),
            (Flaw::EmptyLine, b"\n") if is_first => USUAL.to_vec(),
            (Flaw::EmptyLine, b"\n") => Vec::new(),
            (Flaw::NoLineFeed, _) => [line, b"\n"].concat(),
            (Flaw::CarriageReturn, _) => filtered(line, |byte| byte != b'\r'),
            (Flaw::OddByte, _) => filtered(line, |byte| !is_odd(byte)),
            (Flaw::UpperCase, _) => line.to_ascii_lowercase(),
            (Flaw::Tab, _) => line.iter().map(|&byte| untabbed(byte)).collect(),
            (_, [body @ .., b'\n']) => {
                let words = body.split(|&byte| byte == b' ').map(<[u8]>::to_vec);
                let mut line = self.without_in(words.collect()).join(&b' ');
                line.push(b'\n');
                line
            }
            _ => line.to_vec(),
        }
    }

    /// Words without this flaw, if they have it.
    fn without_in(self, mut words: Words) -> Words {
        let last = words.len() - 1;
        match self {
            Flaw::LeadingBlank => words.into_iter().skip_while(Vec::is_empty).collect(),
            Flaw::TrailingBlank => {
                let kept = words.iter().rposition(|word| !word.is_empty());
                words.truncate(kept.map_or(0, |at| at + 1));
                words
            }
            Flaw::TwoBlanks => {
                let is_kept = |at, word: &[u8]| at == 0 || at == last || !word.is_empty();
                let words = words.into_iter().enumerate();
                let words = words.filter(|(at, word)| is_kept(*at, word));
                words.map(|(_, word)| word).collect()
            }
            Flaw::WordMissing => [words, vec![b"0".to_vec()]].concat(),
            Flaw::WordTooMany if !words[last].is_empty() => {
                words.pop();
                words
            }
            _ => self.without_in_each(&words),
        }
    }

    /// Words without this flaw in any of them.
    fn without_in_each(self, words: &Words) -> Words {
        let mend = |at: usize| {
            let word = &words[at];
            let has_two_bytes =
                at > 0 && [&b"deliver"[..], b"willing"].contains(&&words[at - 1][..]);
            let mended = match (self, has_two_bytes) {
                (Flaw::LeadingNought, _) => unpadded(word),
                (Flaw::PastOneByte, false) => wrapped(word, 8),
                (Flaw::PastTwoBytes, true) => wrapped(word, 16),
                (Flaw::Past32Bits, _) => wrapped(word, 32),
                (Flaw::Past64Bits, _) => wrapped(word, 64),
                (Flaw::Sign, _) => unsigned(word),
                (Flaw::WrongLetter, _) => respelled(word),
                _ => None,
            };
            mended.unwrap_or_else(|| word.clone())
        };
        (0..words.len()).map(mend).collect()
    }
}

fn filtered(line: &[u8], is_kept: impl Fn(u8) -> bool) -> Vec<u8> {
    line.iter().copied().filter(|&byte| is_kept(byte)).collect()
}

fn is_odd(byte: u8) -> bool {
    !byte.is_ascii_graphic() && !b" \t\r\n".contains(&byte)
}

fn untabbed(byte: u8) -> u8 {
    match byte {
        b'\t' => b' ',
        _ => byte,
    }
}

/// A number of two digits or more without its leading noughts.
fn unpadded(word: &[u8]) -> Option<Vec<u8>> {
    let digits = str::from_utf8(word).ok()?;
    let is_padded = digits.len() > 1 && digits.bytes().all(|digit| digit.is_ascii_digit());
    let trimmed = digits.trim_start_matches('0');
    let kept = if trimmed.is_empty() { "0" } else { trimmed };
    is_padded.then(|| kept.into())
}

/// What is left of a number in so many bits, if it has more.
fn wrapped(word: &[u8], bits: u32) -> Option<Vec<u8>> {
    let is_number = word.iter().all(u8::is_ascii_digit);
    let is_plain = is_number && !word.is_empty() && !word.starts_with(b"0");
    let digits = str::from_utf8(word).ok().filter(|_| is_plain)?;
    let low = digits.bytes().fold(0_u64, |sum, digit| {
        sum.wrapping_mul(10).wrapping_add((digit - b'0').into())
    });
    let kept = low & (u64::MAX >> (64 - bits));
    let is_past = digits.parse() != Ok(kept);
    is_past.then(|| kept.to_string().into())
}

/// A word without the sign before it.
fn unsigned(word: &[u8]) -> Option<Vec<u8>> {
    match word {
        [b'+' | b'-', number @ ..] => Some(number.to_vec()),
        _ => None,
    }
}

/// The name that has all letters but one at their places.
fn respelled(word: &[u8]) -> Option<Vec<u8>> {
    let differing = |name: &[u8]| name.iter().zip(word).filter(|(a, b)| a != b).count();
    let is_near = |name: &&&[u8]| name.len() == word.len() && differing(name) == 1;
    NAMES.iter().find(is_near).map(|name| name.to_vec())
}
