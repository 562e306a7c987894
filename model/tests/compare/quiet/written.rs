//! The list of a quiet day, written by both sides for any sizes, room and length of the
//! result, with every byte of both answers.

use std::collections::BTreeMap;

use model::calls::{Calls, LINES_RESULT_BYTES};
use model::quiet::{self, Asked};
use model::{number, Replies};

use crate::common::quiet::{cost, SITES};
use crate::comparer::{pattern, same, Answer};

/// The buffers that the call writes.
const BUFFERS: [&str; 2] = ["buffer", "result"];

/// Numbers that are something else where their low bits alone are taken.
const HUGE: [usize; 5] = [255, 256, 65_536 + 3, (1 << 32) + 3, usize::MAX];

/// Lengths of the result.
const RESULTS: [usize; 4] = [0, 15, LINES_RESULT_BYTES, 17];

/// Room for every list.
const ENOUGH: usize = 400;

/// The two sides, and what they agreed on.
pub struct Writing<'a> {
    library: &'a dyn Calls,
    model: &'a dyn Calls,
    /// How often each number was given.
    pub numbers: BTreeMap<u32, usize>,
    /// How often each clause was met.
    pub clauses: BTreeMap<&'static str, usize>,
    salt: usize,
}

impl<'a> Writing<'a> {
    pub fn new(library: &'a dyn Calls, model: &'a dyn Calls) -> Writing<'a> {
        Writing {
            library,
            model,
            numbers: BTreeMap::new(),
            clauses: BTreeMap::new(),
            salt: 0,
        }
    }

    /// A call on a buffer and a result of these lengths, filled with a pattern before.
    fn call(&mut self, asked: Asked, lengths: [usize; 2]) -> Result<(), String> {
        self.salt += 1;
        let start = lengths.map(|size| pattern(size, self.salt));
        let ask = |side: &dyn Calls| {
            let mut after = start.clone();
            let [buffer, result] = &mut after;
            let number = side.write_quiet(asked, buffer, result);
            (number, after)
        };
        let (name, number) = clause(asked, lengths);
        let seen = same("quiet list", BUFFERS, ask(self.library), ask(self.model))
            .and_then(|seen| same(name, BUFFERS, seen, due(asked, number, &start)));
        seen.map_err(|why| format!("{asked:?} into {lengths:?}\n{why}"))?;
        *self.numbers.entry(number).or_default() += 1;
        *self.clauses.entry(name).or_default() += 1;
        Ok(())
    }
}

/// The clause that comes first of those that apply, and its number.
fn clause([n, commit, abort]: Asked, [room, result]: [usize; 2]) -> (&'static str, u32) {
    let need = need(n);
    let clauses = [
        (result != 16, "quiet: 17 result length", number::WORLD),
        (n < 3, "quiet: 3 n under 3", number::SITES),
        (n > 16, "quiet: 3 n over 16", number::SITES),
        (commit >= n, "quiet: 4 C over n - 1", number::QUORUMS),
        (abort >= n, "quiet: 4 A over n - 1", number::QUORUMS),
        (
            commit <= n.saturating_sub(abort),
            "quiet: 4 C + A under n + 1",
            number::QUORUMS,
        ),
        (room < need, "quiet: 20 room short", number::ROOM),
        (room == need, "quiet: 0 exact room", number::NONE),
        (room > need, "quiet: 0 more room", number::NONE),
    ];
    let found = clauses.into_iter().find(|&(applies, ..)| applies);
    let (_, name, number) = found.expect("the last three leave nothing");
    (name, number.into())
}

/// How long the list of n sites is; for a bad n, how long the nearest one is.
fn need(n: usize) -> usize {
    cost(n.clamp(*SITES.start(), *SITES.end())).bytes
}

/// The answer that has this number, to a call on these buffers: 17 touches neither,
/// another refusal leaves the first one and says 0 and 0 in the other.
fn due(asked: Asked, number: u32, start: &[Vec<u8>; 2]) -> Answer<2> {
    let [mut buffer, mut result] = start.clone();
    if number != number::WORLD.into() {
        result.fill(0);
    }
    if number == number::NONE.into() {
        let list = quiet::list(asked, Replies::Last);
        buffer[..list.len()].copy_from_slice(&list);
        result[..8].copy_from_slice(&list.len().to_le_bytes());
    }
    (number, [buffer, result])
}

/// Small numbers up to a last one, and huge ones.
fn numbers(last: usize) -> impl Iterator<Item = usize> + Clone {
    (0..=last).chain(HUGE)
}

/// Every n from 0 to 18 and every C and A from 0 to 17, and huge ones.
fn all_sizes() -> impl Iterator<Item = Asked> {
    let pairs = numbers(17).flat_map(|commit| numbers(17).map(move |abort| (commit, abort)));
    numbers(18).flat_map(move |n| {
        let pairs = pairs.clone();
        pairs.map(move |(commit, abort)| [n, commit, abort])
    })
}

/// No room, one byte too few, just enough, one more, and enough for any list, each
/// with every length of the result.
fn all_lengths(n: usize) -> impl Iterator<Item = [usize; 2]> {
    let need = need(n);
    let rooms = [0, need - 1, need, need + 1, ENOUGH];
    rooms
        .into_iter()
        .flat_map(|room| RESULTS.map(|result| [room, result]))
}

pub fn all_written(writing: &mut Writing) -> Result<(), String> {
    for asked in all_sizes() {
        all_lengths(asked[0]).try_for_each(|lengths| writing.call(asked, lengths))?;
    }
    Ok(())
}
