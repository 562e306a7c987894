//! The converter: the same call for both sides, and every byte of both answers; and both
//! lists played by both sides.

use std::collections::BTreeMap;

use model::calls::{Calls, RESULT_BYTES};
use model::layout::WORLD_BYTES;
use model::number;
use model::row::STORE_BYTES;

use super::clauses::{Check, Given, Way};
use crate::comparer::{hex, pattern, same, value, Answer};

/// The buffers that the converter writes, and those that playing does.
const BUFFERS: [&str; 2] = ["buffer", "result"];
const PLAYED: [&str; 3] = ["store", "world", "result"];
/// Longest list that is shown whole where it differs.
const SHOWN: usize = 400;

/// What both sides gave.
pub struct Seen {
    /// The clause that was due.
    pub clause: &'static str,
    pub number: u32,
    pub output: Vec<u8>,
}

/// The two sides, and what they agreed on.
pub struct Converting<'a> {
    library: &'a dyn Calls,
    model: &'a dyn Calls,
    /// How often each number was given.
    pub numbers: BTreeMap<(Way, u32), usize>,
    /// How often each clause was due.
    pub clauses: BTreeMap<(Way, &'static str), usize>,
    /// How often a check was due where a later one was met too.
    pub orders: BTreeMap<(Way, Check, Check), usize>,
    /// How often lists of each sort were made by hand.
    pub cases: BTreeMap<&'static str, usize>,
    /// How the lists ended that were converted and then played.
    pub ends: BTreeMap<u32, usize>,
    /// Their events.
    pub events: usize,
    salt: usize,
}

impl<'a> Converting<'a> {
    pub fn new(library: &'a dyn Calls, model: &'a dyn Calls) -> Converting<'a> {
        Converting {
            library,
            model,
            numbers: BTreeMap::new(),
            clauses: BTreeMap::new(),
            orders: BTreeMap::new(),
            cases: BTreeMap::new(),
            ends: BTreeMap::new(),
            events: 0,
            salt: 0,
        }
    }

    /// A call on buffers that were filled with a pattern before.
    pub fn call(&mut self, given: Given) -> Result<Seen, String> {
        self.salt += 1;
        let start = [given.room, given.result].map(|size| pattern(size, self.salt));
        let ask = |side: &dyn Calls| {
            let mut after = start.clone();
            let [buffer, result] = &mut after;
            let number = side.convert(given.list, buffer, result);
            (number, after)
        };
        let met = given.met();
        let (check, clause) = met[0];
        let due = given.due(check.number(), &start);
        let seen = same("converting", BUFFERS, ask(self.library), ask(self.model))
            .and_then(|seen| same(clause, BUFFERS, seen, due));
        let (number, [buffer, result]) = seen.map_err(|why| {
            let (list, room) = (shown(given.list), given.room);
            format!("{clause}: {list} into {room} and {}\n{why}", given.result)
        })?;
        self.count(given.way(), &met);
        let length = match check {
            Check::Accepted => value(&result[..8]),
            _ => 0,
        };
        Ok(Seen {
            clause,
            number,
            output: buffer[..length].to_vec(),
        })
    }

    /// Counts what was met; the checks of what was met later come after the first.
    fn count(&mut self, way: Way, met: &[(Check, &'static str)]) {
        let (due, clause) = met[0];
        *self.numbers.entry((way, due.number())).or_default() += 1;
        *self.clauses.entry((way, clause)).or_default() += 1;
        let later = met.iter().map(|&(check, _)| check);
        for check in later.filter(|&check| check > due && check < Check::Accepted) {
            *self.orders.entry((way, due, check)).or_default() += 1;
        }
    }

    /// A call with just the room that its output takes. One that is accepted is
    /// converted back, and both lists are played.
    pub fn there_and_back(&mut self, list: &[u8]) -> Result<Seen, String> {
        let given = Given::new(list, Given::new(list, 0).need());
        let there = self.call(given)?;
        if there.number != 0 {
            return Ok(there);
        }
        let back = self.call(Given::new(&there.output, list.len()))?;
        if back.number != 0 || back.output != list {
            return Err(format!("{} does not come back\n", shown(list)));
        }
        let alike = self.play_both(list, &there.output);
        alike.map_err(|why| format!("{} and {}\n{why}", shown(list), shown(&there.output)))?;
        Ok(there)
    }

    /// Notes that a list made by hand was accepted.
    pub fn case(&mut self, name: &'static str, seen: &Seen) -> Result<(), String> {
        if seen.number != 0 {
            return Err(format!("{name}: both give {}\n", seen.number));
        }
        *self.cases.entry(name).or_default() += 1;
        Ok(())
    }

    /// Both lists by both sides, on stores that were the same before: one as long as it
    /// must be, and one that is too short.
    fn play_both(&mut self, list: &[u8], made: &[u8]) -> Result<(), String> {
        let store = pattern(STORE_BYTES, self.salt);
        for store in [&store[..], &store[1..]] {
            let [one, other] = [list, made].map(|list| self.play(list, store));
            let (one, other) = (one?, other?);
            *self.ends.entry(one.0).or_default() += 1;
            self.events += value(&one.1[2][..4]);
            let shift = made.len() as isize - list.len() as isize;
            same("the other edition", PLAYED, other, shifted(one, shift))?;
        }
        Ok(())
    }

    /// A list by both sides.
    fn play(&self, list: &[u8], store: &[u8]) -> Result<Answer<3>, String> {
        let [world, result] = [WORLD_BYTES, RESULT_BYTES].map(|size| pattern(size, self.salt));
        let start = [store.to_vec(), world, result];
        let play = |side: &dyn Calls| {
            let mut after = start.clone();
            let [store, world, result] = &mut after;
            let number = side.play_list(list, store, world, result);
            (number, after)
        };
        same("list", PLAYED, play(self.library), play(self.model))
    }
}

/// A list's play as it must be in the other edition, whose header is so much longer:
/// the same but for the place, and for 16 that too.
fn shifted((number, mut after): Answer<3>, shift: isize) -> Answer<3> {
    if number != number::STORE.into() {
        let place = &mut after[2][4..];
        let there = value(place).wrapping_add_signed(shift) as u32;
        place.copy_from_slice(&there.to_le_bytes());
    }
    (number, after)
}

/// A list in words.
fn shown(list: &[u8]) -> String {
    let size = list.len();
    format!("{} ({size} bytes)", hex(&list[..size.min(SHOWN)]))
}
