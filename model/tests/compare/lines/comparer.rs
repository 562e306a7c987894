//! The two calls on lines: the same call for both sides, and every byte of both
//! answers.

use std::collections::BTreeMap;

use model::calls::{Calls, LINES_RESULT_BYTES};
use model::flaw::{flaws, Flaw};
use model::lines::{list_spelled, text_of};
use model::number;

use crate::comparer::{hex, pattern, same, untouched, value};

/// The buffers that a call on lines writes.
const BUFFERS: [&str; 2] = ["buffer", "result"];
/// Longest input that is shown whole where it differs.
const SHOWN: usize = 2_000;

/// One of the two calls.
#[derive(Clone, Copy, Debug, PartialEq, Eq, PartialOrd, Ord)]
pub enum Way {
    Write,
    Read,
}

impl Way {
    fn call(self, side: &dyn Calls, input: &[u8], buffer: &mut [u8], result: &mut [u8]) -> u32 {
        match self {
            Way::Write => side.write_lines(input, buffer, result),
            Way::Read => side.read_lines(input, buffer, result),
        }
    }

    /// The call that undoes this one.
    pub fn back(self) -> Way {
        match self {
            Way::Write => Way::Read,
            Way::Read => Way::Write,
        }
    }

    /// How much room the output takes, if there is any output.
    pub fn need(self, input: &[u8]) -> Option<usize> {
        let made = match self {
            Way::Write => text_of(input),
            Way::Read => list_spelled(input),
        };
        made.ok().map(|made| made.len())
    }

    /// An input in words.
    fn show(self, input: &[u8]) -> String {
        let shown = &input[..input.len().min(SHOWN)];
        match self {
            Way::Write => hex(shown),
            Way::Read => shown.escape_ascii().to_string(),
        }
    }
}

/// What both sides gave.
#[derive(Debug, PartialEq, Eq)]
pub struct Seen {
    pub number: u32,
    pub place: usize,
    pub output: Vec<u8>,
}

pub struct LineComparer<'a> {
    library: &'a dyn Calls,
    model: &'a dyn Calls,
    /// How often each call gave each number.
    pub numbers: BTreeMap<(Way, u32), usize>,
    /// How often each directed clause was hit.
    pub clauses: BTreeMap<&'static str, usize>,
    /// How often a generated text was refused for this flaw alone.
    pub flaws: BTreeMap<Flaw, usize>,
    salt: usize,
}

impl<'a> LineComparer<'a> {
    pub fn new(library: &'a dyn Calls, model: &'a dyn Calls) -> LineComparer<'a> {
        LineComparer {
            library,
            model,
            numbers: BTreeMap::new(),
            clauses: BTreeMap::new(),
            flaws: BTreeMap::new(),
            salt: 0,
        }
    }

    /// A call on a buffer of this length, with a result of its length.
    pub fn call(&mut self, way: Way, input: &[u8], room: usize) -> Result<Seen, String> {
        self.call_with(way, input, [room, LINES_RESULT_BYTES])
    }

    /// A call on buffers of these lengths, filled with a pattern before.
    pub fn call_with(
        &mut self,
        way: Way,
        input: &[u8],
        lengths: [usize; 2],
    ) -> Result<Seen, String> {
        self.salt += 1;
        let start = lengths.map(|size| pattern(size, self.salt));
        let ask = |side: &dyn Calls| {
            let mut after = start.clone();
            let [buffer, result] = &mut after;
            let number = way.call(side, input, buffer, result);
            (number, after)
        };
        let seen = same("lines", BUFFERS, ask(self.library), ask(self.model))
            .and_then(|(number, after)| check(input, number, &after, &start));
        let seen = seen.map_err(|why| {
            let size = input.len();
            format!(
                "{way:?} {} ({size} bytes) into {lengths:?}\n{why}",
                way.show(input)
            )
        })?;
        *self.numbers.entry((way, seen.number)).or_default() += 1;
        Ok(seen)
    }

    /// A call, and what comes back from its output: the input again.
    pub fn there_and_back(&mut self, way: Way, input: &[u8], room: usize) -> Result<Seen, String> {
        let there = self.call(way, input, room)?;
        if there.number == 0 {
            let back = self.call(way.back(), &there.output, input.len())?;
            if back.number != 0 || back.output != input {
                return Err(format!("{way:?} {} does not come back\n", way.show(input)));
            }
        }
        Ok(there)
    }

    /// A generated call, with an eye on what is wrong with a text.
    pub fn drawn(&mut self, way: Way, input: &[u8], room: usize) -> Result<Seen, String> {
        let seen = self.there_and_back(way, input, room)?;
        if seen.number == number::LINE.into() {
            for flaw in flaws(input, seen.place) {
                *self.flaws.entry(flaw).or_default() += 1;
            }
        }
        Ok(seen)
    }

    /// Notes that a clause was hit, with the number and the place that are due.
    pub fn clause(
        &mut self,
        name: &'static str,
        wanted: (u8, usize),
        seen: &Seen,
    ) -> Result<(), String> {
        let given = (seen.number, seen.place);
        if given != (wanted.0.into(), wanted.1) {
            return Err(format!("{name}: both give {given:?}, {wanted:?} is due\n"));
        }
        *self.clauses.entry(name).or_default() += 1;
        Ok(())
    }

    /// How many calls were made.
    pub fn calls(&self, way: Way) -> usize {
        let counts = self.numbers.iter().filter(|((made, _), _)| *made == way);
        counts.map(|(_, count)| count).sum()
    }
}

/// What holds of every answer: 17 is for results of other lengths and touches
/// nothing.
fn check(
    input: &[u8],
    number: u32,
    after: &[Vec<u8>; 2],
    start: &[Vec<u8>; 2],
) -> Result<Seen, String> {
    let size = after[1].len();
    let is_result = size == LINES_RESULT_BYTES;
    if is_result == (number == number::WORLD.into()) {
        return Err(format!("{number} for a result of {size} bytes\n"));
    }
    if is_result {
        return check_result(input, number, after, &start[0]);
    }
    untouched(after, start, number)?;
    Ok(Seen {
        number,
        place: 0,
        output: Vec::new(),
    })
}

/// What holds of an answer with a result: nothing beyond the output is changed,
/// a refusal has no output, and only some numbers have a place.
fn check_result(
    input: &[u8],
    number: u32,
    [buffer, result]: &[Vec<u8>; 2],
    before: &[u8],
) -> Result<Seen, String> {
    let (length, place) = (value(&result[..8]), value(&result[8..]));
    if length > buffer.len() || buffer[length..] != before[length..] {
        return Err(format!("{number} changed the buffer beyond {length}\n"));
    }
    let is_sound = match number as u8 {
        number::NONE => place == input.len(),
        number::COMMAND | number::CUT | number::LINE => length == 0 && place <= input.len(),
        _ => length == 0 && place == 0,
    };
    if !is_sound {
        return Err(format!("{number} has length {length}, place {place}\n"));
    }
    Ok(Seen {
        number,
        place,
        output: buffer[..length].to_vec(),
    })
}
