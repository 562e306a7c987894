//! Two sides, the same call for both, and every byte of both answers.

use std::collections::BTreeMap;

use model::calls::{Calls, RESULT_BYTES};
use model::generate::Call;
use model::layout::{encode, WORLD_BYTES};
use model::meeting::{is_over_limit, meetings, misweighed, Meeting};
use model::opening::{openings, Opening};
use model::row::{ROW_BYTES, STORE_BYTES};
use model::tally::{Day, Tally};
use model::{number, Ask, Header, Numbers, World};

/// The number that both sides gave, or what differs.
pub type Agreed = Result<u32, String>;

/// Lengths of the buffers lent to a list call.
#[derive(Clone, Copy)]
pub struct Lengths {
    pub store: usize,
    pub world: usize,
    pub result: usize,
}

pub const USUAL: Lengths = Lengths {
    store: STORE_BYTES,
    world: WORLD_BYTES,
    result: RESULT_BYTES,
};

/// The buffers that playing writes, and those that reporting does.
pub const PLAYED: [&str; 3] = ["store", "world", "result"];
const REPORTED: [&str; 2] = ["buffer", "result"];

/// The numbers at which a list is not begun: the world of zeros, no events and
/// place 0 are written then.
const NOTHING_PLAYED: [u8; 7] = [
    number::STORE,
    number::LIST_LONG,
    number::LIST_SHORT,
    number::SITES,
    number::QUORUMS,
    number::WILLING,
    number::WEIGHT,
];

/// The world of zeros as bytes: the layout's number, and nothing else.
const ZEROS: [u8; WORLD_BYTES] = {
    let mut bytes = [0; WORLD_BYTES];
    bytes[0] = 3;
    bytes
};

/// Longest list of which the shortest differing part is looked for.
const SHORTENED: usize = 4_000;
/// A list of which more bytes than this are played is one of the longer ones.
const LONGER: usize = 1_500;

pub struct Comparer<'a> {
    library: &'a dyn Calls,
    model: &'a dyn Calls,
    /// How often each number was given.
    pub numbers: BTreeMap<u32, usize>,
    /// How often each directed clause was hit.
    pub clauses: BTreeMap<&'static str, usize>,
    /// How often a generated call met each thing about the news, the sender and the
    /// weights.
    pub meetings: BTreeMap<Meeting, usize>,
    /// Generated reports that were refused for the news alone.
    pub over_limit: usize,
    /// How often a list's header was each thing.
    pub openings: BTreeMap<Opening, usize>,
    /// How often a generated report was refused for each thing about the weights
    /// alone.
    pub misweighed: BTreeMap<Meeting, usize>,
    /// What the lists led to that were played on the usual buffers.
    pub tally: Tally,
    /// The same for the longer ones alone.
    pub longer: Tally,
    pub lists: usize,
    pub calls: usize,
    pub reports: usize,
    salt: usize,
}

impl<'a> Comparer<'a> {
    pub fn new(library: &'a dyn Calls, model: &'a dyn Calls) -> Comparer<'a> {
        Comparer {
            library,
            model,
            numbers: BTreeMap::new(),
            clauses: BTreeMap::new(),
            meetings: BTreeMap::new(),
            over_limit: 0,
            openings: BTreeMap::new(),
            misweighed: BTreeMap::new(),
            tally: Tally::default(),
            longer: Tally::default(),
            lists: 0,
            calls: 0,
            reports: 0,
            salt: 0,
        }
    }

    /// A list on buffers of the usual lengths.
    pub fn list(&mut self, list: &[u8]) -> Agreed {
        let number = self.list_with(list, USUAL)?;
        let day = Day::watch(list);
        if number != u32::from(day.played.number) {
            return Err(format!("list {} watched differs\n", hex(list)));
        }
        for opening in openings(list) {
            *self.openings.entry(opening).or_default() += 1;
        }
        self.tally.add(list, &day);
        if day.played.place > LONGER {
            self.longer.add(list, &day);
        }
        Ok(number)
    }

    /// A list on buffers of any lengths, filled with a pattern before.
    pub fn list_with(&mut self, list: &[u8], lengths: Lengths) -> Agreed {
        self.lists += 1;
        self.salt += 1;
        let number = self.try_list(list, lengths).map_err(|why| {
            let part = self.shortest(list, lengths);
            format!("list {}\n{why}shortest part {}\n", hex(list), hex(part))
        })?;
        Ok(self.count(number))
    }

    fn try_list(&self, list: &[u8], lengths: Lengths) -> Agreed {
        let start = [lengths.store, lengths.world, lengths.result].map(|size| self.pattern(size));
        let play = |side: &dyn Calls| {
            let mut after = start.clone();
            let [store, world, result] = &mut after;
            let number = side.play_list(list, store, world, result);
            (number, after)
        };
        let (number, after) = same("list", PLAYED, play(self.library), play(self.model))?;
        if lengths.world != WORLD_BYTES || lengths.result != RESULT_BYTES {
            return untouched(&after, &start, number);
        }
        if NOTHING_PLAYED.map(u32::from).contains(&number) {
            let [store, ..] = start;
            return untouched(
                &after,
                &[store, ZEROS.into(), vec![0; RESULT_BYTES]],
                number,
            );
        }
        let [store, world, _] = &after;
        let used = value(&world[8..10]) * ROW_BYTES;
        if store[used..] != start[0][used..] {
            return Err("store changed beyond the last row\n".into());
        }
        Ok(number)
    }

    /// The shortest first part of a list that differs already.
    fn shortest<'b>(&self, list: &'b [u8], lengths: Lengths) -> &'b [u8] {
        let ends = 0..list.len().min(SHORTENED);
        ends.map(|end| &list[..end])
            .find(|part| self.try_list(part, lengths).is_err())
            .unwrap_or(list)
    }

    /// One command. A refusal must leave every buffer.
    pub fn command(&mut self, world: &[u8], store: &[u8], ask: Ask, result: usize) -> Agreed {
        self.calls += 1;
        self.salt += 1;
        let start = [store.to_vec(), world.to_vec(), self.pattern(result)];
        let play = |side: &dyn Calls| {
            let mut after = start.clone();
            let [store, world, result] = &mut after;
            let number = side.play_command(world, store, ask, result);
            (number, after)
        };
        let seen = same("command", PLAYED, play(self.library), play(self.model)).and_then(
            |(number, after)| match number {
                0 => Ok(0),
                _ => untouched(&after, &start, number),
            },
        );
        let number = seen.map_err(|why| {
            let (list, world) = (hex(ask.list), hex(world));
            let rows = hex(&store[..store.len().min(40 * ROW_BYTES)]);
            let at = ask.at;
            format!("command in {list} at {at}\n{why}world {world}\nfirst rows {rows}\n")
        })?;
        Ok(self.count(number))
    }

    /// A generated call, with an eye on its news, its sender and the weights.
    pub fn call(&mut self, call: &Call) -> Agreed {
        let number = self.command(&call.world, &call.store, call.ask(), RESULT_BYTES)?;
        for meeting in meetings(call, number) {
            *self.meetings.entry(meeting).or_default() += 1;
        }
        Ok(number)
    }

    /// A list again, command by command, world and store handed on.
    pub fn walk(&mut self, list: &[u8]) -> Result<(), String> {
        self.follow(list, |_, _| ()).map(|_| ())
    }

    /// The same with an eye on each accepted command and the world after it. Gives
    /// the store and the world at the end.
    pub fn follow(
        &mut self,
        list: &[u8],
        mut look: impl FnMut(Ask, &[u8]),
    ) -> Result<[Vec<u8>; 2], String> {
        let mut end = [self.pattern(STORE_BYTES), vec![0; WORLD_BYTES], vec![0; 8]];
        let header = Header::of_list(list).expect("a list with a header");
        let fresh = encode(&World::fresh(header.sizes)).to_vec();
        let mut held = [end[0].clone(), fresh, vec![0; 8]];
        let [store, world, result] = &mut end;
        let number = self.library.play_list(list, store, world, result);
        let (mut place, mut events, mut stop) = (header.end, 0, 0);
        while place < list.len() && stop == 0 {
            let ask = Ask::new(list, place);
            let agreed = self.command(&held[1], &held[0], ask, RESULT_BYTES)?;
            let [store, world, result] = &mut held;
            stop = self.library.play_command(world, store, ask, result);
            if stop != agreed {
                return Err("the same call twice, two numbers\n".into());
            }
            if stop == 0 {
                look(ask, world);
                events += 1;
                place = value(result);
            }
        }
        let ended = (number, value(&end[2][..4]), value(&end[2][4..]));
        if (stop, events, place) != ended || held[..2] != end[..2] {
            return Err(format!("list {} walked differs from played\n", hex(list)));
        }
        let [store, world, _] = held;
        Ok([store, world])
    }

    /// A report into a buffer filled with a pattern.
    pub fn report(
        &mut self,
        world: &[u8],
        numbers: Numbers,
        buffer_size: usize,
        result_size: usize,
    ) -> Agreed {
        self.reports += 1;
        self.salt += 1;
        let start = [buffer_size, result_size].map(|size| self.pattern(size));
        let ask = |side: &dyn Calls| {
            let mut after = start.clone();
            let [buffer, result] = &mut after;
            let number = side.report(world, numbers, buffer, result);
            (number, after)
        };
        let seen = same("report", REPORTED, ask(self.library), ask(self.model)).and_then(
            |(number, after)| match number {
                0 => ends_with_text(&after, &start),
                _ => untouched(&after, &start, number),
            },
        );
        let number = seen.map_err(|why| {
            let world = hex(world);
            format!("report {numbers:?} into {buffer_size}\n{why}world {world}\n")
        })?;
        Ok(self.count(number))
    }

    /// A report of a generated call's world, with an eye on its news and weights.
    pub fn report_of(&mut self, call: &Call, numbers: Numbers, buffer_size: usize) -> Agreed {
        let number = self.report(&call.world, numbers, buffer_size, RESULT_BYTES)?;
        if numbers.stop > number::LAST.into() {
            return Ok(number);
        }
        self.over_limit += usize::from(is_over_limit(&call.world));
        let met = misweighed(&call.world).into_iter();
        for (meeting, _) in met.filter(|&(_, is_met)| is_met) {
            *self.misweighed.entry(meeting).or_default() += 1;
        }
        Ok(number)
    }

    /// Notes that a clause was hit, with the number that is due.
    pub fn clause(&mut self, name: &'static str, wanted: u8, given: u32) -> Result<(), String> {
        if given != u32::from(wanted) {
            return Err(format!("{name}: both give {given}, {wanted} is due\n"));
        }
        *self.clauses.entry(name).or_default() += 1;
        Ok(())
    }

    fn count(&mut self, number: u32) -> u32 {
        *self.numbers.entry(number).or_default() += 1;
        number
    }

    fn pattern(&self, size: usize) -> Vec<u8> {
        pattern(size, self.salt)
    }
}

/// Bytes that are not the same from call to call, if the salt is not.
pub fn pattern(size: usize, salt: usize) -> Vec<u8> {
    (0..size).map(|at| (at * 7 + salt * 13 + 1) as u8).collect()
}

/// A number with its low byte first.
pub fn value(bytes: &[u8]) -> usize {
    let from_high = bytes.iter().rev();
    from_high.fold(0, |sum, &byte| sum << 8 | usize::from(byte))
}

/// A number, and the buffers of a call.
pub type Answer<const N: usize> = (u32, [Vec<u8>; N]);

/// The answer that both sides gave, or the first byte of each buffer that
/// differs.
pub fn same<const N: usize>(
    call: &str,
    names: [&str; N],
    library: Answer<N>,
    model: Answer<N>,
) -> Result<Answer<N>, String> {
    let mut why = String::new();
    if library.0 != model.0 {
        why += &format!("number: library {}, model {}\n", library.0, model.0);
    }
    for (name, (left, right)) in names.iter().zip(library.1.iter().zip(&model.1)) {
        if left != right {
            let at = (0..left.len()).find(|&at| left[at] != right[at]);
            let at = at.expect("buffers of one length");
            let (held, due) = (left[at], right[at]);
            why += &format!("{name} byte {at}: library {held}, model {due}\n");
        }
    }
    if !why.is_empty() {
        return Err(format!("{call} differs\n{why}"));
    }
    Ok(library)
}

/// Buffers as they were.
pub fn untouched(after: &[Vec<u8>], before: &[Vec<u8>], number: u32) -> Agreed {
    if after != before {
        return Err(format!("{number} touched a buffer\n"));
    }
    Ok(number)
}

/// Nothing changed beyond the text of a report.
fn ends_with_text([buffer, result]: &[Vec<u8>; 2], before: &[Vec<u8>; 2]) -> Agreed {
    let size = value(result);
    if buffer[size..] != before[0][size..] {
        return Err("buffer changed beyond the text\n".into());
    }
    Ok(0)
}

pub fn hex(bytes: &[u8]) -> String {
    let bytes: Vec<String> = bytes.iter().map(|byte| format!("{byte:02x}")).collect();
    bytes.join(" ")
}
