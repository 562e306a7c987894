//! One step of a single site: the same call for both sides, and every byte of both
//! answers, with bytes before and behind each buffer.

use std::collections::{BTreeMap, BTreeSet};

use model::generate::{Call, StepCall};
use model::layout::{encode, CODES};
use model::meeting::{meetings, Meeting};
use model::step_call::Steps;
use model::{Input, Terms, World};

use super::clauses::{Check, Given};
use crate::comparer::{hex, pattern, same, untouched, Answer};

/// All buffers; terms and command are only read.
const BUFFERS: [&str; 5] = ["terms", "site", "command", "row", "result"];
/// Bytes on both sides of each buffer.
const AROUND: usize = 24;

/// The command, a row's kind, the site's state and its role, where a step was accepted.
type Rule = (u8, u8, u8, u8);

/// The two sides, and what they agreed on.
pub struct Stepping<'a> {
    library: &'a dyn Steps,
    model: &'a dyn Steps,
    /// How often each number was given.
    pub numbers: BTreeMap<u32, usize>,
    /// How often each clause was due.
    pub clauses: BTreeMap<&'static str, usize>,
    /// How often a check was due where a later one was met too.
    pub orders: BTreeMap<(Check, Check), usize>,
    /// How often each command wrote what.
    pub written: BTreeMap<(u8, [u8; 3]), usize>,
    /// All rules that were met.
    pub rules: BTreeSet<Rule>,
    /// How often an accepted call met each thing about the news, the sender and the
    /// weights.
    pub meetings: BTreeMap<Meeting, usize>,
    salt: usize,
}

impl<'a> Stepping<'a> {
    pub fn new(library: &'a dyn Steps, model: &'a dyn Steps) -> Stepping<'a> {
        Stepping {
            library,
            model,
            numbers: BTreeMap::new(),
            clauses: BTreeMap::new(),
            orders: BTreeMap::new(),
            written: BTreeMap::new(),
            rules: BTreeSet::new(),
            meetings: BTreeMap::new(),
            salt: 0,
        }
    }

    /// A call on buffers among other bytes. The number is the one that is due, and a refusal
    /// leaves every byte.
    pub fn call(&mut self, call: &StepCall) -> Result<u32, String> {
        self.salt += 1;
        let start = self.buffers(call);
        let take = |side: &dyn Steps| {
            let mut after = start.clone();
            let [terms, site, command, row, result] = after.each_mut().map(|buffer| inner(buffer));
            let number = side.step(terms, site, command, row, result);
            (number, after)
        };
        let met = Given(call).met();
        let (check, clause) = met[0];
        let seen = same("step", BUFFERS, take(self.library), take(self.model))
            .and_then(|seen| due(&seen, &start, check).map(|()| seen))
            .map_err(|why| format!("{clause}: {}{why}", shown(call)))?;
        self.count(call, &met, &seen);
        Ok(check.number())
    }

    /// A generated call, with an eye on what it meets.
    pub fn drawn(&mut self, call: &StepCall) -> Result<u32, String> {
        let number = self.call(call)?;
        let met = on_world(call).map_or(Vec::new(), |call| meetings(&call, number));
        for meeting in met {
            *self.meetings.entry(meeting).or_default() += 1;
        }
        Ok(number)
    }

    /// The buffers of a call, each among other bytes.
    fn buffers(&self, call: &StepCall) -> [Vec<u8>; 5] {
        let [row, result] = [call.row, call.result].map(|size| pattern(size, self.salt));
        let around = |inside: &[u8]| {
            let around = pattern(2 * AROUND, self.salt + 1);
            let (before, behind) = around.split_at(AROUND);
            [before, inside, behind].concat()
        };
        [
            around(&call.terms),
            around(&call.site),
            around(&call.command),
            around(&row),
            around(&result),
        ]
    }

    /// Counts what was met; the checks of what was met later come after the first.
    fn count(&mut self, call: &StepCall, met: &[(Check, &'static str)], seen: &Answer<5>) {
        let (due, _) = met[0];
        *self.numbers.entry(due.number()).or_default() += 1;
        for &(check, clause) in met {
            if check == due {
                *self.clauses.entry(clause).or_default() += 1;
            } else if check < Check::Accepted {
                *self.orders.entry((due, check)).or_default() += 1;
            }
        }
        if due == Check::Accepted {
            let [.., result] = &seen.1;
            let result = &result[AROUND..];
            let written = [result[0], result[1], result[2]];
            let command = call.command[0];
            *self.written.entry((command, written)).or_default() += 1;
            self.rules.insert(rule(call));
        }
    }
}

/// The part of a buffer that is handed over.
fn inner(buffer: &mut [u8]) -> &mut [u8] {
    let end = buffer.len() - AROUND;
    &mut buffer[AROUND..end]
}

/// Is this the number that is due, and is nothing touched that must not be?
fn due((number, after): &Answer<5>, start: &[Vec<u8>; 5], check: Check) -> Result<(), String> {
    if *number != check.number() {
        return Err(format!("both give {number}, {} is due\n", check.number()));
    }
    if check != Check::Accepted {
        return untouched(after, start, *number).map(|_| ());
    }
    for (at, name) in BUFFERS.iter().enumerate() {
        let (before, end) = (&start[at], start[at].len() - AROUND);
        let inside = match *name {
            "terms" | "command" => 0..0,
            _ => AROUND..end,
        };
        let outside = (0..before.len()).filter(|place| !inside.contains(place));
        if outside
            .clone()
            .any(|place| before[place] != after[at][place])
        {
            return Err(format!("{name} is changed where it must not be\n"));
        }
    }
    Ok(())
}

/// What an accepted call is of.
fn rule(call: &StepCall) -> Rule {
    let own = usize::from(call.terms[6]);
    let kind = match call.command[..] {
        [2, kind, ..] => kind,
        _ => 0,
    };
    let (state, role) = (call.site[CODES.start + own], call.site[1]);
    (call.command[0], kind, state, role)
}

/// The same call on a world in which all other sites are fresh, if there is one.
fn on_world(call: &StepCall) -> Option<Call> {
    let terms = Terms::read(&call.terms).ok()?;
    let site = terms.site(&call.site).ok()??;
    let mut world = World::fresh(terms.sizes);
    let own = terms.own as u8;
    world.sites[terms.own] = site;
    world.row_count = 1;
    let (list, row) = match Input::read(&call.command).ok()? {
        Input::Start => (vec![1], [0; 20]),
        Input::Deliver(row) => (vec![2, 0, 0, own], *row),
        _ => (vec![call.command[0], own], [0; 20]),
    };
    Some(Call {
        world: encode(&world),
        store: [row, [0; 20]].concat(),
        list,
        at: 0,
    })
}

/// A call in words.
pub fn shown(call: &StepCall) -> String {
    let [terms, site, command] = [&call.terms, &call.site, &call.command].map(|part| hex(part));
    let (row, result) = (call.row, call.result);
    format!("terms {terms}\nsite {site}\ncommand {command}\nrow of {row}, result of {result}\n")
}
