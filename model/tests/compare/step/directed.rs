//! Steps made for one clause each, all lengths, and every value of every byte.

use model::generate::StepCall;
use model::layout::site_bytes;
use model::sizes::everyone;
use model::{Input, Kind, Log, Role, Row, Side, Site, Sizes, Terms};

use super::comparer::{shown, Stepping};
use super::product::every_rule;
use crate::common::{group, prepared, row_to_all, vector, weighted};

pub type Done = Result<(), String>;

/// Which buffer is changed, where, and what is put there.
#[derive(Clone, Copy)]
enum Put {
    Terms(usize, u8),
    Site(usize, u8),
    Command(usize, u8),
}

use Put::{Command as C, Site as S, Terms as T};

/// A name, and what is changed in the base call for it.
type Case = (&'static str, &'static [Put]);

/// Clauses of 17. The base call is a delivery to site 1 of five, which is in the commit
/// group; C and A are 3.
const SHAPES: &[Case] = &[
    ("17 layout number", &[T(0, 2)]),
    ("17 layout number", &[T(0, 4)]),
    ("17 willing above 1", &[T(7, 2)]),
    ("17 willing above 1", &[T(7, 255)]),
    ("17 reserved in the terms", &[T(8, 1)]),
    ("17 reserved in the terms", &[T(15, 128)]),
    ("17 n under 3", &[T(1, 2)]),
    ("17 n under 3", &[T(1, 0)]),
    ("17 n over 16", &[T(1, 17)]),
    ("17 n over 16", &[T(1, 255)]),
    ("17 weight of 0", &[T(16, 0)]),
    ("17 weight of 0", &[T(20, 0), T(4, 2)]),
    ("17 weight from n up not 0", &[T(21, 1)]),
    ("17 weight from n up not 0", &[T(31, 255)]),
    ("17 C over W - h", &[T(2, 5)]),
    ("17 C over W - h", &[T(3, 1)]),
    ("17 C over W - h", &[T(17, 3), T(2, 5), T(4, 4)]),
    ("17 A over W - h", &[T(4, 5)]),
    ("17 A over W - h", &[T(5, 1)]),
    ("17 C + A under W + 1", &[T(2, 2)]),
    ("17 C + A under W + 1", &[T(4, 0)]),
    ("17 C + A under W + 1", &[T(16, 2)]),
    ("17 up", &[S(0, 2)]),
    ("17 role", &[S(1, 2)]),
    ("17 prepare record", &[S(2, 2)]),
    ("17 group", &[S(3, 3)]),
    ("17 outcome", &[S(4, 3)]),
    ("17 reserved at the site", &[S(5, 1)]),
    ("17 reserved at the site", &[S(6, 255)]),
    ("17 reserved at the site", &[S(7, 1)]),
    ("17 code above 5", &[S(8, 6)]),
    ("17 code above 5", &[S(12, 255)]),
    ("17 entry from n up not 0", &[S(13, 1)]),
    ("17 entry from n up not 0", &[S(23, 5)]),
    ("17 own entry not its state", &[S(9, 1)]),
    ("17 own entry not its state", &[S(4, 1)]),
    ("17 group's code above 5", &[S(24, 6)]),
    ("17 group's entry from n up not 0", &[S(29, 1)]),
    ("17 group's own entry not its group", &[S(25, 3)]),
    ("17 group's own entry not its group", &[S(3, 2), S(9, 3)]),
    ("17 vector without a group", &[S(3, 0), S(9, 1)]),
];

/// Clauses of the other numbers, on the same call.
const OTHERS: &[Case] = &[
    ("6 not 1 to 5", &[C(0, 0)]),
    ("6 not 1 to 5", &[C(0, 6)]),
    ("6 not 1 to 5", &[C(0, 255)]),
    ("8 own n or more", &[T(6, 5)]),
    ("8 own n or more", &[T(6, 16)]),
    ("8 own n or more", &[T(6, 255)]),
    ("8 own n or more, any codes", &[T(6, 5), S(8, 99), S(39, 7)]),
    ("10 kind not 1 to 7", &[C(1, 0)]),
    ("10 kind not 1 to 7", &[C(1, 8)]),
    ("10 sender n or more", &[C(2, 5)]),
    ("10 sender n or more", &[C(2, 255)]),
    ("10 code above 5", &[C(5, 6)]),
    ("10 code above 5", &[C(9, 255)]),
    ("11 not a destination", &[C(3, 0xfd)]),
    ("11 not a destination", &[C(3, 0)]),
    ("12 down: START", &[C(0, 1), S(0, 0)]),
    ("12 down: DELIVER", &[S(0, 0)]),
    ("12 down: TIMEOUT", &[C(0, 3), S(0, 0)]),
    ("12 down: CRASH", &[C(0, 4), S(0, 0)]),
    ("13 RECOVER while up", &[C(0, 5)]),
    ("14 START, not site 0", &[C(0, 1)]),
    ("0 TIMEOUT, subordinate", &[C(0, 3)]),
    ("0 TIMEOUT, coordinator", &[C(0, 3), S(1, 1)]),
    ("0 CRASH", &[C(0, 4)]),
    ("0 RECOVER, a record", &[C(0, 5), S(0, 0)]),
    ("0 DELIVER of a prepare", &[C(1, 1)]),
    ("0 DELIVER of a vote", &[C(1, 2)]),
    ("0 DELIVER of a join commit", &[]),
    ("0 DELIVER of a join commit", &[C(10, 255)]),
    ("0 DELIVER of a join abort", &[C(1, 4)]),
    ("0 DELIVER of an in-group", &[C(1, 5)]),
    ("0 DELIVER of an outcome", &[C(1, 6)]),
    ("0 DELIVER of an ack", &[C(1, 7)]),
];

/// A call for a step of this site.
pub fn call(sizes: Sizes, own: usize, site: &Site, input: Input) -> StepCall {
    StepCall {
        terms: Terms::of(sizes, own).bytes().to_vec(),
        site: site_bytes(site).to_vec(),
        command: input.bytes(),
        row: 20,
        result: 8,
    }
}

fn five() -> Sizes {
    Sizes::new(5, 3, 3, everyone(5))
}

/// Site 1 of five, which is in the commit group and knows of no quorum.
fn joined() -> Site {
    let log = Log {
        prepare: true,
        group: group(Side::Commit, &[2, 2, 1, 1, 1]),
        outcome: None,
    };
    Site {
        log,
        vector: vector(&[2, 2, 1, 1, 1]),
        ..Site::FRESH
    }
}

/// A join commit that tells of site 2 in the group.
fn join() -> Row {
    row_to_all(Kind::Join(Side::Commit), 0, &[2, 1, 2, 1, 1])
}

fn base() -> StepCall {
    call(five(), 1, &joined(), Input::Deliver(&join().bytes()))
}

fn changed(puts: &[Put]) -> StepCall {
    let mut call = base();
    for put in puts {
        match *put {
            T(at, byte) => call.terms[at] = byte,
            S(at, byte) => call.site[at] = byte,
            C(at, byte) => call.command[at] = byte,
        }
    }
    call
}

/// All calls that are made by hand.
pub fn made_by_hand(both: &mut Stepping) -> Done {
    for (name, puts) in [SHAPES, OTHERS].concat() {
        clause(both, name, &changed(puts))?;
    }
    starts(both)?;
    high_bytes(both)?;
    large_quorums(both)?;
    commands(both)?;
    lengths(both)?;
    orders(both)?;
    every_rule(both)?;
    every_byte(both)
}

/// A call for which this clause is due.
fn clause(both: &mut Stepping, name: &'static str, call: &StepCall) -> Done {
    let before = both.clauses.get(name).copied().unwrap_or(0);
    both.call(call)?;
    match both.clauses.get(name) {
        Some(&count) if count > before => Ok(()),
        _ => Err(format!("{name} is not due\n{}", shown(call))),
    }
}

/// A call that writes this.
fn writes(both: &mut Stepping, written: [u8; 3], call: &StepCall) -> Done {
    let due = (call.command[0], written);
    let before = both.written.get(&due).copied().unwrap_or(0);
    both.call(call)?;
    match both.written.get(&due) {
        Some(&count) if count > before => Ok(()),
        _ => Err(format!("{written:?} is not written\n{}", shown(call))),
    }
}

/// START, and the two sorts of RECOVER and TIMEOUT that an empty log makes.
fn starts(both: &mut Stepping) -> Done {
    let unwilling = Sizes {
        willing: 0,
        ..five()
    };
    let down = Site::IDLE;
    let leading = Site {
        role: Role::Coordinator,
        ..down
    };
    for (name, sizes, own, site, input) in [
        ("0 START, willing", five(), 0, Site::FRESH, Input::Start),
        (
            "0 START, unwilling",
            unwilling,
            0,
            Site::FRESH,
            Input::Start,
        ),
        (
            "14 START, not active",
            five(),
            0,
            prepared(&[1]),
            Input::Start,
        ),
        ("14 START, not site 0", five(), 4, Site::FRESH, Input::Start),
        ("0 RECOVER, empty log", five(), 3, down, Input::Recover),
        ("0 RECOVER, empty log", five(), 3, leading, Input::Recover),
        ("0 TIMEOUT, active", five(), 2, Site::FRESH, Input::Timeout),
    ] {
        clause(both, name, &call(sizes, own, &site, input))?;
    }
    Ok(())
}

/// Sixteen sites: destinations from 8 up are in the second byte.
fn high_bytes(both: &mut Stepping) -> Done {
    let sizes = Sizes::new(16, 9, 9, everyone(16));
    let prepare = row_to_all(Kind::Prepare, 0, &[1]);
    for own in 0..16 {
        let others = !(1 << own);
        for (to, name) in [
            (1 << own, "0 DELIVER of a prepare"),
            (others, "11 not a destination"),
        ] {
            let row = Row { to, ..prepare }.bytes();
            let call = call(sizes, own, &Site::FRESH, Input::Deliver(&row));
            clause(both, name, &call)?;
        }
    }
    Ok(())
}

/// Sixteen sites of 255: fifteen of them are a quorum of 3,825, and fourteen are not.
fn large_quorums(both: &mut Stepping) -> Done {
    let sizes = weighted(&[255; 16], 3825, 3825);
    for (side, code) in [(Side::Commit, 2), (Side::Abort, 3)] {
        for known in [14, 15, 16] {
            let log = Log {
                prepare: true,
                group: group(side, &[code]),
                outcome: None,
            };
            let site = Site {
                role: Role::Coordinator,
                log,
                vector: vector(&vec![code; known]),
                ..Site::FRESH
            };
            let outcome = if known < 15 { 0 } else { code - 1 };
            let call = call(sizes, 0, &site, Input::Timeout);
            writes(both, [0, 0, outcome], &call)?;
        }
    }
    Ok(())
}

/// A command of every length, with other bytes after it where it is longer.
fn commands(both: &mut Stepping) -> Done {
    let full = base().command;
    for size in 0..64 {
        let mut call = base();
        call.command.resize(size, 0xa5);
        let name = match size {
            0 => "6 no command byte",
            1..=20 => "7 row cut short",
            21 => "0 DELIVER of a join commit",
            _ => "0 bytes after the command",
        };
        clause(both, name, &call)?;
        for byte in [1, 3, 4, 5] {
            call.command = [&[byte], &full[..size.min(full.len())]].concat();
            both.call(&call)?;
        }
    }
    Ok(())
}

/// Every buffer in every length up to twice its own, and somewhat more.
fn lengths(both: &mut Stepping) -> Done {
    for size in 0..100 {
        let mut call = base();
        call.terms.resize(size, 0);
        if size != 32 {
            clause(both, "17 terms length", &call)?;
        }
        call = base();
        call.site.resize(size, 0);
        if size != 40 {
            clause(both, "17 site length", &call)?;
        }
        call = base();
        call.row = size;
        if size != 20 {
            clause(both, "17 row length", &call)?;
        }
        call = base();
        call.result = size;
        if size != 8 {
            clause(both, "17 result length", &call)?;
        }
    }
    Ok(())
}

/// Two things are wrong: the first in the order of the checks counts.
fn orders(both: &mut Stepping) -> Done {
    let wrong: [&[Put]; 9] = [
        &[T(0, 4)],
        &[C(0, 0)],
        &[T(6, 5)],
        &[C(1, 0)],
        &[C(3, 0)],
        &[S(0, 0)],
        &[C(0, 1)],
        &[C(0, 5)],
        &[C(0, 4)],
    ];
    for one in wrong {
        for other in wrong {
            let call = changed(&[one, other].concat());
            both.call(&call)?;
            let mut cut = call;
            cut.command.truncate(20);
            both.call(&cut)?;
            cut.command.clear();
            both.call(&cut)?;
        }
    }
    let started = call(five(), 0, &prepared(&[1]), Input::Start);
    let down = |mut call: StepCall| {
        call.site[0] = 0;
        call
    };
    clause(both, "12 down: START", &down(started))
}

/// Steps of all sorts.
fn all_sorts() -> Vec<StepCall> {
    let leading = Site {
        role: Role::Coordinator,
        vector: vector(&[2, 2, 2, 1, 1]),
        ..joined()
    };
    let voting = Site {
        role: Role::Coordinator,
        ..prepared(&[1, 1, 1, 1, 1])
    };
    let prepare = row_to_all(Kind::Prepare, 0, &[1]).bytes();
    let outcome = row_to_all(Kind::Outcome, 3, &[1, 1, 1, 5]).bytes();
    vec![
        base(),
        call(five(), 0, &Site::FRESH, Input::Start),
        call(five(), 4, &Site::FRESH, Input::Deliver(&prepare)),
        call(five(), 2, &prepared(&[1, 0, 1]), Input::Deliver(&outcome)),
        call(five(), 1, &leading, Input::Timeout),
        call(five(), 0, &voting, Input::Timeout),
        call(five(), 1, &leading, Input::Crash),
        call(five(), 3, &Site::IDLE, Input::Recover),
    ]
}

/// Every byte of what is read, with every value; whatever the number is, it is the one that
/// is due.
fn every_byte(both: &mut Stepping) -> Done {
    for call in all_sorts() {
        for at in 0..32 + 40 + call.command.len() {
            for byte in 0..=255 {
                both.call(&with_byte(&call, at, byte))?;
            }
        }
    }
    Ok(())
}

/// The call with one byte changed, of the terms, the site or the command.
fn with_byte(call: &StepCall, at: usize, byte: u8) -> StepCall {
    let mut call = call.clone();
    match at {
        0..32 => call.terms[at] = byte,
        32..72 => call.site[at - 32] = byte,
        _ => call.command[at - 72] = byte,
    }
    call
}
