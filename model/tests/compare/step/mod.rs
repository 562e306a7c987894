//! The step of a single site, the proved library beside the model: single calls, networks
//! in step, and calls on a world beside steps.

mod breaking;
mod claim;
mod clauses;
mod comparer;
mod directed;
mod faults;
mod in_step;
mod product;
mod servers;

use std::time::Instant;

use model::calls::Model;
use model::generate::{Course, Generator, Rng};
use model::meeting::Meeting;
use model::network::{ByCall, FromDisk, SiteBytes};
use model::Network;

use crate::common::beside::Beside;
use crate::common::{m3_sites, three_sites, M3_STEPS};
use crate::ffi::Library;
use crate::in_short;
use clauses::Check;
use comparer::Stepping;
use directed::made_by_hand;
use faults::{Fault, Faulty, FAULTS};
use in_step::{InStep, Side};
use servers::FAULTS as SERVER_FAULTS;

const SEED: u64 = 20_270_702;

/// How many calls are drawn, and how many for each fault.
const CALLS: usize = 150_000;
const PART: usize = 12_000;
/// How many histories are followed, how many of them are long, and how many there are for
/// each fault.
const HISTORIES: usize = 2_000;
const LONG: usize = 20;
const FEW: usize = 600;
/// Lists and calls on worlds beside steps.
const LISTS: usize = 600;
const WORLDS: usize = 10_000;

/// Every number that a step gives, and no other one.
const NUMBERS: [u32; 10] = [0, 6, 7, 8, 10, 11, 12, 13, 14, 17];

/// Every clause of the numbers, and every sort of accepted step. Each must be due for calls
/// made by hand and for generated ones.
const CLAUSES: [&str; 59] = [
    "17 terms length",
    "17 site length",
    "17 row length",
    "17 result length",
    "17 layout number",
    "17 willing above 1",
    "17 reserved in the terms",
    "17 n under 3",
    "17 n over 16",
    "17 weight of 0",
    "17 weight from n up not 0",
    "17 C over W - h",
    "17 A over W - h",
    "17 C + A under W + 1",
    "17 up",
    "17 role",
    "17 prepare record",
    "17 group",
    "17 outcome",
    "17 reserved at the site",
    "17 code above 5",
    "17 entry from n up not 0",
    "17 own entry not its state",
    "17 group's code above 5",
    "17 group's entry from n up not 0",
    "17 group's own entry not its group",
    "17 vector without a group",
    "6 no command byte",
    "6 not 1 to 5",
    "7 row cut short",
    "8 own n or more",
    "8 own n or more, any codes",
    "10 kind not 1 to 7",
    "10 sender n or more",
    "10 code above 5",
    "11 not a destination",
    "12 down: START",
    "12 down: DELIVER",
    "12 down: TIMEOUT",
    "12 down: CRASH",
    "13 RECOVER while up",
    "14 START, not site 0",
    "14 START, not active",
    "0 START, willing",
    "0 START, unwilling",
    "0 DELIVER of a prepare",
    "0 DELIVER of a vote",
    "0 DELIVER of a join commit",
    "0 DELIVER of a join abort",
    "0 DELIVER of an in-group",
    "0 DELIVER of an outcome",
    "0 DELIVER of an ack",
    "0 TIMEOUT, active",
    "0 TIMEOUT, subordinate",
    "0 TIMEOUT, coordinator",
    "0 CRASH",
    "0 RECOVER, empty log",
    "0 RECOVER, a record",
    "0 bytes after the command",
];

/// The checks in their order, each with those after it that can be met as well: it must
/// have come before each of them, by hand and in generated calls.
const ORDERS: [(Check, &[Check]); 7] = [
    (
        Check::Shape,
        &[
            Check::Command,
            Check::Cut,
            Check::Number,
            Check::Row,
            Check::Destination,
            Check::Down,
            Check::Up,
            Check::Started,
        ],
    ),
    (Check::Command, &[Check::Number]),
    (Check::Cut, &[Check::Number, Check::Down]),
    (
        Check::Number,
        &[
            Check::Row,
            Check::Destination,
            Check::Down,
            Check::Up,
            Check::Started,
        ],
    ),
    (Check::Row, &[Check::Destination, Check::Down]),
    (Check::Destination, &[Check::Down]),
    (Check::Down, &[Check::Started]),
];

/// All that each command can write: for the places of the log, a byte each.
const WRITTEN: [(u8, [u8; 3]); 16] = [
    (1, [0, 0, 2]),
    (1, [1, 0, 0]),
    (2, [0, 0, 0]),
    (2, [0, 0, 1]),
    (2, [0, 0, 2]),
    (2, [0, 1, 0]),
    (2, [0, 2, 0]),
    (2, [1, 0, 0]),
    (3, [0, 0, 0]),
    (3, [0, 0, 1]),
    (3, [0, 0, 2]),
    (3, [0, 1, 0]),
    (3, [0, 2, 0]),
    (4, [0, 0, 0]),
    (5, [0, 0, 0]),
    (5, [0, 0, 2]),
];

/// Rules: seven kinds of rows, and TIMEOUT, CRASH and RECOVER, each in six states and two
/// roles; START in one state.
const RULES: usize = (7 + 3) * 6 * 2 + 2;

/// What the generated calls must have met.
const MEETINGS: [Meeting; 17] = [
    Meeting::Idle,
    Meeting::Several,
    Meeting::OwnTold,
    Meeting::OwnChanged,
    Meeting::SameLevel,
    Meeting::OwnRow,
    Meeting::OwnRowTold,
    Meeting::SenderAndOthers,
    Meeting::OthersAlone,
    Meeting::LowestDecides,
    Meeting::CommitByWeight,
    Meeting::AbortByWeight,
    Meeting::CommitTooLight,
    Meeting::AbortTooLight,
    Meeting::JustEnough,
    Meeting::OneShort,
    Meeting::LargeQuorum,
];

/// How often each clause must have been due for generated calls, each order seen, and each
/// thing met; and how many histories of each sort there must be.
const LEAST_DUE: usize = 100;
const LEAST_SEEN: usize = 20;
const LEAST_MET: usize = 50;
const LEAST_SORT: usize = 15;

/// Generated calls; the first difference ends them.
fn generated(both: &mut Stepping, count: usize) -> Result<(), String> {
    let mut from = Generator::new(SEED);
    for _ in 0..count {
        both.drawn(&from.next_step_call())?;
    }
    Ok(())
}

fn print(name: &str, both: &Stepping) {
    let calls: usize = both.numbers.values().sum();
    println!("steps, {name}: {calls} calls, numbers {:?}", both.numbers);
    println!("{} rules, written {:?}", both.rules.len(), both.written);
    println!("met {:?}", both.meetings);
    println!("one check before another {:?}", both.orders);
    println!("clauses {:?}", both.clauses);
}

#[test]
fn library_and_model_agree_on_steps() {
    let start = Instant::now();
    let mut by_hand = Stepping::new(&Library, &Model);
    let mut drawn = Stepping::new(&Library, &Model);
    let compared = made_by_hand(&mut by_hand).and_then(|()| generated(&mut drawn, CALLS));
    compared.unwrap_or_else(|why| panic!("{why}"));
    print("by hand", &by_hand);
    print("generated", &drawn);
    println!("no difference in {:.1} s", start.elapsed().as_secs_f64());
    assert_met(&by_hand, 1, 1);
    assert_met(&drawn, LEAST_DUE, LEAST_SEEN);
    for both in [&by_hand, &drawn] {
        assert!(both.written.keys().copied().eq(WRITTEN));
        assert_eq!(both.rules.len(), RULES);
    }
    for meeting in MEETINGS {
        let count = drawn.meetings.get(&meeting).copied().unwrap_or(0);
        assert!(count >= LEAST_MET, "{meeting:?} is rare: {count}");
    }
}

/// Every number is given and no other one, every clause was due so often, and every order
/// seen.
fn assert_met(both: &Stepping, due: usize, seen: usize) {
    assert!(both.numbers.keys().copied().eq(NUMBERS));
    for clause in CLAUSES {
        let count = both.clauses.get(clause).copied().unwrap_or(0);
        assert!(count >= due, "{clause} is rare: {count}");
    }
    assert_eq!(both.clauses.len(), CLAUSES.len());
    for (first, later) in ORDERS {
        let count = |check: &Check| both.orders.get(&(first, *check)).copied().unwrap_or(0);
        let rare: Vec<&Check> = later.iter().filter(|check| count(check) < seen).collect();
        assert!(rare.is_empty(), "{first:?} is rare before {rare:?}");
    }
}

/// The paper's own day, by the library's sites.
#[test]
fn the_library_takes_the_steps_of_the_paper() {
    let mut network = Network::new(&Library, &ByCall, three_sites(7));
    for step in M3_STEPS {
        let answer = network.step(step).expect("a row that was sent");
        assert_eq!(answer.number, 0, "{step:?}");
    }
    let sites: Vec<SiteBytes> = network.members.iter().map(|member| member.site).collect();
    assert_eq!(sites, m3_sites());
    assert_eq!((network.rows.len(), network.news), (5, 5));
}

/// A history among the others, along the model's sites.
fn course(at: usize) -> Course<'static> {
    let mut rng = Rng::new(SEED + at as u64);
    let sizes = Course::any_sizes(&mut rng);
    let sides: Side = (&Model, &ByCall);
    if at < LONG {
        let limit = rng.between(3_000, 5_000);
        return Course::quarrel(&mut rng, sides, sizes, (1_100, limit));
    }
    let limit = rng.choose(&[20, 60, 120, 400]);
    match at % 4 {
        0 => Course::quarrel(&mut rng, sides, sizes, (limit / 2, limit)),
        _ => Course::wander(&mut rng, sides, sizes, limit),
    }
}

/// Library and model with both sorts of servers: what a crash leaves is the call's with one
/// and the disk's with the other.
#[test]
fn networks_of_library_and_model_agree() {
    let start = Instant::now();
    let mut one = InStep::new((&Library, &ByCall), (&Model, &FromDisk));
    let mut other = InStep::new((&Library, &FromDisk), (&Model, &ByCall));
    for at in 0..HISTORIES {
        let course = course(at);
        let done = one.history(&course).and_then(|()| other.history(&course));
        done.unwrap_or_else(|why| panic!("history {at}\n{why}"));
    }
    println!("networks in step, twice: {}", one.met);
    println!("no difference in {:.1} s", start.elapsed().as_secs_f64());
    one.met.assert_rich(LEAST_SORT);
    assert_eq!(one.met.steps, other.met.steps);
}

/// A run of one-command calls, and calls on any worlds, beside the same steps taken singly,
/// by the library.
#[test]
fn the_librarys_calls_on_worlds_are_steps() {
    let mut beside = Beside::default();
    let mut from = Generator::up_to(SEED, 1_500);
    for _ in 0..LISTS {
        let list = from.next_list();
        let done = beside.list(&Library, &list);
        done.unwrap_or_else(|why| panic!("{why}{list:?}"));
    }
    println!("lists beside steps: {beside:?}");
    assert!(beside.records.iter().all(|&records| records > LISTS));
    let mut beside = Beside::default();
    for _ in 0..WORLDS {
        let done = beside.call(&Library, &from.next_call());
        done.unwrap_or_else(|why| panic!("{why}"));
    }
    println!("worlds beside steps: {beside:?}");
    let numbers = beside.numbers.keys().copied();
    assert!(numbers.eq([0, 8, 10, 11, 12, 13, 14]));
    assert!(beside.records.iter().all(|&records| records > WORLDS / 200));
}

/// A copy of the model without a fault agrees; with any fault it does not, by generated
/// calls alone and with those made by hand.
#[test]
fn a_fault_in_a_step_is_noticed() {
    let sound = Faulty(Fault::None);
    let mut both = Stepping::new(&Library, &sound);
    assert_eq!(made_by_hand(&mut both), Ok(()));
    assert_eq!(generated(&mut both, PART), Ok(()));
    for fault in FAULTS {
        let faulty = Faulty(fault);
        let by_hand = made_by_hand(&mut Stepping::new(&Library, &faulty));
        let drawn = generated(&mut Stepping::new(&Library, &faulty), PART);
        assert_noticed(&format!("{fault:?}"), "by hand", by_hand);
        assert_noticed(&format!("{fault:?}"), "generated", drawn);
    }
    println!("{} faults of a step noticed", FAULTS.len());
}

/// Sound servers agree; with any fault they do not.
#[test]
fn a_fault_of_the_servers_is_noticed() {
    let courses: Vec<Course> = (LONG..LONG + FEW).map(course).collect();
    let difference = |side: Side<'_>| {
        let mut both = InStep::new((&Library, &ByCall), side);
        let found = courses.iter().try_for_each(|course| both.history(course));
        found
    };
    assert_eq!(difference((&Model, &ByCall)), Ok(()));
    for fault in SERVER_FAULTS {
        let found = difference((&Model, &fault));
        assert_noticed(&format!("{fault:?}"), "in step", found);
    }
    println!("{} faults of the servers noticed", SERVER_FAULTS.len());
}

/// A difference is found, in one way.
fn assert_noticed(fault: &str, way: &str, found: Result<(), String>) {
    let Err(why) = found else {
        panic!("{fault} is not noticed {way}");
    };
    println!("{fault} noticed {way}: {}", in_short(&why));
}
