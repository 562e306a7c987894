//! Converting lists, the proved library beside the model: every byte of what is made of
//! them, and both lists as both play them.

mod clauses;
mod comparer;
mod directed;
mod faults;

use std::time::Instant;

use model::calls::Model;
use model::generate::Generator;

use crate::faults as faults_of_play;
use crate::ffi::Library;
use crate::in_short;
use clauses::{Check, Given, Way};
use comparer::Converting;
use directed::made_by_hand;
use faults::{Fault, Faulty, FAULTS};

const SEED: u64 = 20_270_601;

/// How much is compared.
struct Amount {
    short: usize,
    long: usize,
    longest: usize,
}

const WHOLE: Amount = Amount {
    short: 40_000,
    long: 400,
    longest: 3_000,
};

const PART: Amount = Amount {
    short: 1_500,
    long: 5,
    longest: 150,
};

/// Lengths of the result that are not its own.
const RESULTS: [usize; 4] = [0, 8, 15, 17];

/// Every number that either way gives, and no other one.
const FORWARD: [u32; 8] = [0, 1, 2, 3, 4, 5, 17, 20];
const BACK: [u32; 10] = [0, 1, 2, 3, 4, 5, 17, 20, 21, 22];

/// Every clause of request (vii) in document 02, with those of document 01 and request
/// (vi) that it names, and the length of the result, which is docs/LAYOUT.md's. Each
/// must be due for calls made by hand and for generated ones.
const BOTH_WAYS: [&str; 12] = [
    "17 result length",
    "1 over 32,768",
    "2 under 5",
    "3 n under 3",
    "3 n over 16",
    "4 C over W - h",
    "4 A over W - h",
    "4 C + A under W + 1",
    "5 willing bit",
    "20 room short",
    "0 exact room",
    "0 more room",
];
const FORWARD_ALONE: [&str; 2] = ["3 a later edition", "1 converted"];
const BACK_ALONE: [&str; 3] = ["2 header cut", "21 weight of 0", "22 not all weights 1"];

/// The checks in their order, each with those after it that can be met as well: it must
/// have come before each of them, by hand and in generated calls.
const FORWARD_ORDERS: &[(Check, &[Check])] = &[
    (Check::Result, &[Check::Long, Check::Short, Check::Sites]),
    (Check::Result, &[Check::Quorums, Check::Willing]),
    (Check::Result, &[Check::LongOutput, Check::Room]),
    (Check::Long, &[Check::Sites, Check::Quorums, Check::Willing]),
    (Check::Long, &[Check::Room]),
    (Check::Short, &[Check::Sites, Check::Room]),
    (Check::Sites, &[Check::Quorums, Check::Willing]),
    (Check::Sites, &[Check::LongOutput, Check::Room]),
    (Check::Quorums, &[Check::Willing]),
    (Check::Quorums, &[Check::LongOutput, Check::Room]),
    (Check::Willing, &[Check::LongOutput, Check::Room]),
    (Check::LongOutput, &[Check::Room]),
];
const BACK_ORDERS: &[(Check, &[Check])] = &[
    (Check::Result, &[Check::Long, Check::Short, Check::Sites]),
    (Check::Result, &[Check::Cut, Check::Weight, Check::Quorums]),
    (Check::Result, &[Check::Willing, Check::Uneven, Check::Room]),
    (Check::Long, &[Check::Sites, Check::Weight, Check::Quorums]),
    (Check::Long, &[Check::Willing, Check::Uneven, Check::Room]),
    (Check::Short, &[Check::Sites]),
    (Check::Sites, &[Check::Cut, Check::Weight, Check::Quorums]),
    (Check::Sites, &[Check::Willing, Check::Uneven, Check::Room]),
    (Check::Cut, &[Check::Weight, Check::Quorums]),
    (Check::Cut, &[Check::Willing, Check::Uneven]),
    (Check::Weight, &[Check::Quorums, Check::Willing]),
    (Check::Weight, &[Check::Uneven, Check::Room]),
    (
        Check::Quorums,
        &[Check::Willing, Check::Uneven, Check::Room],
    ),
    (Check::Willing, &[Check::Uneven, Check::Room]),
    (Check::Uneven, &[Check::Room]),
];

/// The lists made by hand that are accepted.
const CASES: [&str; 7] = [
    "0 any bytes after the header",
    "0 day M3",
    "0 duel",
    "0 every number of sites",
    "0 full store",
    "0 quiet day",
    "0 the longest list",
];

/// How the lists ended that were converted and played: at their end, at a command's
/// refusal, or with a store that was too short. 10 and 17 no list gives, and a header's
/// numbers none that was converted.
const ENDS: [u32; 11] = [0, 6, 7, 8, 9, 11, 12, 13, 14, 15, 16];

/// How often each clause must have been due for generated calls, and each order seen.
const LEAST_DUE: usize = 100;
const LEAST_SEEN: usize = 20;

/// All generated calls; the first difference ends it.
fn generated(both: &mut Converting, amount: &Amount) -> Result<(), String> {
    let mut short = Generator::up_to(SEED, 160);
    for at in 0..amount.short {
        drawn(both, &short.next_to_convert(), at)?;
    }
    let mut long = Generator::long(SEED + 1);
    for at in 0..amount.long {
        drawn(both, &long.next_to_convert(), at)?;
    }
    for at in 0..amount.longest {
        drawn(both, &long.next_long_to_convert(), at)?;
    }
    Ok(())
}

/// A list with the room that its output takes and with another one, and at times with a
/// result of another length.
fn drawn(both: &mut Converting, list: &[u8], at: usize) -> Result<(), String> {
    both.there_and_back(list)?;
    let need = Given::new(list, 0).need();
    let room = [need.saturating_sub(1), need + 1 + at % 9, 0, need / 2][at % 4];
    both.call(Given::new(list, room))?;
    if at.is_multiple_of(5) {
        let result = RESULTS[at / 5 % 4];
        both.call(Given { list, room, result })?;
    }
    Ok(())
}

fn print(name: &str, both: &Converting) {
    let calls: usize = both.numbers.values().sum();
    let played: usize = both.ends.values().sum();
    println!("converting, {name}: {calls} calls, both lists played {played} times");
    println!("{} events, ends {:?}", both.events, both.ends);
    println!("lists accepted {:?}", both.cases);
    for ((way, number), count) in &both.numbers {
        println!("{way:?} number {number:2} seen {count:8}");
    }
    println!("clauses {:?}", both.clauses);
    println!("one check before another {:?}", both.orders);
}

#[test]
fn library_and_model_agree_on_converting() {
    let start = Instant::now();
    let mut by_hand = Converting::new(&Library, &Model);
    let mut drawn = Converting::new(&Library, &Model);
    let compared = made_by_hand(&mut by_hand).and_then(|()| generated(&mut drawn, &WHOLE));
    compared.unwrap_or_else(|why| panic!("{why}"));
    print("by hand", &by_hand);
    print("generated", &drawn);
    println!("no difference in {:.1} s", start.elapsed().as_secs_f64());
    assert_met(&by_hand, 1, 1);
    assert_met(&drawn, LEAST_DUE, LEAST_SEEN);
    assert!(by_hand.cases.keys().copied().eq(CASES));
    assert!(by_hand.ends.keys().copied().eq(ENDS));
    assert!(drawn.ends.keys().copied().eq(ENDS));
}

/// Every number is given and no other one, every clause was due so often, and every
/// order seen.
fn assert_met(both: &Converting, due: usize, seen: usize) {
    let forward = FORWARD.map(|number| (Way::Forward, number));
    let back = BACK.map(|number| (Way::Back, number));
    let numbers = forward.into_iter().chain(back);
    assert!(both.numbers.keys().copied().eq(numbers));
    for way in [Way::Forward, Way::Back] {
        assert_due(both, way, &BOTH_WAYS, due);
    }
    assert_due(both, Way::Forward, &FORWARD_ALONE, due);
    assert_due(both, Way::Back, &BACK_ALONE, due);
    assert_ordered(both, Way::Forward, FORWARD_ORDERS, seen);
    assert_ordered(both, Way::Back, BACK_ORDERS, seen);
}

fn assert_due(both: &Converting, way: Way, clauses: &[&'static str], least: usize) {
    for &clause in clauses {
        let count = both.clauses.get(&(way, clause)).copied().unwrap_or(0);
        assert!(count >= least, "{way:?} {clause} is rare: {count}");
    }
}

fn assert_ordered(both: &Converting, way: Way, orders: &[(Check, &[Check])], least: usize) {
    for &(due, after) in orders {
        let count = |later: &Check| both.orders.get(&(way, due, *later)).copied().unwrap_or(0);
        let rare: Vec<&Check> = after.iter().filter(|later| count(later) < least).collect();
        assert!(rare.is_empty(), "{way:?} {due:?} is rare before {rare:?}");
    }
}

/// A copy of the model without a fault agrees; with any fault it does not, by generated
/// calls alone and with those made by hand.
#[test]
fn a_fault_in_converting_is_noticed() {
    let sound = Faulty(Fault::None);
    let mut both = Converting::new(&Library, &sound);
    assert_eq!(made_by_hand(&mut both), Ok(()));
    assert_eq!(generated(&mut both, &PART), Ok(()));
    for fault in FAULTS {
        let faulty = Faulty(fault);
        let by_hand = made_by_hand(&mut Converting::new(&Library, &faulty));
        let drawn = generated(&mut Converting::new(&Library, &faulty), &PART);
        assert_noticed(&format!("{fault:?}"), "by hand", by_hand);
        assert_noticed(&format!("{fault:?}"), "generated", drawn);
    }
    println!("{} faults of converting noticed", FAULTS.len());
}

/// What both sides do wrong alike is noticed too, in what they make of a list and in how
/// they play the two editions.
#[test]
fn a_fault_of_both_sides_in_converting_is_noticed() {
    for fault in FAULTS {
        let faulty = Faulty(fault);
        let found = made_by_hand(&mut Converting::new(&faulty, &faulty));
        assert_noticed(&format!("{fault:?}"), "on both sides", found);
    }
    let played = [
        faults_of_play::Fault::WeighsFirstEdition,
        faults_of_play::Fault::BeginsAtFive,
    ];
    for fault in played {
        let faulty = faults_of_play::Faulty(fault);
        let found = made_by_hand(&mut Converting::new(&faulty, &faulty));
        assert_noticed(&format!("{fault:?}"), "on both sides", found);
    }
}

/// A difference is found, in one way.
fn assert_noticed(fault: &str, way: &str, found: Result<(), String>) {
    let Err(why) = found else {
        panic!("{fault} is not noticed {way}");
    };
    println!("{fault} noticed {way}: {}", in_short(&why));
}
