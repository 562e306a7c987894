//! The quiet day, the proved library beside the model: its list as both write it, and
//! the day as both play it.

mod days;
mod faults;
mod written;

use std::collections::BTreeMap;
use std::time::Instant;

use model::calls::{Calls, Model};

use crate::comparer::Comparer;
use crate::faults as faults_of_play;
use crate::ffi::Library;
use crate::in_short;
use days::days;
use faults::{Fault, Faulty, FAULTS};
use written::{all_written, Writing};

/// Every clause of the call in the order of its checks, its number, and how often it
/// is met. There are 24 values of n, 14 of them good, and 23 of C and of A each, with 5
/// rooms and 4 lengths of the result. 560 of the sizes are legal.
const CLAUSES: [(&str, u32, usize); 9] = [
    ("quiet: 17 result length", 17, 24 * 23 * 23 * 5 * 3),
    ("quiet: 3 n under 3", 3, 3 * 23 * 23 * 5),
    ("quiet: 3 n over 16", 3, 7 * 23 * 23 * 5),
    // 23 - n values of C are too large, which is 189 over all n from 3 to 16.
    ("quiet: 4 C over n - 1", 4, 189 * 23 * 5),
    // n values of C are not, and 23 - n of A are: 1,568 over all n.
    ("quiet: 4 A over n - 1", 4, 1_568 * 5),
    // n times n pairs have neither too large: 1,491 over all n.
    ("quiet: 4 C + A under n + 1", 4, (1_491 - 560) * 5),
    ("quiet: 20 room short", 20, 560 * 2),
    ("quiet: 0 exact room", 0, 560),
    ("quiet: 0 more room", 0, 560 * 2),
];

/// How many days are compared: one pair of quorums for three sites, three for four,
/// and four for 5 to 16.
const DAYS: usize = 1 + 3 + 12 * 4;

/// Their commands, in one order: 3 + 6(n - 1) each, which is 15, 21, and 720 for 5 to
/// 16 sites together.
const COMMANDS: usize = 15 + 3 * 21 + 4 * 720;

/// All that is compared; the first difference ends it. Gives how many days were
/// played.
fn compare(writing: &mut Writing, both: &mut Comparer) -> Result<usize, String> {
    all_written(writing)?;
    days(both)
}

fn print(writing: &Writing, both: &Comparer) {
    let calls: usize = writing.numbers.values().sum();
    println!("quiet lists written {calls}");
    println!("quiet days: lists {}, commands {}", both.lists, both.calls);
    for (number, count) in &writing.numbers {
        println!("quiet number {number:2} seen {count:8}");
    }
    crate::print_clauses(&writing.clauses);
    crate::print_clauses(&both.clauses);
}

#[test]
fn library_and_model_agree_on_the_quiet_day() {
    let start = Instant::now();
    let mut writing = Writing::new(&Library, &Model);
    let mut both = Comparer::new(&Library, &Model);
    let days = compare(&mut writing, &mut both).unwrap_or_else(|why| panic!("{why}"));
    print(&writing, &both);
    println!("no difference in {:.1} s", start.elapsed().as_secs_f64());
    assert_eq!(days, DAYS);
    assert_eq!((both.lists, both.calls), (2 * DAYS, 2 * COMMANDS));
    assert_eq!(both.clauses, BTreeMap::from([("0 quiet day", 2 * DAYS)]));
    assert_counted(&writing);
}

/// Every clause is met as often as it must be, and with its own number.
fn assert_counted(writing: &Writing) {
    let clauses = CLAUSES.map(|(name, _, count)| (name, count));
    assert_eq!(writing.clauses, BTreeMap::from(clauses));
    let mut numbers = BTreeMap::new();
    for (_, number, count) in CLAUSES {
        *numbers.entry(number).or_default() += count;
    }
    assert_eq!(writing.numbers, numbers);
}

/// A copy of the model without a fault agrees; with any fault it does not.
#[test]
fn a_fault_in_the_quiet_day_is_noticed() {
    assert_eq!(compared_with(Fault::None), Ok(DAYS));
    for fault in FAULTS {
        let Err(why) = compared_with(fault) else {
            panic!("{fault:?} is not noticed");
        };
        println!("{fault:?} noticed: {}", in_short(&why));
    }
    println!("{} faults of the quiet day noticed", FAULTS.len());
}

/// What both sides do wrong alike no comparison sees, but the day costs something else.
#[test]
fn a_fault_of_both_sides_shows_in_the_cost() {
    let played = [
        faults_of_play::Fault::CountsSenderTwice,
        faults_of_play::Fault::CountsOwnChange,
        faults_of_play::Fault::TakesSenderAlone,
    ];
    for fault in played {
        let faulty = faults_of_play::Faulty(fault);
        assert_costs_other(&format!("{fault:?}"), &faulty);
    }
    assert_costs_other("CommitsAtOnce", &Faulty(Fault::CommitsAtOnce));
}

fn assert_costs_other(fault: &str, side: &dyn Calls) {
    let Err(why) = days(&mut Comparer::new(side, side)) else {
        panic!("{fault} does not show in the cost");
    };
    println!("{fault} shows in the cost: {}", in_short(&why));
}

fn compared_with(fault: Fault) -> Result<usize, String> {
    let faulty = Faulty(fault);
    let mut writing = Writing::new(&Library, &faulty);
    compare(&mut writing, &mut Comparer::new(&Library, &faulty))
}
