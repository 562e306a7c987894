//! The proved library and the model, byte for byte.
//!
//! Run it for release: cargo test --release --test compare -- --nocapture

#![deny(unsafe_code)]

#[path = "../common/mod.rs"]
mod common;
mod comparer;
mod convert;
mod directed;
mod faults;
#[path = "../../ffi/mod.rs"]
mod ffi;
mod lines;
mod quiet;
mod rounds;
mod step;

use std::collections::BTreeMap;
use std::time::Instant;

use model::calls::{Calls, Model, RESULT_BYTES};
use model::generate::Generator;
use model::layout::{encode, WORLD_BYTES};
use model::meeting::Meeting;
use model::opening::Opening;
use model::row::STORE_BYTES;
use model::tally::Sight;
use model::{number, play_list, Numbers};

use common::{M3_LIST, M3_REPORT};
use comparer::Comparer;
use faults::{faults, Fault, Faulty, SENDER_FAULTS, WEIGHT_FAULTS};
use ffi::Library;

const SEED: u64 = 20_261_115;

/// How much is compared.
struct Amount {
    short: usize,
    middle: usize,
    long: usize,
    calls: usize,
    reports: usize,
}

const WHOLE: Amount = Amount {
    short: 90_000,
    middle: 10_000,
    long: 2_000,
    calls: 60_000,
    reports: 20_000,
};

const PART: Amount = Amount {
    short: 1_000,
    middle: 500,
    long: 50,
    calls: 1_000,
    reports: 500,
};

/// Every clause of document 01's table of numbers, in its order, with what
/// document 02 adds about the news. Those that speak of the layout, of a list's
/// world length and of the result length are docs/LAYOUT.md's. Each must be hit
/// by a call made by hand for it.
const CLAUSES: &[&str] = &[
    "16 store too short",
    "17 n under 3",
    "17 n over 16",
    "17 C over n - 1",
    "17 A over n - 1",
    "17 C + A under n + 1",
    "17 willing bit at n or above",
    "17 rows over 1,024",
    "17 news over 491,520",
    "17 code above 5",
    "17 entry from n up not 0",
    "17 own entry not its state",
    "17 group's code above 5",
    "17 group's entry from n up not 0",
    "17 group's own entry not its group",
    "17 vector without a group",
    "17 layout: length",
    "17 layout: number",
    "17 layout: reserved in the head",
    "17 layout: up",
    "17 layout: role",
    "17 layout: prepare record",
    "17 layout: group",
    "17 layout: outcome",
    "17 layout: reserved at a site",
    "17 result length",
    "17 world length of a list",
    "17 stop number",
    "17 events over 32,768",
    "17 place over 32,768",
    "1 over 32,768",
    "2 under 5",
    "3 n under 3",
    "3 n over 16",
    "4 C over n - 1",
    "4 A over n - 1",
    "4 C + A under n + 1",
    "5 willing bit at n or above",
    "6 none left",
    "6 not 1 to 5",
    "7 operands cut short",
    "8 site n or more",
    "9 row not below the count",
    "10 kind not 1 to 7",
    "10 sender n or more",
    "10 code above 5",
    "11 not a destination",
    "12 down: START",
    "12 down: DELIVER",
    "12 down: TIMEOUT",
    "12 down: CRASH",
    "13 RECOVER while up",
    "14 START, not active",
    "15 START",
    "15 DELIVER of a command",
    "15 TIMEOUT of a coordinator",
    "15 TIMEOUT of a subordinate",
    "17 news past the limit",
    "18 buffer too short",
];

/// Both sorts of RECOVER that document 02 tells apart; the coordinator that is
/// down, which only a world handed in can have; and that none needs room. Each
/// must be hit by a call made by hand for it.
const RECOVERIES: &[&str] = &[
    "0 RECOVER, a record",
    "0 RECOVER, empty log",
    "0 RECOVER, empty log of a coordinator",
    "0 full: RECOVER, empty log",
];

/// What is news and what is not, the limit and what comes before it. Each must be
/// hit by a call made by hand for it.
const NEWS: &[&str] = &[
    "0 news of 491,520",
    "0 news: none",
    "0 news: one",
    "0 news: several",
    "0 news: own entry told",
    "0 news: own entry changed",
    "0 news: all others",
    "0 news: equal levels",
    "0 news: lower levels",
    "0 news: codes from n up",
    "0 news: carried",
    "0 news: limit not reached",
    "0 news: limit reached",
    "0 news: none at the limit",
    "0 news: START",
    "0 news: TIMEOUT",
    "0 news: CRASH",
    "0 news: RECOVER",
    "10 before 17",
    "11 before 17",
    "12 before 17",
    "15 before 17",
    "17 before 15",
    "11 a refused row's news",
    "12 a refused row's news",
    "15 a refused row's news",
];

/// What document 02 says of a row's sender, whose entry is taken first: whichever
/// entries rise, whoever sent it, the lowest site decides. Each must be hit by a
/// call made by hand for it.
const SENDERS: &[&str] = &[
    "0 sender: its entry alone",
    "0 sender: its entry and others",
    "0 sender: others alone",
    "0 sender: site 0, by another",
    "0 sender: the receiver",
    "0 sender: the receiver, of outcomes",
    "0 sender: the receiver, a join",
    "0 sender: a join",
    "0 sender: the lowest site decides",
    "0 sender: any of sixteen",
];

/// What document 02 says of sites of different weight: the clauses of the second
/// edition's header and their order, those of 17, and quorums that are weighed. Each
/// must be hit by a call made by hand for it.
const WEIGHTS: &[&str] = &[
    "0 first edition, ones",
    "0 second edition",
    "0 second edition, ones",
    "0 C of W - h",
    "0 C + A of W + 1",
    "0 weights of 255",
    "0 W of 4,080",
    "0 unwilling, second edition",
    "1 second edition",
    "1 before 21",
    "2 under 5, second edition",
    "3 n, second edition",
    "3 before 2 of a cut header",
    "3 before 21",
    "3 a later edition",
    "2 header cut",
    "2 before 21",
    "2 before 4",
    "2 before 5",
    "21 weight of 0",
    "21 before 4",
    "21 before 5",
    "4 C over W - h",
    "4 A over W - h",
    "4 C + A under W + 1",
    "4 high byte of C",
    "4 high byte of A",
    "4 one heavy site",
    "4 before 5, second edition",
    "5 willing, second edition",
    "6 the longest of the second edition",
    "8 the first command after the weights",
    "0 day of two heavy sites",
    "0 day of two light sites",
    "0 day of ones",
    "0 day of 255s",
    "17 weight of 0",
    "17 weight from n up not 0",
    "17 C over W - h",
    "17 A over W - h",
    "17 C + A under W + 1",
    "17 no quorum without the heaviest",
    "0 weighted quorums as large as can be",
    "0 weighted quorums that just meet",
    "0 weighed: two of five commit",
    "0 weighed: two of five abort",
    "0 weighed: three of five do not commit",
    "0 weighed: three of five do not abort",
    "0 weighed: just enough",
    "0 weighed: others' entries",
    "0 weighed: all",
    "0 weighed: sixteen, just enough",
    "0 weighed: sixteen, one short",
];

/// The clauses of 17 about the weights, which the generated reports must meet too.
const MISWEIGHED: [Meeting; 5] = [
    Meeting::ZeroWeight,
    Meeting::FarWeight,
    Meeting::LargeCommit,
    Meeting::LargeAbort,
    Meeting::NotMeeting,
];

/// How often the generated calls must have met each thing about the news, the sender
/// and the weights, the lists each sort of header, and the generated reports news
/// over the limit; half as often those must have met each thing about the weights.
const LEAST_MET: usize = 100;

/// The least that is asked for of the lists compared: in how many of a hundred
/// each sight is had, and in how many of a hundred of the longer lists.
const LEAST: [(Sight, usize, usize); 15] = [
    (Sight::Repeat, 30, 90),
    (Sight::IdleDelivery, 30, 90),
    (Sight::MuchNews, 30, 90),
    (Sight::SenderAndOthers, 30, 90),
    (Sight::OthersAlone, 10, 90),
    (Sight::SeveralLeaders, 30, 90),
    (Sight::FullStore, 1, 60),
    (Sight::CrashMidway, 10, 40),
    (Sight::BothGroups, 4, 30),
    (Sight::CommitQuorum, 15, 20),
    (Sight::AbortQuorum, 4, 30),
    (Sight::ByWeightAlone, 4, 10),
    (Sight::TooLight, 0, 3),
    (Sight::ThreesForPrepares, 1, 1),
    (Sight::Restart, 5, 4),
];

/// All that is compared; the first difference ends it.
fn compare(both: &mut Comparer, amount: &Amount) -> Result<(), String> {
    made_by_hand(both)?;
    generated(both, amount)
}

/// The calls that take longest come last, so that a fault is seen before them.
fn made_by_hand(both: &mut Comparer) -> Result<(), String> {
    directed::lists(both)?;
    directed::weights(both)?;
    directed::worlds(both)?;
    directed::commands(both)?;
    directed::news(both)?;
    directed::senders(both)?;
    directed::reports(both)?;
    directed::every_byte(both)
}

fn generated(both: &mut Comparer, amount: &Amount) -> Result<(), String> {
    generated_lists(both, Generator::up_to(SEED, 160), amount.short)?;
    generated_lists(both, Generator::up_to(SEED + 1, 1_500), amount.middle)?;
    generated_lists(both, Generator::long(SEED + 2), amount.long)?;
    generated_calls(both, amount.calls)?;
    generated_reports(both, amount.reports)
}

/// Lists played at once; one in fifty of the short ones also command by
/// command.
fn generated_lists(both: &mut Comparer, mut from: Generator, count: usize) -> Result<(), String> {
    for at in 0..count {
        let list = from.next_list();
        let number = both.list(&list)?;
        if at % 50 == 0 && list.len() < 400 && !number::is_of_header(number as u8) {
            both.walk(&list)?;
        }
    }
    Ok(())
}

/// One-command calls, on damaged worlds and stores too.
fn generated_calls(both: &mut Comparer, count: usize) -> Result<(), String> {
    let mut from = Generator::new(SEED + 3);
    for _ in 0..count {
        both.call(&from.next_call())?;
    }
    Ok(())
}

/// Reports of worlds that lists lead to and of damaged ones.
fn generated_reports(both: &mut Comparer, count: usize) -> Result<(), String> {
    let mut from = Generator::up_to(SEED + 4, 400);
    let mut store = vec![0; STORE_BYTES];
    for at in 0..count {
        let played = play_list(&mut store, &from.next_list());
        let numbers = played.numbers();
        let size = 1_022 + at % 5;
        both.report(&encode(&played.world), numbers, size, RESULT_BYTES)?;
        if at % 4 == 0 {
            let stop = at as u32 / 4 % 25;
            let numbers = Numbers { stop, ..numbers };
            both.report_of(&from.next_call(), numbers, size)?;
        }
    }
    Ok(())
}

fn print(both: &Comparer) {
    let (lists, calls, reports) = (both.lists, both.calls, both.reports);
    println!("lists {lists}, commands {calls}, reports {reports}");
    println!("played: {}", both.tally);
    println!("longer: {}", both.longer);
    println!("calls that met: {:?}", both.meetings);
    println!("reports of too much news: {}", both.over_limit);
    println!("headers: {:?}", both.openings);
    println!("reports that met: {:?}", both.misweighed);
    for (number, count) in &both.numbers {
        println!("number {number:2} seen {count:8}");
    }
    print_clauses(&both.clauses);
}

/// How often each clause was hit.
fn print_clauses(clauses: &BTreeMap<&'static str, usize>) {
    for (name, count) in clauses {
        println!("clause {name}: {count}");
    }
}

#[test]
fn library_and_model_agree() {
    let start = Instant::now();
    let mut both = Comparer::new(&Library, &Model);
    if let Err(why) = compare(&mut both, &WHOLE) {
        panic!("{why}");
    }
    print(&both);
    println!("no difference in {:.1} s", start.elapsed().as_secs_f64());
    assert_seen(&both);
    assert_hit(&both);
    assert_rich(&both);
    assert_met(&both);
    assert_opened(&both);
    assert_misweighed(&both);
}

/// Every number is seen, but for those of lines and of converting.
fn assert_seen(both: &Comparer) {
    for number in (0..=number::BUFFER.into()).chain([number::WEIGHT.into()]) {
        assert!(both.numbers.contains_key(&number), "{number} never seen");
    }
}

/// Every clause is hit.
fn assert_hit(both: &Comparer) {
    for name in [CLAUSES, RECOVERIES, NEWS, SENDERS, WEIGHTS].concat() {
        assert!(both.clauses.contains_key(name), "{name} never hit");
    }
}

/// There are many lists, many of them long, and much happens in them.
fn assert_rich(both: &Comparer) {
    let (all, longer) = (&both.tally, &both.longer);
    assert!(all.lists >= 100_000 && longer.lists >= 1_000);
    assert!(all.sites.iter().filter(|&&n| n > 0).copied().eq(3..=16));
    for (sight, of_all, of_longer) in LEAST {
        assert!(all.percent(sight) >= of_all, "{sight:?} is rare");
        assert!(longer.percent(sight) >= of_longer, "{sight:?} is rare");
    }
}

/// The generated calls met all there is about the news, the sender and the weights,
/// and the reports news over the limit.
fn assert_met(both: &Comparer) {
    for meeting in Meeting::ALL {
        let count = both.meetings.get(&meeting).copied().unwrap_or(0);
        assert!(count >= LEAST_MET, "{meeting:?} is rare");
    }
    assert!(both.over_limit >= LEAST_MET);
}

/// The lists began in every way.
fn assert_opened(both: &Comparer) {
    for opening in Opening::ALL {
        let count = both.openings.get(&opening).copied().unwrap_or(0);
        assert!(count >= LEAST_MET, "{opening:?} is rare");
    }
}

/// The generated reports met all that is wrong with weights.
fn assert_misweighed(both: &Comparer) {
    for meeting in MISWEIGHED {
        let count = both.misweighed.get(&meeting).copied().unwrap_or(0);
        assert!(count >= LEAST_MET / 2, "{meeting:?} is rare in reports");
    }
}

/// The paper's own report, from the library.
#[test]
fn the_library_writes_the_report_of_the_paper() {
    let (mut store, mut world) = (vec![0xee; STORE_BYTES], vec![0xee; WORLD_BYTES]);
    let (mut result, mut buffer) = ([0xee; RESULT_BYTES], [0xee; 1024]);
    let number = Library.play_list(&M3_LIST, &mut store, &mut world, &mut result);
    assert_eq!((number, result), (0, [7, 0, 0, 0, 26, 0, 0, 0]));
    let numbers = Numbers {
        events: 7,
        stop: 0,
        place: 26,
    };
    let number = Library.report(&world, numbers, &mut buffer, &mut result);
    assert_eq!(number, 0);
    let (text, rest) = buffer.split_at(M3_REPORT.len());
    assert_eq!(result, text.len().to_le_bytes());
    assert_eq!(text, M3_REPORT.as_bytes());
    assert!(rest.iter().all(|&byte| byte == 0xee));
}

/// A copy of the model without a fault agrees; with any fault it does not, by
/// generated calls alone and with those made by hand.
#[test]
fn a_fault_in_the_model_is_noticed() {
    let sound = compare(&mut Comparer::new(&Library, &Faulty(Fault::None)), &PART);
    assert_eq!(sound, Ok(()));
    for fault in faults() {
        let faulty = Faulty(fault);
        let by_hand = made_by_hand(&mut Comparer::new(&Library, &faulty));
        let drawn = generated(&mut Comparer::new(&Library, &faulty), &PART);
        assert_noticed(fault, "by hand", by_hand);
        assert_noticed(fault, "generated", drawn);
    }
    println!("{} faults noticed", faults().count());
}

/// The calls made by hand for the sender notice its faults by themselves.
#[test]
fn a_fault_of_the_sender_is_noticed_by_its_own_calls() {
    for fault in SENDER_FAULTS {
        let faulty = Faulty(fault);
        let found = directed::senders(&mut Comparer::new(&Library, &faulty));
        assert_noticed(fault, "by the sender's calls", found);
    }
}

/// The lists and calls made by hand for the weights notice their faults by
/// themselves, but for those of a report or of a world handed in.
#[test]
fn a_fault_of_the_weights_is_noticed_by_its_own_calls() {
    for fault in WEIGHT_FAULTS {
        let faulty = Faulty(fault);
        let mut both = Comparer::new(&Library, &faulty);
        let found = directed::weights(&mut both)
            .and_then(|()| directed::worlds(&mut both))
            .and_then(|()| directed::reports(&mut both));
        assert_noticed(fault, "by the weights' calls", found);
    }
}

/// A difference is found, in one way.
fn assert_noticed(fault: Fault, way: &str, found: Result<(), String>) {
    let Err(why) = found else {
        panic!("{fault:?} is not noticed {way}");
    };
    println!("{fault:?} noticed {way}: {}", in_short(&why));
}

/// A difference on one line, its long parts cut.
fn in_short(why: &str) -> String {
    let short = |line: &str| line.chars().take(60).collect::<String>();
    let lines: Vec<String> = why.lines().take(5).map(short).collect();
    lines.join("; ")
}
