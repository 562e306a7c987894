//! Writing and reading lines, the proved library beside the model.

mod comparer;
mod directed;
mod faults;

use std::time::Instant;

use model::calls::Model;
use model::flaw::Flaw;
use model::generate::Generator;

use crate::ffi::Library;
use crate::in_short;
use comparer::{LineComparer, Way};
use directed::made_by_hand;
use faults::{faults, Fault, Faulty};

const SEED: u64 = 20_270_308;

/// How much is compared.
struct Amount {
    lists: usize,
    played: usize,
    texts: usize,
    long: usize,
    crowded: usize,
}

const WHOLE: Amount = Amount {
    lists: 40_000,
    played: 5_000,
    texts: 60_000,
    long: 100,
    crowded: 200,
};

const PART: Amount = Amount {
    lists: 1_000,
    played: 100,
    texts: 4_000,
    long: 5,
    crowded: 40,
};

/// How often the generated texts must have had each flaw.
const LEAST_MET: usize = 100;

/// Every number that writing and reading give, and no other one.
const WRITTEN: [u32; 10] = [0, 1, 2, 3, 4, 5, 6, 7, 17, 20];
const READ: [u32; 8] = [0, 1, 3, 4, 5, 17, 19, 20];

/// Every clause of request (iii) in document 02, with those of document 01 that
/// it names, and the length of the result, which is docs/LAYOUT.md's. Each must
/// be hit by a call made by hand for it.
const CLAUSES: &[&str] = &[
    "write: 17 result length",
    "write: 1 over 32,768",
    "write: 2 under 5",
    "write: 3 n under 3",
    "write: 3 n over 16",
    "write: 3 a later edition",
    "write: 4 C over n - 1",
    "write: 4 A over n - 1",
    "write: 4 C + A under n + 1",
    "write: 5 willing bit at n or above",
    "write: 6 not 1 to 5",
    "write: 7 operands cut short",
    "write: 20 room short",
    "write: 1 before 3",
    "write: 2 before 3",
    "write: 3 before 4",
    "write: 4 before 5",
    "write: 5 before 6",
    "write: 5 before 7",
    "write: 6 before 7",
    "write: 20 comes last",
    "write: 0 exact room",
    "write: 0 more room",
    "read: 17 result length",
    "19 empty text",
    "19 empty line",
    "19 command first",
    "19 second sites line",
    "19 no last line feed",
    "19 carriage return",
    "19 leading blank",
    "19 trailing blank",
    "19 two blanks",
    "19 tab",
    "19 leading nought",
    "19 site past 255",
    "19 size past 255",
    "19 row past 65,535",
    "19 willing past 65,535",
    "19 long number",
    "19 sign",
    "19 no number",
    "19 upper case",
    "19 unknown word",
    "19 word missing",
    "19 word too many",
    "19 odd byte",
    "19 huge word",
    "19 huge line",
    "19 the first of two",
    "19 before 1",
    "19 before 3 to 5",
    "read: 1 over 32,768",
    "read: 1 before 3 to 5",
    "read: 3 n under 3",
    "read: 3 n over 16",
    "read: 3 a later edition",
    "read: 3 before 4",
    "read: 4 C over n - 1",
    "read: 4 A over n - 1",
    "read: 4 C + A under n + 1",
    "read: 4 before 5",
    "read: 5 willing bit at n or above",
    "read: 20 room short",
    "read: 20 comes last",
    "read: 0 exact room",
    "read: 0 more room",
    "0 the request's lines",
    "0 header only",
    "0 day M3",
    "0 commands that cannot be played",
    "0 longest text",
    "0 every row",
    "0 every site",
    "0 willing bits",
];

/// All generated calls; the first difference ends it.
fn generated(both: &mut LineComparer, amount: &Amount) -> Result<(), String> {
    let mut from = Generator::up_to(SEED, 60);
    for at in 0..amount.lists {
        rooms(both, Way::Write, &from.next_unplayed(), at)?;
    }
    for at in 0..amount.texts {
        rooms(both, Way::Read, &from.next_text(), at)?;
    }
    let mut played = Generator::up_to(SEED + 1, 160);
    for at in 0..amount.played {
        rooms(both, Way::Write, &played.next_list(), at)?;
    }
    let mut long = Generator::long(SEED + 2);
    for at in 0..amount.long {
        rooms(both, Way::Write, &long.next_unplayed(), at)?;
        rooms(both, Way::Read, &long.next_text(), at)?;
    }
    for at in 0..amount.crowded {
        rooms(both, Way::Read, &long.next_crowded(), at)?;
    }
    Ok(())
}

/// An input with the room that its output takes, and with another room. One
/// that is refused has any.
fn rooms(both: &mut LineComparer, way: Way, input: &[u8], at: usize) -> Result<(), String> {
    let Some(need) = way.need(input) else {
        both.drawn(way, input, [0, 5, 40, 600][at % 4])?;
        return Ok(());
    };
    let other = [need - 1, need + 1 + at % 9, 0, at % need][at % 4];
    both.drawn(way, input, need)?;
    both.drawn(way, input, other)?;
    Ok(())
}

fn print(both: &LineComparer) {
    let [written, read] = [Way::Write, Way::Read].map(|way| both.calls(way));
    println!("lines written {written}, lines read {read}");
    println!("texts with one flaw: {:?}", both.flaws);
    for ((way, number), count) in &both.numbers {
        println!("{way:?} number {number:2} seen {count:8}");
    }
    crate::print_clauses(&both.clauses);
}

#[test]
fn library_and_model_agree_on_lines() {
    let start = Instant::now();
    let mut both = LineComparer::new(&Library, &Model);
    let by_hand = made_by_hand(&mut both);
    if let Err(why) = by_hand.and_then(|()| generated(&mut both, &WHOLE)) {
        panic!("{why}");
    }
    print(&both);
    println!("no difference in {:.1} s", start.elapsed().as_secs_f64());
    let written = WRITTEN.map(|number| (Way::Write, number));
    let read = READ.map(|number| (Way::Read, number));
    let seen = both.numbers.keys().copied();
    assert!(seen.eq(written.into_iter().chain(read)));
    for name in CLAUSES {
        assert!(both.clauses.contains_key(name), "{name} never hit");
    }
    for flaw in Flaw::ALL {
        let count = both.flaws.get(&flaw).copied().unwrap_or(0);
        assert!(count >= LEAST_MET, "{flaw:?} is rare");
    }
}

/// A copy of the model without a fault agrees; with any fault it does not, by
/// generated calls alone and with those made by hand.
#[test]
fn a_fault_in_the_lines_is_noticed() {
    let sound = Faulty(Fault::None);
    let mut both = LineComparer::new(&Library, &sound);
    assert_eq!(made_by_hand(&mut both), Ok(()));
    assert_eq!(generated(&mut both, &PART), Ok(()));
    for fault in faults() {
        let faulty = Faulty(fault);
        let by_hand = made_by_hand(&mut LineComparer::new(&Library, &faulty));
        let drawn = generated(&mut LineComparer::new(&Library, &faulty), &PART);
        for (way, found) in [("by hand", by_hand), ("generated", drawn)] {
            let Err(why) = found else {
                panic!("{fault:?} is not noticed {way}");
            };
            println!("{fault:?} noticed {way}: {}", in_short(&why));
        }
    }
}
