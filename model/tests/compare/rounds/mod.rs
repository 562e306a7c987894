//! Everyone is back, the proved library beside the model: the schedule in step, and what
//! is claimed of it.

mod days;
mod faults;
mod in_step;

use std::time::Instant;

use model::calls::{Calls, Model};

use crate::common::rounds::claim::Broken;
use crate::common::rounds::sorts::{End, Met};
use crate::common::rounds::{worlds, Reached};
use crate::faults::{Fault as FaultOfPlay, Faulty as FaultyInPlay};
use crate::ffi::Library;
use crate::in_short;
use days::days;
use faults::{Fault, Faulty};
use in_step::InStep;

const SEED: u64 = 20_270_621;

/// How many generated worlds are compared, and how many for each fault.
const WHOLE: usize = 1_500;
const PART: usize = 150;

/// How many days are made by hand: three for each number of sites, the splits, and those
/// about the premises.
const DAYS: usize = 3 * 14 + 2 * 16 + 2 * 32 + 10;

/// How many worlds of each sort there must be.
const LEAST: usize = 25;

/// All days made by hand; gives how many.
fn made_by_hand(both: &mut InStep) -> Result<usize, String> {
    let days = days();
    for (day, due) in &days {
        due.check(&both.day(day)?)?;
    }
    Ok(days.len())
}

/// Generated worlds.
fn generated(both: &mut InStep, count: usize) -> Result<Met, String> {
    let mut met = Met::default();
    for (day, back) in worlds(SEED).take(count) {
        let tried = both.day(&day)?;
        let side = tried.check()?;
        let needed = day.rounds_needed().ok_or("they have not ended")?;
        met.add(&tried, End { back, side, needed });
    }
    Ok(met)
}

#[test]
fn library_and_model_agree_on_the_rounds() {
    let start = Instant::now();
    let mut both = InStep::new(&Library, &Model);
    let days = made_by_hand(&mut both).unwrap_or_else(|why| panic!("{why}"));
    assert_eq!(days, DAYS);
    let calls = both.calls;
    let met = generated(&mut both, WHOLE).unwrap_or_else(|why| panic!("{why}"));
    println!("rounds by hand: {days} worlds, {calls} calls");
    println!("rounds generated: {} calls, {met}", both.calls - calls);
    println!("no difference in {:.1} s", start.elapsed().as_secs_f64());
    assert_eq!(met.events, both.calls - calls);
    assert!(met.sites.iter().copied().eq(3..=16));
    met.assert_rich(LEAST);
}

/// The faults of the rules that the rounds rest on, and what breaks where both sides have
/// them: by some the rounds only take another way.
const FAULTS: [(Fault, Option<Broken>); 11] = [
    (Fault::StaysActive, Some(Broken::Claim)),
    (Fault::TellsOfAbort, Some(Broken::Rest)),
    (Fault::DecidesAtOnce, None),
    (Fault::NeverDecides, Some(Broken::Claim)),
    (Fault::NeverAborts, Some(Broken::Claim)),
    (Fault::WaitsForAll, None),
    (Fault::EndedWaits, Some(Broken::Rest)),
    (Fault::EndedKeepsSilent, Some(Broken::Rest)),
    (Fault::LeaderIgnores, Some(Broken::Claim)),
    (Fault::LeaderKeepsSilent, Some(Broken::Rest)),
    (Fault::LeaderStepsDown, Some(Broken::Claim)),
];

/// Some faults of playing, likewise.
const FAULTS_OF_PLAY: [(FaultOfPlay, Option<Broken>); 11] = [
    (FaultOfPlay::CountsAllEntries, None),
    (FaultOfPlay::LeavesAbortGroup, Some(Broken::Claim)),
    (FaultOfPlay::WritesPastRows, None),
    (FaultOfPlay::CountsOwnChange, Some(Broken::Rest)),
    (FaultOfPlay::CountsSenderTwice, Some(Broken::Rest)),
    (FaultOfPlay::TakesSenderAlone, None),
    (FaultOfPlay::CountsCommitEntries, Some(Broken::Claim)),
    (FaultOfPlay::CountsAbortEntries, Some(Broken::Claim)),
    (FaultOfPlay::WrapsWeight, Some(Broken::Claim)),
    (FaultOfPlay::NeedsMoreWeight, Some(Broken::Claim)),
    (FaultOfPlay::NeedsLessWeight, None),
];

/// A fault's name, a side that has it, and what breaks where both have it.
type Case = (String, Box<dyn Calls>, Option<Broken>);

/// All faults.
fn cases() -> impl Iterator<Item = Case> {
    let of_rounds = FAULTS.into_iter().map(|(fault, due)| {
        let side: Box<dyn Calls> = Box::new(Faulty(fault));
        (format!("{fault:?}"), side, due)
    });
    let of_play = FAULTS_OF_PLAY.into_iter().map(|(fault, due)| {
        let side: Box<dyn Calls> = Box::new(FaultyInPlay(fault));
        (format!("{fault:?}"), side, due)
    });
    of_rounds.chain(of_play)
}

/// A copy of the model without a fault agrees; with any fault it does not, in days made
/// by hand and in generated worlds alone.
#[test]
fn a_fault_in_the_rounds_is_noticed() {
    let sound = Faulty(Fault::None);
    let mut both = InStep::new(&Library, &sound);
    assert_eq!(made_by_hand(&mut both), Ok(DAYS));
    assert!(generated(&mut both, PART).is_ok());
    let by_hand: Vec<Reached> = days().into_iter().map(|(day, _)| day).collect();
    let drawn: Vec<Reached> = worlds(SEED).take(PART).map(|(day, _)| day).collect();
    for (fault, side, _) in cases() {
        assert_noticed(&fault, "by hand", difference(&*side, &by_hand));
        assert_noticed(&fault, "generated", difference(&*side, &drawn));
    }
    println!("{} faults noticed in the rounds", cases().count());
}

/// The first difference between a side and the library.
fn difference(side: &dyn Calls, days: &[Reached]) -> Option<String> {
    let mut both = InStep::new(&Library, side);
    days.iter().find_map(|day| both.rounds(day).err())
}

/// A difference is found, in one way.
fn assert_noticed(fault: &str, way: &str, found: Option<String>) {
    let Some(why) = found else {
        panic!("{fault} is not noticed in the rounds, {way}");
    };
    println!("{fault} noticed in the rounds, {way}: {}", in_short(&why));
}

/// What both sides do wrong alike no comparison sees, but it breaks what is claimed of
/// the rounds, or what else holds of them.
#[test]
fn a_fault_of_both_sides_shows_in_the_rounds() {
    let days: Vec<Reached> = days().into_iter().map(|(day, _)| day).collect();
    assert_eq!(broken(&Model, &days), None);
    for (fault, side, due) in cases() {
        let found = broken(&*side, &days);
        println!("{fault} on both sides breaks {found:?}");
        assert_eq!(found.map(|(broken, _)| broken), due, "{fault}");
    }
}

/// What breaks where both sides are like this, on the days that meet the premises.
fn broken(side: &dyn Calls, days: &[Reached]) -> Option<(Broken, String)> {
    let mut both = InStep::new(side, side);
    let ready = days.iter().filter(|day| day.is_ready());
    let found = ready.filter_map(|day| {
        let (tried, _) = both.rounds(day).expect("a side agrees with itself");
        tried.broken()
    });
    found.min()
}
