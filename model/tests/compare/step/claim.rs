//! What a fault breaks in generated histories where all sites of a network have it, or all
//! servers do: parts of what is claimed of all records, or none. Two that are too seldom
//! met there are in histories made by hand, breaking.rs.

use std::collections::BTreeSet;

use model::calls::Model;
use model::claim::Broken;
use model::generate::{Course, Rng};
use model::network::{ByCall, FromDisk, Servers};

use super::faults::{Fault, Faulty};
use super::in_step::Side;
use super::servers::Fault as ServerFault;
use super::SEED;
use crate::ffi::Library;
use Broken::{NotPrepared, NotWilling, SecondGroup, SecondOutcome, TwoOutcomes};

/// How many histories of three or four sites there are for each fault, and how long they
/// are.
const HISTORIES: u64 = 800;
const STEPS: usize = 90;

/// Faults of the step with servers that leave a crash to the call.
const OF_STEPS: [(Fault, &[Broken]); 22] = [
    (Fault::StartsAnywhere, &[]),
    (Fault::StartsAgain, &[NotPrepared]),
    (Fault::TakesAnyRow, &[]),
    (Fault::TellsNothing, &[]),
    (Fault::ForgetsAdopted, &[]),
    (Fault::ForgetsRestart, &[]),
    (Fault::SendsOldVector, &[]),
    (Fault::SendsToAll, &[]),
    (Fault::KeepsCodes, &[]),
    (Fault::KeepsRole, &[]),
    (Fault::LosesVector, &[]),
    (Fault::LosesPrepare, &[TwoOutcomes]),
    (Fault::LosesGroup, &[TwoOutcomes, SecondGroup]),
    (Fault::LosesOutcome, &[SecondOutcome]),
    (Fault::ComesBackActive, &[]),
    (Fault::TellsOfRestart, &[]),
    (Fault::LeavesAbortGroup, &[TwoOutcomes, SecondGroup]),
    (Fault::JoinsCommitActive, &[]),
    (Fault::CountsEntries, &[]),
    (Fault::NeedsLess, &[TwoOutcomes]),
    (Fault::PreparesUnwilling, &[NotWilling]),
    (Fault::DecidesAtOnce, &[]),
];

/// Some of them with servers that have nothing but their disk after a crash.
const WITH_DISKS: [(Fault, &[Broken]); 6] = [
    (Fault::TellsNothing, &[TwoOutcomes, SecondOutcome]),
    (Fault::ForgetsAdopted, &[SecondOutcome]),
    (Fault::ForgetsRestart, &[SecondOutcome]),
    (Fault::LosesPrepare, &[]),
    (Fault::LosesGroup, &[]),
    (Fault::LosesOutcome, &[]),
];

/// Faults of the servers, around the library.
const OF_SERVERS: [(ServerFault, &[Broken]); 18] = [
    (ServerFault::LosesPrepare, &[TwoOutcomes]),
    (ServerFault::LosesGroup, &[TwoOutcomes, SecondGroup]),
    (ServerFault::LosesOutcome, &[SecondOutcome]),
    (ServerFault::LosesLog, &[TwoOutcomes, SecondOutcome]),
    (ServerFault::LosesVector, &[]),
    (
        ServerFault::ForcesLate,
        &[TwoOutcomes, SecondGroup, SecondOutcome],
    ),
    (ServerFault::FreshIfEmpty, &[]),
    (
        ServerFault::FreshAlways,
        &[TwoOutcomes, NotPrepared, SecondGroup, SecondOutcome],
    ),
    (ServerFault::KeepsMemory, &[]),
    (ServerFault::SmallCommit, &[TwoOutcomes]),
    (ServerFault::SmallAbort, &[TwoOutcomes]),
    (ServerFault::OtherNumber, &[]),
    (ServerFault::Misdirects, &[]),
    (ServerFault::OtherSender, &[]),
    (ServerFault::TellsLess, &[]),
    (
        ServerFault::MakesUpVotes,
        &[TwoOutcomes, NotPrepared, NotWilling],
    ),
    (
        ServerFault::RaisesSender,
        &[TwoOutcomes, NotPrepared, NotWilling],
    ),
    (
        ServerFault::OtherCompetition,
        &[TwoOutcomes, NotPrepared, NotWilling],
    ),
];

/// A history along such a network, every second one a duel.
fn course(side: Side, at: u64) -> Course {
    let mut rng = Rng::new(SEED + at);
    let sizes = Course::few_sites(&mut rng);
    match at % 2 {
        0 => Course::wander(&mut rng, side, sizes, STEPS),
        _ => Course::quarrel(&mut rng, side, sizes, (30, STEPS)),
    }
}

/// All that is broken in histories along such a network, until these parts are.
fn broken(side: Side, due: &[Broken]) -> BTreeSet<Broken> {
    let mut broken = BTreeSet::new();
    for at in 0..HISTORIES {
        broken.extend(course(side, at).network.broken);
        if !broken.is_empty() && broken.iter().eq(due) {
            break;
        }
    }
    broken
}

/// These parts are broken, and no other one.
fn assert_broken(name: &str, side: Side, due: &[Broken]) {
    let found = broken(side, due);
    println!("{name} breaks {found:?}");
    assert!(found.iter().eq(due), "{name}: {due:?} are due");
}

/// Faults of the step, with these servers.
fn assert_of_steps(servers: &dyn Servers, faults: &[(Fault, &[Broken])]) {
    for &(fault, due) in faults {
        assert_broken(&format!("{fault:?}"), (&Faulty(fault), servers), due);
    }
}

#[test]
fn what_faults_break() {
    assert_broken("nothing wrong", (&Model, &ByCall), &[]);
    assert_broken("nothing wrong with the library", (&Library, &FromDisk), &[]);
    assert_of_steps(&ByCall, &OF_STEPS);
    assert_of_steps(&FromDisk, &WITH_DISKS);
    for (fault, due) in OF_SERVERS {
        assert_broken(
            &format!("{fault:?} of the servers"),
            (&Library, &fault),
            due,
        );
    }
}
