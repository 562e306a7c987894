//! Histories made by hand in which one fault breaks the claim: the same steps without it
//! break nothing.

use std::collections::BTreeSet;

use model::calls::Model;
use model::claim::Broken;
use model::network::{ByCall, Happening};
use model::sizes::everyone;
use model::{Event, Network, Sizes};

use super::faults::{Fault, Faulty};
use super::in_step::Side;
use super::servers::Fault as ServerFault;
use crate::common::{three_sites, weighted};
use crate::ffi::Library;
use Event::{Crash, Deliver, Recover, Start, Timeout};

/// Everyone has said yes. Site 1 crashes and comes back; the others commit meanwhile.
const CRASH_AFTER_VOTE: [Happening; 11] = [
    (0, Start),
    (1, Deliver(0)),
    (2, Deliver(0)),
    (0, Deliver(1)),
    (0, Deliver(2)),
    (1, Crash),
    (1, Recover),
    (0, Timeout),
    (2, Deliver(3)),
    (0, Deliver(4)),
    (0, Timeout),
];

/// Site 0 is in the abort group, and so is site 3, which never prepared. Site 1 leads
/// and hears from all, and site 2 follows it.
const THREES: [Happening; 16] = [
    (0, Start),
    (1, Deliver(0)),
    (2, Deliver(0)),
    (0, Timeout),
    (3, Deliver(3)),
    (1, Timeout),
    (2, Deliver(5)),
    (1, Deliver(6)),
    (0, Deliver(5)),
    (1, Deliver(7)),
    (3, Deliver(5)),
    (1, Deliver(8)),
    (1, Timeout),
    (2, Deliver(9)),
    (1, Deliver(10)),
    (1, Timeout),
];

/// Sites 1 and 3 are in the commit group, which site 1 leads, and sites 0 and 2 in the
/// abort group, which site 0 leads.
const TWO_GROUPS: [Happening; 18] = [
    (0, Start),
    (1, Deliver(0)),
    (2, Deliver(0)),
    (3, Deliver(0)),
    (1, Timeout),
    (0, Deliver(4)),
    (2, Deliver(4)),
    (3, Deliver(4)),
    (1, Deliver(6)),
    (1, Deliver(7)),
    (1, Timeout),
    (3, Deliver(8)),
    (1, Deliver(9)),
    (1, Timeout),
    (0, Timeout),
    (2, Deliver(11)),
    (0, Deliver(12)),
    (0, Timeout),
];

/// What these steps break; those that are refused, or deliver a row that is not there,
/// do nothing.
fn broken((side, servers): Side, sizes: Sizes, history: &[Happening]) -> BTreeSet<Broken> {
    let mut network = Network::new(side, servers, sizes);
    for &happening in history {
        network.step(happening);
    }
    network.broken
}

/// The fault breaks these parts, and without it both sides break none.
fn assert_breaks(side: Side, sizes: Sizes, history: &[Happening], due: &[Broken]) {
    assert!(broken(side, sizes, history).iter().eq(due));
    for sound in [(&Model as _, &ByCall as _), (&Library as _, &ByCall as _)] {
        assert_eq!(broken(sound, sizes, history), BTreeSet::new());
    }
}

/// A club that has sent its vote and lost its prepare record aborts, while the others count
/// it as prepared and commit.
#[test]
fn a_lost_prepare_record_makes_two_outcomes() {
    let due = [Broken::TwoOutcomes];
    let sizes = three_sites(7);
    let server = (&Model as _, &ServerFault::LosesPrepare as _);
    assert_breaks(server, sizes, &CRASH_AFTER_VOTE, &due);
    let step = Faulty(Fault::LosesPrepare);
    assert_breaks((&step, &ByCall), sizes, &CRASH_AFTER_VOTE, &due);
    let late = (&Model as _, &ServerFault::ForcesLate as _);
    assert_breaks(late, sizes, &CRASH_AFTER_VOTE, &due);
}

/// A 3 is no prepare: a site that never prepared would be committed.
#[test]
fn a_three_taken_for_a_prepare_commits_an_unprepared_site() {
    let sizes = Sizes::new(4, 2, 3, everyone(4));
    let step = Faulty(Fault::TakesThreeForPrepare);
    assert_breaks((&step, &ByCall), sizes, &THREES, &[Broken::NotPrepared]);
}

/// Sites of 5, 1, 1 and 4, quorums of 6. Sites 1 and 3 weigh 5, but site 1 takes the 5 of
/// site 0 for that of site 3.
#[test]
fn other_weights_make_two_outcomes() {
    let sizes = weighted(&[5, 1, 1, 4], 6, 6);
    let server = (&Model as _, &ServerFault::OtherWeights as _);
    assert_breaks(server, sizes, &TWO_GROUPS, &[Broken::TwoOutcomes]);
}

/// Four sites that weigh the same, a commit quorum of 3 and an abort quorum of 2; site 1
/// has it the other way round.
#[test]
fn other_quorums_make_two_outcomes() {
    let sizes = Sizes::new(4, 3, 2, everyone(4));
    let server = (&Model as _, &ServerFault::SmallCommit as _);
    assert_breaks(server, sizes, &TWO_GROUPS, &[Broken::TwoOutcomes]);
}
