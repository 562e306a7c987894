//! Days made by hand from which the rounds begin, and how they end.

use model::sizes::everyone;
use model::{number, Command, Side, Sizes};

use crate::common::quiet::SITES;
use crate::common::rounds::claim::{most_rows, Tried};
use crate::common::rounds::{complete_votes, split, winner, with_free_rows, Reached};
use crate::common::{all_willing, three_sites, weighted};

/// How a day ends.
#[derive(Clone, Copy, Debug)]
pub enum Due {
    /// Everyone has this outcome.
    Ended(Side),
    /// The first refusal has this number.
    Refused(u8),
    /// Nothing is refused, and nobody has an outcome.
    Open,
}

impl Due {
    /// Has it ended like this?
    pub fn check(self, tried: &Tried) -> Result<(), String> {
        let refusal = tried.told.refusal;
        let mut members = tried.after.members().iter();
        let is_due = match self {
            Due::Ended(side) => tried.check()? == side,
            Due::Refused(number) => refusal == Some(number),
            Due::Open => refusal.is_none() && members.all(|site| site.log.outcome.is_none()),
        };
        is_due.then_some(()).ok_or(format!("{self:?} is due\n"))
    }
}

/// Every day, and how it ends.
pub fn days() -> Vec<(Reached, Due)> {
    [all_sites(), splits(), premises()].concat()
}

/// Nothing at all, START alone and complete votes, for every number of sites.
fn all_sites() -> Vec<(Reached, Due)> {
    let days = SITES.flat_map(|n| {
        let fresh = Reached::fresh(all_willing(n));
        let mut started = fresh.clone();
        started.play(Command::Start);
        let votes = complete_votes(all_willing(n));
        let aborted = [fresh, started].map(|day| (day, Due::Ended(Side::Abort)));
        let committed = (votes, Due::Ended(Side::Commit));
        aborted.into_iter().chain([committed])
    });
    days.collect()
}

/// All ways in which four sites, and five of different weight, can be in groups.
fn splits() -> Vec<(Reached, Due)> {
    let sizes = [
        Sizes::new(4, 2, 3, 15),
        Sizes::new(4, 3, 2, 15),
        weighted(&[5, 4, 1, 1, 3], 8, 7),
        weighted(&[255, 1, 254, 2, 3], 259, 257),
    ];
    let ways = sizes.into_iter().flat_map(|sizes| {
        let masks = 0..=everyone(sizes.n);
        masks.map(move |commit| (split(sizes, commit), Due::Ended(winner(&sizes, commit))))
    });
    ways.collect()
}

/// Days on which a premise is not met, or only just.
fn premises() -> Vec<(Reached, Due)> {
    let stuck = split(Sizes::new(4, 3, 3, 15), 0b0011);
    let rooms = [3, 4, 16].into_iter().flat_map(|n| {
        let enough = with_free_rows(n, most_rows(n));
        let too_few = with_free_rows(n, most_rows(n) - 1);
        let full = Due::Refused(number::FULL);
        [(enough, Due::Ended(Side::Commit)), (too_few, full)]
    });
    let down = (0..3).map(|site| {
        let mut day = complete_votes(three_sites(7));
        day.play(Command::Crash(site));
        (day, Due::Refused(number::DOWN))
    });
    let others = rooms.chain(down);
    others.chain([(stuck, Due::Open)]).collect()
}
