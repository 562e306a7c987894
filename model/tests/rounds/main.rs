//! When everyone is back it finishes, document 02, request (viii): the schedule itself,
//! what three rounds cost and where they lead, from worlds made by hand, generated ones
//! and all that three sites can reach in a few events.

#[path = "../common/mod.rs"]
mod common;

mod cost;
mod generated;
mod premises;
mod reach;
mod schedule;
mod splits;
mod variants;

use model::sizes::everyone;
use model::Sizes;

use common::quiet::SITES;

const SEED: u64 = 20_270_620;

/// All legal quorums of n willing sites that just meet.
fn just_meeting(n: usize) -> impl Iterator<Item = Sizes> {
    (2..n).map(move |commit| Sizes::new(n, commit, n + 1 - commit, everyone(n)))
}

/// The same of every number of sites.
fn all_just_meeting() -> impl Iterator<Item = Sizes> {
    SITES.flat_map(just_meeting)
}
