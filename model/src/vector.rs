//! Vectors of codes: what a site knows of each site.

use crate::sizes::{Weights, MAX_SITES};
use crate::state::{Side, State};

/// Highest code.
const MAX_CODE: u8 = 5;

/// One code for each site. No code is above 5.
#[derive(Clone, Copy, Debug, PartialEq, Eq, Hash)]
pub struct Vector([u8; MAX_SITES]);

impl Vector {
    /// Nothing is known of any site.
    pub const ZEROS: Vector = Vector([0; MAX_SITES]);

    /// The vector with these codes for the first sites and 0 for the others;
    /// none if a code is above 5.
    pub fn read(codes: &[u8]) -> Option<Vector> {
        if codes.iter().any(|&code| code > MAX_CODE) {
            return None;
        }
        let mut vector = Vector::ZEROS;
        vector.0[..codes.len()].copy_from_slice(codes);
        Some(vector)
    }

    pub fn codes(&self) -> &[u8; MAX_SITES] {
        &self.0
    }

    /// Notes a site's state.
    pub fn set(&mut self, site: usize, state: State) {
        self.0[site] = state.code();
    }

    /// Is this all right for site `own` of n in that state? Its own entry
    /// says so, and nothing is said of sites from n up.
    pub fn fits(&self, n: usize, own: usize, state: State) -> bool {
        self.0[own] == state.code() && self.0[n..].iter().all(|&code| code == 0)
    }

    /// How many sites are known to be in a state.
    pub fn count(&self, state: State) -> usize {
        let code = state.code();
        self.0.iter().filter(|&&held| held == code).count()
    }

    /// What the sites weigh together that are known to be in a state.
    pub fn weigh(&self, state: State, weights: &Weights) -> usize {
        let code = state.code();
        let entries = self.0.iter().zip(weights);
        let found = entries.filter(|(&held, _)| held == code);
        found.map(|(_, &weight)| usize::from(weight)).sum()
    }

    /// Merges a sender's row into what site `own` knows: the sender's entry first,
    /// which is nearly always the news, then the others' in number order. A row
    /// from the site itself has no such entry. Gives the news: how many rose.
    pub fn merge(&mut self, told: &Vector, own: usize, sender: usize) -> usize {
        let first = sender != own && self.take(told, sender);
        let others = (0..MAX_SITES).filter(|&site| site != own && site != sender);
        usize::from(first) + self.merge_in(told, others)
    }

    /// Merges what is told of these sites, in this order. Gives the news.
    pub fn merge_in(&mut self, told: &Vector, order: impl Iterator<Item = usize>) -> usize {
        order.map(|site| usize::from(self.take(told, site))).sum()
    }

    /// Takes what is told of a site if its level is higher than the one held.
    /// Did the entry rise?
    fn take(&mut self, told: &Vector, site: usize) -> bool {
        let rises = level(told.0[site]) > level(self.0[site]);
        if rises {
            self.0[site] = told.0[site];
        }
        rises
    }

    /// The outcome that some entry shows, the lowest site's first.
    pub fn outcome(&self) -> Option<Side> {
        self.0.iter().find_map(|&code| outcome_of(code))
    }
}

/// How far along a code is.
pub fn level(code: u8) -> u8 {
    match code {
        0 => 0,
        1 => 1,
        2 | 3 => 2,
        _ => 3,
    }
}

/// The outcome that a code shows, if it does.
pub fn outcome_of(code: u8) -> Option<Side> {
    match code {
        4 => Some(Side::Commit),
        5 => Some(Side::Abort),
        _ => None,
    }
}
