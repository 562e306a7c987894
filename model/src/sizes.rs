//! The sizes of a competition, and the limits on them.

use crate::number;
use crate::state::Side;

/// Site records a world carries, codes in each vector, and weights.
pub const MAX_SITES: usize = 16;
/// Fewest sites in a competition.
pub const MIN_SITES: usize = 3;
/// Longest list, in bytes.
pub const MAX_LIST: usize = 32_768;

/// A weight for each site.
pub type Weights = [u8; MAX_SITES];

/// What a list's header says.
#[derive(Clone, Copy, Debug, PartialEq, Eq, Hash)]
pub struct Sizes {
    /// How many sites there are.
    pub n: usize,
    pub commit_quorum: usize,
    pub abort_quorum: usize,
    /// The willing sites, a bit for each.
    pub willing: u16,
    /// What each site weighs in a quorum; 0 from n up.
    pub weights: Weights,
}

impl Sizes {
    pub const ZEROS: Sizes = Sizes::new(0, 0, 0, 0);

    /// Takes the numbers in the first edition's order, good or bad. Each site
    /// weighs 1.
    pub const fn new(n: usize, commit_quorum: usize, abort_quorum: usize, willing: u16) -> Sizes {
        Sizes {
            n,
            commit_quorum,
            abort_quorum,
            willing,
            weights: ones(n),
        }
    }

    /// Checks 3, 21, 4 and 5, in order.
    pub fn check(&self) -> Result<(), u8> {
        check_sites(self.n)?;
        self.check_weights()?;
        self.check_quorums()?;
        self.check_willing()
    }

    /// Check 21.
    pub fn check_weights(&self) -> Result<(), u8> {
        if self.members().contains(&0) {
            return Err(number::WEIGHT);
        }
        Ok(())
    }

    /// Check 22, which the first edition needs: each site weighs 1.
    pub fn check_even(&self) -> Result<(), u8> {
        if self.members().iter().any(|&weight| weight != 1) {
            return Err(number::UNEVEN);
        }
        Ok(())
    }

    /// Check 4: each quorum can be had without the heaviest site, and they meet.
    pub fn check_quorums(&self) -> Result<(), u8> {
        let (all, commit, abort) = (self.weight(), self.commit_quorum, self.abort_quorum);
        let most = all - self.heaviest();
        if commit > most || abort > most || commit + abort <= all {
            return Err(number::QUORUMS);
        }
        Ok(())
    }

    /// Check 5.
    pub fn check_willing(&self) -> Result<(), u8> {
        if self.willing & !everyone(self.n) != 0 {
            return Err(number::WILLING);
        }
        Ok(())
    }

    /// Can a world have these sizes? They pass the checks, and no site from n
    /// up weighs anything.
    pub fn make_world(&self) -> bool {
        self.check().is_ok() && self.weights[self.n..].iter().all(|&weight| weight == 0)
    }

    /// The weights of the sites that take part.
    fn members(&self) -> &[u8] {
        &self.weights[..self.n.min(MAX_SITES)]
    }

    /// What all sites weigh.
    pub fn weight(&self) -> usize {
        let weights = self.members().iter();
        weights.map(|&weight| usize::from(weight)).sum()
    }

    /// What the heaviest site weighs.
    pub fn heaviest(&self) -> usize {
        self.members().iter().copied().max().unwrap_or(0).into()
    }

    /// The quorum that a side needs.
    pub fn quorum(&self, side: Side) -> usize {
        match side {
            Side::Commit => self.commit_quorum,
            Side::Abort => self.abort_quorum,
        }
    }

    /// Has this site made up its mind to go along?
    pub fn is_willing(&self, site: usize) -> bool {
        self.willing >> site & 1 == 1
    }
}

/// Check 3.
pub fn check_sites(n: usize) -> Result<(), u8> {
    if !(MIN_SITES..=MAX_SITES).contains(&n) {
        return Err(number::SITES);
    }
    Ok(())
}

/// A weight of 1 for each of the sites below n.
pub const fn ones(n: usize) -> Weights {
    let mut weights = [0; MAX_SITES];
    let mut site = 0;
    while site < n && site < MAX_SITES {
        weights[site] = 1;
        site += 1;
    }
    weights
}

/// A bit for each of the sites below n.
pub fn everyone(n: usize) -> u16 {
    ((1_u32 << n.min(MAX_SITES)) - 1) as u16
}
