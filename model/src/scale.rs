//! What a coordinator in a group has on the scale when it times out: the weight of
//! those that it knows to be in its group, beside how many they are.

use crate::site::Site;
use crate::sizes::Sizes;
use crate::state::{Side, State};

pub struct Scale {
    pub side: Side,
    /// What the quorum asks for.
    quorum: usize,
    /// What the group's entries weigh together, and how many they are.
    weight: usize,
    count: usize,
    /// The same of all sites.
    all: usize,
    n: usize,
}

impl Scale {
    /// None unless the site is a coordinator in a group.
    pub fn of(sizes: &Sizes, site: &Site) -> Option<Scale> {
        let joined @ State::InGroup(side) = site.state() else {
            return None;
        };
        site.is_coordinator().then(|| Scale {
            side,
            quorum: sizes.quorum(side),
            weight: site.vector.weigh(joined, &sizes.weights),
            count: site.vector.count(joined),
            all: sizes.weight(),
            n: sizes.n,
        })
    }

    /// Do these entries weigh enough, though there are fewer than the quorum asks
    /// for?
    pub fn is_by_weight_alone(&self) -> bool {
        self.weight >= self.quorum && self.count < self.quorum
    }

    /// Do they weigh too little, though their share of the sites is that of the
    /// quorum? As many as the quorum asks for always weigh enough.
    pub fn is_too_light(&self) -> bool {
        self.weight < self.quorum && self.count * self.all >= self.quorum * self.n
    }

    /// Do they weigh just enough?
    pub fn is_just_enough(&self) -> bool {
        self.weight == self.quorum
    }

    /// Do they weigh one less than enough?
    pub fn is_one_short(&self) -> bool {
        self.weight + 1 == self.quorum
    }
}
