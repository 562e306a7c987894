//! A site: its log, the state read off it, and all that its record holds.

use crate::state::{Side, State};
use crate::vector::Vector;

#[derive(Clone, Copy, Debug, PartialEq, Eq, Hash)]
pub enum Role {
    Subordinate,
    Coordinator,
}

/// A group joined, with the vector as it was after joining.
#[derive(Clone, Copy, Debug, PartialEq, Eq, Hash)]
pub struct GroupRecord {
    pub side: Side,
    pub vector: Vector,
}

/// The three places of a log: what a crash leaves.
#[derive(Clone, Copy, Debug, PartialEq, Eq, Hash)]
pub struct Log {
    /// Is the prepare record there?
    pub prepare: bool,
    pub group: Option<GroupRecord>,
    pub outcome: Option<Side>,
}

impl Log {
    pub const EMPTY: Log = Log {
        prepare: false,
        group: None,
        outcome: None,
    };

    /// The outcome if there is one, else the group, else prepared, else active.
    pub fn state(&self) -> State {
        match (self.outcome, self.group_side(), self.prepare) {
            (Some(side), _, _) => State::Terminated(side),
            (None, Some(side), _) => State::InGroup(side),
            (None, None, true) => State::Prepared,
            (None, None, false) => State::Active,
        }
    }

    /// The group joined, if any.
    pub fn group_side(&self) -> Option<Side> {
        self.group.as_ref().map(|record| record.side)
    }
}

/// One club's site.
#[derive(Clone, Copy, Debug, PartialEq, Eq, Hash)]
pub struct Site {
    pub up: bool,
    pub role: Role,
    pub log: Log,
    /// What the site knows of each site.
    pub vector: Vector,
}

impl Site {
    /// A site that takes no part: down, subordinate, nothing logged or known.
    pub const IDLE: Site = Site {
        up: false,
        role: Role::Subordinate,
        log: Log::EMPTY,
        vector: Vector::ZEROS,
    };

    /// A site as it is at the start.
    pub const FRESH: Site = Site {
        up: true,
        ..Site::IDLE
    };

    pub fn state(&self) -> State {
        self.log.state()
    }

    pub fn is_coordinator(&self) -> bool {
        self.role == Role::Coordinator
    }

    /// Can this be site `own` of n?
    pub fn is_valid(&self, n: usize, own: usize) -> bool {
        let group_fits = |record: GroupRecord| {
            let joined = State::InGroup(record.side);
            record.vector.fits(n, own, joined)
        };
        self.vector.fits(n, own, self.state()) && self.log.group.is_none_or(group_fits)
    }
}
