//! What a club's server has on its disk, and the site that it makes of it after a crash.
//! Both are on the site's bytes, and follow the call's description alone.

use crate::layout::{CODES, GROUP_CODES, SITE_BYTES};

/// The three places of a log in a site's bytes; the group's has its codes too.
const PREPARE: usize = 2;
const GROUP: usize = 3;
const OUTCOME: usize = 4;

/// The places of the log as bytes.
#[derive(Clone, Copy, Debug, PartialEq, Eq)]
pub struct Disk {
    pub prepare: u8,
    pub group: u8,
    /// The vector in the group record.
    pub vector: [u8; 16],
    pub outcome: u8,
}

impl Disk {
    pub const EMPTY: Disk = Disk {
        prepare: 0,
        group: 0,
        vector: [0; 16],
        outcome: 0,
    };

    /// The log that is in a site's bytes.
    pub fn of(site: &[u8; SITE_BYTES]) -> Disk {
        let mut vector = [0; 16];
        vector.copy_from_slice(&site[GROUP_CODES]);
        Disk {
            prepare: site[PREPARE],
            group: site[GROUP],
            vector,
            outcome: site[OUTCOME],
        }
    }

    /// Forces what a step wrote, by the first three bytes of its result, and nothing else.
    pub fn force(&mut self, site: &[u8; SITE_BYTES], written: [u8; 3]) {
        let there = Disk::of(site);
        if written[0] != 0 {
            self.prepare = there.prepare;
        }
        if written[1] != 0 {
            (self.group, self.vector) = (there.group, there.vector);
        }
        if written[2] != 0 {
            self.outcome = there.outcome;
        }
    }

    /// What is in a place of this log that was not there before, 0 if nothing is.
    pub fn new_since(&self, before: &Disk) -> [u8; 3] {
        let new = |held: u8, now: u8| if held == now { 0 } else { now };
        [
            new(before.prepare, self.prepare),
            new(before.group, self.group),
            new(before.outcome, self.outcome),
        ]
    }

    /// The code of the state that the log says.
    pub fn state(&self) -> u8 {
        match (self.outcome, self.group, self.prepare) {
            (1 | 2, _, _) => 3 + self.outcome,
            (_, 1 | 2, _) => 1 + self.group,
            (_, _, prepare) => prepare,
        }
    }

    /// Site `own` as a crash leaves it: down, subordinate, with the log as it is; it knows
    /// what its group record says, and its own state.
    pub fn site(&self, own: usize) -> [u8; SITE_BYTES] {
        let mut site = [0; SITE_BYTES];
        site[PREPARE] = self.prepare;
        site[GROUP] = self.group;
        site[OUTCOME] = self.outcome;
        site[CODES].copy_from_slice(&self.vector);
        site[GROUP_CODES].copy_from_slice(&self.vector);
        site[CODES.start + own] = self.state();
        site
    }
}
