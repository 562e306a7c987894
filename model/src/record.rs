//! Records: what steps write into logs.

use crate::layout::{side, side_byte};
use crate::state::Side;

/// The records that one step wrote, by the places of the log that they are for.
#[derive(Clone, Copy, Debug, Default, PartialEq, Eq)]
pub struct Written {
    pub prepare: bool,
    pub group: Option<Side>,
    pub outcome: Option<Side>,
}

/// One record.
#[derive(Clone, Copy, Debug, PartialEq, Eq, Hash)]
pub enum Record {
    Prepare,
    Group(Side),
    Outcome(Side),
}

impl Written {
    /// A byte for each place, 0 where nothing was written.
    pub fn bytes(&self) -> [u8; 3] {
        let [group, outcome] = [self.group, self.outcome].map(side_byte);
        [self.prepare.into(), group, outcome]
    }

    /// What these bytes say.
    pub fn of([prepare, group, outcome]: [u8; 3]) -> Written {
        Written {
            prepare: prepare == 1,
            group: side(group),
            outcome: side(outcome),
        }
    }

    /// The records, in the order of their places.
    pub fn records(self) -> impl Iterator<Item = Record> {
        let prepare = self.prepare.then_some(Record::Prepare);
        let group = self.group.map(Record::Group);
        let outcome = self.outcome.map(Record::Outcome);
        [prepare, group, outcome].into_iter().flatten()
    }
}
