//! The two sides, the states of a site and the codes that stand for them.

/// The two ways a competition can go.
#[derive(Clone, Copy, Debug, PartialEq, Eq, Hash)]
pub enum Side {
    Commit,
    Abort,
}

/// A site's state. In a vector, a site of which nothing is known is active.
#[derive(Clone, Copy, Debug, PartialEq, Eq, Hash)]
pub enum State {
    Active,
    Prepared,
    InGroup(Side),
    Terminated(Side),
}

impl State {
    /// The code that stands for the state in a vector.
    pub fn code(self) -> u8 {
        match self {
            State::Active => 0,
            State::Prepared => 1,
            State::InGroup(Side::Commit) => 2,
            State::InGroup(Side::Abort) => 3,
            State::Terminated(Side::Commit) => 4,
            State::Terminated(Side::Abort) => 5,
        }
    }

    /// The word the report uses.
    pub fn name(self) -> &'static str {
        match self {
            State::Active => "active",
            State::Prepared => "prepared",
            State::InGroup(Side::Commit) => "commit-group",
            State::InGroup(Side::Abort) => "abort-group",
            State::Terminated(Side::Commit) => "committed",
            State::Terminated(Side::Abort) => "aborted",
        }
    }
}
