//! The quiet day of document 02, request (v): all sites are willing, every message
//! arrives, and site 0 leads from START to the last ack.

use crate::command::{list_of, Command};
use crate::lines::{put, Output, Refusal};
use crate::sizes::{everyone, Sizes};

/// What a quiet day is asked for with, good or bad: n, C and A.
pub type Asked = [usize; 3];

/// When the replies to a command arrive. They have the same row numbers either way,
/// for the command's deliveries have the same order.
#[derive(Clone, Copy, Debug, PartialEq, Eq)]
pub enum Replies {
    /// After all of the command's deliveries.
    Last,
    /// Each right after the delivery that made it.
    AtOnce,
}

impl Replies {
    pub const BOTH: [Replies; 2] = [Replies::Last, Replies::AtOnce];

    /// A command's row arrives at sites 1 to n - 1, and the reply of each, which is as
    /// many rows further as the site's number is, at site 0.
    fn deliveries(self, n: usize, row: usize) -> Vec<Command> {
        let there = (1..n).map(|site| Command::deliver(row, site));
        let back = (1..n).map(|site| Command::deliver(row + site, 0));
        match self {
            Replies::Last => there.chain(back).collect(),
            Replies::AtOnce => there.zip(back).flat_map(<[Command; 2]>::from).collect(),
        }
    }
}

/// What site 0 does to begin each round: it prepares, joins and commits.
const OPENINGS: [Command; 3] = [Command::Start, Command::Timeout(0), Command::Timeout(0)];

/// The commands of a quiet day. A round has n rows, its command's and n - 1 replies.
pub fn commands(n: usize, replies: Replies) -> Vec<Command> {
    let rounds = OPENINGS.into_iter().enumerate();
    rounds
        .flat_map(|(round, opening)| [vec![opening], replies.deliveries(n, round * n)].concat())
        .collect()
}

/// The sizes of a quiet day: all sites are willing.
pub fn sizes([n, commit, abort]: Asked) -> Sizes {
    Sizes::new(n, commit, abort, everyone(n))
}

/// The list of a quiet day.
pub fn list(asked: Asked, replies: Replies) -> Vec<u8> {
    let sizes = sizes(asked);
    list_of(sizes, &commands(sizes.n, replies))
}

/// Writes the list of a quiet day, with each round's replies last. Checks 3, 4 and
/// 20, in order; the place is always 0.
pub fn write_quiet(asked: Asked, buffer: &mut [u8]) -> Output {
    let checked = sizes(asked).check().map_err(Refusal::at_start);
    put(0, checked.map(|()| list(asked, Replies::Last)), buffer)
}
