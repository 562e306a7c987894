//! The base world and what the calls on it need.

use model::command::list_of;
use model::row::STORE_BYTES;
use model::sizes::everyone;
use model::{play_list, Ask, Command, Numbers, Sizes, World};

use Command::{Crash, Start, Timeout};

pub type Done = Result<(), String>;

/// Numbers that a report can be asked for with.
pub const SOME: Numbers = Numbers {
    events: 13,
    stop: 0,
    place: 44,
};

pub const fn deliver(row: usize, site: usize) -> Command {
    Command::deliver(row, site)
}

/// The command that a list begins with.
pub const fn first(list: &[u8]) -> Ask<'_> {
    Ask::new(list, 0)
}

/// Five sites, quorums of three. Sites 0 to 2 are in the commit group, 3 is
/// prepared, 4 is prepared and down. Eight rows; row 5 is a join, row 6 a reply.
/// The news is 16: four prepares and four votes of 1 each, and row 5, 2 1 1 1 1,
/// twice to a site that knows of site 0 and itself alone.
pub fn base() -> (World, Vec<u8>) {
    let mut commands = vec![Start];
    commands.extend((1..5).map(|site| deliver(0, site)));
    commands.extend((1..5).map(|row| deliver(row, 0)));
    commands.extend([Timeout(0), deliver(5, 1), deliver(5, 2), Crash(4)]);
    let list = list_of(Sizes::new(5, 3, 3, everyone(5)), &commands);
    let mut store: Vec<u8> = (0..STORE_BYTES + 3).map(|at| (at * 11 + 5) as u8).collect();
    let played = play_list(&mut store, &list);
    let world = played.world;
    assert_eq!((played.number, world.row_count, world.news), (0, 8, 16));
    (world, store)
}
