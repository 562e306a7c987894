//! Everyone is back, document 02, request (viii): sites 0 to n - 1 have their turns, some
//! rounds running. A site times out, its row is delivered to the others in number order,
//! and each reply is delivered back at once.

use crate::command::{Ask, Command};
use crate::play::one_command;
use crate::world::World;

/// How many rounds the request has.
pub const ROUNDS: usize = 3;

/// What comes of some rounds.
#[derive(Clone, Debug, Default, PartialEq, Eq)]
pub struct Rounds {
    /// The commands given, accepted or refused, in order.
    pub commands: Vec<Command>,
    /// How many of them were accepted.
    pub events: usize,
    /// The number of the first one that was refused.
    pub refusal: Option<u8>,
    /// Rows sent.
    pub rows: usize,
    /// Entries that rose.
    pub news: usize,
}

/// Plays so many rounds, each command as a call of its own.
pub fn play_rounds(world: &mut World, store: &mut [u8], rounds: usize) -> Rounds {
    play_rounds_by(world, store, rounds, one_command)
}

/// Plays them with another way of making such a call. A refusal leaves the world as it
/// was, and the next command is given.
pub fn play_rounds_by(
    world: &mut World,
    store: &mut [u8],
    rounds: usize,
    play: impl FnMut(&mut World, &mut [u8], Ask) -> Result<usize, u8>,
) -> Rounds {
    let (n, rows, news) = (world.sizes.n, world.row_count, world.news);
    let mut turns = Turns {
        world,
        store,
        play,
        told: Rounds::default(),
    };
    for site in (0..rounds).flat_map(|_| 0..n) {
        turns.turn(site);
    }
    Rounds {
        rows: turns.world.row_count - rows,
        news: turns.world.news - news,
        ..turns.told
    }
}

/// Rounds that are under way.
struct Turns<'a, P> {
    world: &'a mut World,
    store: &'a mut [u8],
    play: P,
    told: Rounds,
}

impl<P: FnMut(&mut World, &mut [u8], Ask) -> Result<usize, u8>> Turns<'_, P> {
    /// A site times out. Its row, if it sends one, goes to the others in number order.
    fn turn(&mut self, site: usize) {
        let Some(row) = self.give(Command::Timeout(site)) else {
            return;
        };
        for other in (0..self.world.sizes.n).filter(|&other| other != site) {
            self.visit(row, site, other);
        }
    }

    /// A site's row arrives at another one, and the reply, if there is one, at the site.
    fn visit(&mut self, row: usize, site: usize, other: usize) {
        if let Some(reply) = self.give(Command::deliver(row, other)) {
            self.give(Command::deliver(reply, site));
        }
    }

    /// Gives a command, and says which row it has sent, if any.
    fn give(&mut self, command: Command) -> Option<usize> {
        let next_row = self.world.row_count;
        let list = command.bytes();
        match (self.play)(self.world, self.store, Ask::new(&list, 0)) {
            Ok(_) => self.told.events += 1,
            Err(number) => {
                self.told.refusal.get_or_insert(number);
            }
        }
        self.told.commands.push(command);
        (self.world.row_count > next_row).then_some(next_row)
    }
}
