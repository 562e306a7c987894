//! Copies of the model with one fault each in writing a quiet day's list or in playing
//! it: the comparison has to see it.

use model::calls::{Model, Rules};
use model::command::list_of;
use model::lines::Refusal;
use model::play::{play_command, play_list_by};
use model::quiet::{self, Asked};
use model::{number, Ask, Command, Header, Output, Played, Replies, Side, Site, State, World};

use crate::common::quiet::cost;

#[derive(Clone, Copy, Debug, PartialEq, Eq)]
pub enum Fault {
    /// None: the copy is the model.
    None,
    /// The row of the third command is taken to be 2n - 1.
    MissesThirdCommand,
    /// Replies are delivered to site 1.
    RepliesToSiteOne,
    /// Each reply is delivered at once.
    RepliesAtOnce,
    /// Sites from 8 up are unwilling.
    LosesHighByte,
    /// C and A change places.
    SwapsQuorums,
    /// Of each number only the low byte is looked at.
    TakesLowBytes,
    /// A commit quorum of n passes.
    TakesWholeQuorum,
    /// Quorums of n + 1 together are refused.
    RefusesLeastQuorums,
    /// The quorums are asked before n.
    AsksQuorumsFirst,
    /// A buffer without any room is refused before all else.
    AsksRoomFirst,
    /// A buffer of exactly the list's length is refused.
    RefusesExactRoom,
    /// A buffer that is too short is changed.
    ChangesShortRoom,
    /// The byte after the list is changed.
    WritesPastList,
    /// A refusal by 20 says how long the list is.
    TellsLength,
    /// The place is the list's end.
    GivesListEnd,
    /// A list played counts one event too many.
    CountsOneMore,
    /// A site that joins the commit group commits at once.
    CommitsAtOnce,
}

/// Every fault there is.
pub const FAULTS: [Fault; 17] = [
    Fault::MissesThirdCommand,
    Fault::RepliesToSiteOne,
    Fault::RepliesAtOnce,
    Fault::LosesHighByte,
    Fault::SwapsQuorums,
    Fault::TakesLowBytes,
    Fault::TakesWholeQuorum,
    Fault::RefusesLeastQuorums,
    Fault::AsksQuorumsFirst,
    Fault::AsksRoomFirst,
    Fault::RefusesExactRoom,
    Fault::ChangesShortRoom,
    Fault::WritesPastList,
    Fault::TellsLength,
    Fault::GivesListEnd,
    Fault::CountsOneMore,
    Fault::CommitsAtOnce,
];

pub struct Faulty(pub Fault);

impl Rules for Faulty {
    fn command(&self, world: &mut World, store: &mut [u8], ask: Ask) -> Result<usize, u8> {
        let next = play_command(world, store, ask)?;
        if self.0 == Fault::CommitsAtOnce {
            let (command, _) = Command::read(ask)?;
            commit_at_once(&mut world.sites[command.site()], command.site());
        }
        Ok(next)
    }

    fn list(&self, store: &mut [u8], list: &[u8]) -> Played {
        let played = play_list_by(store, list, Header::of_list, |world, store, ask| {
            self.command(world, store, ask)
        });
        let more = usize::from(self.0 == Fault::CountsOneMore);
        Played {
            events: played.events + more,
            ..played
        }
    }

    fn quiet(&self, asked: Asked, buffer: &mut [u8]) -> Output {
        if let Some(number) = self.refusal(asked, buffer.len()) {
            return Refusal::at_start(number).into();
        }
        let output = Model.quiet(self.taken_for(asked), buffer);
        if output.number == number::NONE {
            let list = self.list_of(asked);
            buffer[..list.len()].copy_from_slice(&list);
        }
        self.spoil(buffer, output);
        self.told(asked, output)
    }
}

/// A site in the commit group has the outcome as well.
fn commit_at_once(site: &mut Site, me: usize) {
    if site.state() == State::InGroup(Side::Commit) {
        site.log.outcome = Some(Side::Commit);
        site.vector.set(me, site.state());
    }
}

impl Faulty {
    /// A refusal that is not due, or not yet.
    fn refusal(&self, asked: Asked, room: usize) -> Option<u8> {
        let [n, commit, abort] = asked;
        let is_legal = quiet::sizes(asked).check().is_ok();
        let (is_refused, number) = match self.0 {
            Fault::RefusesLeastQuorums => (is_legal && commit + abort == n + 1, number::QUORUMS),
            Fault::AsksQuorumsFirst => (commit >= n || abort >= n, number::QUORUMS),
            Fault::AsksRoomFirst => (room == 0, number::ROOM),
            Fault::RefusesExactRoom => (is_legal && room == cost(n).bytes, number::ROOM),
            _ => (false, number::NONE),
        };
        is_refused.then_some(number)
    }

    /// The sizes that the call takes for those asked for.
    fn taken_for(&self, asked: Asked) -> Asked {
        let [n, commit, abort] = asked;
        match self.0 {
            Fault::TakesLowBytes => asked.map(|number| number & 255),
            Fault::TakesWholeQuorum if commit == n => [n, n.saturating_sub(1), abort],
            _ => asked,
        }
    }

    /// The list with the fault.
    fn list_of(&self, asked: Asked) -> Vec<u8> {
        let mut sizes = quiet::sizes(self.taken_for(asked));
        let mut replies = Replies::Last;
        match self.0 {
            Fault::RepliesAtOnce => replies = Replies::AtOnce,
            Fault::LosesHighByte => sizes.willing &= 255,
            Fault::SwapsQuorums => sizes = quiet::sizes([asked[0], asked[2], asked[1]]),
            _ => {}
        }
        let commands = quiet::commands(sizes.n, replies).into_iter();
        let commands = commands.map(|command| self.redirected(sizes.n, command));
        list_of(sizes, &commands.collect::<Vec<_>>())
    }

    /// A delivery with the fault.
    fn redirected(&self, n: usize, command: Command) -> Command {
        match (self.0, command) {
            (Fault::MissesThirdCommand, Command::Deliver { row, site }) if row == 2 * n => {
                Command::deliver(2 * n - 1, site)
            }
            (Fault::RepliesToSiteOne, Command::Deliver { row, site: 0 }) => {
                Command::deliver(row, 1)
            }
            _ => command,
        }
    }

    /// Changes the buffer where that is the fault.
    fn spoil(&self, buffer: &mut [u8], output: Output) {
        let place = match (self.0, output.number) {
            (Fault::WritesPastList, number::NONE) => output.length,
            (Fault::ChangesShortRoom, number::ROOM) => 0,
            _ => return,
        };
        if let Some(byte) = buffer.get_mut(place) {
            *byte ^= 1;
        }
    }

    /// What the result says.
    fn told(&self, asked: Asked, output: Output) -> Output {
        match (self.0, output.number) {
            (Fault::TellsLength, number::ROOM) => Output {
                length: quiet::list(asked, Replies::Last).len(),
                ..output
            },
            (Fault::GivesListEnd, number::NONE) => Output {
                place: output.length,
                ..output
            },
            _ => output,
        }
    }
}
