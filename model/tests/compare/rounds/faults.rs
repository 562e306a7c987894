//! Copies of the model with one fault each in what the rounds rest on: the comparison
//! has to see it.

use model::calls::Rules;
use model::play::play_command;
use model::sizes::everyone;
use model::world::MAX_ROWS;
use model::{Ask, Command, Kind, Role, Row, Side, Site, State, World};

#[derive(Clone, Copy, Debug, PartialEq, Eq)]
pub enum Fault {
    /// None: the copy is the model.
    None,
    /// TIMEOUT of an active site changes nothing.
    StaysActive,
    /// TIMEOUT of an active site sends the outcome.
    TellsOfAbort,
    /// A subordinate that times out decides at once.
    DecidesAtOnce,
    /// A coordinator in a group sends the join again, whatever it knows.
    NeverDecides,
    /// One in the abort group does.
    NeverAborts,
    /// A prepared coordinator that may not join the commit group joins none.
    WaitsForAll,
    /// A site that has ended sends nothing when it times out.
    EndedWaits,
    /// A site that has ended does not reply.
    EndedKeepsSilent,
    /// A coordinator does not look at commands.
    LeaderIgnores,
    /// A coordinator looks at them, but does not reply.
    LeaderKeepsSilent,
    /// A coordinator becomes a subordinate where a command arrives.
    LeaderStepsDown,
}

pub struct Faulty(pub Fault);

impl Rules for Faulty {
    fn command(&self, world: &mut World, store: &mut [u8], ask: Ask) -> Result<usize, u8> {
        let before = *world;
        let (command, _) = Command::read(ask)?;
        if let (Command::Timeout(me), true) = (command, command.site() < before.sizes.n) {
            world.sites[me].role = self.taken_for(before.sizes.n, &before.sites[me]);
        }
        let played = play_command(world, store, ask);
        match (played, command) {
            (Err(_), _) => *world = before,
            (_, Command::Timeout(me)) => self.time_out(&before, world, store, me),
            (_, Command::Deliver { site, .. }) => self.deliver(&before, world, site),
            _ => {}
        }
        played
    }
}

impl Faulty {
    /// The role that a site is taken to have when it times out: a coordinator decides,
    /// a subordinate does not.
    fn taken_for(&self, n: usize, site: &Site) -> Role {
        let knows = |state| site.vector.count(state);
        let may_commit = knows(State::Prepared) == n || knows(State::InGroup(Side::Commit)) > 0;
        match (self.0, site.state()) {
            (_, State::Active) => site.role,
            (Fault::DecidesAtOnce, _) => Role::Coordinator,
            (Fault::NeverDecides, State::InGroup(_)) => Role::Subordinate,
            (Fault::NeverAborts, State::InGroup(Side::Abort)) => Role::Subordinate,
            (Fault::WaitsForAll, State::Prepared) if !may_commit => Role::Subordinate,
            _ => site.role,
        }
    }

    /// An accepted TIMEOUT.
    fn time_out(&self, before: &World, world: &mut World, store: &mut [u8], me: usize) {
        match (self.0, before.sites[me].state()) {
            (Fault::StaysActive, State::Active) => *world = *before,
            (Fault::EndedWaits, State::Terminated(_)) => *world = *before,
            (Fault::TellsOfAbort, State::Active) if world.row_count < MAX_ROWS => {
                let row = Row {
                    kind: Kind::Outcome,
                    sender: me,
                    to: everyone(world.sizes.n) & !(1 << me),
                    vector: world.sites[me].vector,
                };
                row.write(store, world.row_count);
                world.row_count += 1;
            }
            _ => {}
        }
    }

    /// An accepted delivery. Only a command has a reply.
    fn deliver(&self, before: &World, world: &mut World, me: usize) {
        let held = &before.sites[me];
        if world.row_count == before.row_count {
            return;
        }
        match (self.0, held.role, held.state()) {
            (Fault::LeaderIgnores, Role::Coordinator, _) => *world = *before,
            (Fault::LeaderStepsDown, _, _) => world.sites[me].role = Role::Subordinate,
            (Fault::LeaderKeepsSilent, Role::Coordinator, _)
            | (Fault::EndedKeepsSilent, _, State::Terminated(_)) => {
                world.row_count = before.row_count;
            }
            _ => {}
        }
    }
}
