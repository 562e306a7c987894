//! Copies of the model with one fault each: the comparison has to see it.

mod merging;
mod weighing;

pub use weighing::WEIGHT_FAULTS;

use model::calls::{Model, Rules};
use model::meeting::Delivery;
use model::play::{play_command, play_list_by};
use model::row::ROW_BYTES;
use model::sizes::everyone;
use model::world::{MAX_NEWS, MAX_ROWS};
use model::{number, Ask, Command, GroupRecord, Header, Kind, Log, Numbers};
use model::{Played, Row, Side, Site, State, World};

#[derive(Clone, Copy, Debug, PartialEq, Eq)]
pub enum Fault {
    /// None: the copy is the model.
    None,
    /// Every entry that is not 0 counts for a quorum.
    CountsAllEntries,
    /// A prepared coordinator takes a 3 for a prepare: it joins the commit
    /// group where no entry is 0, though not all are 1.
    TakesThreeForPrepare,
    /// The vector lives through a crash.
    KeepsVector,
    /// A site with an empty log comes back active.
    ComesBackActive,
    /// A coordinator with an empty log comes back as one.
    ComesBackLeading,
    /// A site with an empty log sends its outcome when it comes back.
    TellsOfRestart,
    /// A site in the abort group moves when a join commit arrives.
    LeavesAbortGroup,
    /// The byte after the last row is changed.
    WritesPastRows,
    /// A bad row is given 9.
    MistakesBadRow,
    /// A world with 1,024 rows is refused with 17.
    FearsFullStore,
    /// The byte after the report's text is changed.
    WritesPastText,
    /// The receiver's own entry is counted where the row tells a higher one.
    CountsOwnEntry,
    /// The receiver's own entry is counted where the delivery changes it.
    CountsOwnChange,
    /// An entry is counted that is told by another code of the level held.
    CountsEqualEntry,
    /// Such an entry is taken, and counted.
    TakesEqualEntry,
    /// A refused delivery leaves its news.
    KeepsRefusedNews,
    /// A delivery that reaches the limit is refused with 17.
    RefusesLimit,
    /// A delivery that would pass the limit is accepted.
    PassesLimit,
    /// The limit is asked before the room.
    AsksNewsBeforeRoom,
    /// A world at the limit is refused with 17.
    FearsMuchNews,
    /// A report of a stop by 19 or 20 is refused with 17.
    FearsLineNumbers,
    /// A report of a stop by 22 is.
    FearsUnevenNumber,
    /// After the sender's entry only those from site 1 up are taken.
    MissesSiteZero,
    /// The sender's entry is taken and no other.
    TakesSenderAlone,
    /// The sender's entry is met again among the others and counted again.
    CountsSenderTwice,
    /// The receiver's own entry is taken, and counted, where it is the sender.
    TakesOwnAsSender,
    /// The sender's outcome is written and not the lowest site's.
    LetsSenderDecide,
    /// The commit group's entries are counted and not weighed.
    CountsCommitEntries,
    /// The abort group's are.
    CountsAbortEntries,
    /// Of a group's weight only the low byte is kept.
    WrapsWeight,
    /// A group must weigh more than its quorum.
    NeedsMoreWeight,
    /// A group that weighs one less than its quorum has it.
    NeedsLessWeight,
    /// A quorum may need the heaviest site.
    ForgetsHeaviest,
    /// Quorums that just meet are refused.
    RefusesLeastQuorums,
    /// Quorums that just do not meet pass.
    PassesApartQuorums,
    /// 21 comes before the 2 of a header that is cut.
    AsksWeightBeforeCut,
    /// The 2 of a header that is cut comes before 3.
    AsksCutBeforeSites,
    /// In the second edition 3 comes before the 2 of a list under 5 bytes.
    AsksSitesBeforeLength,
    /// 4 comes before 21.
    AsksQuorumsBeforeWeight,
    /// 5 comes before 4.
    AsksWillingBeforeQuorums,
    /// A header with a weight of 0 passes.
    PassesNoWeight,
    /// A weight of 255 is refused.
    FearsMostWeight,
    /// Of a commit quorum only the low byte is read.
    LosesHighOfCommit,
    /// Of an abort quorum.
    LosesHighOfAbort,
    /// 131 and 132 begin a list of the second edition too.
    TakesLaterEditions,
    /// The first command is at place 5 in both editions.
    BeginsAtFive,
    /// The last site of a first-edition list weighs 2.
    WeighsFirstEdition,
    /// Each site of a world handed in weighs 1.
    ReadsNoWeights,
    /// A weight from n up of a world handed in is not looked at.
    PassesFarWeight,
    /// A world handed in may have a site that weighs nothing.
    PassesNoWeightInWorld,
    /// The world that a list leads to has no weights.
    WritesNoWeights,
    /// A list that is refused with 21 leaves weights in the world of zeros.
    LeavesRefusedWeights,
    /// A report of a stop by 21 is refused with 17.
    FearsWeightNumber,
    /// A report of a stop by 23 is written.
    PassesNextNumber,
    /// A report shows the low bytes of the quorums.
    PrintsLowBytes,
}

/// Those of taking the sender's entry first.
pub const SENDER_FAULTS: [Fault; 5] = [
    Fault::MissesSiteZero,
    Fault::TakesSenderAlone,
    Fault::CountsSenderTwice,
    Fault::TakesOwnAsSender,
    Fault::LetsSenderDecide,
];

const OTHERS: [Fault; 22] = [
    Fault::CountsAllEntries,
    Fault::TakesThreeForPrepare,
    Fault::KeepsVector,
    Fault::ComesBackActive,
    Fault::ComesBackLeading,
    Fault::TellsOfRestart,
    Fault::LeavesAbortGroup,
    Fault::WritesPastRows,
    Fault::MistakesBadRow,
    Fault::FearsFullStore,
    Fault::WritesPastText,
    Fault::CountsOwnEntry,
    Fault::CountsOwnChange,
    Fault::CountsEqualEntry,
    Fault::TakesEqualEntry,
    Fault::KeepsRefusedNews,
    Fault::RefusesLimit,
    Fault::PassesLimit,
    Fault::AsksNewsBeforeRoom,
    Fault::FearsMuchNews,
    Fault::FearsLineNumbers,
    Fault::FearsUnevenNumber,
];

/// Every fault there is.
pub fn faults() -> impl Iterator<Item = Fault> {
    let others = OTHERS.into_iter().chain(SENDER_FAULTS);
    others.chain(WEIGHT_FAULTS)
}

pub struct Faulty(pub Fault);

impl Rules for Faulty {
    fn header(&self, list: &[u8]) -> Result<Header, u8> {
        self.0.header(list)
    }

    fn world(&self, bytes: &[u8]) -> Result<World, u8> {
        self.0.world(bytes)
    }

    fn list(&self, store: &mut [u8], list: &[u8]) -> Played {
        let read = |list: &[u8]| self.header(list);
        let mut played = play_list_by(store, list, read, |world, store, ask| {
            self.command(world, store, ask)
        });
        self.0.spoil_world(played.number, &mut played.world);
        played
    }

    fn command(&self, world: &mut World, store: &mut [u8], ask: Ask) -> Result<usize, u8> {
        let before = *world;
        let told = Delivery::of(world, store, ask);
        let answer = self.play(world, store, ask);
        let next = self.spoil_answer(answer, &before, world, told.as_ref())?;
        let (command, _) = Command::read(ask)?;
        self.spoil(&before, world, store, command);
        self.write_past_rows(world, store);
        if let Some(told) = told {
            self.0.deliver_again(&told, &before, world, store);
            world.news += self.miscounted(&told, &before, world);
        }
        Ok(next)
    }

    fn text(&self, world: &World, numbers: Numbers, buffer: &mut [u8]) -> Result<usize, u8> {
        let is_refused = match self.0 {
            Fault::FearsMuchNews => world.news == MAX_NEWS,
            Fault::FearsLineNumbers => {
                (number::LINE..=number::ROOM).any(|stop| numbers.stop == stop.into())
            }
            Fault::FearsWeightNumber => numbers.stop == number::WEIGHT.into(),
            Fault::FearsUnevenNumber => numbers.stop == number::UNEVEN.into(),
            _ => false,
        };
        if is_refused {
            return Err(number::WORLD);
        }
        if let Some(size) = self.0.text(world, numbers, buffer) {
            return Ok(size);
        }
        let size = Model.text(world, numbers, buffer)?;
        if self.0 == Fault::WritesPastText {
            buffer[size] ^= 1;
        }
        Ok(size)
    }
}

impl Faulty {
    /// The command as the model plays it, but for the faults that begin before it.
    fn play(&self, world: &mut World, store: &mut [u8], ask: Ask) -> Result<usize, u8> {
        let news = world.news;
        match self.0 {
            Fault::TakesEqualEntry => take_equals(world, store, ask),
            Fault::RefusesLimit => play_with(world, store, ask, news + 1),
            Fault::PassesLimit => play_with(world, store, ask, 0),
            Fault::FearsMuchNews if news == MAX_NEWS => Err(number::WORLD),
            _ => play_command(world, store, ask),
        }
    }

    /// The answer with the faulty rule.
    fn spoil_answer(
        &self,
        answer: Result<usize, u8>,
        before: &World,
        world: &mut World,
        told: Option<&Delivery>,
    ) -> Result<usize, u8> {
        match (self.0, answer, told) {
            (Fault::MistakesBadRow, Err(number::BAD_ROW), _) => Err(number::ROW),
            (Fault::FearsFullStore, Ok(_), _) if before.row_count == MAX_ROWS => {
                *world = *before;
                Err(number::WORLD)
            }
            (Fault::KeepsRefusedNews, Err(_), Some(told)) => {
                world.news += told.news();
                answer
            }
            (Fault::AsksNewsBeforeRoom, Err(number::FULL), Some(told))
                if told.total() > MAX_NEWS =>
            {
                Err(number::WORLD)
            }
            _ => answer,
        }
    }

    /// The same event with the faulty rule.
    fn spoil(&self, before: &World, world: &mut World, store: &mut [u8], command: Command) {
        let me = command.site();
        match (self.0, command) {
            (Fault::KeepsVector, Command::Crash(_)) => {
                world.sites[me].vector = before.sites[me].vector;
            }
            (_, Command::Recover(_)) => self.restart(before, world, store, me),
            (_, Command::Timeout(_)) => self.decide_again(before, world, store, me),
            (Fault::LeavesAbortGroup, Command::Deliver { row, .. })
                if store[row * ROW_BYTES] == Kind::Join(Side::Commit).byte() =>
            {
                leave_abort_group(before, world, store, me)
            }
            _ => {}
        }
    }

    /// The byte after the last row, if the store has it.
    fn write_past_rows(&self, world: &World, store: &mut [u8]) {
        if self.0 == Fault::WritesPastRows && world.row_count < MAX_ROWS {
            store[world.row_count * ROW_BYTES] ^= 1
        }
    }

    /// TIMEOUT at a coordinator.
    fn decide_again(&self, before: &World, world: &mut World, store: &mut [u8], me: usize) {
        match self.0 {
            Fault::CountsAllEntries => count_all(before, world, store, me),
            Fault::TakesThreeForPrepare => take_for_prepares(before, world, store, me),
            fault => fault.weigh_again(before, world, store, me),
        }
    }

    /// The news that an accepted delivery is wrongly taken to bring.
    fn miscounted(&self, told: &Delivery, before: &World, after: &World) -> usize {
        let state = |world: &World| world.sites[told.me()].state();
        match self.0 {
            Fault::CountsOwnEntry => told.tells_own().into(),
            Fault::CountsOwnChange => (state(before) != state(after)).into(),
            Fault::CountsEqualEntry => told.same_levels().len(),
            Fault::CountsSenderTwice => told.raises_sender().into(),
            _ => 0,
        }
    }

    /// RECOVER, if the log is empty.
    fn restart(&self, before: &World, world: &mut World, store: &mut [u8], me: usize) {
        let held = &before.sites[me];
        let site = &mut world.sites[me];
        if held.log != Log::EMPTY {
            return;
        }
        match self.0 {
            Fault::ComesBackActive => *site = Site { up: true, ..*held },
            Fault::ComesBackLeading => site.role = held.role,
            Fault::TellsOfRestart if world.row_count < MAX_ROWS => {
                let row = Row {
                    kind: Kind::Outcome,
                    sender: me,
                    to: everyone(world.sizes.n) & !(1 << me),
                    vector: site.vector,
                };
                row.write(store, world.row_count);
                world.row_count += 1;
            }
            _ => {}
        }
    }
}

/// Plays as if there were other news.
fn play_with(world: &mut World, store: &mut [u8], ask: Ask, news: usize) -> Result<usize, u8> {
    let held = world.news;
    world.news = news;
    let answer = play_command(world, store, ask);
    world.news = held + (world.news - news);
    answer
}

/// Plays as if nothing were known of the sites whose level the row tells by another code.
fn take_equals(world: &mut World, store: &mut [u8], ask: Ask) -> Result<usize, u8> {
    let before = *world;
    if let Some(told) = Delivery::of(world, store, ask) {
        let known = &mut world.sites[told.me()].vector;
        let same = told.same_levels().into_iter();
        same.for_each(|site| known.set(site, State::Active));
    }
    let answer = play_command(world, store, ask);
    if answer.is_err() {
        *world = before;
    }
    answer
}

fn count_all(before: &World, world: &mut World, store: &mut [u8], me: usize) {
    let site = &mut world.sites[me];
    let State::InGroup(side) = site.state() else {
        return;
    };
    let known = site.vector.codes().iter().filter(|&&code| code != 0);
    let led = before.sites[me].is_coordinator() && before.sites[me].state() == site.state();
    if led && known.count() >= world.sizes.quorum(side) {
        site.log.outcome = Some(side);
        site.vector.set(me, site.state());
        send_again(world, store, me, Kind::Outcome);
    }
}

fn leave_abort_group(before: &World, world: &mut World, store: &mut [u8], me: usize) {
    let abort = State::InGroup(Side::Abort);
    if before.sites[me].state() == abort && world.sites[me].state() == abort {
        join_commit(world, store, me, Kind::InGroup);
    }
}

fn take_for_prepares(before: &World, world: &mut World, store: &mut [u8], me: usize) {
    let held = &before.sites[me];
    let led = held.is_coordinator() && held.state() == State::Prepared;
    let known = &held.vector.codes()[..before.sizes.n];
    if led && known.iter().all(|&code| code != 0) {
        join_commit(world, store, me, Kind::Join(Side::Commit));
    }
}

/// The site is in the commit group instead, and its row says so.
fn join_commit(world: &mut World, store: &mut [u8], me: usize, kind: Kind) {
    let side = Side::Commit;
    let site = &mut world.sites[me];
    site.vector.set(me, State::InGroup(side));
    let vector = site.vector;
    site.log.group = Some(GroupRecord { side, vector });
    send_again(world, store, me, kind);
}

/// The last row, with the site's vector and kind as they are now.
fn send_again(world: &World, store: &mut [u8], me: usize, kind: Kind) {
    let last = world.row_count - 1;
    let sent = Row::read(store, last, world.sizes.n).expect("just written");
    let vector = world.sites[me].vector;
    let row = Row {
        kind,
        vector,
        ..sent
    };
    row.write(store, last);
}
