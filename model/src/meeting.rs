//! What calls on a world meet of its news, of the limit, of a row's sender and of
//! the weights.

use crate::command::{Ask, Command};
use crate::generate::Call;
use crate::layout::decode;
use crate::number;
use crate::play::play_command;
use crate::row::Row;
use crate::scale::Scale;
use crate::sizes::Sizes;
use crate::state::Side;
use crate::vector::{level, outcome_of, Vector};
use crate::world::{World, MAX_NEWS};

/// Things that a one-command call can meet.
#[derive(Clone, Copy, Debug, PartialEq, Eq, PartialOrd, Ord)]
pub enum Meeting {
    /// The news handed in is over the limit, and nothing else is wrong.
    OverLimit,
    /// A delivery is refused for the news that there would be.
    WouldPass,
    /// A delivery would pass the limit, but its reply has no room either.
    NoRoomFirst,
    /// A delivery brings news and reaches the limit.
    ReachesLimit,
    /// A delivery is accepted that finds the limit reached.
    IdleAtLimit,
    /// Another command is accepted that finds the limit reached.
    OtherAtLimit,
    /// A delivery brings no news.
    Idle,
    /// A delivery raises several entries.
    Several,
    /// A row tells of a higher level of the receiver than it has.
    OwnTold,
    /// A delivery changes the receiver's state, and so its own entry.
    OwnChanged,
    /// A row tells another code of the level that is held of a site.
    SameLevel,
    /// A row comes from the receiver itself.
    OwnRow,
    /// Such a row tells of a higher level of the receiver than it has.
    OwnRowTold,
    /// A delivery raises the sender's entry and another's.
    SenderAndOthers,
    /// A delivery raises another's entry and not the sender's, who is not the
    /// receiver.
    OthersAlone,
    /// A lower site shows the other outcome than the sender does, and the
    /// receiver has none yet.
    LowestDecides,
    /// A site below n weighs nothing, and nothing else is wrong.
    ZeroWeight,
    /// A site from n up weighs something, and nothing else is wrong.
    FarWeight,
    /// A commit quorum that cannot be had without the heaviest site, and nothing
    /// else is wrong.
    LargeCommit,
    /// Such an abort quorum.
    LargeAbort,
    /// The quorums do not meet, and nothing else is wrong.
    NotMeeting,
    /// A coordinator has a commit quorum by weight and not by how many entries
    /// there are.
    CommitByWeight,
    /// The same with an abort quorum.
    AbortByWeight,
    /// A coordinator has the commit quorum's share of the sites, but they weigh too
    /// little.
    CommitTooLight,
    /// The same with the abort quorum.
    AbortTooLight,
    /// A coordinator's group weighs as much as its quorum.
    JustEnough,
    /// A coordinator's group weighs one less.
    OneShort,
    /// An accepted call finds a quorum above 255.
    LargeQuorum,
}

impl Meeting {
    pub const ALL: [Meeting; 28] = [
        Meeting::OverLimit,
        Meeting::WouldPass,
        Meeting::NoRoomFirst,
        Meeting::ReachesLimit,
        Meeting::IdleAtLimit,
        Meeting::OtherAtLimit,
        Meeting::Idle,
        Meeting::Several,
        Meeting::OwnTold,
        Meeting::OwnChanged,
        Meeting::SameLevel,
        Meeting::OwnRow,
        Meeting::OwnRowTold,
        Meeting::SenderAndOthers,
        Meeting::OthersAlone,
        Meeting::LowestDecides,
        Meeting::ZeroWeight,
        Meeting::FarWeight,
        Meeting::LargeCommit,
        Meeting::LargeAbort,
        Meeting::NotMeeting,
        Meeting::CommitByWeight,
        Meeting::AbortByWeight,
        Meeting::CommitTooLight,
        Meeting::AbortTooLight,
        Meeting::JustEnough,
        Meeting::OneShort,
        Meeting::LargeQuorum,
    ];
}

/// Are these the bytes of a world that is refused for its news alone?
pub fn is_over_limit(world: &[u8]) -> bool {
    decode(world).is_ok_and(|world| {
        let newsless = World { news: 0, ..world };
        world.check().is_err() && newsless.check().is_ok()
    })
}

/// What is wrong with the weights of a world, or with the quorums for them, if
/// nothing else is.
pub fn misweighed(world: &[u8]) -> Vec<(Meeting, bool)> {
    let Ok(world) = decode(world) else {
        return Vec::new();
    };
    let sizes = world.sizes;
    let most = sizes.weight() - sizes.heaviest();
    let (commit, abort) = (sizes.commit_quorum, sizes.abort_quorum);
    match sizes.check() {
        _ if !is_good_unweighed(&world) => Vec::new(),
        Err(number::WEIGHT) => vec![(Meeting::ZeroWeight, true)],
        Err(number::QUORUMS) => vec![
            (Meeting::LargeCommit, commit > most && abort <= most),
            (Meeting::LargeAbort, abort > most && commit <= most),
            (Meeting::NotMeeting, commit.max(abort) <= most),
        ],
        checked => vec![(Meeting::FarWeight, checked.is_ok() && !sizes.make_world())],
    }
}

/// Would this world pass if each site weighed 1 and the quorums fitted?
fn is_good_unweighed(world: &World) -> bool {
    let (n, willing) = (world.sizes.n, world.sizes.willing);
    let most = n.saturating_sub(1);
    let mut plain = *world;
    plain.sizes = Sizes::new(n, most, most, willing);
    plain.check().is_ok()
}

/// All that a call meets that is given this number.
pub fn meetings(call: &Call, number: u32) -> Vec<Meeting> {
    let is_over = is_over_limit(&call.world);
    let found = match number as u8 {
        number::WORLD if is_over => vec![(Meeting::OverLimit, true)],
        number::WORLD => {
            let news = (Meeting::WouldPass, would_pass(call));
            [vec![news], misweighed(&call.world)].concat()
        }
        number::FULL => vec![(Meeting::NoRoomFirst, would_pass(call))],
        number::NONE => at_accepted(call),
        _ => Vec::new(),
    };
    let met = found.into_iter().filter(|&(_, is_met)| is_met);
    met.map(|(meeting, _)| meeting).collect()
}

/// The world handed in, if it passes the check.
fn good_world(call: &Call) -> Option<World> {
    let world = decode(&call.world).ok()?;
    world.check().is_ok().then_some(world)
}

/// Is it a delivery after which there would be too much news?
fn would_pass(call: &Call) -> bool {
    let told = |world: World| Delivery::of(&world, &call.store, call.ask());
    let delivery = good_world(call).and_then(told);
    delivery.is_some_and(|delivery| delivery.total() > MAX_NEWS)
}

/// What an accepted call may have met.
fn at_accepted(call: &Call) -> Vec<(Meeting, bool)> {
    let Some(world) = good_world(call) else {
        return Vec::new();
    };
    let told = match Delivery::of(&world, &call.store, call.ask()) {
        Some(delivery) => delivery.met(call),
        None => vec![(Meeting::OtherAtLimit, world.news == MAX_NEWS)],
    };
    [told, met_of_weights(&world, call.ask())].concat()
}

/// What an accepted call may have met of the weights.
fn met_of_weights(world: &World, ask: Ask) -> Vec<(Meeting, bool)> {
    let quorums = [world.sizes.commit_quorum, world.sizes.abort_quorum];
    let large = (
        Meeting::LargeQuorum,
        quorums.iter().any(|&quorum| quorum > 255),
    );
    let Ok((Command::Timeout(me), _)) = Command::read(ask) else {
        return vec![large];
    };
    let Some(scale) = Scale::of(&world.sizes, &world.sites[me]) else {
        return vec![large];
    };
    let [alone, light] = match scale.side {
        Side::Commit => [Meeting::CommitByWeight, Meeting::CommitTooLight],
        Side::Abort => [Meeting::AbortByWeight, Meeting::AbortTooLight],
    };
    vec![
        large,
        (alone, scale.is_by_weight_alone()),
        (light, scale.is_too_light()),
        (Meeting::JustEnough, scale.is_just_enough()),
        (Meeting::OneShort, scale.is_one_short()),
    ]
}

/// A row in a good world, and the site that it is for.
pub struct Delivery {
    world: World,
    row: Row,
    me: usize,
}

impl Delivery {
    /// The delivery that is asked for, if it is one of a good row to a site
    /// that is there.
    pub fn of(world: &World, store: &[u8], ask: Ask) -> Option<Delivery> {
        let (Command::Deliver { row, site: me }, _) = Command::read(ask).ok()? else {
            return None;
        };
        if row >= world.row_count || me >= world.sizes.n {
            return None;
        }
        let row = Row::read(store, row, world.sizes.n)?;
        let world = *world;
        Some(Delivery { world, row, me })
    }

    /// The receiver.
    pub fn me(&self) -> usize {
        self.me
    }

    /// The row that is delivered.
    pub fn row(&self) -> &Row {
        &self.row
    }

    /// What the receiver knows once the row is merged, and the news.
    fn merged(&self) -> (Vector, usize) {
        let mut known = self.world.sites[self.me].vector;
        let news = known.merge(&self.row.vector, self.me, self.row.sender);
        (known, news)
    }

    /// The news that it brings.
    pub fn news(&self) -> usize {
        self.merged().1
    }

    /// The news that there would be.
    pub fn total(&self) -> usize {
        self.world.news + self.news()
    }

    /// Does the row tell of a higher level of the receiver than it has?
    pub fn tells_own(&self) -> bool {
        self.tells_more_of(self.me)
    }

    /// Does the row come from the receiver itself?
    pub fn is_from_receiver(&self) -> bool {
        self.row.sender == self.me
    }

    /// Does the entry of a sender that is another site rise?
    pub fn raises_sender(&self) -> bool {
        !self.is_from_receiver() && self.tells_more_of(self.row.sender)
    }

    /// Has the receiver no outcome yet, and is the sender's another one than that
    /// of the lowest site that shows one?
    fn is_lowest_against_sender(&self) -> bool {
        let (known, _) = self.merged();
        let of_sender = outcome_of(known.codes()[self.row.sender]);
        let is_open = self.world.sites[self.me].log.outcome.is_none();
        is_open && of_sender.is_some() && of_sender != known.outcome()
    }

    /// The other sites of which the row tells another code of the level held.
    pub fn same_levels(&self) -> Vec<usize> {
        let others = (0..self.world.sizes.n).filter(|&site| site != self.me);
        let is_same = |&site: &usize| {
            let (held, told) = self.codes_of(site);
            held != told && level(held) == level(told)
        };
        others.filter(is_same).collect()
    }

    /// Does the row tell of a higher level of a site than is held?
    fn tells_more_of(&self, site: usize) -> bool {
        let (held, told) = self.codes_of(site);
        level(told) > level(held)
    }

    /// The codes held and told of a site.
    fn codes_of(&self, site: usize) -> (u8, u8) {
        let held = &self.world.sites[self.me].vector;
        (held.codes()[site], self.row.vector.codes()[site])
    }

    /// What it may have met, if it is accepted.
    fn met(&self, call: &Call) -> Vec<(Meeting, bool)> {
        let finds_limit = self.world.news == MAX_NEWS;
        let reaches_limit = self.total() == MAX_NEWS;
        let news = self.news();
        let of_news = [
            (Meeting::ReachesLimit, news > 0 && reaches_limit),
            (Meeting::IdleAtLimit, finds_limit),
            (Meeting::Idle, news == 0),
            (Meeting::Several, news > 1),
            (Meeting::OwnTold, self.tells_own()),
            (Meeting::OwnChanged, self.changes_state(call)),
            (Meeting::SameLevel, !self.same_levels().is_empty()),
        ];
        [&of_news[..], &self.met_of_sender(news)].concat()
    }

    /// What it may have met of its sender, with this news.
    fn met_of_sender(&self, news: usize) -> [(Meeting, bool); 5] {
        let is_own = self.is_from_receiver();
        let raises_sender = self.raises_sender();
        let raises_others = news > usize::from(raises_sender);
        let others_alone = !is_own && !raises_sender && raises_others;
        [
            (Meeting::OwnRow, is_own),
            (Meeting::OwnRowTold, is_own && self.tells_own()),
            (Meeting::SenderAndOthers, raises_sender && raises_others),
            (Meeting::OthersAlone, others_alone),
            (Meeting::LowestDecides, self.is_lowest_against_sender()),
        ]
    }

    fn changes_state(&self, call: &Call) -> bool {
        let (mut next, mut store) = (self.world, call.store.clone());
        let played = play_command(&mut next, &mut store, call.ask());
        let state = |world: &World| world.sites[self.me].state();
        played.is_ok() && state(&next) != state(&self.world)
    }
}
