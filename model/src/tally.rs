//! What lists lead to, counted over many of them.

use std::collections::{BTreeMap, BTreeSet};
use std::fmt;

use crate::command::Command;
use crate::header::Header;
use crate::play::{play_command, play_list_by, Played};
use crate::row::{ROW_BYTES, STORE_BYTES};
use crate::scale::Scale;
use crate::site::{Log, Site};
use crate::state::{Side, State};
use crate::world::{World, MAX_ROWS};

/// Things that a list can lead to.
#[derive(Clone, Copy, Debug, PartialEq, Eq)]
pub enum Sight {
    /// A row is delivered to the same site again.
    Repeat,
    /// A delivery raises no entry.
    IdleDelivery,
    /// A delivery raises several entries.
    MuchNews,
    /// A delivery raises the sender's entry and another's.
    SenderAndOthers,
    /// A delivery raises another's entry and not the sender's.
    OthersAlone,
    /// Two sites are coordinators at once.
    SeveralLeaders,
    /// The two groups are there at once.
    BothGroups,
    /// A site crashes while some are in a group and none has ended.
    CrashMidway,
    /// A coordinator counts a commit quorum and commits.
    CommitQuorum,
    /// A coordinator counts an abort quorum and aborts.
    AbortQuorum,
    /// A coordinator has a quorum by weight and not by how many entries there are.
    ByWeightAlone,
    /// A coordinator has the quorum's share of the sites, but they weigh too little.
    TooLight,
    /// A prepared coordinator times out that knows of no active site and of no
    /// commit group, but of an abort group.
    ThreesForPrepares,
    /// A site recovers with an empty log.
    Restart,
    /// Every row the store has room for is sent.
    FullStore,
}

impl Sight {
    pub const ALL: [Sight; 15] = [
        Sight::Repeat,
        Sight::IdleDelivery,
        Sight::MuchNews,
        Sight::SenderAndOthers,
        Sight::OthersAlone,
        Sight::SeveralLeaders,
        Sight::BothGroups,
        Sight::CrashMidway,
        Sight::CommitQuorum,
        Sight::AbortQuorum,
        Sight::ByWeightAlone,
        Sight::TooLight,
        Sight::ThreesForPrepares,
        Sight::Restart,
        Sight::FullStore,
    ];
}

/// A list played with an eye on it.
pub struct Day {
    pub played: Played,
    seen: [bool; Sight::ALL.len()],
}

impl Day {
    /// Plays a list on a store of its own.
    pub fn watch(list: &[u8]) -> Day {
        let mut eye = Eye::new();
        let mut store = vec![0; STORE_BYTES];
        let played = play_list_by(&mut store, list, Header::of_list, |world, store, ask| {
            let (command, _) = Command::read(ask)?;
            let before = world.sites.get(command.site()).copied();
            let news_before = world.news;
            let next = play_command(world, store, ask)?;
            eye.look(world, command, before.as_ref());
            if let (Command::Deliver { row, site }, Some(before)) = (command, before) {
                let is_raised = raises_sender(store, row, &before, &world.sites[site]);
                eye.look_at_news(world.news - news_before, is_raised);
            }
            Ok(next)
        });
        let seen = eye.seen;
        Day { played, seen }
    }

    pub fn saw(&self, sight: Sight) -> bool {
        self.seen[sight as usize]
    }
}

/// Did the delivery of a row raise its sender's entry? In a played list the sender
/// is never the receiver.
fn raises_sender(store: &[u8], row: usize, before: &Site, after: &Site) -> bool {
    let sender = usize::from(store[row * ROW_BYTES + 1]);
    before.vector.codes()[sender] != after.vector.codes()[sender]
}

/// What was seen of a list so far.
struct Eye {
    seen: [bool; Sight::ALL.len()],
    /// For each row, the sites it has reached.
    reached: [u16; MAX_ROWS],
}

impl Eye {
    fn new() -> Eye {
        Eye {
            seen: [false; Sight::ALL.len()],
            reached: [0; MAX_ROWS],
        }
    }

    fn note(&mut self, sight: Sight, is_seen: bool) {
        self.seen[sight as usize] |= is_seen;
    }

    /// Looks at the world after a command at a site that was like this.
    fn look(&mut self, world: &World, command: Command, site_before: Option<&Site>) {
        let before = site_before.map(Site::state);
        let after = world.sites[command.site()].state();
        match command {
            Command::Deliver { row, site } => {
                self.note(Sight::Repeat, self.reached[row] >> site & 1 == 1);
                self.reached[row] |= 1 << site;
            }
            Command::Timeout(_) => {
                self.look_at_leaders(world);
                self.look_for_quorum(before, after);
                self.look_for_threes(world.sizes.n, site_before);
                self.look_at_scale(site_before.and_then(|site| Scale::of(&world.sizes, site)));
            }
            Command::Crash(_) => self.look_at_crash(world),
            Command::Recover(_) => {
                let had_no_record = |site: &Site| site.log == Log::EMPTY;
                self.note(Sight::Restart, site_before.is_some_and(had_no_record));
            }
            Command::Start => {}
        }
        if before != Some(after) {
            self.look_at_groups(world);
        }
        self.note(Sight::FullStore, world.row_count == MAX_ROWS);
    }

    /// Looks at the news that a delivery has brought, of the sender or not.
    fn look_at_news(&mut self, news: usize, raises_sender: bool) {
        let raises_others = news > usize::from(raises_sender);
        self.note(Sight::IdleDelivery, news == 0);
        self.note(Sight::MuchNews, news > 1);
        self.note(Sight::SenderAndOthers, raises_sender && raises_others);
        self.note(Sight::OthersAlone, !raises_sender && raises_others);
    }

    fn look_at_leaders(&mut self, world: &World) {
        let leaders = world.members().iter().filter(|site| site.is_coordinator());
        self.note(Sight::SeveralLeaders, leaders.count() > 1);
    }

    fn look_for_quorum(&mut self, before: Option<State>, after: State) {
        for (sight, side) in [
            (Sight::CommitQuorum, Side::Commit),
            (Sight::AbortQuorum, Side::Abort),
        ] {
            let was_in_group = before == Some(State::InGroup(side));
            self.note(sight, was_in_group && after == State::Terminated(side));
        }
    }

    fn look_for_threes(&mut self, n: usize, before: Option<&Site>) {
        let is_tempted = |site: &Site| {
            let known = |state| site.vector.codes()[..n].contains(&State::code(state));
            site.is_coordinator()
                && site.state() == State::Prepared
                && known(State::InGroup(Side::Abort))
                && !known(State::InGroup(Side::Commit))
                && !known(State::Active)
        };
        self.note(Sight::ThreesForPrepares, before.is_some_and(is_tempted));
    }

    fn look_at_scale(&mut self, scale: Option<Scale>) {
        let Some(scale) = scale else {
            return;
        };
        self.note(Sight::ByWeightAlone, scale.is_by_weight_alone());
        self.note(Sight::TooLight, scale.is_too_light());
    }

    fn look_at_crash(&mut self, world: &World) {
        let mut members = world.members().iter();
        let is_open = members.clone().all(|site| site.log.outcome.is_none());
        let some_joined = members.any(|site| site.log.group.is_some());
        self.note(Sight::CrashMidway, is_open && some_joined);
    }

    fn look_at_groups(&mut self, world: &World) {
        let is_there = |side| {
            let mut members = world.members().iter();
            members.any(|site| site.log.group_side() == Some(side))
        };
        self.note(
            Sight::BothGroups,
            is_there(Side::Commit) && is_there(Side::Abort),
        );
    }
}

/// What was seen over many lists.
#[derive(Clone, Debug, Default)]
pub struct Tally {
    pub lists: usize,
    /// Accepted commands of all lists.
    pub events: usize,
    /// Bytes of the longest list.
    pub longest: usize,
    /// The numbers of sites met, 0 where the header was refused.
    pub sites: BTreeSet<usize>,
    numbers: BTreeMap<u8, usize>,
    seen: [usize; Sight::ALL.len()],
}

impl Tally {
    pub fn add(&mut self, list: &[u8], day: &Day) {
        self.lists += 1;
        self.events += day.played.events;
        self.longest = self.longest.max(list.len());
        self.sites.insert(day.played.world.sizes.n);
        *self.numbers.entry(day.played.number).or_default() += 1;
        for (count, &is_seen) in self.seen.iter_mut().zip(&day.seen) {
            *count += usize::from(is_seen);
        }
    }

    /// How many of a hundred lists led to this.
    pub fn percent(&self, sight: Sight) -> usize {
        100 * self.seen[sight as usize] / self.lists.max(1)
    }

    /// How many lists ended with a stop number, 0 for the list's end.
    pub fn ended(&self, number: u8) -> usize {
        self.numbers.get(&number).copied().unwrap_or(0)
    }
}

impl fmt::Display for Tally {
    fn fmt(&self, f: &mut fmt::Formatter) -> fmt::Result {
        write!(f, "{} lists, {} events", self.lists, self.events)?;
        for sight in Sight::ALL {
            let (count, percent) = (self.seen[sight as usize], self.percent(sight));
            write!(f, ", {sight:?} in {count} ({percent}%)")?;
        }
        Ok(())
    }
}
