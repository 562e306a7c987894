//! The sorts of worlds from which the rounds begin, counted.

use std::collections::{BTreeMap, BTreeSet};
use std::fmt;

use model::sizes::everyone;
use model::{Log, Side, Site, State, World};

use super::claim::Tried;

/// What such a world can be, and how it ends.
#[derive(Clone, Copy, Debug, PartialEq, Eq, PartialOrd, Ord)]
pub enum Sort {
    /// No site has written anything.
    NobodyStarted,
    /// Some sites are active and others are not.
    SomeActive,
    /// Every site is prepared.
    AllPrepared,
    /// One group is there, and nobody has ended.
    OneGroup,
    /// Both groups are there, and nobody has ended.
    BothGroups,
    /// Some have ended and others have not.
    SomeEnded,
    /// Every site has ended.
    AllEnded,
    /// There are two coordinators or more.
    SeveralLeaders,
    /// Some site was down just before.
    SomeBack,
    /// Some site does not weigh 1.
    Weighted,
    /// Some site is not willing.
    SomeUnwilling,
    /// All have the same outcome already.
    NeedsNone,
    /// They have after one round.
    NeedsOne,
    /// They have after two.
    NeedsTwo,
    EndsCommitted,
    EndsAborted,
}

impl Sort {
    pub const ALL: [Sort; 16] = [
        Sort::NobodyStarted,
        Sort::SomeActive,
        Sort::AllPrepared,
        Sort::OneGroup,
        Sort::BothGroups,
        Sort::SomeEnded,
        Sort::AllEnded,
        Sort::SeveralLeaders,
        Sort::SomeBack,
        Sort::Weighted,
        Sort::SomeUnwilling,
        Sort::NeedsNone,
        Sort::NeedsOne,
        Sort::NeedsTwo,
        Sort::EndsCommitted,
        Sort::EndsAborted,
    ];
}

/// What was met in many worlds.
#[derive(Debug, Default)]
pub struct Met {
    pub worlds: usize,
    /// Events of their rounds.
    pub events: usize,
    /// The numbers of sites.
    pub sites: BTreeSet<usize>,
    sorts: BTreeMap<Sort, usize>,
}

/// How the rounds of a world came out.
pub struct End {
    /// Sites that were down before them.
    pub back: usize,
    pub side: Side,
    /// How many rounds were needed.
    pub needed: usize,
}

impl Met {
    pub fn add(&mut self, tried: &Tried, end: End) {
        self.worlds += 1;
        self.events += tried.told.events;
        self.sites.insert(tried.before.sizes.n);
        let sorts = beginnings(&tried.before).into_iter().chain(ends(end));
        for (sort, _) in sorts.filter(|&(_, is_met)| is_met) {
            *self.sorts.entry(sort).or_default() += 1;
        }
    }

    /// How many worlds of a sort were met.
    pub fn of(&self, sort: Sort) -> usize {
        self.sorts.get(&sort).copied().unwrap_or(0)
    }

    /// So many worlds of each sort were met.
    pub fn assert_rich(&self, least: usize) {
        for sort in Sort::ALL {
            let count = self.of(sort);
            assert!(count >= least, "{sort:?} is rare: {count}");
        }
    }
}

impl fmt::Display for Met {
    fn fmt(&self, f: &mut fmt::Formatter) -> fmt::Result {
        let (worlds, events, sorts) = (self.worlds, self.events, &self.sorts);
        write!(f, "{worlds} worlds, {events} events, {sorts:?}")
    }
}

/// What a world is before the rounds.
fn beginnings(world: &World) -> [(Sort, bool); 10] {
    let sites = world.members();
    let some = |state: State| sites.iter().any(|site| site.state() == state);
    let all = |state: State| sites.iter().all(|site| site.state() == state);
    let [commit, abort] = [Side::Commit, Side::Abort].map(|side| some(State::InGroup(side)));
    let ended = sites.iter().filter(|site| site.log.outcome.is_some());
    let leaders = sites.iter().filter(|site| site.is_coordinator());
    let (n, ended, leaders) = (sites.len(), ended.count(), leaders.count());
    let is_untouched = |site: &Site| site.log == Log::EMPTY;
    let some_active = some(State::Active) && !all(State::Active);
    [
        (Sort::NobodyStarted, sites.iter().all(is_untouched)),
        (Sort::SomeActive, some_active),
        (Sort::AllPrepared, all(State::Prepared)),
        (Sort::OneGroup, ended == 0 && commit != abort),
        (Sort::BothGroups, ended == 0 && commit && abort),
        (Sort::SomeEnded, 0 < ended && ended < n),
        (Sort::AllEnded, ended == n),
        (Sort::SeveralLeaders, leaders > 1),
        (Sort::Weighted, world.sizes.weight() != n),
        (Sort::SomeUnwilling, world.sizes.willing != everyone(n)),
    ]
}

/// How it ends.
fn ends(end: End) -> [(Sort, bool); 6] {
    [
        (Sort::SomeBack, end.back > 0),
        (Sort::NeedsNone, end.needed == 0),
        (Sort::NeedsOne, end.needed == 1),
        (Sort::NeedsTwo, end.needed == 2),
        (Sort::EndsCommitted, end.side == Side::Commit),
        (Sort::EndsAborted, end.side == Side::Abort),
    ]
}
