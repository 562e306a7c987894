//! What the generator's lists contain, and what holds of all of them.

use std::collections::{BTreeMap, HashSet};

use model::calls::{Calls, Model, RESULT_BYTES};
use model::generate::{duel, weighted_duel, Call, Generator};
use model::layout::decode;
use model::meeting::{meetings, Meeting};
use model::row::{ROW_BYTES, STORE_BYTES};
use model::sizes::everyone;
use model::tally::{Day, Sight, Tally};
use model::{number, one_command, play_list, Ask, Command, Header, Kind, Played, Row};
use model::{Role, Side, Site, Sizes, State, World};

const SEED: u64 = 20_260_401;
const LISTS: usize = 2_000;
const CALLS: usize = 10_000;
/// A delivery takes 4 bytes and raises the entries of 15 other sites at most.
const MOST_NEWS: usize = (32_768 - 5) / 4 * 15;

/// In how many of a hundred guided lists each sight must be had.
const LEAST: [(Sight, usize); 15] = [
    (Sight::CommitQuorum, 10),
    (Sight::AbortQuorum, 10),
    (Sight::ByWeightAlone, 10),
    (Sight::TooLight, 1),
    (Sight::FullStore, 5),
    (Sight::Repeat, 10),
    (Sight::IdleDelivery, 10),
    (Sight::MuchNews, 10),
    (Sight::SenderAndOthers, 10),
    (Sight::OthersAlone, 10),
    (Sight::SeveralLeaders, 10),
    (Sight::BothGroups, 2),
    (Sight::CrashMidway, 5),
    (Sight::ThreesForPrepares, 2),
    (Sight::Restart, 5),
];

/// The tally of many lists, each of which is looked at command by command.
fn tally_of(lists: &[Vec<u8>]) -> Tally {
    let mut tally = Tally::default();
    for list in lists {
        let day = Day::watch(list);
        see_through(list, &day.played);
        tally.add(list, &day);
    }
    println!("{tally}");
    tally
}

/// What holds of every list that ends like this.
fn see_through(list: &[u8], end: &Played) {
    let mut store = vec![0xee; STORE_BYTES];
    assert_eq!(play_list(&mut store, list), *end);
    if end.world != World::ZEROS {
        assert_eq!(walk(list, end), store);
    }
    assert!(agree(&end.world));
}

/// One call for each command; gives the store as it is left.
fn walk(list: &[u8], end: &Played) -> Vec<u8> {
    let mut world = World::fresh(end.world.sizes);
    let mut store = vec![0xee; STORE_BYTES];
    let (mut at, mut news) = (Header::of_list(list).unwrap().end, 0);
    for _ in 0..end.events {
        let (command, _) = Command::read(Ask::new(list, at)).unwrap();
        let before = world.sites[command.site()];
        at = one_command(&mut world, &mut store, Ask::new(list, at)).unwrap();
        let after = &world.sites[command.site()];
        assert!(!joins_from_active(&before, after));
        assert!(is_of_one_mind(after));
        if let Command::Deliver { site, .. } = command {
            news += changed_entries(&before, after, site);
        }
        assert_eq!(world.news, news);
    }
    assert_eq!((world, at), (end.world, end.place));
    assert_eq!(world.check(), Ok(()));
    assert!(world.news <= MOST_NEWS);
    let unused = &store[world.row_count * ROW_BYTES..];
    assert!(unused.iter().all(|&byte| byte == 0xee));
    see_stop(&mut world, &mut store, list, end);
    store
}

/// The command a list stops at is refused alone too, and changes nothing.
fn see_stop(world: &mut World, store: &mut [u8], list: &[u8], end: &Played) {
    let (before, rows) = (*world, store.to_vec());
    let at = end.place;
    let wanted = match end.number {
        number::NONE => number::COMMAND,
        number => number,
    };
    assert_eq!(one_command(world, store, Ask::new(list, at)), Err(wanted));
    assert_eq!(*world, before);
    assert_eq!(store, rows);
}

/// How many entries but its own are other ones now?
fn changed_entries(before: &Site, after: &Site, own: usize) -> usize {
    let pairs = before.vector.codes().iter().zip(after.vector.codes());
    let others = pairs.enumerate().filter(|&(site, _)| site != own);
    others.filter(|(_, (held, now))| held != now).count()
}

/// Did an active site join the commit group?
fn joins_from_active(before: &Site, after: &Site) -> bool {
    before.state() == State::Active && after.log.group_side() == Some(Side::Commit)
}

/// Does a site know of one outcome at most?
fn is_of_one_mind(site: &Site) -> bool {
    let knows = |side| site.vector.count(State::Terminated(side)) > 0;
    !(knows(Side::Commit) && knows(Side::Abort))
}

/// No two sites end differently.
fn agree(world: &World) -> bool {
    let ended = |side| {
        let mut members = world.members().iter();
        members.any(|site| site.log.outcome == Some(side))
    };
    !(ended(Side::Commit) && ended(Side::Abort))
}

#[test]
fn guided_lists_are_rich() {
    let mut generator = Generator::new(SEED);
    let lists: Vec<Vec<u8>> = (0..LISTS).map(|_| generator.next_guided()).collect();
    let tally = tally_of(&lists);
    assert_rich(&tally);
    let is_header = |list: &&Vec<u8>| Header::of_list(list).unwrap().end == list.len();
    assert!(lists.iter().filter(is_header).count() > LISTS / 400);
    assert_eq!(tally.longest, 32_768);
    assert!(tally.sites.iter().copied().eq(3..=16));
    assert_ended(&tally);
}

/// Each sight is had often enough.
fn assert_rich(tally: &Tally) {
    for (sight, least) in LEAST {
        assert!(tally.percent(sight) >= least, "{sight:?}");
    }
}

/// Guided lists end in every way that a list with a good header and rows can.
fn assert_ended(tally: &Tally) {
    for number in 0..=number::FULL {
        let count = tally.ended(number);
        let is_due = match number {
            1..=5 | number::BAD_ROW => count == 0,
            _ => count > LISTS / 100,
        };
        assert!(is_due, "{count} end with number {number}");
    }
}

#[test]
fn mixed_lists_meet_every_number_a_list_can() {
    let mut generator = Generator::new(SEED);
    let lists: Vec<Vec<u8>> = (0..LISTS / 2).map(|_| generator.next_list()).collect();
    let tally = tally_of(&lists);
    let of_commands = (0..=15).filter(|&number| number != number::BAD_ROW);
    for number in of_commands.chain([number::WEIGHT]) {
        assert!(tally.ended(number) > 0, "number {number}");
    }
    // The rows that a list sends are never bad.
    assert_eq!(tally.ended(number::BAD_ROW), 0);
}

/// What single calls met.
#[derive(Debug, Default)]
struct Met {
    numbers: BTreeMap<u32, usize>,
    /// Row kind, state and role at each accepted DELIVER.
    deliveries: HashSet<(Kind, State, Role)>,
    /// State and role at each accepted TIMEOUT.
    timeouts: HashSet<(State, Role)>,
    /// State and role at each accepted RECOVER.
    recoveries: HashSet<(State, Role)>,
    /// What they met of the news and of the sender.
    meetings: BTreeMap<Meeting, usize>,
}

impl Met {
    fn add(&mut self, call: Call) {
        let (mut world, mut store) = (call.world, call.store.clone());
        let mut result = [0; RESULT_BYTES];
        let number = Model.play_command(&mut world, &mut store, call.ask(), &mut result);
        if number == 0 {
            assert_eq!(decode(&world).and_then(|world| world.check()), Ok(()));
            self.note_accepted(&call);
        } else {
            assert_eq!(world, call.world);
            assert_eq!(store, call.store);
        }
        *self.numbers.entry(number).or_default() += 1;
        for meeting in meetings(&call, number) {
            *self.meetings.entry(meeting).or_default() += 1;
        }
    }

    /// Every number that a command can be given was given often enough.
    fn check_numbers(&self) {
        for number in [0].into_iter().chain(6..=17) {
            let count = self.numbers.get(&number).copied().unwrap_or(0);
            assert!(count > CALLS / 1_000, "number {number}");
        }
        assert!(self.numbers[&0] > CALLS / 3);
    }

    /// All there is to meet was met often enough.
    fn check_meetings(&self) {
        for meeting in Meeting::ALL {
            let count = self.meetings.get(&meeting).copied().unwrap_or(0);
            assert!(count > CALLS / 1_000, "{meeting:?} is met {count} times");
        }
    }

    fn note_accepted(&mut self, call: &Call) {
        let world = decode(&call.world).unwrap();
        let (command, _) = Command::read(call.ask()).unwrap();
        let site = &world.sites[command.site()];
        match command {
            Command::Deliver { row, .. } => {
                let row = Row::read(&call.store, row, world.sizes.n).unwrap();
                self.deliveries.insert((row.kind, site.state(), site.role));
            }
            Command::Timeout(_) => {
                self.timeouts.insert((site.state(), site.role));
            }
            Command::Recover(_) => {
                self.recoveries.insert((site.state(), site.role));
            }
            _ => {}
        }
    }
}

#[test]
fn single_calls_meet_every_number_and_rule() {
    let mut generator = Generator::new(SEED);
    let mut met = Met::default();
    for _ in 0..CALLS {
        met.add(generator.next_call());
    }
    println!("{:?} {:?}", met.numbers, met.meetings);
    met.check_numbers();
    met.check_meetings();
    // Seven kinds, six states, two roles.
    assert_eq!(met.deliveries.len(), 7 * 6 * 2);
    assert_eq!(met.timeouts.len(), 6 * 2);
    assert_eq!(met.recoveries.len(), 6 * 2);
}

#[test]
fn the_same_seed_gives_the_same_lists() {
    let lists = |seed| {
        let mut generator = Generator::new(seed);
        (0..50).map(move |_| generator.next_list())
    };
    assert!(lists(1).eq(lists(1)));
    assert!(lists(1).ne(lists(2)));
    assert_eq!(duel(7, 3, 9_000), duel(7, 3, 9_000));
    assert_ne!(duel(7, 3, 9_000), duel(7, 4, 9_000));
}

#[test]
fn duels_fill_the_store_undecided() {
    for n in 3..=16 {
        let list = duel(n, u64::from(n), 32_768);
        assert_eq!(list.len(), 32_768);
        let day = Day::watch(&list);
        see_through(&list, &day.played);
        assert_eq!((day.played.number, day.played.place), (0, 32_768));
        assert!(is_undecided(&day), "{n} sites");
        assert_duel(&day, n);
    }
}

/// So many sites of 1, 2, 3 and so on, with quorums as small as can be.
fn rising_weights(n: usize) -> Sizes {
    let all = n * (n + 1) / 2;
    let mut sizes = Sizes::new(n, all / 2 + 1, all.div_ceil(2), everyone(n));
    let weights = sizes.weights[..n].iter_mut().zip(1..);
    weights.for_each(|(weight, value)| *weight = value);
    sizes
}

#[test]
fn weighted_duels_fill_the_store_undecided() {
    for n in 4..=16 {
        let sizes = rising_weights(n.into());
        let list = weighted_duel(sizes, u64::from(n), 32_768);
        let length = 32_767 + usize::from(n % 2);
        assert_eq!(list.len(), length);
        let day = Day::watch(&list);
        see_through(&list, &day.played);
        assert_eq!((day.played.number, day.played.place), (0, length));
        assert_eq!(day.played.world.sizes, sizes);
        assert!(is_undecided(&day), "{n} sites");
        assert_duel(&day, n);
    }
}

/// Has no site an outcome at the end?
fn is_undecided(day: &Day) -> bool {
    let mut members = day.played.world.members().iter();
    members.all(|site| site.log.outcome.is_none())
}

/// All is seen that a duel of n sites is for.
fn assert_duel(day: &Day, n: u8) {
    for sight in [
        Sight::FullStore,
        Sight::SeveralLeaders,
        Sight::BothGroups,
        Sight::CrashMidway,
        Sight::Repeat,
    ] {
        assert!(day.saw(sight), "{sight:?} with {n} sites");
    }
}

#[test]
fn duels_have_the_wanted_length() {
    for bytes in (5..300).chain([1_000, 4_001, 5_000, 32_767]) {
        let list = duel(4, bytes as u64, bytes);
        let wanted = if bytes == 5 { 5 } else { bytes - bytes % 2 };
        assert_eq!(list.len(), wanted);
        let mut store = vec![0; STORE_BYTES];
        assert_eq!(play_list(&mut store, &list).number, 0);
    }
}
