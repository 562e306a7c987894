//! What a quiet day costs, and the lists of three sites' day written out.

use std::ops::RangeInclusive;

use model::quiet::Asked;
use model::sizes::MAX_SITES;
use model::{Command, Log, Side, World};

/// Numbers of sites that a competition can have.
pub const SITES: RangeInclusive<usize> = 3..=16;

/// The list of three sites, quorums of two, each round's replies last.
pub const THREE: [u8; 58] = [
    3, 2, 2, 7, 0, // all three are willing
    1, // START: row 0 is prepare
    2, 0, 0, 1, 2, 0, 0, 2, // it makes rows 1 and 2, the votes
    2, 1, 0, 0, 2, 2, 0, 0, // which go to site 0
    3, 0, // row 3 is join commit
    2, 3, 0, 1, 2, 3, 0, 2, 2, 4, 0, 0, 2, 5, 0, 0, //
    3, 0, // row 6 is outcome
    2, 6, 0, 1, 2, 6, 0, 2, 2, 7, 0, 0, 2, 8, 0, 0,
];

/// The same, each reply at once.
pub const THREE_AT_ONCE: [u8; 58] = [
    3, 2, 2, 7, 0, //
    1, //
    2, 0, 0, 1, 2, 1, 0, 0, 2, 0, 0, 2, 2, 2, 0, 0, //
    3, 0, //
    2, 3, 0, 1, 2, 4, 0, 0, 2, 3, 0, 2, 2, 5, 0, 0, //
    3, 0, //
    2, 6, 0, 1, 2, 7, 0, 0, 2, 6, 0, 2, 2, 8, 0, 0,
];

/// What a day costs.
#[derive(Clone, Copy, Debug, Default, PartialEq, Eq)]
pub struct Cost {
    /// Bytes of its list.
    pub bytes: usize,
    /// Accepted events.
    pub events: usize,
    /// Those of them that are deliveries.
    pub deliveries: usize,
    /// Rows sent.
    pub rows: usize,
    /// Log records written, at all sites.
    pub records: usize,
    /// Entries that rose.
    pub news: usize,
}

/// What a quiet day of n sites costs: of events, rows and records request (v) says
/// so. A delivery takes 4 bytes, the header 5, START 1 and each TIMEOUT 2. Prepares
/// tell n - 1 sites of site 0. A join or an outcome tells each of n - 1 sites of all
/// the others, n - 1 entries: of site 0 its next state, of the rest the state that
/// they were in before. Each of three times n - 1 replies tells site 0 of its sender
/// alone.
pub fn cost(n: usize) -> Cost {
    let others = n - 1;
    Cost {
        bytes: 10 + 24 * others,
        events: 3 + 6 * others,
        deliveries: 6 * others,
        rows: 3 * n,
        records: 3 * n,
        news: 4 * others + 2 * others * others,
    }
}

/// Every legal pair of quorums for n sites.
pub fn quorums(n: usize) -> impl Iterator<Item = Asked> {
    let commits = 2..n;
    commits.flat_map(move |commit| (n + 1 - commit..n).map(move |abort| [n, commit, abort]))
}

/// Some of them: one quorum as small and the other as large as can be, both as large,
/// and both in the middle. For few sites some of these are the same.
pub fn far_quorums(n: usize) -> Vec<Asked> {
    let (most, middle) = (n - 1, n / 2 + 1);
    let mut pairs = vec![
        [n, 2, most],
        [n, most, 2],
        [n, most, most],
        [n, middle, middle],
    ];
    pairs.sort();
    pairs.dedup();
    pairs
}

/// A day's cost and its log records, counted as they come.
pub struct Account {
    cost: Cost,
    /// Each site's records in the order in which they appeared, by their letters.
    logs: [String; MAX_SITES],
    /// The most records that one command has written.
    most: usize,
    held: World,
}

impl Account {
    /// Before the first command of a list of so many bytes.
    pub fn open(bytes: usize, fresh: World) -> Account {
        Account {
            cost: Cost {
                bytes,
                ..Cost::default()
            },
            logs: Default::default(),
            most: 0,
            held: fresh,
        }
    }

    /// Takes in the world that an accepted command has led to.
    pub fn add(&mut self, command: Command, world: &World) {
        self.cost.events += 1;
        self.cost.deliveries += usize::from(matches!(command, Command::Deliver { .. }));
        self.cost.rows = world.row_count;
        self.cost.news = world.news;
        let before = self.cost.records;
        for (site, log) in self.logs.iter_mut().enumerate() {
            let records = written(&self.held.sites[site].log, &world.sites[site].log);
            self.cost.records += records.len();
            log.push_str(&records);
        }
        self.most = self.most.max(self.cost.records - before);
        self.held = *world;
    }

    /// Has the day cost what a quiet one of n sites does, and has each site prepared,
    /// joined the commit group and committed, in this order and nothing else, with one
    /// record at a time?
    pub fn check(&self, n: usize) -> Result<(), String> {
        if self.cost != cost(n) {
            return Err(format!("{n} sites: {:?}, not {:?}\n", self.cost, cost(n)));
        }
        let due = (0..MAX_SITES).map(|site| if site < n { "PCc" } else { "" });
        if self.most > 1 || !self.logs.iter().eq(due) {
            let (most, logs) = (self.most, &self.logs);
            return Err(format!("{n} sites: records {logs:?}, {most} at once\n"));
        }
        Ok(())
    }
}

/// The letters of the places in a log that are not what they were.
fn written(before: &Log, after: &Log) -> String {
    let places = letters(before).into_iter().zip(letters(after));
    let changed = places.filter(|(before, after)| before != after);
    changed.map(|(_, after)| after).collect()
}

/// The letters that the report has for a log.
fn letters(log: &Log) -> [char; 3] {
    let letter = |side: Option<Side>, commit, abort| match side {
        Some(Side::Commit) => commit,
        Some(Side::Abort) => abort,
        None => '-',
    };
    let prepare = if log.prepare { 'P' } else { '-' };
    let group = letter(log.group_side(), 'C', 'A');
    [prepare, group, letter(log.outcome, 'c', 'a')]
}
