//! What happens in histories of single sites, counted.

use std::collections::{BTreeMap, BTreeSet};
use std::fmt;

use model::layout::CODES;
use model::network::{Answer, Happening, Member};
use model::sizes::everyone;
use model::{Event, Network, Sizes};

/// What can happen in a history.
#[derive(Clone, Copy, Debug, PartialEq, Eq, PartialOrd, Ord)]
pub enum Sort {
    /// A row arrives at the same site again.
    Repeat,
    /// A row arrives when a hundred others have been sent since.
    Late,
    /// A row arrives nowhere.
    Lost,
    /// Two sites are coordinators at once.
    SeveralLeaders,
    /// The two groups are there at once.
    BothGroups,
    /// A site in a group crashes.
    CrashInGroup,
    /// A prepared site crashes, and has nothing else.
    CrashPrepared,
    /// A site recovers with a record.
    Return,
    /// A site recovers with an empty log.
    Restart,
    /// A coordinator has a commit quorum and commits.
    CommitQuorum,
    /// A coordinator has an abort quorum and aborts.
    AbortQuorum,
    /// A site adopts an outcome.
    Adopted,
    /// A step is refused.
    Refused,
    /// There are more rows than a list can have.
    ManyRows,
    Weighted,
    SomeUnwilling,
    /// A commit is written.
    Committed,
    /// An abort is.
    Aborted,
    /// Neither is.
    Open,
    /// Every site has ended.
    AllEnded,
}

impl Sort {
    pub const ALL: [Sort; 20] = [
        Sort::Repeat,
        Sort::Late,
        Sort::Lost,
        Sort::SeveralLeaders,
        Sort::BothGroups,
        Sort::CrashInGroup,
        Sort::CrashPrepared,
        Sort::Return,
        Sort::Restart,
        Sort::CommitQuorum,
        Sort::AbortQuorum,
        Sort::Adopted,
        Sort::Refused,
        Sort::ManyRows,
        Sort::Weighted,
        Sort::SomeUnwilling,
        Sort::Committed,
        Sort::Aborted,
        Sort::Open,
        Sort::AllEnded,
    ];
}

/// What was met in many histories.
#[derive(Debug, Default)]
pub struct Met {
    pub histories: usize,
    pub steps: usize,
    /// Most rows of one of them.
    pub rows: usize,
    /// Records written.
    pub records: usize,
    /// The numbers of sites.
    pub sites: BTreeSet<usize>,
    /// How often each number was given.
    pub numbers: BTreeMap<u32, usize>,
    sorts: BTreeMap<Sort, usize>,
}

impl Met {
    /// Adds a history that has led to this network.
    pub fn add(&mut self, eye: Eye, network: &Network, sizes: &Sizes) {
        self.histories += 1;
        self.rows = self.rows.max(network.rows.len());
        self.records += network.written.len();
        self.sites.insert(sizes.n);
        for (number, count) in &eye.numbers {
            *self.numbers.entry(*number).or_default() += count;
            self.steps += count;
        }
        for sort in eye.closed(network, sizes) {
            *self.sorts.entry(sort).or_default() += 1;
        }
    }

    /// How many histories of a sort were met.
    pub fn of(&self, sort: Sort) -> usize {
        self.sorts.get(&sort).copied().unwrap_or(0)
    }

    /// So many histories of each sort were met, and every number that a network gives.
    pub fn assert_rich(&self, least: usize) {
        for sort in Sort::ALL {
            let count = self.of(sort);
            assert!(count >= least, "{sort:?} is rare: {count}");
        }
        assert!(self.sites.iter().copied().eq(3..=16));
        assert!(self.numbers.keys().copied().eq([0, 11, 12, 13, 14]));
    }
}

impl fmt::Display for Met {
    fn fmt(&self, f: &mut fmt::Formatter) -> fmt::Result {
        let (histories, steps, records) = (self.histories, self.steps, self.records);
        let (rows, numbers, sorts) = (self.rows, &self.numbers, &self.sorts);
        write!(
            f,
            "{histories} histories, {steps} steps, {records} records, "
        )?;
        write!(f, "up to {rows} rows, numbers {numbers:?}, {sorts:?}")
    }
}

/// An eye on one history.
#[derive(Default)]
pub struct Eye {
    seen: BTreeSet<Sort>,
    numbers: BTreeMap<u32, usize>,
    /// For each row, the sites it has reached.
    reached: Vec<u16>,
}

impl Eye {
    fn note(&mut self, sort: Sort, is_seen: bool) {
        if is_seen {
            self.seen.insert(sort);
        }
    }

    /// Looks at a network after a step at a member that was like this.
    pub fn look(
        &mut self,
        network: &Network,
        (site, event): Happening,
        before: &Member,
        answer: &Answer,
    ) {
        *self.numbers.entry(answer.number).or_default() += 1;
        self.note(Sort::Refused, !answer.is_accepted());
        if !answer.is_accepted() {
            return;
        }
        self.reached.resize(network.rows.len(), 0);
        let state = before.site[CODES.start + site];
        let [_, _, outcome] = answer.written();
        match event {
            Event::Deliver(row) => {
                self.note(Sort::Repeat, self.reached[row] >> site & 1 == 1);
                self.note(Sort::Late, network.rows.len() > row + 100);
                self.note(Sort::Adopted, outcome != 0 && state != 0);
                self.reached[row] |= 1 << site;
            }
            Event::Timeout => {
                self.note(Sort::CommitQuorum, outcome == 1 && state == 2);
                self.note(Sort::AbortQuorum, outcome == 2 && state == 3);
                self.look_at_leaders(network);
            }
            Event::Crash => {
                self.note(Sort::CrashInGroup, state == 2 || state == 3);
                self.note(Sort::CrashPrepared, state == 1);
            }
            Event::Recover => {
                self.note(Sort::Restart, state == 0);
                self.note(Sort::Return, state != 0);
            }
            Event::Start => {}
        }
    }

    fn look_at_leaders(&mut self, network: &Network) {
        let has = |at: usize, byte: u8| {
            let members = network.members.iter();
            members.filter(|member| member.site[at] == byte).count()
        };
        self.note(Sort::SeveralLeaders, has(1, 1) > 1);
        self.note(Sort::BothGroups, has(3, 1) > 0 && has(3, 2) > 0);
    }

    /// All that was seen of a history that has led to this network.
    fn closed(mut self, network: &Network, sizes: &Sizes) -> BTreeSet<Sort> {
        self.reached.resize(network.rows.len(), 0);
        let ended = |byte: u8| {
            let members = network.members.iter();
            members.filter(|member| member.site[4] == byte).count()
        };
        let [open, commits, aborts] = [0, 1, 2].map(ended);
        let is_lost = self.reached.contains(&0);
        self.note(Sort::Lost, is_lost);
        self.note(Sort::ManyRows, network.rows.len() > 1_024);
        self.note(Sort::Weighted, sizes.weight() != sizes.n);
        self.note(Sort::SomeUnwilling, sizes.willing != everyone(sizes.n));
        self.note(Sort::Committed, commits > 0);
        self.note(Sort::Aborted, aborts > 0);
        self.note(Sort::Open, open == sizes.n);
        self.note(Sort::AllEnded, open == 0);
        self.seen
    }
}
