//! Worlds that lists lead to, from which the rounds of everyone who is back begin.

pub mod claim;
pub mod sorts;

use std::ops::Range;

use model::generate::Generator;
use model::row::STORE_BYTES;
use model::world::MAX_ROWS;
use model::{one_command, play_list, Ask, Command, Edition, Side, Sizes, World};

use super::all_willing;
use claim::{most_rows, rounds_needed, Tried};
use Command::{Recover, Start, Timeout};

/// What a store has in it before the list.
pub const FILL: u8 = 0xee;

/// A list, with the world and the store that it leads to.
#[derive(Clone)]
pub struct Reached {
    pub list: Vec<u8>,
    pub world: World,
    pub store: Vec<u8>,
}

impl Reached {
    /// Plays a list, without what it stops at.
    pub fn by(mut list: Vec<u8>) -> Reached {
        let mut store = vec![FILL; STORE_BYTES];
        let played = play_list(&mut store, &list);
        list.truncate(played.place);
        Reached {
            list,
            world: played.world,
            store,
        }
    }

    /// Before the first command.
    pub fn fresh(sizes: Sizes) -> Reached {
        Reached::by(Edition::Second.header(&sizes))
    }

    /// Adds a command that is accepted.
    pub fn play(&mut self, command: Command) {
        let list = command.bytes();
        let played = one_command(&mut self.world, &mut self.store, Ask::new(&list, 0));
        assert_eq!(played, Ok(list.len()), "{command:?}");
        self.list.extend(list);
    }

    /// Adds a command whose row arrives at these sites; gives the rows of their replies.
    pub fn send(
        &mut self,
        command: Command,
        sites: impl IntoIterator<Item = usize>,
    ) -> Range<usize> {
        let row = self.world.row_count;
        self.play(command);
        let sites = sites.into_iter();
        sites.for_each(|site| self.play(Command::deliver(row, site)));
        row + 1..self.world.row_count
    }

    /// Adds the arrival of some rows at a site.
    pub fn hand_over(&mut self, rows: Range<usize>, site: usize) {
        for row in rows {
            self.play(Command::deliver(row, site));
        }
    }

    /// The sites that are down.
    pub fn down(&self) -> Vec<usize> {
        let sites = 0..self.world.sizes.n;
        sites.filter(|&site| !self.world.sites[site].up).collect()
    }

    /// Adds the recovery of each of them.
    pub fn bring_back(&mut self) {
        for site in self.down() {
            self.play(Recover(site));
        }
    }

    /// Are the request's premises met?
    pub fn is_ready(&self) -> bool {
        let sizes = &self.world.sizes;
        let just_meet = sizes.commit_quorum + sizes.abort_quorum == sizes.weight() + 1;
        let has_room = self.world.row_count + most_rows(sizes.n) <= MAX_ROWS;
        just_meet && has_room && self.down().is_empty()
    }

    /// So many rounds from here on.
    pub fn rounds(&self, rounds: usize) -> Tried {
        Tried::of(&self.world, &mut self.store.clone(), rounds)
    }

    /// How many rounds are needed from here on.
    pub fn rounds_needed(&self) -> Option<usize> {
        rounds_needed(&self.world, &mut self.store.clone())
    }
}

/// All sites are willing and prepared, and site 0 has heard so from each.
pub fn complete_votes(sizes: Sizes) -> Reached {
    let mut day = Reached::fresh(sizes);
    let votes = day.send(Start, 1..sizes.n);
    day.hand_over(votes, 0);
    day
}

/// The same, after which row 0 arrives at site 1 again and again, until no more rows
/// than this are free.
pub fn with_free_rows(n: usize, free: usize) -> Reached {
    let mut day = complete_votes(all_willing(n));
    while day.world.row_count + free < MAX_ROWS {
        day.play(Command::deliver(0, 1));
    }
    day
}

/// Every site is in a group: those with a bit here in the commit group, the others in
/// the abort group. The lowest of each leads it. Of all replies only the votes arrive that
/// the commit group's leader needs.
pub fn split(sizes: Sizes, commit: u16) -> Reached {
    let n = sizes.n;
    let is_in = |&site: &usize| commit >> site & 1 == 1;
    let (commit, abort): (Vec<usize>, Vec<usize>) = (0..n).partition(is_in);
    let mut day = Reached::fresh(sizes);
    let mut votes = day.send(Start, 1..n);
    if let Some((&leader, followers)) = commit.split_first() {
        if leader != 0 {
            let others = (0..n).filter(|&site| site != leader);
            votes = day.send(Timeout(leader), others);
        }
        day.hand_over(votes, leader);
        day.send(Timeout(leader), followers.iter().copied());
    }
    if let Some((&leader, followers)) = abort.split_first() {
        if leader != 0 {
            day.play(Timeout(leader));
        }
        day.send(Timeout(leader), followers.iter().copied());
    }
    day
}

/// The side whose group has its quorum then.
pub fn winner(sizes: &Sizes, commit: u16) -> Side {
    let members = (0..sizes.n).filter(|site| commit >> site & 1 == 1);
    let weight: usize = members.map(|site| usize::from(sizes.weights[site])).sum();
    if weight >= sizes.commit_quorum {
        Side::Commit
    } else {
        Side::Abort
    }
}

/// Worlds that generated lists lead to, with everyone brought back, that meet the
/// request's premises; each with how many sites were brought back.
pub fn worlds(seed: u64) -> impl Iterator<Item = (Reached, usize)> {
    lists(seed).filter_map(|list| {
        let mut reached = Reached::by(list);
        let down = reached.down().len();
        reached.bring_back();
        reached.is_ready().then_some((reached, down))
    })
}

/// Lists of all sorts of beginnings that have not gone too far: cut ones, duels, and
/// some that wander on.
fn lists(seed: u64) -> impl Iterator<Item = Vec<u8>> {
    let mut short = Generator::up_to(seed, 80);
    let mut middle = Generator::up_to(seed + 1, 400);
    let mut long = Generator::up_to(seed + 2, 1_500);
    (0..).map(move |at| match at % 8 {
        0 | 1 => short.next_guided(),
        2 => short.next_truncated(),
        3 => middle.next_guided(),
        4 | 5 => middle.next_truncated(),
        6 => middle.next_duel(),
        _ => long.next_guided(),
    })
}
