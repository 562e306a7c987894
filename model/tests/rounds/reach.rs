//! Every world of three sites that a few events lead to, and the rounds from each.

use std::collections::HashSet;
use std::rc::Rc;
use std::time::Instant;

use model::play::play_command;
use model::row::{ROW_BYTES, STORE_BYTES};
use model::{Ask, Command, Row, Site, World};

use crate::common::rounds::claim::{rounds_needed, Tried};
use crate::common::rounds::sorts::{End, Met, Sort};
use crate::common::rounds::{complete_votes, Reached};
use crate::common::three_sites;

const N: usize = 3;

/// Who is willing, and the records of the sites. The rounds hang on nothing else: they
/// deliver no row that was sent before them.
type Sites = (u16, [Site; N]);

fn sites_of(world: &World) -> Sites {
    let sites = world.members().try_into().expect("three sites");
    (world.sizes.willing, sites)
}

/// A world, with the rows that were sent, each once and in the order of their bytes: one
/// that is sent again can do no more than the first.
#[derive(PartialEq, Eq, Hash)]
struct Node {
    sites: Sites,
    rows: Vec<[u8; ROW_BYTES]>,
}

impl Node {
    /// A world and these rows, with the row that it has beside them in the store, if any.
    fn new(world: &World, rows: &[[u8; ROW_BYTES]], store: &[u8]) -> Node {
        let sent = store.chunks_exact(ROW_BYTES).take(world.row_count);
        let mut rows = rows.to_vec();
        for row in sent.skip(rows.len()) {
            let row = row.try_into().expect("a row's length");
            if let Err(at) = rows.binary_search(&row) {
                rows.insert(at, row);
            }
        }
        let sites = sites_of(world);
        Node { sites, rows }
    }

    fn world(&self) -> World {
        let (willing, sites) = &self.sites;
        let mut world = World::fresh(three_sites(*willing));
        world.sites[..N].copy_from_slice(sites);
        world.row_count = self.rows.len();
        world
    }

    /// Shows every world that one accepted command leads to, with the store.
    fn each_next(&self, store: &mut [u8], mut look: impl FnMut(&World, &[u8])) {
        let rows = self.rows.concat();
        store[..rows.len()].copy_from_slice(&rows);
        let here = self.world();
        for command in self.commands(store) {
            let (mut world, list) = (here, command.bytes());
            if play_command(&mut world, store, Ask::new(&list, 0)).is_ok() {
                look(&world, store);
            }
        }
    }

    /// All commands that may be accepted; the rows are in the store.
    fn commands(&self, store: &[u8]) -> Vec<Command> {
        let of_site = [Command::Timeout, Command::Crash, Command::Recover];
        let of_sites = (0..N).flat_map(|site| of_site.map(|command| command(site)));
        let arrivals = (0..self.rows.len()).flat_map(|at| {
            let row = Row::read(store, at, N).expect("a row that was sent");
            let sites = row.destinations(N);
            sites.map(move |site| Command::deliver(at, site))
        });
        let start = [Command::Start].into_iter();
        start.chain(of_sites).chain(arrivals).collect()
    }
}

/// The worlds that were reached, and the rounds from them.
struct Reach {
    /// Worlds with their rows.
    seen: HashSet<Rc<Node>>,
    /// Worlds without them, from which the rounds were tried.
    tried: HashSet<Sites>,
    met: Met,
    store: Vec<u8>,
}

impl Reach {
    fn new() -> Reach {
        Reach {
            seen: HashSet::new(),
            tried: HashSet::new(),
            met: Met::default(),
            store: vec![0; STORE_BYTES],
        }
    }

    /// All worlds that at most so many events lead to from this one.
    fn explore(&mut self, from: &Reached, events: usize) {
        let mut store = vec![0; STORE_BYTES];
        let first = Node::new(&from.world, &[], &from.store);
        let mut level: Vec<Rc<Node>> = self.if_new(first).into_iter().collect();
        for _ in 1..events {
            level = self.next_level(&mut store, &level);
        }
        self.last_level(&mut store, &level);
    }

    /// The new worlds that one more event leads to.
    fn next_level(&mut self, store: &mut [u8], level: &[Rc<Node>]) -> Vec<Rc<Node>> {
        let mut next = Vec::new();
        for node in level {
            node.each_next(store, |world, store| {
                next.extend(self.if_new(Node::new(world, &node.rows, store)));
            });
        }
        next
    }

    /// Those that the last event leads to. They need no rows.
    fn last_level(&mut self, store: &mut [u8], level: &[Rc<Node>]) {
        for node in level {
            node.each_next(store, |world, _| self.try_out(world));
        }
    }

    /// A world that was not seen before; the rounds from it are tried.
    fn if_new(&mut self, node: Node) -> Option<Rc<Node>> {
        let node = Rc::new(node);
        let is_new = self.seen.insert(node.clone());
        is_new.then(|| {
            self.try_out(&node.world());
            node
        })
    }

    /// The rounds from a world, once everyone is back, if they were not tried yet.
    fn try_out(&mut self, world: &World) {
        if !self.tried.insert(sites_of(world)) {
            return;
        }
        let (world, back) = self.bring_back(world);
        let tried = Tried::of(&world, &mut self.store, 3);
        let checked = tried.check();
        let side = checked.unwrap_or_else(|why| panic!("{why}: {world:?}"));
        let needed = rounds_needed(&world, &mut self.store);
        let needed = needed.expect("they have ended");
        assert!(needed <= 2, "{needed} rounds are needed: {world:?}");
        self.met.add(&tried, End { back, side, needed });
    }

    /// The world with everyone back, and how many were down.
    fn bring_back(&mut self, world: &World) -> (World, usize) {
        let is_down = |&site: &usize| !world.sites[site].up;
        let down: Vec<usize> = (0..N).filter(is_down).collect();
        let mut world = *world;
        for &site in &down {
            let list = Command::Recover(site).bytes();
            let played = play_command(&mut world, &mut self.store, Ask::new(&list, 0));
            assert_eq!(played, Ok(2));
        }
        (world, down.len())
    }
}

/// Explores from some worlds, each with other sites willing, and says what was met. Some
/// worlds need two rounds, and some end in each way.
fn explored(name: &str, from: &[Reached], events: usize) -> Met {
    let start = Instant::now();
    let mut reach = Reach::new();
    from.iter().for_each(|day| reach.explore(day, events));
    let (met, seen) = (reach.met, reach.seen.len());
    let seconds = start.elapsed().as_secs_f64();
    println!("{name}, {events} events: {met} in {seconds:.1} s");
    println!("{name}: {seen} worlds with their rows before the last event");
    for sort in [Sort::NeedsTwo, Sort::EndsCommitted, Sort::EndsAborted] {
        assert!(met.of(sort) > 0, "{sort:?}");
    }
    met
}

#[test]
fn from_every_world_of_the_first_events() {
    let fresh: Vec<Reached> = (0..8).map(three_sites).map(Reached::fresh).collect();
    let met = explored("from the first command on", &fresh, 9);
    assert_eq!((met.worlds, met.of(Sort::SomeBack)), (63_774, 27_690));
}

#[test]
fn from_every_world_after_complete_votes() {
    let votes = complete_votes(three_sites(7));
    let met = explored("after complete votes", &[votes], 8);
    assert_eq!((met.worlds, met.of(Sort::SomeBack)), (13_443, 5_956));
}

/// Site 0 is in the commit group, site 1 in the other, and site 2 prepared.
#[test]
fn from_every_world_after_a_quarrel() {
    let mut day = complete_votes(three_sites(7));
    let timeouts = [0, 1, 1].map(Command::Timeout);
    timeouts.into_iter().for_each(|command| day.play(command));
    let met = explored("after a quarrel", &[day], 7);
    assert_eq!((met.worlds, met.of(Sort::SomeBack)), (4_495, 1_855));
}
