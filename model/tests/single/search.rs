//! All histories of three single sites up to some length, by where they lead: the records
//! of the sites and the rows that were sent. The claim holds in all of them.

use std::collections::{BTreeSet, HashMap, HashSet};
use std::hash::Hash;
use std::time::Instant;

use model::claim::Broken;
use model::network::RowBytes;
use model::single::step;
use model::{Input, Record, Side, Site, Stepped, Terms, Written};

use crate::common::three_sites;

const N: usize = 3;

/// A way of taking a step.
pub type StepBy = fn(&Terms, &mut Site, Input) -> Result<Stepped, u8>;

/// A site, and what it has written so far: how many prepare records, group records, commits
/// and aborts, where two stand for more as well.
#[derive(Clone, Copy, PartialEq, Eq, Hash)]
struct Held {
    site: Site,
    written: [u8; 4],
}

/// Where histories lead: the numbers of the three sites in the table of them, and then of
/// the rows that were sent, each once and in order. One that is sent again can do no more
/// than the first.
pub type Node = Box<[u16]>;

/// What can be told to a site beside rows.
const PLAIN: [Input; 4] = [Input::Start, Input::Timeout, Input::Crash, Input::Recover];

/// Things by number, each once.
struct Table<T> {
    all: Vec<T>,
    numbers: HashMap<T, u16>,
}

impl<T: Copy + Eq + Hash> Table<T> {
    fn new() -> Table<T> {
        Table {
            all: Vec::new(),
            numbers: HashMap::new(),
        }
    }

    fn number(&mut self, thing: T) -> u16 {
        *self.numbers.entry(thing).or_insert_with(|| {
            self.all.push(thing);
            self.all.len() as u16 - 1
        })
    }
}

/// Where a step leads: the site then, and the row sent.
type Led = (u16, Option<u16>);

pub struct Search {
    step: StepBy,
    terms: [Terms; N],
    sites: Table<Held>,
    rows: Table<RowBytes>,
    /// Steps that were tried: at which site, as it is, and told what.
    steps: HashMap<(usize, u16, usize), Option<Led>>,
    pub seen: HashSet<Node>,
    /// The sites without the rows.
    reached: HashSet<[u16; N]>,
    pub broken: BTreeSet<Broken>,
}

impl Search {
    fn new(step: StepBy, willing: u16) -> Search {
        Search {
            step,
            terms: [0, 1, 2].map(|own| Terms::of(three_sites(willing), own)),
            sites: Table::new(),
            rows: Table::new(),
            steps: HashMap::new(),
            seen: HashSet::new(),
            reached: HashSet::new(),
            broken: BTreeSet::new(),
        }
    }

    fn fresh(&mut self) -> Node {
        let fresh = Held {
            site: Site::FRESH,
            written: [0; 4],
        };
        Box::new([self.sites.number(fresh); N])
    }

    /// The node that these steps lead to: at which site, and told what, a row by its place
    /// among those that were sent.
    fn led_by(&mut self, steps: &[(usize, usize)]) -> Node {
        let (mut node, mut sent) = (self.fresh(), Vec::new());
        for &(own, told) in steps {
            let told = match told.checked_sub(PLAIN.len()) {
                Some(row) => PLAIN.len() + usize::from(sent[row]),
                None => told,
            };
            let (site, row) = self.led(own, node[own], told).expect("an accepted step");
            sent.extend(row);
            node = next(&node, own, (site, row)).unwrap_or(node);
        }
        node
    }

    /// Where a step leads, if it is accepted.
    fn led(&mut self, own: usize, site: u16, told: usize) -> Option<Led> {
        if let Some(&led) = self.steps.get(&(own, site, told)) {
            return led;
        }
        let mut held = self.sites.all[usize::from(site)];
        let input = match told.checked_sub(PLAIN.len()) {
            Some(row) => Input::Deliver(&self.rows.all[row]),
            None => PLAIN[told],
        };
        let stepped = (self.step)(&self.terms[own], &mut held.site, input).ok();
        let led = stepped.map(|stepped| {
            held.note(stepped.written);
            let row = stepped.row.map(|row| self.rows.number(row.bytes()));
            (self.sites.number(held), row)
        });
        self.steps.insert((own, site, told), led);
        led
    }

    /// All nodes that at most so many steps lead to from this one.
    fn explore(&mut self, from: Node, steps: usize) {
        let mut level: Vec<Node> = self.if_new(from).into_iter().collect();
        for _ in 0..steps {
            let mut further = Vec::new();
            for node in &level {
                self.each_next(node, &mut further);
            }
            level = further;
        }
    }

    /// Adds the new nodes that one step leads to.
    fn each_next(&mut self, node: &Node, further: &mut Vec<Node>) {
        let plain = 0..PLAIN.len();
        let rows = node[N..].iter().map(|&row| PLAIN.len() + usize::from(row));
        for told in plain.chain(rows) {
            for own in 0..N {
                let led = self.led(own, node[own], told);
                let led_on = led.and_then(|led| next(node, own, led));
                further.extend(led_on.and_then(|node| self.if_new(node)));
            }
        }
    }

    /// A node that was not seen before; the claim is looked at.
    fn if_new(&mut self, node: Node) -> Option<Node> {
        let is_new = self.seen.insert(node.clone());
        is_new.then(|| {
            let sites = [node[0], node[1], node[2]];
            if self.reached.insert(sites) {
                self.look(sites);
            }
            node
        })
    }

    /// Looks at all that the sites have written.
    fn look(&mut self, sites: [u16; N]) {
        let written = sites.map(|site| self.sites.all[usize::from(site)].written);
        let [commits, aborts] = [2, 3].map(|at| written.iter().any(|held| held[at] > 0));
        let willing = self.terms.iter().all(|terms| terms.sizes.willing != 0);
        let prepared = written.iter().all(|held| held[0] == 1);
        let parts = [
            (Broken::TwoOutcomes, commits && aborts),
            (Broken::NotPrepared, commits && !prepared),
            (Broken::NotWilling, commits && !willing),
            (Broken::SecondGroup, written.iter().any(|held| held[1] > 1)),
            (
                Broken::SecondOutcome,
                written.iter().any(|held| held[2] + held[3] > 1),
            ),
        ];
        let broken = parts.into_iter().filter(|&(_, is_broken)| is_broken);
        self.broken.extend(broken.map(|(part, _)| part));
    }
}

impl Held {
    /// Notes what a step has written.
    fn note(&mut self, written: Written) {
        for record in written.records() {
            let at = match record {
                Record::Prepare => 0,
                Record::Group(_) => 1,
                Record::Outcome(Side::Commit) => 2,
                Record::Outcome(Side::Abort) => 3,
            };
            self.written[at] = (self.written[at] + 1).min(2);
        }
    }
}

/// A node after a step, if it is another one.
fn next(node: &Node, own: usize, (site, row): Led) -> Option<Node> {
    let rows = &node[N..];
    let place = row.and_then(|row| rows.binary_search(&row).err().map(|at| (at, row)));
    if node[own] == site && place.is_none() {
        return None;
    }
    let mut next = Vec::with_capacity(node.len() + 1);
    next.extend_from_slice(node);
    next[own] = site;
    if let Some((at, row)) = place {
        next.insert(N + at, row);
    }
    Some(next.into())
}

/// Everyone prepares, and site 0 hears of it.
pub const VOTES: [(usize, usize); 5] = [(0, 0), (1, 4), (2, 4), (0, 5), (0, 6)];
/// Then site 0 joins the commit group, and site 1, which leads too, the other one.
const QUARREL: [(usize, usize); 3] = [(0, 1), (1, 1), (1, 1)];
/// Or site 1 joins the commit group too, and site 0 commits.
pub const COMMIT: [(usize, usize); 4] = [(0, 1), (1, 7), (0, 8), (0, 1)];

/// Searches from where some steps lead, with these sites willing.
pub fn search(step: StepBy, willing: u16, from: &[(usize, usize)], steps: usize) -> Search {
    let mut search = Search::new(step, willing);
    let from = search.led_by(from);
    search.explore(from, steps);
    search
}

/// Searches with each set of willing sites; gives how many triples of sites there were.
fn search_all(name: &str, willing: &[u16], from: &[(usize, usize)], steps: usize) -> usize {
    let start = Instant::now();
    let (mut reached, mut seen) = (0, 0);
    for &willing in willing {
        let found = search(step, willing, from, steps);
        assert_eq!(found.broken, BTreeSet::new());
        (reached, seen) = (reached + found.reached.len(), seen + found.seen.len());
    }
    let seconds = start.elapsed().as_secs_f64();
    println!("{name}, {steps} steps: {seen} with their rows, {reached} without, in {seconds:.1} s");
    reached
}

/// As many steps lead to as many triples of sites as commands of a list do, which
/// tests/rounds/reach.rs counts in another way.
#[test]
fn all_histories_of_the_first_steps() {
    let all: Vec<u16> = (0..8).collect();
    assert_eq!(search_all("from fresh sites on", &all, &[], 9), 63_774);
}

#[test]
fn all_histories_after_complete_votes() {
    assert_eq!(search_all("after complete votes", &[7], &VOTES, 8), 13_443);
}

#[test]
fn all_histories_after_a_quarrel() {
    let steps = [&VOTES[..], &QUARREL].concat();
    assert_eq!(search_all("after a quarrel", &[7], &steps, 7), 4_495);
}

#[test]
fn all_histories_after_a_commit() {
    let steps = [&VOTES[..], &COMMIT].concat();
    search_all("after a commit", &[7], &steps, 7);
}
