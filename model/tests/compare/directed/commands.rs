//! One command on a world near the base, for each clause from 6 to 15 and for
//! each rule.

use model::calls::RESULT_BYTES;
use model::layout::encode;
use model::row::ROW_BYTES;
use model::sizes::{everyone, MAX_LIST};
use model::world::MAX_ROWS;
use model::{one_command, Ask, Command, Log, Role, Side, Sizes, State, World};

use super::shared::{base, deliver, Done};
use crate::common::{group, vector};
use crate::comparer::Comparer;

use Command::{Crash, Recover, Start, Timeout};

type Edit = fn(&mut World);

/// One command on the base world, or on one near it.
pub struct Case {
    pub name: &'static str,
    number: u8,
    pub world: World,
    store: Vec<u8>,
    list: Vec<u8>,
    at: usize,
}

impl Case {
    fn bytes(name: &'static str, number: u8, list: &[u8]) -> Case {
        let (world, store) = base();
        Case {
            name,
            number,
            world,
            store,
            list: list.to_vec(),
            at: 0,
        }
    }

    pub fn new(name: &'static str, number: u8, command: Command) -> Case {
        Case::bytes(name, number, &command.bytes())
    }

    fn at(mut self, at: usize) -> Case {
        self.at = at;
        self
    }

    pub fn world(mut self, edit: Edit) -> Case {
        edit(&mut self.world);
        self
    }

    /// Changes a byte of row 5, the join that goes to all but site 0.
    pub fn row(mut self, at: usize, byte: u8) -> Case {
        self.store[5 * ROW_BYTES + at] = byte;
        self
    }

    /// All 1,024 rows are there.
    pub fn full(self) -> Case {
        self.world(|w| w.row_count = MAX_ROWS)
    }

    /// The news is so much.
    pub fn news(mut self, news: usize) -> Case {
        self.world.news = news;
        self
    }

    /// The world after the command, by the model.
    pub fn world_after(&self) -> World {
        let (mut world, mut store) = (self.world, self.store.clone());
        let ask = Ask::new(&self.list, self.at);
        let _ = one_command(&mut world, &mut store, ask);
        world
    }

    pub fn check(&self, both: &mut Comparer) -> Done {
        let world = encode(&self.world);
        let ask = Ask::new(&self.list, self.at);
        let given = both.command(&world, &self.store, ask, RESULT_BYTES)?;
        both.clause(self.name, self.number, given)
    }
}

/// Makes site 0 as it is before START, but for what it knows of the others.
pub fn not_started(w: &mut World) {
    let site = &mut w.sites[0];
    site.role = Role::Subordinate;
    site.log = Log::EMPTY;
    site.vector.set(0, State::Active);
}

/// Site 0 as before START, but for having heard of a commit.
fn told_of_commit(w: &mut World) {
    not_started(w);
    w.sites[0].vector.set(2, State::Terminated(Side::Commit));
}

/// Site 0 has aborted without a START.
fn aborted(w: &mut World) {
    not_started(w);
    w.sites[0].log.outcome = Some(Side::Abort);
    w.sites[0].vector.set(0, State::Terminated(Side::Abort));
}

/// Site 0 is prepared without a START.
fn prepared(w: &mut World) {
    not_started(w);
    w.sites[0].log.prepare = true;
    w.sites[0].vector.set(0, State::Prepared);
}

/// All sites lead.
fn leaders(w: &mut World) {
    w.sites
        .iter_mut()
        .for_each(|site| site.role = Role::Coordinator);
}

/// All sites down.
fn dark(w: &mut World) {
    w.sites.iter_mut().for_each(|site| site.up = false);
}

fn reading() -> Vec<Case> {
    let far = [0; MAX_LIST + 7];
    let mut long = far.to_vec();
    long.extend(Timeout(0).bytes());
    vec![
        Case::bytes("6 none left", 6, &[]),
        Case::bytes("6 none left", 6, &[3, 0]).at(2),
        Case::bytes("6 none left", 6, &[3, 0]).at(3),
        Case::bytes("6 none left", 6, &[3, 0]).at(usize::MAX),
        Case::bytes("6 none left", 6, &[3, 0]).at(1 << 32),
        Case::bytes("0 a place past 32,768", 0, &long).at(far.len()),
        Case::bytes("0 bytes after the command", 0, &[9, 3, 0, 9]).at(1),
        Case::bytes("7 operands cut short", 7, &[9, 9, 2, 5, 0]).at(2),
    ]
}

fn not_commands() -> Vec<Case> {
    [0, 6, 7, 128, 255]
        .map(|byte| Case::bytes("6 not 1 to 5", 6, &[byte, 0, 0, 0]))
        .into()
}

fn cut_short() -> Vec<Case> {
    let cut: [&[u8]; 6] = [&[2], &[2, 5], &[2, 5, 0], &[3], &[4], &[5]];
    cut.map(|bytes| Case::bytes("7 operands cut short", 7, bytes))
        .into()
}

/// Every command that names a site, at one that is not there.
fn no_site() -> Vec<Case> {
    let mut cases = Vec::new();
    for site in [5, 6, 16, 255] {
        cases.push(Case::new("8 site n or more", 8, Timeout(site)));
        cases.push(Case::new("8 site n or more", 8, Crash(site)));
        cases.push(Case::new("8 site n or more", 8, Recover(site)));
        cases.push(Case::new("8 site n or more", 8, deliver(5, site)));
        cases.push(Case::new("8 before 9", 8, deliver(8, site)));
    }
    cases
}

fn no_row() -> Vec<Case> {
    let mut cases = vec![
        Case::new("9 row not below the count", 9, deliver(1_024, 1)).full(),
        Case::new("9 row not below the count", 9, deliver(0, 1)).world(|w| w.row_count = 0),
        Case::new("9 before 12", 9, deliver(8, 4)),
    ];
    for row in [8, 9, 256, 256 + 5, 1_023, 1_024, 65_535] {
        cases.push(Case::new("9 row not below the count", 9, deliver(row, 1)));
    }
    cases
}

fn bad_kinds() -> Vec<Case> {
    let mut cases = Vec::new();
    for kind in [0, 8, 255] {
        cases.push(Case::new("10 kind not 1 to 7", 10, deliver(5, 1)).row(0, kind));
        cases.push(Case::new("10 before 11", 10, deliver(5, 0)).row(0, kind));
        cases.push(Case::new("10 before 12", 10, deliver(5, 4)).row(0, kind));
    }
    cases
}

/// Senders that are there, and some that are not.
fn row_senders() -> Vec<Case> {
    let case = |sender| {
        let (name, number) = match sender {
            0..=4 => ("0 any sender below n", 0),
            _ => ("10 sender n or more", 10),
        };
        Case::new(name, number, deliver(5, 1)).row(1, sender)
    };
    [0, 1, 2, 3, 4, 5, 16, 255].map(case).into()
}

/// Codes above 5 of sites that are there.
fn bad_codes() -> Vec<Case> {
    let mut cases = Vec::new();
    for entry in 4..4 + 5 {
        cases.push(Case::new("10 code above 5", 10, deliver(5, 1)).row(entry, 6));
        cases.push(Case::new("10 code above 5", 10, deliver(5, 3)).row(entry, 255));
    }
    cases
}

fn unread_codes() -> Vec<Case> {
    let case = |entry| {
        let case = Case::new("0 row codes from n up unread", 0, deliver(5, 1));
        case.row(entry, 255)
    };
    (4 + 5..ROW_BYTES).map(case).collect()
}

fn destinations() -> Vec<Case> {
    vec![
        Case::new("11 not a destination", 11, deliver(5, 0)),
        Case::new("11 not a destination", 11, deliver(6, 1)),
        Case::new("11 not a destination", 11, deliver(5, 1)).row(2, 0xfd),
        Case::new("11 not a destination", 11, deliver(5, 3))
            .row(2, 0)
            .row(3, 0xff),
        Case::new("11 before 12", 11, deliver(5, 4)).row(2, 0),
        Case::new("0 destinations from n up", 0, deliver(5, 3)).row(3, 0xff),
        wide(8, 0),
        wide(15, 0),
        wide(7, 11),
    ]
}

/// Sixteen sites and a row that goes to 8 and up.
fn wide(site: usize, number: u8) -> Case {
    let name = match number {
        0 => "0 destination in the high byte",
        _ => "11 not a destination",
    };
    let mut case = Case::new(name, number, deliver(0, site));
    case.world = World::fresh(Sizes::new(16, 9, 9, everyone(16)));
    case.world.row_count = 1;
    case.store[..ROW_BYTES].fill(0);
    case.store[..4].copy_from_slice(&[1, 0, 0, 0xff]);
    case
}

fn states() -> Vec<Case> {
    let mut cases = vec![
        Case::new("12 down: START", 12, Start).world(dark),
        Case::new("12 down: DELIVER", 12, deliver(5, 4)),
        Case::new("12 down: TIMEOUT", 12, Timeout(4)),
        Case::new("12 down: CRASH", 12, Crash(4)),
        Case::new("14 START, not active", 14, Start),
        Case::new("14 START, not active", 14, Start).world(aborted),
        Case::new("14 START, not active", 14, Start).world(prepared),
        Case::new("12 before 15", 12, Timeout(4)).full(),
        Case::new("14 before 15", 14, Start).full(),
    ];
    for site in 0..4 {
        cases.push(Case::new("13 RECOVER while up", 13, Recover(site)));
    }
    cases
}

fn room() -> Vec<Case> {
    let mut cases = vec![
        Case::new("15 START", 15, Start).world(not_started).full(),
        Case::new("15 START", 15, Start)
            .world(not_started)
            .world(|w| w.sizes.willing = 0)
            .full(),
        Case::new("15 TIMEOUT of a coordinator", 15, Timeout(0)).full(),
        Case::new("15 TIMEOUT of a subordinate", 15, Timeout(3)).full(),
        Case::new("0 full: TIMEOUT while active", 0, Timeout(0))
            .world(not_started)
            .full(),
        Case::new("0 full: CRASH", 0, Crash(0)).full(),
        Case::new("0 full: RECOVER", 0, Recover(4)).full(),
        Case::new("0 full: RECOVER, empty log", 0, Recover(0))
            .world(not_started)
            .world(dark)
            .full(),
        Case::new("0 the last row", 0, Timeout(0)).world(|w| w.row_count = MAX_ROWS - 1),
        Case::new("0 the last row", 0, deliver(5, 3)).world(|w| w.row_count = MAX_ROWS - 1),
    ];
    for kind in 1..=7 {
        let (name, number) = match kind {
            2 | 5 | 7 => ("0 full: DELIVER of a reply", 0),
            _ => ("15 DELIVER of a command", 15),
        };
        cases.push(Case::new(name, number, deliver(5, 3)).row(0, kind).full());
        cases.push(Case::new(name, number, deliver(5, 1)).row(0, kind).full());
    }
    cases
}

/// Puts site 3 into the abort group, beside a site in the commit group.
fn divided(w: &mut World) {
    let site = &mut w.sites[3];
    site.log.group = group(Side::Abort, &[1, 0, 0, 3, 0]);
    site.vector = vector(&[1, 2, 0, 3, 1]);
}

/// START, and RECOVER with an empty log.
fn beginnings() -> Vec<Case> {
    vec![
        Case::new("0 START", 0, Start).world(not_started),
        Case::new("0 START unwilling", 0, Start)
            .world(not_started)
            .world(|w| w.sizes.willing = 0b11110),
        Case::new("0 RECOVER, empty log", 0, Recover(0))
            .world(not_started)
            .world(dark),
        Case::new("0 RECOVER, empty log", 0, Recover(0))
            .world(told_of_commit)
            .world(dark),
        Case::new("0 RECOVER, empty log of a coordinator", 0, Recover(0))
            .world(not_started)
            .world(dark)
            .world(leaders),
    ]
}

/// RECOVER of every site with a record.
fn recoveries() -> Vec<Case> {
    (0..5).flat_map(recoveries_of).collect()
}

fn recoveries_of(site: usize) -> [Case; 4] {
    [(|_| ()) as Edit, divided, aborted, leaders].map(|edit| {
        let recover = Case::new("0 RECOVER, a record", 0, Recover(site));
        recover.world(edit).world(dark)
    })
}

/// CRASH and TIMEOUT at each sort of site.
fn stops() -> Vec<Case> {
    (0..4).flat_map(stops_at).collect()
}

fn stops_at(site: usize) -> Vec<Case> {
    let mut cases = Vec::new();
    for edit in [(|_| ()) as Edit, divided, not_started] {
        cases.push(Case::new("0 CRASH", 0, Crash(site)).world(edit));
        cases.push(Case::new("0 TIMEOUT", 0, Timeout(site)).world(edit));
        let lead = Case::new("0 TIMEOUT of a coordinator", 0, Timeout(site));
        cases.push(lead.world(leaders).world(edit));
    }
    cases
}

/// Every kind of row at a site in the abort group.
fn in_abort_group() -> Vec<Case> {
    let joins = |kind| {
        let case = Case::new("0 DELIVER in the abort group", 0, deliver(5, 3));
        case.world(divided).row(0, kind)
    };
    (1..=7).map(joins).collect()
}

/// Quorums missed and met.
fn quorums() -> Vec<Case> {
    (0..5).flat_map(near_quorums).collect()
}

/// So many others are known to be in the group of a coordinator, of either side.
fn near_quorums(known: usize) -> Vec<Case> {
    let mut cases = Vec::new();
    for quorums in [(2, 4), (3, 3), (4, 2)] {
        cases.push(near_quorum(known, quorums, (0, Side::Commit)));
        cases.push(near_quorum(known, quorums, (3, Side::Abort)));
    }
    cases
}

fn near_quorum(known: usize, (c, a): (usize, usize), (site, side): (usize, Side)) -> Case {
    let case = Case::new("0 TIMEOUT near the quorum", 0, Timeout(site));
    let mut case = case.world(divided).world(leaders);
    case.world.sizes = Sizes::new(5, c, a, everyone(5));
    let held = &mut case.world.sites[site].vector;
    let others = (0..5).filter(|&other| other != site);
    others
        .take(known)
        .for_each(|other| held.set(other, State::InGroup(side)));
    case
}

/// Every kind of row with every code at every sort of site.
fn deliveries() -> Vec<Case> {
    (1..=7).flat_map(deliveries_of).collect()
}

fn deliveries_of(kind: u8) -> Vec<Case> {
    (1..4).flat_map(|site| every_code(kind, site)).collect()
}

/// Row 5 of this kind to a site, with every code in every entry.
fn every_code(kind: u8, site: usize) -> Vec<Case> {
    let case = |at: usize| {
        let case = Case::new("0 DELIVER", 0, deliver(5, site));
        case.row(0, kind).row(4 + at / 6, (at % 6) as u8)
    };
    (0..5 * 6).map(case).collect()
}

pub fn commands(both: &mut Comparer) -> Done {
    let groups = [
        reading(),
        not_commands(),
        cut_short(),
        no_site(),
        no_row(),
        bad_kinds(),
        row_senders(),
        bad_codes(),
        unread_codes(),
        destinations(),
        states(),
        room(),
        beginnings(),
        recoveries(),
        stops(),
        in_abort_group(),
        quorums(),
        deliveries(),
    ];
    let mut cases = groups.iter().flatten();
    cases.try_for_each(|case| case.check(both))
}
