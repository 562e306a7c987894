//! One-command calls, on worlds that a list may never reach.

use super::guide::Guide;
use super::header::beginning;
use super::rng::Rng;
use crate::command::{Ask, Command};
use crate::layout::{encode, CODES, GROUP_CODES, HEAD_BYTES, SITES_AT, SITE_BYTES};
use crate::layout::{WEIGHTS, WORLD_BYTES};
use crate::row::{ROW_BYTES, STORE_BYTES};
use crate::site::{GroupRecord, Log, Role, Site};
use crate::sizes::{everyone, Sizes, MAX_SITES};
use crate::state::{Side, State};
use crate::vector::Vector;
use crate::world::{World, MAX_NEWS, MAX_ROWS};

/// The lowest and the highest code that a site may hold, and that a row may tell:
/// outcomes are not always there. Some rows tell of nothing else, so that both are
/// often shown to a site that has none.
const HELD: [(usize, usize); 5] = [(0, 1), (0, 2), (0, 3), (0, 3), (0, 5)];
const TOLD: [(usize, usize); 5] = [(0, 1), (0, 2), (0, 3), (4, 5), (0, 5)];

/// All that a one-command call is given, the world as bytes.
#[derive(Clone, Debug)]
pub struct Call {
    pub world: [u8; WORLD_BYTES],
    pub store: Vec<u8>,
    pub list: Vec<u8>,
    pub at: usize,
}

impl Call {
    pub fn ask(&self) -> Ask<'_> {
        Ask::new(&self.list, self.at)
    }
}

/// A call on a reached or a thinkable world, with some damage at times.
pub fn any(rng: &mut Rng) -> Call {
    let (mut world, mut store) = if rng.chance(40) {
        reached(rng)
    } else {
        thinkable(rng)
    };
    if rng.chance(75) {
        world.news = thinkable_news(rng);
    }
    let command = match aimed(rng, &mut world) {
        Some(command) => command,
        None => any_command(rng, &world),
    };
    let (list, at) = command_bytes(rng, command);
    if rng.chance(8) {
        misweigh(rng, &mut world.sizes);
    }
    let mut world = encode(&world);
    if rng.chance(12) {
        damage_world(rng, &mut world);
    }
    if rng.chance(20) {
        damage_store(rng, &mut store);
    }
    if rng.chance(2) {
        store.truncate(STORE_BYTES - rng.choose(&[1, 20, STORE_BYTES]));
    }
    Call {
        world,
        store,
        list,
        at,
    }
}

/// A world and store that some list leads to.
fn reached(rng: &mut Rng) -> (World, Vec<u8>) {
    let beginning = beginning(rng);
    let mut guide = Guide::new(beginning, rng.between(5, 600));
    guide.wander(rng);
    (guide.world, guide.store)
}

/// A world that passes the check, whatever its logs and vectors say.
fn thinkable(rng: &mut Rng) -> (World, Vec<u8>) {
    let (_, sizes) = beginning(rng);
    let mut world = World::fresh(sizes);
    let n = sizes.n;
    world.row_count = rng.choose(&[0, 1, 5, 40, MAX_ROWS - 1, MAX_ROWS]);
    for me in 0..n {
        world.sites[me] = thinkable_site(rng, me, n);
    }
    let store = thinkable_store(rng, &world);
    (world, store)
}

/// A store with as many rows as a world has, and anything after them.
fn thinkable_store(rng: &mut Rng, world: &World) -> Vec<u8> {
    let size = STORE_BYTES + rng.choose(&[0, 0, 1, 100]);
    let mut store = rng.bytes(size);
    for row in store.chunks_exact_mut(ROW_BYTES).take(world.row_count) {
        row.copy_from_slice(&thinkable_row(rng, world.sizes.n));
    }
    store
}

/// Any record that site `me` of n can have.
pub fn thinkable_site(rng: &mut Rng, me: usize, n: usize) -> Site {
    let log = Log {
        prepare: rng.chance(60),
        group: maybe_side(rng, 45).map(|side| GroupRecord {
            side,
            vector: thinkable_vector(rng, n, me, State::InGroup(side)),
        }),
        outcome: maybe_side(rng, 20),
    };
    Site {
        up: rng.chance(80),
        role: rng.choose(&[Role::Subordinate, Role::Coordinator]),
        log,
        vector: thinkable_vector(rng, n, me, log.state()),
    }
}

fn maybe_side(rng: &mut Rng, percent: usize) -> Option<Side> {
    let side = rng.choose(&[Side::Commit, Side::Abort]);
    rng.chance(percent).then_some(side)
}

/// Any vector of a site in that state.
fn thinkable_vector(rng: &mut Rng, n: usize, me: usize, state: State) -> Vector {
    let codes = thinkable_codes(rng, n, &HELD);
    let mut vector = Vector::read(&codes).expect("codes up to 5");
    vector.set(me, state);
    vector
}

/// Codes in one of these ranges; at times all of one sort.
fn thinkable_codes(rng: &mut Rng, n: usize, ranges: &[(usize, usize)]) -> Vec<u8> {
    let (low, high) = rng.choose(ranges);
    let same = rng.chance(25).then(|| rng.between(low, high) as u8);
    (0..n)
        .map(|_| same.unwrap_or_else(|| rng.between(low, high) as u8))
        .collect()
}

/// News of a world, near the limit half of the time and seldom over it.
fn thinkable_news(rng: &mut Rng) -> usize {
    let near = rng.choose(&[1, 3, 3, 5, MAX_SITES]);
    match rng.below(100) {
        0..=14 => 0,
        15..=29 => rng.below(300),
        30..=47 => rng.below(MAX_NEWS + 1),
        48..=95 => MAX_NEWS - rng.below(near),
        96..=97 => MAX_NEWS + rng.between(1, near),
        _ => rng.between(MAX_NEWS + 1, u32::MAX as usize),
    }
}

/// A row that passes, with anything in its codes from n up.
pub fn thinkable_row(rng: &mut Rng, n: usize) -> [u8; ROW_BYTES] {
    let mut row = [0; ROW_BYTES];
    row[0] = rng.between(1, 7) as u8;
    row[1] = rng.below(n) as u8;
    let to = if rng.chance(90) {
        everyone(MAX_SITES)
    } else {
        rng.draw() as u16
    };
    row[2..4].copy_from_slice(&to.to_le_bytes());
    row[4..4 + n].copy_from_slice(&thinkable_codes(rng, n, &TOLD));
    for code in &mut row[4 + n..] {
        *code = rng.choose(&[0, 0, 3, 200]);
    }
    row
}

/// TIMEOUT of a site in a group, more often where weights differ, with the group's
/// quorum as much as the site knows of it or one more; none where such a quorum is
/// not legal.
pub fn aimed(rng: &mut Rng, world: &mut World) -> Option<Command> {
    let sizes = world.sizes;
    let joined = |&me: &usize| matches!(world.sites[me].state(), State::InGroup(_));
    let me = rng.pick((0..sizes.n).filter(joined))?;
    let mut site = world.sites[me];
    let state @ State::InGroup(side) = site.state() else {
        return None;
    };
    if rng.chance(40) {
        join_light(&sizes, &mut site.vector, (me, state));
    }
    let known = site.vector.weigh(state, &sizes.weights);
    let aimed = aimed_at(&sizes, side, known + rng.below(2));
    let percent = if sizes.weight() > sizes.n { 45 } else { 8 };
    let is_aimed = rng.chance(percent) && aimed.check().is_ok();
    is_aimed.then(|| {
        world.sizes = aimed;
        (site.up, site.role) = (true, Role::Coordinator);
        world.sites[me] = site;
        Command::Timeout(me)
    })
}

/// Of the other sites those that are lighter than the middle are in the group too,
/// as far as this one knows.
fn join_light(sizes: &Sizes, known: &mut Vector, (me, joined): (usize, State)) {
    let is_light = |site: usize| usize::from(sizes.weights[site]) * sizes.n < sizes.weight();
    for site in (0..sizes.n).filter(|&site| site != me) {
        let state = if is_light(site) {
            joined
        } else {
            State::Prepared
        };
        known.set(site, state);
    }
}

/// Sizes with this quorum for one side, and the least that meets it for the other.
fn aimed_at(sizes: &Sizes, side: Side, quorum: usize) -> Sizes {
    let other = (sizes.weight() + 1).saturating_sub(quorum);
    let (commit_quorum, abort_quorum) = match side {
        Side::Commit => (quorum, other),
        Side::Abort => (other, quorum),
    };
    Sizes {
        commit_quorum,
        abort_quorum,
        ..*sizes
    }
}

/// Makes a weight wrong, or a quorum for the weights there are.
pub fn misweigh(rng: &mut Rng, sizes: &mut Sizes) {
    let past = sizes.weight() - sizes.heaviest() + 1;
    match rng.below(5) {
        0 => sizes.weights[rng.below(sizes.n)] = 0,
        1 => sizes.weights[rng.between(sizes.n, MAX_SITES).min(15)] ^= rng.choose(&[1, 128, 255]),
        2 => sizes.commit_quorum = rng.choose(&[past, sizes.weight()]),
        3 => sizes.abort_quorum = rng.choose(&[past, sizes.weight()]),
        _ => sizes.abort_quorum = sizes.weight() - sizes.commit_quorum,
    }
}

/// A command somewhere in a list, and its place.
fn command_bytes(rng: &mut Rng, command: Command) -> (Vec<u8>, usize) {
    let at = rng.choose(&[0, 0, 5, 77]);
    let mut list = rng.bytes(at);
    list.extend(command.bytes());
    if rng.chance(2) {
        list[at] = rng.choose(&[0, 6, 255]);
    }
    if rng.chance(3) {
        list.truncate(rng.between(at, list.len()));
    } else if rng.chance(30) {
        let size = rng.below(20);
        list.extend(rng.bytes(size));
    }
    let far = rng.choose(&[list.len(), list.len() + 1, usize::MAX]);
    (list, if rng.chance(2) { far } else { at })
}

fn any_command(rng: &mut Rng, world: &World) -> Command {
    let site = below_or_at(rng, world.sizes.n);
    match rng.below(10) {
        0 => Command::Start,
        1..=5 => Command::deliver(below_or_at(rng, world.row_count), site),
        6..=7 => Command::Timeout(site),
        8 => Command::Crash(site),
        _ => Command::Recover(down_or(rng, world, site)),
    }
}

/// Most often a site that is down, if there is one.
fn down_or(rng: &mut Rng, world: &World, site: usize) -> usize {
    let down = (0..world.sizes.n).filter(|&site| !world.sites[site].up);
    match rng.pick(down) {
        Some(found) if rng.chance(70) => found,
        _ => site,
    }
}

/// A number below a bound, seldom the bound itself.
fn below_or_at(rng: &mut Rng, bound: usize) -> usize {
    if rng.chance(3) {
        bound
    } else {
        rng.below(bound)
    }
}

/// One byte changed: in the head, a weight, or at a site that takes part or does
/// not.
fn damage_world(rng: &mut Rng, world: &mut [u8; WORLD_BYTES]) {
    let site = SITES_AT + SITE_BYTES * rng.below(MAX_SITES);
    let place = match rng.below(11) {
        0..=2 => rng.below(HEAD_BYTES),
        10 => WEIGHTS.start + rng.below(MAX_SITES),
        3..=4 => site + rng.below(CODES.start),
        5..=6 => site + GROUP_CODES.start + rng.below(MAX_SITES),
        _ => site + CODES.start + rng.below(MAX_SITES),
    };
    world[place] = rng.choose(&[0, 1, 2, 3, 4, 5, 6, 15, 16, 17, 255]);
}

/// Some bytes changed anywhere, most of them in the first rows.
fn damage_store(rng: &mut Rng, store: &mut [u8]) {
    for _ in 0..rng.between(1, 30) {
        let reach = rng.choose(&[100, 1_000, store.len()]);
        let place = rng.below(reach);
        store[place] = rng.choose(&[0, 3, 6, 8, 16, 255]);
    }
}
