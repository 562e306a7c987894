//! One command at a list's end that is refused.

use super::guide::Guide;
use super::rng::Rng;
use crate::command::Command;
use crate::number;
use crate::site::Site;
use crate::sizes::{MAX_LIST, MAX_SITES};
use crate::state::State;
use crate::world::MAX_ROWS;

/// The numbers a played command can be refused with.
const NUMBERS: [u8; 9] = [
    number::COMMAND,
    number::CUT,
    number::SITE,
    number::ROW,
    number::NOT_SENT,
    number::DOWN,
    number::UP,
    number::STARTED,
    number::FULL,
];

/// Adds a command that is refused, with some bytes behind it at times. A
/// refusal that cannot be had now, or does not fit, is not added.
pub fn spoil(guide: &mut Guide, rng: &mut Rng) {
    let mut numbers = NUMBERS;
    rng.shuffle(&mut numbers);
    if rng.chance(50) {
        prefer_full(&mut numbers);
    }
    for number in numbers {
        if add_refusal(guide, rng, number) {
            return;
        }
    }
}

/// A full store is seldom, so it is tried first.
fn prefer_full(numbers: &mut [u8]) {
    numbers.sort_by_key(|&number| number != number::FULL);
}

fn add_refusal(guide: &mut Guide, rng: &mut Rng, number: u8) -> bool {
    let Some(mut bytes) = refused_bytes(guide, rng, number) else {
        return false;
    };
    if guide.try_out(&bytes) != Err(number) {
        return false;
    }
    if number != number::CUT && rng.chance(30) {
        let size = rng.between(1, 12);
        bytes.extend(rng.bytes(size));
    }
    // The list may outgrow what was wished, but not what a list can be.
    let fits = guide.list.len() + bytes.len() <= MAX_LIST;
    if fits {
        guide.list.extend(bytes);
    }
    fits
}

/// Bytes that should be refused with this number.
fn refused_bytes(guide: &Guide, rng: &mut Rng, number: u8) -> Option<Vec<u8>> {
    match number {
        number::COMMAND => Some(vec![rng.choose(&[0, 6, 7, 100, 255])]),
        number::CUT => Some(cut_command(rng)),
        number::SITE => Some(bad_site(guide, rng).bytes()),
        number::ROW => Some(bad_row(guide, rng).bytes()),
        number::NOT_SENT => wrong_address(guide, rng).map(Command::bytes),
        number::DOWN => at_down_site(guide, rng).map(Command::bytes),
        number::UP => rng
            .pick(guide.sites(|site| site.up))
            .map(|site| Command::Recover(site).bytes()),
        number::STARTED => Some(Command::Start.bytes()),
        _ => one_row_more(guide, rng).map(Command::bytes),
    }
}

fn cut_command(rng: &mut Rng) -> Vec<u8> {
    let mut bytes = match rng.below(4) {
        0 => Command::Timeout(0).bytes(),
        1 => Command::Crash(1).bytes(),
        2 => Command::Recover(2).bytes(),
        _ => Command::deliver(0, 1).bytes(),
    };
    bytes.truncate(rng.between(1, bytes.len() - 1));
    bytes
}

fn bad_site(guide: &Guide, rng: &mut Rng) -> Command {
    let site = rng.choose(&[guide.n(), MAX_SITES, 255]);
    let row = rng.below(guide.world.row_count + 1);
    rng.choose(&[
        Command::deliver(row, site),
        Command::Timeout(site),
        Command::Crash(site),
        Command::Recover(site),
    ])
}

fn bad_row(guide: &Guide, rng: &mut Rng) -> Command {
    let rows = guide.world.row_count;
    let row = rng.choose(&[rows, rows + 1, MAX_ROWS, 65_535]);
    Command::deliver(row, rng.below(guide.n()))
}

fn wrong_address(guide: &Guide, rng: &mut Rng) -> Option<Command> {
    let row = rng.pick(0..guide.world.row_count)?;
    let known = guide.row(row);
    let others = (0..guide.n()).filter(|&site| !known.goes_to(site));
    let site = rng.pick(others)?;
    Some(Command::deliver(row, site))
}

fn at_down_site(guide: &Guide, rng: &mut Rng) -> Option<Command> {
    let site = rng.pick(guide.sites(|site| !site.up))?;
    match rng.below(4) {
        0 if !guide.world.sites[0].up => Some(Command::Start),
        1 => Some(Command::Timeout(site)),
        2 => Some(Command::Crash(site)),
        _ => delivery(guide, rng, |site| !site.up),
    }
}

fn one_row_more(guide: &Guide, rng: &mut Rng) -> Option<Command> {
    if rng.chance(30) {
        return delivery(guide, rng, |site| site.up);
    }
    let able = guide.sites(|site| site.up && site.state() != State::Active);
    rng.pick(able).map(Command::Timeout)
}

/// A command's row to a site that is as wished.
fn delivery(guide: &Guide, rng: &mut Rng, wished: impl Fn(&Site) -> bool) -> Option<Command> {
    let parcels = guide.commands_for(wished);
    let (row, site) = rng.pick(parcels)?;
    Some(Command::deliver(row, site))
}
