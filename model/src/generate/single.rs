//! Calls for one step of a single site, of which a network may never have the like.

use super::call::{aimed, misweigh, thinkable_row, thinkable_site};
use super::header::beginning;
use super::rng::Rng;
use crate::layout::{site_bytes, CODES, GROUP_CODES, SITE_BYTES};
use crate::row::ROW_BYTES;
use crate::site::{Log, Site};
use crate::sizes::{Sizes, MAX_SITES};
use crate::state::State;
use crate::step_call::STEP_RESULT_BYTES;
use crate::terms::{Terms, TERMS_BYTES};
use crate::world::World;

/// All that a call is given: what it reads, and how long its outputs are.
#[derive(Clone, Debug)]
pub struct StepCall {
    pub terms: Vec<u8>,
    pub site: Vec<u8>,
    pub command: Vec<u8>,
    pub row: usize,
    pub result: usize,
}

/// The commands' bytes.
const START: u8 = 1;
const DELIVER: u8 = 2;
const TIMEOUT: u8 = 3;
const CRASH: u8 = 4;
const RECOVER: u8 = 5;

/// A call that is accepted more often than not.
pub fn any(rng: &mut Rng) -> StepCall {
    let (_, sizes) = beginning(rng);
    let command = match rng.below(100) {
        0..=12 => START,
        13..=54 => DELIVER,
        55..=79 => TIMEOUT,
        80..=87 => CRASH,
        _ => RECOVER,
    };
    let own = match command {
        START if rng.chance(65) => 0,
        _ => rng.below(sizes.n),
    };
    let (mut sizes, site) = thinkable(rng, sizes, own, command);
    if rng.chance(5) {
        misweigh(rng, &mut sizes);
    }
    let is_willing = rng.chance(75);
    let mut call = StepCall {
        terms: Terms::new(sizes, own, is_willing).bytes().to_vec(),
        site: site_bytes(&site).to_vec(),
        command: command_bytes(rng, command, (sizes.n, own)),
        row: ROW_BYTES,
        result: STEP_RESULT_BYTES,
    };
    damage(rng, &mut call, sizes.n);
    call
}

/// Any record that this site can have, and often one for which the command is interesting.
fn thinkable(rng: &mut Rng, sizes: Sizes, own: usize, command: u8) -> (Sizes, Site) {
    let mut world = World::fresh(sizes);
    let site = &mut world.sites[own];
    *site = thinkable_site(rng, own, sizes.n);
    let (empty, down) = match command {
        START => (60, 15),
        DELIVER => (20, 10),
        RECOVER => (30, 80),
        _ => (10, 10),
    };
    if rng.chance(empty) {
        site.log = Log::EMPTY;
        site.vector.set(own, State::Active);
    }
    site.up = !rng.chance(down);
    if command == TIMEOUT {
        aimed(rng, &mut world);
    }
    (world.sizes, world.sites[own])
}

/// A command, with a row if it is a delivery; at times it is cut, is none, or has bytes
/// after it.
fn command_bytes(rng: &mut Rng, command: u8, (n, own): (usize, usize)) -> Vec<u8> {
    let mut bytes = vec![command];
    if command == DELIVER {
        let mut row = thinkable_row(rng, n);
        if rng.chance(90) {
            row[2 + own / 8] |= 1 << (own % 8);
        }
        while rng.chance(12) {
            damage_row(rng, &mut row, n);
        }
        bytes.extend(row);
    }
    match rng.below(100) {
        0..=1 => bytes[0] = rng.choose(&[0, 6, 7, 255]),
        2..=5 => bytes.truncate(rng.below(bytes.len())),
        6..=35 => {
            let size = rng.between(1, 25);
            bytes.extend(rng.bytes(size));
        }
        _ => {}
    }
    bytes
}

/// A kind, a sender, the destinations or a code are others.
fn damage_row(rng: &mut Rng, row: &mut [u8; ROW_BYTES], n: usize) {
    match rng.below(5) {
        0 => row[0] = rng.choose(&[0, 8, 9, 255]),
        1 => row[1] = rng.choose(&[n as u8, 15, 16, 255]),
        2 => row[2..4].fill(0),
        _ => row[4 + rng.below(MAX_SITES)] = rng.choose(&[6, 7, 255]),
    }
}

/// Something is wrong with what is read, or with a length; now and then with both.
fn damage(rng: &mut Rng, call: &mut StepCall, n: usize) {
    if rng.chance(6) {
        call.terms[6] = rng.choose(&[n as u8, 15, 16, 17, 255]);
    }
    if rng.chance(6) {
        let place = rng.below(TERMS_BYTES);
        let place = rng.choose(&[0, 1, 7, place, place, place]);
        call.terms[place] = rng.choose(&[0, 1, 2, 3, 4, 16, 17, 255]);
    }
    if rng.chance(10) {
        damage_site(rng, &mut call.site);
    }
    if rng.chance(2) {
        call.site = rng.bytes(SITE_BYTES);
    }
    if rng.chance(4) {
        damage_lengths(rng, call);
    }
}

/// One byte changed.
fn damage_site(rng: &mut Rng, site: &mut [u8]) {
    let place = match rng.below(3) {
        0 => rng.below(CODES.start),
        1 => CODES.start + rng.below(MAX_SITES),
        _ => GROUP_CODES.start + rng.below(MAX_SITES),
    };
    site[place] = rng.choose(&[0, 1, 2, 3, 4, 5, 6, 255]);
}

/// A buffer is shorter or longer than it must be.
fn damage_lengths(rng: &mut Rng, call: &mut StepCall) {
    let other = |rng: &mut Rng, size: usize| rng.choose(&[0, 1, size - 1, size + 1, 2 * size]);
    match rng.below(4) {
        0 => call.terms.resize(other(rng, TERMS_BYTES), 0),
        1 => call.site.resize(other(rng, SITE_BYTES), 0),
        2 => call.row = other(rng, ROW_BYTES),
        _ => call.result = other(rng, STEP_RESULT_BYTES),
    }
}
