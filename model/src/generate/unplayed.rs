//! Lists that are written and read as lines, not played: any operands go.

use super::header::plain;
use super::rng::Rng;
use crate::command::{list_of, Command};
use crate::header::HEADER_BYTES;
use crate::sizes::Sizes;

/// Bytes of the longest command.
const COMMAND_BYTES: usize = 4;

/// Numbers at which a decimal gets longer, and the limits.
const EDGES: [usize; 14] = [
    0, 9, 10, 99, 100, 254, 255, 256, 999, 1_000, 9_999, 10_000, 65_534, 65_535,
];

/// A list of so many bytes; the header is always there.
pub fn list(rng: &mut Rng, bytes: usize) -> Vec<u8> {
    list_of(any_sizes(rng), &commands(rng, bytes))
}

/// Sizes that pass, most often.
pub fn any_sizes(rng: &mut Rng) -> Sizes {
    if rng.chance(20) {
        odd_sizes(rng)
    } else {
        plain(rng)
    }
}

/// Sizes of which one number or all are anything.
pub fn odd_sizes(rng: &mut Rng) -> Sizes {
    let mut sizes = plain(rng);
    match rng.below(5) {
        0 => sizes.n = byte(rng),
        1 => sizes.commit_quorum = byte(rng),
        2 => sizes.abort_quorum = byte(rng),
        3 => sizes.willing = word(rng) as u16,
        _ => sizes = Sizes::new(byte(rng), byte(rng), byte(rng), word(rng) as u16),
    }
    sizes
}

/// Commands for a list of so many bytes.
pub fn commands(rng: &mut Rng, bytes: usize) -> Vec<Command> {
    let mut room = bytes.saturating_sub(HEADER_BYTES);
    let mut commands = Vec::new();
    while room > 0 {
        let command = command_within(rng, room);
        room -= command.bytes().len();
        commands.push(command);
    }
    commands
}

/// A command of at most so many bytes.
fn command_within(rng: &mut Rng, bytes: usize) -> Command {
    if bytes < COMMAND_BYTES {
        return Command::Start;
    }
    match rng.below(5) {
        0 => Command::Start,
        1 => Command::deliver(word(rng), byte(rng)),
        2 => Command::Timeout(byte(rng)),
        3 => Command::Crash(byte(rng)),
        _ => Command::Recover(byte(rng)),
    }
}

/// A number of one byte.
fn byte(rng: &mut Rng) -> usize {
    match rng.below(3) {
        0 => rng.choose(&EDGES[..7]),
        1 => rng.below(16),
        _ => rng.below(256),
    }
}

/// A number of two bytes.
fn word(rng: &mut Rng) -> usize {
    match rng.below(3) {
        0 => rng.choose(&EDGES),
        1 => rng.below(40),
        _ => rng.below(65_536),
    }
}
