//! The seven calls offered to C for lists and worlds, on bytes, as the model answers them:
//! docs/LAYOUT.md. The step of a single site is in step_call.rs.

use crate::command::Ask;
use crate::convert::convert;
use crate::header::Header;
use crate::layout::{decode, encode, update, WORLD_BYTES};
use crate::lines::{read_lines, write_lines, Output};
use crate::number;
use crate::play::{check_store, play_command, play_list_by, Played};
use crate::quiet::{write_quiet, Asked};
use crate::report::{report, Numbers};
use crate::world::World;

/// Bytes of the result buffer of a call that plays or reports.
pub const RESULT_BYTES: usize = 8;
/// Bytes of the result buffer of a call that writes or reads lines, writes a quiet
/// day's list, or converts a list: the output's length, and the place.
pub const LINES_RESULT_BYTES: usize = 16;

/// One side of a comparison: anything that answers the seven calls.
pub trait Calls {
    /// A whole list; the world and the result are written where they have their
    /// lengths.
    fn play_list(&self, list: &[u8], store: &mut [u8], world: &mut [u8], result: &mut [u8]) -> u32;

    /// One command; a refusal touches nothing.
    fn play_command(&self, world: &mut [u8], store: &mut [u8], ask: Ask, result: &mut [u8]) -> u32;

    /// The report; a refusal touches nothing.
    fn report(&self, world: &[u8], numbers: Numbers, buffer: &mut [u8], result: &mut [u8]) -> u32;

    /// A list as lines; the result is written where it has its length, and a
    /// refusal touches no other buffer.
    fn write_lines(&self, list: &[u8], buffer: &mut [u8], result: &mut [u8]) -> u32;

    /// Lines as a list, likewise.
    fn read_lines(&self, text: &[u8], buffer: &mut [u8], result: &mut [u8]) -> u32;

    /// The list of the quiet day of n sites with C and A, likewise.
    fn write_quiet(&self, asked: Asked, buffer: &mut [u8], result: &mut [u8]) -> u32;

    /// A list in the other edition, likewise.
    fn convert(&self, list: &[u8], buffer: &mut [u8], result: &mut [u8]) -> u32;
}

/// The rules behind the calls: what a player does with worlds. As they stand
/// they are the model's.
pub trait Rules {
    /// The header of a list to be played.
    fn header(&self, list: &[u8]) -> Result<Header, u8> {
        Header::of_list(list)
    }

    /// The world that bytes say, if it is one.
    fn world(&self, bytes: &[u8]) -> Result<World, u8> {
        let world = decode(bytes)?;
        world.check()?;
        Ok(world)
    }

    /// One command, in a world and store already found good.
    fn command(&self, world: &mut World, store: &mut [u8], ask: Ask) -> Result<usize, u8> {
        play_command(world, store, ask)
    }

    /// A whole list, each command by the rule above.
    fn list(&self, store: &mut [u8], list: &[u8]) -> Played {
        let read = |list: &[u8]| self.header(list);
        play_list_by(store, list, read, |world, store, ask| {
            self.command(world, store, ask)
        })
    }

    fn text(&self, world: &World, numbers: Numbers, buffer: &mut [u8]) -> Result<usize, u8> {
        report(world, numbers, buffer)
    }

    /// A list as lines.
    fn written(&self, list: &[u8], buffer: &mut [u8]) -> Output {
        write_lines(list, buffer)
    }

    /// Lines as a list.
    fn read(&self, text: &[u8], buffer: &mut [u8]) -> Output {
        read_lines(text, buffer)
    }

    /// The list of a quiet day.
    fn quiet(&self, asked: Asked, buffer: &mut [u8]) -> Output {
        write_quiet(asked, buffer)
    }

    /// A list in the other edition.
    fn carried(&self, list: &[u8], buffer: &mut [u8]) -> Output {
        convert(list, buffer)
    }
}

/// The model itself.
pub struct Model;

impl Rules for Model {}

impl<R: Rules> Calls for R {
    fn play_list(&self, list: &[u8], store: &mut [u8], world: &mut [u8], result: &mut [u8]) -> u32 {
        if world.len() != WORLD_BYTES || result.len() != RESULT_BYTES {
            return check_store(store).err().unwrap_or(number::WORLD).into();
        }
        let played = self.list(store, list);
        world.copy_from_slice(&encode(&played.world));
        result[..4].copy_from_slice(&(played.events as u32).to_le_bytes());
        result[4..].copy_from_slice(&(played.place as u32).to_le_bytes());
        played.number.into()
    }

    fn play_command(&self, world: &mut [u8], store: &mut [u8], ask: Ask, result: &mut [u8]) -> u32 {
        let given = check_store(store).and_then(|()| world_for(self, world, result));
        let place = given.and_then(|mut next| {
            let place = self.command(&mut next, store, ask)?;
            update(world, &next);
            Ok(place)
        });
        answer(place, result)
    }

    fn report(&self, world: &[u8], numbers: Numbers, buffer: &mut [u8], result: &mut [u8]) -> u32 {
        let given = world_for(self, world, result);
        let size = given.and_then(|world| self.text(&world, numbers, buffer));
        answer(size, result)
    }

    fn write_lines(&self, list: &[u8], buffer: &mut [u8], result: &mut [u8]) -> u32 {
        answer_output(result, || self.written(list, buffer))
    }

    fn read_lines(&self, text: &[u8], buffer: &mut [u8], result: &mut [u8]) -> u32 {
        answer_output(result, || self.read(text, buffer))
    }

    fn write_quiet(&self, asked: Asked, buffer: &mut [u8], result: &mut [u8]) -> u32 {
        answer_output(result, || self.quiet(asked, buffer))
    }

    fn convert(&self, list: &[u8], buffer: &mut [u8], result: &mut [u8]) -> u32 {
        answer_output(result, || self.carried(list, buffer))
    }
}

/// The world handed in, where the result buffer is as it should be.
fn world_for(rules: &impl Rules, world: &[u8], result: &[u8]) -> Result<World, u8> {
    if result.len() != RESULT_BYTES {
        return Err(number::WORLD);
    }
    rules.world(world)
}

/// Writes what was found into the result, or gives the refusal.
fn answer(found: Result<usize, u8>, result: &mut [u8]) -> u32 {
    match found {
        Ok(found) => {
            result.copy_from_slice(&(found as u64).to_le_bytes());
            number::NONE.into()
        }
        Err(refusal) => refusal.into(),
    }
}

/// Writes what a call gives beside its buffer into the result, accepted or refused;
/// nothing is done where the result has another length.
fn answer_output(result: &mut [u8], call: impl FnOnce() -> Output) -> u32 {
    if result.len() != LINES_RESULT_BYTES {
        return number::WORLD.into();
    }
    let output = call();
    result[..8].copy_from_slice(&(output.length as u64).to_le_bytes());
    result[8..].copy_from_slice(&(output.place as u64).to_le_bytes());
    output.number.into()
}
