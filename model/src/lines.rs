//! Lists as lines of text: written from a list's bytes, and read back into
//! them.

mod read;
mod spelling;
mod write;

pub use read::{command_of, list_spelled, sizes_of};
pub use spelling::{first_line, push_line};
pub use write::text_of;

use crate::number;

/// A refusal, and the place that is given with it.
#[derive(Clone, Copy, Debug, PartialEq, Eq)]
pub struct Refusal {
    pub number: u8,
    pub place: usize,
}

impl Refusal {
    /// One that has no place of its own.
    pub const fn at_start(number: u8) -> Refusal {
        Refusal { number, place: 0 }
    }
}

/// What a call that writes or reads lines, or writes a list, gives beside the
/// buffer.
#[derive(Clone, Copy, Debug, PartialEq, Eq)]
pub struct Output {
    /// The stop number, 0 for none.
    pub number: u8,
    /// How many bytes of the buffer are the output, 0 at a refusal.
    pub length: usize,
    /// The input's end, 0 where there is no input, or the refusal's place.
    pub place: usize,
}

impl From<Refusal> for Output {
    fn from(Refusal { number, place }: Refusal) -> Output {
        Output {
            number,
            length: 0,
            place,
        }
    }
}

/// Writes a list as lines.
pub fn write_lines(list: &[u8], buffer: &mut [u8]) -> Output {
    put(list.len(), text_of(list), buffer)
}

/// Reads lines as a list.
pub fn read_lines(text: &[u8], buffer: &mut [u8]) -> Output {
    put(text.len(), list_spelled(text), buffer)
}

/// Puts what was made of an input into the buffer, after check 20; gives the
/// input's end. A refusal leaves the buffer as it was, and so are the bytes beyond
/// the output.
pub(crate) fn put(end: usize, made: Result<Vec<u8>, Refusal>, buffer: &mut [u8]) -> Output {
    let made = match made {
        Ok(made) if made.len() > buffer.len() => return Refusal::at_start(number::ROOM).into(),
        Ok(made) => made,
        Err(refusal) => return refusal.into(),
    };
    buffer[..made.len()].copy_from_slice(&made);
    Output {
        number: number::NONE,
        length: made.len(),
        place: end,
    }
}
