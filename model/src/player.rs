//! All that the player prints.

use crate::number;
use crate::play::play_list;
use crate::report::{last_line, lines};
use crate::row::STORE_BYTES;

/// What the player prints for a list.
pub fn printed(list: &[u8]) -> String {
    let mut store = vec![0; STORE_BYTES];
    let played = play_list(&mut store, list);
    let numbers = played.numbers();
    match played.number {
        number if number::is_of_header(number) => last_line(numbers),
        _ => lines(&played.world, numbers),
    }
}
