//! From a list's bytes to its lines.

use super::spelling::{first_line, push_line};
use super::Refusal;
use crate::command::{Ask, Command};
use crate::header::Header;

/// The text of a list, or a refusal by 1 to 7. Commands are read, not played.
pub fn text_of(list: &[u8]) -> Result<Vec<u8>, Refusal> {
    let header = Header::of_first_edition(list).map_err(Refusal::at_start)?;
    let mut text = first_line(&header.sizes);
    let mut at = header.end;
    while at < list.len() {
        let refused = |number| Refusal { number, place: at };
        let (command, next) = Command::read(Ask::new(list, at)).map_err(refused)?;
        push_line(&mut text, command);
        at = next;
    }
    Ok(text)
}
