//! Lists carried into the other edition, document 02, request (vii): forward from the
//! first, and back from the second.

use crate::header::{Edition, Header};
use crate::lines::{put, Output, Refusal};
use crate::number;
use crate::sizes::MAX_LIST;

/// Writes a list in the other edition. After the checks below comes 20; the place of
/// every refusal is 0.
pub fn convert(list: &[u8], buffer: &mut [u8]) -> Output {
    let made = converted(list).map_err(Refusal::at_start);
    put(list.len(), made, buffer)
}

/// The list in the other edition. Checks the header's numbers, then 22, then 1 of the
/// list that is made. Whatever comes after the header is taken over, not played.
pub fn converted(list: &[u8]) -> Result<Vec<u8>, u8> {
    let edition = Edition::of(list);
    let header = read(edition, list)?;
    let other = edition.other();
    let made = [&other.header(&header.sizes), &list[header.end..]].concat();
    if made.len() > MAX_LIST {
        return Err(number::LIST_LONG);
    }
    Ok(made)
}

/// The header of a list that can be converted. Only after 130 is the first byte anything
/// but an n; such a list goes back where each site weighs 1.
fn read(edition: Edition, list: &[u8]) -> Result<Header, u8> {
    match edition {
        Edition::First => Header::of_first_edition(list),
        Edition::Second => {
            let header = Header::of_list(list)?;
            header.sizes.check_even()?;
            Ok(header)
        }
    }
}
