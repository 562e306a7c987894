//! Room for the output.

use model::number;

use crate::common::bad_lines::DAY;
use crate::common::M3_LIST;
use crate::{read_into, write, write_into};

#[test]
fn room_for_the_text() {
    let text = write(&M3_LIST).unwrap();
    for room in 0..text.len() {
        assert_eq!(write_into(&M3_LIST, room), Err((number::ROOM, 0)));
    }
    for room in [0, 1, 2, 100, 5_000].map(|more| text.len() + more) {
        assert_eq!(write_into(&M3_LIST, room), Ok(text.clone()));
    }
}

#[test]
fn room_for_the_list() {
    let list = read_into(DAY.as_bytes(), 100).unwrap();
    assert_eq!(list.len(), 16);
    for room in 0..16 {
        assert_eq!(read_into(DAY.as_bytes(), room), Err((number::ROOM, 0)));
    }
    for room in [16, 17, 32, 5_000] {
        assert_eq!(read_into(DAY.as_bytes(), room), Ok(list.clone()));
    }
}
