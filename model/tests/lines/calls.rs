//! The two calls as C makes them: the number, and the bytes of the result.

use model::calls::{Calls, Model};

use crate::common::bad_lines::{DAY, FIRST};
use crate::common::outputs::{answer, result, Call};
use crate::common::M3_LIST;
use crate::FILL;

const WRITE: Call = Model::write_lines;
const READ: Call = Model::read_lines;

#[test]
fn an_accepted_call_gives_length_and_end() {
    // Lines of 35, 6, 12, 12, 10, 12, 12 and 10 bytes.
    assert_eq!(answer(WRITE, &M3_LIST, 109), (0, result(109, 26)));
    assert_eq!(answer(WRITE, &M3_LIST, 300), (0, result(109, 26)));
    // Lines of 35, 6, 12, 10, 8 and 10 bytes.
    assert_eq!(answer(READ, DAY.as_bytes(), 16), (0, result(16, 81)));
    assert_eq!(answer(READ, FIRST.as_bytes(), 99), (0, result(5, 35)));
}

#[test]
fn all_eight_bytes_are_written() {
    let text = FIRST.to_owned() + &"start\n".repeat(32_763);
    let (number, result) = answer(READ, text.as_bytes(), 32_768);
    assert_eq!(number, 0);
    // 32,768 is 80 00 in hex, and 35 + 6 * 32,763 is 3 00 05.
    assert_eq!(result[..8], [0, 0x80, 0, 0, 0, 0, 0, 0]);
    assert_eq!(result[8..], [0x05, 0, 3, 0, 0, 0, 0, 0]);
}

#[test]
fn a_refused_call_gives_no_length_and_its_place() {
    assert_eq!(answer(WRITE, &M3_LIST, 108), (20, result(0, 0)));
    assert_eq!(answer(WRITE, &[3, 2, 2, 7, 0, 1, 9], 99), (6, result(0, 6)));
    assert_eq!(answer(WRITE, &[3, 2, 2, 7, 0, 3], 99), (7, result(0, 5)));
    assert_eq!(answer(WRITE, &[1], 99), (2, result(0, 0)));
    assert_eq!(answer(READ, DAY.as_bytes(), 15), (20, result(0, 0)));
    assert_eq!(answer(READ, b"", 99), (19, result(0, 0)));
    let text = format!("{DAY}{DAY}");
    assert_eq!(answer(READ, text.as_bytes(), 99), (19, result(0, 81)));
}

#[test]
fn a_result_of_another_length_is_17_before_all() {
    for call in [WRITE, READ] {
        for input in [&M3_LIST[..], DAY.as_bytes(), b"", &[0; 40_000]] {
            for size in [0, 1, 8, 15, 17, 32] {
                let (mut buffer, mut result) = ([FILL; 200], vec![FILL; size]);
                assert_eq!(call(&Model, input, &mut buffer, &mut result), 17);
                assert_eq!(buffer, [FILL; 200]);
                assert_eq!(result, vec![FILL; size]);
            }
        }
    }
}
