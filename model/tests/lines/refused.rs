//! Every refusal of the two calls, its place, and which comes first.

use model::number;

use crate::common::bad_lines::{BAD, BAD_FIRST, DAY, FIRST};
use crate::common::bad_lists::{BAD_LISTS, BAD_SIZES};
use crate::{assert_spells, read, read_into, write, write_into};

#[test]
fn lines_that_are_bad() {
    for line in BAD.iter().flat_map(|(_, lines)| *lines) {
        let bad = Err((number::LINE, FIRST.len()));
        assert_eq!(read(format!("{FIRST}{line}")), bad, "{line:?}");
        assert_eq!(read(format!("{FIRST}{line}start\n")), bad, "{line:?}");
        let text = format!("{FIRST}deliver 0 1\n{line}\n{line}");
        let bad = Err((number::LINE, FIRST.len() + 12));
        assert_eq!(read(text), bad, "{line:?}");
    }
}

#[test]
fn first_lines_that_are_bad() {
    let bad = Err((number::LINE, 0));
    for line in BAD_FIRST.iter().flat_map(|(_, lines)| *lines) {
        assert_eq!(read(line), bad, "{line:?}");
        assert_eq!(read(format!("{line}start\n")), bad, "{line:?}");
        assert_eq!(read(format!("{line}{DAY}")), bad, "{line:?}");
    }
}

#[test]
fn a_second_day_begins_with_a_bad_line() {
    assert_eq!(read(format!("{DAY}{DAY}")), Err((number::LINE, DAY.len())));
    assert_eq!(
        read(format!("{DAY}{FIRST}")),
        Err((number::LINE, DAY.len()))
    );
}

#[test]
fn the_last_line_feed() {
    assert_eq!(read(FIRST.trim_end()), Err((number::LINE, 0)));
    for last in ["start", "deliver 0 1", "timeout 0", "crash 0", "recover 0"] {
        let text = format!("{FIRST}{last}");
        assert_eq!(read(&text), Err((number::LINE, FIRST.len())));
        assert!(read(format!("{text}\n")).is_ok());
        assert_eq!(read(format!("{text}\r")), Err((number::LINE, FIRST.len())));
        let more = format!("{text}\n\n");
        assert_eq!(read(&more), Err((number::LINE, more.len() - 1)));
        let cut = format!("{text}\ns");
        assert_eq!(read(&cut), Err((number::LINE, cut.len() - 1)));
    }
}

#[test]
fn texts_without_a_line() {
    assert_eq!(read(""), Err((number::LINE, 0)));
    assert_eq!(read_into(b"", 0), Err((number::LINE, 0)));
    for text in ["\n", "\n\n\n", " ", "\0", "\r", "s", "sites", "\u{feff}"] {
        assert_eq!(read(text), Err((number::LINE, 0)), "{text:?}");
    }
    assert_eq!(read([0xff; 1_000_000]), Err((number::LINE, 0)));
    assert_eq!(read(vec![b'\n'; 1_000_000]), Err((number::LINE, 0)));
    assert_eq!(read(vec![b'1'; 1_000_000]), Err((number::LINE, 0)));
}

#[test]
fn the_first_of_two_bad_lines_gives_the_place() {
    let text = format!("{FIRST}start\ncrash 00\nstart\ntimeout 256\n");
    assert_eq!(read(&text), Err((number::LINE, 41)));
    let text = text.replace("00", "0");
    assert_eq!(read(&text), Err((number::LINE, 55)));
    let text = format!("sites 03 commit 2 abort 2 willing 7\n{FIRST}\nstop");
    assert_eq!(read(text), Err((number::LINE, 0)));
    assert_eq!(read(format!("{FIRST}\nstop")), Err((number::LINE, 35)));
    assert_eq!(read(format!("{FIRST}stop\n\n")), Err((number::LINE, 35)));
}

#[test]
fn lists_that_are_bad() {
    for &(name, number, place, list) in BAD_LISTS {
        assert_eq!(write(list), Err((number, place)), "{name}: {list:?}");
        assert_eq!(
            write_into(list, 0),
            Err((number, place)),
            "{name}: {list:?}"
        );
    }
}

#[test]
fn sizes_that_are_bad() {
    for &(name, number, line) in BAD_SIZES {
        assert_eq!(read(line), Err((number, 0)), "{name}: {line}");
        let text = format!("{line}start\n");
        assert_eq!(
            read_into(text.as_bytes(), 0),
            Err((number, 0)),
            "{name}: {line}"
        );
    }
}

#[test]
fn lengths_of_lists() {
    let mut list = vec![3, 2, 2, 7, 0];
    list.resize(32_768, 1);
    let mut text = FIRST.to_owned() + &"start\n".repeat(32_763);
    assert_spells(&text, &list);
    list.push(1);
    text += "start\n";
    assert_eq!(write(&list), Err((number::LIST_LONG, 0)));
    assert_eq!(read(&text), Err((number::LIST_LONG, 0)));
    // A command of two bytes, one of which is too many.
    let text = FIRST.to_owned() + &"start\n".repeat(32_762) + "timeout 0\n";
    assert_eq!(read(&text), Err((number::LIST_LONG, 0)));
    let huge = FIRST.to_owned() + &"deliver 65535 255\n".repeat(60_000);
    assert_eq!(read(&huge), Err((number::LIST_LONG, 0)));
}

#[test]
fn bad_lines_come_before_length_and_length_before_sizes() {
    let over = "start\n".repeat(32_764);
    let firsts = BAD_SIZES.iter().map(|&(_, _, line)| line);
    for first in firsts.chain([FIRST]) {
        let text = format!("{first}start");
        let bad = Err((number::LINE, first.len()));
        assert_eq!(read_into(text.as_bytes(), 0), bad);
        let text = format!("{first}{over}start");
        let bad = Err((number::LINE, text.len() - 5));
        assert_eq!(read_into(text.as_bytes(), 0), bad);
        let text = format!("{first}{over}");
        assert_eq!(read_into(text.as_bytes(), 0), Err((1, 0)));
    }
    let list = [&[2, 3, 3, 255, 255][..], &[9; 32_764]].concat();
    assert_eq!(write_into(&list, 0), Err((1, 0)));
}

#[test]
fn room_comes_last() {
    assert_eq!(read_into(FIRST.as_bytes(), 0), Err((20, 0)));
    assert_eq!(write_into(&[3, 2, 2, 7, 0], 0), Err((20, 0)));
    assert_eq!(write_into(&[3, 2, 2, 7, 0, 4, 1], 0), Err((20, 0)));
}
