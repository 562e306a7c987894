//! The form of the lines, and that each list has one spelling.

use model::command::list_of;
use model::{number, Command, Sizes};

use crate::common::bad_lines::{DAY, FIRST};
use crate::common::{three, M3_LIST};
use crate::{assert_spells, read_into, write_into};
use Command::{Crash, Recover, Start, Timeout};

/// The bytes of the request's own day.
const DAY_LIST: [u8; 16] = [3, 2, 2, 7, 0, 1, 2, 0, 0, 1, 3, 0, 4, 0, 5, 0];
const HEADER: &[u8] = &[3, 2, 2, 7, 0];

#[test]
fn the_lines_of_the_request() {
    assert_spells(DAY, &DAY_LIST);
    assert_spells(FIRST, HEADER);
}

#[test]
fn the_lines_of_the_worked_report() {
    let text = "sites 3 commit 2 abort 2 willing 7\n\
                start\n\
                deliver 0 1\n\
                deliver 1 0\n\
                timeout 0\n\
                deliver 2 2\n\
                deliver 3 0\n\
                timeout 0\n";
    assert_spells(text, &M3_LIST);
}

#[test]
fn numbers_of_one_byte() {
    for site in [0, 1, 9, 10, 19, 99, 100, 101, 199, 200, 249, 250, 255] {
        for (line, bytes) in [
            (format!("timeout {site}\n"), vec![3, site]),
            (format!("crash {site}\n"), vec![4, site]),
            (format!("recover {site}\n"), vec![5, site]),
            (format!("deliver 0 {site}\n"), vec![2, 0, 0, site]),
        ] {
            assert_spells(&format!("{FIRST}{line}"), &[HEADER, &bytes].concat());
        }
    }
}

#[test]
fn numbers_of_two_bytes() {
    for (row, [low, high]) in [
        (0, [0, 0]),
        (255, [255, 0]),
        (256, [0, 1]),
        (1_024, [0, 4]),
        (9_999, [0x0f, 0x27]),
        (10_000, [0x10, 0x27]),
        (65_534, [254, 255]),
        (65_535, [255, 255]),
    ] {
        let list = [HEADER, &[2, low, high, 255]].concat();
        assert_spells(&format!("{FIRST}deliver {row} 255\n"), &list);
        let first = format!("sites 16 commit 15 abort 2 willing {row}\n");
        assert_spells(&first, &[16, 15, 2, low, high]);
    }
}

#[test]
fn every_number_up_to_its_limit() {
    let bad = Err((number::LINE, FIRST.len()));
    for row in 0..70_000_u32 {
        let text = format!("{FIRST}deliver {row} 7\n");
        let [low, high, ..] = row.to_le_bytes();
        let wanted = match row {
            0..=65_535 => Ok([HEADER, &[2, low, high, 7]].concat()),
            _ => bad.clone(),
        };
        assert_eq!(read_into(text.as_bytes(), 20), wanted);
    }
    for site in 0..2_000_u32 {
        let text = format!("{FIRST}crash {site}\n");
        let wanted = match u8::try_from(site) {
            Ok(site) => Ok([HEADER, &[4, site]].concat()),
            Err(_) => bad.clone(),
        };
        assert_eq!(read_into(text.as_bytes(), 20), wanted);
    }
}

#[test]
fn commands_are_not_played() {
    let commands = [
        Recover(0),
        Timeout(3),
        Crash(255),
        Command::deliver(65_535, 200),
        Start,
        Start,
        Command::deliver(0, 0),
    ];
    let text = "sites 3 commit 2 abort 2 willing 0\n\
                recover 0\n\
                timeout 3\n\
                crash 255\n\
                deliver 65535 200\n\
                start\n\
                start\n\
                deliver 0 0\n";
    assert_spells(text, &three(0, &commands));
}

#[test]
fn the_longest_text() {
    let commands = [vec![Timeout(255); 10_000], vec![Recover(200); 6_000]];
    let commands = [commands.concat(), vec![Start; 763]].concat();
    let list = list_of(Sizes::new(16, 15, 15, 65_535), &commands);
    let text = "sites 16 commit 15 abort 15 willing 65535\n".to_string()
        + &"timeout 255\n".repeat(10_000)
        + &"recover 200\n".repeat(6_000)
        + &"start\n".repeat(763);
    assert_eq!((list.len(), text.len()), (32_768, 196_620));
    assert_eq!(write_into(&list, 196_620), Ok(text.clone().into()));
    assert_eq!(write_into(&list, 196_619), Err((number::ROOM, 0)));
    assert_eq!(read_into(text.as_bytes(), 32_768), Ok(list));
    assert_eq!(read_into(text.as_bytes(), 32_767), Err((number::ROOM, 0)));
}

#[test]
fn every_small_edit_gives_another_list_or_a_bad_line() {
    let day = DAY.as_bytes();
    for at in 0..day.len() {
        assert_sound(&day[..at]);
        assert_sound(&[&day[..at], &day[at + 1..]].concat());
        for byte in 0..=255 {
            assert_sound(&[&day[..at], &[byte], &day[at + 1..]].concat());
            assert_sound(&[&day[..at], &[byte], &day[at..]].concat());
        }
    }
}

/// A text is accepted only if it is the one spelling of its list. Where it is
/// refused by 19, the lines before the place are good, the line there is not.
fn assert_sound(text: &[u8]) {
    let room = DAY_LIST.len() + 4;
    let is_bad = |text: &[u8]| matches!(read_into(text, room), Err((number::LINE, _)));
    match read_into(text, room) {
        Ok(list) => assert_eq!(write_into(&list, text.len()), Ok(text.to_vec())),
        Err((number::LINE, place)) => {
            let (before, rest) = text.split_at(place);
            let line = rest.split_inclusive(|&byte| byte == b'\n').next();
            assert!(before.is_empty() || before.ends_with(b"\n") && !is_bad(before));
            assert!(is_bad(&[before, line.unwrap_or_default()].concat()));
        }
        Err((number, place)) => assert!((3..=5).contains(&number) && place == 0),
    }
}
