//! Calls on lines made for one clause each, with the number and the place that
//! the papers give.

use model::command::list_of;
use model::{number, Command, Sizes};

use super::comparer::{LineComparer, Way};
use crate::common::bad_lines::{BAD, BAD_FIRST, DAY, FIRST};
use crate::common::bad_lists::{BAD_LISTS, BAD_SIZES};
use crate::common::{three, M3_LIST};

use Command::{Crash, Recover, Start, Timeout};

type Done = Result<(), String>;

/// Room for every output there is.
const AMPLE: usize = 200_000;
/// Room for every short one.
const ENOUGH: usize = 400;
/// Starts that are one too many after a first line.
const ONE_OVER: usize = 32_764;
const HUGE: usize = 1_000_000;

pub fn made_by_hand(both: &mut LineComparer) -> Done {
    days(both)?;
    bad_lists(both)?;
    bad_lines(both)?;
    bad_sizes(both)?;
    ends(both)?;
    orders(both)?;
    lengths(both)?;
    huge(both)?;
    results(both)?;
    numbers(both)?;
    every_edit(both)
}

/// An input that is refused, without room and with room to spare.
fn refused(
    both: &mut LineComparer,
    name: &'static str,
    way: Way,
    input: &[u8],
    wanted: (u8, usize),
) -> Done {
    let seen = both.call(way, input, ENOUGH)?;
    both.clause(name, wanted, &seen)?;
    let seen = both.call(way, input, 0)?;
    let last = match way {
        Way::Write => "write: 20 comes last",
        Way::Read => "read: 20 comes last",
    };
    both.clause(last, wanted, &seen)
}

/// A bad line of a text.
fn bad_line(both: &mut LineComparer, name: &'static str, text: &str, place: usize) -> Done {
    refused(
        both,
        name,
        Way::Read,
        text.as_bytes(),
        (number::LINE, place),
    )
}

/// An input whose list is too long.
fn too_long(both: &mut LineComparer, name: &'static str, way: Way, input: &[u8]) -> Done {
    refused(both, name, way, input, (number::LIST_LONG, 0))
}

/// A list and its text, both ways, with too little room, just enough and more.
fn spells(both: &mut LineComparer, name: &'static str, text: &[u8], list: &[u8]) -> Done {
    for (way, input, output) in [(Way::Write, list, text), (Way::Read, text, list)] {
        let (short, exact, more) = match way {
            Way::Write => (
                "write: 20 room short",
                "write: 0 exact room",
                "write: 0 more room",
            ),
            Way::Read => (
                "read: 20 room short",
                "read: 0 exact room",
                "read: 0 more room",
            ),
        };
        let size = output.len();
        for room in [0, 1, size / 2, size - 1] {
            let seen = both.call(way, input, room)?;
            both.clause(short, (number::ROOM, 0), &seen)?;
        }
        for (clause, room) in [
            (exact, size),
            (more, size + 1),
            (more, size + 99),
            (name, size),
        ] {
            let seen = both.call(way, input, room)?;
            both.clause(clause, (number::NONE, input.len()), &seen)?;
            if seen.output != output {
                return Err(format!("{name}: both give another output\n"));
            }
        }
    }
    Ok(())
}

fn days(both: &mut LineComparer) -> Done {
    let day = [3, 2, 2, 7, 0, 1, 2, 0, 0, 1, 3, 0, 4, 0, 5, 0];
    spells(both, "0 the request's lines", DAY.as_bytes(), &day)?;
    spells(both, "0 header only", FIRST.as_bytes(), &day[..5])?;
    let text = format!(
        "{FIRST}start\ndeliver 0 1\ndeliver 1 0\ntimeout 0\ndeliver 2 2\ndeliver 3 0\ntimeout 0\n"
    );
    spells(both, "0 day M3", text.as_bytes(), &M3_LIST)?;
    let text = format!("{FIRST}recover 0\ntimeout 3\nstart\nstart\ndeliver 65535 255\ncrash 200\n");
    let row = Command::deliver(65_535, 255);
    let list = three(7, &[Recover(0), Timeout(3), Start, Start, row, Crash(200)]);
    spells(
        both,
        "0 commands that cannot be played",
        text.as_bytes(),
        &list,
    )
}

fn bad_lists(both: &mut LineComparer) -> Done {
    for &(name, number, place, list) in BAD_LISTS {
        refused(both, name, Way::Write, list, (number, place))?;
    }
    Ok(())
}

/// Each bad line as the second, in the midst, and as the last one.
fn bad_lines(both: &mut LineComparer) -> Done {
    for &(name, lines) in BAD {
        for line in lines {
            bad_line(both, name, &format!("{FIRST}{line}"), FIRST.len())?;
            bad_line(both, name, &format!("{DAY}{line}start\n"), DAY.len())?;
            bad_line(both, name, &format!("{DAY}{line}"), DAY.len())?;
            let twice = format!("{DAY}{line}start\n{line}\nstart");
            bad_line(both, "19 the first of two", &twice, DAY.len())?;
        }
    }
    for &(name, lines) in BAD_FIRST {
        for line in lines {
            bad_line(both, name, line, 0)?;
            bad_line(both, name, &format!("{line}start\n"), 0)?;
            bad_line(both, "19 the first of two", &format!("{line}{DAY}start"), 0)?;
        }
    }
    Ok(())
}

/// Sizes that are refused, alone and with commands after them.
fn bad_sizes(both: &mut LineComparer) -> Done {
    for &(name, number, line) in BAD_SIZES {
        refused(both, name, Way::Read, line.as_bytes(), (number, 0))?;
        let text = format!("{line}start\n");
        refused(both, name, Way::Read, text.as_bytes(), (number, 0))?;
    }
    Ok(())
}

/// Texts that are cut, and the empty one.
fn ends(both: &mut LineComparer) -> Done {
    bad_line(both, "19 empty text", "", 0)?;
    let mut begin = 0;
    for line in DAY.split_inclusive('\n') {
        let end = begin + line.len();
        for cut in begin + 1..end {
            bad_line(both, "19 no last line feed", &DAY[..cut], begin)?;
        }
        begin = end;
    }
    Ok(())
}

/// Bad lines, a list too long, and sizes that are refused, in one text.
fn orders(both: &mut LineComparer) -> Done {
    let over = "start\n".repeat(ONE_OVER);
    for &(_, _, first) in BAD_SIZES {
        let text = format!("{first}{DAY}");
        bad_line(both, "19 before 3 to 5", &text, first.len())?;
    }
    for first in ["sites 2 commit 3 abort 3 willing 65535\n", FIRST] {
        let text = format!("{first}{over}start");
        bad_line(both, "19 before 1", &text, text.len() - 5)?;
        let text = format!("{first}stop\n{over}");
        bad_line(both, "19 before 1", &text, first.len())?;
    }
    for (_, _, first) in [BAD_SIZES[0], BAD_SIZES[5], BAD_SIZES[11]] {
        let text = format!("{first}{over}");
        too_long(both, "read: 1 before 3 to 5", Way::Read, text.as_bytes())?;
    }
    let list = [&[2, 3, 3, 255, 255][..], &[9; ONE_OVER]].concat();
    too_long(both, "write: 1 before 3", Way::Write, &list)
}

/// The longest lists and texts, and those that are a bit longer.
fn lengths(both: &mut LineComparer) -> Done {
    let commands = [vec![Timeout(255); 10_000], vec![Recover(100); 6_000]];
    let commands = [commands.concat(), vec![Start; 763]].concat();
    let list = list_of(Sizes::new(16, 15, 15, 65_535), &commands);
    let text = "sites 16 commit 15 abort 15 willing 65535\n".to_string()
        + &"timeout 255\n".repeat(10_000)
        + &"recover 100\n".repeat(6_000)
        + &"start\n".repeat(763);
    if (list.len(), text.len()) != (32_768, 196_620) {
        return Err("the longest text is another one\n".into());
    }
    spells(both, "0 longest text", text.as_bytes(), &list)?;
    let list = [&list[..], &[1]].concat();
    too_long(both, "write: 1 over 32,768", Way::Write, &list)?;
    for last in ["start\n", "crash 0\n", "deliver 0 0\n"] {
        let text = format!("{text}{last}");
        too_long(both, "read: 1 over 32,768", Way::Read, text.as_bytes())?;
    }
    Ok(())
}

/// Texts of a million bytes.
fn huge(both: &mut LineComparer) -> Done {
    let starts = format!("{FIRST}{}", "start\n".repeat(HUGE / 6));
    let seen = both.call(Way::Read, starts.as_bytes(), AMPLE)?;
    both.clause("read: 1 over 32,768", (number::LIST_LONG, 0), &seen)?;
    for (name, unit) in [
        ("19 huge word", "1"),
        ("19 empty line", "\n"),
        ("19 huge line", "a "),
    ] {
        let text = unit.repeat(HUGE);
        bad_line(both, name, &text, 0)?;
        bad_line(both, name, &format!("{FIRST}{text}\n"), FIRST.len())?;
    }
    let text = format!("{FIRST}timeout {}1\n", "0".repeat(HUGE));
    bad_line(both, "19 leading nought", &text, FIRST.len())
}

/// Results of other lengths come before everything.
fn results(both: &mut LineComparer) -> Done {
    let day = DAY.as_bytes();
    for size in [0, 1, 7, 8, 15, 17, 24, 32] {
        for input in [&M3_LIST[..], &[], &[9; 40_000]] {
            for room in [0, ENOUGH] {
                let seen = both.call_with(Way::Write, input, [room, size])?;
                both.clause("write: 17 result length", (number::WORLD, 0), &seen)?;
            }
        }
        for input in [day, &[], b"start\n"] {
            for room in [0, ENOUGH] {
                let seen = both.call_with(Way::Read, input, [room, size])?;
                both.clause("read: 17 result length", (number::WORLD, 0), &seen)?;
            }
        }
    }
    Ok(())
}

/// Every row number and every site, there and back.
fn numbers(both: &mut LineComparer) -> Done {
    let rows: Vec<usize> = (0..65_536).collect();
    for part in rows.chunks(8_000) {
        let deliveries = part.iter().map(|&row| Command::deliver(row, row % 256));
        let list = three(7, &deliveries.collect::<Vec<_>>());
        there_and_back(both, "0 every row", &list)?;
    }
    let others = (0..256).flat_map(|site| [Timeout(site), Crash(site), Recover(site)]);
    let list = three(7, &others.collect::<Vec<_>>());
    there_and_back(both, "0 every site", &list)?;
    for willing in 0..=u16::MAX {
        if willing % 97 == 0 {
            let list = list_of(Sizes::new(16, 9, 9, willing), &[]);
            there_and_back(both, "0 willing bits", &list)?;
        }
    }
    Ok(())
}

fn there_and_back(both: &mut LineComparer, name: &'static str, list: &[u8]) -> Done {
    let seen = both.there_and_back(Way::Write, list, AMPLE)?;
    both.clause(name, (number::NONE, list.len()), &seen)
}

/// Every byte of a day changed, put in or left out; whatever the number is, it
/// is the same one.
fn every_edit(both: &mut LineComparer) -> Done {
    let day = DAY.as_bytes();
    for at in 0..day.len() {
        let (before, after) = (&day[..at], &day[at + 1..]);
        both.there_and_back(Way::Read, &[before, after].concat(), ENOUGH)?;
        for byte in 0..=255 {
            both.there_and_back(Way::Read, &[before, &[byte], after].concat(), ENOUGH)?;
            both.there_and_back(Way::Read, &[before, &[byte], &day[at..]].concat(), ENOUGH)?;
        }
    }
    for at in 0..M3_LIST.len() {
        let (before, after) = (&M3_LIST[..at], &M3_LIST[at + 1..]);
        for byte in 0..=255 {
            both.there_and_back(Way::Write, &[before, &[byte], after].concat(), ENOUGH)?;
        }
    }
    Ok(())
}
