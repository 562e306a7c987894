//! What is wrong with a line, and that a text without it is read.

use model::flaw::{flaws, Flaw};
use model::number;

use crate::common::bad_lines::{BAD, BAD_FIRST, DAY, FIRST};
use crate::read;

/// Lines after a first line, with all the flaws of which each alone makes them
/// bad.
const FLAWED: &[(&str, &[Flaw])] = &[
    ("\n", &[Flaw::EmptyLine]),
    (FIRST, &[Flaw::SecondSites]),
    ("start", &[Flaw::NoLineFeed]),
    ("start\r\n", &[Flaw::CarriageReturn]),
    (" start\n", &[Flaw::LeadingBlank]),
    ("start \n", &[Flaw::TrailingBlank]),
    ("deliver 0  1\n", &[Flaw::TwoBlanks]),
    ("deliver\t0 1\n", &[Flaw::Tab]),
    ("deliver 00 1\n", &[Flaw::LeadingNought]),
    ("crash 256\n", &[Flaw::PastOneByte]),
    ("deliver 0 256\n", &[Flaw::PastOneByte]),
    ("deliver 65536 0\n", &[Flaw::PastTwoBytes]),
    (
        "timeout 4294967296\n",
        &[Flaw::PastOneByte, Flaw::Past32Bits],
    ),
    (
        "deliver 18446744073709551616 0\n",
        &[Flaw::PastTwoBytes, Flaw::Past32Bits, Flaw::Past64Bits],
    ),
    ("recover +0\n", &[Flaw::Sign]),
    ("START\n", &[Flaw::UpperCase]),
    ("Start\n", &[Flaw::UpperCase, Flaw::WrongLetter]),
    ("crush 0\n", &[Flaw::WrongLetter]),
    ("deliver 0\n", &[Flaw::WordMissing]),
    ("start 0\n", &[Flaw::WordTooMany]),
    ("start\0\n", &[Flaw::OddByte]),
    ("start\n", &[]),
    ("crash 00 \n", &[]),
];

#[test]
fn the_flaws_of_a_line() {
    for (line, wanted) in FLAWED {
        let text = format!("{FIRST}{line}");
        assert_eq!(flaws(text.as_bytes(), FIRST.len()), *wanted, "{line:?}");
    }
    assert_eq!(flaws(b"", 0), [Flaw::EmptyText]);
    assert_eq!(flaws(b"start\n", 0), [Flaw::CommandFirst]);
    assert_eq!(flaws(b"\n", 0), [Flaw::EmptyLine]);
    assert_eq!(flaws(DAY.as_bytes(), 0), []);
}

#[test]
fn a_text_without_its_flaw_is_read() {
    for (line, flaws) in FLAWED {
        let text = format!("{DAY}{line}");
        for flaw in *flaws {
            let mended = flaw.mended(text.as_bytes());
            assert!(read(mended).is_ok(), "{line:?}");
        }
    }
}

#[test]
fn a_good_text_is_not_mended() {
    for flaw in Flaw::ALL {
        assert_eq!(flaw.mended(DAY.as_bytes()), DAY.as_bytes());
    }
}

#[test]
fn the_bad_lines_have_every_flaw() {
    let later = BAD.iter().flat_map(|(_, lines)| *lines);
    let later = later.map(|line| (format!("{FIRST}{line}"), FIRST.len()));
    let first = BAD_FIRST.iter().flat_map(|(_, lines)| *lines);
    let first = first.map(|line| (line.to_string(), 0));
    let ends = ["", FIRST.trim_end()].map(|end| (end.to_string(), 0));
    let texts: Vec<_> = later.chain(first).chain(ends).collect();
    for flaw in Flaw::ALL {
        let has_it =
            |(text, place): &&(String, usize)| flaws(text.as_bytes(), *place).contains(&flaw);
        let (text, place) = texts.iter().find(has_it).expect("a line for each flaw");
        assert_eq!(read(text), Err((number::LINE, *place)));
    }
}
