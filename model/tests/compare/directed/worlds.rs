//! Worlds that are refused with 17, and odd ones that are not: for a command
//! and for a report. A world is changed in its bytes, as docs/LAYOUT.md has
//! them.

use model::calls::RESULT_BYTES;
use model::layout::{encode, CODES, GROUP_CODES, HEAD_BYTES, SITES_AT, SITE_BYTES, WORLD_BYTES};
use model::report::REPORT_BYTES;
use model::row::STORE_BYTES;
use model::sizes::MAX_SITES;
use model::Command;

use super::shared::{base, deliver, first, Done, SOME};
use crate::comparer::Comparer;

use Command::Timeout;

/// Places in the head.
const N: usize = 1;
const C: usize = 2;
const A: usize = 4;
const WILLING: usize = 6;
const ROWS: usize = 8;
const NEWS: usize = 10;

/// Places at a site.
const UP: usize = 0;
const PREPARE: usize = 2;
const GROUP: usize = 3;
const OUTCOME: usize = 4;

const fn at_site(site: usize, place: usize) -> usize {
    SITES_AT + SITE_BYTES * site + place
}

const fn code(site: usize, entry: usize) -> usize {
    at_site(site, CODES.start + entry)
}

const fn group_code(site: usize, entry: usize) -> usize {
    at_site(site, GROUP_CODES.start + entry)
}

const fn weight(site: usize) -> usize {
    HEAD_BYTES + site
}

/// Places of the base world's bytes and what is put there.
type Patch = &'static [(usize, u8)];

/// Worlds that break one clause of 17.
const BROKEN: &[(&str, &[Patch])] = &[
    ("17 n under 3", &[&[(N, 2)], &[(N, 0)]]),
    ("17 n over 16", &[&[(N, 17)], &[(N, 255)]]),
    (
        "17 C over n - 1",
        &[&[(C, 5)], &[(C + 1, 1)], &[(C, 255), (C + 1, 255)]],
    ),
    (
        "17 A over n - 1",
        &[&[(A, 5)], &[(A + 1, 1)], &[(A, 255), (A + 1, 255)]],
    ),
    ("17 C + A under n + 1", &[&[(A, 2)], &[(C, 2)], &[(C, 0)]]),
    (
        "17 weight of 0",
        &[&[(weight(0), 0)], &[(weight(2), 0)], &[(weight(4), 0)]],
    ),
    // Quorums that would fit the weights without the 0.
    ("17 weight of 0", &[&[(weight(0), 0), (C, 3), (A, 2)]]),
    (
        "17 weight from n up not 0",
        &[&[(weight(5), 1)], &[(weight(9), 255)], &[(weight(15), 1)]],
    ),
    // Seven in all, three of them one site's.
    (
        "17 C over W - h",
        &[
            &[(weight(1), 3), (C, 5), (A, 4)],
            &[(weight(4), 3), (C, 7), (A, 4)],
        ],
    ),
    (
        "17 A over W - h",
        &[
            &[(weight(1), 3), (C, 4), (A, 5)],
            &[(weight(4), 3), (C, 4), (A, 7)],
        ],
    ),
    (
        "17 C + A under W + 1",
        &[
            &[(weight(0), 2)],
            &[(weight(3), 3), (C, 4)],
            &[(weight(4), 2), (C, 4), (A, 2)],
        ],
    ),
    // One site against all the others, and 255 beside 1s.
    (
        "17 no quorum without the heaviest",
        &[
            &[(weight(2), 4)],
            &[(weight(2), 4), (C, 4), (A, 4)],
            &[(weight(2), 255), (A, 255)],
        ],
    ),
    (
        "17 willing bit at n or above",
        &[&[(WILLING, 0b11_1111)], &[(WILLING + 1, 0x80)]],
    ),
    (
        "17 rows over 1,024",
        &[&[(ROWS, 1), (ROWS + 1, 4)], &[(ROWS, 255), (ROWS + 1, 255)]],
    ),
    // 491,521, then numbers that are over by one byte alone.
    (
        "17 news over 491,520",
        &[
            &[(NEWS, 1), (NEWS + 1, 0x80), (NEWS + 2, 7)],
            &[(NEWS, 0), (NEWS + 1, 0x81), (NEWS + 2, 7)],
            &[(NEWS, 0), (NEWS + 1, 0), (NEWS + 2, 8)],
            &[(NEWS, 0), (NEWS + 1, 0), (NEWS + 3, 1)],
            &[
                (NEWS, 255),
                (NEWS + 1, 255),
                (NEWS + 2, 255),
                (NEWS + 3, 255),
            ],
        ],
    ),
    (
        "17 code above 5",
        &[&[(code(3, 1), 6)], &[(code(4, 0), 255)], &[(code(0, 4), 6)]],
    ),
    (
        "17 entry from n up not 0",
        &[&[(code(3, 5), 1)], &[(code(4, 15), 5)]],
    ),
    (
        "17 own entry not its state",
        &[&[(code(3, 3), 0)], &[(code(0, 0), 4)], &[(code(4, 4), 2)]],
    ),
    (
        "17 own entry not its state",
        &[&[(at_site(3, PREPARE), 0)], &[(at_site(3, OUTCOME), 2)]],
    ),
    (
        "17 group's code above 5",
        &[&[(group_code(0, 3), 6)], &[(group_code(2, 4), 255)]],
    ),
    (
        "17 group's entry from n up not 0",
        &[&[(group_code(0, 5), 1)], &[(group_code(2, 15), 2)]],
    ),
    (
        "17 group's own entry not its group",
        &[
            &[(group_code(0, 0), 3)],
            &[(group_code(2, 2), 4)],
            &[
                (at_site(1, OUTCOME), 1),
                (code(1, 1), 4),
                (group_code(1, 1), 4),
            ],
        ],
    ),
    (
        "17 vector without a group",
        &[
            &[(group_code(3, 1), 1)],
            &[(group_code(4, 4), 1)],
            &[(group_code(3, 15), 9)],
        ],
    ),
];

/// Worlds that look odd and pass.
const ODD: &[(&str, Patch)] = &[
    (
        "0 any codes at a site from n up",
        &[(code(5, 0), 9), (code(15, 15), 255)],
    ),
    (
        "0 any vector at a site from n up",
        &[(group_code(5, 0), 1), (group_code(15, 15), 200)],
    ),
    (
        "0 any record at a site from n up",
        &[
            (at_site(6, UP), 1),
            (at_site(7, PREPARE), 1),
            (at_site(8, GROUP), 2),
            (at_site(15, OUTCOME), 1),
        ],
    ),
    (
        "0 a group without a prepare record",
        &[(at_site(2, PREPARE), 0)],
    ),
    (
        "0 an outcome against the group",
        &[(at_site(2, OUTCOME), 2), (code(2, 2), 5)],
    ),
    (
        "0 an outcome in the group's vector",
        &[(group_code(2, 1), 4)],
    ),
    ("0 quorums as large as can be", &[(C, 4), (A, 4)]),
    ("0 quorums that just meet", &[(C, 2), (A, 4)]),
    (
        "0 weighted quorums as large as can be",
        &[(weight(1), 3), (C, 4), (A, 4)],
    ),
    (
        "0 weighted quorums that just meet",
        &[(weight(0), 2), (C, 4)],
    ),
    // 1,275 in all, and quorums of 1,020 and 256: each needs both its bytes.
    (
        "0 weights of 255",
        &[
            (weight(0), 255),
            (weight(1), 255),
            (weight(2), 255),
            (weight(3), 255),
            (weight(4), 255),
            (C, 0xfc),
            (C + 1, 3),
            (A, 0),
            (A + 1, 1),
        ],
    ),
    (
        "0 news of 491,520",
        &[(NEWS, 0), (NEWS + 1, 0x80), (NEWS + 2, 7)],
    ),
    (
        "0 news of 491,519",
        &[(NEWS, 255), (NEWS + 1, 0x7f), (NEWS + 2, 7)],
    ),
    ("0 no news", &[(NEWS, 0)]),
];

/// Places of a site's record and the least value outside the layout.
const OUTSIDE: [(&str, usize, u8); 8] = [
    ("17 layout: up", UP, 2),
    ("17 layout: role", 1, 2),
    ("17 layout: prepare record", PREPARE, 2),
    ("17 layout: group", GROUP, 3),
    ("17 layout: outcome", OUTCOME, 3),
    ("17 layout: reserved at a site", 5, 1),
    ("17 layout: reserved at a site", 6, 1),
    ("17 layout: reserved at a site", 7, 1),
];

/// The base world's bytes with some of them changed.
fn patched(patch: &[(usize, u8)]) -> Vec<u8> {
    let mut bytes = encode(&base().0).to_vec();
    for &(at, byte) in patch {
        bytes[at] = byte;
    }
    bytes
}

/// Byte strings that are no world, each with its clause.
fn outside() -> Vec<(&'static str, Vec<u8>)> {
    let good = patched(&[]);
    let mut all = vec![
        ("17 layout: length", good[..WORLD_BYTES - 1].to_vec()),
        ("17 layout: length", [&good[..], &[0]].concat()),
        ("17 layout: length", Vec::new()),
        ("17 layout: length", good[..1].to_vec()),
        ("17 layout: number", patched(&[(0, 0)])),
        ("17 layout: number", patched(&[(0, 1)])),
        ("17 layout: number", patched(&[(0, 2)])),
        ("17 layout: number", patched(&[(0, 4)])),
        ("17 layout: number", patched(&[(0, 255)])),
    ];
    for at in 14..HEAD_BYTES {
        all.push(("17 layout: reserved in the head", patched(&[(at, 1)])));
        all.push(("17 layout: reserved in the head", patched(&[(at, 255)])));
    }
    for site in 0..MAX_SITES {
        for (name, place, least) in OUTSIDE {
            all.push((name, patched(&[(at_site(site, place), least)])));
            all.push((name, patched(&[(at_site(site, place), 255)])));
        }
    }
    all
}

/// Every clause of 17, and the numbers before and after it.
pub fn worlds(both: &mut Comparer) -> Done {
    for (name, patches) in BROKEN {
        for patch in *patches {
            command_and_report(both, name, 17, &patched(patch))?;
            first_numbers(both, &patched(patch))?;
        }
    }
    for (name, patch) in ODD {
        command_and_report(both, name, 0, &patched(patch))?;
    }
    for (name, bytes) in outside() {
        command_and_report(both, name, 17, &bytes)?;
        first_numbers(both, &bytes)?;
    }
    buffers(both)
}

/// The same number for a command and for a report.
fn command_and_report(both: &mut Comparer, name: &'static str, number: u8, world: &[u8]) -> Done {
    let list = Timeout(0).bytes();
    let given = both.command(world, &base().1, first(&list), RESULT_BYTES)?;
    both.clause(name, number, given)?;
    let given = both.report(world, SOME, REPORT_BYTES, RESULT_BYTES)?;
    both.clause(name, number, given)
}

/// A world that is none, with something else wrong too.
fn first_numbers(both: &mut Comparer, world: &[u8]) -> Done {
    let store = base().1;
    let short = &store[..STORE_BYTES - 1];
    let given = both.command(world, short, first(&[]), RESULT_BYTES)?;
    both.clause("16 before 17", 16, given)?;
    let given = both.command(world, &store, first(&[]), RESULT_BYTES)?;
    both.clause("17 before 6", 17, given)?;
    let given = both.report(world, SOME, REPORT_BYTES - 1, RESULT_BYTES)?;
    both.clause("17 before 18", 17, given)
}

/// A good world with wrong lengths of buffers.
fn buffers(both: &mut Comparer) -> Done {
    let (world, store) = base();
    let world = encode(&world);
    let list = Timeout(0).bytes();
    for size in [0, 1, 7, 9, 16] {
        let given = both.command(&world, &store, first(&list), size)?;
        both.clause("17 result length", 17, given)?;
        let given = both.report(&world, SOME, REPORT_BYTES, size)?;
        both.clause("17 result length", 17, given)?;
        let given = both.command(&world, &store[..STORE_BYTES - 1], first(&list), size)?;
        both.clause("16 before 17", 16, given)?;
    }
    for size in [0, 1, STORE_BYTES - 1] {
        let given = both.command(&world, &store[..size], first(&list), RESULT_BYTES)?;
        both.clause("16 store too short", 16, given)?;
    }
    Ok(())
}

/// Every byte of a world changed, to values in and out of its range; whatever
/// the number is, it is the same one.
pub fn every_byte(both: &mut Comparer) -> Done {
    let store = base().1;
    let good = patched(&[]);
    let lists = [Timeout(0), Timeout(3), deliver(5, 3)].map(Command::bytes);
    for at in 0..WORLD_BYTES {
        for byte in [0, 1, 2, 3, 4, 5, 6, 16, 128, 255] {
            let mut bytes = good.clone();
            bytes[at] = byte;
            for list in &lists {
                both.command(&bytes, &store, first(list), RESULT_BYTES)?;
            }
            both.report(&bytes, SOME, REPORT_BYTES, RESULT_BYTES)?;
        }
    }
    Ok(())
}
