//! The worked days, and lengths of lists and buffers.

use model::header::HEADER_BYTES;
use model::layout::WORLD_BYTES;
use model::quiet;
use model::row::STORE_BYTES;
use model::sizes::MAX_LIST;
use model::world::MAX_ROWS;
use model::{Command, Replies};

use super::shared::{deliver, Done};
use crate::common::{header, rows_of_site_0, three};
use crate::common::{M3_LIST, RESTART, THREES_FOR_PREPARES};
use crate::comparer::{Comparer, Lengths, USUAL};

use Command::{Crash, Recover, Start, Timeout};

/// A list with its clause and number.
type Numbered = (&'static str, u8, Vec<u8>);

/// The worked days at three clubs.
fn days() -> Vec<Numbered> {
    let m4 = [Start, deliver(0, 1), deliver(1, 0)];
    let m5 = [Start, Crash(0), Recover(0), Timeout(0)];
    let m6 = [Start, deliver(0, 1), deliver(0, 1)];
    let before_start = [Crash(0), Recover(0), Start];
    let mut cut = three(7, &[Start]);
    cut.extend([2, 0]);
    let full = rows_of_site_0(MAX_ROWS);
    let over = rows_of_site_0(MAX_ROWS + 1);
    let reply_over = [&full[..], &[deliver(0, 1)]].concat();
    let down = [Start, Crash(1), deliver(0, 1)];
    let astray = [Start, deliver(0, 1), deliver(1, 2)];
    vec![
        ("0 day M1", 0, three(7, &[])),
        ("0 day M2", 0, three(7, &[Start])),
        ("0 day M3", 0, M3_LIST.to_vec()),
        ("0 day M4", 0, three(5, &m4)),
        ("0 day M5", 0, three(7, &m5)),
        ("0 day M6", 0, three(7, &m6)),
        ("0 day M7", 0, three(7, &[Timeout(2)])),
        ("14 day M8", 14, three(7, &[Start, Start])),
        ("11 day M9", 11, three(7, &[Start, deliver(0, 0)])),
        ("13 day M10", 13, three(7, &[Recover(1)])),
        ("0 a 3 is no prepare", 0, three(7, &THREES_FOR_PREPARES)),
        ("0 a restart before the vote", 0, three(7, &RESTART)),
        ("14 a restart before START", 14, three(7, &before_start)),
        ("7 cut after one operand byte", 7, cut),
        ("0 row 1,023 as the 1,024th", 0, three(7, &full)),
        ("15 row 1,024 as the 1,025th", 15, three(7, &over)),
        ("15 a refused row's news", 15, three(7, &reply_over)),
        ("12 a refused row's news", 12, three(7, &down)),
        ("11 a refused row's news", 11, three(7, &astray)),
    ]
}

/// Clauses and numbers, each with headers: n, C, A and the willing bits.
const HEADERS: &[(&str, u8, &[[usize; 4]])] = &[
    ("3 n under 3", 3, &[[2, 2, 2, 3], [0, 0, 0, 0]]),
    ("3 n over 16", 3, &[[17, 9, 9, 3], [255, 128, 128, 0]]),
    ("0 n of 16", 0, &[[16, 9, 8, 0xffff]]),
    ("4 C + A under n + 1", 4, &[[4, 2, 2, 15]]),
    ("0 quorums that meet", 0, &[[4, 2, 3, 15]]),
    ("4 C over n - 1", 4, &[[4, 4, 2, 15], [3, 255, 2, 7]]),
    ("4 A over n - 1", 4, &[[4, 2, 4, 15], [3, 2, 255, 7]]),
    ("4 before 5", 4, &[[3, 3, 2, 0xff]]),
    (
        "5 willing bit at n or above",
        5,
        &[[3, 2, 2, 8], [8, 5, 5, 1 << 15], [15, 8, 8, 1 << 15]],
    ),
];

fn headers() -> impl Iterator<Item = Numbered> {
    HEADERS.iter().flat_map(|&(name, number, headers)| {
        let lists = headers
            .iter()
            .map(|&[n, c, a, willing]| header(n, c, a, willing as u16));
        lists.map(move |list| (name, number, list))
    })
}

/// Lists too short, too long, and almost too long.
fn lengths() -> Vec<Numbered> {
    let mut commands = Vec::new();
    while 2 * commands.len() < MAX_LIST {
        commands.extend([Crash(1), Recover(1)]);
    }
    let long = three(7, &commands);
    let part = |size: usize| long[..size].to_vec();
    let short = (0..HEADER_BYTES).map(|size| ("2 under 5", 2, part(size)));
    let mut all: Vec<Numbered> = short.collect();
    all.extend([
        ("1 over 32,768", 1, part(MAX_LIST + 1)),
        ("7 at the longest list's end", 7, part(MAX_LIST)),
        ("0 almost the longest list", 0, part(MAX_LIST - 1)),
    ]);
    all
}

pub fn lists(both: &mut Comparer) -> Done {
    for (name, number, list) in headers().chain(lengths()) {
        let given = both.list(&list)?;
        both.clause(name, number, given)?;
    }
    for (name, number, list) in days() {
        let given = both.list(&list)?;
        both.clause(name, number, given)?;
        both.walk(&list)?;
    }
    buffers(both)
}

/// Wrong lengths of buffers, with good lists and bad ones.
fn buffers(both: &mut Comparer) -> Done {
    let day = quiet::list([5, 3, 3], Replies::Last);
    let long = [1; MAX_LIST + 1];
    for list in [&day, &long[..], &day[..3], &header(2, 2, 2, 0)] {
        wrong_buffers(both, list)?;
    }
    for extra in [1, 19, 20, 5_000] {
        let store = STORE_BYTES + extra;
        let given = both.list_with(&day, Lengths { store, ..USUAL })?;
        both.clause("0 a longer store", 0, given)?;
    }
    Ok(())
}

fn wrong_buffers(both: &mut Comparer, list: &[u8]) -> Done {
    for store in [0, 1, STORE_BYTES - 1] {
        let given = both.list_with(list, Lengths { store, ..USUAL })?;
        both.clause("16 store too short", 16, given)?;
        let (world, result) = (3, 0);
        let all = Lengths {
            store,
            world,
            result,
        };
        let given = both.list_with(list, all)?;
        both.clause("16 before 17", 16, given)?;
    }
    for world in [0, 1, WORLD_BYTES - 1, WORLD_BYTES + 1, 2 * WORLD_BYTES] {
        let given = both.list_with(list, Lengths { world, ..USUAL })?;
        both.clause("17 world length of a list", 17, given)?;
    }
    for result in [0, 1, 7, 9, 16] {
        let given = both.list_with(list, Lengths { result, ..USUAL })?;
        both.clause("17 result length", 17, given)?;
    }
    Ok(())
}
