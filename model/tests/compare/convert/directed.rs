//! Lists to be converted, made for one clause each, and what must come of them.

use model::generate::duel;
use model::quiet::{self, Asked};
use model::sizes::everyone;
use model::Replies;

use super::clauses::Given;
use super::comparer::Converting;
use crate::common::editions::{FIRST, M3_SECOND, SECOND};
use crate::common::quiet::{far_quorums, SITES};
use crate::common::{rows_of_site_0, three, M3_LIST};

type Done = Result<(), String>;

/// Room for every short list.
const ENOUGH: usize = 100;
/// Room for every list.
const AMPLE: usize = 40_000;
const MOST: usize = 32_768;

pub fn made_by_hand(both: &mut Converting) -> Done {
    pairs(both)?;
    forward(both)?;
    back(both)?;
    orders(both)?;
    results(both)?;
    headers(both)?;
    lengths(both)?;
    days(both)?;
    every_byte(both)
}

/// The two lists are each other's, with too little room, just enough and more.
fn pair(both: &mut Converting, name: &'static str, first: &[u8], second: &[u8]) -> Done {
    one_way(both, name, first, second)?;
    one_way(both, name, second, first)
}

fn one_way(both: &mut Converting, name: &'static str, list: &[u8], made: &[u8]) -> Done {
    let size = made.len();
    for room in [0, 1, size / 2, size - 1, size, size + 1, size + 99] {
        let seen = both.call(Given::new(list, room))?;
        if seen.number == 0 && seen.output != made {
            return Err(format!("{name}: both give another list\n"));
        }
    }
    accepted(both, name, list)
}

/// Bytes after a header that are commands, or not.
const TAILS: [&[u8]; 14] = [
    &[],
    &[1],
    &[0],
    &[255],
    &[2],
    &[2, 0, 0],
    &[6, 7, 8],
    &[1, 3, 4],
    &[1, 2, 1, 0, 0],
    &[1, 2, 0, 0, 0],
    &[4, 1, 3, 1],
    &[5, 0],
    &[1, 1],
    &SECOND,
];

fn pairs(both: &mut Converting) -> Done {
    pair(both, "0 day M3", &M3_LIST, &M3_SECOND)?;
    TAILS.iter().try_for_each(|tail| {
        let lists = [[&FIRST, *tail].concat(), [&SECOND, *tail].concat()];
        pair(both, "0 any bytes after the header", &lists[0], &lists[1])
    })
}

/// A list for which this clause is due, without room, with just enough and with more.
fn due(both: &mut Converting, clause: &'static str, list: &[u8]) -> Done {
    let need = Given::new(list, 0).need();
    for room in [0, need, ENOUGH + need] {
        let seen = both.call(Given::new(list, room))?;
        if seen.clause != clause {
            return Err(format!("{clause}: {} is due\n", seen.clause));
        }
    }
    Ok(())
}

/// A clause, and a list for it.
const FORWARD: &[(&str, &[u8])] = &[
    ("2 under 5", &[]),
    ("2 under 5", &[3]),
    ("2 under 5", &[3, 2, 2, 7]),
    ("2 under 5", &[131, 3, 2, 0]),
    ("3 n under 3", &[0, 0, 0, 0, 0]),
    ("3 n under 3", &[2, 2, 2, 3, 0]),
    ("3 n over 16", &[17, 9, 9, 3, 0]),
    ("3 n over 16", &[255, 255, 255, 255, 255]),
    ("3 n over 16", &[129, 3, 2, 0, 2, 0, 7, 0, 1, 1, 1]),
    ("3 a later edition", &[131, 3, 2, 0, 2, 0, 7, 0, 1, 1, 1]),
    ("3 a later edition", &[132, 3, 2, 0, 2, 0, 7, 0, 1, 1, 1]),
    ("3 a later edition", &[131, 3, 2, 0, 2]),
    ("3 a later edition", &[132, 3, 7, 0, 0, 0, 0]),
    ("4 C over W - h", &[3, 3, 2, 7, 0]),
    ("4 C over W - h", &[3, 255, 2, 7, 0]),
    ("4 A over W - h", &[3, 2, 3, 7, 0]),
    ("4 A over W - h", &[16, 15, 16, 7, 0]),
    ("4 C + A under W + 1", &[4, 2, 2, 15, 0]),
    ("4 C + A under W + 1", &[3, 0, 0, 7, 0]),
    ("5 willing bit", &[3, 2, 2, 8, 0]),
    ("5 willing bit", &[3, 2, 2, 7, 1]),
    ("5 willing bit", &[15, 8, 8, 0, 128]),
];

fn forward(both: &mut Converting) -> Done {
    let mut lists = FORWARD.iter();
    lists.try_for_each(|(clause, list)| due(both, clause, list))
}

/// A clause, and what is changed of the good header for it.
const BACK: &[(&str, &[(usize, u8)])] = &[
    ("3 n under 3", &[(1, 0)]),
    ("3 n under 3", &[(1, 2)]),
    ("3 n over 16", &[(1, 17)]),
    ("3 n over 16", &[(1, 131)]),
    ("2 header cut", &[(1, 5)]),
    ("2 header cut", &[(1, 16)]),
    ("21 weight of 0", &[(8, 0)]),
    ("21 weight of 0", &[(11, 0)]),
    ("4 C over W - h", &[(2, 4)]),
    ("4 C over W - h", &[(3, 1)]),
    ("4 A over W - h", &[(4, 4)]),
    ("4 A over W - h", &[(5, 128)]),
    ("4 C + A under W + 1", &[(2, 2), (4, 2)]),
    ("4 C + A under W + 1", &[(9, 3)]),
    ("5 willing bit", &[(6, 16)]),
    ("5 willing bit", &[(7, 1)]),
    ("22 not all weights 1", &[(8, 2)]),
    ("22 not all weights 1", &[(11, 2)]),
    (
        "22 not all weights 1",
        &[(8, 2), (9, 2), (10, 2), (11, 2), (2, 6)],
    ),
];

fn with(list: &[u8], changes: &[(usize, u8)]) -> Vec<u8> {
    let mut list = list.to_vec();
    changes.iter().for_each(|&(at, byte)| list[at] = byte);
    list
}

fn back(both: &mut Converting) -> Done {
    let mut changes = BACK.iter();
    changes.try_for_each(|(clause, changes)| due(both, clause, &with(&SECOND, changes)))?;
    let heaviest = [130, 16, 0xf1, 0x0e, 0xf1, 0x0e, 255, 255];
    let heaviest = [heaviest, [255; 8], [255; 8]].concat();
    due(both, "22 not all weights 1", &heaviest)?;
    (1..SECOND.len()).try_for_each(|size| {
        let clause = match size {
            0..=4 => "2 under 5",
            _ => "2 header cut",
        };
        due(both, clause, &SECOND[..size])
    })
}

/// The list with bytes after it up to this length.
fn filled(list: &[u8], size: usize) -> Vec<u8> {
    let mut list = list.to_vec();
    list.resize(size, 9);
    list
}

/// Lists with everything wrong at first, and then with one thing less at a time, in both
/// editions. 1 and 2 exclude each other, so there are more than two beginnings.
fn worst() -> [Vec<u8>; 15] {
    let (first, second) = ([2, 9, 9, 0, 128], [130, 2, 9, 9, 9, 9, 0, 128, 2, 0, 1, 1]);
    let willing = with(&SECOND, &[(7, 128), (8, 2)]);
    [
        filled(&first, MOST + 1),
        filled(&first, MOST),
        filled(&with(&first, &[(0, 4)]), MOST),
        filled(&[4, 3, 3, 0, 128], MOST),
        filled(&FIRST, MOST),
        first[..4].to_vec(),
        filled(&second, MOST + 1),
        second.to_vec(),
        with(&second, &[(1, 17)]),
        second[..4].to_vec(),
        with(&second, &[(1, 4)])[..11].to_vec(),
        with(&second, &[(1, 4)]),
        with(&second, &[(1, 4), (9, 1)]),
        willing.clone(),
        with(&willing, &[(6, 15), (7, 0)]),
    ]
}

/// A list with these lengths of buffer and result.
fn each(both: &mut Converting, list: &[u8], lengths: &[(usize, usize)]) -> Done {
    for &(room, result) in lengths {
        both.call(Given { list, room, result })?;
    }
    Ok(())
}

/// Each of them with and without room, and with a result of another length.
fn orders(both: &mut Converting) -> Done {
    let lengths = [(0, 16), (AMPLE, 16), (0, 15)];
    let lists = worst();
    lists.iter().try_for_each(|list| each(both, list, &lengths))
}

/// Results of other lengths.
fn results(both: &mut Converting) -> Done {
    let lengths = [0, 1, 7, 8, 15, 17, 24, 32].map(|result| (ENOUGH, result));
    let long = filled(&FIRST, AMPLE);
    let mut lists = [&M3_LIST[..], &M3_SECOND, &[], &[130], &long].into_iter();
    lists.try_for_each(|list| each(both, list, &lengths))
}

/// Headers of every number of sites with some quorums and willing sites.
fn headers(both: &mut Converting) -> Done {
    for asked in SITES.flat_map(far_quorums) {
        let mut some = [0, 1, 0x5a5a, 0xffff].into_iter();
        some.try_for_each(|willing| header(both, asked, willing))?;
    }
    Ok(())
}

/// A header alone, with those of these sites willing that are there.
fn header(both: &mut Converting, asked: Asked, willing: u16) -> Done {
    let [n, c, a] = asked.map(|number| number as u8);
    let [low, high] = (willing & everyone(asked[0])).to_le_bytes();
    let first = [n, c, a, low, high];
    let second = [&[130, n, c, 0, a, 0, low, high][..], &vec![1; n.into()]].concat();
    pair(both, "0 every number of sites", &first, &second)
}

/// The longest lists that can be converted, and longer ones.
fn lengths(both: &mut Converting) -> Done {
    for n in [3, 4, 16] {
        let longest = MOST - 3 - usize::from(n);
        let first = [n, n - 1, n - 1, 0, 0];
        accepted(both, "0 the longest list", &filled(&first, longest))?;
        due(both, "1 converted", &filled(&first, longest + 1))?;
        due(both, "1 converted", &filled(&first, MOST))?;
        due(both, "1 over 32,768", &filled(&first, MOST + 1))?;
        let head = [130, n, n, 0, n, 0, 0, 0, 2, 2];
        let uneven = [&head[..], &vec![1; usize::from(n) - 2]].concat();
        due(both, "22 not all weights 1", &filled(&uneven, MOST))?;
        due(both, "1 over 32,768", &filled(&uneven, MOST + 1))?;
    }
    due(both, "1 over 32,768", &filled(&FIRST, 1_000_000))
}

/// A list that is accepted, and so is what is made of it.
fn accepted(both: &mut Converting, name: &'static str, list: &[u8]) -> Done {
    let seen = both.there_and_back(list)?;
    both.case(name, &seen)
}

/// Quiet days, duels as long as can be, and a row that the store has no room for.
fn days(both: &mut Converting) -> Done {
    let mut quiet_days = SITES.flat_map(far_quorums);
    quiet_days.try_for_each(|asked| {
        let list = quiet::list(asked, Replies::Last);
        accepted(both, "0 quiet day", &list)
    })?;
    [3, 5, 16].into_iter().try_for_each(|n| {
        let list = duel(n, 4, MOST - 3 - usize::from(n));
        accepted(both, "0 duel", &list)
    })?;
    accepted(both, "0 full store", &three(7, &rows_of_site_0(1_025)))
}

/// Every byte of the worked list in both editions changed; whatever is due, both give
/// it.
fn every_byte(both: &mut Converting) -> Done {
    let lists = [&M3_LIST[..], &M3_SECOND].into_iter();
    let places = lists.flat_map(|list| (0..list.len()).map(move |at| (list, at)));
    let changes =
        places.flat_map(|(list, at)| (0..=255).map(move |byte| with(list, &[(at, byte)])));
    for list in changes {
        both.call(Given::new(&list, ENOUGH))?;
    }
    Ok(())
}
