//! Lists carried into the other edition, document 02, request (vii): both headers, the
//! numbers and their order, the buffer, and that both lists are played alike.

mod common;

use std::collections::BTreeSet;

use model::calls::{Calls, Model};
use model::generate::Generator;
use model::row::STORE_BYTES;
use model::{convert, number, play_list, printed, Edition, Header, Output, Played, World};

use common::editions::{FIRST, M3_SECOND, SECOND};
use common::outputs::{answer, result};
use common::{M3_LIST, M3_REPORT};

const FILL: u8 = b'#';
/// Room for every list.
const AMPLE: usize = 33_000;
const SEED: u64 = 20_261_117;

/// Where the weights begin.
const WEIGHTS_AT: usize = 8;

/// The list in the other edition, or the number of the refusal.
type Found = Result<Vec<u8>, u8>;

/// Converts into so much room, and sees that the answer and the buffer are as an
/// accepted or a refused call leaves them.
fn convert_into(list: &[u8], room: usize) -> Found {
    let mut buffer = vec![FILL; room];
    let output = convert(list, &mut buffer);
    let (made, rest) = buffer.split_at(output.length);
    assert!(rest.iter().all(|&byte| byte == FILL));
    if output.number == 0 {
        assert_eq!(output.place, list.len());
        return Ok(made.to_vec());
    }
    assert_eq!((output.length, output.place), (0, 0));
    Err(output.number)
}

fn converted(list: &[u8]) -> Found {
    convert_into(list, AMPLE)
}

/// The number of a list, 0 for none. A refusal by another one than 20 does not hang on
/// the room.
fn number(list: &[u8]) -> u8 {
    let number = converted(list).err().unwrap_or(0);
    let without_room = convert_into(list, 0);
    assert_eq!(without_room, Err(if number == 0 { 20 } else { number }));
    number
}

/// The list with some bytes changed.
fn with(list: &[u8], changes: &[(usize, u8)]) -> Vec<u8> {
    let mut list = list.to_vec();
    changes.iter().for_each(|&(at, byte)| list[at] = byte);
    list
}

/// The list with bytes after it up to this length.
fn filled(list: &[u8], size: usize) -> Vec<u8> {
    let mut list = list.to_vec();
    list.resize(size, 9);
    list
}

/// The two lists are each other's, with the room that they take and with more; with
/// less there is none.
fn assert_pair(first: &[u8], second: &[u8]) {
    for (list, made) in [(first, second), (second, first)] {
        let size = made.len();
        assert_eq!(convert_into(list, size), Ok(made.to_vec()));
        assert_eq!(convert_into(list, size + 1), Ok(made.to_vec()));
        assert_eq!(convert_into(list, size - 1), Err(20));
        assert_eq!(convert_into(list, 0), Err(20));
    }
}

#[test]
fn the_worked_list() {
    assert_pair(&M3_LIST, &M3_SECOND);
    assert_eq!(printed(&M3_LIST), M3_REPORT);
    let report = M3_REPORT.replace("end 26", "end 32");
    assert_eq!(printed(&M3_SECOND), report);
}

#[test]
fn a_list_of_five_sites_goes_back() {
    let second = [
        130, 5, 4, 0, 3, 0, 22, 0, 1, 1, 1, 1, 1, 1, 5, 200, 2, 255, 255, 4,
    ];
    let first = [5, 4, 3, 22, 0, 1, 5, 200, 2, 255, 255, 4];
    assert_eq!(converted(&second), Ok(first.to_vec()));
    assert_pair(&first, &second);
}

#[test]
fn headers_of_every_number_of_sites() {
    for n in 3..=16_u8 {
        let [low, high] = ((1_u32 << n) - 1).to_le_bytes()[..2] else {
            unreachable!("two bytes")
        };
        let first = [n, n - 1, 2, low, high];
        let second = [130, n, n - 1, 0, 2, 0, low, high];
        let weights = vec![1; n.into()];
        assert_pair(&first, &[&second[..], &weights].concat());
    }
}

#[test]
fn willing_bits_stay_as_they_are() {
    for [low, high] in [[0, 0], [1, 0], [0, 1], [0x34, 0x12], [0, 128], [255, 255]] {
        let first = [16, 9, 8, low, high];
        let second = [130, 16, 9, 0, 8, 0, low, high];
        assert_pair(&first, &[&second[..], &[1; 16]].concat());
    }
}

#[test]
fn what_comes_after_the_header_is_not_read() {
    let tails: [&[u8]; 10] = [
        &[0],
        &[255],
        &[2],
        &[2, 0, 0],
        &[6, 7, 8],
        &[1, 1],
        &[5, 0],
        &[3, 16],
        &[130],
        &SECOND,
    ];
    for tail in tails {
        assert_pair(&[&FIRST, tail].concat(), &[&SECOND, tail].concat());
    }
}

#[test]
fn numbers_of_a_list_that_goes_forward() {
    for (number, list) in [
        (2, &[][..]),
        (2, &[3]),
        (2, &[3, 2, 2, 7]),
        (0, &[3, 2, 2, 7, 0]),
        (3, &[0, 0, 0, 0, 0]),
        (3, &[2, 2, 2, 3, 0]),
        (3, &[17, 9, 9, 3, 0]),
        (3, &[255, 9, 9, 3, 0]),
        (0, &[16, 15, 15, 255, 255]),
        (4, &[3, 3, 2, 7, 0]),
        (4, &[3, 2, 3, 7, 0]),
        (4, &[16, 255, 15, 7, 0]),
        (4, &[4, 2, 2, 15, 0]),
        (0, &[4, 2, 3, 15, 0]),
        (0, &[4, 3, 2, 15, 0]),
        (5, &[3, 2, 2, 8, 0]),
        (5, &[3, 2, 2, 7, 1]),
        (5, &[15, 8, 8, 0, 128]),
        (0, &[15, 8, 8, 255, 127]),
    ] {
        assert_eq!(self::number(list), number, "{list:?}");
    }
}

#[test]
fn only_130_goes_back() {
    for first in [129, 131, 132] {
        assert_eq!(number(&with(&SECOND, &[(0, first)])), 3);
        assert_eq!(number(&with(&M3_SECOND, &[(0, first)])), 3);
        assert_eq!(number(&[first, 3, 2, 0]), 2);
        assert_eq!(number(&[first, 3, 2, 0, 2]), 3);
    }
    // Of the second edition five bytes are the beginning of a header.
    assert_eq!(number(&[130, 3, 2, 0, 2]), 2);
}

#[test]
fn numbers_of_a_list_that_goes_back() {
    for (number, changes) in [
        (0, &[][..]),
        (3, &[(1, 0)]),
        (3, &[(1, 2)]),
        (3, &[(1, 17)]),
        (3, &[(1, 130)]),
        (2, &[(1, 5)]),
        (2, &[(1, 16)]),
        (21, &[(8, 0)]),
        (21, &[(11, 0)]),
        (4, &[(2, 4)]),
        (4, &[(3, 1)]),
        (4, &[(4, 4)]),
        (4, &[(5, 128)]),
        (4, &[(2, 2), (4, 2)]),
        (0, &[(2, 2)]),
        (0, &[(4, 2)]),
        (5, &[(6, 16)]),
        (5, &[(7, 1)]),
        (0, &[(6, 0)]),
        (22, &[(8, 2)]),
        (22, &[(11, 2)]),
    ] {
        assert_eq!(self::number(&with(&SECOND, changes)), number, "{changes:?}");
    }
    // One site fewer: the last weight is a command's byte, whatever it is.
    let three = with(&SECOND, &[(1, 3), (2, 2), (4, 2), (6, 7)]);
    assert_eq!(converted(&three), Ok(vec![3, 2, 2, 7, 0, 1]));
    let three = with(&three, &[(11, 200)]);
    assert_eq!(converted(&three), Ok(vec![3, 2, 2, 7, 0, 200]));
}

#[test]
fn headers_that_are_cut() {
    let lists = [&FIRST[..], &SECOND];
    let parts = lists.map(|list| (0..list.len()).map(|size| &list[..size]));
    for part in parts.into_iter().flatten() {
        assert_eq!(number(part), 2, "{part:?}");
    }
}

#[test]
fn sites_of_one_weight() {
    for weight in 1..=255_u8 {
        // Quorums of all but one site.
        let [low, high] = (15 * u16::from(weight)).to_le_bytes();
        let head = [130, 16, low, high, low, high, 255, 255];
        let wanted = if weight == 1 { 0 } else { 22 };
        assert_eq!(number(&[head, [weight; 8], [weight; 8]].concat()), wanted);
    }
}

#[test]
fn one_site_of_another_weight() {
    let even = [[130, 16, 15, 0, 15, 0, 255, 255], [1; 8], [1; 8]].concat();
    assert_eq!(number(&even), 0);
    for site in 0..16 {
        let weighing = |weight| number(&with(&even, &[(WEIGHTS_AT + site, weight)]));
        assert_eq!(weighing(0), 21);
        assert_eq!(weighing(2), 22);
        // 29 in all, 15 without the heaviest; then 30, and the quorums do not meet.
        assert_eq!(weighing(14), 22);
        assert_eq!(weighing(15), 4);
    }
}

/// The first of these numbers that a list is refused with, when what is wrong is
/// mended from the first to the last.
fn assert_in_order(steps: &[(u8, Vec<u8>)]) {
    for (number, list) in steps {
        assert_eq!(
            self::number(list),
            *number,
            "{:?}",
            &list[..list.len().min(20)]
        );
    }
}

#[test]
fn the_order_going_forward() {
    // n, C, A and the willing bits are all wrong at first; 1 and 2 exclude each other.
    let steps = [
        (1, [2, 9, 9, 0, 128], 32_769),
        (3, [2, 9, 9, 0, 128], 32_768),
        (4, [4, 9, 9, 0, 128], 32_768),
        (5, [4, 3, 3, 0, 128], 32_768),
        (1, [4, 3, 3, 15, 0], 32_768),
        (1, [4, 3, 3, 15, 0], 32_762),
        (0, [4, 3, 3, 15, 0], 32_761),
    ];
    assert_in_order(&steps.map(|(number, list, size)| (number, filled(&list, size))));
    assert_eq!(number(&[2, 9, 9, 0]), 2);
    assert_eq!(number(&[2, 9, 9, 0, 128]), 3);
    assert_eq!(convert_into(&filled(&FIRST, 32_762), 0), Err(1));
    assert_eq!(convert_into(&filled(&FIRST, 32_761), 32_767), Err(20));
}

#[test]
fn the_order_going_back() {
    // All is wrong at first: n, a weight of 0 beside one of 2, C, A, the willing bits.
    let worst = [130, 17, 9, 9, 9, 9, 0, 128, 2, 0, 1, 1];
    let steps = [
        (1, filled(&worst, 32_769)),
        (3, filled(&worst, 32_768)),
        (2, worst[..4].to_vec()),
        (3, worst[..11].to_vec()),
        (2, with(&worst, &[(1, 4)])[..11].to_vec()),
        (21, with(&worst, &[(1, 4)])),
        (4, with(&worst, &[(1, 4), (9, 1)])),
        (5, with(&SECOND, &[(7, 128), (8, 2)])),
        (22, with(&SECOND, &[(8, 2)])),
        (0, SECOND.to_vec()),
    ];
    assert_in_order(&steps);
    assert_eq!(convert_into(&with(&SECOND, &[(8, 2)]), 0), Err(22));
    assert_eq!(convert_into(&SECOND, 0), Err(20));
}

#[test]
fn numbers_of_the_header_come_before_22() {
    // Every one of them beside a weight of 2.
    let uneven = with(&SECOND, &[(8, 2)]);
    assert_eq!(number(&filled(&uneven, 32_769)), 1);
    assert_eq!(number(&filled(&uneven, 32_768)), 22);
    assert_eq!(number(&with(&uneven, &[(1, 17)])), 3);
    assert_eq!(number(&uneven[..11]), 2);
    assert_eq!(number(&with(&uneven, &[(11, 0)])), 21);
    assert_eq!(number(&with(&uneven, &[(2, 4)])), 4);
    assert_eq!(number(&with(&uneven, &[(4, 2)])), 4);
    // Where one site weighs 3 the quorums do not meet any more.
    assert_eq!(number(&with(&SECOND, &[(9, 3)])), 4);
    assert_eq!(number(&with(&uneven, &[(6, 16)])), 5);
}

#[test]
fn lengths_of_lists() {
    for (n, forward) in [(3, 32_762), (4, 32_761), (16, 32_749)] {
        let first = [n, n - 1, n - 1, 0, 0];
        let longest = filled(&first, forward);
        let made = converted(&longest).unwrap();
        assert_eq!(made.len(), 32_768);
        assert!(converted(&made).as_deref() == Ok(&longest[..]));
        assert_eq!(number(&filled(&made, 32_769)), 1);
        for size in [forward + 1, 32_767, 32_768, 32_769, 1_000_000] {
            assert_eq!(number(&filled(&first, size)), 1, "{size} bytes");
        }
    }
}

#[test]
fn room_for_the_list() {
    for (list, size) in [(&M3_LIST[..], 32), (&M3_SECOND, 26)] {
        assert!((0..size).all(|room| convert_into(list, room) == Err(20)));
        let is_whole = |room| convert_into(list, room).is_ok_and(|made| made.len() == size);
        assert!([size, size + 1, 100, 5_000].into_iter().all(is_whole));
    }
}

/// The lists that are generated: short ones, long ones, and some that are about as long
/// as can be.
fn lists() -> impl Iterator<Item = Vec<u8>> {
    let mut short = Generator::up_to(SEED, 160);
    let mut long = Generator::long(SEED + 1);
    let mut longest = Generator::new(SEED + 2);
    let short = (0..6_000).map(move |_| short.next_to_convert());
    let long = (0..100).map(move |_| long.next_to_convert());
    let longest = (0..100).map(move |_| longest.next_long_to_convert());
    short.chain(long).chain(longest)
}

#[test]
fn the_generated_lists_meet_every_number() {
    let numbers = |edition: Edition| -> BTreeSet<u8> {
        let lists = lists().filter(|list| Edition::of(list) == edition);
        lists.map(|list| number(&list)).collect()
    };
    let forward = BTreeSet::from([0, 1, 2, 3, 4, 5]);
    assert_eq!(numbers(Edition::First), forward);
    let back = BTreeSet::from([0, 1, 2, 3, 4, 5, 21, 22]);
    assert_eq!(numbers(Edition::Second), back);
}

#[test]
fn a_list_that_cannot_go_back_is_played() {
    let uneven = with(&SECOND, &[(8, 2)]);
    assert_eq!(number(&uneven), 22);
    assert_eq!(played(&uneven, STORE_BYTES).0.number, 0);
    assert!(!number::is_of_header(number::UNEVEN));
}

#[test]
fn forth_and_back_gives_the_first_bytes() {
    let mut counts = [0; 2];
    for list in lists() {
        let Ok(made) = converted(&list) else {
            continue;
        };
        let (edition, other) = (Edition::of(&list), Edition::of(&made));
        assert_eq!(other, edition.other());
        assert!(convert_into(&made, list.len()).as_deref() == Ok(&list[..]));
        counts[usize::from(edition == Edition::Second)] += 1;
    }
    println!("{counts:?} of each edition");
    assert!(counts.iter().all(|&count| count > 1_000));
}

#[test]
fn a_list_goes_back_exactly_if_all_weights_are_one() {
    let mut counts = [0; 2];
    for list in lists().filter(|list| Edition::of(list) == Edition::Second) {
        let number = converted(&list).err().unwrap_or(0);
        let Ok(header) = Header::of_list(&list) else {
            assert_eq!(Header::of_list(&list), Err(number));
            continue;
        };
        let is_even = list[WEIGHTS_AT..header.end]
            .iter()
            .all(|&weight| weight == 1);
        assert_eq!(number, if is_even { 0 } else { number::UNEVEN });
        counts[usize::from(is_even)] += 1;
    }
    println!("{counts:?} uneven and even");
    assert!(counts.iter().all(|&count| count > 400));
}

/// What comes of a list on a store of this size, and the store.
fn played(list: &[u8], size: usize) -> (Played, Vec<u8>) {
    let mut store = vec![FILL; size];
    let played = play_list(&mut store, list);
    (played, store)
}

/// Both lists lead to the same world, store, events and number; the places are n + 3
/// apart, as far as the first commands are.
fn assert_played_alike(list: &[u8], made: &[u8]) -> Played {
    let [one, other] = [list, made].map(|list| played(list, STORE_BYTES));
    let far = one.0.world.sizes.n + 3;
    let place = match Edition::of(list) {
        Edition::First => one.0.place + far,
        Edition::Second => one.0.place - far,
    };
    assert_eq!(other.0, Played { place, ..one.0 });
    assert!(one.1 == other.1);
    one.0
}

#[test]
fn both_lists_are_played_alike() {
    let (mut events, mut numbers) = (0, BTreeSet::new());
    for list in lists() {
        if let Ok(made) = converted(&list) {
            let played = assert_played_alike(&list, &made);
            events += played.events;
            numbers.insert(played.number);
        }
    }
    println!("{events} events, numbers {numbers:?}");
    assert!(events > 50_000);
    // A played list has no bad rows.
    assert_eq!(numbers, BTreeSet::from([0, 6, 7, 8, 9, 11, 12, 13, 14, 15]));
}

#[test]
fn places_are_shifted_by_the_difference_of_the_headers() {
    for (number, tail, place) in [
        (0, &[1, 3, 0][..], 3),
        (6, &[1, 9], 1),
        (7, &[1, 2, 0], 1),
        (8, &[3, 4], 0),
        (12, &[4, 1, 3, 1], 2),
        (14, &[1, 1], 1),
    ] {
        let lists = [[&FIRST, tail].concat(), [&SECOND, tail].concat()];
        let [one, other] = lists.map(|list| played(&list, STORE_BYTES).0);
        assert_eq!((one.number, one.place), (number, 5 + place));
        assert_eq!((other.number, other.place), (number, 12 + place));
    }
}

#[test]
fn a_store_that_is_too_short_has_no_place() {
    for list in [&M3_LIST[..], &M3_SECOND] {
        let (played, store) = played(list, STORE_BYTES - 1);
        let nothing = Played {
            number: 16,
            world: World::ZEROS,
            events: 0,
            place: 0,
        };
        assert_eq!(played, nothing);
        assert!(store.iter().all(|&byte| byte == FILL));
    }
}

#[test]
fn the_result_as_c_has_it() {
    assert_eq!(answer(Model::convert, &M3_LIST, 32), (0, result(32, 26)));
    assert_eq!(answer(Model::convert, &M3_SECOND, 99), (0, result(26, 32)));
    let longest = filled(&[3, 2, 2, 7, 0], 32_762);
    assert_eq!(
        answer(Model::convert, &longest, 32_768),
        (0, result(32_768, 32_762))
    );
    for (number, list, room) in [
        (1, &filled(&FIRST, 32_768)[..], 40_000),
        (2, &[130], 99),
        (21, &with(&SECOND, &[(8, 0)]), 99),
        (22, &with(&SECOND, &[(8, 2)]), 99),
        (20, &M3_LIST, 31),
        (20, &M3_SECOND, 25),
    ] {
        assert_eq!(answer(Model::convert, list, room), (number, result(0, 0)));
    }
}

#[test]
fn a_result_of_another_length_is_17_before_all() {
    for list in [&M3_LIST[..], &M3_SECOND, &[], &[9; 40_000]] {
        for size in [0, 1, 8, 15, 17, 32] {
            let (mut buffer, mut result) = ([FILL; 100], vec![FILL; size]);
            assert_eq!(Model.convert(list, &mut buffer, &mut result), 17);
            assert_eq!(buffer, [FILL; 100]);
            assert_eq!(result, vec![FILL; size]);
        }
    }
}

#[test]
fn all_of_the_answer_is_given() {
    let mut buffer = [FILL; 6];
    let answer = convert(&SECOND, &mut buffer);
    let due = Output {
        number: number::NONE,
        length: 5,
        place: 12,
    };
    assert_eq!(answer, due);
    assert_eq!(buffer, [4, 3, 3, 15, 0, FILL]);
}
