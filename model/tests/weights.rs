//! Clubs of different weight, document 02, request (vi): the second edition of a
//! list, its numbers and their order, and quorums that are weighed.

mod common;

use model::command::list_in;
use model::layout::{decode, encode, HEAD_BYTES, SITES_AT, WEIGHTS, WORLD_BYTES};
use model::row::STORE_BYTES;
use model::{number, one_command, play_list, printed, read_lines, write_lines};
use model::{Ask, Command, Edition, Played, Role, Side, Site, Sizes, State, World};

use common::{group, numbers_of, vector, weighted};

use Command::{Start, Timeout};

/// Three sites of 1, 2 and 2 with quorums of 3, all willing: 5 in all, 3 without the
/// heaviest.
const GOOD: [u8; 11] = [130, 3, 3, 0, 3, 0, 7, 0, 1, 2, 2];

/// The list with some bytes changed.
fn with(list: &[u8], changes: &[(usize, u8)]) -> Vec<u8> {
    let mut list = list.to_vec();
    changes.iter().for_each(|&(at, byte)| list[at] = byte);
    list
}

fn played(list: &[u8]) -> Played {
    play_list(&mut vec![0; STORE_BYTES], list)
}

/// The number, after seeing that a refusal is one of a header.
fn opened(list: &[u8]) -> u8 {
    let mut store = vec![9; STORE_BYTES];
    let played = play_list(&mut store, list);
    if played.number != 0 {
        assert_eq!(played.world, World::ZEROS);
        assert_eq!((played.events, played.place), (0, 0));
        assert_eq!(printed(list), format!("refused {} at 0\n", played.number));
    }
    assert!(store.iter().all(|&byte| byte == 9));
    played.number
}

/// The header of sites of these weights and quorums.
fn header(weights: &[u8], commit: usize, abort: usize) -> Vec<u8> {
    Edition::Second.header(&weighted(weights, commit, abort))
}

#[test]
fn a_header_byte_by_byte() {
    let played = played(&GOOD);
    assert_eq!((played.number, played.events, played.place), (0, 0, 11));
    let sizes = weighted(&[1, 2, 2], 3, 3);
    assert_eq!(played.world, World::fresh(sizes));
    assert_eq!(Edition::Second.header(&sizes), GOOD);
    let mut weights = [0; 16];
    weights[..3].copy_from_slice(&[1, 2, 2]);
    assert_eq!(played.world.sizes.weights, weights);
    let text = "sites 3 commit 3 abort 3 events 0 rows 0 news 0\n\
                0 up subordinate active --- 000\n\
                1 up subordinate active --- 000\n\
                2 up subordinate active --- 000\n\
                end 11\n";
    assert_eq!(printed(&GOOD), text);
}

#[test]
fn the_most_that_a_header_says() {
    let list = header(&[255; 16], 3825, 3825);
    assert_eq!(list[..8], [130, 16, 0xf1, 0x0e, 0xf1, 0x0e, 0xff, 0xff]);
    assert_eq!(list.len(), 24);
    let played = played(&list);
    assert_eq!((played.number, played.place), (0, 24));
    assert_eq!(played.world.sizes.weight(), 4080);
    let first = "sites 16 commit 3825 abort 3825 events 0 rows 0 news 0";
    assert_eq!(printed(&list).lines().next(), Some(first));
}

#[test]
fn a_weight_of_nothing() {
    for site in 0..3 {
        assert_eq!(opened(&with(&GOOD, &[(8 + site, 0)])), 21);
    }
    // After 2, before 4 and 5; 1 before them all.
    assert_eq!(opened(&with(&GOOD, &[(8, 0), (2, 9)])), 21);
    assert_eq!(opened(&with(&GOOD, &[(8, 0), (6, 255)])), 21);
    assert_eq!(opened(&with(&GOOD, &[(8, 0)])[..10]), 2);
    assert_eq!(opened(&with(&GOOD, &[(8, 0), (1, 2)])), 3);
    let mut long = with(&GOOD, &[(8, 0)]);
    long.resize(32_769, 1);
    assert_eq!(opened(&long), 1);
    long.pop();
    assert_eq!(opened(&long), 21);
}

#[test]
fn weights_from_one_to_the_most() {
    assert_eq!(opened(&header(&[1, 1, 1], 2, 2)), 0);
    assert_eq!(opened(&header(&[255, 255, 255], 510, 256)), 0);
    assert_eq!(opened(&header(&[255, 254, 2], 256, 256)), 0);
    assert_eq!(opened(&header(&[255, 254, 1], 256, 256)), 4);
    // Where one site outweighs the others there is no quorum without it.
    assert_eq!(opened(&header(&[255, 1, 1], 2, 256)), 4);
    assert_eq!(opened(&header(&[255, 1, 1], 256, 256)), 4);
    assert_eq!(opened(&header(&[255, 1, 1], 2, 2)), 4);
}

#[test]
fn quorums_at_their_bounds() {
    for (weights, most) in [
        (&[1, 2, 2][..], 3),
        (&[3, 1, 1, 1, 1], 4),
        (&[255; 16], 3825),
        (&[200, 150, 100], 250),
    ] {
        let all: usize = weights.iter().map(|&weight| usize::from(weight)).sum();
        assert_eq!(opened(&header(weights, most, most)), 0, "{weights:?}");
        assert_eq!(opened(&header(weights, most + 1, most)), 4, "{weights:?}");
        assert_eq!(opened(&header(weights, most, most + 1)), 4, "{weights:?}");
        let least = all + 1 - most;
        assert_eq!(opened(&header(weights, most, least)), 0, "{weights:?}");
        assert_eq!(opened(&header(weights, least, most)), 0, "{weights:?}");
        assert_eq!(opened(&header(weights, most, least - 1)), 4, "{weights:?}");
        assert_eq!(opened(&header(weights, least - 1, most)), 4, "{weights:?}");
    }
}

#[test]
fn both_bytes_of_a_quorum_count() {
    // 765 in all: 254 and 510 do not meet, and 766 is too large.
    let large = header(&[255, 255, 255], 510, 510);
    assert_eq!(opened(&large), 0);
    for at in [3, 5] {
        assert_eq!(opened(&with(&GOOD, &[(at, 1)])), 4);
        assert_eq!(opened(&with(&GOOD, &[(at, 128)])), 4);
        assert_eq!(opened(&with(&large, &[(at, 0)])), 4);
        assert_eq!(opened(&with(&large, &[(at, 2)])), 4);
    }
}

#[test]
fn numbers_of_sites_in_the_second_edition() {
    for (n, number) in [(0, 3), (2, 3), (17, 3), (130, 3), (255, 3)] {
        assert_eq!(opened(&with(&GOOD, &[(1, n)])), number);
        // 3 comes before the 2 of a header that is cut.
        assert_eq!(opened(&with(&GOOD, &[(1, n)])[..5]), number);
        assert_eq!(opened(&[130, n, 0, 0]), 2);
    }
    assert_eq!(opened(&header(&[1; 16], 9, 8)), 0);
    assert_eq!(opened(&header(&[1; 3], 2, 2)), 0);
}

#[test]
fn a_header_that_is_cut() {
    assert_cut(&GOOD);
    assert_cut(&header(&[255; 16], 3825, 3825));
    // 2 comes before 4 and 5 too.
    assert_eq!(opened(&with(&GOOD, &[(2, 9), (6, 255)])[..10]), 2);
    // One site more, and the list has a byte too few.
    assert_eq!(opened(&with(&GOOD, &[(1, 4)])), 2);
}

/// Every first part of a header but the whole of it is too short.
fn assert_cut(header: &[u8]) {
    assert_eq!(opened(header), 0);
    for size in 0..header.len() {
        assert_eq!(opened(&header[..size]), 2, "{size} bytes");
    }
}

#[test]
fn willing_bits_come_last() {
    assert_eq!(opened(&with(&GOOD, &[(6, 8)])), 5);
    assert_eq!(opened(&with(&GOOD, &[(7, 128)])), 5);
    assert_eq!(opened(&with(&GOOD, &[(6, 8), (2, 4)])), 4);
    assert_eq!(opened(&with(&GOOD, &[(6, 8), (4, 2)])), 4);
}

#[test]
fn later_editions_are_an_n() {
    for first in [129, 131, 132] {
        assert_eq!(opened(&with(&GOOD, &[(0, first)])), 3);
        assert_eq!(opened(&[first, 3, 3, 0]), 2);
    }
}

#[test]
fn a_text_has_no_second_edition() {
    let mut buffer = [0; 200];
    let output = write_lines(&GOOD, &mut buffer);
    assert_eq!((output.number, output.place), (3, 0));
    let output = write_lines(&with(&GOOD, &[(8, 0)])[..10], &mut buffer);
    assert_eq!((output.number, output.place), (3, 0));
    let text = b"sites 130 commit 3 abort 3 willing 7\n";
    let output = read_lines(text, &mut buffer);
    assert_eq!((output.number, output.place), (3, 0));
    assert_eq!(buffer, [0; 200]);
}

#[test]
fn both_editions_of_a_list_are_played_alike() {
    let commands = [Start, Command::deliver(0, 1), Timeout(0), Timeout(0)];
    let sizes = Sizes::new(3, 2, 2, 7);
    assert_eq!(sizes, weighted(&[1; 3], 2, 2));
    let [first, second] = [Edition::First, Edition::Second].map(|edition| {
        let mut store = vec![0; STORE_BYTES];
        let played = play_list(&mut store, &list_in(edition, sizes, &commands));
        (played, store)
    });
    assert_eq!((first.0.place, second.0.place), (5 + 9, 11 + 9));
    assert_eq!((first.0.world, first.0.events), (second.0.world, 4));
    assert_eq!(first.1, second.1);
}

#[test]
fn commands_begin_after_the_weights() {
    // The weights would be commands too: TIMEOUT 3, START.
    let list = [&header(&[3, 3, 1], 4, 4)[..], &[3, 9]].concat();
    let played = played(&list);
    assert_eq!((played.number, played.events, played.place), (8, 0, 11));
}

#[test]
fn the_maker_minds_the_weights() {
    let good = weighted(&[1, 2, 2], 3, 3);
    assert_eq!(World::fresh(good).sizes, good);
    for (site, weight) in [(0, 0), (2, 0), (3, 1), (15, 255)] {
        let mut sizes = good;
        sizes.weights[site] = weight;
        assert_eq!(World::fresh(sizes), World::ZEROS, "site {site}");
        let world = World {
            sizes,
            ..World::fresh(good)
        };
        assert_eq!(world.check(), Err(number::WORLD), "site {site}");
    }
    assert_eq!(World::ZEROS.sizes.weights, [0; 16]);
    let heavy = weighted(&[1, 2, 4], 3, 5);
    assert_eq!(World::fresh(heavy), World::ZEROS);
    let sixteen = weighted(&[255; 16], 3825, 256);
    assert_eq!(World::fresh(sixteen).check(), Ok(()));
}

/// The numbers of a command and of a report with a byte of a world's bytes changed.
fn numbers_with(at: usize, byte: u8) -> (u32, u32) {
    let mut world = encode(&World::fresh(weighted(&[1, 2, 2], 3, 3)));
    world[at] = byte;
    let before = world;
    let numbers = numbers_of(&mut world);
    assert_eq!(world[..SITES_AT], before[..SITES_AT]);
    numbers
}

#[test]
fn the_weights_of_a_world_handed_in() {
    let weight = |site: usize| HEAD_BYTES + site;
    assert_eq!((WEIGHTS, SITES_AT, WORLD_BYTES), (16..32, 32, 672));
    for (at, byte, number) in [
        (weight(0), 1, 0),
        (weight(0), 2, 17),
        (weight(0), 0, 17),
        (weight(1), 0, 17),
        (weight(2), 0, 17),
        (weight(1), 1, 17),
        (weight(2), 3, 17),
        (weight(3), 1, 17),
        (weight(15), 255, 17),
        (0, 2, 17),
    ] {
        assert_eq!(numbers_with(at, byte), (number, number), "byte {at}");
    }
}

#[test]
fn weights_cross_as_they_are() {
    let weights: Vec<u8> = (0..16).map(|site| 240 + site).collect();
    let world = World::fresh(weighted(&weights, 3000, 3000));
    assert_eq!(world.check(), Ok(()));
    let bytes = encode(&world);
    assert_eq!((bytes[0], bytes.len()), (3, 672));
    assert_eq!(bytes[2..6], [0xb8, 0x0b, 0xb8, 0x0b]);
    assert_eq!(bytes[16..32], weights);
    assert_eq!(decode(&bytes), Ok(world));
}

/// Site 1 leads in a group of this side, holds these codes, and times out.
fn timed_out(sizes: Sizes, side: Side, codes: &[u8]) -> Option<Side> {
    let mut world = World::fresh(sizes);
    let own = State::InGroup(side).code();
    assert_eq!(codes[1], own);
    world.sites[1] = Site {
        role: Role::Coordinator,
        vector: vector(codes),
        ..Site::FRESH
    };
    world.sites[1].log.group = group(side, &[0, own]);
    let mut store = vec![0; STORE_BYTES];
    let list = Timeout(1).bytes();
    one_command(&mut world, &mut store, Ask::new(&list, 0)).unwrap();
    // An outcome is sent where there is one, else the join again.
    let kind = match (world.sites[1].log.outcome, side) {
        (Some(_), _) => 6,
        (None, Side::Commit) => 3,
        (None, Side::Abort) => 4,
    };
    assert_eq!(store[0], kind);
    world.sites[1].log.outcome
}

#[test]
fn a_commit_quorum_is_weighed() {
    // 14 in all; commit takes 8, abort 7.
    let sizes = weighted(&[5, 4, 1, 1, 3], 8, 7);
    let ends = |codes: [u8; 5]| timed_out(sizes, Side::Commit, &codes) == Some(Side::Commit);
    // Two entries weigh 9, more than enough; four weigh 9 as well, three 6 or 8.
    assert!(ends([2, 2, 0, 0, 0]));
    assert!(ends([1, 2, 2, 2, 2]));
    assert!(!ends([0, 2, 2, 2, 1]));
    assert!(ends([3, 2, 2, 0, 2]));
    assert!(!ends([3, 2, 0, 0, 2]));
    // Entries that are not 2 weigh nothing, whatever they are.
    assert!(!ends([4, 2, 1, 0, 0]));
    assert!(!ends([3, 2, 3, 3, 5]));
}

#[test]
fn an_abort_quorum_is_weighed() {
    let sizes = weighted(&[5, 4, 1, 1, 3], 8, 7);
    let ends = |codes: [u8; 5]| timed_out(sizes, Side::Abort, &codes) == Some(Side::Abort);
    assert!(ends([3, 3, 0, 0, 0]));
    assert!(ends([0, 3, 0, 0, 3]));
    assert!(!ends([0, 3, 3, 3, 1]));
    assert!(!ends([2, 3, 3, 3, 2]));
    assert!(!ends([5, 3, 1, 0, 0]));
}

#[test]
fn large_weights_are_summed_whole() {
    let sizes = weighted(&[255; 16], 3825, 3825);
    let mut codes = [2; 16];
    codes[15] = 0;
    let commits = |codes: &[u8]| timed_out(sizes, Side::Commit, codes).is_some();
    assert!(commits(&codes));
    codes[14] = 3;
    assert!(!commits(&codes));
    assert!(commits(&[2; 16]));
}

#[test]
fn all_entries_prepared_are_counted_as_before() {
    // The light site is missing, and the group is the abort group all the same.
    for (codes, side) in [
        ([1, 1, 1, 1], Side::Commit),
        ([1, 1, 1, 0], Side::Abort),
        ([0, 1, 0, 2], Side::Commit),
    ] {
        let mut world = World::fresh(weighted(&[9, 9, 9, 1], 15, 14));
        world.sites[1] = Site {
            role: Role::Coordinator,
            ..common::prepared(&codes)
        };
        let mut store = vec![0; STORE_BYTES];
        let list = Timeout(1).bytes();
        one_command(&mut world, &mut store, Ask::new(&list, 0)).unwrap();
        assert_eq!(world.sites[1].log.group_side(), Some(side), "{codes:?}");
    }
}

#[test]
fn a_list_decides_by_weight() {
    // Sites 0 and 1 of five weigh 7 of 10, and commit takes 7.
    let sizes = weighted(&[3, 4, 1, 1, 1], 6, 5);
    let mut commands = vec![Start];
    commands.extend((1..5).map(|site| Command::deliver(0, site)));
    commands.extend((1..5).map(|row| Command::deliver(row, 0)));
    commands.extend([Timeout(0), Command::deliver(5, 1), Command::deliver(6, 0)]);
    let before = played(&list_in(Edition::Second, sizes, &commands));
    assert_eq!(before.world.sites[0].log.outcome, None);
    commands.push(Timeout(0));
    let after = played(&list_in(Edition::Second, sizes, &commands));
    assert_eq!(after.number, 0);
    assert_eq!(after.world.sites[0].log.outcome, Some(Side::Commit));
    // The same entries in a competition of equal weights are too few.
    let equal = played(&list_in(Edition::First, Sizes::new(5, 4, 3, 31), &commands));
    assert_eq!(equal.world.sites[0].log.outcome, None);
}
