//! The quiet day of document 02, request (v): its list, what it costs and what it
//! leaves, for every number of sites and all legal quorums.

mod common;

use model::calls::{Calls, Model, LINES_RESULT_BYTES};
use model::play::{play_command, play_list_by};
use model::quiet::{self, Asked};
use model::row::{ROW_BYTES, STORE_BYTES};
use model::sizes::everyone;
use model::World;
use model::{Command, Header, Kind, Log, Played, Replies, Role, Row, Side, Site, Sizes};

use common::quiet::{cost, far_quorums, quorums, Account, SITES, THREE, THREE_AT_ONCE};
use common::{group, vector};

const FILL: u8 = 0xee;

/// A day as it was played.
struct Day {
    played: Played,
    store: Vec<u8>,
    account: Account,
}

/// Plays a quiet day with an eye on it.
fn day(asked: Asked, replies: Replies) -> Day {
    let list = quiet::list(asked, replies);
    let mut store = vec![FILL; STORE_BYTES];
    let mut account = Account::open(list.len(), World::fresh(quiet::sizes(asked)));
    let played = play_list_by(&mut store, &list, Header::of_list, |world, store, ask| {
        let (command, _) = Command::read(ask)?;
        let next = play_command(world, store, ask)?;
        account.add(command, world);
        Ok(next)
    });
    Day {
        played,
        store,
        account,
    }
}

/// Every day that there is: 560, since n sites have (n - 1)(n - 2) / 2 legal pairs.
fn all_days() -> impl Iterator<Item = Asked> {
    SITES.flat_map(quorums)
}

/// Codes of n sites: site 0's, another's, and those of the rest.
fn codes(n: usize, first: u8, (site, own): (usize, u8), rest: u8) -> Vec<u8> {
    let mut codes = vec![rest; n];
    codes[0] = first;
    codes[site] = own;
    codes
}

#[test]
fn the_list_of_three_sites() {
    assert_eq!(quiet::list([3, 2, 2], Replies::Last), THREE);
    assert_eq!(quiet::list([3, 2, 2], Replies::AtOnce), THREE_AT_ONCE);
}

/// Row 0 to sites 1 to 15, rows 1 to 15 to site 0; 16 and 32 begin the other rounds.
#[test]
fn the_list_of_sixteen_sites() {
    let list = quiet::list([16, 2, 15], Replies::Last);
    assert_eq!(list.len(), 370);
    assert_eq!(list[..10], [16, 2, 15, 255, 255, 1, 2, 0, 0, 1]);
    assert_eq!(list[62..74], [2, 0, 0, 15, 2, 1, 0, 0, 2, 2, 0, 0]);
    assert_eq!(list[122..132], [2, 15, 0, 0, 3, 0, 2, 16, 0, 1]);
    assert_eq!(list[244..254], [2, 31, 0, 0, 3, 0, 2, 32, 0, 1]);
    assert_eq!(list[366..], [2, 47, 0, 0]);
}

#[test]
fn a_quiet_day_costs_what_the_request_says() {
    for asked in all_days() {
        assert_cost(asked, Replies::Last);
        assert_cost(asked, Replies::AtOnce);
    }
    assert_eq!(all_days().count(), 560);
}

fn assert_cost(asked: Asked, replies: Replies) {
    let [n, ..] = asked;
    let day = day(asked, replies);
    let ended = (day.played.number, day.played.events, day.played.place);
    assert_eq!(ended, (0, cost(n).events, cost(n).bytes), "{asked:?}");
    assert_eq!(day.account.check(n), Ok(()), "{asked:?}, {replies:?}");
}

#[test]
fn both_orders_leave_the_same() {
    for asked in all_days() {
        let [last, at_once] = Replies::BOTH.map(|replies| day(asked, replies));
        assert_eq!(last.played, at_once.played, "{asked:?}");
        assert_eq!(last.store, at_once.store, "{asked:?}");
    }
}

/// Site 0 has heard of everyone's commit. The others have heard of its own, and of
/// what the rest were when site 0 committed; and when they joined, of what the rest
/// were when site 0 joined.
#[test]
fn the_world_that_a_quiet_day_leaves() {
    for asked in all_days() {
        let n = asked[0];
        let mut world = World::fresh(Sizes::new(n, asked[1], asked[2], everyone(n)));
        (world.row_count, world.news) = (cost(n).rows, cost(n).news);
        for site in 0..n {
            let known = codes(n, 4, (site, 4), if site == 0 { 4 } else { 2 });
            world.sites[site] = committed(&codes(n, 2, (site, 2), 1), &known);
        }
        world.sites[0].role = Role::Coordinator;
        assert_eq!(day(asked, Replies::Last).played.world, world);
    }
}

/// A site that has joined with these codes, and committed, and knows those.
fn committed(joined: &[u8], known: &[u8]) -> Site {
    let log = Log {
        prepare: true,
        group: group(Side::Commit, joined),
        outcome: Some(Side::Commit),
    };
    Site {
        log,
        vector: vector(known),
        ..Site::FRESH
    }
}

/// Each round's command and replies, with the codes of site 0 and of the rest in it.
/// Of the rest a vote says nothing: its sender has heard of site 0 alone.
const ROUNDS: [(Kind, Kind, u8, u8); 3] = [
    (Kind::Prepare, Kind::Vote, 1, 0),
    (Kind::Join(Side::Commit), Kind::InGroup, 2, 1),
    (Kind::Outcome, Kind::Ack, 4, 2),
];

#[test]
fn the_rows_of_a_quiet_day() {
    for asked in all_days() {
        let n = asked[0];
        let rows = ROUNDS.map(|round| rows_of_round(n, round)).concat();
        let day = day(asked, Replies::Last);
        let (sent, beyond) = day.store.split_at(3 * n * ROW_BYTES);
        assert_eq!(sent, rows.concat());
        assert!(beyond.iter().all(|&byte| byte == FILL));
    }
}

/// The rows of a round, by the number of their sender.
fn rows_of_round(n: usize, (command, reply, code, rest): (Kind, Kind, u8, u8)) -> Vec<Vec<u8>> {
    let row = |sender: usize| Row {
        kind: if sender == 0 { command } else { reply },
        sender,
        to: if sender == 0 { everyone(n) - 1 } else { 1 },
        vector: vector(&codes(n, code, (sender, code), rest)),
    };
    (0..n).map(|sender| row(sender).bytes().to_vec()).collect()
}

#[test]
fn quorums_far_apart() {
    assert_eq!(far_quorums(3), [[3, 2, 2]]);
    assert_eq!(far_quorums(4), [[4, 2, 3], [4, 3, 2], [4, 3, 3]]);
    assert_eq!(far_quorums(5), [[5, 2, 4], [5, 3, 3], [5, 4, 2], [5, 4, 4]]);
    let all: Vec<Asked> = all_days().collect();
    let far: Vec<Asked> = SITES.flat_map(far_quorums).collect();
    assert_eq!(far.len(), 1 + 3 + 12 * 4);
    assert!(far.iter().all(|asked| all.contains(asked)));
}

/// The number, the buffer and the result of a call with so much room.
fn write(asked: Asked, room: usize) -> (u32, Vec<u8>, Vec<u8>) {
    write_with(asked, room, LINES_RESULT_BYTES)
}

fn write_with(asked: Asked, room: usize, result: usize) -> (u32, Vec<u8>, Vec<u8>) {
    let (mut buffer, mut result) = (vec![FILL; room], vec![FILL; result]);
    let number = Model.write_quiet(asked, &mut buffer, &mut result);
    (number, buffer, result)
}

/// A result with a length of less than 256, and place 0.
fn result(length: u8) -> Vec<u8> {
    let mut result = vec![0; 16];
    result[0] = length;
    result
}

#[test]
fn room_for_the_list() {
    for room in 0..58 {
        let untouched = vec![FILL; room];
        assert_eq!(write([3, 2, 2], room), (20, untouched, result(0)));
    }
    for more in [0, 1, 2, 342] {
        let buffer = [&THREE[..], &vec![FILL; more]].concat();
        assert_eq!(write([3, 2, 2], 58 + more), (0, buffer, result(58)));
    }
}

#[test]
fn all_eight_bytes_of_the_length_are_written() {
    let (number, _, result) = write([16, 15, 15], 370);
    // 370 is 1 72 in hex.
    assert_eq!(number, 0);
    assert_eq!(result, [0x72, 1, 0, 0, 0, 0, 0, 0, 0, 0, 0, 0, 0, 0, 0, 0]);
}

/// A number, and sizes that are refused with it, whatever the room is.
const REFUSED: [(u32, Asked); 16] = [
    (3, [0, 0, 0]),
    (3, [2, 1, 2]),
    (3, [2, 9, 9]),
    (3, [17, 9, 9]),
    (3, [256 + 3, 2, 2]),
    (3, [65_536 + 3, 2, 2]),
    (3, [usize::MAX, 2, 2]),
    (4, [3, 3, 2]),
    (4, [3, 2, 3]),
    (4, [4, 2, 2]),
    (4, [16, 16, 2]),
    (4, [16, 1, 15]),
    (4, [3, 256 + 2, 2]),
    (4, [3, 2, 256 + 2]),
    (4, [3, usize::MAX, 5]),
    (4, [16, usize::MAX, usize::MAX]),
];

#[test]
fn sizes_are_refused_before_the_room() {
    for (number, asked) in REFUSED {
        for room in [0, 57, 400] {
            let untouched = vec![FILL; room];
            assert_eq!(write(asked, room), (number, untouched, result(0)));
        }
    }
}

#[test]
fn a_result_of_another_length_is_17_before_all() {
    for asked in [[3, 2, 2], [2, 2, 2], [3, 3, 3]] {
        for (room, size) in [(0, 0), (400, 8), (58, 15), (57, 17), (400, 32)] {
            let untouched = (17, vec![FILL; room], vec![FILL; size]);
            assert_eq!(write_with(asked, room, size), untouched);
        }
    }
}
