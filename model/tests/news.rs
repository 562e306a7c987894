//! The news: what a delivery adds to it, what does not, and its limit.

mod common;

use model::calls::{Calls, Model, RESULT_BYTES};
use model::layout::{decode, encode};
use model::row::STORE_BYTES;
use model::world::{MAX_NEWS, MAX_ROWS};
use model::{number, one_command, play_list, Ask, Command, Kind, Log, Side, World};

use common::{all_willing, prepared, row_to_all, three, three_sites, world_with};
use Command::{Crash, Recover, Start, Timeout};

/// Four sites; site 1 is prepared and holds these codes. One row is sent, to all.
fn told(held: [u8; 4], kind: Kind, codes: [u8; 4]) -> (World, Vec<u8>) {
    let mut store = vec![0; STORE_BYTES];
    let row = row_to_all(kind, 0, &codes);
    let site = (1, prepared(&held));
    let world = world_with(all_willing(4), site, Some(&row), &mut store);
    (world, store)
}

/// The answer to a command, and the news after it. A refusal changes nothing.
fn after(world: &World, store: &[u8], command: Command) -> (Result<usize, u8>, usize) {
    let (mut next, mut lent) = (*world, store.to_vec());
    let list = command.bytes();
    let answer = one_command(&mut next, &mut lent, Ask::new(&list, 0));
    if answer.is_err() {
        assert_eq!((next, &lent[..]), (*world, store));
    }
    (answer, next.news)
}

/// The same for the row at site 1.
fn delivered(world: &World, store: &[u8]) -> (Result<usize, u8>, usize) {
    after(world, store, Command::deliver(0, 1))
}

#[test]
fn entries_that_rise_are_counted() {
    for (held, codes, news) in [
        // Nothing is told, or nothing new.
        ([0, 1, 0, 0], [0, 0, 0, 0], 0),
        ([1, 1, 2, 3], [1, 1, 2, 3], 0),
        // From each level to each higher one.
        ([0, 1, 0, 0], [1, 0, 0, 0], 1),
        ([0, 1, 0, 0], [2, 0, 3, 0], 2),
        ([0, 1, 0, 0], [4, 0, 4, 4], 3),
        ([1, 1, 1, 1], [2, 1, 3, 1], 2),
        ([1, 1, 1, 1], [5, 1, 1, 5], 2),
        ([2, 1, 3, 2], [4, 1, 4, 4], 3),
        ([2, 1, 3, 3], [5, 1, 5, 5], 3),
        // The same level, by the same code or by another one.
        ([2, 1, 3, 1], [3, 1, 2, 1], 0),
        ([2, 1, 3, 0], [3, 1, 2, 1], 1),
        // Lower levels.
        ([2, 1, 3, 1], [1, 0, 0, 0], 0),
        ([2, 1, 3, 0], [0, 0, 1, 3], 1),
    ] {
        assert_brings(news, held, codes);
    }
}

/// Rows with these codes bring so much news, beside what there is already.
fn assert_brings(news: usize, held: [u8; 4], codes: [u8; 4]) {
    for kind in [Kind::Vote, Kind::Prepare, Kind::Outcome] {
        let (world, store) = told(held, kind, codes);
        let found = delivered(&world, &store);
        assert_eq!(found, (Ok(4), news), "{codes:?} told, {held:?} held");
        let before = World { news: 70, ..world };
        assert_eq!(delivered(&before, &store).1, 70 + news);
    }
}

#[test]
fn the_own_entry_is_no_news() {
    for (kind, codes, news) in [
        // The row tells more of site 1 than it is.
        (Kind::InGroup, [0, 5, 0, 0], 0),
        (Kind::InGroup, [0, 2, 0, 0], 0),
        (Kind::InGroup, [1, 3, 0, 1], 2),
        // Site 1 joins a group, and aborts: its own entry changes.
        (Kind::Join(Side::Abort), [0, 0, 0, 0], 0),
        (Kind::Join(Side::Commit), [2, 0, 0, 0], 1),
        (Kind::Outcome, [5, 0, 0, 0], 1),
    ] {
        let (world, store) = told([0, 1, 0, 0], kind, codes);
        assert_eq!(delivered(&world, &store), (Ok(4), news));
    }
}

#[test]
fn codes_from_n_up_are_no_news() {
    let (world, mut store) = told([0, 1, 0, 0], Kind::Vote, [1, 0, 0, 0]);
    store[4 + 4..4 + 16].fill(5);
    assert_eq!(delivered(&world, &store), (Ok(4), 1));
}

#[test]
fn what_a_crash_lost_is_news_again() {
    let twice = [Start, Command::deliver(0, 1), Command::deliver(0, 1)];
    let crash = [
        Start,
        Command::deliver(0, 1),
        Crash(1),
        Recover(1),
        Command::deliver(0, 1),
    ];
    let mut store = vec![0; STORE_BYTES];
    assert_eq!(play_list(&mut store, &three(7, &twice)).world.news, 1);
    assert_eq!(play_list(&mut store, &three(7, &crash)).world.news, 2);
}

#[test]
fn a_delivery_reaches_the_limit_and_does_not_pass_it() {
    let (mut world, store) = told([0, 1, 0, 0], Kind::Join(Side::Abort), [3, 1, 1, 0]);
    for (news, wanted) in [
        (MAX_NEWS - 3, (Ok(4), MAX_NEWS - 1)),
        (MAX_NEWS - 2, (Ok(4), MAX_NEWS)),
        (MAX_NEWS - 1, (Err(number::WORLD), MAX_NEWS - 1)),
        (MAX_NEWS, (Err(number::WORLD), MAX_NEWS)),
        (MAX_NEWS + 1, (Err(number::WORLD), MAX_NEWS + 1)),
    ] {
        world.news = news;
        assert_eq!(delivered(&world, &store), wanted);
    }
    let (mut world, store) = told([3, 1, 1, 0], Kind::Prepare, [2, 5, 0, 0]);
    world.news = MAX_NEWS;
    assert_eq!(delivered(&world, &store), (Ok(4), MAX_NEWS));
}

#[test]
fn other_commands_bring_no_news() {
    for news in [0, 5, MAX_NEWS] {
        assert_others_keep(news);
    }
}

/// Commands other than DELIVER leave this news as it is.
fn assert_others_keep(news: usize) {
    let (mut world, store) = told([1, 1, 2, 0], Kind::Vote, [0; 4]);
    world.news = news;
    world.sites[2].up = false;
    for (command, size) in [
        (Start, 1),
        (Timeout(0), 2),
        (Timeout(1), 2),
        (Crash(1), 2),
        (Recover(2), 2),
    ] {
        assert_eq!(after(&world, &store, command), (Ok(size), news));
    }
}

#[test]
fn the_limit_is_asked_last() {
    let (mut world, mut store) = told([0, 1, 0, 0], Kind::Prepare, [1, 0, 0, 0]);
    world.news = MAX_NEWS;
    assert_eq!(delivered(&world, &store).0, Err(number::WORLD));
    world.row_count = MAX_ROWS;
    assert_eq!(delivered(&world, &store).0, Err(number::FULL));
    world.sites[1].up = false;
    assert_eq!(delivered(&world, &store).0, Err(number::DOWN));
    store[2] = 0b1101;
    assert_eq!(delivered(&world, &store).0, Err(number::NOT_SENT));
    store[0] = 8;
    assert_eq!(delivered(&world, &store).0, Err(number::BAD_ROW));
    world.row_count = 0;
    assert_eq!(delivered(&world, &store).0, Err(number::ROW));
    world.news = MAX_NEWS + 1;
    assert_eq!(delivered(&world, &store).0, Err(number::WORLD));
}

#[test]
fn a_list_stopped_at_a_delivery_keeps_the_news_before_it() {
    let mut full = common::rows_of_site_0(1024);
    full.push(Command::deliver(0, 1));
    let down = [Start, Crash(1), Command::deliver(0, 1)];
    // Row 1 is the vote of site 2, for site 0.
    let astray = [Start, Command::deliver(0, 2), Command::deliver(1, 1)];
    let mut store = vec![0; STORE_BYTES];
    for (commands, number, news) in [
        (&full[..], number::FULL, 0),
        (&down, number::DOWN, 0),
        (&astray, number::NOT_SENT, 1),
    ] {
        let played = play_list(&mut store, &three(7, commands));
        assert_eq!((played.number, played.world.news), (number, news));
    }
}

#[test]
fn the_news_lie_in_the_head_byte_by_byte() {
    let fresh = World::fresh(three_sites(7));
    for (news, wanted) in [
        (0, [0; 4]),
        (5, [5, 0, 0, 0]),
        (256, [0, 1, 0, 0]),
        (0x01_0203, [3, 2, 1, 0]),
        (MAX_NEWS, [0, 0x80, 7, 0]),
        (0x8765_4321, [0x21, 0x43, 0x65, 0x87]),
        (u32::MAX as usize, [255; 4]),
        (usize::MAX, [255; 4]),
    ] {
        let bytes = encode(&World { news, ..fresh });
        assert_eq!(bytes[..10], [3, 3, 2, 0, 2, 0, 7, 0, 0, 0]);
        assert_eq!(bytes[10..14], wanted);
        assert_eq!(bytes[14..16], [0, 0]);
        let news = news.min(u32::MAX as usize);
        assert_eq!(decode(&bytes), Ok(World { news, ..fresh }));
    }
}

#[test]
fn the_head_outside_the_layout() {
    let mut bytes = encode(&World::fresh(three_sites(7)));
    for (at, byte) in [(0, 0), (0, 2), (0, 4), (14, 1), (15, 1), (14, 255)] {
        let kept = std::mem::replace(&mut bytes[at], byte);
        assert_eq!(decode(&bytes), Err(number::WORLD));
        bytes[at] = kept;
    }
    assert!(decode(&bytes).is_ok());
}

#[test]
fn a_command_on_bytes_writes_the_news() {
    let (mut world, mut store) = told([0, 1, 0, 0], Kind::Ack, [4, 0, 4, 0]);
    world.news = 65_534;
    let mut bytes = encode(&world);
    let list = Command::deliver(0, 1).bytes();
    let mut result = [0; RESULT_BYTES];
    let number = Model.play_command(&mut bytes, &mut store, Ask::new(&list, 0), &mut result);
    assert_eq!((number, result), (0, [4, 0, 0, 0, 0, 0, 0, 0]));
    assert_eq!(bytes[10..16], [0, 0, 1, 0, 0, 0]);
    let next = decode(&bytes).unwrap();
    assert_eq!(next.sites[1].log.outcome, Some(Side::Commit));
    assert_eq!(next.sites[0].log, Log::EMPTY);
}
