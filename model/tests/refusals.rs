//! Each stop number, what it leaves alone, and which number comes first.

mod common;

use model::layout::{encode, CODES, GROUP_CODES, SITES_AT, SITE_BYTES};
use model::quiet;
use model::row::{Row, ROW_BYTES, STORE_BYTES};
use model::{number, one_command, play_list, printed, Ask, Command, Kind};
use model::{GroupRecord, Replies, Role, Side, Site, Sizes, State, Vector, World};

use common::{group, header, numbers_of, three_sites, vector};

/// One command at the start of a list.
fn play(world: &mut World, store: &mut [u8], list: &[u8]) -> Result<usize, u8> {
    one_command(world, store, Ask::new(list, 0))
}

/// A world of three after START, with its store.
fn started() -> (World, Vec<u8>) {
    let mut world = World::fresh(three_sites(7));
    let mut store = vec![0; STORE_BYTES];
    assert_eq!(play(&mut world, &mut store, &[1]), Ok(1));
    (world, store)
}

/// The refusal of a call, after seeing that it left all as it was.
fn refusal_at(world: &World, store: &[u8], ask: Ask) -> u8 {
    let (mut next, mut lent) = (*world, store.to_vec());
    let number = one_command(&mut next, &mut lent, ask).unwrap_err();
    assert_eq!(next, *world);
    assert_eq!(lent, store);
    number
}

fn refusal(world: &World, store: &[u8], list: &[u8]) -> u8 {
    refusal_at(world, store, Ask::new(list, 0))
}

fn deliver(row: usize, site: usize) -> Vec<u8> {
    Command::deliver(row, site).bytes()
}

#[test]
fn list_lengths() {
    let mut store = vec![9; STORE_BYTES];
    let mut list = quiet::list([3, 2, 2], Replies::Last);
    list.resize(32_769, 0);
    assert_eq!(play_list(&mut store, &list).number, number::LIST_LONG);
    assert_eq!(play_list(&mut store, &list[..4]).number, number::LIST_SHORT);
    assert_eq!(play_list(&mut store, &[]).number, number::LIST_SHORT);
    assert!(store.iter().all(|&byte| byte == 9));
    assert_eq!(printed(&list), "refused 1 at 0\n");
    list.pop();
    assert_eq!(play_list(&mut store, &list).number, number::COMMAND);
}

#[test]
fn a_refused_header_gives_the_world_of_zeros() {
    let mut short = vec![9; STORE_BYTES - 1];
    let mut store = vec![9; STORE_BYTES];
    let played = play_list(&mut short, &[0; 40_000]);
    assert_eq!((played.number, played.world), (16, World::ZEROS));
    for (list, number) in [
        ([2, 9, 9, 255, 255, 1], 3),
        ([17, 9, 9, 255, 255, 1], 3),
        ([3, 3, 2, 255, 255, 1], 4),
        ([3, 2, 3, 7, 0, 1], 4),
        ([3, 1, 2, 7, 0, 1], 4),
        ([5, 255, 4, 7, 0, 1], 4),
        ([3, 2, 2, 8, 0, 1], 5),
        ([3, 2, 2, 7, 128, 1], 5),
        ([15, 14, 2, 0, 128, 1], 5),
    ] {
        let played = play_list(&mut store, &list);
        assert_eq!(played.number, number);
        assert_eq!(played.world, World::ZEROS);
        assert_eq!((played.events, played.place), (0, 0));
        assert_eq!(printed(&list), format!("refused {number} at 0\n"));
    }
    assert!(short.iter().chain(&store).all(|&byte| byte == 9));
}

#[test]
fn the_maker_refuses_the_same_sizes() {
    assert_eq!(World::fresh(Sizes::new(2, 1, 1, 0)), World::ZEROS);
    assert_eq!(World::fresh(Sizes::new(17, 16, 16, 0)), World::ZEROS);
    assert_eq!(World::fresh(Sizes::new(4, 2, 2, 0)), World::ZEROS);
    assert_eq!(
        World::fresh(Sizes::new(3, usize::MAX, usize::MAX, 0)),
        World::ZEROS
    );
    assert_eq!(World::fresh(Sizes::new(3, 2, 2, 8)), World::ZEROS);
    let world = World::fresh(Sizes::new(4, 3, 2, 9));
    assert_eq!(world.sites[3], Site::FRESH);
    assert_eq!(world.sites[4], Site::IDLE);
    assert_eq!(world.check(), Ok(()));
    assert_eq!((world.news, World::ZEROS.news), (0, 0));
    assert_eq!(World::ZEROS.check(), Err(number::WORLD));
}

#[test]
fn command_bytes_and_operands() {
    let (world, store) = started();
    for (list, at) in [
        (&[][..], 0),
        (&[1], 1),
        (&[1], usize::MAX),
        (&[0], 0),
        (&[6], 0),
    ] {
        assert_eq!(
            refusal_at(&world, &store, Ask::new(list, at)),
            number::COMMAND
        );
    }
    for list in [&[2][..], &[2, 0], &[2, 0, 0], &[3], &[4], &[5]] {
        assert_eq!(refusal(&world, &store, list), number::CUT);
    }
    for list in [&[3, 3][..], &[4, 16], &[5, 255], &[2, 255, 255, 3]] {
        assert_eq!(refusal(&world, &store, list), number::SITE);
    }
    for row in [1, 256, 1024, 65_535] {
        assert_eq!(refusal(&world, &store, &deliver(row, 0)), number::ROW);
    }
    assert_eq!(refusal(&world, &store, &deliver(0, 0)), number::NOT_SENT);
}

#[test]
fn a_place_in_the_midst_of_a_list() {
    let (mut world, mut store) = started();
    let list = [9, 9, 2, 0, 0, 1, 9];
    assert_eq!(
        one_command(&mut world, &mut store, Ask::new(&list, 2)),
        Ok(6)
    );
    assert_eq!(
        refusal_at(&world, &store, Ask::new(&list, 6)),
        number::COMMAND
    );
    assert_eq!(world.row_count, 2);
}

#[test]
fn bad_rows() {
    let (mut world, store) = started();
    world.sites[1].up = false;
    for (place, byte) in [(0, 0), (0, 8), (0, 255), (1, 3), (1, 16), (4, 6), (6, 255)] {
        let mut bad = store.clone();
        bad[place] = byte;
        // Comes before a wrong address and a site that is down.
        assert_eq!(refusal(&world, &bad, &deliver(0, 0)), number::BAD_ROW);
        assert_eq!(refusal(&world, &bad, &deliver(0, 1)), number::BAD_ROW);
    }
}

#[test]
fn codes_from_n_up_are_not_read() {
    let (mut world, mut store) = started();
    store[7..ROW_BYTES].fill(255);
    let mut plain = started();
    let command = deliver(0, 1);
    assert_eq!(play(&mut world, &mut store, &command), Ok(4));
    assert_eq!(play(&mut plain.0, &mut plain.1, &command), Ok(4));
    assert_eq!(world, plain.0);
    assert_eq!(store[ROW_BYTES..], plain.1[ROW_BYTES..]);
}

#[test]
fn sites_that_are_down_or_up() {
    let (mut world, store) = started();
    world.sites[0].up = false;
    world.sites[1].up = false;
    for list in [vec![1], vec![3, 0], vec![4, 0], deliver(0, 1)] {
        assert_eq!(refusal(&world, &store, &list), number::DOWN);
    }
    assert_eq!(refusal(&world, &store, &deliver(0, 0)), number::NOT_SENT);
    assert_eq!(refusal(&world, &store, &[5, 2]), number::UP);
    world.sites[0].up = true;
    assert_eq!(refusal(&world, &store, &[1]), number::STARTED);
}

#[test]
fn a_full_store() {
    let mut world = World::fresh(three_sites(7));
    let mut store = vec![0; STORE_BYTES + 7];
    let mut row = Row {
        kind: Kind::Prepare,
        sender: 1,
        to: 7,
        vector: Vector::ZEROS,
    };
    row.write(&mut store, 0);
    row.kind = Kind::Vote;
    row.write(&mut store, 1023);
    world.row_count = 1024;
    assert_eq!(refusal(&world, &store, &[1]), number::FULL);
    assert_eq!(refusal(&world, &store, &deliver(0, 2)), number::FULL);
    let before = store.clone();
    let reply = deliver(1023, 1);
    assert_eq!(play(&mut world, &mut store, &reply), Ok(4));
    assert_eq!(play(&mut world, &mut store, &[3, 0]), Ok(2));
    assert_eq!(refusal(&world, &store, &[3, 0]), number::FULL);
    assert_eq!(store, before);
}

#[test]
fn a_short_store_comes_before_a_bad_world() {
    let store = vec![0; STORE_BYTES - 1];
    assert_eq!(refusal(&World::ZEROS, &store, &[]), number::STORE);
    let store = vec![0; STORE_BYTES];
    assert_eq!(refusal(&World::ZEROS, &store, &[]), number::WORLD);
}

/// A world of four with a member of each sort.
fn mixed() -> World {
    let mut world = World::fresh(Sizes::new(4, 3, 2, 15));
    world.sites[0].log.prepare = true;
    world.sites[0].vector = vector(&[1, 2, 0, 0]);
    world.sites[1].log.group = group(Side::Commit, &[1, 2, 0, 0]);
    world.sites[1].vector = vector(&[1, 2, 3, 5]);
    world.sites[3].log.outcome = Some(Side::Abort);
    world.sites[3].vector = vector(&[0, 0, 0, 5]);
    world.row_count = 1024;
    world
}

/// The group record of site 1.
fn record(world: &mut World) -> &mut GroupRecord {
    world.sites[1].log.group.as_mut().unwrap()
}

#[test]
fn worlds_that_are_refused() {
    let damage: [fn(&mut World); 19] = [
        |world| world.sizes.n = 2,
        |world| world.sizes.n = 17,
        |world| world.sizes.n = usize::MAX,
        |world| world.sizes.commit_quorum = 4,
        |world| world.sizes.commit_quorum = usize::MAX,
        |world| world.sizes.abort_quorum = 1,
        |world| world.sizes.willing = 16,
        |world| world.row_count = 1025,
        |world| world.news = 491_521,
        |world| world.news = usize::MAX,
        |world| world.sites[2].vector.set(4, State::Prepared),
        |world| world.sites[3].vector.set(15, State::Prepared),
        |world| world.sites[0].vector.set(0, State::Active),
        |world| world.sites[0].log.prepare = false,
        |world| world.sites[1].vector.set(1, State::InGroup(Side::Abort)),
        |world| {
            world.sites[3]
                .vector
                .set(3, State::Terminated(Side::Commit))
        },
        |world| record(world).side = Side::Abort,
        |world| record(world).vector.set(1, State::InGroup(Side::Abort)),
        |world| record(world).vector.set(4, State::Prepared),
    ];
    let store = vec![0; STORE_BYTES];
    assert_eq!(mixed().check(), Ok(()));
    for (which, spoil) in damage.iter().enumerate() {
        let mut world = mixed();
        spoil(&mut world);
        let number = refusal(&world, &store, &[0]);
        assert_eq!(number, number::WORLD, "damage {which}");
    }
}

#[test]
fn worlds_that_are_odd_but_pass() {
    let oddity: [fn(&mut World); 6] = [
        |world| world.sites[4].vector.set(4, State::Prepared),
        |world| world.sites[15].log.outcome = Some(Side::Commit),
        |world| world.sites[3].role = Role::Coordinator,
        |world| world.sites[1].up = false,
        |world| world.sites[3].log.prepare = true,
        |world| world.news = 491_520,
    ];
    for (which, change) in oddity.iter().enumerate() {
        let mut world = mixed();
        change(&mut world);
        assert_eq!(world.check(), Ok(()), "oddity {which}");
    }
}

/// The numbers of a command and a report with a byte of site records changed,
/// after seeing that the changed byte stays.
fn numbers_with(place: usize, byte: u8) -> (u32, u32) {
    let mut world = encode(&mixed());
    world[SITES_AT + place] = byte;
    let numbers = numbers_of(&mut world);
    assert_eq!(world[SITES_AT + place], byte);
    numbers
}

#[test]
fn bytes_that_no_world_holds() {
    // Sites 0 to 3 take part, site 1 alone has a group record.
    for (site, place, byte) in [
        (0, CODES.start + 1, 6),
        (3, CODES.start, 255),
        (1, GROUP_CODES.start, 6),
        (0, GROUP_CODES.start, 1),
        (2, GROUP_CODES.start + 2, 255),
        (3, GROUP_CODES.start + 15, 1),
    ] {
        let numbers = numbers_with(SITE_BYTES * site + place, byte);
        assert_eq!(numbers, (17, 17), "site {site} place {place}");
        let numbers = numbers_with(SITE_BYTES * (site + 4) + place, byte);
        assert_eq!(numbers, (0, 0), "the same at a site from n up");
    }
}

#[test]
fn every_byte_of_a_header_counts() {
    let mut store = vec![0; STORE_BYTES];
    let played = play_list(&mut store, &header(16, 15, 2, 0x8001));
    assert_eq!(played.world, World::fresh(Sizes::new(16, 15, 2, 0x8001)));
    let sizes = played.world.sizes;
    assert!(sizes.is_willing(0) && sizes.is_willing(15));
    assert!(!sizes.is_willing(1));
}
