//! The schedule: which commands are given, in which order, and what they do.

use model::command::list_of;
use model::rounds::ROUNDS;
use model::row::STORE_BYTES;
use model::{play_list, play_rounds, Command, Side, Site, State, World};

use crate::common::rounds::{complete_votes, worlds, FILL};
use crate::common::{three_sites, vector};
use crate::{all_just_meeting, SEED};

/// The first round of three sites after complete votes, which are rows 0 to 2.
const FIRST_ROUND: [u8; 54] = [
    3, 0, // row 3 is join commit
    2, 3, 0, 1, 2, 4, 0, 0, // row 4 is the reply of site 1
    2, 3, 0, 2, 2, 5, 0, 0, // row 5 is that of site 2
    3, 1, // row 6 is join commit again, from site 1
    2, 6, 0, 0, 2, 7, 0, 1, //
    2, 6, 0, 2, 2, 8, 0, 1, //
    3, 2, // row 9, from site 2
    2, 9, 0, 0, 2, 10, 0, 2, //
    2, 9, 0, 1, 2, 11, 0, 2,
];

/// The bytes of some commands.
fn bytes(commands: &[Command]) -> Vec<u8> {
    commands
        .iter()
        .flat_map(|command| command.bytes())
        .collect()
}

#[test]
fn the_first_round_of_three_sites() {
    let tried = complete_votes(three_sites(7)).rounds(1);
    assert_eq!(bytes(&tried.told.commands), FIRST_ROUND);
    assert_eq!((tried.told.events, tried.told.rows), (15, 9));
}

/// Site 0 joins the commit group, for all are prepared, and everyone follows; the
/// others lead for the first time, so nobody decides. In the second round site 0
/// commits. The news of each turn: 6, 2 and none; 4, 2 and none; none.
#[test]
fn three_rounds_of_three_sites() {
    let mut day = complete_votes(three_sites(7));
    let (world, store) = (&mut day.world, &mut day.store);
    for (code, news) in [(2, 8), (4, 6), (4, 0)] {
        let told = play_rounds(world, store, 1);
        let cost = (told.events, told.rows, told.news, told.refusal);
        assert_eq!(cost, (15, 9, news, None));
        assert!(world.members().iter().all(|site| leads_with(site, code)));
    }
    assert_eq!(world.row_count, 3 + 27);
}

/// Does a site lead, and know this of everyone?
fn leads_with(site: &Site, code: u8) -> bool {
    site.is_coordinator() && site.vector == vector(&[code; 3])
}

/// The commands of a turn among n sites, where every turn sends a row and n rows were
/// there before: each turn takes n rows, and the reply of its q-th other site is q after
/// its own row.
fn commands_of_turn(n: usize, turn: usize) -> Vec<Command> {
    let (site, row) = (turn % n, n + turn * n);
    let others = (0..n).filter(|&other| other != site).zip(row + 1..);
    let visits = others
        .flat_map(|(other, reply)| [Command::deliver(row, other), Command::deliver(reply, site)]);
    [Command::Timeout(site)].into_iter().chain(visits).collect()
}

#[test]
fn the_commands_where_every_turn_sends_a_row() {
    let rounds = |sizes| (0..=ROUNDS).map(move |rounds| (sizes, rounds));
    for (sizes, rounds) in all_just_meeting().flat_map(rounds) {
        let told = complete_votes(sizes).rounds(rounds).told;
        let turns = 0..rounds * sizes.n;
        let commands = turns.flat_map(|turn| commands_of_turn(sizes.n, turn));
        assert!(told.commands.into_iter().eq(commands), "{sizes:?}");
    }
}

/// An active site's TIMEOUT sends nothing, and nothing is delivered.
#[test]
fn a_turn_without_a_row() {
    let mut world = World::fresh(three_sites(7));
    let told = play_rounds(&mut world, &mut vec![0; STORE_BYTES], 1);
    assert_eq!(bytes(&told.commands), [3, 0, 3, 1, 3, 2]);
    assert_eq!((told.events, told.rows, told.news), (3, 0, 0));
    let aborted = State::Terminated(Side::Abort);
    let has_aborted = |site: &Site| site.state() == aborted && !site.is_coordinator();
    assert!(world.members().iter().all(has_aborted));
}

/// The first that is not active has a row for everyone, so nobody is active after it.
#[test]
fn nobody_is_active_after_a_row() {
    let list = list_of(three_sites(7), &[Command::Timeout(1)]);
    let mut store = vec![0; STORE_BYTES];
    let mut world = play_list(&mut store, &list).world;
    let told = play_rounds(&mut world, &mut store, 1);
    let due = [
        &[3, 0][..], // site 0 is active, and aborts
        &[3, 1, 2, 0, 0, 0, 2, 1, 0, 1, 2, 0, 0, 2, 2, 2, 0, 1],
        &[3, 2, 2, 3, 0, 0, 2, 4, 0, 2, 2, 3, 0, 1, 2, 5, 0, 2],
    ];
    assert_eq!(bytes(&told.commands), due.concat());
    let is_active = |site: &Site| site.state() == State::Active;
    assert!(!world.members().iter().any(is_active));
}

/// The rounds are the list of their commands, played one at a time: the list that led
/// to the world leads on with them to the same rows and the same end.
#[test]
fn the_rounds_are_a_list_too() {
    for (mut day, _) in worlds(SEED).take(300) {
        let (mut world, mut store) = (day.world, day.store.clone());
        let told = play_rounds(&mut world, &mut store, ROUNDS);
        day.list.extend(bytes(&told.commands));
        let mut rows = vec![FILL; STORE_BYTES];
        let played = play_list(&mut rows, &day.list);
        assert_eq!((played.number, played.place), (0, day.list.len()));
        assert_eq!(played.world, world);
        assert!(rows == store);
    }
}
