//! What comes of the rounds where one of the request's premises is not met.

use model::row::STORE_BYTES;
use model::sizes::everyone;
use model::world::MAX_ROWS;
use model::{number, play_rounds, Command, Side, Sizes, State, World};

use crate::common::quiet::SITES;
use crate::common::rounds::claim::{most_events, most_rows};
use crate::common::rounds::{complete_votes, split, with_free_rows, Reached};
use crate::common::{all_willing, three_sites};

/// Sites that have an outcome.
fn ended(world: &World) -> usize {
    let members = world.members().iter();
    members.filter(|site| site.log.outcome.is_some()).count()
}

#[test]
fn four_sites_with_quorums_of_three_never_end() {
    // C + A is W + 2: two are in each group, and no site is left.
    let sizes = Sizes::new(4, 3, 3, 15);
    let day = split(sizes, 0b0011);
    for rounds in [3, 6, 12] {
        let tried = day.rounds(rounds);
        assert_eq!((tried.told.refusal, tried.told.events), (None, rounds * 28));
        assert_eq!(ended(&tried.after), 0);
    }
    // There are six ways to have two in each group; all the others end.
    let never_ends = |&commit: &u16| split(sizes, commit).rounds(3).claim().is_err();
    let ways: Vec<u16> = (0..16).filter(never_ends).collect();
    assert_eq!(ways, [0b0011, 0b0101, 0b0110, 0b1001, 0b1010, 0b1100]);
}

/// All quorums of n sites that meet by two.
fn meeting_by_two(n: usize) -> impl Iterator<Item = Sizes> {
    (3..n).map(move |commit| Sizes::new(n, commit, n + 2 - commit, everyone(n)))
}

/// Each group has one site less than its quorum.
#[test]
fn quorums_that_meet_by_two_may_never_end() {
    for sizes in SITES.flat_map(meeting_by_two) {
        let tried = split(sizes, everyone(sizes.commit_quorum - 1)).rounds(3);
        let told = (tried.told.refusal, tried.told.events);
        assert_eq!(told, (None, most_events(sizes.n)));
        assert_eq!(ended(&tried.after), 0, "{sizes:?}");
    }
    assert_eq!(SITES.flat_map(meeting_by_two).count(), 91);
}

#[test]
fn as_many_free_rows_as_are_asked_for() {
    for n in SITES {
        let day = with_free_rows(n, most_rows(n));
        assert!(day.is_ready());
        let tried = day.rounds(3);
        assert_eq!(tried.check(), Ok(Side::Commit), "{n} sites");
        assert_eq!(tried.after.row_count, MAX_ROWS);
    }
}

/// The last reply has no room: 15 for the delivery that would send it.
#[test]
fn one_row_fewer_is_too_few() {
    for n in SITES {
        let day = with_free_rows(n, most_rows(n) - 1);
        assert!(!day.is_ready());
        let tried = day.rounds(3);
        let told = &tried.told;
        assert_eq!(told.refusal, Some(number::FULL), "{n} sites");
        assert_eq!(told.events, most_events(n) - 2);
        assert_eq!(told.commands.len(), most_events(n) - 1);
        let last = told.commands.last().copied();
        let row = MAX_ROWS + 1 - n;
        assert_eq!(last, Some(Command::deliver(row, n - 2)));
    }
}

#[test]
fn with_no_row_free_every_turn_is_refused() {
    let tried = with_free_rows(3, 0).rounds(3);
    let timeouts = [0, 1, 2].map(Command::Timeout).repeat(3);
    assert_eq!(tried.told.commands, timeouts);
    assert_eq!((tried.told.refusal, tried.told.events), (Some(15), 0));
}

/// With no row free and site 1 or site 0 down, there are both 15 and 12.
#[test]
fn the_first_refusal_is_told() {
    for (site, number) in [(1, number::FULL), (0, number::DOWN)] {
        let mut day = with_free_rows(3, 0);
        day.play(Command::Crash(site));
        assert_eq!(day.rounds(3).told.refusal, Some(number));
    }
}

/// Complete votes among n sites, and one of them is down.
fn with_one_down(n: usize) -> impl Iterator<Item = (usize, Reached)> {
    (0..n).map(move |site| {
        let mut day = complete_votes(all_willing(n));
        day.play(Command::Crash(site));
        (site, day)
    })
}

#[test]
fn a_site_that_is_down() {
    for (site, mut day) in SITES.flat_map(with_one_down) {
        assert!(!day.is_ready());
        let tried = day.rounds(3);
        let n = tried.after.sizes.n;
        assert_eq!(tried.told.refusal, Some(number::DOWN), "{site} of {n}");
        assert!(!tried.after.sites[site].up);
        day.bring_back();
        assert!(day.is_ready());
        assert!(day.rounds(3).check().is_ok(), "{site} of {n}");
    }
}

/// Of three sites two have a quorum without the third, and end; it has not heard.
#[test]
fn a_site_that_is_down_has_no_outcome() {
    for (site, day) in with_one_down(3) {
        let tried = day.rounds(3);
        assert_eq!(ended(&tried.after), 2);
        assert_eq!(tried.after.sites[site].log.outcome, None);
    }
}

/// No list leads to a world with two outcomes, and no rounds lead out of it.
#[test]
fn a_world_that_no_list_leads_to() {
    let mut world = World::fresh(three_sites(7));
    for (me, side) in [(0, Side::Commit), (1, Side::Abort)] {
        world.sites[me].log.outcome = Some(side);
        world.sites[me].vector.set(me, State::Terminated(side));
    }
    assert_eq!(world.check(), Ok(()));
    let told = play_rounds(&mut world, &mut vec![0; STORE_BYTES], 3);
    assert_eq!((told.refusal, told.events), (None, 45));
    let outcomes = [0, 1, 2].map(|site| world.sites[site].log.outcome);
    assert_eq!(
        outcomes,
        [Side::Commit, Side::Abort, Side::Commit].map(Some)
    );
}
