//! What three rounds cost: the bounds are met, and where less is due it is less.

use model::rounds::ROUNDS;
use model::sizes::MAX_LIST;
use model::world::{MAX_NEWS, MAX_ROWS};
use model::{Command, Side, Sizes};

use crate::all_just_meeting;
use crate::common::quiet::SITES;
use crate::common::rounds::claim::{most_events, most_news, most_rows};
use crate::common::rounds::{complete_votes, Reached};
use crate::common::three_sites;

/// The events, rows and news of three rounds, and the outcome.
fn cost(day: &Reached) -> ([usize; 3], Side) {
    let tried = day.rounds(3);
    let side = tried.check().unwrap_or_else(|why| panic!("{why}"));
    let told = tried.told;
    ([told.events, told.rows, told.news], side)
}

#[test]
fn the_bounds_of_three_sites_and_of_sixteen() {
    let bounds = |n| [most_events(n), most_rows(n), most_news(n)];
    assert_eq!(bounds(3), [45, 27, 18]);
    assert_eq!(bounds(16), [1_488, 768, 720]);
    assert_eq!(ROUNDS, 3);
}

#[test]
fn three_sites_after_complete_votes() {
    let day = complete_votes(three_sites(7));
    assert_eq!(cost(&day), ([45, 27, 14], Side::Commit));
}

/// Every entry rises through all three levels, one at a time: 3n(n - 1) times in all, but
/// for the 2(n - 1) times before.
#[test]
fn complete_votes_cost_the_most_for_all_sites_and_quorums() {
    for sizes in all_just_meeting() {
        let n = sizes.n;
        let most = [most_events(n), most_rows(n), (3 * n - 2) * (n - 1)];
        let day = complete_votes(sizes);
        assert_eq!(cost(&day), (most, Side::Commit), "{n} sites");
        assert_eq!(day.rounds_needed(), Some(2));
    }
    assert_eq!(all_just_meeting().count(), 105);
}

/// START alone costs as much: site 0 joins the abort group, and the others follow
/// before their turns.
#[test]
fn start_alone_costs_as_much() {
    for sizes in all_just_meeting() {
        let mut day = Reached::fresh(sizes);
        day.play(Command::Start);
        let ([events, rows, _], side) = cost(&day);
        let most = (most_events(sizes.n), most_rows(sizes.n));
        assert_eq!(((events, rows), side), (most, Side::Abort));
    }
}

/// In the first round every site aborts by itself and tells nobody.
#[test]
fn where_nobody_has_started_it_costs_the_least() {
    for sizes in all_just_meeting() {
        let n = sizes.n;
        let least = [n + 2 * n * (2 * n - 1), 2 * n * n, n * (n - 1)];
        let day = Reached::fresh(sizes);
        assert_eq!(cost(&day), (least, Side::Abort), "{n} sites");
    }
    let day = Reached::fresh(three_sites(7));
    assert_eq!(cost(&day).0, [33, 18, 6]);
}

/// Where all have committed the rounds still cost what they do, for nothing.
#[test]
fn what_is_over_costs_as_much() {
    for sizes in all_just_meeting() {
        let mut day = complete_votes(sizes);
        let joins = day.send(Command::Timeout(0), 1..sizes.n);
        day.hand_over(joins, 0);
        day.send(Command::Timeout(0), 1..sizes.n);
        assert_eq!(day.rounds_needed(), Some(0));
        let ([events, rows, _], side) = cost(&day);
        let most = (most_events(sizes.n), most_rows(sizes.n));
        assert_eq!(((events, rows), side), (most, Side::Commit));
    }
}

/// The rows of the rounds fit for every number of sites, and the news of the longest
/// list, where each delivery takes 4 bytes and raises 15 entries, stays far below the
/// limit with that of the rounds.
#[test]
fn there_is_room_for_the_rounds() {
    let rows = SITES.map(most_rows).max();
    assert!(rows < Some(MAX_ROWS));
    let longest = (MAX_LIST - 5) / 4 * 15;
    let news = SITES.map(|n| longest + most_news(n)).max();
    assert_eq!(news, Some(123_570));
    assert!(news < Some(MAX_NEWS));
}

/// An unwilling site 0 has aborted at START; the others are asked to join the abort
/// group, whatever their will is.
#[test]
fn unwilling_sites() {
    for willing in 0..7 {
        let sizes = Sizes::new(3, 2, 2, willing);
        let mut day = Reached::fresh(sizes);
        day.play(Command::Start);
        let ([events, rows, _], side) = cost(&day);
        assert_eq!((events, rows, side), (45, 27, Side::Abort));
    }
}
