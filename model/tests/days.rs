//! The worked days of the paper.

mod common;

use model::command::list_of;
use model::row::{ROW_BYTES, STORE_BYTES};
use model::{play_list, printed, Command, Kind, Played, Row, Side, Site, Sizes, State, World};

use common::{header, rows_of_site_0, three, three_sites, vector};
use common::{M3_LIST, M3_REPORT, RESTART, THREES_FOR_PREPARES, TWO_AGAINST};
use Command::{Crash, Recover, Start, Timeout};

/// Two sites in the abort group, and then some commands.
fn two_against(then: &[Command]) -> Vec<u8> {
    three(7, &[&TWO_AGAINST[..], then].concat())
}

/// A played list and its rows.
struct Day {
    played: Played,
    store: Vec<u8>,
}

impl Day {
    fn new(list: &[u8]) -> Day {
        let mut store = vec![0xee; STORE_BYTES];
        let played = play_list(&mut store, list);
        let used = played.world.row_count * ROW_BYTES;
        assert!(store[used..].iter().all(|&byte| byte == 0xee));
        Day { played, store }
    }

    fn site(&self, site: usize) -> &Site {
        &self.played.world.sites[site]
    }

    fn codes(&self, site: usize) -> &[u8] {
        &self.site(site).vector.codes()[..self.played.world.sizes.n]
    }

    fn row(&self, at: usize) -> Row {
        Row::read(&self.store, at, self.played.world.sizes.n).unwrap()
    }

    fn log(&self, site: usize) -> (bool, Option<Side>, Option<Side>) {
        let log = self.site(site).log;
        (log.prepare, log.group_side(), log.outcome)
    }

    /// Played to the end, with so many events, rows and news.
    fn assert_accepted(&self, events: usize, rows: usize, news: usize) {
        assert_eq!(self.played.number, 0);
        assert_eq!(self.played.events, events);
        assert_eq!(self.played.world.row_count, rows);
        assert_eq!(self.played.world.news, news);
    }

    /// Stopped with a number at a place, after so many events, without news.
    fn assert_stopped(&self, number: u8, place: usize, events: usize) {
        assert_eq!(self.played.number, number);
        assert_eq!(self.played.place, place);
        assert_eq!(self.played.events, events);
        assert_eq!(self.played.world.news, 0);
    }
}

#[test]
fn m1_header_only() {
    let day = Day::new(&three(7, &[]));
    day.assert_accepted(0, 0, 0);
    assert_eq!(day.played.place, 5);
    assert_eq!(day.played.world, World::fresh(three_sites(7)));
    assert!((0..3).all(|site| day.site(site).up && day.site(site).state() == State::Active));
}

#[test]
fn m2_start() {
    let day = Day::new(&three(7, &[Start]));
    day.assert_accepted(1, 1, 0);
    assert_eq!(day.log(0), (true, None, None));
    assert!(day.site(0).is_coordinator());
    let row = [1, 0, 6, 0, 1, 0, 0, 0, 0, 0, 0, 0, 0, 0, 0, 0, 0, 0, 0, 0];
    assert_eq!(day.store[..ROW_BYTES], row);
}

/// The rows' news, in their order: row 0 tells site 1 of site 0, its vote tells
/// site 0 of it, the join tells site 2 of both, and its reply tells site 0 of it:
/// 1 + 1 + 2 + 1.
#[test]
fn m3_the_printed_report() {
    assert_eq!(printed(&M3_LIST), M3_REPORT);
    assert_eq!(two_against(&[Timeout(0)]), M3_LIST);
}

#[test]
fn a_stopped_list_names_number_and_place() {
    let text = printed(&two_against(&[Crash(0), Timeout(0)]));
    assert!(text.starts_with("sites 3 commit 2 abort 2 events 7 rows 4 news 5\n"));
    assert!(text.ends_with("\nrefused 12 at 26\n"));
}

#[test]
fn m4_an_unwilling_site() {
    let before = Day::new(&three(5, &[Start, Command::deliver(0, 1)]));
    before.assert_accepted(2, 2, 1);
    assert_eq!(before.log(1), (false, None, Some(Side::Abort)));
    assert_eq!(before.codes(1), [1, 5, 0]);
    let after = Day::new(&three(
        5,
        &[Start, Command::deliver(0, 1), Command::deliver(1, 0)],
    ));
    after.assert_accepted(3, 2, 2);
    assert_eq!(after.log(0), (true, None, Some(Side::Abort)));
    assert_eq!(after.codes(0), [5, 5, 0]);
}

#[test]
fn m5_crash_after_start() {
    let day = Day::new(&three(7, &[Start, Crash(0), Recover(0), Timeout(0)]));
    day.assert_accepted(4, 2, 0);
    assert!(day.site(0).is_coordinator());
    assert_eq!(day.codes(0), [1, 0, 0]);
    assert_eq!(day.row(1).kind, Kind::Prepare);
    assert_eq!(day.row(1), day.row(0));
}

#[test]
fn m6_a_repeated_prepare() {
    let day = Day::new(&three(
        7,
        &[Start, Command::deliver(0, 1), Command::deliver(0, 1)],
    ));
    // The second time tells site 1 nothing.
    day.assert_accepted(3, 3, 1);
    assert_eq!(day.log(1), (true, None, None));
    assert_eq!(day.row(1).kind, Kind::Vote);
    assert_eq!(day.row(2), day.row(1));
}

#[test]
fn m7_timeout_at_once() {
    let day = Day::new(&three(7, &[Timeout(2)]));
    day.assert_accepted(1, 0, 0);
    assert_eq!(day.log(2), (false, None, Some(Side::Abort)));
    assert!(!day.site(2).is_coordinator());
    assert_eq!(day.codes(2), [0, 0, 5]);
}

#[test]
fn m8_start_twice() {
    Day::new(&three(7, &[Start, Start])).assert_stopped(14, 6, 1);
}

#[test]
fn m9_a_row_to_its_sender() {
    Day::new(&three(7, &[Start, Command::deliver(0, 0)])).assert_stopped(11, 6, 1);
}

#[test]
fn m10_recover_at_once() {
    Day::new(&three(7, &[Recover(1)])).assert_stopped(13, 5, 0);
}

#[test]
fn a_restart_before_the_vote() {
    let day = Day::new(&three(7, &RESTART[..3]));
    day.assert_accepted(3, 1, 0);
    assert_eq!(day.log(1), (false, None, Some(Side::Abort)));
    assert!(day.site(1).up && !day.site(1).is_coordinator());
    assert_eq!(day.codes(1), [0, 5, 0]);
    let day = Day::new(&three(7, &RESTART));
    // Row 0 tells site 1 of site 0, the vote tells site 0 of site 1.
    day.assert_accepted(5, 2, 2);
    assert_eq!(day.row(1).kind, Kind::Vote);
    assert_eq!(day.row(1).vector, vector(&[1, 5, 0]));
    assert_eq!(day.log(0), (true, None, Some(Side::Abort)));
    assert_eq!(day.codes(0), [5, 5, 0]);
}

#[test]
fn a_restart_before_start() {
    let day = Day::new(&three(7, &[Crash(0), Recover(0), Start]));
    day.assert_stopped(14, 9, 2);
    assert_eq!(day.log(0), (false, None, Some(Side::Abort)));
}

#[test]
fn numbers_of_sites() {
    for (n, number) in [(2, 3), (17, 3), (16, 0), (3, 0)] {
        let list = header(n, n - 1, n - 1, 0);
        assert_eq!(Day::new(&list).played.number, number, "{n} sites");
    }
}

#[test]
fn quorums_of_four_sites() {
    Day::new(&header(4, 2, 2, 0)).assert_stopped(4, 0, 0);
    let day = Day::new(&header(4, 2, 3, 0));
    day.assert_accepted(0, 0, 0);
    assert_eq!(day.played.world.sizes, Sizes::new(4, 2, 3, 0));
}

#[test]
fn a_cut_command() {
    let mut list = three(7, &[Start, Command::deliver(0, 1)]);
    list.truncate(list.len() - 2);
    Day::new(&list).assert_stopped(7, 6, 1);
}

#[test]
fn the_row_after_the_last() {
    let commands = rows_of_site_0(1025);
    let full = Day::new(&three(7, &commands[..1024]));
    full.assert_accepted(1024, 1024, 0);
    let over = Day::new(&three(7, &commands));
    over.assert_stopped(15, 5 + 1 + 2 * 1023, 1024);
    assert_eq!(over.played.world, full.played.world);
    assert_eq!(over.store, full.store);
}

#[test]
fn a_full_store_still_takes_what_adds_no_row() {
    let mut commands = rows_of_site_0(1024);
    commands.extend([Timeout(2), Crash(1), Recover(1), Crash(0), Recover(0)]);
    let day = Day::new(&three(7, &commands));
    day.assert_accepted(1029, 1024, 0);
    assert_eq!(day.log(2), (false, None, Some(Side::Abort)));
}

#[test]
fn an_unwilling_site_0_sends_the_outcome() {
    let day = Day::new(&three(
        6,
        &[Start, Command::deliver(0, 1), Command::deliver(1, 0)],
    ));
    // The outcome tells site 1 of site 0, the ack site 0 of site 1.
    day.assert_accepted(3, 2, 2);
    assert_eq!(day.row(0).kind, Kind::Outcome);
    assert_eq!(day.row(1).kind, Kind::Ack);
    assert_eq!(day.log(0), (false, None, Some(Side::Abort)));
    assert_eq!(day.log(1), (false, None, Some(Side::Abort)));
    assert!(day.site(0).is_coordinator());
    assert_eq!(day.codes(0), [5, 5, 0]);
}

#[test]
fn a_repeated_in_group_makes_no_quorum() {
    let commands = [
        Start,
        Timeout(0),
        Command::deliver(1, 1),
        Command::deliver(2, 0),
        Command::deliver(2, 0),
        Timeout(0),
    ];
    let day = Day::new(&list_of(Sizes::new(4, 3, 3, 15), &commands));
    // The join tells site 1 of site 0, the reply site 0 of site 1, once.
    day.assert_accepted(6, 4, 2);
    assert_eq!(day.codes(0), [3, 3, 0, 0]);
    assert_eq!(day.row(3).kind, Kind::Join(Side::Abort));
    assert_eq!(day.site(0).state(), State::InGroup(Side::Abort));
}

#[test]
fn an_abort_group_member_stays_when_a_join_commit_arrives() {
    let day = Day::new(&three(
        7,
        &[
            Start,
            Command::deliver(0, 1),
            Command::deliver(0, 2),
            Command::deliver(1, 0),
            Command::deliver(2, 0),
            Timeout(0),
            Timeout(1),
            Timeout(1),
            Command::deliver(3, 1),
        ],
    ));
    // Two prepares and two votes bring 1 each; the join 2 1 1 finds 1 3 0 at site 1.
    day.assert_accepted(9, 7, 6);
    assert_eq!(day.row(3).kind, Kind::Join(Side::Commit));
    assert_eq!(day.log(1), (true, Some(Side::Abort), None));
    assert_eq!(day.row(6).kind, Kind::InGroup);
    assert_eq!(day.codes(1), [2, 3, 1]);
}

#[test]
fn a_3_is_no_prepare() {
    let before = Day::new(&three(7, &THREES_FOR_PREPARES[..8]));
    // The rows delivered are 0 with 1 0 0, 2 with 3 0 0, 3 with 3 0 3 and 4 with
    // 1 1 0, which bring 1 each, and 5 with 3 1 3, which finds 1 1 0 at site 1.
    before.assert_accepted(8, 6, 6);
    assert_eq!(before.log(0), (true, Some(Side::Abort), None));
    assert_eq!(before.log(1), (true, None, None));
    assert_eq!(before.log(2), (false, Some(Side::Abort), None));
    assert!(before.site(1).is_coordinator());
    assert_eq!(before.codes(1), [3, 1, 3]);
    assert_eq!(before.row(4).kind, Kind::Prepare);
    assert_eq!(before.row(5).kind, Kind::Vote);
    let after = Day::new(&three(7, &THREES_FOR_PREPARES));
    after.assert_accepted(9, 7, 6);
    assert_eq!(after.log(1), (true, Some(Side::Abort), None));
    assert_eq!(after.codes(1), [3, 3, 3]);
    let row = [4, 1, 5, 0, 3, 3, 3, 0, 0, 0, 0, 0, 0, 0, 0, 0, 0, 0, 0, 0];
    assert_eq!(after.store[6 * ROW_BYTES..7 * ROW_BYTES], row);
}

#[test]
fn a_crash_leaves_the_group_records_vector() {
    let before = Day::new(&two_against(&[]));
    assert_eq!(before.codes(0), [3, 1, 3]);
    let after = Day::new(&two_against(&[Crash(0)]));
    after.assert_accepted(7, 4, 5);
    assert_eq!(after.codes(0), [3, 1, 0]);
    assert!(!after.site(0).up && !after.site(0).is_coordinator());
}
