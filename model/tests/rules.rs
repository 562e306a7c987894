//! Site rules on worlds and rows that a played list may never reach.

mod common;

use model::row::{ROW_BYTES, STORE_BYTES};
use model::{one_command, Ask, Command, Kind, Log, Role, Row, Side, Site, Sizes, State, World};

use common::{all_willing, group, row_to_all, vector, world_with};

/// Site 1 of four with this log and vector, up and subordinate. Its group
/// record knows of no other site.
fn site(prepare: bool, joined: Option<Side>, outcome: Option<Side>, codes: [u8; 4]) -> Site {
    let record = |side| group(side, &[0, State::InGroup(side).code()]);
    let log = Log {
        prepare,
        group: joined.and_then(record),
        outcome,
    };
    Site {
        log,
        vector: vector(&codes),
        ..Site::FRESH
    }
}

/// What a command at site 1 makes of it, and the row it sends.
fn after(site: Site, told: Option<Row>, command: Command) -> (Site, Option<Row>) {
    let mut store = vec![0; STORE_BYTES];
    let mut world = world_with(all_willing(4), (1, site), told.as_ref(), &mut store);
    let before = world.row_count;
    let list = command.bytes();
    one_command(&mut world, &mut store, Ask::new(&list, 0)).unwrap();
    let sent = (world.row_count > before).then(|| Row::read(&store, before, 4).unwrap());
    (world.sites[1], sent)
}

/// The same for a row from a sender.
fn told(site: Site, kind: Kind, sender: usize, codes: [u8; 4]) -> (Site, Option<Row>) {
    let row = row_to_all(kind, sender, &codes);
    after(site, Some(row), Command::deliver(0, 1))
}

fn timed_out(site: Site, role: Role) -> (Site, Option<Row>) {
    after(Site { role, ..site }, None, Command::Timeout(1))
}

#[test]
fn an_active_site_does_not_join_the_commit_group() {
    let (site, sent) = told(Site::FRESH, Kind::Join(Side::Commit), 0, [2, 0, 1, 1]);
    assert_eq!(site.state(), State::Active);
    assert_eq!(site.vector, vector(&[2, 0, 1, 1]));
    assert_eq!(sent.unwrap().kind, Kind::InGroup);
}

#[test]
fn an_active_site_joins_the_abort_group_without_preparing() {
    let (site, sent) = told(Site::FRESH, Kind::Join(Side::Abort), 2, [1, 0, 3, 0]);
    assert!(!site.log.prepare);
    assert_eq!(site.log.group, group(Side::Abort, &[1, 3, 3, 0]));
    let sent = sent.unwrap();
    assert_eq!((sent.kind, sent.sender, sent.to), (Kind::InGroup, 1, 4));
    assert_eq!(sent.vector, site.vector);
}

#[test]
fn the_own_entry_is_not_merged() {
    let (site, sent) = told(Site::FRESH, Kind::Vote, 0, [0, 5, 0, 0]);
    assert_eq!(site, Site::FRESH);
    assert_eq!(sent, None);
}

#[test]
fn an_entry_of_equal_level_is_kept() {
    let held = site(true, Some(Side::Abort), None, [2, 3, 3, 0]);
    let (site, _) = told(held, Kind::InGroup, 0, [3, 0, 2, 1]);
    assert_eq!(site.vector, vector(&[2, 3, 3, 1]));
    let outcome = Some(Side::Abort);
    let ended = Site {
        log: Log {
            outcome,
            ..held.log
        },
        vector: vector(&[4, 5, 5, 1]),
        ..held
    };
    let (site, _) = told(ended, Kind::Ack, 0, [5, 4, 4, 0]);
    assert_eq!(site, ended);
}

#[test]
fn a_lower_entry_is_not_taken() {
    let held = site(true, None, None, [2, 1, 1, 0]);
    let (site, _) = told(held, Kind::Vote, 3, [1, 0, 0, 1]);
    assert_eq!(site.vector, vector(&[2, 1, 1, 1]));
}

#[test]
fn the_lowest_site_decides_between_outcomes() {
    let held = site(true, None, None, [0, 1, 0, 0]);
    let (first, _) = told(held, Kind::Ack, 0, [5, 0, 4, 4]);
    assert_eq!(first.log.outcome, Some(Side::Abort));
    let (second, _) = told(held, Kind::Ack, 0, [0, 0, 4, 5]);
    assert_eq!(second.log.outcome, Some(Side::Commit));
    assert_eq!(second.vector, vector(&[0, 4, 4, 5]));
}

#[test]
fn an_outcome_already_held_counts_too() {
    let held = site(true, None, None, [0, 1, 0, 5]);
    let (site, sent) = told(held, Kind::Join(Side::Commit), 0, [2, 0, 0, 0]);
    assert_eq!(
        (site.log.group, site.log.outcome),
        (None, Some(Side::Abort))
    );
    assert_eq!(sent.unwrap().vector, vector(&[2, 5, 0, 5]));
}

#[test]
fn a_terminated_site_keeps_its_outcome() {
    let held = site(true, None, Some(Side::Commit), [0, 4, 0, 0]);
    let (site, sent) = told(held, Kind::Outcome, 3, [0, 0, 0, 5]);
    assert_eq!(site.log.outcome, Some(Side::Commit));
    assert_eq!(sent.unwrap().kind, Kind::Ack);
}

#[test]
fn every_command_is_answered_in_every_state() {
    for held in [
        site(false, None, None, [0, 0, 0, 0]),
        site(true, None, None, [0, 1, 0, 0]),
        site(true, Some(Side::Commit), None, [0, 2, 0, 0]),
        site(false, Some(Side::Abort), None, [0, 3, 0, 0]),
        site(true, Some(Side::Commit), Some(Side::Commit), [0, 4, 0, 0]),
        site(false, None, Some(Side::Abort), [0, 5, 0, 0]),
    ] {
        assert_answers_commands(held);
        assert_answers_no_reply(held);
    }
}

/// The site answers every command, with what it knows then.
fn assert_answers_commands(held: Site) {
    for (command, reply) in [
        (Kind::Prepare, Kind::Vote),
        (Kind::Join(Side::Commit), Kind::InGroup),
        (Kind::Join(Side::Abort), Kind::InGroup),
        (Kind::Outcome, Kind::Ack),
    ] {
        let (site, sent) = told(held, command, 3, [0; 4]);
        let sent = sent.unwrap();
        assert_eq!((sent.kind, sent.sender, sent.to), (reply, 1, 8));
        assert_eq!(sent.vector, site.vector);
    }
}

/// A reply that tells nothing changes nothing.
fn assert_answers_no_reply(held: Site) {
    for reply in [Kind::Vote, Kind::InGroup, Kind::Ack] {
        assert_eq!(told(held, reply, 3, [0; 4]), (held, None));
    }
}

#[test]
fn a_row_from_the_site_itself_is_answered_to_itself() {
    let (_, sent) = told(Site::FRESH, Kind::Prepare, 1, [0; 4]);
    let sent = sent.unwrap();
    assert_eq!((sent.sender, sent.to), (1, 2));
}

#[test]
fn an_active_site_aborts_at_a_timeout_whatever_its_role() {
    for role in [Role::Subordinate, Role::Coordinator] {
        let (site, sent) = timed_out(Site::FRESH, role);
        assert_eq!(site.state(), State::Terminated(Side::Abort));
        assert_eq!(site.role, role);
        assert_eq!(sent, None);
    }
}

#[test]
fn a_subordinate_decides_nothing() {
    let quorum = site(true, Some(Side::Commit), None, [2, 2, 2, 2]);
    let (site, sent) = timed_out(quorum, Role::Subordinate);
    assert_eq!(site.state(), State::InGroup(Side::Commit));
    assert_eq!(site.role, Role::Coordinator);
    let sent = sent.unwrap();
    assert_eq!(sent.kind, Kind::Join(Side::Commit));
    assert_eq!((sent.sender, sent.to), (1, 0b1101));
}

#[test]
fn a_prepared_coordinator_chooses_its_group() {
    for (first, side) in [
        ([1, 1, 1, 1], Side::Commit),
        ([0, 1, 2, 0], Side::Commit),
        ([3, 1, 3, 2], Side::Commit),
        ([1, 1, 1, 0], Side::Abort),
        ([1, 1, 1, 3], Side::Abort),
        ([1, 1, 1, 4], Side::Abort),
    ] {
        let (site, sent) = timed_out(site(true, None, None, first), Role::Coordinator);
        assert_eq!(site.log.group, group(side, site.vector.codes()));
        assert_eq!(sent.unwrap().kind, Kind::Join(side));
    }
}

#[test]
fn each_group_has_its_own_quorum() {
    // Commit takes 3 entries here, abort 2; the own entry is one of them.
    for (side, first, ends) in [
        (Side::Commit, [2, 2, 0, 3], false),
        (Side::Commit, [2, 2, 2, 3], true),
        (Side::Commit, [3, 2, 3, 3], false),
        (Side::Abort, [2, 3, 2, 2], false),
        (Side::Abort, [0, 3, 0, 3], true),
    ] {
        let (site, sent) = timed_out(site(true, Some(side), None, first), Role::Coordinator);
        let wanted = if ends {
            (Some(side), Kind::Outcome)
        } else {
            (None, Kind::Join(side))
        };
        assert_eq!((site.log.outcome, sent.unwrap().kind), wanted);
    }
}

#[test]
fn a_crash_keeps_the_log_alone() {
    let held = site(true, None, Some(Side::Commit), [4, 4, 4, 4]);
    let (down, sent) = after(held, None, Command::Crash(1));
    assert_eq!(down.vector, vector(&[0, 4, 0, 0]));
    assert_eq!(down.log, held.log);
    assert_eq!(sent, None);
    let (up, sent) = after(down, None, Command::Recover(1));
    assert_eq!(up, Site { up: true, ..down });
    assert_eq!(sent, None);
}

#[test]
fn a_restart_with_an_empty_log_aborts() {
    for role in [Role::Subordinate, Role::Coordinator] {
        let down = Site {
            up: false,
            role,
            ..site(false, None, None, [4, 0, 3, 1])
        };
        let (up, sent) = after(down, None, Command::Recover(1));
        assert_eq!(up, site(false, None, Some(Side::Abort), [4, 5, 3, 1]));
        assert_eq!(sent, None);
    }
}

#[test]
fn a_restart_with_any_record_changes_nothing_else() {
    for held in [
        site(true, None, None, [1, 1, 0, 0]),
        site(true, Some(Side::Commit), None, [2, 2, 1, 1]),
        site(false, Some(Side::Abort), None, [3, 3, 0, 0]),
        site(true, None, Some(Side::Commit), [4, 4, 0, 0]),
        site(false, None, Some(Side::Abort), [0, 5, 0, 0]),
    ] {
        assert_comes_back(held);
    }
}

/// The site comes back as it was, whatever its role.
fn assert_comes_back(held: Site) {
    for role in [Role::Subordinate, Role::Coordinator] {
        let down = Site {
            up: false,
            role,
            ..held
        };
        let (up, sent) = after(down, None, Command::Recover(1));
        assert_eq!(up, Site { up: true, ..down });
        assert_eq!(sent, None);
    }
}

#[test]
fn a_row_lies_in_the_store_byte_by_byte() {
    let mut world = World::fresh(Sizes::new(16, 15, 2, u16::MAX));
    let mut store = vec![7; STORE_BYTES];
    world.row_count = 3;
    assert_eq!(
        one_command(&mut world, &mut store, Ask::new(&[1], 0)),
        Ok(1)
    );
    let mut wanted = vec![7; STORE_BYTES];
    wanted[3 * ROW_BYTES..4 * ROW_BYTES].fill(0);
    wanted[3 * ROW_BYTES] = 1;
    wanted[3 * ROW_BYTES + 2] = 0xfe;
    wanted[3 * ROW_BYTES + 3] = 0xff;
    wanted[3 * ROW_BYTES + 4] = 1;
    assert_eq!(store, wanted);
}
