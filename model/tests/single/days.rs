//! The worked days of the paper, and some more, as steps of single sites.

use model::calls::Model;
use model::claim::{broken, Broken, WrittenBy};
use model::network::{Answer, ByCall, RowBytes, SiteBytes, FILL};
use model::number;
use model::step_call::{Steps, STEP_RESULT_BYTES};
use model::{Event, Input, Kind, Network, Record, Row, Side, Sizes, Terms};

use crate::common::{m3_sites, three_codes as site, three_sites, vector, M3_STEPS};
use Event::{Crash, Deliver, Recover, Start, Timeout};

/// A network of the model's sites.
fn network(sizes: Sizes) -> Network<'static> {
    Network::new(&Model, &ByCall, sizes)
}

/// Three sites, and steps of them that are accepted.
fn day(willing: u16, steps: &[(usize, Event)]) -> Network<'static> {
    let mut day = network(three_sites(willing));
    for &step in steps {
        let answer = day.step(step).expect("a row that was sent");
        assert_eq!(answer.number, 0, "{step:?}");
    }
    day
}

/// The number that one more step is given; nothing changes if it is refused.
fn number_of(day: &mut Network, step: (usize, Event)) -> u32 {
    let before = (day.members.clone(), day.rows.clone(), day.written.clone());
    let answer = day.step(step).expect("a row that was sent");
    if answer.number != 0 {
        let untouched = ([FILL; 20], [FILL; STEP_RESULT_BYTES]);
        assert_eq!((answer.row, answer.result), untouched);
        let after = (day.members.clone(), day.rows.clone(), day.written.clone());
        assert_eq!(before, after);
    }
    answer.number
}

/// A row's bytes.
fn row(kind: Kind, sender: usize, to: u16, codes: [u8; 3]) -> RowBytes {
    let vector = vector(&codes);
    Row {
        kind,
        sender,
        to,
        vector,
    }
    .bytes()
}

#[test]
fn m1_a_fresh_site() {
    let day = day(7, &[]);
    let fresh = site([1, 0, 0, 0, 0], [0; 3], [0; 3]);
    assert!(day.members.iter().all(|member| member.site == fresh));
}

#[test]
fn terms_lie_byte_by_byte() {
    // 762 in all; 507 without the heaviest, and 256 meets that.
    let mut sizes = Sizes::new(3, 507, 256, 0b010);
    sizes.weights[..3].copy_from_slice(&[255, 254, 253]);
    let mut wanted = [0; 32];
    wanted[..8].copy_from_slice(&[3, 3, 0xfb, 1, 0, 1, 1, 1]);
    wanted[16..19].copy_from_slice(&[255, 254, 253]);
    assert_eq!(Terms::of(sizes, 1).bytes(), wanted);
    assert_eq!(Terms::read(&wanted), Ok(Terms::of(sizes, 1)));
    wanted[6..8].copy_from_slice(&[2, 0]);
    assert_eq!(Terms::of(sizes, 2).bytes(), wanted);
}

#[test]
fn m2_start() {
    let day = day(7, &[(0, Start)]);
    let started = site([1, 1, 1, 0, 0], [1, 0, 0], [0; 3]);
    assert_eq!(day.members[0].site, started);
    assert_eq!(day.rows, [row(Kind::Prepare, 0, 0b110, [1, 0, 0])]);
    assert_eq!(day.written, [(0, Record::Prepare)]);
}

/// The paper's report, site by site. The records come in the order of the day, and the news
/// is 5.
#[test]
fn m3_step_by_step() {
    let day = day(7, &M3_STEPS);
    let members: Vec<SiteBytes> = day.members.iter().map(|member| member.site).collect();
    assert_eq!(members, m3_sites());
    let records = [
        (0, Record::Prepare),
        (1, Record::Prepare),
        (0, Record::Group(Side::Abort)),
        (2, Record::Group(Side::Abort)),
        (0, Record::Outcome(Side::Abort)),
    ];
    assert_eq!(day.written, records);
    let rows = [
        row(Kind::Prepare, 0, 0b110, [1, 0, 0]),
        row(Kind::Vote, 1, 0b001, [1, 1, 0]),
        row(Kind::Join(Side::Abort), 0, 0b110, [3, 1, 0]),
        row(Kind::InGroup, 2, 0b001, [3, 1, 3]),
        row(Kind::Outcome, 0, 0b110, [5, 1, 3]),
    ];
    assert_eq!((day.rows, day.news), (rows.to_vec(), 5));
    assert!(day.broken.is_empty());
}

/// Every byte of an answer: a join that tells two entries.
#[test]
fn an_answer_byte_by_byte() {
    let mut day = day(
        7,
        &[(0, Start), (1, Deliver(0)), (0, Deliver(1)), (0, Timeout)],
    );
    let wanted = Answer {
        number: 0,
        row: row(Kind::InGroup, 2, 0b001, [3, 1, 3]),
        result: [0, 2, 0, 0, 2, 0, 0, 0],
    };
    assert_eq!(day.step((2, Deliver(2))), Some(wanted));
}

#[test]
fn m4_an_unwilling_site() {
    let day = day(5, &[(0, Start), (1, Deliver(0)), (0, Deliver(1))]);
    let aborted = site([1, 0, 0, 0, 2], [1, 5, 0], [0; 3]);
    assert_eq!(day.members[1].site, aborted);
    let told = site([1, 1, 1, 0, 2], [5, 5, 0], [0; 3]);
    assert_eq!(day.members[0].site, told);
    let abort = Record::Outcome(Side::Abort);
    assert_eq!(day.written, [(0, Record::Prepare), (1, abort), (0, abort)]);
}

#[test]
fn m5_crash_after_start() {
    let day = day(7, &[(0, Start), (0, Crash), (0, Recover), (0, Timeout)]);
    assert_eq!(
        day.members[0].site,
        site([1, 1, 1, 0, 0], [1, 0, 0], [0; 3])
    );
    assert_eq!(day.rows, [row(Kind::Prepare, 0, 0b110, [1, 0, 0]); 2]);
    assert_eq!(day.written, [(0, Record::Prepare)]);
}

#[test]
fn m6_a_repeated_prepare() {
    let day = day(7, &[(0, Start), (1, Deliver(0)), (1, Deliver(0))]);
    assert_eq!(day.written, [(0, Record::Prepare), (1, Record::Prepare)]);
    assert_eq!(day.rows[1..], [row(Kind::Vote, 1, 0b001, [1, 1, 0]); 2]);
    assert_eq!(day.news, 1);
}

#[test]
fn m7_timeout_at_once() {
    let day = day(7, &[(2, Timeout)]);
    assert_eq!(
        day.members[2].site,
        site([1, 0, 0, 0, 2], [0, 0, 5], [0; 3])
    );
    assert!(day.rows.is_empty());
}

#[test]
fn m8_to_m10_refused() {
    let mut day = day(7, &[(0, Start)]);
    assert_eq!(number_of(&mut day, (0, Start)), number::STARTED.into());
    assert_eq!(
        number_of(&mut day, (0, Deliver(0))),
        number::NOT_SENT.into()
    );
    assert_eq!(number_of(&mut day, (1, Recover)), number::UP.into());
    assert_eq!(day.step((1, Deliver(1))), None);
}

#[test]
fn only_site_0_starts() {
    let mut day = day(7, &[]);
    for site in [1, 2] {
        assert_eq!(number_of(&mut day, (site, Start)), number::STARTED.into());
        assert_eq!(number_of(&mut day, (site, Crash)), 0);
        assert_eq!(number_of(&mut day, (site, Start)), number::DOWN.into());
    }
}

#[test]
fn a_down_site_takes_no_step_but_recovery() {
    let mut day = day(7, &[(0, Start), (1, Crash)]);
    for event in [Deliver(0), Timeout, Crash] {
        assert_eq!(number_of(&mut day, (1, event)), number::DOWN.into());
    }
    assert_eq!(number_of(&mut day, (1, Recover)), 0);
    assert_eq!(day.written[1..], [(1, Record::Outcome(Side::Abort))]);
}

/// A site that has an empty log after a crash aborts and tells nobody; its vote is no yes.
#[test]
fn a_restart_before_the_vote() {
    let steps = [(0, Start), (1, Crash), (1, Recover), (1, Deliver(0))];
    let day = day(7, &steps);
    assert_eq!(day.rows[1], row(Kind::Vote, 1, 0b001, [1, 5, 0]));
    let aborted = site([1, 0, 0, 0, 2], [1, 5, 0], [0; 3]);
    assert_eq!(day.members[1].site, aborted);
}

/// A number that is no site's is 8, whatever the site's codes are; 17, 6 and 7 come first.
#[test]
fn a_number_that_is_no_sites() {
    let number = |own: u8, site: &mut SiteBytes, command: &[u8]| {
        let mut terms = Terms::of(three_sites(7), 0).bytes();
        terms[6] = own;
        Model.step(&terms, site, command, &mut [0; 20], &mut [0; 8])
    };
    let mut odd = [0; 40];
    odd[8..].fill(99);
    for own in [3, 15, 16, 255] {
        assert_eq!(number(own, &mut odd, &Input::Crash.bytes()), 8);
        assert_eq!(number(own, &mut odd, &[2; 20]), 7);
        assert_eq!(number(own, &mut odd, &[6]), 6);
        assert_eq!(number(own, &mut [3; 40], &[1]), 17);
    }
    assert_eq!(number(2, &mut odd, &Input::Crash.bytes()), 17);
}

const COMMIT: Record = Record::Outcome(Side::Commit);
const ABORT: Record = Record::Outcome(Side::Abort);
const JOINED: Record = Record::Group(Side::Commit);

/// Every part of the claim breaks by records made for it, and by no fewer.
#[test]
fn what_breaks_the_claim() {
    let prepared = [0, 1, 2].map(|site| (site, Record::Prepare));
    let all: &[WrittenBy] = &prepared;
    let cases: [(&[WrittenBy], &[bool], &[Broken]); 9] = [
        (&[(0, COMMIT), (1, COMMIT)], &[true; 3], &[]),
        (
            &[(0, COMMIT), (1, ABORT)],
            &[true; 3],
            &[Broken::TwoOutcomes],
        ),
        (&[(1, Record::Prepare)], &[true; 3], &[]),
        (
            &[(1, Record::Prepare), (2, COMMIT)],
            &[true; 3],
            &[Broken::NotPrepared],
        ),
        (&[(2, COMMIT)], &[true, false, true], &[Broken::NotWilling]),
        (&[(0, JOINED), (1, JOINED)], &[true; 3], &[]),
        (
            &[(0, JOINED), (0, JOINED)],
            &[true; 3],
            &[Broken::SecondGroup],
        ),
        (&[(2, ABORT), (0, ABORT)], &[true, false, true], &[]),
        (
            &[(2, ABORT), (2, ABORT)],
            &[true; 3],
            &[Broken::SecondOutcome],
        ),
    ];
    for (more, willing, parts) in cases {
        assert_eq!(broken(&[all, more].concat(), willing), parts, "{more:?}");
    }
    let without = [&prepared[..2], &[(0, COMMIT)]].concat();
    assert_eq!(broken(&without, &[true; 3]), [Broken::NotPrepared]);
}
