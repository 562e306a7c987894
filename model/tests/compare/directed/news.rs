//! The news that a delivery brings, what is no news, and the limit.
//!
//! In the base world site 0 holds 2 1 1 1 1, site 1 holds 2 2 1 1 1, site 2 holds
//! 2 1 2 1 1, site 3 holds 1 0 0 1 0, and site 4 is down. Row 5 tells 2 1 1 1 1, row
//! 6 tells site 0 2 2 1 1 1.

use model::world::{MAX_NEWS, MAX_ROWS};
use model::{Command, World};

use super::commands::{not_started, Case};
use super::shared::{deliver, Done};
use crate::comparer::Comparer;

use Command::{Crash, Recover, Start, Timeout};

/// A case, and the news that it brings.
type Bringing = (usize, Case);

/// Row 5 with these codes and of this kind, to a site.
pub fn told(name: &'static str, kind: u8, codes: [u8; 5], site: usize) -> Case {
    let case = Case::new(name, 0, deliver(5, site)).row(0, kind);
    let entries = codes.into_iter().enumerate();
    entries.fold(case, |case, (entry, code)| case.row(4 + entry, code))
}

/// Deliveries of the base world's own rows.
fn plain() -> Vec<Bringing> {
    vec![
        (0, Case::new("0 news: none", 0, deliver(5, 1))),
        (0, Case::new("0 news: none", 0, deliver(5, 2))),
        (1, Case::new("0 news: one", 0, deliver(6, 0))),
        (4, Case::new("0 news: several", 0, deliver(5, 3))),
    ]
}

/// Every kind of row, with codes that are higher, equal or lower.
fn levels() -> Vec<Bringing> {
    (1..=7)
        .flat_map(|kind| {
            [
                (0, told("0 news: own entry told", kind, [1, 0, 0, 5, 0], 3)),
                (0, told("0 news: own entry told", kind, [1, 0, 0, 2, 0], 3)),
                (2, told("0 news: own entry told", kind, [3, 1, 0, 3, 0], 3)),
                (4, told("0 news: all others", kind, [4; 5], 3)),
                (4, told("0 news: all others", kind, [5; 5], 2)),
                (0, told("0 news: equal levels", kind, [3, 3, 1, 1, 1], 1)),
                (0, told("0 news: equal levels", kind, [3, 1, 3, 1, 1], 2)),
                (1, told("0 news: equal levels", kind, [3, 2, 3, 1, 1], 1)),
                (0, told("0 news: lower levels", kind, [0; 5], 2)),
                (1, told("0 news: lower levels", kind, [1, 0, 0, 0, 2], 2)),
            ]
        })
        .collect()
}

/// What is no news: the receiver's own change, and codes from n up.
fn no_news() -> Vec<Bringing> {
    let join = |kind| told("0 news: own entry changed", kind, [0; 5], 3);
    let beyond = (9..20).fold(
        Case::new("0 news: codes from n up", 0, deliver(5, 1)),
        |case, at| case.row(at, 5),
    );
    vec![(0, join(3)), (0, join(4)), (0, beyond)]
}

/// Sums that carry from byte to byte.
fn carries() -> Vec<Bringing> {
    [251, 252, 255, 65_531, 65_532, 65_535, 131_070]
        .map(|news| {
            let case = Case::new("0 news: carried", 0, deliver(5, 3));
            (4, case.news(news))
        })
        .into()
}

/// Row 5 at site 3 brings 4, and none at site 1.
fn limit() -> Vec<Bringing> {
    let to = |name, number, site| Case::new(name, number, deliver(5, site));
    let mut cases = vec![
        (4, to("0 news: limit reached", 0, 3).news(MAX_NEWS - 4)),
        (4, to("0 news: limit not reached", 0, 3).news(MAX_NEWS - 5)),
        (0, to("0 news: none at the limit", 0, 1).news(MAX_NEWS)),
        (0, to("15 before 17", 15, 3).news(MAX_NEWS).full()),
        (0, to("15 before 17", 15, 3).news(MAX_NEWS - 3).full()),
        (0, to("12 before 17", 12, 4).news(MAX_NEWS)),
        (0, to("11 before 17", 11, 3).row(2, 0).news(MAX_NEWS)),
        (0, to("10 before 17", 10, 3).row(0, 8).news(MAX_NEWS)),
        (0, to("17 before 15", 17, 3).news(MAX_NEWS + 1).full()),
    ];
    for past in 1..=4 {
        let news = MAX_NEWS - 4 + past;
        let last = |w: &mut World| w.row_count = MAX_ROWS - 1;
        cases.push((0, to("17 news past the limit", 17, 3).news(news)));
        let case = to("17 news past the limit", 17, 3).world(last);
        cases.push((0, case.news(news)));
        // A reply needs no room.
        let case = to("17 news past the limit", 17, 3).row(0, 2).full();
        cases.push((0, case.news(news)));
    }
    cases
}

/// Commands other than DELIVER, far from the limit and at it.
fn others() -> Vec<Bringing> {
    let amounts = [0, 7, MAX_NEWS].into_iter();
    amounts.flat_map(others_with).collect()
}

/// The same where there is so much news.
fn others_with(news: usize) -> Vec<Bringing> {
    let cases = other_commands().into_iter();
    cases.map(|case| (0, case.news(news))).collect()
}

fn other_commands() -> Vec<Case> {
    let mut cases = vec![
        Case::new("0 news: START", 0, Start).world(not_started),
        Case::new("0 news: RECOVER", 0, Recover(4)),
        Case::new("0 news: RECOVER", 0, Recover(0))
            .world(not_started)
            .world(|w| w.sites[0].up = false),
    ];
    for site in 0..4 {
        cases.push(Case::new("0 news: TIMEOUT", 0, Timeout(site)));
        cases.push(Case::new("0 news: CRASH", 0, Crash(site)));
    }
    cases
}

pub fn news(both: &mut Comparer) -> Done {
    let groups = [plain(), levels(), no_news(), carries(), limit(), others()];
    for (brought, case) in groups.iter().flatten() {
        case.check(both)?;
        let (news, wanted) = (case.world_after().news, case.world.news + brought);
        if news != wanted {
            return Err(format!("{}: news {news}, {wanted} due\n", case.name));
        }
    }
    Ok(())
}
