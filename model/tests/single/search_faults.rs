//! What faults break in all histories of a few steps of three sites.

use std::collections::BTreeSet;

use model::claim::Broken;
use model::single::{step, take};
use model::{Input, Log, Site, State, Stepped, Terms};

use crate::search::{search, StepBy, COMMIT, VOTES};

/// The step, and then this of what a crash leaves.
fn crashing(
    (terms, site, input): (&Terms, &mut Site, Input),
    spoil: impl FnOnce(Site, &mut Site),
) -> Result<Stepped, u8> {
    let before = *site;
    let stepped = step(terms, site, input)?;
    if input == Input::Crash {
        spoil(before, site);
        site.vector.set(terms.own, site.state());
    }
    Ok(stepped)
}

/// The prepare record is not there after a crash.
fn without_prepare(terms: &Terms, site: &mut Site, input: Input) -> Result<Stepped, u8> {
    crashing((terms, site, input), |_, site| site.log.prepare = false)
}

/// Nor is the group record.
fn without_group(terms: &Terms, site: &mut Site, input: Input) -> Result<Stepped, u8> {
    crashing((terms, site, input), |_, site| site.log.group = None)
}

/// The codes are still there after a crash.
fn with_codes(terms: &Terms, site: &mut Site, input: Input) -> Result<Stepped, u8> {
    crashing((terms, site, input), |before, site| {
        site.vector = before.vector
    })
}

/// A site with an empty log is fresh after a crash.
fn with_fresh_site(terms: &Terms, site: &mut Site, input: Input) -> Result<Stepped, u8> {
    crashing((terms, site, input), |_, site| {
        if site.log == Log::EMPTY {
            *site = Site::FRESH;
        }
    })
}

/// START is accepted at any site that is up and active.
fn starting_anywhere(terms: &Terms, site: &mut Site, input: Input) -> Result<Stepped, u8> {
    match (input, site.up, site.state()) {
        (Input::Start, true, State::Active) => Ok(take(terms, site, input, None)),
        _ => step(terms, site, input),
    }
}

/// Any row is taken, whatever its destinations are.
fn with_any_row(terms: &Terms, site: &mut Site, input: Input) -> Result<Stepped, u8> {
    match input {
        Input::Deliver(row) => {
            let mut row = *row;
            row[2] = 0xff;
            step(terms, site, Input::Deliver(&row))
        }
        _ => step(terms, site, input),
    }
}

/// Faults, and what they break in all histories of so many steps, from fresh sites on,
/// after complete votes and after a commit: lost records do, and the others break nothing
/// there.
const FAULTS: [(&str, StepBy, usize, &[Broken]); 6] = [
    ("P lost", without_prepare, 6, &[Broken::TwoOutcomes]),
    (
        "group lost",
        without_group,
        7,
        &[Broken::TwoOutcomes, Broken::SecondGroup],
    ),
    ("codes kept", with_codes, 6, &[]),
    ("fresh after a crash", with_fresh_site, 6, &[]),
    ("START anywhere", starting_anywhere, 6, &[]),
    ("any row", with_any_row, 6, &[]),
];

#[test]
fn what_faults_break_in_all_histories() {
    let commit = [&VOTES[..], &COMMIT].concat();
    for (name, step, steps, due) in FAULTS {
        let (mut broken, mut seen) = (BTreeSet::new(), 0);
        for from in [&[], &VOTES[..], &commit] {
            let found = search(step, 7, from, steps);
            broken.extend(found.broken);
            seen += found.seen.len();
        }
        println!("{name}, {steps} steps: {broken:?} in {seen}");
        assert!(broken.iter().eq(due), "{name}");
    }
}
