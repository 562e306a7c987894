//! Rows from any sender, the receiver itself too: that its entry is taken first
//! shows in nothing.
//!
//! In the base world site 3 is prepared and holds 1 0 0 1 0. It gets row 5, made to
//! come from any site.

use model::sizes::everyone;
use model::{Side, Sizes, State, World};

use super::commands::Case;
use super::news::told;
use super::shared::{deliver, Done};
use crate::comparer::Comparer;

/// The receiver.
const ME: usize = 3;

/// The kinds at which a prepared site does nothing but merge and reply.
const QUIET: [u8; 5] = [1, 2, 5, 6, 7];

/// A case, the news that it brings, and the codes that site 3 holds after it.
type Ending = (Case, usize, [u8; 5]);

/// Row 5 of this kind and sender with these codes, to site 3.
fn sent(name: &'static str, kind: u8, sender: u8, codes: [u8; 5]) -> Case {
    told(name, kind, codes, ME).row(1, sender)
}

/// The sender's entry rises, or others' do, or all.
fn rising(kind: u8) -> Vec<Ending> {
    let alone = |sender, codes| sent("0 sender: its entry alone", kind, sender, codes);
    let too = |sender, codes| sent("0 sender: its entry and others", kind, sender, codes);
    let others = |sender, codes| sent("0 sender: others alone", kind, sender, codes);
    let site_0 = |sender, codes| sent("0 sender: site 0, by another", kind, sender, codes);
    vec![
        (alone(0, [2, 0, 0, 0, 0]), 1, [2, 0, 0, 1, 0]),
        (alone(1, [0, 1, 0, 0, 0]), 1, [1, 1, 0, 1, 0]),
        (alone(4, [1, 0, 0, 1, 3]), 1, [1, 0, 0, 1, 3]),
        (too(0, [3, 0, 1, 0, 0]), 2, [3, 0, 1, 1, 0]),
        (too(2, [1, 1, 2, 1, 1]), 3, [1, 1, 2, 1, 1]),
        (too(4, [0, 1, 0, 2, 2]), 2, [1, 1, 0, 1, 2]),
        (others(0, [1, 1, 2, 0, 1]), 3, [1, 1, 2, 1, 1]),
        (others(4, [0, 1, 0, 0, 0]), 1, [1, 1, 0, 1, 0]),
        (site_0(1, [2, 0, 0, 0, 0]), 1, [2, 0, 0, 1, 0]),
        (site_0(4, [3, 0, 0, 0, 1]), 2, [3, 0, 0, 1, 1]),
    ]
}

/// The row comes from the receiver itself, which takes its entry from no row.
fn own(kind: u8) -> Vec<Ending> {
    let own = |codes| sent("0 sender: the receiver", kind, ME as u8, codes);
    vec![
        (own([0, 0, 0, 0, 0]), 0, [1, 0, 0, 1, 0]),
        (own([1, 0, 0, 2, 0]), 0, [1, 0, 0, 1, 0]),
        (own([1, 0, 0, 5, 0]), 0, [1, 0, 0, 1, 0]),
        (own([2, 0, 0, 1, 1]), 2, [2, 0, 0, 1, 1]),
        (own([2, 1, 1, 4, 1]), 4, [2, 1, 1, 1, 1]),
    ]
}

/// Both outcomes are shown, and the sender is not the lowest to show one, or is.
fn outcomes(kind: u8) -> Vec<Ending> {
    let lowest = |sender, codes| sent("0 sender: the lowest site decides", kind, sender, codes);
    let held = lowest(4, [0, 0, 0, 0, 4]).world(told_of_abort);
    let own = sent(
        "0 sender: the receiver, of outcomes",
        kind,
        3,
        [0, 5, 4, 4, 0],
    );
    vec![
        (lowest(2, [0, 5, 4, 0, 0]), 2, [1, 5, 4, 5, 0]),
        (lowest(2, [0, 4, 5, 0, 0]), 2, [1, 4, 5, 4, 0]),
        (lowest(4, [5, 0, 0, 0, 4]), 2, [5, 0, 0, 5, 4]),
        (lowest(1, [0, 5, 4, 0, 4]), 3, [1, 5, 4, 5, 4]),
        (held, 1, [1, 5, 0, 5, 4]),
        (own, 2, [1, 5, 4, 5, 0]),
    ]
}

/// Site 3 has heard of an abort at site 1, and has none.
fn told_of_abort(w: &mut World) {
    w.sites[ME].vector.set(1, State::Terminated(Side::Abort));
}

/// A join from the receiver itself, and one from another.
fn joins() -> Vec<Ending> {
    let own = |kind, codes| sent("0 sender: the receiver, a join", kind, 3, codes);
    let other = |kind, codes| sent("0 sender: a join", kind, 2, codes);
    vec![
        (own(3, [2, 0, 0, 2, 0]), 1, [2, 0, 0, 2, 0]),
        (own(3, [0, 0, 0, 3, 0]), 0, [1, 0, 0, 2, 0]),
        (own(4, [0, 0, 0, 2, 1]), 1, [1, 0, 0, 3, 1]),
        (other(3, [2, 0, 2, 0, 0]), 2, [2, 0, 2, 2, 0]),
        (other(4, [1, 0, 3, 0, 1]), 2, [1, 0, 3, 3, 1]),
    ]
}

/// Sixteen fresh sites. A vote from any of them, the receiver too, tells site 7 that
/// all are prepared.
fn wide(sender: u8) -> Case {
    let case = Case::new("0 sender: any of sixteen", 0, deliver(5, 7)).world(sixteen);
    let head = [2, sender, 0xff, 0xff];
    let bytes = head.into_iter().chain([1; 16]).enumerate();
    bytes.fold(case, |case, (at, byte)| case.row(at, byte))
}

fn sixteen(w: &mut World) {
    let rows = w.row_count;
    *w = World::fresh(Sizes::new(16, 9, 9, everyone(16)));
    w.row_count = rows;
}

/// The news and the vector at a site are as is due, on both sides.
fn ends(both: &mut Comparer, case: &Case, site: usize, news: usize, codes: &[u8]) -> Done {
    case.check(both)?;
    let after = case.world_after();
    let brought = after.news - case.world.news;
    let held = &after.sites[site].vector.codes()[..codes.len()];
    if (brought, held) != (news, codes) {
        return Err(format!("{}: {brought} for {held:?}\n", case.name));
    }
    Ok(())
}

fn among_five(both: &mut Comparer) -> Done {
    let quiet = QUIET.into_iter().flat_map(|kind| [rising(kind), own(kind)]);
    let ended = (1..=7).map(outcomes);
    let mut cases = quiet.chain(ended).chain([joins()]).flatten();
    cases.try_for_each(|(case, news, codes)| ends(both, &case, ME, news, &codes))
}

fn among_sixteen(both: &mut Comparer) -> Done {
    let mut codes = [1; 16];
    codes[7] = 0;
    (0..16).try_for_each(|sender| ends(both, &wide(sender), 7, 15, &codes))
}

pub fn senders(both: &mut Comparer) -> Done {
    among_five(both)?;
    among_sixteen(both)
}
