//! Every sort of log with every role and some codes, told everything that there is to tell.

use model::sizes::everyone;
use model::{GroupRecord, Input, Kind, Log, Role, Row, Side, Site, Sizes, State, Vector};

use super::comparer::Stepping;
use super::directed::{call, Done};
use crate::common::{vector, weighted};

const N: usize = 4;
const SIDES: [Side; 2] = [Side::Commit, Side::Abort];

/// Four sites: all willing, none willing, and of different weight.
fn sizes() -> [Sizes; 3] {
    let willing = Sizes::new(N, 2, 3, everyone(N));
    let unwilling = Sizes {
        willing: 0,
        ..willing
    };
    [willing, unwilling, weighted(&[5, 1, 3, 2], 6, 6)]
}

/// A vector that says the same of all other sites.
fn known(code: u8, own: usize, state: State) -> Vector {
    let mut known = vector(&[code; N]);
    known.set(own, state);
    known
}

/// All logs that a site can have but for the vectors in them.
fn logs(own: usize) -> Vec<Log> {
    let groups = [None, Some(Side::Commit), Some(Side::Abort)];
    let outcomes = [None, Some(Side::Commit), Some(Side::Abort)];
    let mut logs = Vec::new();
    for at in 0..2 * 3 * 3 {
        let group = groups[at / 2 % 3].map(|side| GroupRecord {
            side,
            vector: known(1, own, State::InGroup(side)),
        });
        logs.push(Log {
            prepare: at % 2 == 1,
            group,
            outcome: outcomes[at / 6],
        });
    }
    logs
}

/// All sites with such a log that are up, in both roles, with any of six codes for all
/// others, or two of them that differ.
fn sites(own: usize) -> Vec<Site> {
    let mut sites = Vec::new();
    for log in logs(own) {
        for role in [Role::Subordinate, Role::Coordinator] {
            let vectors = (0..6).map(|code| known(code, own, log.state()));
            let mixed = SIDES.map(|side| {
                let mut known = known(1, own, log.state());
                known.set((own + 1) % N, State::InGroup(side));
                known
            });
            let site = |vector| Site {
                up: true,
                role,
                log,
                vector,
            };
            sites.extend(vectors.chain(mixed).map(site));
        }
    }
    sites
}

/// Rows of every kind that say one thing of all sites.
fn rows() -> Vec<Row> {
    let row = |at: usize| Row {
        kind: Kind::of(1 + (at / 6) as u8).expect("one of seven"),
        sender: at % N,
        to: u16::MAX,
        vector: vector(&[(at % 6) as u8; N]),
    };
    (0..7 * 6).map(row).collect()
}

/// All of them.
pub fn every_rule(both: &mut Stepping) -> Done {
    let rows = rows();
    for sizes in sizes() {
        for own in [0, 2] {
            for site in sites(own) {
                at_site(both, (sizes, own), &site, &rows)?;
            }
        }
    }
    Ok(())
}

/// A site that is told everything.
fn at_site(both: &mut Stepping, of: (Sizes, usize), site: &Site, rows: &[Row]) -> Done {
    let (sizes, own) = of;
    for input in [Input::Start, Input::Timeout, Input::Crash] {
        both.call(&call(sizes, own, site, input))?;
    }
    let down = Site { up: false, ..*site };
    both.call(&call(sizes, own, &down, Input::Recover))?;
    for row in rows {
        let row = row.bytes();
        both.call(&call(sizes, own, site, Input::Deliver(&row)))?;
    }
    Ok(())
}
