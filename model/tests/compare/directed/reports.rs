//! Reports: every stop number, buffer length and edge of the counts.

use model::calls::RESULT_BYTES;
use model::layout::encode;
use model::report::REPORT_BYTES;
use model::sizes::{everyone, MAX_LIST};
use model::{number, Numbers, Sizes, World};

use super::shared::{base, Done, SOME};
use crate::common::{weighted, widest};
use crate::comparer::Comparer;

/// Buffer lengths around the limit.
const BUFFERS: [usize; 9] = [0, 1, 1_022, 1_023, 1_024, 1_025, 1_026, 2_048, 5_000];

const EDGES: [usize; 9] = [
    0,
    9,
    10,
    32_767,
    32_768,
    32_769,
    1 << 16,
    1 << 32,
    usize::MAX,
];

pub fn reports(both: &mut Comparer) -> Done {
    for world in worlds() {
        for size in BUFFERS {
            stops(both, &world, size)?;
            edges(both, &world, size)?;
        }
    }
    Ok(())
}

/// Worlds to report: fresh ones, the base, one of different weights, and the widest
/// text there is.
fn worlds() -> Vec<World> {
    let fresh = (3..=16).map(|n| World::fresh(Sizes::new(n, n - 1, n - 1, everyone(n))));
    let heavy = World::fresh(weighted(&[200, 150, 100], 250, 201));
    fresh.chain([base().0, heavy, widest()]).collect()
}

/// Every stop number there is, and some beyond.
fn stops(both: &mut Comparer, world: &World, size: usize) -> Done {
    let beyond = [23, 24, 255, 256, 257, 256 + 22, 1 << 16, u32::MAX];
    for stop in (0..=number::LAST.into()).chain(beyond) {
        let refused = (stop > number::LAST.into()).then_some("17 stop number");
        check(both, world, Numbers { stop, ..SOME }, size, refused)?;
    }
    Ok(())
}

/// Each count and place around its limit.
fn edges(both: &mut Comparer, world: &World, size: usize) -> Done {
    for edge in EDGES {
        let is_over = edge > MAX_LIST;
        let events = is_over.then_some("17 events over 32,768");
        let place = is_over.then_some("17 place over 32,768");
        let stopped = Numbers {
            events: MAX_LIST,
            stop: 12,
            place: edge,
        };
        check(
            both,
            world,
            Numbers {
                events: edge,
                ..SOME
            },
            size,
            events,
        )?;
        check(
            both,
            world,
            Numbers {
                place: edge,
                ..SOME
            },
            size,
            place,
        )?;
        check(both, world, stopped, size, place)?;
    }
    Ok(())
}

/// A report that gives 17 for the clause named, if any, else 18 if the buffer
/// is too short.
fn check(
    both: &mut Comparer,
    world: &World,
    numbers: Numbers,
    size: usize,
    refused: Option<&'static str>,
) -> Done {
    let (name, number) = match refused {
        Some(name) => (name, 17),
        None if size < REPORT_BYTES => ("18 buffer too short", 18),
        None => ("0 report", 0),
    };
    let given = both.report(&encode(world), numbers, size, RESULT_BYTES)?;
    both.clause(name, number, given)
}
