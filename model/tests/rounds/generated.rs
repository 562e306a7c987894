//! Three rounds from many worlds that generated lists lead to.

use model::Edition;

use crate::common::rounds::sorts::{End, Met};
use crate::common::rounds::worlds;
use crate::SEED;

const WORLDS: usize = 6_000;
/// How many worlds of each sort there must be.
const LEAST: usize = 100;

#[test]
fn from_generated_worlds_everyone_ends_alike() {
    let (mut met, mut second) = (Met::default(), 0);
    for (day, back) in worlds(SEED).take(WORLDS) {
        let tried = day.rounds(3);
        let checked = tried.check();
        let side = checked.unwrap_or_else(|why| panic!("{why}: {:?}", day.list));
        let needed = day.rounds_needed().expect("they have ended");
        assert!(needed <= 2, "{needed} rounds are needed: {:?}", day.list);
        met.add(&tried, End { back, side, needed });
        second += usize::from(Edition::of(&day.list) == Edition::Second);
    }
    println!("generated: {met}, second edition: {second}");
    assert_eq!(met.worlds, WORLDS);
    assert!(WORLDS / 3 < second && second < 2 * WORLDS / 3);
    assert!(met.sites.iter().copied().eq(3..=16));
    met.assert_rich(LEAST);
}
