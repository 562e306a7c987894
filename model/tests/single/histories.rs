//! Generated histories of single sites: what is claimed of their records holds, and what
//! the results tell to force is all that a crash needs.

use model::calls::Model;
use model::disk::Disk;
use model::generate::{Course, Rng};
use model::network::{ByCall, FromDisk, Servers};
use model::Network;

use crate::common::courses::{Eye, Met};
use crate::SEED;

/// How many histories there are, and how many that have more rows than a list can have.
const HISTORIES: usize = 2_500;
const LONG: usize = 16;
/// How many there must be of each sort.
const LEAST: usize = 12;

/// Follows a history with these servers.
fn follow<'a>(course: &Course, servers: &'a dyn Servers, met: &mut Met) -> Network<'a> {
    let mut network = Network::new(&Model, servers, course.sizes);
    let mut eye = Eye::default();
    for &happening in &course.history {
        let before = network.members[happening.0].clone();
        let answer = network.step(happening).expect("a row that was sent");
        let member = &network.members[happening.0];
        assert_eq!(member.disk, Disk::of(&member.site));
        eye.look(&network, happening, &before, &answer);
    }
    met.add(eye, &network, &course.sizes);
    network
}

/// A history among the others.
fn course(at: usize) -> Course<'static> {
    let mut rng = Rng::new(SEED + at as u64);
    let sizes = Course::any_sizes(&mut rng);
    let sides = (&Model as _, &ByCall as _);
    if at < LONG {
        let limit = rng.between(3_000, 5_000);
        return Course::quarrel(&mut rng, sides, sizes, (1_100, limit));
    }
    let limit = rng.choose(&[20, 60, 120, 400]);
    match at % 4 {
        0 => Course::quarrel(&mut rng, sides, sizes, (limit / 2, limit)),
        _ => Course::wander(&mut rng, sides, sizes, limit),
    }
}

#[test]
fn the_claim_holds_in_generated_histories() {
    let mut met = Met::default();
    for at in 0..HISTORIES {
        let course = course(at);
        let by_call = follow(&course, &ByCall, &mut met);
        let from_disk = follow(&course, &FromDisk, &mut Met::default());
        assert!(by_call.broken.is_empty(), "{:?}", by_call.broken);
        assert_eq!(by_call.members, from_disk.members);
        assert_eq!(by_call.rows, from_disk.rows);
        assert_eq!(by_call.written, from_disk.written);
    }
    println!("{met}");
    met.assert_rich(LEAST);
}
