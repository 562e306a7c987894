//! What a crash leaves: the log, and nothing that is not in it.

use model::calls::Model;
use model::disk::Disk;
use model::generate::{Generator, Rng};
use model::layout::{CODES, SITE_BYTES};
use model::network::SiteBytes;
use model::step_call::Steps;
use model::{number, Input};

use crate::SEED;

/// How many crashes are looked at.
const CRASHES: usize = 20_000;

/// Gives CRASH to a site; gives the site then.
fn crashed(terms: &[u8], mut site: SiteBytes) -> Option<SiteBytes> {
    let command = Input::Crash.bytes();
    let number = Model.step(terms, &mut site, &command, &mut [0; 20], &mut [0; 8]);
    (number == number::NONE.into()).then_some(site)
}

/// Generated sites that can crash, with their terms.
fn sites() -> impl Iterator<Item = (Vec<u8>, SiteBytes)> {
    let mut generator = Generator::new(SEED);
    (0..).filter_map(move |_| {
        let call = generator.next_step_call();
        let site: SiteBytes = call.site.try_into().ok()?;
        crashed(&call.terms, site)?;
        Some((call.terms, site))
    })
}

#[test]
fn a_crash_leaves_the_site_of_its_log() {
    let mut logs = [0; 2];
    for (terms, site) in sites().take(CRASHES) {
        let own = usize::from(terms[6]);
        let disk = Disk::of(&site);
        assert_eq!(crashed(&terms, site), Some(disk.site(own)));
        logs[usize::from(disk == Disk::EMPTY)] += 1;
    }
    println!("{} crashes with a record, {} with none", logs[0], logs[1]);
    assert!(logs.iter().all(|&count| count > CRASHES / 20));
}

/// Other codes and another role, the same log: the same site is left.
#[test]
fn what_is_not_in_the_log_does_not_matter() {
    let mut rng = Rng::new(SEED);
    let mut others = 0;
    for (terms, site) in sites().take(CRASHES) {
        let (n, own) = (usize::from(terms[1]), usize::from(terms[6]));
        let mut other = site;
        other[1] ^= 1;
        for at in (0..n).filter(|&at| at != own) {
            other[CODES.start + at] = rng.below(6) as u8;
        }
        assert_eq!(crashed(&terms, other), crashed(&terms, site));
        others += usize::from(other[CODES] != site[CODES]);
    }
    assert!(others > CRASHES / 2);
}

/// The six states, and the vector that the group record has.
#[test]
fn the_site_of_each_log() {
    let vector = |codes: [u8; 3]| {
        let mut vector = [0; 16];
        vector[..3].copy_from_slice(&codes);
        vector
    };
    let cases = [
        ([0, 0, 0], [0, 0, 0], [0, 0, 0]),
        ([1, 0, 0], [0, 0, 0], [0, 1, 0]),
        ([1, 1, 0], [1, 2, 1], [1, 2, 1]),
        ([0, 2, 0], [3, 3, 0], [3, 3, 0]),
        ([1, 1, 1], [1, 2, 1], [1, 4, 1]),
        ([0, 0, 2], [0, 0, 0], [0, 5, 0]),
    ];
    for ([prepare, group, outcome], codes, left) in cases {
        let disk = Disk {
            prepare,
            group,
            vector: vector(codes),
            outcome,
        };
        let mut wanted = [0; SITE_BYTES];
        wanted[2..5].copy_from_slice(&[prepare, group, outcome]);
        wanted[8..11].copy_from_slice(&left);
        wanted[24..27].copy_from_slice(&codes);
        assert_eq!(disk.site(1), wanted);
    }
}
