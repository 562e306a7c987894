//! Every way in which all sites can be in a group: the group that has its quorum wins.

use model::sizes::everyone;
use model::{Side, Site, Sizes, State};

use crate::common::rounds::{split, winner};
use crate::common::weighted;
use crate::just_meeting;

/// Weights, and a commit quorum; the abort quorum just meets it.
const WEIGHED: [(&[u8], usize); 8] = [
    (&[1, 2, 2], 3),
    (&[200, 150, 100], 250),
    (&[255, 254, 2], 256),
    (&[5, 4, 1, 1, 3], 8),
    (&[5, 4, 1, 1, 3], 6),
    (&[3, 1, 1, 1, 1], 4),
    (&[1, 1, 1, 1, 3], 4),
    (&[9, 1, 8, 2, 7, 3], 17),
];

/// Rounds from the sites with a bit here in the commit group and the others in the abort
/// group: does the commit group win? One of them has its quorum.
fn commits(sizes: Sizes, commit: u16) -> bool {
    let day = split(sizes, commit);
    let side = |site| match commit >> site & 1 {
        1 => Side::Commit,
        _ => Side::Abort,
    };
    let groups = (0..sizes.n).map(|site| State::InGroup(side(site)));
    assert!(day.world.members().iter().map(Site::state).eq(groups));
    assert!(day.is_ready());
    let winner = winner(&sizes, commit);
    assert_eq!(day.rounds(3).check(), Ok(winner), "{sizes:?}, {commit:b}");
    assert!(matches!(day.rounds_needed(), Some(1 | 2)));
    winner == Side::Commit
}

/// How many splits there are, and in how many the commit group wins.
fn splits(sizes: Sizes) -> [usize; 2] {
    let all = 0..=everyone(sizes.n);
    let won = all.clone().filter(|&commit| commits(sizes, commit));
    [all.count(), won.count()]
}

/// Over all quorums of n sites; each group wins half of them, for the quorums come in
/// pairs.
#[test]
fn every_split_of_a_few_sites() {
    for (n, counts) in [
        (3, [8, 4]),
        (4, [2 * 16, 16]),
        (5, [3 * 32, 48]),
        (6, [4 * 64, 128]),
        (7, [5 * 128, 320]),
    ] {
        let sum = |[all, won]: [usize; 2], [more, wins]: [usize; 2]| [all + more, won + wins];
        let found = just_meeting(n).map(splits).fold([0, 0], sum);
        assert_eq!(found, counts, "{n} sites");
    }
}

#[test]
fn every_split_of_weighted_sites() {
    for (weights, commit) in WEIGHED {
        let all: usize = weights.iter().map(|&weight| usize::from(weight)).sum();
        let [all, won] = splits(weighted(weights, commit, all + 1 - commit));
        assert_eq!(all, 1 << weights.len());
        assert!(0 < won && won < all);
    }
}
