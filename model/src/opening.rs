//! What lists begin with, accepted or refused.

use crate::header::{Edition, Header, HEADER_BYTES, SECOND, WEIGHTS_AT};
use crate::number;
use crate::sizes::Sizes;

/// Things that a list's header can be.
#[derive(Clone, Copy, Debug, PartialEq, Eq, PartialOrd, Ord)]
pub enum Opening {
    /// A header of the first edition that is accepted.
    First,
    /// One of the second.
    Second,
    /// One of the second that the first edition could say too.
    SecondOfOnes,
    /// One with a quorum above 255.
    LargeQuorum,
    /// One with a site of 255.
    HeaviestSite,
    /// One with as much weight as there can be.
    MostWeight,
    /// One with a quorum of all but the heaviest site.
    MostQuorum,
    /// One with quorums that just meet.
    JustMeeting,
    /// The byte of the second edition, and a length refused with 2.
    UnderFive,
    /// Another n than 3 to 16 in the second edition.
    BadSites,
    /// A header of the second edition that is cut.
    Cut,
    /// One that is cut after a weight of 0.
    CutAfterZero,
    /// A weight of 0.
    ZeroWeight,
    /// A weight of 0, and quorums that do not fit either.
    ZeroBeforeQuorums,
    /// A commit quorum that cannot be had without the heaviest site.
    LargeCommit,
    /// Such an abort quorum.
    LargeAbort,
    /// Quorums that do not meet.
    NotMeeting,
    /// A willing bit at n or above in the second edition.
    BadWilling,
    /// A byte that a later edition begins with.
    LaterEdition,
}

impl Opening {
    pub const ALL: [Opening; 19] = [
        Opening::First,
        Opening::Second,
        Opening::SecondOfOnes,
        Opening::LargeQuorum,
        Opening::HeaviestSite,
        Opening::MostWeight,
        Opening::MostQuorum,
        Opening::JustMeeting,
        Opening::UnderFive,
        Opening::BadSites,
        Opening::Cut,
        Opening::CutAfterZero,
        Opening::ZeroWeight,
        Opening::ZeroBeforeQuorums,
        Opening::LargeCommit,
        Opening::LargeAbort,
        Opening::NotMeeting,
        Opening::BadWilling,
        Opening::LaterEdition,
    ];
}

/// All that a list's header is.
pub fn openings(list: &[u8]) -> Vec<Opening> {
    let found = match (Header::of_list(list), list) {
        (Ok(header), _) => accepted(Edition::of(list), &header.sizes),
        (Err(number), [SECOND, ..]) => refused(number, list),
        (Err(number::SITES), [131 | 132, ..]) => vec![(Opening::LaterEdition, true)],
        _ => Vec::new(),
    };
    let met = found.into_iter().filter(|&(_, is_met)| is_met);
    met.map(|(opening, _)| opening).collect()
}

fn accepted(edition: Edition, sizes: &Sizes) -> Vec<(Opening, bool)> {
    if edition == Edition::First {
        return vec![(Opening::First, true)];
    }
    let quorums = [sizes.commit_quorum, sizes.abort_quorum];
    let most = sizes.weight() - sizes.heaviest();
    let meet = quorums.iter().sum::<usize>() == sizes.weight() + 1;
    vec![
        (Opening::Second, true),
        (Opening::SecondOfOnes, sizes.weight() == sizes.n),
        (Opening::LargeQuorum, quorums.iter().any(|&q| q > 255)),
        (Opening::HeaviestSite, sizes.heaviest() == 255),
        (Opening::MostWeight, sizes.weight() == 16 * 255),
        (Opening::MostQuorum, quorums.contains(&most)),
        (Opening::JustMeeting, meet),
    ]
}

/// A list of the second edition that is refused with this number.
fn refused(number: u8, list: &[u8]) -> Vec<(Opening, bool)> {
    let has_zero = list.iter().skip(WEIGHTS_AT).any(|&weight| weight == 0);
    let is_long = list.len() >= HEADER_BYTES;
    match number {
        number::LIST_SHORT => vec![
            (Opening::UnderFive, !is_long),
            (Opening::Cut, is_long),
            (Opening::CutAfterZero, has_zero),
        ],
        number::SITES => vec![(Opening::BadSites, true)],
        number::WEIGHT => vec![
            (Opening::ZeroWeight, true),
            (Opening::ZeroBeforeQuorums, !Quorums::of(list).fit()),
        ],
        number::QUORUMS => Quorums::of(list).met(),
        number::WILLING => vec![(Opening::BadWilling, true)],
        _ => Vec::new(),
    }
}

/// The quorums of a whole header of the second edition, and their bounds.
struct Quorums {
    commit: usize,
    abort: usize,
    most: usize,
    all: usize,
}

impl Quorums {
    fn of(list: &[u8]) -> Quorums {
        let word_at = |at| usize::from(u16::from_le_bytes([list[at], list[at + 1]]));
        let weights = &list[WEIGHTS_AT..][..list[1].into()];
        let all: usize = weights.iter().map(|&weight| usize::from(weight)).sum();
        let heaviest = weights.iter().copied().max().unwrap_or(0);
        Quorums {
            commit: word_at(2),
            abort: word_at(4),
            most: all - usize::from(heaviest),
            all,
        }
    }

    fn met(&self) -> Vec<(Opening, bool)> {
        vec![
            (Opening::LargeCommit, self.commit > self.most),
            (Opening::LargeAbort, self.abort > self.most),
            (Opening::NotMeeting, self.commit + self.abort <= self.all),
        ]
    }

    fn fit(&self) -> bool {
        self.met().iter().all(|&(_, is_met)| !is_met)
    }
}
