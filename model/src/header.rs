//! The header of a list, in both editions.

use crate::number;
use crate::sizes::{check_sites, ones, Sizes, MAX_LIST, MAX_SITES};

/// Bytes in a header of the first edition; no list has fewer.
pub const HEADER_BYTES: usize = 5;
/// The byte that a list of the second edition begins with.
pub const SECOND: u8 = 130;
/// Bytes before the weights in a header of the second edition.
pub const WEIGHTS_AT: usize = 8;

/// How a list's header is written.
#[derive(Clone, Copy, Debug, PartialEq, Eq, PartialOrd, Ord)]
pub enum Edition {
    /// n, C, A and the willing bits; each site weighs 1.
    First,
    /// 130, n, C and A as 16 bits each, the willing bits, and n weights.
    Second,
}

/// What a list begins with.
#[derive(Clone, Copy, Debug, PartialEq, Eq)]
pub struct Header {
    pub sizes: Sizes,
    /// The place of the first command.
    pub end: usize,
}

impl Edition {
    /// The edition of a list that is to be played or converted, by its first byte.
    pub fn of(list: &[u8]) -> Edition {
        match list.first() {
            Some(&SECOND) => Edition::Second,
            _ => Edition::First,
        }
    }

    /// The edition that a list is converted to.
    pub fn other(self) -> Edition {
        match self {
            Edition::First => Edition::Second,
            Edition::Second => Edition::First,
        }
    }

    /// How long the header of n sites is.
    pub fn header_bytes(self, n: usize) -> usize {
        match self {
            Edition::First => HEADER_BYTES,
            Edition::Second => WEIGHTS_AT + n,
        }
    }

    /// The header that says these sizes, good or bad. The first edition says
    /// nothing of weights, and has one byte for each quorum.
    pub fn header(self, sizes: &Sizes) -> Vec<u8> {
        let words = |quorum: usize| (quorum as u16).to_le_bytes();
        let [n, commit, abort] =
            [sizes.n, sizes.commit_quorum, sizes.abort_quorum].map(|n| n as u8);
        let willing = sizes.willing.to_le_bytes();
        match self {
            Edition::First => [&[n, commit, abort][..], &willing].concat(),
            Edition::Second => [
                &[SECOND, n][..],
                &words(sizes.commit_quorum),
                &words(sizes.abort_quorum),
                &willing,
                &sizes.weights[..sizes.n.min(MAX_SITES)],
            ]
            .concat(),
        }
    }
}

impl Header {
    /// The header of a list to be played. Checks 1, 2, 3, 2 of a header that is
    /// cut, 21, 4 and 5, in order.
    pub fn of_list(list: &[u8]) -> Result<Header, u8> {
        let header = Header::read(list)?;
        header.sizes.check()?;
        Ok(header)
    }

    /// Reads the header of such a list, whatever its sizes are. Checks 1 and 2; in
    /// the second edition 3 comes between the two sorts of 2.
    pub fn read(list: &[u8]) -> Result<Header, u8> {
        let first = five_bytes(list)?;
        match Edition::of(list) {
            Edition::First => Ok(Header::first(first)),
            Edition::Second => Header::second(list),
        }
    }

    /// Reads the header of a list whose first byte is an n, whatever it is.
    /// Checks 1 to 5, in order.
    pub fn of_first_edition(list: &[u8]) -> Result<Header, u8> {
        let header = Header::first(five_bytes(list)?);
        header.sizes.check()?;
        Ok(header)
    }

    fn first([n, commit, abort, low, high]: [u8; HEADER_BYTES]) -> Header {
        let willing = u16::from_le_bytes([low, high]);
        Header {
            sizes: Sizes::new(n.into(), commit.into(), abort.into(), willing),
            end: HEADER_BYTES,
        }
    }

    /// Checks 3, for the length of the header hangs on it, and 2.
    fn second(list: &[u8]) -> Result<Header, u8> {
        let n = list[1].into();
        check_sites(n)?;
        let end = Edition::Second.header_bytes(n);
        let header = list.get(..end).ok_or(number::LIST_SHORT)?;
        let word_at = |at| u16::from_le_bytes([header[at], header[at + 1]]);
        let mut weights = ones(0);
        weights[..n].copy_from_slice(&header[WEIGHTS_AT..]);
        let sizes = Sizes {
            n,
            commit_quorum: word_at(2).into(),
            abort_quorum: word_at(4).into(),
            willing: word_at(6),
            weights,
        };
        Ok(Header { sizes, end })
    }
}

/// The first bytes of a list. Checks 1 and 2.
fn five_bytes(list: &[u8]) -> Result<[u8; HEADER_BYTES], u8> {
    if list.len() > MAX_LIST {
        return Err(number::LIST_LONG);
    }
    list.first_chunk().copied().ok_or(number::LIST_SHORT)
}
