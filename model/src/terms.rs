//! The terms of one site: the sizes of its competition, its own number and whether it is
//! willing, as they cross to C.
//!
//! 32 bytes, in the places that they have in a world: the layout's number, n, C, A, this
//! site's number, whether it is willing, 8 bytes of 0, and the sixteen weights.

use crate::layout::{decode_site, is_site_inside, word, word_at, LAYOUT, SITE_BYTES, WEIGHTS};
use crate::number;
use crate::site::Site;
use crate::sizes::{ones, Sizes};

/// Bytes of terms.
pub const TERMS_BYTES: usize = 32;
/// The bytes that are 0.
const RESERVED: std::ops::Range<usize> = 8..16;

/// What a site knows of its competition. The fields are open so that bad ones can be
/// made.
#[derive(Clone, Copy, Debug, PartialEq, Eq)]
pub struct Terms {
    /// Of the willing bits it has its own alone.
    pub sizes: Sizes,
    /// This site's number.
    pub own: usize,
}

impl Terms {
    /// Those of one site of a competition.
    pub fn of(sizes: Sizes, own: usize) -> Terms {
        let is_willing = own < sizes.n && sizes.is_willing(own);
        Terms::new(sizes, own, is_willing)
    }

    /// A site from n up has no bit.
    pub fn new(sizes: Sizes, own: usize, is_willing: bool) -> Terms {
        let has_bit = is_willing && own < sizes.n.min(16);
        let willing = if has_bit { 1 << own } else { 0 };
        let sizes = Sizes { willing, ..sizes };
        Terms { sizes, own }
    }

    /// The terms that bytes say. The refusal is 17: for bytes outside the layout, and for
    /// sizes that break 3, 21 or 4.
    pub fn read(bytes: &[u8]) -> Result<Terms, u8> {
        if !is_inside(bytes) {
            return Err(number::WORLD);
        }
        let mut weights = ones(0);
        weights.copy_from_slice(&bytes[WEIGHTS]);
        let sizes = Sizes {
            n: bytes[1].into(),
            commit_quorum: word_at(bytes, 2).into(),
            abort_quorum: word_at(bytes, 4).into(),
            willing: 0,
            weights,
        };
        let terms = Terms::new(sizes, bytes[6].into(), bytes[7] == 1);
        match terms.sizes.make_world() {
            true => Ok(terms),
            false => Err(number::WORLD),
        }
    }

    /// The terms' bytes. A number too large for its field becomes the largest that fits.
    pub fn bytes(&self) -> [u8; TERMS_BYTES] {
        let sizes = &self.sizes;
        let mut bytes = [0; TERMS_BYTES];
        bytes[0] = LAYOUT;
        bytes[1] = sizes.n.min(255) as u8;
        bytes[2..4].copy_from_slice(&word(sizes.commit_quorum));
        bytes[4..6].copy_from_slice(&word(sizes.abort_quorum));
        bytes[6] = self.own.min(255) as u8;
        bytes[7] = (sizes.willing != 0).into();
        bytes[WEIGHTS].copy_from_slice(&sizes.weights);
        bytes
    }

    /// Is there a site of this number?
    pub fn has_site(&self) -> bool {
        self.own < self.sizes.n
    }

    /// The site that bytes say; none where there is no such site, of whose bytes the layout
    /// alone is asked. The refusal is 17.
    pub fn site(&self, bytes: &[u8]) -> Result<Option<Site>, u8> {
        if bytes.len() != SITE_BYTES || !is_site_inside(bytes) {
            return Err(number::WORLD);
        }
        if !self.has_site() {
            return Ok(None);
        }
        let is_valid = |site: &Site| site.is_valid(self.sizes.n, self.own);
        let site = decode_site(bytes).filter(is_valid);
        site.map(Some).ok_or(number::WORLD)
    }
}

/// Are the bytes inside the layout?
fn is_inside(bytes: &[u8]) -> bool {
    bytes.len() == TERMS_BYTES
        && bytes[0] == LAYOUT
        && bytes[7] <= 1
        && bytes[RESERVED].iter().all(|&byte| byte == 0)
}
