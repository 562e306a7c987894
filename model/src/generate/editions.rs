//! Lists to be converted.

use super::header::{break_sizes, even_or_not};
use super::{quarrel, Generator};
use crate::header::Edition;
use crate::sizes::{Sizes, MAX_LIST};

/// First bytes about that of the second edition.
const FIRST_BYTES: [u8; 5] = [0, 129, 130, 131, 132];

impl Generator {
    /// A list to be converted. Half of them have commands that are accepted for a while;
    /// the others have any bytes after their header, one that is bad or cut, or another
    /// first byte; a few are of any sort.
    pub fn next_to_convert(&mut self) -> Vec<u8> {
        let (edition, sizes) = even_or_not(&mut self.rng);
        match self.rng.below(20) {
            0..=9 => self.guided((edition, sizes)),
            10..=11 => self.with_bytes(edition.header(&sizes)),
            12..=15 => self.with_bad_sizes(edition, sizes),
            16..=17 => {
                let header = self.damaged_header(edition, sizes);
                header[..self.rng.below(header.len())].to_vec()
            }
            18 => {
                let mut list = self.guided((edition, sizes));
                list[0] = self.rng.choose(&FIRST_BYTES);
                list
            }
            _ => self.next_list(),
        }
    }

    /// One that is about as long as a list can be, or would be once it is converted.
    pub fn next_long_to_convert(&mut self) -> Vec<u8> {
        let (edition, sizes) = even_or_not(&mut self.rng);
        let [own, other] = [edition, edition.other()].map(|e| e.header_bytes(sizes.n));
        let near = MAX_LIST - 1 + self.rng.below(4);
        let size = self.rng.choose(&[near, near + own - other]);
        let mut list = match self.rng.below(3) {
            0 => quarrel(&mut self.rng, (edition, sizes), 400),
            1 => edition.header(&sizes),
            _ => self.damaged_header(edition, sizes),
        };
        let more = self.rng.bytes(size - list.len());
        list.extend(more);
        list
    }

    fn with_bad_sizes(&mut self, edition: Edition, sizes: Sizes) -> Vec<u8> {
        let header = self.damaged_header(edition, sizes);
        self.with_bytes(header)
    }

    /// A header of these sizes, but for one or two of its numbers.
    fn damaged_header(&mut self, edition: Edition, mut sizes: Sizes) -> Vec<u8> {
        for _ in 0..self.rng.between(1, 2) {
            break_sizes(&mut self.rng, &mut sizes);
        }
        edition.header(&sizes)
    }

    /// Any bytes after a header, or none.
    fn with_bytes(&mut self, header: Vec<u8>) -> Vec<u8> {
        let size = self.rng.choose(&[0, 1, 7, 40]);
        [header, self.rng.bytes(size)].concat()
    }
}
