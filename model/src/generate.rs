//! Lists and calls for comparing players, the same ones for the same seed.

mod call;
mod editions;
mod guide;
mod header;
mod history;
mod lines;
mod rng;
mod single;
mod spoil;
mod text;
mod unplayed;

pub use call::Call;
pub use history::Course;
pub use rng::Rng;
pub use single::StepCall;

use crate::header::{Edition, Header, HEADER_BYTES, SECOND};
use crate::quiet::{self, Replies};
use crate::sizes::{everyone, Sizes, MAX_LIST, MAX_SITES, MIN_SITES};
use guide::Guide;
use header::{bad_header, beginning, plain, quorums, weighted, Beginning};

/// What a long list has at the least, in bytes.
const LONG: usize = 4_000;

/// A source of lists.
pub struct Generator {
    rng: Rng,
    /// Guided lists and duels grow at least to this, if anything can happen.
    least: usize,
    /// They get no longer than this, but for a last command that is refused.
    most: usize,
}

impl Generator {
    pub fn new(seed: u64) -> Generator {
        Generator::up_to(seed, MAX_LIST)
    }

    /// One whose lists stay short; quiet days and lists that are too long keep
    /// their length.
    pub fn up_to(seed: u64, most: usize) -> Generator {
        Generator {
            rng: Rng::new(seed),
            least: HEADER_BYTES,
            most: most.clamp(HEADER_BYTES, MAX_LIST),
        }
    }

    /// One whose guided lists and duels get long; guided ones begin with a
    /// quarrel half of the time.
    pub fn long(seed: u64) -> Generator {
        Generator {
            least: LONG,
            ..Generator::new(seed)
        }
    }

    /// A list of any sort, guided ones most often.
    pub fn next_list(&mut self) -> Vec<u8> {
        match self.rng.below(100) {
            0..=54 => self.next_guided(),
            55..=58 => self.next_random(),
            59..=63 => self.next_bad_header(),
            64..=79 => self.next_damaged(),
            80..=92 => self.next_truncated(),
            93..=96 => self.next_quiet(),
            97..=98 => self.next_duel(),
            _ => self.next_too_long(),
        }
    }

    /// A list whose commands are accepted, but for the last one at times.
    pub fn next_guided(&mut self) -> Vec<u8> {
        let beginning = beginning(&mut self.rng);
        self.guided(beginning)
    }

    fn guided(&mut self, beginning: Beginning) -> Vec<u8> {
        let mut guide = Guide::new(beginning, self.length());
        if self.least >= LONG && self.rng.chance(50) {
            guide.begin_with_quarrel(&mut self.rng);
        }
        guide.wander(&mut self.rng);
        if self.rng.chance(60) {
            spoil::spoil(&mut guide, &mut self.rng);
        }
        guide.list
    }

    /// Bytes that follow no world: no header, the second edition's first byte, a
    /// good header, or a good header and small bytes.
    pub fn next_random(&mut self) -> Vec<u8> {
        let rng = &mut self.rng;
        let most = rng.choose(&[8, 40, 400]);
        let size = rng.below(most);
        let head = match rng.below(6) {
            0 => Vec::new(),
            1 => vec![SECOND, rng.between(MIN_SITES, MAX_SITES) as u8],
            _ => good_header(rng),
        };
        let bytes = match rng.below(2) {
            0 => rng.bytes(size),
            _ => (0..size).map(|_| rng.below(6) as u8).collect(),
        };
        [head, bytes].concat()
    }

    /// A header of the second edition that is refused, with commands after it at
    /// times.
    pub fn next_bad_header(&mut self) -> Vec<u8> {
        let mut list = bad_header(&mut self.rng);
        if self.rng.chance(50) {
            list.extend([1, 3, 0, 3, 0]);
        }
        list
    }

    /// A guided list with one byte changed, in the header one time in four.
    pub fn next_damaged(&mut self) -> Vec<u8> {
        let mut list = self.next_guided();
        let place = self.place_in(&list, 25);
        list[place] = self.other_byte(list[place]);
        list
    }

    /// A guided list cut somewhere, in the header at times.
    pub fn next_truncated(&mut self) -> Vec<u8> {
        let mut list = self.next_guided();
        list.truncate(self.place_in(&list, 10));
        list
    }

    /// A place in a list, so many times in a hundred in its header.
    fn place_in(&mut self, list: &[u8], percent: usize) -> usize {
        let in_header = self.rng.chance(percent);
        let end = Header::of_list(list).map_or(HEADER_BYTES, |header| header.end);
        self.rng.below(if in_header { end } else { list.len() })
    }

    /// A quiet day of any sizes.
    pub fn next_quiet(&mut self) -> Vec<u8> {
        let sizes = plain(&mut self.rng);
        let asked = [sizes.n, sizes.commit_quorum, sizes.abort_quorum];
        quiet::list(asked, Replies::Last)
    }

    /// A duel of any size and edition.
    pub fn next_duel(&mut self) -> Vec<u8> {
        let bytes = self.rng.between(self.least, self.most);
        self.duel_of(bytes)
    }

    fn duel_of(&mut self, bytes: usize) -> Vec<u8> {
        if self.rng.chance(50) {
            return weighted_duel(weighted(&mut self.rng), self.rng.draw(), bytes);
        }
        let n = self.rng.between(MIN_SITES, MAX_SITES);
        duel(n as u8, self.rng.draw(), bytes)
    }

    /// A duel with more bytes after it than a list can have.
    pub fn next_too_long(&mut self) -> Vec<u8> {
        let mut list = self.duel_of(self.most.min(2_000));
        let size = MAX_LIST + self.rng.between(1, 300);
        list.resize(size, 4);
        list
    }

    /// A one-command call: a world reached or merely thinkable, at times with
    /// damage to the world or the store.
    pub fn next_call(&mut self) -> Call {
        call::any(&mut self.rng)
    }

    /// A step of a single site, at times with damage to what it reads or with lengths that
    /// are not the right ones.
    pub fn next_step_call(&mut self) -> StepCall {
        single::any(&mut self.rng)
    }

    /// How long a guided list may get.
    fn length(&mut self) -> usize {
        let rng = &mut self.rng;
        let bytes = match rng.below(100) {
            0..=2 => HEADER_BYTES,
            3..=37 => rng.between(HEADER_BYTES + 1, 100),
            38..=79 => rng.between(101, 1_500),
            80..=93 => rng.between(1_501, 6_000),
            94..=98 => rng.between(6_001, MAX_LIST),
            _ => MAX_LIST,
        };
        if bytes < self.least {
            return rng.between(self.least, 3 * self.least);
        }
        bytes.min(self.most)
    }

    /// A byte that differs from this one: near it, by a bit, or anything.
    fn other_byte(&mut self, byte: u8) -> u8 {
        match self.rng.below(3) {
            0 => byte.wrapping_add(self.rng.choose(&[1, 255])),
            1 => byte ^ 1 << self.rng.below(8),
            _ => byte.wrapping_add(self.rng.between(1, 255) as u8),
        }
    }
}

/// A long duel that nobody wins: joins for both groups, crashes, repeats,
/// until the store is full; then commands that add no row. Every command is
/// accepted. It has the wanted length if that is even, else one byte less,
/// and stays within a list's limit; the header is always there.
pub fn duel(n: u8, seed: u64, bytes: usize) -> Vec<u8> {
    let mut rng = Rng::new(seed);
    let n = usize::from(n).clamp(MIN_SITES, MAX_SITES);
    let (c, a) = quorums(&mut rng, &Sizes::new(n, 0, 0, 0));
    let sizes = Sizes::new(n, c, a, everyone(n));
    quarrel(&mut rng, (Edition::First, sizes), bytes)
}

/// A duel in the second edition, of these sizes but that all sites are willing. Its
/// header has 8 + n bytes, so for an even n it has an odd length, one byte less than
/// wanted at the most.
pub fn weighted_duel(sizes: Sizes, seed: u64, bytes: usize) -> Vec<u8> {
    let willing = everyone(sizes.n);
    let beginning = (Edition::Second, Sizes { willing, ..sizes });
    quarrel(&mut Rng::new(seed), beginning, bytes)
}

fn quarrel(rng: &mut Rng, beginning: Beginning, bytes: usize) -> Vec<u8> {
    let mut guide = Guide::new(beginning, bytes.min(MAX_LIST));
    guide.quarrel(rng);
    guide.list
}

/// A header that is accepted.
fn good_header(rng: &mut Rng) -> Vec<u8> {
    let (edition, sizes) = beginning(rng);
    edition.header(&sizes)
}
