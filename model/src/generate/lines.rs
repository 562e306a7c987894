//! Lists to be written as lines, and texts to be read.

use super::{text, unplayed, Generator, LONG};
use crate::sizes::MAX_LIST;

impl Generator {
    /// A list that is not meant to be played. Half of them are good; the others
    /// have a byte changed, are cut, or go on with anything.
    pub fn next_unplayed(&mut self) -> Vec<u8> {
        let bytes = self.line_bytes();
        let mut list = unplayed::list(&mut self.rng, bytes);
        match self.rng.below(10) {
            0..=4 => {}
            5..=6 => {
                let place = self.place_in(&list, 25);
                list[place] = self.other_byte(list[place]);
            }
            7..=8 => list.truncate(self.place_in(&list, 10)),
            _ => {
                let size = self.rng.between(1, 20);
                list.extend(self.rng.bytes(size));
            }
        }
        list
    }

    /// A text. One in four is good but for its sizes at times, some have more
    /// than one thing wrong, and a few make no sense.
    pub fn next_text(&mut self) -> Vec<u8> {
        let bytes = self.line_bytes();
        let rng = &mut self.rng;
        let damages = match rng.below(100) {
            0..=1 => return text::senseless(rng, bytes),
            2..=24 => 0,
            25..=84 => 1,
            _ => rng.between(2, 4),
        };
        let mut lines = text::good(rng, bytes);
        for _ in 0..damages {
            text::damage(rng, &mut lines);
        }
        lines.concat()
    }

    /// A text of about as many commands as a list can have, most often with more
    /// than one thing wrong.
    pub fn next_crowded(&mut self) -> Vec<u8> {
        text::crowded(&mut self.rng)
    }

    /// How long the list is to be: about as long as can be half of the time, if
    /// lists are to be long.
    fn line_bytes(&mut self) -> usize {
        if self.least < LONG || self.rng.chance(50) {
            return self.rng.between(self.least, self.most);
        }
        match self.rng.below(4) {
            0 => MAX_LIST,
            1 => MAX_LIST + 1,
            2 => MAX_LIST - self.rng.below(10),
            _ => MAX_LIST + self.rng.below(MAX_LIST),
        }
    }
}
