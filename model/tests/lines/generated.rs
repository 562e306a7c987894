//! What the generated lists and texts contain, and that each comes back.

use std::collections::BTreeMap;

use model::flaw::{flaws, Flaw};
use model::generate::Generator;
use model::number;

use crate::{read_into, write_into, Found};

const SEED: u64 = 20_260_401;
const COUNT: usize = 20_000;

/// How often each number was given, and each flaw was met alone.
#[derive(Debug, Default)]
struct Met {
    numbers: BTreeMap<u8, usize>,
    flaws: BTreeMap<Flaw, usize>,
}

impl Met {
    /// Reads a text; one that is accepted is written again.
    fn read(&mut self, text: &[u8]) {
        let found = read_into(text, text.len());
        if let Ok(list) = &found {
            assert!(write_into(list, text.len()).as_deref() == Ok(text));
        }
        if let Err((number::LINE, place)) = found {
            for flaw in flaws(text, place) {
                *self.flaws.entry(flaw).or_default() += 1;
            }
        }
        self.count(&found);
    }

    /// Writes a list; one that is accepted is read again.
    fn write(&mut self, list: &[u8]) {
        let found = write_into(list, 50 + 6 * list.len());
        if let Ok(text) = &found {
            assert!(read_into(text, list.len()).as_deref() == Ok(list));
        }
        self.count(&found);
    }

    fn count(&mut self, found: &Found) {
        let number = found.as_ref().map_or_else(|&(number, _)| number, |_| 0);
        *self.numbers.entry(number).or_default() += 1;
    }
}

#[test]
fn texts_have_every_flaw() {
    let mut met = Met::default();
    let mut generator = Generator::up_to(SEED, 60);
    (0..COUNT).for_each(|_| met.read(&generator.next_text()));
    println!("{met:?}");
    assert!(met.numbers.keys().eq(&[0, 3, 4, 5, 19]));
    assert!(met.numbers[&0] > COUNT / 5 && met.numbers[&19] > COUNT / 2);
    for flaw in Flaw::ALL {
        let count = met.flaws.get(&flaw).copied().unwrap_or(0);
        assert!(count > COUNT / 1_000, "{flaw:?} is met {count} times");
    }
}

#[test]
fn crowded_texts_meet_every_number_of_the_reader() {
    let mut met = Met::default();
    let mut generator = Generator::new(SEED);
    (0..200).for_each(|_| met.read(&generator.next_crowded()));
    println!("{met:?}");
    assert!(met.numbers.keys().eq(&[0, 1, 3, 4, 5, 19]));
}

#[test]
fn lists_meet_every_number_of_the_writer() {
    let mut met = Met::default();
    let mut generator = Generator::up_to(SEED, 60);
    (0..COUNT).for_each(|_| met.write(&generator.next_unplayed()));
    let mut generator = Generator::up_to(SEED, 500);
    (0..COUNT / 10).for_each(|_| met.write(&generator.next_list()));
    let mut generator = Generator::long(SEED);
    (0..40).for_each(|_| met.write(&generator.next_unplayed()));
    println!("{met:?}");
    assert!(met.numbers.keys().eq(&[0, 1, 2, 3, 4, 5, 6, 7]));
    assert!(met.numbers[&0] > COUNT / 3);
}

#[test]
fn the_same_seed_gives_the_same_texts() {
    let made = |seed| {
        let mut generator = Generator::up_to(seed, 200);
        let next = move |_| [generator.next_text(), generator.next_unplayed()];
        (0..50).map(next).collect::<Vec<_>>()
    };
    assert_eq!(made(1), made(1));
    assert_ne!(made(1), made(2));
}
