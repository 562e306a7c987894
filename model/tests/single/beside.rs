//! A run of one-command calls on a world beside the same steps taken singly, by the model.

use model::calls::Model;
use model::generate::Generator;

use crate::common::beside::Beside;
use crate::SEED;

const LISTS: usize = 1_000;
const CALLS: usize = 10_000;

#[test]
fn lists_are_played_singly_too() {
    let mut beside = Beside::default();
    let mut lists = Generator::up_to(SEED, 1_500);
    for _ in 0..LISTS {
        let list = lists.next_list();
        beside
            .list(&Model, &list)
            .unwrap_or_else(|why| panic!("{why}{list:?}"));
    }
    println!("{beside:?}");
    for number in [0, 8, 11, 12, 13, 14] {
        assert!(beside.numbers.contains_key(&number), "{number} never seen");
    }
    assert!(beside.records.iter().all(|&records| records > LISTS));
}

#[test]
fn calls_on_worlds_are_steps() {
    let mut beside = Beside::default();
    let mut calls = Generator::new(SEED + 1);
    for _ in 0..CALLS {
        let call = calls.next_call();
        beside
            .call(&Model, &call)
            .unwrap_or_else(|why| panic!("{why}{call:?}"));
    }
    println!("{beside:?}");
    let numbers = beside.numbers.keys().copied();
    assert!(numbers.eq([0, 8, 10, 11, 12, 13, 14]));
    assert!(beside.records.iter().all(|&records| records > CALLS / 200));
}
