//! Quiet days played by both sides, in both orders, as a list and one command at a
//! time; what they cost, and that both orders leave the same.

use model::layout::decode;
use model::quiet::{self, Asked};
use model::row::ROW_BYTES;
use model::{Command, Replies, World};

use crate::common::quiet::{cost, far_quorums, Account, SITES};
use crate::comparer::Comparer;

/// The rows and the world that a day leaves, as bytes.
type End = [Vec<u8>; 2];

/// Every number of sites, with quorums far apart; gives how many days that is.
pub fn days(both: &mut Comparer) -> Result<usize, String> {
    let mut count = 0;
    for asked in SITES.flat_map(far_quorums) {
        day(both, asked).map_err(|why| format!("quiet day of {asked:?}\n{why}"))?;
        count += 1;
    }
    Ok(count)
}

fn day(both: &mut Comparer, asked: Asked) -> Result<(), String> {
    let [last, at_once] = Replies::BOTH.map(|replies| played(both, asked, replies));
    if last? != at_once? {
        return Err("another end where each reply comes at once\n".into());
    }
    Ok(())
}

/// Plays a day in one order, by both sides.
fn played(both: &mut Comparer, asked: Asked, replies: Replies) -> Result<End, String> {
    let [n, ..] = asked;
    let list = quiet::list(asked, replies);
    let given = both.list(&list)?;
    both.clause("0 quiet day", 0, given)?;
    let mut account = Account::open(list.len(), World::fresh(quiet::sizes(asked)));
    let [mut store, world] = both.follow(&list, |ask, world| {
        let (command, _) = Command::read(ask).expect("an accepted command");
        account.add(command, &decode(world).expect("a world that was left"));
    })?;
    account.check(n)?;
    store.truncate(cost(n).rows * ROW_BYTES);
    Ok([store, world])
}
