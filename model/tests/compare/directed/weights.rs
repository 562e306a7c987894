//! Sites of different weight: headers of the second edition, one for each clause,
//! and timeouts near a quorum that is weighed.

use model::command::{list_in, list_of};
use model::sizes::{everyone, MAX_LIST};
use model::{Command, Edition, Role, Side, Sizes, State, World};

use super::commands::Case;
use super::shared::{deliver, Done};
use crate::common::{group, vector, weighted};
use crate::comparer::Comparer;

use Command::{Start, Timeout};

/// A list with its clause and number.
type Numbered = (&'static str, u8, Vec<u8>);

/// A clause, its number, the weights and both quorums.
type Weighing = (&'static str, u8, &'static [u8], usize, usize);

/// Legal sizes at every bound, and sizes just past it.
const WEIGHINGS: &[Weighing] = &[
    ("0 second edition", 0, &[1, 2, 2], 3, 3),
    ("0 second edition, ones", 0, &[1; 3], 2, 2),
    ("0 second edition, ones", 0, &[1; 16], 9, 8),
    ("0 C of W - h", 0, &[3, 1, 1, 1, 1], 4, 4),
    ("4 C over W - h", 4, &[3, 1, 1, 1, 1], 5, 4),
    ("4 C over W - h", 4, &[3, 1, 1, 1, 1], 7, 4),
    ("4 A over W - h", 4, &[3, 1, 1, 1, 1], 4, 5),
    ("4 A over W - h", 4, &[1, 1, 1, 1, 3], 4, 7),
    ("0 C + A of W + 1", 0, &[3, 4, 5, 6], 12, 7),
    ("0 C + A of W + 1", 0, &[3, 4, 5, 6], 7, 12),
    ("4 C + A under W + 1", 4, &[3, 4, 5, 6], 12, 6),
    ("4 C + A under W + 1", 4, &[3, 4, 5, 6], 6, 12),
    ("4 C + A under W + 1", 4, &[3, 4, 5, 6], 9, 9),
    ("0 weights of 255", 0, &[255; 3], 510, 256),
    ("0 weights of 255", 0, &[255, 254, 2], 256, 256),
    ("0 W of 4,080", 0, &[255; 16], 3_825, 3_825),
    ("0 W of 4,080", 0, &[255; 16], 3_825, 256),
    ("0 W of 4,080", 0, &[255; 16], 2_041, 2_040),
    ("4 C over W - h", 4, &[255; 16], 3_826, 3_825),
    ("4 A over W - h", 4, &[255; 16], 3_825, 3_826),
    ("4 C + A under W + 1", 4, &[255; 16], 2_040, 2_040),
    ("4 C + A under W + 1", 4, &[255; 16], 3_825, 255),
    ("4 high byte of C", 4, &[1, 2, 2], 256 + 3, 3),
    ("4 high byte of C", 4, &[1, 2, 2], 0x8000 + 3, 3),
    ("4 high byte of A", 4, &[1, 2, 2], 3, 256 + 3),
    ("4 high byte of A", 4, &[1, 2, 2], 3, 0xff03),
    ("4 one heavy site", 4, &[255, 1, 1], 2, 256),
    ("4 one heavy site", 4, &[1, 255, 1], 256, 256),
    ("4 one heavy site", 4, &[255, 254, 1], 256, 256),
    ("4 one heavy site", 4, &[2, 1, 1], 2, 3),
    ("21 weight of 0", 21, &[0, 2, 2], 2, 3),
    ("21 weight of 0", 21, &[2, 2, 0], 2, 3),
    ("21 weight of 0", 21, &[255, 0, 255, 255], 300, 500),
    ("21 weight of 0", 21, &[0; 16], 0, 1),
    ("21 before 4", 21, &[1, 0, 2], 9, 3),
    ("21 before 4", 21, &[0; 3], 0, 0),
];

/// All sites are willing.
fn weighings() -> impl Iterator<Item = Numbered> {
    WEIGHINGS.iter().map(|&(name, number, weights, c, a)| {
        let sizes = weighted(weights, c, a);
        (name, number, Edition::Second.header(&sizes))
    })
}

/// Three sites of 1, 2 and 2 with quorums of 3, all willing.
const GOOD: [u8; 11] = [130, 3, 3, 0, 3, 0, 7, 0, 1, 2, 2];

/// A clause, its number, and what is changed of the good header.
type Change = (&'static str, u8, &'static [(usize, u8)]);

const CHANGES: &[Change] = &[
    ("3 n, second edition", 3, &[(1, 2)]),
    ("3 n, second edition", 3, &[(1, 0)]),
    ("3 n, second edition", 3, &[(1, 17)]),
    ("3 n, second edition", 3, &[(1, 130)]),
    ("3 n, second edition", 3, &[(1, 255)]),
    ("3 before 21", 3, &[(1, 2), (8, 0)]),
    ("2 header cut", 2, &[(1, 4)]),
    ("2 header cut", 2, &[(1, 16)]),
    ("2 before 21", 2, &[(1, 4), (8, 0)]),
    ("2 before 21", 2, &[(1, 16), (10, 0)]),
    ("2 before 4", 2, &[(1, 4), (3, 1)]),
    ("2 before 5", 2, &[(1, 4), (7, 128)]),
    ("21 before 5", 21, &[(9, 0), (7, 128)]),
    ("5 willing, second edition", 5, &[(6, 8)]),
    ("5 willing, second edition", 5, &[(7, 128)]),
    ("4 before 5, second edition", 4, &[(6, 8), (2, 4)]),
    ("4 before 5, second edition", 4, &[(7, 1), (4, 2)]),
    ("0 unwilling, second edition", 0, &[(6, 0)]),
    ("3 a later edition", 3, &[(0, 131)]),
    ("3 a later edition", 3, &[(0, 132)]),
    ("3 a later edition", 3, &[(0, 129)]),
];

fn changes() -> impl Iterator<Item = Numbered> {
    CHANGES.iter().map(|&(name, number, changes)| {
        let mut list = GOOD.to_vec();
        changes.iter().for_each(|&(at, byte)| list[at] = byte);
        (name, number, list)
    })
}

/// Headers of every length but their own.
fn cut() -> Vec<Numbered> {
    let widest = Edition::Second.header(&weighted(&[255; 16], 3_825, 3_825));
    let cut = |list: &[u8]| -> Vec<Numbered> {
        let name = |size| match size {
            0..=4 => "2 under 5, second edition",
            _ => "2 header cut",
        };
        let sizes = 1..list.len();
        sizes
            .map(|size| (name(size), 2, list[..size].to_vec()))
            .collect()
    };
    let mut zero = GOOD;
    zero[8] = 0;
    let cut_zero = (9..GOOD.len()).map(|size| ("2 before 21", 2, zero[..size].to_vec()));
    let bad_sites = (5..GOOD.len()).map(|size| {
        let mut list = GOOD[..size].to_vec();
        list[1] = 17;
        ("3 before 2 of a cut header", 3, list)
    });
    let short = [[130, 2, 0, 0], [130, 17, 0, 0], [131, 3, 0, 0]];
    let short = short.map(|list| ("2 under 5, second edition", 2, list.to_vec()));
    [
        cut(&GOOD),
        cut(&widest),
        cut_zero.collect(),
        bad_sites.collect(),
        short.into(),
    ]
    .concat()
}

/// The longest lists.
fn lengths() -> [Numbered; 3] {
    let filled = |size| {
        let mut list = GOOD.to_vec();
        list.resize(size, 9);
        list
    };
    let mut zero = filled(MAX_LIST + 1);
    zero[8] = 0;
    [
        ("1 second edition", 1, filled(MAX_LIST + 1)),
        ("1 before 21", 1, zero),
        ("6 the longest of the second edition", 6, filled(MAX_LIST)),
    ]
}

/// A quiet day of five sites up to where site 0 knows of sites 0 and 1 in its group.
fn two_of_five() -> Vec<Command> {
    let mut commands = vec![Start];
    commands.extend((1..5).map(|site| deliver(0, site)));
    commands.extend((1..5).map(|row| deliver(row, 0)));
    commands.extend([Timeout(0), deliver(5, 1), deliver(6, 0), Timeout(0)]);
    commands
}

/// First editions, where each site weighs 1 whatever the quorums leave room for.
fn first_editions() -> Vec<Numbered> {
    let sizes = [(3, 2, 2), (5, 4, 4), (16, 15, 15), (16, 9, 8)];
    let list = |(n, c, a)| list_of(Sizes::new(n, c, a, everyone(n)), &[Start, Timeout(1)]);
    sizes
        .map(|sizes| ("0 first edition, ones", 0, list(sizes)))
        .into()
}

/// Lists with commands, in the second edition.
fn days() -> Vec<Numbered> {
    let day =
        |weights: &[u8], c, a| list_in(Edition::Second, weighted(weights, c, a), &two_of_five());
    let refused = [Timeout(9)];
    let at_first = list_in(Edition::Second, weighted(&[3, 3, 1], 4, 4), &refused);
    vec![
        ("0 day of two heavy sites", 0, day(&[3, 4, 1, 1, 1], 6, 5)),
        ("0 day of two light sites", 0, day(&[1, 1, 3, 4, 1], 6, 5)),
        ("0 day of ones", 0, day(&[1; 5], 2, 4)),
        ("0 day of 255s", 0, day(&[255; 5], 510, 766)),
        ("8 the first command after the weights", 8, at_first),
    ]
}

/// What a site knows of its group's weight, and whether that is a quorum.
type Known = (&'static str, [u8; 5], Side, bool);

/// Sites of 50, 40, 10, 10 and 30, 140 in all; commit takes 80, abort 70. Site 1 leads.
const KNOWN: &[Known] = &[
    (
        "0 weighed: two of five commit",
        [2, 2, 0, 0, 0],
        Side::Commit,
        true,
    ),
    (
        "0 weighed: two of five abort",
        [0, 3, 0, 0, 3],
        Side::Abort,
        true,
    ),
    (
        "0 weighed: three of five do not commit",
        [0, 2, 2, 2, 1],
        Side::Commit,
        false,
    ),
    (
        "0 weighed: three of five do not abort",
        [2, 3, 3, 3, 2],
        Side::Abort,
        false,
    ),
    (
        "0 weighed: just enough",
        [3, 2, 2, 0, 2],
        Side::Commit,
        true,
    ),
    ("0 weighed: just enough", [2, 3, 0, 0, 3], Side::Abort, true),
    (
        "0 weighed: others' entries",
        [4, 2, 1, 0, 0],
        Side::Commit,
        false,
    ),
    (
        "0 weighed: others' entries",
        [5, 3, 2, 1, 0],
        Side::Abort,
        false,
    ),
    ("0 weighed: all", [2; 5], Side::Commit, true),
    ("0 weighed: all", [3; 5], Side::Abort, true),
];

/// Site 1 of sites of these sizes leads in a group, holds these codes, and times out.
fn timeout(name: &'static str, sizes: Sizes, codes: &[u8], side: Side) -> Case {
    let mut case = Case::new(name, 0, Timeout(1));
    case.world = World::fresh(sizes);
    let site = &mut case.world.sites[1];
    site.role = Role::Coordinator;
    site.vector = vector(codes);
    site.log.group = group(side, &[0, State::InGroup(side).code()]);
    case
}

/// The case is played alike, and the site ends as is due.
fn ends(both: &mut Comparer, case: &Case, side: Side, is_quorum: bool) -> Done {
    case.check(both)?;
    let outcome = case.world_after().sites[1].log.outcome;
    if outcome != is_quorum.then_some(side) {
        return Err(format!("{}: {outcome:?}\n", case.name));
    }
    Ok(())
}

fn known(both: &mut Comparer) -> Done {
    let sizes = weighted(&[50, 40, 10, 10, 30], 80, 70);
    KNOWN
        .iter()
        .try_for_each(|&(name, codes, side, is_quorum)| {
            ends(both, &timeout(name, sizes, &codes, side), side, is_quorum)
        })
}

/// So many of sixteen sites of 255 are known, with quorums that they just reach, or
/// miss by one.
fn sixteen(both: &mut Comparer, known: usize, side: Side) -> Done {
    let weight = 255 * known;
    for (name, quorum) in [
        ("0 weighed: sixteen, just enough", weight),
        ("0 weighed: sixteen, one short", weight + 1),
    ] {
        let other = 4_081 - quorum;
        let sizes = match side {
            Side::Commit => weighted(&[255; 16], quorum, other),
            Side::Abort => weighted(&[255; 16], other, quorum),
        };
        let codes: Vec<u8> = (0..16)
            .map(|site| {
                if site < known {
                    State::InGroup(side).code()
                } else {
                    1
                }
            })
            .collect();
        ends(
            both,
            &timeout(name, sizes, &codes, side),
            side,
            quorum == weight,
        )?;
    }
    Ok(())
}

/// A list that is given its number.
fn numbered(both: &mut Comparer, (name, number, list): &Numbered) -> Done {
    let given = both.list(list)?;
    both.clause(name, *number, given)
}

pub fn weights(both: &mut Comparer) -> Done {
    let mut headers = weighings().chain(changes()).chain(cut()).chain(lengths());
    headers.try_for_each(|header| numbered(both, &header))?;
    for day in [first_editions(), days()].concat() {
        numbered(both, &day)?;
        both.walk(&day.2)?;
    }
    known(both)?;
    (2..15).try_for_each(|known| {
        sixteen(both, known, Side::Commit)?;
        sixteen(both, known, Side::Abort)
    })
}
