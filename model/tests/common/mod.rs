//! What several tests need.

#![allow(dead_code)] // No test needs all of it.

pub mod bad_lines;
pub mod bad_lists;
pub mod beside;
pub mod courses;
pub mod editions;
pub mod outputs;
pub mod quiet;
pub mod rounds;

use model::calls::{Calls, Model, RESULT_BYTES};
use model::command::list_of;
use model::layout::WORLD_BYTES;
use model::row::STORE_BYTES;
use model::sizes::everyone;
use model::{Ask, Event, Numbers};
use model::{Command, GroupRecord, Kind, Log, Role, Row, Side, Site, Sizes, State, Vector, World};

use Command::{Crash, Recover, Start, Timeout};

/// The list of the worked report, in bytes.
pub const M3_LIST: [u8; 26] = [
    3, 2, 2, 7, 0, 1, 2, 0, 0, 1, 2, 1, 0, 0, 3, 0, 2, 2, 0, 2, 2, 3, 0, 0, 3, 0,
];

/// The worked report.
pub const M3_REPORT: &str = "sites 3 commit 2 abort 2 events 7 rows 5 news 5\n\
                             0 up coordinator aborted PAa 513\n\
                             1 up subordinate prepared P-- 110\n\
                             2 up subordinate abort-group -A- 313\n\
                             end 26\n";

/// The same day as steps of single sites.
pub const M3_STEPS: [(usize, Event); 7] = [
    (0, Event::Start),
    (1, Event::Deliver(0)),
    (0, Event::Deliver(1)),
    (0, Event::Timeout),
    (2, Event::Deliver(2)),
    (0, Event::Deliver(3)),
    (0, Event::Timeout),
];

/// The sites of the worked report in bytes, PAa 513, P-- 110 and -A- 313. The group records
/// have the vectors after joining.
pub fn m3_sites() -> [[u8; 40]; 3] {
    [
        three_codes([1, 1, 1, 2, 2], [5, 1, 3], [3, 1, 0]),
        three_codes([1, 0, 1, 0, 0], [1, 1, 0], [0; 3]),
        three_codes([1, 0, 0, 2, 0], [3, 1, 3], [3, 1, 3]),
    ]
}

/// One of three sites in bytes: up, role and the three places of its log, its codes, and
/// those of its group record.
pub fn three_codes(head: [u8; 5], codes: [u8; 3], group: [u8; 3]) -> [u8; 40] {
    let mut bytes = [0; 40];
    bytes[..5].copy_from_slice(&head);
    bytes[8..11].copy_from_slice(&codes);
    bytes[24..27].copy_from_slice(&group);
    bytes
}

/// The same day but for its last command: sites 0 and 2 are in the abort
/// group, and site 0 knows it.
pub const TWO_AGAINST: [Command; 6] = [
    Start,
    Command::deliver(0, 1),
    Command::deliver(1, 0),
    Timeout(0),
    Command::deliver(2, 2),
    Command::deliver(3, 0),
];

/// Sites 0 and 2 are in the abort group, and site 1 leads, prepared. It holds 3, 1,
/// 3 when it times out at the end.
pub const THREES_FOR_PREPARES: [Command; 9] = [
    Start,
    Command::deliver(0, 1),
    Timeout(0),
    Command::deliver(2, 2),
    Command::deliver(3, 0),
    Timeout(1),
    Command::deliver(4, 0),
    Command::deliver(5, 1),
    Timeout(1),
];

/// Site 1 restarts before it has voted; its vote is no yes, and site 0 is told.
pub const RESTART: [Command; 5] = [
    Start,
    Crash(1),
    Recover(1),
    Command::deliver(0, 1),
    Command::deliver(1, 0),
];

/// Three sites, quorums of two.
pub fn three_sites(willing: u16) -> Sizes {
    Sizes::new(3, 2, 2, willing)
}

/// So many sites, all willing; abort takes two of them, commit all but one.
pub fn all_willing(n: usize) -> Sizes {
    Sizes::new(n, n - 1, 2, everyone(n))
}

/// Sites of these weights, all willing.
pub fn weighted(weights: &[u8], commit_quorum: usize, abort_quorum: usize) -> Sizes {
    let n = weights.len();
    let mut sizes = Sizes::new(n, commit_quorum, abort_quorum, everyone(n));
    sizes.weights[..n].copy_from_slice(weights);
    sizes
}

/// A list of three sites with these willing bits and commands.
pub fn three(willing: u16, commands: &[Command]) -> Vec<u8> {
    list_of(three_sites(willing), commands)
}

/// A list without commands.
pub fn header(n: usize, c: usize, a: usize, willing: u16) -> Vec<u8> {
    list_of(Sizes::new(n, c, a, willing), &[])
}

/// START, and TIMEOUT of site 0 so often that so many rows are sent.
pub fn rows_of_site_0(rows: usize) -> Vec<Command> {
    let mut commands = vec![Timeout(0); rows];
    commands[0] = Start;
    commands
}

/// The vector that begins with these codes.
pub fn vector(codes: &[u8]) -> Vector {
    Vector::read(codes).expect("codes up to 5")
}

/// A group record with a vector that begins with these codes.
pub fn group(side: Side, codes: &[u8]) -> Option<GroupRecord> {
    let vector = vector(codes);
    Some(GroupRecord { side, vector })
}

/// A site that is prepared, with nothing else in its log, and holds these codes.
pub fn prepared(codes: &[u8]) -> Site {
    let log = Log {
        prepare: true,
        ..Log::EMPTY
    };
    Site {
        log,
        vector: vector(codes),
        ..Site::FRESH
    }
}

/// A row to all sites that tells these codes.
pub fn row_to_all(kind: Kind, sender: usize, codes: &[u8]) -> Row {
    Row {
        kind,
        sender,
        to: u16::MAX,
        vector: vector(codes),
    }
}

/// A world that is fresh but for one site, and for the row sent, if one is.
pub fn world_with(
    sizes: Sizes,
    (me, site): (usize, Site),
    sent: Option<&Row>,
    store: &mut [u8],
) -> World {
    let mut world = World::fresh(sizes);
    world.sites[me] = site;
    if let Some(row) = sent {
        row.write(store, 0);
        world.row_count = 1;
    }
    world
}

/// The world whose report is the longest.
pub fn widest() -> World {
    let mut world = World::fresh(weighted(&[255; 16], 3825, 3825));
    world.row_count = 1024;
    world.news = 491_520;
    for (me, site) in world.sites.iter_mut().enumerate() {
        site.up = false;
        site.role = Role::Coordinator;
        site.log.prepare = true;
        site.vector.set(me, State::InGroup(Side::Commit));
        site.log.group = group(Side::Commit, site.vector.codes());
    }
    world
}

/// The numbers of a crash of site 2 and of a report, for a world in bytes.
pub fn numbers_of(world: &mut [u8; WORLD_BYTES]) -> (u32, u32) {
    let mut result = [0; RESULT_BYTES];
    let numbers = Numbers {
        events: 0,
        stop: 0,
        place: 0,
    };
    let reported = Model.report(world, numbers, &mut [0; 1024], &mut result);
    let ask = Ask::new(&[4, 2], 0);
    let played = Model.play_command(world, &mut [0; STORE_BYTES], ask, &mut result);
    (played, reported)
}
