//! Schedules with one fault each: the claim breaks, or what else holds of the rounds, or
//! at least the commands are others.

use model::rounds::ROUNDS;
use model::{one_command, play_rounds, Ask, Command, Rounds, World};

use crate::common::rounds::claim::{Broken, Tried};
use crate::common::rounds::{complete_votes, worlds, Reached};
use crate::common::three_sites;
use crate::SEED;

/// How many generated worlds each fault is tried in.
const WORLDS: usize = 300;

#[derive(Clone, Copy, Debug, PartialEq, Eq)]
enum Fault {
    /// None: it is the schedule.
    None,
    /// There is one round.
    OneRound,
    /// There are two, which are enough for all to have the same outcome.
    TwoRounds,
    /// Site 0 alone has turns.
    FirstAlone,
    /// The last site has no turn.
    LastHasNone,
    /// The turns come in falling order.
    TurnsFromLast,
    /// A site's row arrives nowhere.
    ToNobody,
    /// A site's row goes to those below it.
    BelowAlone,
    /// It does, and there are no replies.
    BelowWithoutReplies,
    /// A site's row goes to those above it.
    AboveAlone,
    /// It does, and there are no replies.
    AboveWithoutReplies,
    /// The others come in falling order.
    HighestFirst,
    /// Replies do not come back.
    NoReplies,
    /// A site's own row comes back in place of the reply.
    OwnRowBack,
    /// The row before the reply comes back.
    RowBefore,
    /// Replies come back once the row has arrived everywhere.
    RepliesLast,
}

/// All faults, and what they break. Some break nothing, but the commands are others.
/// Without a row's deliveries or their replies all may still hear of everything in time:
/// what a reply tells, a row of the same site tells later, and the other way round.
const FAULTS: [(Fault, Option<Broken>); 15] = [
    (Fault::OneRound, Some(Broken::Claim)),
    (Fault::TwoRounds, Some(Broken::Rest)),
    (Fault::FirstAlone, Some(Broken::Claim)),
    (Fault::LastHasNone, Some(Broken::Rest)),
    (Fault::TurnsFromLast, Some(Broken::Rest)),
    (Fault::ToNobody, Some(Broken::Claim)),
    (Fault::BelowAlone, Some(Broken::Rest)),
    (Fault::BelowWithoutReplies, Some(Broken::Claim)),
    (Fault::AboveAlone, Some(Broken::Rest)),
    (Fault::AboveWithoutReplies, Some(Broken::Claim)),
    (Fault::HighestFirst, None),
    (Fault::NoReplies, Some(Broken::Rest)),
    (Fault::OwnRowBack, Some(Broken::Claim)),
    (Fault::RowBefore, Some(Broken::Claim)),
    (Fault::RepliesLast, None),
];

/// A schedule with a fault under way.
struct Faulty {
    fault: Fault,
    world: World,
    store: Vec<u8>,
    told: Rounds,
}

impl Faulty {
    /// The three rounds with a fault.
    fn play(fault: Fault, day: &Reached) -> Tried {
        let mut faulty = Faulty {
            fault,
            world: day.world,
            store: day.store.clone(),
            told: Rounds::default(),
        };
        for site in faulty.turns() {
            faulty.turn(site);
        }
        let (before, after) = (day.world, faulty.world);
        let told = Rounds {
            rows: after.row_count - before.row_count,
            news: after.news - before.news,
            ..faulty.told
        };
        Tried {
            before,
            after,
            told,
        }
    }

    /// The sites whose turn it is, one after the other.
    fn turns(&self) -> Vec<usize> {
        let n = self.world.sizes.n;
        let sites: Vec<usize> = (0..n).collect();
        match self.fault {
            Fault::OneRound => sites,
            Fault::TwoRounds => sites.repeat(2),
            Fault::FirstAlone => vec![0; ROUNDS],
            Fault::LastHasNone => sites[..n - 1].repeat(ROUNDS),
            Fault::TurnsFromLast => reversed(sites).repeat(ROUNDS),
            _ => sites.repeat(ROUNDS),
        }
    }

    fn turn(&mut self, site: usize) {
        let Some(row) = self.give(Command::Timeout(site)) else {
            return;
        };
        let mut late = Vec::new();
        for other in self.others(site) {
            let reply = self.give(Command::deliver(row, other));
            let back = reply.and_then(|reply| self.back(row, reply));
            let back = back.map(|row| Command::deliver(row, site));
            match self.fault {
                Fault::RepliesLast => late.extend(back),
                _ => self.give_all(back),
            }
        }
        self.give_all(late);
    }

    /// Those that a site's row goes to.
    fn others(&self, site: usize) -> Vec<usize> {
        let n = self.world.sizes.n;
        let others = (0..n).filter(|&other| other != site).collect();
        match self.fault {
            Fault::ToNobody => Vec::new(),
            Fault::BelowAlone | Fault::BelowWithoutReplies => (0..site).collect(),
            Fault::AboveAlone | Fault::AboveWithoutReplies => (site + 1..n).collect(),
            Fault::HighestFirst => reversed(others),
            _ => others,
        }
    }

    /// The row that comes back.
    fn back(&self, row: usize, reply: usize) -> Option<usize> {
        match self.fault {
            Fault::NoReplies | Fault::BelowWithoutReplies | Fault::AboveWithoutReplies => None,
            Fault::OwnRowBack => Some(row),
            Fault::RowBefore => Some(reply - 1),
            _ => Some(reply),
        }
    }

    fn give_all(&mut self, commands: impl IntoIterator<Item = Command>) {
        for command in commands {
            self.give(command);
        }
    }

    /// Gives a command, and says which row it has sent, if any.
    fn give(&mut self, command: Command) -> Option<usize> {
        let (row, list) = (self.world.row_count, command.bytes());
        match one_command(&mut self.world, &mut self.store, Ask::new(&list, 0)) {
            Ok(_) => self.told.events += 1,
            Err(number) => self.told.refusal = self.told.refusal.or(Some(number)),
        }
        self.told.commands.push(command);
        (row < self.world.row_count).then_some(row)
    }
}

fn reversed(sites: Vec<usize>) -> Vec<usize> {
    sites.into_iter().rev().collect()
}

#[test]
fn a_fault_of_the_schedule_is_noticed() {
    let days: Vec<Reached> = worlds(SEED + 1).take(WORLDS).map(|(day, _)| day).collect();
    for (fault, due) in FAULTS {
        let broken = days
            .iter()
            .filter_map(|day| Faulty::play(fault, day).broken());
        let found = broken.min();
        println!("{fault:?} noticed by its commands, and breaks {found:?}");
        assert_eq!(found.map(|(broken, _)| broken), due, "{fault:?}");
        assert!(days.iter().all(|day| gives_others(fault, day)), "{fault:?}");
    }
    println!("{} faults of the schedule noticed", FAULTS.len());
}

/// Are the commands others than they should be?
fn gives_others(fault: Fault, day: &Reached) -> bool {
    let given = Faulty::play(fault, day).told.commands;
    given != day.rounds(ROUNDS).told.commands
}

/// The copy without a fault is the schedule.
#[test]
fn the_copy_of_the_schedule_is_one() {
    for (day, _) in worlds(SEED + 2).take(WORLDS) {
        let copied = Faulty::play(Fault::None, &day);
        let mut world = day.world;
        let told = play_rounds(&mut world, &mut day.store.clone(), ROUNDS);
        assert_eq!(copied.told, told);
        assert_eq!(copied.after, world);
    }
}

/// One round is not enough after complete votes, and two are.
#[test]
fn one_round_is_not_enough() {
    let day = complete_votes(three_sites(7));
    assert!(day.rounds(1).claim().is_err());
    assert!(day.rounds(2).claim().is_ok());
    assert_eq!(day.rounds_needed(), Some(2));
}
