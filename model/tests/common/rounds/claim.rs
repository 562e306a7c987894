//! What document 02 claims of three rounds, request (viii), and what else holds of them.

use model::rounds::ROUNDS;
use model::vector::level;
use model::{play_rounds, Log, Rounds, Side, Site, State, World};

/// Events of three rounds at the most: in each of 3n turns a TIMEOUT, and for each other
/// site a delivery and its reply's.
pub fn most_events(n: usize) -> usize {
    3 * n * (2 * n - 1)
}

/// Rows: in each turn one, and a reply of each other site.
pub fn most_rows(n: usize) -> usize {
    3 * n * n
}

/// News: each site's entry of each other rises three times.
pub fn most_news(n: usize) -> usize {
    3 * n * (n - 1)
}

/// The outcome that every site has, if they all have the same.
pub fn outcome_of_all(world: &World) -> Option<Side> {
    let outcome = world.members().first()?.log.outcome;
    let is_same = |site: &Site| site.log.outcome == outcome;
    outcome.filter(|_| world.members().iter().all(is_same))
}

/// After how many rounds all sites have the same outcome, if they have by the third.
pub fn rounds_needed(world: &World, store: &mut [u8]) -> Option<usize> {
    let mut world = *world;
    (0..=ROUNDS).find(|&round| {
        if round > 0 {
            play_rounds(&mut world, store, 1);
        }
        outcome_of_all(&world).is_some()
    })
}

/// What does not hold of three rounds.
#[derive(Clone, Copy, Debug, PartialEq, Eq, PartialOrd, Ord)]
pub enum Broken {
    /// What the request claims.
    Claim,
    /// That holds, but not all else that the schedule and the rules bring with them.
    Rest,
}

/// Rounds that were played, the world before and the world after them.
pub struct Tried {
    pub before: World,
    pub after: World,
    pub told: Rounds,
}

impl Tried {
    /// So many rounds from a world on, by the model.
    pub fn of(before: &World, store: &mut [u8], rounds: usize) -> Tried {
        let mut after = *before;
        let told = play_rounds(&mut after, store, rounds);
        Tried {
            before: *before,
            after,
            told,
        }
    }

    fn n(&self) -> usize {
        self.before.sizes.n
    }

    /// Checks what the request says of three rounds; gives the outcome.
    pub fn claim(&self) -> Result<Side, String> {
        let told = &self.told;
        if let Some(number) = told.refusal {
            return Err(format!("an event is refused with {number}"));
        }
        ensure(
            told.events <= most_events(self.n()),
            "there are too many events",
        )?;
        outcome_of_all(&self.after).ok_or("not all sites have the same outcome".into())
    }

    /// The claim, and what else holds.
    pub fn check(&self) -> Result<Side, String> {
        let side = self.claim()?;
        self.check_bounds()?;
        self.check_cost()?;
        self.check_records(side)?;
        self.check_known(side)?;
        Ok(side)
    }

    /// What does not hold, and why.
    pub fn broken(&self) -> Option<(Broken, String)> {
        match (self.claim(), self.check()) {
            (Err(why), _) => Some((Broken::Claim, why)),
            (_, Err(why)) => Some((Broken::Rest, why)),
            _ => None,
        }
    }

    /// Rows and news stay within their bounds. Entries only rise here, and there are three
    /// levels to rise to, so the news is at most what was left to know.
    fn check_bounds(&self) -> Result<(), String> {
        let (n, told) = (self.n(), &self.told);
        ensure(told.rows <= most_rows(n), "there are too many rows")?;
        let before = levels(&self.before);
        ensure(before + told.news <= most_news(n), "there is too much news")
    }

    /// Every command is an event. A turn costs less than the most only at a site that is
    /// active then, and those are the sites below the first that is not.
    fn check_cost(&self) -> Result<(), String> {
        let (n, told) = (self.n(), &self.told);
        let mut members = self.before.members().iter();
        let is_awake = |site: &Site| site.state() != State::Active;
        let silent = members.position(is_awake).unwrap_or(n);
        let events = most_events(n) - silent * 2 * (n - 1);
        ensure(told.events == events, "the number of events is another one")?;
        ensure(told.commands.len() == events, "a command is no event")?;
        let rows = most_rows(n) - silent * n;
        ensure(told.rows == rows, "the number of rows is another one")
    }

    /// Everyone is up, every record stays, and a commit has everyone's will and prepare
    /// record.
    fn check_records(&self, side: Side) -> Result<(), String> {
        let (before, after) = (self.before.members(), self.after.members());
        let mut pairs = before.iter().zip(after);
        ensure(self.before.sizes == self.after.sizes, "sizes change")?;
        ensure(after.iter().all(|site| site.up), "a site is down")?;
        ensure(
            pairs.all(|(before, after)| keeps(&before.log, &after.log)),
            "a record goes",
        )?;
        let all_willing = (0..self.n()).all(|site| self.after.sizes.is_willing(site));
        let all_prepared = after.iter().all(|site| site.log.prepare);
        ensure(
            side == Side::Abort || all_willing && all_prepared,
            "a commit without everyone",
        )
    }

    /// Every site knows that all have ended like this.
    fn check_known(&self, side: Side) -> Result<(), String> {
        let ended = State::Terminated(side);
        let mut members = self.after.members().iter();
        ensure(
            members.all(|site| site.vector.count(ended) == self.n()),
            "a site has not heard of all",
        )
    }
}

/// What is wrong if this does not hold.
fn ensure(holds: bool, otherwise: &str) -> Result<(), String> {
    holds.then_some(()).ok_or(otherwise.into())
}

/// Are all records of a log still there?
fn keeps(before: &Log, after: &Log) -> bool {
    (after.prepare || !before.prepare)
        && (before.group.is_none() || before.group == after.group)
        && (before.outcome.is_none() || before.outcome == after.outcome)
}

/// The levels of all entries but the own ones, added up.
fn levels(world: &World) -> usize {
    let members = world.members().iter().enumerate();
    let of_others = members.flat_map(|(own, site)| {
        let entries = site.vector.codes().iter().enumerate();
        entries.filter(move |&(other, _)| other != own)
    });
    of_others.map(|(_, &code)| usize::from(level(code))).sum()
}
