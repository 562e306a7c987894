//! Steps that are taken with one fault.

use model::single::{step, take};
use model::sizes::{everyone, ones};
use model::{GroupRecord, Input, Kind, Log, Role, Row, Side, Site, State, Stepped, Terms};
use model::{Vector, Written};

use super::Fault;

/// The site before a step and after it.
pub type Change<'a> = (&'a Site, &'a mut Site);

impl Fault {
    /// The step, refused or accepted, by rules with this fault.
    pub fn taken(self, terms: &Terms, site: &mut Site, input: Input) -> Result<Stepped, u8> {
        let before = *site;
        let mut terms = *terms;
        self.mislead(&mut terms, site, input);
        let may_start = site.up && input == Input::Start;
        let state = site.state();
        let mut stepped = match self {
            Fault::StartsAnywhere if may_start && state == State::Active => {
                take(&terms, site, input, None)
            }
            Fault::StartsAgain if may_start && terms.own == 0 && state == State::Prepared => {
                take(&terms, site, input, None)
            }
            _ => step(&terms, site, input)?,
        };
        self.spoil(&terms, (&before, site), input, &mut stepped);
        Ok(stepped)
    }

    /// What the step is taken with.
    fn mislead(self, terms: &mut Terms, site: &mut Site, input: Input) {
        let sizes = &mut terms.sizes;
        match self {
            Fault::CountsEntries => sizes.weights = ones(sizes.n),
            Fault::NeedsLess => {
                sizes.commit_quorum -= 1;
                sizes.abort_quorum -= 1;
            }
            Fault::PreparesUnwilling => sizes.willing = everyone(sizes.n),
            Fault::DecidesAtOnce if input == Input::Timeout && site.state() != State::Active => {
                site.role = Role::Coordinator;
            }
            _ => {}
        }
    }

    /// What is made of an accepted step.
    fn spoil(self, terms: &Terms, change: Change, input: Input, stepped: &mut Stepped) {
        match input {
            Input::Crash => self.crash(terms.own, change),
            Input::Recover if change.0.log == Log::EMPTY => self.restart(terms, change, stepped),
            Input::Timeout => self.decide_again(terms, change, stepped),
            Input::Deliver(row) if row[0] == Kind::Join(Side::Commit).byte() => {
                self.join_again(terms.own, change, stepped)
            }
            _ => {}
        }
    }

    fn crash(self, own: usize, (before, site): Change) {
        match self {
            Fault::KeepsCodes => site.vector = before.vector,
            Fault::KeepsRole => site.role = before.role,
            Fault::LosesVector => site.vector = Vector::ZEROS,
            Fault::LosesPrepare => site.log.prepare = false,
            Fault::LosesGroup => {
                site.log.group = None;
                site.vector = Vector::ZEROS;
            }
            Fault::LosesOutcome => site.log.outcome = None,
            _ => {}
        }
        site.vector.set(own, site.state());
    }

    fn restart(self, terms: &Terms, (before, site): Change, stepped: &mut Stepped) {
        match self {
            Fault::ComesBackActive => {
                *site = Site {
                    up: true,
                    ..*before
                };
                stepped.written = Written::default();
            }
            Fault::TellsOfRestart => {
                stepped.row = Some(Row {
                    kind: Kind::Outcome,
                    sender: terms.own,
                    to: everyone(terms.sizes.n) & !(1 << terms.own),
                    vector: site.vector,
                });
            }
            _ => {}
        }
    }

    /// TIMEOUT of a prepared coordinator that has heard from all.
    fn decide_again(self, terms: &Terms, (before, site): Change, stepped: &mut Stepped) {
        let known = &before.vector.codes()[..terms.sizes.n];
        let led = before.is_coordinator() && before.state() == State::Prepared;
        if self == Fault::TakesThreeForPrepare && led && !known.contains(&0) {
            join_commit(terms.own, site, stepped, Kind::Join(Side::Commit));
        }
    }

    /// A join commit has arrived.
    fn join_again(self, own: usize, (before, site): Change, stepped: &mut Stepped) {
        let abort = State::InGroup(Side::Abort);
        let joins = match (self, before.state()) {
            (Fault::LeavesAbortGroup, held) => held == abort && site.state() == abort,
            (Fault::JoinsCommitActive, held) => {
                held == State::Active && site.state() == State::Active
            }
            _ => false,
        };
        if joins {
            join_commit(own, site, stepped, Kind::InGroup);
        }
    }
}

/// The site is in the commit group instead, and its row says so.
fn join_commit(own: usize, site: &mut Site, stepped: &mut Stepped, kind: Kind) {
    let side = Side::Commit;
    site.vector.set(own, State::InGroup(side));
    let vector = site.vector;
    site.log.group = Some(GroupRecord { side, vector });
    stepped.written.group = Some(side);
    stepped.row = stepped.row.map(|row| Row {
        kind,
        vector,
        ..row
    });
}
