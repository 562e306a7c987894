//! The site rules: what each event does to one site, and the row it sends.

use crate::command::Command;
use crate::record::Written;
use crate::row::{Kind, Row};
use crate::site::{GroupRecord, Log, Role, Site};
use crate::sizes::{everyone, Sizes};
use crate::state::{Side, State};
use crate::vector::Vector;

/// The site an event happens at, beside the world's sizes.
pub struct Actor<'a> {
    pub sizes: &'a Sizes,
    pub me: usize,
    pub site: &'a mut Site,
    /// What its rules have written so far.
    pub written: Written,
}

impl<'a> Actor<'a> {
    pub fn new(sizes: &'a Sizes, me: usize, site: &'a mut Site) -> Actor<'a> {
        Actor {
            sizes,
            me,
            site,
            written: Written::default(),
        }
    }

    /// What a command does here, with the row it delivers if it does; that row
    /// is merged already.
    pub fn act(&mut self, command: Command, told: Option<&Row>) -> Option<Row> {
        match command {
            Command::Start => Some(self.start()),
            Command::Deliver { .. } => told.and_then(|row| self.deliver(row)),
            Command::Timeout(_) => self.timeout(),
            Command::Crash(_) => {
                self.crash();
                None
            }
            Command::Recover(_) => {
                self.recover();
                None
            }
        }
    }

    /// START at this site.
    fn start(&mut self) -> Row {
        self.site.role = Role::Coordinator;
        if self.sizes.is_willing(self.me) {
            self.prepare();
            self.send(Kind::Prepare)
        } else {
            self.end(Side::Abort);
            self.send(Kind::Outcome)
        }
    }

    /// TIMEOUT at this site.
    fn timeout(&mut self) -> Option<Row> {
        if self.site.state() == State::Active {
            self.end(Side::Abort);
            return None;
        }
        if self.site.is_coordinator() {
            self.decide();
        }
        self.site.role = Role::Coordinator;
        Kind::command_of(self.site.state()).map(|kind| self.send(kind))
    }

    /// What a coordinator makes of what it knows.
    fn decide(&mut self) {
        match self.site.state() {
            State::Prepared => self.join(self.better_side()),
            State::InGroup(side) if self.has_quorum(side) => self.end(side),
            _ => {}
        }
    }

    /// The group a prepared coordinator joins.
    fn better_side(&self) -> Side {
        let known = &self.site.vector;
        let all_prepared = known.count(State::Prepared) == self.sizes.n;
        let some_joined = known.count(State::InGroup(Side::Commit)) > 0;
        if all_prepared || some_joined {
            Side::Commit
        } else {
            Side::Abort
        }
    }

    /// Do the sites known to be in the group weigh enough?
    fn has_quorum(&self, side: Side) -> bool {
        let known = &self.site.vector;
        known.weigh(State::InGroup(side), &self.sizes.weights) >= self.sizes.quorum(side)
    }

    /// DELIVER of a row to this site, once it is merged.
    fn deliver(&mut self, row: &Row) -> Option<Row> {
        self.learn_outcome();
        match (row.kind, self.site.state()) {
            (Kind::Prepare, State::Active) => self.make_up_mind(),
            (Kind::Join(side), State::Prepared) => self.join(side),
            (Kind::Join(Side::Abort), State::Active) => self.join(Side::Abort),
            _ => {}
        }
        row.kind.reply().map(|kind| self.answer(kind, row.sender))
    }

    /// Writes an outcome that some entry shows, the lowest site first.
    fn learn_outcome(&mut self) {
        if let (None, Some(side)) = (self.site.log.outcome, self.site.vector.outcome()) {
            self.end(side);
        }
    }

    /// An active site is asked to prepare.
    fn make_up_mind(&mut self) {
        if self.sizes.is_willing(self.me) {
            self.prepare();
        } else {
            self.end(Side::Abort);
        }
    }

    /// CRASH of this site: only the log is left.
    fn crash(&mut self) {
        self.site.up = false;
        self.site.role = Role::Subordinate;
        self.site.vector = match self.site.log.group {
            Some(record) => record.vector,
            None => Vector::ZEROS,
        };
        self.show_state();
    }

    /// RECOVER of this site. With nothing on stable storage it does not know
    /// what it may have missed, so it aborts, and tells nobody: document 02
    /// corrects document 01, which has it active.
    fn recover(&mut self) {
        self.site.up = true;
        if self.site.log == Log::EMPTY {
            self.site.role = Role::Subordinate;
            self.end(Side::Abort);
        }
    }

    /// Writes the prepare record.
    fn prepare(&mut self) {
        self.site.log.prepare = true;
        self.written.prepare = true;
        self.show_state();
    }

    /// Writes the group record, with the vector after joining.
    fn join(&mut self, side: Side) {
        self.site.vector.set(self.me, State::InGroup(side));
        self.site.log.group = Some(GroupRecord {
            side,
            vector: self.site.vector,
        });
        self.written.group = Some(side);
    }

    /// Writes the outcome record.
    fn end(&mut self, side: Side) {
        self.site.log.outcome = Some(side);
        self.written.outcome = Some(side);
        self.show_state();
    }

    /// Keeps the own entry equal to the state.
    fn show_state(&mut self) {
        self.site.vector.set(self.me, self.site.state());
    }

    /// A command, to all but the sender.
    fn send(&self, kind: Kind) -> Row {
        self.row(kind, everyone(self.sizes.n) & !(1 << self.me))
    }

    /// A reply, to one site.
    fn answer(&self, kind: Kind, asker: usize) -> Row {
        self.row(kind, 1 << asker)
    }

    fn row(&self, kind: Kind, to: u16) -> Row {
        Row {
            kind,
            sender: self.me,
            to,
            vector: self.site.vector,
        }
    }
}
