//! Single sites, each with a server of its own, and the rows that they send each other.
//! Any row that was sent can arrive at any time, any number of times, or never. There may
//! be any number of rows.

use std::collections::BTreeSet;

use crate::claim::{broken, Broken, WrittenBy};
use crate::disk::Disk;
use crate::layout::{site_bytes, SITE_BYTES};
use crate::number;
use crate::record::Written;
use crate::row::ROW_BYTES;
use crate::single::Input;
use crate::site::Site;
use crate::sizes::Sizes;
use crate::step_call::{Steps, STEP_RESULT_BYTES};
use crate::terms::{Terms, TERMS_BYTES};

pub type RowBytes = [u8; ROW_BYTES];
pub type SiteBytes = [u8; SITE_BYTES];

/// What rows and results have in them before a call.
pub const FILL: u8 = 0xee;

/// What can happen at a site; a delivery is of a row that was sent, by its number.
#[derive(Clone, Copy, Debug, PartialEq, Eq, Hash)]
pub enum Event {
    Start,
    Deliver(usize),
    Timeout,
    Crash,
    Recover,
}

/// A site, and what happens there.
pub type Happening = (usize, Event);

/// One club's server.
#[derive(Clone, Debug, PartialEq, Eq)]
pub struct Member {
    pub own: usize,
    pub terms: [u8; TERMS_BYTES],
    pub site: SiteBytes,
    pub disk: Disk,
    /// What its last step wrote.
    pub last: [u8; 3],
}

/// What a call gave.
#[derive(Clone, Copy, Debug, PartialEq, Eq)]
pub struct Answer {
    pub number: u32,
    /// The row as it is left, all of the fill before.
    pub row: RowBytes,
    /// The same of the result.
    pub result: [u8; STEP_RESULT_BYTES],
}

impl Answer {
    pub fn is_accepted(&self) -> bool {
        self.number == number::NONE.into()
    }

    /// The row sent, if one is.
    pub fn sent(&self) -> Option<RowBytes> {
        (self.row[0] != 0).then_some(self.row)
    }

    /// What the step wrote, a byte for each place of the log.
    pub fn written(&self) -> [u8; 3] {
        [self.result[0], self.result[1], self.result[2]]
    }

    /// How many entries rose.
    pub fn news(&self) -> usize {
        let [.., a, b, c, d] = self.result;
        u32::from_le_bytes([a, b, c, d]) as usize
    }
}

/// What the servers do around the calls. As it stands, all is well: a crash is the call's.
pub trait Servers {
    /// The terms that a site is given.
    fn terms(&self, terms: Terms) -> [u8; TERMS_BYTES] {
        terms.bytes()
    }

    /// The row that arrives at a site where this one was sent.
    fn arriving(&self, row: &RowBytes, _site: usize) -> RowBytes {
        *row
    }

    /// The site after a crash, of a member as it was before it; the call makes this of it.
    fn left(&self, _before: &Member, called: SiteBytes) -> SiteBytes {
        called
    }
}

/// Servers that use the call for a crash.
pub struct ByCall;

impl Servers for ByCall {}

/// Servers that lose all but their disk in a crash, on which there is what the results of
/// their steps told them to force.
pub struct FromDisk;

impl Servers for FromDisk {
    fn left(&self, before: &Member, _called: SiteBytes) -> SiteBytes {
        before.disk.site(before.own)
    }
}

/// All sites of a competition.
pub struct Network<'a> {
    side: &'a dyn Steps,
    servers: &'a dyn Servers,
    pub members: Vec<Member>,
    /// All rows sent so far.
    pub rows: Vec<RowBytes>,
    /// All records written so far, in order.
    pub written: Vec<WrittenBy>,
    /// Entries that rose.
    pub news: usize,
    /// What the records have broken, after any of the steps.
    pub broken: BTreeSet<Broken>,
    willing: Vec<bool>,
}

impl<'a> Network<'a> {
    /// All sites are fresh.
    pub fn new(side: &'a dyn Steps, servers: &'a dyn Servers, sizes: Sizes) -> Network<'a> {
        let member = |own| Member {
            own,
            terms: servers.terms(Terms::of(sizes, own)),
            site: site_bytes(&Site::FRESH),
            disk: Disk::EMPTY,
            last: [0; 3],
        };
        Network {
            side,
            servers,
            members: (0..sizes.n).map(member).collect(),
            rows: Vec::new(),
            written: Vec::new(),
            news: 0,
            broken: BTreeSet::new(),
            willing: (0..sizes.n).map(|own| sizes.is_willing(own)).collect(),
        }
    }

    /// A step at a site. None, and nothing happens, if such a row was not sent.
    pub fn step(&mut self, (at, event): Happening) -> Option<Answer> {
        let (next, answer) = self.try_step((at, event))?;
        if !answer.is_accepted() {
            return Some(answer);
        }
        let member = &mut self.members[at];
        let new = Disk::of(&next).new_since(&Disk::of(&member.site));
        if event == Event::Crash {
            member.site = self.servers.left(member, next);
            member.disk = Disk::of(&member.site);
        } else {
            member.site = next;
            member.disk.force(&next, answer.written());
        }
        member.last = answer.written();
        self.rows.extend(answer.sent());
        self.news += answer.news();
        self.enter(at, [answer.written(), new]);
        Some(answer)
    }

    /// The site after such a step, and the answer; nothing happens.
    pub fn try_step(&self, (at, event): Happening) -> Option<(SiteBytes, Answer)> {
        let member = &self.members[at];
        let row = match event {
            Event::Deliver(row) => self.servers.arriving(self.rows.get(row)?, at),
            _ => [0; ROW_BYTES],
        };
        let command = event.input(&row).bytes();
        let (mut site, mut row) = (member.site, [FILL; ROW_BYTES]);
        let mut result = [FILL; STEP_RESULT_BYTES];
        let number = self
            .side
            .step(&member.terms, &mut site, &command, &mut row, &mut result);
        let answer = Answer {
            number,
            row,
            result,
        };
        Some((site, answer))
    }

    /// What all servers have on their disks.
    pub fn disks(&self) -> Vec<Disk> {
        self.members.iter().map(|member| member.disk).collect()
    }

    /// Enters what a site has written, by its result and by what is new in its log, and
    /// looks at the claim.
    fn enter(&mut self, at: usize, [told, new]: [[u8; 3]; 2]) {
        let records = Written::of(told).records();
        let untold = Written::of(new).records().filter(|&record| {
            let mut told = Written::of(told).records();
            told.all(|known| known != record)
        });
        let before = self.written.len();
        let written = records.chain(untold).map(|record| (at, record));
        self.written.extend(written);
        if self.written.len() > before {
            self.broken.extend(broken(&self.written, &self.willing));
        }
    }
}

impl Event {
    /// The command, with the row if it is a delivery.
    fn input(self, row: &RowBytes) -> Input<'_> {
        match self {
            Event::Start => Input::Start,
            Event::Deliver(_) => Input::Deliver(row),
            Event::Timeout => Input::Timeout,
            Event::Crash => Input::Crash,
            Event::Recover => Input::Recover,
        }
    }
}
