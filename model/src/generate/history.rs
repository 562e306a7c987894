//! A history that grows along a network of single sites.

use super::header::{beginning, plain_of, weighted_of};
use super::rng::Rng;
use crate::layout::CODES;
use crate::network::{Event, Happening, Network, Servers, SiteBytes};
use crate::row::Row;
use crate::sizes::Sizes;
use crate::step_call::Steps;

/// A row and a site it goes to.
type Parcel = (usize, usize);

/// How often each sort of thing happens, out of the sum.
#[derive(Clone, Copy)]
struct Mood {
    round: usize,
    fresh: usize,
    repeat: usize,
    timeout: usize,
    crash: usize,
    recover: usize,
    /// Anything at all, most of which is refused.
    odd: usize,
    /// How many of a hundred rows of a round arrive.
    arrive: usize,
}

/// Most rows arrive.
const CALM: Mood = mood([20, 60, 3, 8, 0, 5], 97);
/// Many sites want to lead.
const DUELLING: Mood = mood([15, 40, 5, 30, 2, 6], 75);
/// Sites come and go.
const CRASHING: Mood = mood([10, 40, 5, 15, 12, 18], 80);
/// Old rows come again.
const REPEATING: Mood = mood([10, 15, 50, 15, 3, 5], 85);
/// Much is sent and little arrives.
const LOSING: Mood = mood([25, 5, 3, 50, 2, 5], 30);

const MOODS: [Mood; 5] = [CALM, DUELLING, CRASHING, REPEATING, LOSING];

const fn mood(shares: [usize; 6], arrive: usize) -> Mood {
    let [round, fresh, repeat, timeout, crash, recover] = shares;
    Mood {
        round,
        fresh,
        repeat,
        timeout,
        crash,
        recover,
        odd: 2,
        arrive,
    }
}

/// The history so far, the network it has led to, and what is under way.
pub struct Course<'a> {
    pub network: Network<'a>,
    pub history: Vec<Happening>,
    pub sizes: Sizes,
    /// It gets no longer than this.
    limit: usize,
    /// Below so many rows nothing is to be decided.
    hold: usize,
    /// For each row, the sites it has not reached.
    waiting: Vec<u16>,
    arrived: Vec<Parcel>,
}

impl<'a> Course<'a> {
    /// Sizes of any sort.
    pub fn any_sizes(rng: &mut Rng) -> Sizes {
        let (_, sizes) = beginning(rng);
        sizes
    }

    /// Sizes of three or four sites, of different weight half of the time.
    pub fn few_sites(rng: &mut Rng) -> Sizes {
        let n = rng.between(3, 4);
        match rng.chance(50) {
            true => plain_of(rng, n),
            false => weighted_of(rng, n),
        }
    }

    /// So many happenings, most of them accepted.
    pub fn wander(
        rng: &mut Rng,
        (side, servers): (&'a dyn Steps, &'a dyn Servers),
        sizes: Sizes,
        limit: usize,
    ) -> Course<'a> {
        let mut course = Course::new(Network::new(side, servers, sizes), sizes, limit);
        if rng.chance(90) {
            let mood = rng.choose(&MOODS);
            course.round(rng, (0, Event::Start), mood);
        }
        course.go_on(rng);
        course
    }

    /// A duel that nobody wins before so many rows are sent, if all are willing; then
    /// it goes on until there are so many happenings.
    pub fn quarrel(
        rng: &mut Rng,
        (side, servers): (&'a dyn Steps, &'a dyn Servers),
        sizes: Sizes,
        (rows, limit): (usize, usize),
    ) -> Course<'a> {
        let mut course = Course::new(Network::new(side, servers, sizes), sizes, limit);
        course.round(rng, (0, Event::Start), CALM);
        course.hold = rows;
        for site in [0, 1, 1] {
            course.play((site, Event::Timeout));
        }
        course.go_on(rng);
        course
    }

    fn new(network: Network<'a>, sizes: Sizes, limit: usize) -> Course<'a> {
        Course {
            network,
            history: Vec::new(),
            sizes,
            limit,
            hold: 0,
            waiting: Vec::new(),
            arrived: Vec::new(),
        }
    }

    fn has_room(&self) -> bool {
        self.history.len() < self.limit
    }

    /// Happenings until there are enough.
    fn go_on(&mut self, rng: &mut Rng) {
        let mut idle = 0;
        while self.has_room() && idle < 400 {
            let before = self.history.len();
            let mood = rng.choose(&MOODS);
            for _ in 0..rng.between(1, 20) {
                self.happen(rng, mood);
            }
            idle = match self.history.len() > before {
                true => 0,
                false => idle + 1,
            };
            if idle > 20 {
                self.hold = 0;
            }
        }
    }

    /// Adds what happens if it is accepted and wanted.
    fn play(&mut self, happening: Happening) -> bool {
        let Some((next, answer)) = self.network.try_step(happening) else {
            return false;
        };
        let is_wanted = self.network.rows.len() >= self.hold || self.is_open(&next);
        if !self.has_room() || !answer.is_accepted() || !is_wanted {
            return false;
        }
        self.add(happening);
        true
    }

    /// Adds what happens, accepted or not.
    fn add(&mut self, (site, event): Happening) {
        let answer = self.network.step((site, event));
        let Some(answer) = answer else {
            return;
        };
        self.history.push((site, event));
        if !answer.is_accepted() {
            return;
        }
        self.waiting.extend(answer.sent().map(|row| self.to(&row)));
        if let Event::Deliver(row) = event {
            self.waiting[row] &= !(1 << site);
            self.arrived.push((row, site));
        }
    }

    /// A row's destinations.
    fn to(&self, row: &[u8]) -> u16 {
        Row::read(row, 0, self.sizes.n).map_or(0, |row| row.to)
    }

    /// Has a site no outcome, and does it know of no quorum?
    fn is_open(&self, site: &SiteBytes) -> bool {
        let weigh = |code: u8| {
            let known = site[CODES].iter().zip(&self.sizes.weights);
            let such = known.filter(|(&held, _)| held == code);
            such.map(|(_, &weight)| usize::from(weight)).sum::<usize>()
        };
        let Sizes {
            commit_quorum,
            abort_quorum,
            ..
        } = self.sizes;
        site[4] == 0 && weigh(2) < commit_quorum && weigh(3) < abort_quorum
    }

    /// Something happens.
    fn happen(&mut self, rng: &mut Rng, mood: Mood) -> bool {
        let shares = [
            mood.round,
            mood.fresh,
            mood.repeat,
            mood.timeout,
            mood.crash,
            mood.recover,
            mood.odd,
        ];
        let mut draw = rng.below(shares.iter().sum());
        let sort = shares.iter().position(|&share| {
            let is_drawn = draw < share;
            draw = draw.wrapping_sub(share);
            is_drawn
        });
        match sort {
            Some(0) => self.lead(rng, mood),
            Some(1) => self.deliver_fresh(rng),
            Some(2) => self.deliver_again(rng),
            Some(3) => self.time_out(rng),
            Some(4) => self.play((rng.below(self.sizes.n), Event::Crash)),
            Some(5) => self.recover_one(rng),
            _ => self.anything(rng),
        }
    }

    /// The code of a site's state.
    fn state(&self, site: usize) -> u8 {
        self.network.members[site].site[CODES.start + site]
    }

    /// The sites that are up and not active; seldom any that is up.
    fn awake(&self, rng: &mut Rng) -> Vec<usize> {
        let hasty = rng.chance(4);
        let is_awake = |&site: &usize| {
            let is_up = self.network.members[site].site[0] == 1;
            is_up && (hasty || self.state(site) > 0)
        };
        (0..self.sizes.n).filter(is_awake).collect()
    }

    /// A round by a site, most often a coordinator.
    fn lead(&mut self, rng: &mut Rng, mood: Mood) -> bool {
        let mut leaders = self.awake(rng);
        let is_leader = |&site: &usize| self.network.members[site].site[1] == 1;
        if rng.chance(60) && leaders.iter().any(is_leader) {
            leaders.retain(is_leader);
        }
        match rng.pick(leaders) {
            Some(leader) => self.round(rng, (leader, Event::Timeout), mood),
            None => self.recover_one(rng),
        }
    }

    /// A site sends a row, which arrives at some sites, and some replies come back.
    fn round(&mut self, rng: &mut Rng, (leader, event): Happening, mood: Mood) -> bool {
        let row = self.network.rows.len();
        if !self.play((leader, event)) || self.network.rows.len() == row {
            return false;
        }
        let mut sites: Vec<usize> = (0..self.sizes.n).filter(|&site| site != leader).collect();
        rng.shuffle(&mut sites);
        for site in sites {
            if rng.chance(mood.arrive) {
                self.play((site, Event::Deliver(row)));
            }
        }
        for reply in row + 1..self.network.rows.len() {
            if rng.chance(mood.arrive) {
                self.play((leader, Event::Deliver(reply)));
            }
        }
        true
    }

    /// A row that was sent, of late more often.
    fn recent_row(&self, rng: &mut Rng) -> Option<usize> {
        let rows = self.network.rows.len();
        let reach = rows.min(rng.choose(&[8, 40, usize::MAX]));
        rows.checked_sub(1 + rng.below(reach))
    }

    /// Something that has not arrived yet.
    fn deliver_fresh(&mut self, rng: &mut Rng) -> bool {
        let Some(row) = self.recent_row(rng) else {
            return false;
        };
        let left = self.waiting[row];
        let site = rng.pick((0..self.sizes.n).filter(|site| left >> site & 1 == 1));
        site.is_some_and(|site| self.play((site, Event::Deliver(row))))
    }

    /// Something that has arrived before.
    fn deliver_again(&mut self, rng: &mut Rng) -> bool {
        let at = rng.below(self.arrived.len());
        let parcel = self.arrived.get(at).copied();
        parcel.is_some_and(|(row, site)| self.play((site, Event::Deliver(row))))
    }

    fn time_out(&mut self, rng: &mut Rng) -> bool {
        let awake = self.awake(rng);
        let site = rng.pick(awake);
        site.is_some_and(|site| self.play((site, Event::Timeout)))
    }

    fn recover_one(&mut self, rng: &mut Rng) -> bool {
        let is_down = |&site: &usize| self.network.members[site].site[0] == 0;
        let site = rng.pick((0..self.sizes.n).filter(is_down));
        site.is_some_and(|site| self.play((site, Event::Recover)))
    }

    /// Anything at any site. Where something is held back, only what is refused.
    fn anything(&mut self, rng: &mut Rng) -> bool {
        let site = rng.below(self.sizes.n);
        let row = self.recent_row(rng).unwrap_or(0);
        let event = match rng.below(10) {
            0..=2 => Event::Start,
            3..=7 => Event::Deliver(row),
            8 => Event::Crash,
            _ => Event::Recover,
        };
        let tried = self.network.try_step((site, event));
        let is_refused = tried.is_some_and(|(_, answer)| !answer.is_accepted());
        if is_refused && self.has_room() {
            self.add((site, event));
            return true;
        }
        self.play((site, event))
    }
}
