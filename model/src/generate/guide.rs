//! A list that grows along a world, so that its commands are accepted.

use super::header::Beginning;
use super::rng::Rng;
use crate::command::{Ask, Command};
use crate::play::play_command;
use crate::row::{Row, STORE_BYTES};
use crate::site::Site;
use crate::state::{Side, State};
use crate::world::{World, MAX_ROWS};

/// A row and a site it goes to.
type Parcel = (usize, usize);

/// How often each sort of move is made, out of the sum.
#[derive(Clone, Copy)]
struct Mood {
    fresh: usize,
    repeat: usize,
    timeout: usize,
    crash: usize,
    recover: usize,
}

/// Most messages arrive.
const CALM: Mood = mood(80, 3, 8, 0, 5);
/// Many sites want to lead.
const DUELLING: Mood = mood(40, 5, 40, 2, 6);
/// Sites come and go.
const CRASHING: Mood = mood(40, 5, 20, 15, 18);
/// Old messages come again.
const REPEATING: Mood = mood(20, 50, 15, 2, 5);
/// Much is sent and little arrives.
const FLOODING: Mood = mood(10, 5, 80, 1, 4);

const MOODS: [Mood; 5] = [CALM, DUELLING, CRASHING, REPEATING, FLOODING];

const fn mood(fresh: usize, repeat: usize, timeout: usize, crash: usize, recover: usize) -> Mood {
    Mood {
        fresh,
        repeat,
        timeout,
        crash,
        recover,
    }
}

/// How a round goes: all numbers are out of a hundred.
#[derive(Clone, Copy)]
struct Weather {
    /// Commands that arrive.
    commands: usize,
    /// Replies that arrive.
    replies: usize,
    /// Messages that arrive twice.
    twice: usize,
    /// Crashes between messages.
    crashes: usize,
}

const WEATHERS: [Weather; 5] = [
    weather(100, 100, 0, 0),
    weather(100, 100, 10, 0),
    weather(85, 90, 10, 1),
    weather(60, 70, 5, 3),
    weather(30, 50, 5, 8),
];

const fn weather(commands: usize, replies: usize, twice: usize, crashes: usize) -> Weather {
    Weather {
        commands,
        replies,
        twice,
        crashes,
    }
}

/// The list so far, the world it leads to, and what is under way.
pub struct Guide {
    pub list: Vec<u8>,
    pub world: World,
    pub store: Vec<u8>,
    /// The list grows no longer than this.
    pub limit: usize,
    /// Below so many rows, nothing is to be decided.
    hold: usize,
    /// For each row, the sites it has not reached.
    waiting: Vec<u16>,
    arrived: Vec<Parcel>,
}

impl Guide {
    pub fn new((edition, sizes): Beginning, limit: usize) -> Guide {
        Guide {
            list: edition.header(&sizes),
            world: World::fresh(sizes),
            store: vec![0; STORE_BYTES],
            limit,
            hold: 0,
            waiting: Vec::new(),
            arrived: Vec::new(),
        }
    }

    /// Bytes left for commands.
    pub fn room(&self) -> usize {
        self.limit.saturating_sub(self.list.len())
    }

    /// How many sites there are.
    pub fn n(&self) -> usize {
        self.world.sizes.n
    }

    /// The number that a command would be refused with now, or the world after it.
    pub fn try_out(&mut self, list: &[u8]) -> Result<World, u8> {
        let mut next = self.world;
        play_command(&mut next, &mut self.store, Ask::new(list, 0))?;
        Ok(next)
    }

    /// Adds a command if it is accepted and fits.
    pub fn play(&mut self, command: Command) -> bool {
        let bytes = command.bytes();
        if bytes.len() > self.room() {
            return false;
        }
        match self.try_out(&bytes) {
            Ok(next) if self.may_become(&next) => {
                self.go_on(command, next);
                true
            }
            _ => false,
        }
    }

    /// Takes over a command and the world it leads to.
    fn go_on(&mut self, command: Command, next: World) {
        if next.row_count > self.world.row_count {
            self.waiting.push(self.row(self.world.row_count).to);
        }
        self.world = next;
        self.list.extend(command.bytes());
        self.note_arrived(command);
    }

    /// Keeps account of what was delivered.
    fn note_arrived(&mut self, command: Command) {
        let Command::Deliver { row, site } = command else {
            return;
        };
        if self.waiting[row] >> site & 1 == 1 {
            self.waiting[row] &= !(1 << site);
            self.arrived.push((row, site));
        }
    }

    /// Is the next world one that is wanted?
    fn may_become(&self, next: &World) -> bool {
        next.row_count >= self.hold || is_undecided(next)
    }

    /// A row that was sent.
    pub fn row(&self, at: usize) -> Row {
        Row::read(&self.store, at, self.n()).expect("played rows are good")
    }

    /// Commands until the list is long enough.
    pub fn wander(&mut self, rng: &mut Rng) {
        let weather = rng.choose(&WEATHERS);
        let floods = rng.chance(50);
        match rng.below(100) {
            0..=84 => self.open(rng, weather),
            85..=89 => self.open_with_threes(rng),
            _ => {}
        }
        if rng.chance(30) && is_undecided(&self.world) {
            self.hold = rng.below(MAX_ROWS);
        }
        let mut idle = 0;
        while self.room() >= 2 && idle < 100 {
            let before = self.list.len();
            self.wander_on(rng, weather, floods);
            idle = if self.list.len() > before {
                0
            } else {
                idle + 1
            };
            if idle > 20 {
                self.hold = 0;
            }
        }
    }

    /// START and what follows from it, in fair weather most often, and the
    /// next command of site 0 at times.
    fn open(&mut self, rng: &mut Rng, weather: Weather) {
        let first = if rng.chance(60) { WEATHERS[0] } else { weather };
        self.round(rng, Command::Start, first);
        if rng.chance(70) {
            self.round(rng, Command::Timeout(0), weather);
        }
    }

    /// One site prepares, all the others join the abort group, and the prepared
    /// one leads once it has heard so from site 0.
    fn open_with_threes(&mut self, rng: &mut Rng) {
        let prepared = rng.between(1, self.n() - 1);
        self.send_to(Command::Start, &[prepared]);
        let others: Vec<usize> = (1..self.n()).filter(|&site| site != prepared).collect();
        let first_reply = self.send_to(Command::Timeout(0), &others);
        for reply in first_reply..self.world.row_count {
            self.hand_over((reply, 0));
        }
        let vote = self.send_to(Command::Timeout(prepared), &[0]);
        self.hand_over((vote, prepared));
        self.play(Command::Timeout(prepared));
    }

    /// A command whose row arrives at these sites; gives the first reply's row.
    fn send_to(&mut self, command: Command, sites: &[usize]) -> usize {
        let row = self.world.row_count;
        self.play(command);
        for &site in sites {
            self.hand_over((row, site));
        }
        row + 1
    }

    /// Some more commands.
    fn wander_on(&mut self, rng: &mut Rng, weather: Weather, floods: bool) {
        let full = self.world.row_count == MAX_ROWS;
        match rng.below(4) {
            0 => self.scatter(rng, floods),
            _ if full => self.idle_move(rng),
            1 => self.lead_anyone(rng, weather),
            _ => self.lead_on(rng, weather),
        }
    }

    /// A round by a coordinator if there is one.
    fn lead_on(&mut self, rng: &mut Rng, weather: Weather) {
        let leader = self.sites(|site| site.up && site.is_coordinator());
        match rng.pick(leader) {
            Some(leader) => self.round(rng, Command::Timeout(leader), weather),
            None => self.lead_anyone(rng, weather),
        }
    }

    /// A round by any site, seldom one that is active.
    fn lead_anyone(&mut self, rng: &mut Rng, weather: Weather) {
        let hasty = rng.chance(8);
        let leader = self.sites(|site| site.up && (hasty || site.state() != State::Active));
        match rng.pick(leader) {
            Some(leader) => self.round(rng, Command::Timeout(leader), weather),
            None => self.scatter(rng, false),
        }
    }

    /// The sites that are as wished.
    pub fn sites(&self, wished: impl Fn(&Site) -> bool) -> Vec<usize> {
        let sites = 0..self.n();
        let fits = |&site: &usize| wished(&self.world.sites[site]);
        sites.filter(fits).collect()
    }

    /// A command is sent, arrives at some sites, and some replies come back.
    fn round(&mut self, rng: &mut Rng, opening: Command, weather: Weather) {
        let row = self.world.row_count;
        if !self.play(opening) || self.world.row_count == row {
            return;
        }
        let mut sites: Vec<usize> = self.row(row).destinations(self.n()).collect();
        rng.shuffle(&mut sites);
        let first_reply = self.world.row_count;
        for site in sites {
            self.carry(rng, (row, site), weather.commands, weather);
        }
        for reply in first_reply..self.world.row_count {
            self.carry(rng, (reply, opening.site()), weather.replies, weather);
        }
    }

    /// A message arrives or not, perhaps twice, perhaps with a crash.
    fn carry(&mut self, rng: &mut Rng, parcel: Parcel, percent: usize, weather: Weather) {
        if rng.chance(percent) {
            self.hand_over(parcel);
        }
        if rng.chance(weather.twice) {
            self.hand_over(parcel);
        }
        if rng.chance(weather.crashes) {
            let site = rng.below(self.n());
            self.play(Command::Crash(site));
        }
        if rng.chance(weather.crashes) {
            let site = rng.below(self.n());
            self.play(Command::Recover(site));
        }
    }

    fn hand_over(&mut self, (row, site): Parcel) -> bool {
        self.play(Command::deliver(row, site))
    }

    /// Some moves without a plan.
    fn scatter(&mut self, rng: &mut Rng, floods: bool) {
        let moods = if floods { &MOODS[..] } else { &MOODS[..4] };
        let mood = rng.choose(moods);
        for _ in 0..rng.between(1, 40) {
            self.random_move(rng, mood);
        }
    }

    fn random_move(&mut self, rng: &mut Rng, mood: Mood) -> bool {
        let sum = mood.fresh + mood.repeat + mood.timeout + mood.crash + mood.recover;
        let mut draw = rng.below(sum);
        let mut drawn = |share: usize| {
            let hit = draw < share;
            draw = draw.wrapping_sub(share);
            hit
        };
        if drawn(mood.fresh) {
            self.deliver_fresh(rng)
        } else if drawn(mood.repeat) {
            self.deliver_again(rng)
        } else if drawn(mood.timeout) {
            self.time_out(rng)
        } else if drawn(mood.crash) {
            self.play(Command::Crash(rng.below(self.n())))
        } else {
            self.recover_one(rng)
        }
    }

    /// Something that has not arrived yet, often of late.
    fn deliver_fresh(&mut self, rng: &mut Rng) -> bool {
        let Some(row) = self.recent_row(rng) else {
            return false;
        };
        let left = self.waiting[row];
        match rng.pick((0..self.n()).filter(|site| left >> site & 1 == 1)) {
            Some(site) => self.hand_over((row, site)),
            None => false,
        }
    }

    /// A row that was sent, of late more often.
    fn recent_row(&self, rng: &mut Rng) -> Option<usize> {
        let reach = self.world.row_count.min(rng.choose(&[8, 40, MAX_ROWS]));
        self.world.row_count.checked_sub(1 + rng.below(reach))
    }

    /// Something that has arrived before.
    fn deliver_again(&mut self, rng: &mut Rng) -> bool {
        let at = rng.below(self.arrived.len());
        match self.arrived.get(at).copied() {
            Some(parcel) => self.hand_over(parcel),
            None => false,
        }
    }

    fn time_out(&mut self, rng: &mut Rng) -> bool {
        let hasty = rng.chance(3);
        let sites = self.sites(|site| site.up && (hasty || site.state() != State::Active));
        match rng.pick(sites) {
            Some(site) => self.play(Command::Timeout(site)),
            None => false,
        }
    }

    fn recover_one(&mut self, rng: &mut Rng) -> bool {
        match rng.pick(self.sites(|site| !site.up)) {
            Some(site) => self.play(Command::Recover(site)),
            None => false,
        }
    }

    /// A duel until the store is full, and small things after that.
    pub fn quarrel(&mut self, rng: &mut Rng) {
        self.quarrel_for(rng, MAX_ROWS);
        while self.room() >= 2 {
            self.idle_move(rng);
        }
    }

    /// A quarrel of some rows, after which it may be settled.
    pub fn begin_with_quarrel(&mut self, rng: &mut Rng) {
        let rows = rng.between(10, MAX_ROWS);
        self.quarrel_for(rng, rows);
        self.hold = 0;
    }

    /// A duel until so many rows are sent; there is none if not all are willing.
    fn quarrel_for(&mut self, rng: &mut Rng, rows: usize) {
        self.open_quarrel(rng);
        if !is_undecided(&self.world) {
            return;
        }
        self.hold = MAX_ROWS + 1;
        while self.room() >= 2 && self.world.row_count < rows {
            self.quarrel_move(rng);
        }
    }

    /// Everyone prepares; site 0 joins the commit group, site 1 the other.
    fn open_quarrel(&mut self, rng: &mut Rng) {
        self.round(rng, Command::Start, WEATHERS[0]);
        self.play(Command::Timeout(0));
        self.play(Command::Timeout(1));
        self.play(Command::Timeout(1));
    }

    /// A move after which nobody can end the matter. If the one drawn is not
    /// of that sort, site 0 or 1 sends its command once more, as it always can.
    fn quarrel_move(&mut self, rng: &mut Rng) {
        let command = self.quarrel_command(rng);
        if !self.play(command) {
            let site = rng.below(2);
            self.play(Command::Recover(site));
            self.play(Command::Timeout(site));
        }
    }

    fn quarrel_command(&mut self, rng: &mut Rng) -> Command {
        let site = rng.below(self.n());
        match (rng.below(100), self.recent_row(rng)) {
            (0..=39, _) => Command::Timeout(site),
            (40..=79, Some(row)) => Command::deliver(row, self.site_of(rng, row)),
            (80..=86, _) => Command::Crash(site),
            _ => Command::Recover(site),
        }
    }

    /// One of a row's sites.
    fn site_of(&self, rng: &mut Rng, row: usize) -> usize {
        let found = rng.pick(self.row(row).destinations(self.n()));
        found.expect("a row goes somewhere")
    }

    /// A command that adds no row and is accepted with a full store.
    fn idle_move(&mut self, rng: &mut Rng) {
        let site = rng.below(self.n());
        let played = match rng.below(100) {
            0..=79 => self.deliver_reply(rng),
            80..=86 => self.play(Command::Crash(site)),
            _ => self.recover_one(rng),
        };
        if !played {
            self.flip(site);
        }
    }

    /// Some reply to the site it was sent to.
    fn deliver_reply(&mut self, rng: &mut Rng) -> bool {
        let row = rng.below(self.world.row_count);
        if self.row(row).kind.reply().is_some() {
            return false;
        }
        let site = self.site_of(rng, row);
        self.hand_over((row, site))
    }

    /// An up site goes down, a down site comes up.
    fn flip(&mut self, site: usize) {
        if self.world.sites[site].up {
            self.play(Command::Crash(site));
        } else {
            self.play(Command::Recover(site));
        }
    }

    /// The rows that are commands, each with those of its sites that are as
    /// wished.
    pub fn commands_for(&self, wished: impl Fn(&Site) -> bool) -> Vec<Parcel> {
        let n = self.n();
        (0..self.world.row_count)
            .map(|at| (at, self.row(at)))
            .filter(|(_, row)| row.kind.reply().is_some())
            .flat_map(|(at, row)| row.destinations(n).map(move |site| (at, site)))
            .filter(|&(_, site)| wished(&self.world.sites[site]))
            .collect()
    }
}

/// No outcome is written and no site knows of a quorum.
fn is_undecided(world: &World) -> bool {
    let falls_short = |site: &Site, side| {
        let joined = State::InGroup(side);
        let known = site.vector.weigh(joined, &world.sizes.weights);
        known < world.sizes.quorum(side)
    };
    world.members().iter().all(|site| {
        site.log.outcome.is_none()
            && falls_short(site, Side::Commit)
            && falls_short(site, Side::Abort)
    })
}
