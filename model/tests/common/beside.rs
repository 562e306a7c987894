//! Calls on a world beside steps of single sites: the same sites, rows, records and news.

use std::collections::BTreeMap;

use model::calls::{Calls, RESULT_BYTES};
use model::disk::Disk;
use model::generate::Call;
use model::layout::{decode, encode, site_bytes, NEWS, SITES_AT, SITE_BYTES, WORLD_BYTES};
use model::network::{ByCall, SiteBytes, FILL};
use model::row::{ROW_BYTES, STORE_BYTES};
use model::step_call::{Steps, STEP_RESULT_BYTES};
use model::{number, Ask, Command, Event, Header, Input, Network, Site, Sizes, Terms, World};

/// What was compared.
#[derive(Debug, Default)]
pub struct Beside {
    pub lists: usize,
    /// Steps that were compared, by their number.
    pub numbers: BTreeMap<u32, usize>,
    /// Rows sent, and news, of accepted steps.
    pub rows: usize,
    pub news: usize,
    /// Records of each place.
    pub records: [usize; 3],
}

/// A world with its store, before or after a call.
#[derive(Clone)]
struct Held {
    world: Vec<u8>,
    store: Vec<u8>,
}

impl Held {
    fn site(&self, at: usize) -> SiteBytes {
        let site = &self.world[SITES_AT + SITE_BYTES * at..][..SITE_BYTES];
        site.try_into().expect("a site's length")
    }

    fn rows(&self) -> usize {
        usize::from(u16::from_le_bytes([self.world[8], self.world[9]]))
    }

    fn news(&self) -> usize {
        let news = self.world[NEWS].try_into().expect("four bytes");
        u32::from_le_bytes(news) as usize
    }

    /// A call; gives the number, and the place of the next command.
    fn play(&mut self, side: &dyn Calls, ask: Ask) -> (u32, usize) {
        let mut result = [0; RESULT_BYTES];
        let number = side.play_command(&mut self.world, &mut self.store, ask, &mut result);
        (number, u64::from_le_bytes(result) as usize)
    }
}

/// What came of a step.
struct Stepped {
    number: u32,
    site: SiteBytes,
    row: [u8; ROW_BYTES],
    result: [u8; STEP_RESULT_BYTES],
}

impl Stepped {
    /// A command in a network, if it delivers no row that was not sent.
    fn of(network: &mut Network, command: Command) -> Option<Stepped> {
        let event = match command {
            Command::Start => Event::Start,
            Command::Deliver { row, .. } => Event::Deliver(row),
            Command::Timeout(_) => Event::Timeout,
            Command::Crash(_) => Event::Crash,
            Command::Recover(_) => Event::Recover,
        };
        let answer = network.step((command.site(), event))?;
        Some(Stepped {
            number: answer.number,
            site: network.members[command.site()].site,
            row: answer.row,
            result: answer.result,
        })
    }
}

impl Beside {
    /// A list as calls on a world, and as steps in a network, until it stops.
    pub fn list<S: Calls + Steps>(&mut self, side: &S, list: &[u8]) -> Result<(), String> {
        let Ok(header) = Header::of_list(list) else {
            return Ok(());
        };
        self.lists += 1;
        let mut network = Network::new(side, &ByCall, header.sizes);
        let mut held = Held {
            world: encode(&World::fresh(header.sizes)).to_vec(),
            store: vec![0; STORE_BYTES],
        };
        let (mut place, mut stop) = (header.end, 0);
        while place < list.len() && stop == 0 {
            let before = held.clone();
            let ask = Ask::new(list, place);
            (stop, place) = held.play(side, ask);
            let Ok((command, _)) = Command::read(ask) else {
                return ensure(stop != 0, "a command that is none");
            };
            if command.site() >= header.sizes.n {
                return self.no_site(side, header.sizes, command, stop);
            }
            let Some(stepped) = Stepped::of(&mut network, command) else {
                return ensure(stop == number::ROW.into(), "a row that was not sent");
            };
            self.compare(command.site(), &before, (stop, &held), &stepped)?;
            same_sites(&network, &held)?;
        }
        Ok(())
    }

    /// A generated call on a world, and the step of its site alone.
    pub fn call<S: Calls + Steps>(&mut self, side: &S, call: &Call) -> Result<(), String> {
        let before = Held {
            world: call.world.to_vec(),
            store: call.store.clone(),
        };
        let mut held = before.clone();
        let (number, _) = held.play(side, call.ask());
        let (Ok(world), Ok((command, _))) = (decode(&call.world), Command::read(call.ask())) else {
            return ensure(number != 0, "no world, or a command that is none");
        };
        if world.check().is_err() || call.store.len() < STORE_BYTES {
            return ensure(number != 0, "no world, or a short store");
        }
        let site = command.site();
        if site >= world.sizes.n {
            return self.no_site(side, world.sizes, command, number);
        }
        let rows = &call.store[..world.row_count * ROW_BYTES];
        let Some(input) = input(command, rows) else {
            return ensure(number == number::ROW.into(), "a row that was not sent");
        };
        let terms = Terms::of(world.sizes, site).bytes();
        let stepped = step(side, &terms, before.site(site), input);
        self.compare(site, &before, (number, &held), &stepped)
    }

    /// A command at a site that is not there; a single one has its number from the terms.
    fn no_site<S: Steps>(
        &mut self,
        side: &S,
        sizes: Sizes,
        command: Command,
        number: u32,
    ) -> Result<(), String> {
        let rows = [0; ROW_BYTES];
        let input = input(command, &rows).unwrap_or(Input::Deliver(&rows));
        let terms = Terms::of(sizes, command.site()).bytes();
        let stepped = step(side, &terms, site_bytes(&Site::FRESH), input);
        ensure(number == stepped.number, "another number where no site is")?;
        *self.numbers.entry(number).or_default() += 1;
        Ok(())
    }

    /// Does a call at this site come to the same as the step? A row for which there is no
    /// room in a world, or news past its limit, is no matter for a single site.
    fn compare(
        &mut self,
        site: usize,
        before: &Held,
        (number, after): (u32, &Held),
        stepped: &Stepped,
    ) -> Result<(), String> {
        if [number::FULL, number::WORLD]
            .map(u32::from)
            .contains(&number)
        {
            return ensure(stepped.number == 0, "a full world alone refuses");
        }
        ensure(number == stepped.number, "another number")?;
        *self.numbers.entry(number).or_default() += 1;
        if number != 0 {
            return Ok(());
        }
        let sent = &after.store[before.rows() * ROW_BYTES..after.rows() * ROW_BYTES];
        let row = &stepped.row[..];
        let is_sent = sent == row || sent.is_empty() && row.iter().all(|&byte| byte == 0);
        let [.., a, b, c, d] = stepped.result;
        let news = u32::from_le_bytes([a, b, c, d]) as usize;
        ensure(is_sent, "another row")?;
        ensure(after.news() == before.news() + news, "other news")?;
        ensure(after.site(site) == stepped.site, "another site")?;
        let [held, now] = [before, after].map(|held| Disk::of(&held.site(site)));
        let written = now.new_since(&held);
        let [told @ .., zero] = [0, 1, 2, 3].map(|at| stepped.result[at]);
        ensure((told, zero) == (written, 0), "other records")?;
        self.count(sent.len() / ROW_BYTES, news, written);
        Ok(())
    }

    fn count(&mut self, rows: usize, news: usize, written: [u8; 3]) {
        self.rows += rows;
        self.news += news;
        for (count, byte) in self.records.iter_mut().zip(written) {
            *count += usize::from(byte != 0);
        }
    }
}

/// A step of a site by itself.
fn step(side: &dyn Steps, terms: &[u8], mut site: SiteBytes, input: Input) -> Stepped {
    let (mut row, mut result) = ([FILL; ROW_BYTES], [FILL; STEP_RESULT_BYTES]);
    let number = side.step(terms, &mut site, &input.bytes(), &mut row, &mut result);
    Stepped {
        number,
        site,
        row,
        result,
    }
}

/// The same command for a site by itself, if its row is among these.
fn input(command: Command, rows: &[u8]) -> Option<Input<'_>> {
    Some(match command {
        Command::Start => Input::Start,
        Command::Deliver { row, .. } => {
            let (rows, _) = rows.as_chunks::<ROW_BYTES>();
            Input::Deliver(rows.get(row)?)
        }
        Command::Timeout(_) => Input::Timeout,
        Command::Crash(_) => Input::Crash,
        Command::Recover(_) => Input::Recover,
    })
}

/// All sites of a network, its rows and its news are those of the world.
fn same_sites(network: &Network, held: &Held) -> Result<(), String> {
    let members = network.members.iter();
    let sites: Vec<u8> = members.flat_map(|member| member.site).collect();
    let world = &held.world[SITES_AT..][..sites.len()];
    ensure(sites == world, "other sites")?;
    ensure(network.news == held.news(), "other news in all")?;
    ensure(network.rows.len() == held.rows(), "more or fewer rows")?;
    let rows = network.rows.as_flattened();
    ensure(*rows == held.store[..rows.len()], "other rows")?;
    let rest = &held.world[SITES_AT + sites.len()..WORLD_BYTES];
    ensure(rest.iter().all(|&byte| byte == 0), "a site from n up")
}

/// What is wrong if this does not hold.
fn ensure(holds: bool, otherwise: &str) -> Result<(), String> {
    holds.then_some(()).ok_or(format!("{otherwise}\n"))
}
