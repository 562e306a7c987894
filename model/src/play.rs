//! Playing: one command, and a whole list.

use crate::command::{Ask, Command};
use crate::header::Header;
use crate::number;
use crate::report::Numbers;
use crate::row::{Row, STORE_BYTES};
use crate::state::State;
use crate::step::Actor;
use crate::world::{World, MAX_NEWS, MAX_ROWS};

/// What comes of playing a list.
#[derive(Clone, Copy, Debug, PartialEq, Eq)]
pub struct Played {
    /// The stop number, 0 for none.
    pub number: u8,
    pub world: World,
    /// Accepted commands.
    pub events: usize,
    /// The list's end, or the place of the command that was refused.
    pub place: usize,
}

impl Played {
    /// What a report of this is asked for with.
    pub fn numbers(&self) -> Numbers {
        Numbers {
            events: self.events,
            stop: self.number.into(),
            place: self.place,
        }
    }
}

/// Plays the command asked for. Gives the place after it, or the number of
/// the refusal; a refusal changes neither world nor store.
pub fn one_command(world: &mut World, store: &mut [u8], ask: Ask) -> Result<usize, u8> {
    check_store(store)?;
    world.check()?;
    play_command(world, store, ask)
}

/// Plays a whole list from its header's fresh world.
pub fn play_list(store: &mut [u8], list: &[u8]) -> Played {
    play_list_by(store, list, Header::of_list, play_command)
}

/// Plays a whole list with another way of reading its header, or of playing a
/// command, which gets worlds and stores already found good.
pub fn play_list_by(
    store: &mut [u8],
    list: &[u8],
    read: impl FnOnce(&[u8]) -> Result<Header, u8>,
    play: impl FnMut(&mut World, &mut [u8], Ask) -> Result<usize, u8>,
) -> Played {
    match check_store(store).and_then(|()| read(list)) {
        Ok(header) => play_commands(header, store, list, play),
        Err(number) => Played {
            number,
            world: World::ZEROS,
            events: 0,
            place: 0,
        },
    }
}

/// Check 16.
pub fn check_store(store: &[u8]) -> Result<(), u8> {
    if store.len() < STORE_BYTES {
        return Err(number::STORE);
    }
    Ok(())
}

/// Plays command after command from the header's fresh world, to the list's end
/// or a refusal.
fn play_commands(
    header: Header,
    store: &mut [u8],
    list: &[u8],
    mut play: impl FnMut(&mut World, &mut [u8], Ask) -> Result<usize, u8>,
) -> Played {
    let mut world = World::fresh(header.sizes);
    let mut at = header.end;
    let mut events = 0;
    let mut number = number::NONE;
    while at < list.len() {
        match play(&mut world, store, Ask::new(list, at)) {
            Ok(next) => {
                at = next;
                events += 1;
            }
            Err(refusal) => {
                number = refusal;
                break;
            }
        }
    }
    Played {
        number,
        world,
        events,
        place: at,
    }
}

/// One command, in a world and store already found good.
pub fn play_command(world: &mut World, store: &mut [u8], ask: Ask) -> Result<usize, u8> {
    let (command, next) = Command::read(ask)?;
    let told = check_operands(world, store, command)?;
    check_site(world, command)?;
    check_room(world, command, told.as_ref())?;
    let me = command.site();
    if let Some(row) = &told {
        merge(world, me, row)?;
    }
    let mut actor = Actor::new(&world.sizes, me, &mut world.sites[me]);
    if let Some(row) = actor.act(command, told.as_ref()) {
        row.write(store, world.row_count);
        world.row_count += 1;
    }
    Ok(next)
}

/// Checks 8 to 11; gives the row that a DELIVER names.
fn check_operands(world: &World, store: &[u8], command: Command) -> Result<Option<Row>, u8> {
    if command.site() >= world.sizes.n {
        return Err(number::SITE);
    }
    let Command::Deliver { row, site } = command else {
        return Ok(None);
    };
    if row >= world.row_count {
        return Err(number::ROW);
    }
    let row = Row::read(store, row, world.sizes.n).ok_or(number::BAD_ROW)?;
    if !row.goes_to(site) {
        return Err(number::NOT_SENT);
    }
    Ok(Some(row))
}

/// Checks 12 to 14.
fn check_site(world: &World, command: Command) -> Result<(), u8> {
    let site = &world.sites[command.site()];
    match command {
        Command::Recover(_) if site.up => Err(number::UP),
        Command::Recover(_) => Ok(()),
        _ if !site.up => Err(number::DOWN),
        Command::Start if site.state() != State::Active => Err(number::STARTED),
        _ => Ok(()),
    }
}

/// Check 15: a row is to be added and the store is full.
fn check_room(world: &World, command: Command, told: Option<&Row>) -> Result<(), u8> {
    let adds_row = match command {
        Command::Start => true,
        Command::Deliver { .. } => told.is_some_and(|row| row.kind.reply().is_some()),
        Command::Timeout(site) => world.sites[site].state() != State::Active,
        Command::Crash(_) | Command::Recover(_) => false,
    };
    if adds_row && world.row_count == MAX_ROWS {
        return Err(number::FULL);
    }
    Ok(())
}

/// Merges a row into what a site knows, and adds its news. Check 17, the last
/// one, is of the news that there would be: a refusal merges nothing.
fn merge(world: &mut World, me: usize, row: &Row) -> Result<(), u8> {
    let mut known = world.sites[me].vector;
    let news = world.news + known.merge(&row.vector, me, row.sender);
    if news > MAX_NEWS {
        return Err(number::WORLD);
    }
    world.sites[me].vector = known;
    world.news = news;
    Ok(())
}
