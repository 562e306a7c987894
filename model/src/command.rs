//! The commands of a list.

use crate::header::Edition;
use crate::number;
use crate::sizes::Sizes;

/// A list and the place of a command byte in it.
#[derive(Clone, Copy, Debug)]
pub struct Ask<'a> {
    pub list: &'a [u8],
    pub at: usize,
}

impl<'a> Ask<'a> {
    pub const fn new(list: &'a [u8], at: usize) -> Ask<'a> {
        Ask { list, at }
    }
}

/// One command with its operands.
#[derive(Clone, Copy, Debug, PartialEq, Eq, Hash)]
pub enum Command {
    Start,
    Deliver { row: usize, site: usize },
    Timeout(usize),
    Crash(usize),
    Recover(usize),
}

impl Command {
    /// Reads the command asked for, and says where the next one is.
    pub fn read(ask: Ask) -> Result<(Command, usize), u8> {
        let (command, size) = match *ask.list.get(ask.at..).unwrap_or_default() {
            [1, ..] => (Command::Start, 1),
            [2, low, high, site, ..] => {
                let row = u16::from_le_bytes([low, high]).into();
                (Command::deliver(row, site.into()), 4)
            }
            [3, site, ..] => (Command::Timeout(site.into()), 2),
            [4, site, ..] => (Command::Crash(site.into()), 2),
            [5, site, ..] => (Command::Recover(site.into()), 2),
            [2..=5, ..] => return Err(number::CUT),
            [] | [0 | 6.., ..] => return Err(number::COMMAND),
        };
        Ok((command, ask.at + size))
    }

    /// DELIVER of a row to a site.
    pub const fn deliver(row: usize, site: usize) -> Command {
        Command::Deliver { row, site }
    }

    /// The command as it stands in a list.
    pub fn bytes(self) -> Vec<u8> {
        let mut bytes = Vec::new();
        self.push(&mut bytes);
        bytes
    }

    /// Adds the command to a list.
    pub fn push(self, list: &mut Vec<u8>) {
        match self {
            Command::Start => list.push(1),
            Command::Deliver { row, site } => {
                let [low, high] = (row as u16).to_le_bytes();
                list.extend([2, low, high, site as u8]);
            }
            Command::Timeout(site) => list.extend([3, site as u8]),
            Command::Crash(site) => list.extend([4, site as u8]),
            Command::Recover(site) => list.extend([5, site as u8]),
        }
    }

    /// The site the command happens at.
    pub fn site(self) -> usize {
        match self {
            Command::Start => 0,
            Command::Deliver { site, .. } => site,
            Command::Timeout(site) | Command::Crash(site) | Command::Recover(site) => site,
        }
    }
}

/// A list of commands, in the first edition.
pub fn list_of(sizes: Sizes, commands: &[Command]) -> Vec<u8> {
    list_in(Edition::First, sizes, commands)
}

/// A list of commands.
pub fn list_in(edition: Edition, sizes: Sizes, commands: &[Command]) -> Vec<u8> {
    let commands = commands.iter().flat_map(|command| command.bytes());
    edition.header(&sizes).into_iter().chain(commands).collect()
}
