//! Rows: the messages sent, as they lie in the lent store.

use crate::state::{Side, State};
use crate::vector::Vector;
use crate::world::MAX_ROWS;

/// Bytes in one row.
pub const ROW_BYTES: usize = 20;
/// Bytes a store must have.
pub const STORE_BYTES: usize = MAX_ROWS * ROW_BYTES;

/// What a message says.
#[derive(Clone, Copy, Debug, PartialEq, Eq, Hash)]
pub enum Kind {
    Prepare,
    Vote,
    Join(Side),
    InGroup,
    Outcome,
    Ack,
}

impl Kind {
    /// The kind a row's first byte stands for.
    pub fn of(byte: u8) -> Option<Kind> {
        Some(match byte {
            1 => Kind::Prepare,
            2 => Kind::Vote,
            3 => Kind::Join(Side::Commit),
            4 => Kind::Join(Side::Abort),
            5 => Kind::InGroup,
            6 => Kind::Outcome,
            7 => Kind::Ack,
            _ => return None,
        })
    }

    /// The byte that stands for the kind.
    pub fn byte(self) -> u8 {
        match self {
            Kind::Prepare => 1,
            Kind::Vote => 2,
            Kind::Join(Side::Commit) => 3,
            Kind::Join(Side::Abort) => 4,
            Kind::InGroup => 5,
            Kind::Outcome => 6,
            Kind::Ack => 7,
        }
    }

    /// The reply a command calls for; replies call for none.
    pub fn reply(self) -> Option<Kind> {
        match self {
            Kind::Prepare => Some(Kind::Vote),
            Kind::Join(_) => Some(Kind::InGroup),
            Kind::Outcome => Some(Kind::Ack),
            Kind::Vote | Kind::InGroup | Kind::Ack => None,
        }
    }

    /// The command a coordinator in this state sends; an active one has none.
    pub fn command_of(state: State) -> Option<Kind> {
        match state {
            State::Active => None,
            State::Prepared => Some(Kind::Prepare),
            State::InGroup(side) => Some(Kind::Join(side)),
            State::Terminated(_) => Some(Kind::Outcome),
        }
    }
}

/// One message.
#[derive(Clone, Copy, Debug, PartialEq, Eq, Hash)]
pub struct Row {
    pub kind: Kind,
    pub sender: usize,
    /// Destinations, a bit for each site.
    pub to: u16,
    /// The sender's vector after its step.
    pub vector: Vector,
}

impl Row {
    /// Reads row `at` for a world of n sites. None for check 10. Codes from n
    /// up are not looked at and come out as 0.
    pub fn read(store: &[u8], at: usize, n: usize) -> Option<Row> {
        let bytes = &store[at * ROW_BYTES..][..ROW_BYTES];
        let kind = Kind::of(bytes[0])?;
        let sender = usize::from(bytes[1]);
        let vector = Vector::read(&bytes[4..4 + n])?;
        (sender < n).then_some(Row {
            kind,
            sender,
            to: u16::from_le_bytes([bytes[2], bytes[3]]),
            vector,
        })
    }

    /// Writes the row at place `at` of the store.
    pub fn write(&self, store: &mut [u8], at: usize) {
        store[at * ROW_BYTES..][..ROW_BYTES].copy_from_slice(&self.bytes());
    }

    /// The row's bytes.
    pub fn bytes(&self) -> [u8; ROW_BYTES] {
        let mut bytes = [0; ROW_BYTES];
        bytes[0] = self.kind.byte();
        bytes[1] = self.sender as u8;
        bytes[2..4].copy_from_slice(&self.to.to_le_bytes());
        bytes[4..].copy_from_slice(self.vector.codes());
        bytes
    }

    /// Is the site among the destinations?
    pub fn goes_to(&self, site: usize) -> bool {
        self.to >> site & 1 == 1
    }

    /// The destinations below n, in order.
    pub fn destinations(self, n: usize) -> impl Iterator<Item = usize> {
        (0..n).filter(move |&site| self.goes_to(site))
    }
}
