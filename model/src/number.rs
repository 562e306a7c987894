//! The numbers a stopped call gives, in the paper's order of checks.

/// No stop.
pub const NONE: u8 = 0;
/// List over 32,768 bytes, as it is or once it is converted.
pub const LIST_LONG: u8 = 1;
/// List under 5 bytes, or a header of the second edition that is cut.
pub const LIST_SHORT: u8 = 2;
/// Number of sites out of range.
pub const SITES: u8 = 3;
/// Quorum sizes that do not fit.
pub const QUORUMS: u8 = 4;
/// Willing bit at n or above.
pub const WILLING: u8 = 5;
/// No command byte, or one that is not 1 to 5.
pub const COMMAND: u8 = 6;
/// Operands cut short.
pub const CUT: u8 = 7;
/// Site number n or more.
pub const SITE: u8 = 8;
/// Row number not below the row count.
pub const ROW: u8 = 9;
/// Row with a bad kind, sender or code.
pub const BAD_ROW: u8 = 10;
/// Site not among the row's destinations.
pub const NOT_SENT: u8 = 11;
/// Site is down.
pub const DOWN: u8 = 12;
/// RECOVER while up.
pub const UP: u8 = 13;
/// START while site 0 is not active.
pub const STARTED: u8 = 14;
/// A row is to be added and the store is full.
pub const FULL: u8 = 15;
/// Lent store too short.
pub const STORE: u8 = 16;
/// World (or report numbers) outside what is allowed; a delivery that would
/// bring the news over the limit.
pub const WORLD: u8 = 17;
/// Report buffer too short.
pub const BUFFER: u8 = 18;
/// A line that is not in its form, or with a number past its range.
pub const LINE: u8 = 19;
/// Room for the output too short.
pub const ROOM: u8 = 20;
/// A site that weighs nothing.
pub const WEIGHT: u8 = 21;
/// A site that does not weigh 1, in a list that is to go back to the first edition.
pub const UNEVEN: u8 = 22;
/// The highest number there is.
pub const LAST: u8 = 22;

/// Is this a number of a list's length or header?
pub fn is_of_header(number: u8) -> bool {
    matches!(number, LIST_LONG..=WILLING | WEIGHT)
}
