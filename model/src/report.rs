//! The report.

use std::fmt::Write;

use crate::number;
use crate::site::{Log, Role, Site};
use crate::sizes::{Sizes, MAX_LIST};
use crate::state::Side;
use crate::world::World;

/// Bytes a report buffer must have.
pub const REPORT_BYTES: usize = 1024;

/// The numbers that a report is asked for with.
#[derive(Clone, Copy, Debug, PartialEq, Eq)]
pub struct Numbers {
    /// Accepted commands.
    pub events: usize,
    /// The stop number, 0 for none.
    pub stop: u32,
    /// The end place.
    pub place: usize,
}

impl Numbers {
    fn check(&self) -> Result<(), u8> {
        if self.events > MAX_LIST || self.place > MAX_LIST || self.stop > number::LAST.into() {
            return Err(number::WORLD);
        }
        Ok(())
    }
}

/// Writes the report into the buffer and gives its length. A refusal leaves
/// the buffer as it was, and so are the bytes beyond the text.
pub fn report(world: &World, numbers: Numbers, buffer: &mut [u8]) -> Result<usize, u8> {
    world.check()?;
    numbers.check()?;
    if buffer.len() < REPORT_BYTES {
        return Err(number::BUFFER);
    }
    let text = lines(world, numbers);
    buffer[..text.len()].copy_from_slice(text.as_bytes());
    Ok(text.len())
}

/// All lines of the report.
pub fn lines(world: &World, numbers: Numbers) -> String {
    let mut text = first_line(world, numbers.events);
    for (me, site) in world.members().iter().enumerate() {
        text += &site_line(me, site, world.sizes.n);
    }
    text + &last_line(numbers)
}

fn first_line(world: &World, events: usize) -> String {
    let Sizes {
        n,
        commit_quorum,
        abort_quorum,
        ..
    } = world.sizes;
    let (rows, news) = (world.row_count, world.news);
    format!(
        "sites {n} commit {commit_quorum} abort {abort_quorum} events {events} rows {rows} news {news}\n"
    )
}

fn site_line(me: usize, site: &Site, n: usize) -> String {
    let up = if site.up { "up" } else { "down" };
    let role = match site.role {
        Role::Subordinate => "subordinate",
        Role::Coordinator => "coordinator",
    };
    let state = site.state().name();
    let log = log_letters(&site.log);
    let mut line = format!("{me} {up} {role} {state} {log} ");
    for code in &site.vector.codes()[..n] {
        write!(line, "{code}").expect("a string takes all");
    }
    line.push('\n');
    line
}

/// The three places of the log.
fn log_letters(log: &Log) -> String {
    let prepare = if log.prepare { 'P' } else { '-' };
    let group = side_letter(log.group_side(), 'C', 'A');
    let outcome = side_letter(log.outcome, 'c', 'a');
    [prepare, group, outcome].iter().collect()
}

fn side_letter(side: Option<Side>, commit: char, abort: char) -> char {
    match side {
        Some(Side::Commit) => commit,
        Some(Side::Abort) => abort,
        None => '-',
    }
}

/// The end, or the stop.
pub fn last_line(Numbers { stop, place, .. }: Numbers) -> String {
    match stop {
        0 => format!("end {place}\n"),
        _ => format!("refused {stop} at {place}\n"),
    }
}
