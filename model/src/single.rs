//! One site by itself: what it is told, and the step that it takes.

use crate::command::Command;
use crate::number;
use crate::record::Written;
use crate::row::{Row, ROW_BYTES};
use crate::site::Site;
use crate::state::State;
use crate::step::Actor;
use crate::terms::Terms;

/// A command to one site: it names no site, and a delivery brings its row along.
#[derive(Clone, Copy, Debug, PartialEq, Eq)]
pub enum Input<'a> {
    Start,
    Deliver(&'a [u8; ROW_BYTES]),
    Timeout,
    Crash,
    Recover,
}

/// What comes of a step, beside the site.
#[derive(Clone, Copy, Debug, PartialEq, Eq)]
pub struct Stepped {
    /// The row to send.
    pub row: Option<Row>,
    pub written: Written,
    /// How many entries rose.
    pub news: usize,
}

impl<'a> Input<'a> {
    /// Reads a command; what follows it is not looked at. Checks 6 and 7.
    pub fn read(command: &'a [u8]) -> Result<Input<'a>, u8> {
        match command {
            [1, ..] => Ok(Input::Start),
            [2, row @ ..] => row.first_chunk().map(Input::Deliver).ok_or(number::CUT),
            [3, ..] => Ok(Input::Timeout),
            [4, ..] => Ok(Input::Crash),
            [5, ..] => Ok(Input::Recover),
            [] | [0 | 6.., ..] => Err(number::COMMAND),
        }
    }

    /// The command's bytes.
    pub fn bytes(self) -> Vec<u8> {
        match self {
            Input::Start => vec![1],
            Input::Deliver(row) => [&[2][..], row].concat(),
            Input::Timeout => vec![3],
            Input::Crash => vec![4],
            Input::Recover => vec![5],
        }
    }

    /// The same as a command of a list, at this site. Its row has no number.
    fn at(self, site: usize) -> Command {
        match self {
            Input::Start => Command::Start,
            Input::Deliver(_) => Command::deliver(0, site),
            Input::Timeout => Command::Timeout(site),
            Input::Crash => Command::Crash(site),
            Input::Recover => Command::Recover(site),
        }
    }
}

/// A step of a site that is one of its competition. A refusal leaves the site.
pub fn step(terms: &Terms, site: &mut Site, input: Input) -> Result<Stepped, u8> {
    let told = check_row(terms, input)?;
    check_site(terms, site, input)?;
    Ok(take(terms, site, input, told.as_ref()))
}

/// The step, where nothing stands against it; a delivery brings this row.
pub fn take(terms: &Terms, site: &mut Site, input: Input, told: Option<&Row>) -> Stepped {
    let merge = |row: &Row| site.vector.merge(&row.vector, terms.own, row.sender);
    let news = told.map_or(0, merge);
    let mut actor = Actor::new(&terms.sizes, terms.own, site);
    let row = actor.act(input.at(terms.own), told);
    Stepped {
        row,
        written: actor.written,
        news,
    }
}

/// Checks 10 and 11; gives the row of a delivery.
fn check_row(terms: &Terms, input: Input) -> Result<Option<Row>, u8> {
    let Input::Deliver(bytes) = input else {
        return Ok(None);
    };
    let row = Row::read(bytes, 0, terms.sizes.n).ok_or(number::BAD_ROW)?;
    if !row.goes_to(terms.own) {
        return Err(number::NOT_SENT);
    }
    Ok(Some(row))
}

/// Checks 12 to 14.
fn check_site(terms: &Terms, site: &Site, input: Input) -> Result<(), u8> {
    let may_start = terms.own == 0 && site.state() == State::Active;
    match input {
        Input::Recover if site.up => Err(number::UP),
        Input::Recover => Ok(()),
        _ if !site.up => Err(number::DOWN),
        Input::Start if !may_start => Err(number::STARTED),
        _ => Ok(()),
    }
}
