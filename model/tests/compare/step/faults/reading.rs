//! What is read, and in which order it is checked, with one fault.

use model::disk::Disk;
use model::layout::decode_site;
use model::row::ROW_BYTES;
use model::step_call::Asked;
use model::{number, Input, Row, State, Terms};

use super::Fault;

impl Fault {
    /// A number that is given too early, if this is such a fault.
    pub fn early(self, asked: Asked) -> Option<u8> {
        if self == Fault::AsksCommandFirst {
            return Input::read(asked.command).err();
        }
        let terms = Terms::read(asked.terms).ok()?;
        let site = terms.site(asked.site).ok()?;
        let is_far = site.is_none();
        match self {
            Fault::AsksNumberFirst if is_far => return Some(number::SITE),
            Fault::AsksFarSite if is_far && decode_site(asked.site).is_none() => {
                return Some(number::WORLD)
            }
            _ => {}
        }
        let (input, site) = (Input::read(asked.command).ok()?, site?);
        let is_down = !site.up && input != Input::Recover;
        let may_start = terms.own == 0 && site.state() == State::Active;
        let (is_given, number) = match (self, input) {
            (Fault::AsksDownFirst, _) => (is_down, number::DOWN),
            (Fault::AsksStartFirst, Input::Start) => (!may_start, number::STARTED),
            (Fault::RefusesMore, _) => (asked.command.len() > input.bytes().len(), number::COMMAND),
            (_, Input::Deliver(row)) => self.early_row(&terms, is_down, row),
            _ => (false, number::NONE),
        };
        is_given.then_some(number)
    }

    /// The same of a delivery to a site that is down or not.
    fn early_row(self, terms: &Terms, is_down: bool, row: &[u8; ROW_BYTES]) -> (bool, u8) {
        let is_good = Row::read(row, 0, terms.sizes.n).is_some();
        let is_sent = u16::from_le_bytes([row[2], row[3]]) >> terms.own & 1 == 1;
        let is_high = row[4..].iter().any(|&code| code > 5);
        match self {
            Fault::AsksDestinationFirst => (!is_sent, number::NOT_SENT),
            Fault::AsksDownBeforeDestination => (is_good && is_down, number::DOWN),
            Fault::ReadsFarCodes => (is_high, number::BAD_ROW),
            _ => (false, number::NONE),
        }
    }

    /// Terms, site and command as they are taken.
    pub fn mended(self, asked: Asked) -> [Vec<u8>; 3] {
        let [mut terms, mut site, mut command] =
            [asked.terms, asked.site, asked.command].map(<[u8]>::to_vec);
        if terms.len() != 32 || site.len() != 40 {
            return [terms, site, command];
        }
        let (n, own) = (usize::from(terms[1]).min(16), usize::from(terms[6]));
        let is_delivery = command.first() == Some(&2);
        match self {
            Fault::PassesLayout => terms[0] = 3,
            Fault::PassesWilling => terms[7] = terms[7].min(1),
            Fault::PassesReserved => terms[8..16].fill(0),
            Fault::PassesFarWeight => terms[16 + n..].fill(0),
            Fault::PassesSiteReserved => site[5..8].fill(0),
            Fault::PassesOwnEntry if own < n => {
                let held: &[u8; 40] = site[..].try_into().expect("a site's length");
                site[8 + own] = Disk::of(held).state();
            }
            Fault::TakesCutRow if is_delivery => command.resize(command.len().max(21), 0),
            Fault::TakesAnyRow if is_delivery && command.len() > 20 => command[3..5].fill(255),
            _ => {}
        }
        [terms, site, command]
    }

    /// The terms that bytes say.
    pub fn terms(self, bytes: &[u8]) -> Result<Terms, u8> {
        let good = Terms::read(bytes);
        let is_fault = [Fault::PassesApartQuorums, Fault::ForgetsHeaviest].contains(&self);
        if good.is_ok() || !is_fault || bytes.len() != 32 {
            return good;
        }
        let weights = bytes[16..].iter().map(|&weight| usize::from(weight));
        let (all, heaviest) = (weights.clone().sum::<usize>(), weights.max().unwrap_or(0));
        let [commit, abort] = [2, 4].map(|at| {
            let quorum = u16::from_le_bytes([bytes[at], bytes[at + 1]]);
            usize::from(quorum)
        });
        let most = all - heaviest;
        let is_passed = match self {
            Fault::PassesApartQuorums => commit <= most && abort <= most && commit + abort == all,
            _ => commit.max(abort) <= all && commit + abort > all,
        };
        if !is_passed {
            return good;
        }
        let mut legal = bytes.to_vec();
        legal[2..4].copy_from_slice(&(most as u16).to_le_bytes());
        legal[4..6].copy_from_slice(&(most as u16).to_le_bytes());
        let mut terms = Terms::read(&legal)?;
        (terms.sizes.commit_quorum, terms.sizes.abort_quorum) = (commit, abort);
        Ok(terms)
    }
}
