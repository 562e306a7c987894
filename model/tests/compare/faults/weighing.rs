//! Headers and worlds that are read, quorums that are weighed, and reports, with one
//! fault of the weights.

use model::header::{HEADER_BYTES, SECOND, WEIGHTS_AT};
use model::layout::decode;
use model::report::{lines, REPORT_BYTES};
use model::sizes::{check_sites, ones};
use model::{number, Edition, Header, Kind, Numbers, Sizes, State, World};

use super::{send_again, Fault};

/// Those of sites of different weight.
pub const WEIGHT_FAULTS: [Fault; 28] = [
    Fault::CountsCommitEntries,
    Fault::CountsAbortEntries,
    Fault::WrapsWeight,
    Fault::NeedsMoreWeight,
    Fault::NeedsLessWeight,
    Fault::ForgetsHeaviest,
    Fault::RefusesLeastQuorums,
    Fault::PassesApartQuorums,
    Fault::AsksWeightBeforeCut,
    Fault::AsksCutBeforeSites,
    Fault::AsksSitesBeforeLength,
    Fault::AsksQuorumsBeforeWeight,
    Fault::AsksWillingBeforeQuorums,
    Fault::PassesNoWeight,
    Fault::FearsMostWeight,
    Fault::LosesHighOfCommit,
    Fault::LosesHighOfAbort,
    Fault::TakesLaterEditions,
    Fault::BeginsAtFive,
    Fault::WeighsFirstEdition,
    Fault::ReadsNoWeights,
    Fault::PassesFarWeight,
    Fault::PassesNoWeightInWorld,
    Fault::WritesNoWeights,
    Fault::LeavesRefusedWeights,
    Fault::FearsWeightNumber,
    Fault::PassesNextNumber,
    Fault::PrintsLowBytes,
];

impl Fault {
    /// The header of a list.
    pub fn header(self, list: &[u8]) -> Result<Header, u8> {
        if let Some(number) = self.early(list) {
            return Err(number);
        }
        let mut header = match (self, list) {
            (Fault::TakesLaterEditions, [131 | 132, rest @ ..]) => {
                Header::read(&[&[SECOND], rest].concat())?
            }
            _ => Header::read(list)?,
        };
        header.sizes = self.misread(header.sizes);
        self.check(&header.sizes)?;
        if self == Fault::BeginsAtFive {
            header.end = HEADER_BYTES;
        }
        if self == Fault::WeighsFirstEdition && Edition::of(list) == Edition::First {
            header.sizes = with_heavy_last(header.sizes);
        }
        Ok(header)
    }

    /// A number that is given too early for a list of the second edition, if this is
    /// such a fault.
    fn early(self, list: &[u8]) -> Option<u8> {
        let &[SECOND, n, ..] = list else {
            return None;
        };
        let (size, n) = (list.len(), usize::from(n));
        let has_sites = check_sites(n).is_ok();
        let is_cut = (HEADER_BYTES..WEIGHTS_AT + n).contains(&size);
        let has_zero = list.iter().skip(WEIGHTS_AT).any(|&weight| weight == 0);
        let (is_given, number) = match self {
            Fault::AsksWeightBeforeCut => (has_sites && is_cut && has_zero, number::WEIGHT),
            Fault::AsksCutBeforeSites => (is_cut && !has_sites, number::LIST_SHORT),
            Fault::AsksSitesBeforeLength => (size < HEADER_BYTES && !has_sites, number::SITES),
            _ => (false, number::NONE),
        };
        is_given.then_some(number)
    }

    /// The sizes that are taken for these.
    fn misread(self, sizes: Sizes) -> Sizes {
        let (commit, abort) = (sizes.commit_quorum, sizes.abort_quorum);
        let (commit_quorum, abort_quorum) = match self {
            Fault::LosesHighOfCommit => (commit & 255, abort),
            Fault::LosesHighOfAbort => (commit, abort & 255),
            _ => (commit, abort),
        };
        Sizes {
            commit_quorum,
            abort_quorum,
            ..sizes
        }
    }

    /// Checks 3, 21, 4 and 5.
    fn check(self, sizes: &Sizes) -> Result<(), u8> {
        check_sites(sizes.n)?;
        let [weights, quorums, willing] = [
            self.check_weights(sizes),
            self.check_quorums(sizes),
            sizes.check_willing(),
        ];
        match self {
            Fault::AsksQuorumsBeforeWeight => quorums.and(weights).and(willing),
            Fault::AsksWillingBeforeQuorums => weights.and(willing).and(quorums),
            _ => weights.and(quorums).and(willing),
        }
    }

    fn check_weights(self, sizes: &Sizes) -> Result<(), u8> {
        match self {
            Fault::PassesNoWeight => Ok(()),
            Fault::FearsMostWeight if sizes.heaviest() == 255 => Err(number::WEIGHT),
            _ => sizes.check_weights(),
        }
    }

    fn check_quorums(self, sizes: &Sizes) -> Result<(), u8> {
        let (all, most) = (sizes.weight(), sizes.weight() - sizes.heaviest());
        let (commit, abort) = (sizes.commit_quorum, sizes.abort_quorum);
        let (most, least) = match self {
            Fault::ForgetsHeaviest => (all, all + 1),
            Fault::RefusesLeastQuorums => (most, all + 2),
            Fault::PassesApartQuorums => (most, all),
            _ => return sizes.check_quorums(),
        };
        let fit = commit <= most && abort <= most && commit + abort >= least;
        fit.then_some(()).ok_or(number::QUORUMS)
    }

    /// The world that bytes say, if it is one.
    pub fn world(self, bytes: &[u8]) -> Result<World, u8> {
        let mut world = decode(bytes)?;
        world.sizes = self.misread(world.sizes);
        let n = world.sizes.n;
        match self {
            Fault::ReadsNoWeights => world.sizes.weights = ones(n),
            Fault::PassesFarWeight => world.sizes.weights.iter_mut().skip(n).for_each(|w| *w = 0),
            Fault::FearsMostWeight if world.sizes.weights.contains(&255) => {
                return Err(number::WORLD)
            }
            _ => {}
        }
        let mut checked = world;
        if self == Fault::PassesNoWeightInWorld && world.sizes.check() == Err(number::WEIGHT) {
            let most = n.saturating_sub(1);
            checked.sizes = Sizes::new(n, most, most, world.sizes.willing);
        }
        checked.check()?;
        Ok(world)
    }

    /// The world that a list leads to, by its number.
    pub fn spoil_world(self, number: u8, world: &mut World) {
        let weights = &mut world.sizes.weights;
        match (self, number) {
            (Fault::WritesNoWeights, _) => *weights = ones(0),
            (Fault::LeavesRefusedWeights, number::WEIGHT) => *weights = ones(3),
            _ => {}
        }
    }

    /// TIMEOUT of a coordinator in a group.
    pub fn weigh_again(self, before: &World, world: &mut World, store: &mut [u8], me: usize) {
        let (held, sizes) = (&before.sites[me], &before.sizes);
        let joined @ State::InGroup(side) = held.state() else {
            return;
        };
        let weight = held.vector.weigh(joined, &sizes.weights);
        let known = (weight, held.vector.count(joined));
        let Some(ends) = self.has_quorum(joined, known, sizes.quorum(side)) else {
            return;
        };
        if !held.is_coordinator() {
            return;
        }
        world.sites[me] = *held;
        let site = &mut world.sites[me];
        site.log.outcome = ends.then_some(side);
        site.vector.set(me, site.state());
        let kind = Kind::command_of(site.state()).expect("a site in a group sends");
        send_again(world, store, me, kind);
    }

    /// Is there a quorum, if this is a fault of that?
    fn has_quorum(
        self,
        joined: State,
        (weight, count): (usize, usize),
        quorum: usize,
    ) -> Option<bool> {
        let is_commit = joined.code() == 2;
        let known = match self {
            Fault::CountsCommitEntries if is_commit => count,
            Fault::CountsAbortEntries if !is_commit => count,
            Fault::WrapsWeight => weight % 256,
            Fault::NeedsMoreWeight => weight.saturating_sub(1),
            Fault::NeedsLessWeight => weight + 1,
            _ => return None,
        };
        Some(known >= quorum)
    }

    /// The report of a good world, where the fault is in it.
    pub fn text(self, world: &World, numbers: Numbers, buffer: &mut [u8]) -> Option<usize> {
        let is_next = numbers.stop == u32::from(number::LAST) + 1;
        let mut shown = *world;
        match self {
            Fault::PassesNextNumber if is_next => {}
            Fault::PrintsLowBytes if numbers.stop <= number::LAST.into() => {
                shown.sizes.commit_quorum &= 255;
                shown.sizes.abort_quorum &= 255;
            }
            _ => return None,
        }
        let text = lines(&shown, numbers);
        let room = buffer.get_mut(..text.len())?;
        room.copy_from_slice(text.as_bytes());
        (buffer.len() >= REPORT_BYTES).then_some(text.len())
    }
}

/// The last site weighs 2, where the quorums fit that.
fn with_heavy_last(sizes: Sizes) -> Sizes {
    let mut heavy = sizes;
    heavy.weights[sizes.n - 1] = 2;
    match heavy.check() {
        Ok(()) => heavy,
        Err(_) => sizes,
    }
}
