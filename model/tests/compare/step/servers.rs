//! Servers with one fault each around the calls for their sites.

use model::disk::Disk;
use model::layout::site_bytes;
use model::network::{Member, RowBytes, Servers, SiteBytes};
use model::terms::TERMS_BYTES;
use model::{Kind, Site, Terms};

#[derive(Clone, Copy, Debug, PartialEq, Eq)]
pub enum Fault {
    /// A prepare record does not live through a crash.
    LosesPrepare,
    /// A group record does not.
    LosesGroup,
    /// An outcome record does not.
    LosesOutcome,
    /// None does.
    LosesLog,
    /// The vector in the group record does not, but for the own entry.
    LosesVector,
    /// What the last step wrote was not forced yet when its row was sent.
    ForcesLate,
    /// A site with an empty log is fresh after a crash.
    FreshIfEmpty,
    /// Every site is.
    FreshAlways,
    /// A site knows after a crash what it knew before, and has its role.
    KeepsMemory,
    /// Site 1 has a commit quorum as small as can be.
    SmallCommit,
    /// Site 1 has an abort quorum as small as can be.
    SmallAbort,
    /// Site 1 takes the weights of the first and the last site for each other's.
    OtherWeights,
    /// Site 1 thinks that it is the last site.
    OtherNumber,
    /// A row arrives at a site that it was not sent to.
    Misdirects,
    /// A row arrives with another sender.
    OtherSender,
    /// A row arrives with the sender's own code alone.
    TellsLess,
    /// A vote arrives with a 1 for every 0.
    MakesUpVotes,
    /// A row arrives with its sender a level higher than it was.
    RaisesSender,
    /// In place of a vote an outcome of another competition arrives.
    OtherCompetition,
}

/// Every fault there is.
pub const FAULTS: [Fault; 19] = [
    Fault::LosesPrepare,
    Fault::LosesGroup,
    Fault::LosesOutcome,
    Fault::LosesLog,
    Fault::LosesVector,
    Fault::ForcesLate,
    Fault::FreshIfEmpty,
    Fault::FreshAlways,
    Fault::KeepsMemory,
    Fault::SmallCommit,
    Fault::SmallAbort,
    Fault::OtherWeights,
    Fault::OtherNumber,
    Fault::Misdirects,
    Fault::OtherSender,
    Fault::TellsLess,
    Fault::MakesUpVotes,
    Fault::RaisesSender,
    Fault::OtherCompetition,
];

impl Servers for Fault {
    fn terms(&self, mut terms: Terms) -> [u8; TERMS_BYTES] {
        let last = terms.sizes.n - 1;
        let (all, heaviest) = (terms.sizes.weight(), terms.sizes.heaviest());
        let (least, most) = (heaviest + 1, all - heaviest);
        if terms.own == 1 {
            let sizes = &mut terms.sizes;
            match self {
                Fault::SmallCommit => (sizes.commit_quorum, sizes.abort_quorum) = (least, most),
                Fault::SmallAbort => (sizes.commit_quorum, sizes.abort_quorum) = (most, least),
                Fault::OtherWeights => sizes.weights.swap(0, last),
                Fault::OtherNumber => terms.own = last,
                _ => {}
            }
        }
        terms.bytes()
    }

    fn arriving(&self, row: &RowBytes, site: usize) -> RowBytes {
        let mut row = *row;
        let sender = usize::from(row[1]);
        let is_vote = row[0] == Kind::Vote.byte();
        match self {
            Fault::Misdirects => row[2 + site / 8] |= 1 << (site % 8),
            Fault::OtherSender => row[1] = u8::from(row[1] == 0),
            Fault::TellsLess => {
                let own = row[4 + sender];
                row[4..].fill(0);
                row[4 + sender] = own;
            }
            Fault::MakesUpVotes if is_vote => {
                row[4..].iter_mut().for_each(|code| *code = (*code).max(1))
            }
            Fault::RaisesSender => row[4 + sender] = raised(row[4 + sender]),
            Fault::OtherCompetition if is_vote => {
                row[0] = Kind::Outcome.byte();
                row[4..].fill(4);
            }
            _ => {}
        }
        row
    }

    fn left(&self, before: &Member, called: SiteBytes) -> SiteBytes {
        let disk = before.disk;
        let kept = match self {
            Fault::LosesPrepare => Disk { prepare: 0, ..disk },
            Fault::LosesGroup => without_group(disk),
            Fault::LosesOutcome => Disk { outcome: 0, ..disk },
            Fault::LosesLog => Disk::EMPTY,
            Fault::LosesVector if disk.group != 0 => {
                let mut vector = [0; 16];
                vector[before.own] = 1 + disk.group;
                Disk { vector, ..disk }
            }
            Fault::ForcesLate => without_last(disk, before.last),
            Fault::FreshIfEmpty if disk == Disk::EMPTY => return site_bytes(&Site::FRESH),
            Fault::FreshAlways => return site_bytes(&Site::FRESH),
            Fault::KeepsMemory => return down(before.site),
            _ => return called,
        };
        kept.site(before.own)
    }
}

fn without_group(disk: Disk) -> Disk {
    Disk {
        group: 0,
        vector: [0; 16],
        ..disk
    }
}

/// The disk without what the last step wrote.
fn without_last(mut disk: Disk, [prepare, group, outcome]: [u8; 3]) -> Disk {
    if prepare != 0 {
        disk.prepare = 0;
    }
    if group != 0 {
        disk = without_group(disk);
    }
    if outcome != 0 {
        disk.outcome = 0;
    }
    disk
}

fn down(mut site: SiteBytes) -> SiteBytes {
    site[0] = 0;
    site
}

/// The code of the next level, where it goes on to a commit.
fn raised(code: u8) -> u8 {
    match code {
        0 => 1,
        1 => 2,
        2 => 4,
        3 => 5,
        other => other,
    }
}
