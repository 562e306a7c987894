//! What is claimed of all records that the sites of a competition have written.

use crate::record::Record;
use crate::state::Side;

/// A record, and the site that wrote it.
pub type WrittenBy = (usize, Record);

/// The parts of the claim that can be broken.
#[derive(Clone, Copy, Debug, PartialEq, Eq, PartialOrd, Ord)]
pub enum Broken {
    /// Both outcomes are written.
    TwoOutcomes,
    /// A commit is written, and not exactly one prepare record at each site.
    NotPrepared,
    /// A commit is written, and some site is not willing.
    NotWilling,
    /// A site has written two group records.
    SecondGroup,
    /// A site has written two outcome records.
    SecondOutcome,
}

/// What these records break, of a competition in which these sites are willing.
pub fn broken(written: &[WrittenBy], willing: &[bool]) -> Vec<Broken> {
    let ended = |side| {
        let mut records = written.iter().map(|&(_, record)| record);
        records.any(|record| record == Record::Outcome(side))
    };
    let most = |is_such: fn(Record) -> bool| {
        let counts = (0..willing.len()).map(|site| count(written, site, is_such));
        counts.max().unwrap_or(0)
    };
    let is_prepare = |record| record == Record::Prepare;
    let mut prepares = (0..willing.len()).map(|site| count(written, site, is_prepare));
    let (commits, aborts) = (ended(Side::Commit), ended(Side::Abort));
    let parts = [
        (Broken::TwoOutcomes, commits && aborts),
        (
            Broken::NotPrepared,
            commits && prepares.any(|records| records != 1),
        ),
        (Broken::NotWilling, commits && willing.contains(&false)),
        (Broken::SecondGroup, most(is_group) > 1),
        (Broken::SecondOutcome, most(is_outcome) > 1),
    ];
    let found = parts.into_iter().filter(|&(_, is_broken)| is_broken);
    found.map(|(part, _)| part).collect()
}

fn is_group(record: Record) -> bool {
    matches!(record, Record::Group(_))
}

fn is_outcome(record: Record) -> bool {
    matches!(record, Record::Outcome(_))
}

/// How many such records a site has written.
fn count(written: &[WrittenBy], site: usize, is_such: impl Fn(Record) -> bool) -> usize {
    let own = written.iter().filter(|&&(writer, _)| writer == site);
    own.filter(|&&(_, record)| is_such(record)).count()
}
