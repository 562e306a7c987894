//! Copies of the model with one fault each in a single site's step: the comparison has to
//! see it.

mod outputs;
mod reading;
mod rules;

use model::number;
use model::step_call::{Asked, StepRules, Steps};
use model::{Site, Stepped};

#[derive(Clone, Copy, Debug, PartialEq, Eq)]
pub enum Fault {
    /// None: the copy is the model.
    None,
    /// Longer terms are taken.
    TakesLongTerms,
    /// A longer site is.
    TakesLongSite,
    /// A longer row is.
    TakesLongRow,
    /// A longer result is.
    TakesLongResult,
    /// The layout's number is not looked at.
    PassesLayout,
    /// A willing byte above 1 is a 1.
    PassesWilling,
    /// The reserved bytes of the terms are not looked at.
    PassesReserved,
    /// Those of the site are not.
    PassesSiteReserved,
    /// A weight from n up is not looked at.
    PassesFarWeight,
    /// Quorums that just do not meet pass.
    PassesApartQuorums,
    /// A quorum may need the heaviest site.
    ForgetsHeaviest,
    /// Another own entry than the state is taken for it.
    PassesOwnEntry,
    /// 17 is asked of the codes of a site whose number is n or more.
    AsksFarSite,
    /// 6 and 7 come before 17.
    AsksCommandFirst,
    /// 8 comes before 6 and 7.
    AsksNumberFirst,
    /// 11 comes before 10.
    AsksDestinationFirst,
    /// 12 comes before 10 and 11.
    AsksDownFirst,
    /// 12 comes before 11.
    AsksDownBeforeDestination,
    /// 14 comes before 12.
    AsksStartFirst,
    /// A command with bytes after it is 6.
    RefusesMore,
    /// A row that is cut has zeros for what is missing.
    TakesCutRow,
    /// Codes of a row from n up are read.
    ReadsFarCodes,
    /// START is accepted at any site.
    StartsAnywhere,
    /// START is accepted at a prepared site 0.
    StartsAgain,
    /// A row is taken that was not sent here.
    TakesAnyRow,
    /// The row is left as it was where there is none.
    LeavesRow,
    /// The result's fourth byte is left as it was.
    LeavesByte,
    /// The news is written in 16 bits.
    WritesShortNews,
    /// A refused call clears the row.
    ClearsRefused,
    /// A refused call clears the result.
    ClearsRefusedResult,
    /// Group and outcome change places in the result.
    SwapsRecords,
    /// The result tells the log, and not what was written.
    TellsLog,
    /// No record is told.
    TellsNothing,
    /// An outcome that is adopted is not told.
    ForgetsAdopted,
    /// The abort of a restart is not told.
    ForgetsRestart,
    /// The receiver's own entry is counted where the row tells a higher one.
    CountsOwnEntry,
    /// The row has the vector as it was before the step.
    SendsOldVector,
    /// A reply goes to all.
    SendsToAll,
    /// The codes live through a crash.
    KeepsCodes,
    /// A coordinator is one after a crash.
    KeepsRole,
    /// A crash leaves nothing of the group record's vector in the codes.
    LosesVector,
    /// A crash loses the prepare record.
    LosesPrepare,
    /// A crash loses the group record.
    LosesGroup,
    /// A crash loses the outcome record.
    LosesOutcome,
    /// A site with an empty log comes back active.
    ComesBackActive,
    /// A site with an empty log sends its outcome when it comes back.
    TellsOfRestart,
    /// A prepared coordinator takes a 3 for a prepare.
    TakesThreeForPrepare,
    /// A site in the abort group moves when a join commit arrives.
    LeavesAbortGroup,
    /// An active site joins the commit group.
    JoinsCommitActive,
    /// Entries are counted and not weighed.
    CountsEntries,
    /// One less than a quorum is enough.
    NeedsLess,
    /// An unwilling site prepares.
    PreparesUnwilling,
    /// A subordinate that times out decides at once.
    DecidesAtOnce,
}

/// Every fault there is.
pub const FAULTS: [Fault; 53] = [
    Fault::TakesLongTerms,
    Fault::TakesLongSite,
    Fault::TakesLongRow,
    Fault::TakesLongResult,
    Fault::PassesLayout,
    Fault::PassesWilling,
    Fault::PassesReserved,
    Fault::PassesSiteReserved,
    Fault::PassesFarWeight,
    Fault::PassesApartQuorums,
    Fault::ForgetsHeaviest,
    Fault::PassesOwnEntry,
    Fault::AsksFarSite,
    Fault::AsksCommandFirst,
    Fault::AsksNumberFirst,
    Fault::AsksDestinationFirst,
    Fault::AsksDownFirst,
    Fault::AsksDownBeforeDestination,
    Fault::AsksStartFirst,
    Fault::RefusesMore,
    Fault::TakesCutRow,
    Fault::ReadsFarCodes,
    Fault::StartsAnywhere,
    Fault::StartsAgain,
    Fault::TakesAnyRow,
    Fault::LeavesRow,
    Fault::LeavesByte,
    Fault::WritesShortNews,
    Fault::ClearsRefused,
    Fault::ClearsRefusedResult,
    Fault::SwapsRecords,
    Fault::TellsLog,
    Fault::TellsNothing,
    Fault::ForgetsAdopted,
    Fault::ForgetsRestart,
    Fault::CountsOwnEntry,
    Fault::SendsOldVector,
    Fault::SendsToAll,
    Fault::KeepsCodes,
    Fault::KeepsRole,
    Fault::LosesVector,
    Fault::LosesPrepare,
    Fault::LosesGroup,
    Fault::LosesOutcome,
    Fault::ComesBackActive,
    Fault::TellsOfRestart,
    Fault::TakesThreeForPrepare,
    Fault::LeavesAbortGroup,
    Fault::JoinsCommitActive,
    Fault::CountsEntries,
    Fault::NeedsLess,
    Fault::PreparesUnwilling,
    Fault::DecidesAtOnce,
];

/// A side with a fault.
pub struct Faulty(pub Fault);

/// The rules behind it.
struct Inside(Fault);

impl Steps for Faulty {
    fn step(
        &self,
        terms: &[u8],
        site: &mut [u8],
        command: &[u8],
        row: &mut [u8],
        result: &mut [u8],
    ) -> u32 {
        let terms = match self.0 {
            Fault::TakesLongTerms => terms.get(..32).unwrap_or(terms),
            _ => terms,
        };
        let site = cut(self.0 == Fault::TakesLongSite, site, 40);
        let row = cut(self.0 == Fault::TakesLongRow, row, 20);
        let result = cut(self.0 == Fault::TakesLongResult, result, 8);
        let number = Inside(self.0).step(terms, site, command, row, result);
        match (self.0, number == number::NONE.into()) {
            (Fault::ClearsRefused, false) => row.fill(0),
            (Fault::ClearsRefusedResult, false) => result.fill(0),
            _ => {}
        }
        number
    }
}

/// The beginning of a buffer that is longer.
fn cut(is_cut: bool, buffer: &mut [u8], size: usize) -> &mut [u8] {
    match is_cut && buffer.len() > size {
        true => &mut buffer[..size],
        false => buffer,
    }
}

impl StepRules for Inside {
    fn answer(&self, asked: Asked) -> Result<(Site, Stepped), u8> {
        if let Some(number) = self.0.early(asked) {
            return Err(number);
        }
        let [terms, site, command] = self.0.mended(asked);
        let asked = Asked {
            terms: &terms,
            site: &site,
            command: &command,
        };
        let terms = self.0.terms(asked.terms)?;
        asked.answer_for(terms, |terms, site, input| {
            let before = *site;
            let stepped = self.0.taken(terms, site, input)?;
            Ok(self.0.told(terms, (&before, site), input, stepped))
        })
    }

    fn put(&self, stepped: &Stepped, row: &mut [u8], result: &mut [u8]) {
        self.0.put(stepped, row, result);
    }
}
