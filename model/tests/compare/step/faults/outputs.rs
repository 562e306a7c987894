//! What is told of a step, and how it is written, with one fault.

use model::calls::Model;
use model::sizes::everyone;
use model::step_call::StepRules;
use model::vector::level;
use model::{Input, Row, Site, Stepped, Terms, Written};

use super::rules::Change;
use super::Fault;

impl Fault {
    /// What is told of an accepted step.
    pub fn told(self, terms: &Terms, change: Change, input: Input, stepped: Stepped) -> Stepped {
        let (before, site) = (change.0, &*change.1);
        Stepped {
            row: stepped.row.map(|row| self.sent(terms, before, row)),
            written: self.written(site, input, stepped.written),
            news: stepped.news + self.miscounted(terms, before, input),
        }
    }

    fn sent(self, terms: &Terms, before: &Site, row: Row) -> Row {
        let (to, vector) = match self {
            Fault::SendsOldVector => (row.to, before.vector),
            Fault::SendsToAll => (everyone(terms.sizes.n), row.vector),
            _ => (row.to, row.vector),
        };
        Row { to, vector, ..row }
    }

    fn written(self, site: &Site, input: Input, written: Written) -> Written {
        let is_delivery = matches!(input, Input::Deliver(_));
        let is_forgotten = match self {
            Fault::ForgetsAdopted => is_delivery,
            Fault::ForgetsRestart => input == Input::Recover,
            _ => false,
        };
        match self {
            Fault::TellsNothing => Written::default(),
            Fault::TellsLog => Written {
                prepare: site.log.prepare,
                group: site.log.group_side(),
                outcome: site.log.outcome,
            },
            Fault::SwapsRecords => Written {
                group: written.outcome,
                outcome: written.group,
                ..written
            },
            _ if is_forgotten => Written {
                outcome: None,
                ..written
            },
            _ => written,
        }
    }

    /// Entries that are wrongly taken to have risen.
    fn miscounted(self, terms: &Terms, before: &Site, input: Input) -> usize {
        let Input::Deliver(row) = input else {
            return 0;
        };
        let (told, held) = (row[4 + terms.own], before.vector.codes()[terms.own]);
        let is_counted = self == Fault::CountsOwnEntry && level(told) > level(held);
        is_counted.into()
    }

    /// Writes the row and the result.
    pub fn put(self, stepped: &Stepped, row: &mut [u8], result: &mut [u8]) {
        let (old_row, old_result) = (row.to_vec(), result.to_vec());
        Model.put(stepped, row, result);
        match self {
            Fault::LeavesRow if stepped.row.is_none() => row.copy_from_slice(&old_row),
            Fault::LeavesByte => result[3] = old_result[3],
            Fault::WritesShortNews => result[6..].copy_from_slice(&old_result[6..]),
            _ => {}
        }
    }
}
