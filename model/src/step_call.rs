//! The call that takes one step of a single site, on bytes, as the model answers it.

use crate::calls::Model;
use crate::layout::{double_word, encode_site};
use crate::number;
use crate::row::ROW_BYTES;
use crate::single::{step, Input, Stepped};
use crate::site::Site;
use crate::terms::Terms;

/// Bytes of the result: what was written, by the three places of the log, a 0, and the
/// news.
pub const STEP_RESULT_BYTES: usize = 8;

/// One side of a comparison: anything that takes steps.
pub trait Steps {
    /// A command to a site of these terms. An accepted call writes all of the site, the
    /// row and the result; a refusal touches nothing.
    fn step(
        &self,
        terms: &[u8],
        site: &mut [u8],
        command: &[u8],
        row: &mut [u8],
        result: &mut [u8],
    ) -> u32;
}

/// What a call reads.
#[derive(Clone, Copy, Debug)]
pub struct Asked<'a> {
    pub terms: &'a [u8],
    pub site: &'a [u8],
    pub command: &'a [u8],
}

/// The rules behind the call. As they stand they are the model's.
pub trait StepRules {
    /// The site after the step, and what else comes of it. Checks 17, 6, 7, 8, and 10 to
    /// 14, in order.
    fn answer(&self, asked: Asked) -> Result<(Site, Stepped), u8> {
        asked.answer_by(step)
    }

    /// Writes the row, zeros where there is none, and the result.
    fn put(&self, stepped: &Stepped, row: &mut [u8], result: &mut [u8]) {
        row.copy_from_slice(&stepped.row.map_or([0; ROW_BYTES], |sent| sent.bytes()));
        result[..3].copy_from_slice(&stepped.written.bytes());
        result[3] = 0;
        result[4..].copy_from_slice(&double_word(stepped.news));
    }
}

impl StepRules for Model {}

impl Asked<'_> {
    /// The answer with a way of taking the step.
    pub fn answer_by(
        self,
        step: impl FnOnce(&Terms, &mut Site, Input) -> Result<Stepped, u8>,
    ) -> Result<(Site, Stepped), u8> {
        self.answer_for(Terms::read(self.terms)?, step)
    }

    /// The answer for terms that were read.
    pub fn answer_for(
        self,
        terms: Terms,
        step: impl FnOnce(&Terms, &mut Site, Input) -> Result<Stepped, u8>,
    ) -> Result<(Site, Stepped), u8> {
        let held = terms.site(self.site)?;
        let input = Input::read(self.command)?;
        let mut site = held.ok_or(number::SITE)?;
        let stepped = step(&terms, &mut site, input)?;
        Ok((site, stepped))
    }
}

impl<R: StepRules> Steps for R {
    fn step(
        &self,
        terms: &[u8],
        site: &mut [u8],
        command: &[u8],
        row: &mut [u8],
        result: &mut [u8],
    ) -> u32 {
        if row.len() != ROW_BYTES || result.len() != STEP_RESULT_BYTES {
            return number::WORLD.into();
        }
        let asked = Asked {
            terms,
            site,
            command,
        };
        match self.answer(asked) {
            Ok((next, stepped)) => {
                encode_site(site, &next);
                self.put(&stepped, row, result);
                number::NONE.into()
            }
            Err(number) => number.into(),
        }
    }
}
