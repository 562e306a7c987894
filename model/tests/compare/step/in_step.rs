//! Networks of both sides' sites in step: the same steps, and after each the same bytes.

use model::generate::Course;
use model::network::Servers;
use model::step_call::Steps;
use model::Network;

use crate::common::courses::{Eye, Met};
use crate::comparer::hex;

/// A side's steps, and its servers.
pub type Side<'a> = (&'a dyn Steps, &'a dyn Servers);

/// The two sides, and what happened.
pub struct InStep<'a> {
    library: Side<'a>,
    model: Side<'a>,
    pub met: Met,
}

impl<'a> InStep<'a> {
    pub fn new(library: Side<'a>, model: Side<'a>) -> InStep<'a> {
        InStep {
            library,
            model,
            met: Met::default(),
        }
    }

    /// A history by both sides; the first difference ends it. Nothing may be broken.
    pub fn history(&mut self, course: &Course) -> Result<(), String> {
        let new = |(side, servers): Side<'a>| Network::new(side, servers, course.sizes);
        let (mut library, mut model) = (new(self.library), new(self.model));
        let mut eye = Eye::default();
        for (at, &happening) in course.history.iter().enumerate() {
            let (site, _) = happening;
            let before = library.members[site].clone();
            let (left, right) = (library.step(happening), model.step(happening));
            let [held, due] = [&library, &model].map(|network| network.members[site].site);
            let (Some(answer), true, true) = (left, left == right, held == due) else {
                let step = format!("step {at}, {happening:?}: {left:?} and {right:?}\n");
                let (held, due) = (hex(&held), hex(&due));
                return Err(format!("{step}library {held}\nmodel {due}\n"));
            };
            eye.look(&library, happening, &before, &answer);
        }
        self.met.add(eye, &library, &course.sizes);
        ended_alike(&library, &model)
    }
}

/// The same rows, records and news, and nothing broken.
fn ended_alike(library: &Network, model: &Network) -> Result<(), String> {
    let parts = [
        (library.rows == model.rows, "other rows\n"),
        (library.written == model.written, "other records\n"),
        (library.news == model.news, "other news\n"),
        (library.disks() == model.disks(), "other disks\n"),
    ];
    for (is_same, otherwise) in parts {
        is_same.then_some(()).ok_or(otherwise)?;
    }
    match library.broken.union(&model.broken).next() {
        Some(part) => Err(format!("{part:?} is broken\n")),
        None => Ok(()),
    }
}
