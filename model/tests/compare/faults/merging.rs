//! Deliveries that merge, or choose the outcome, with one fault.

use std::iter::once;

use model::meeting::Delivery;
use model::sizes::MAX_SITES;
use model::step::Actor;
use model::vector::outcome_of;
use model::{Command, Site, State, World};

use super::{Fault, SENDER_FAULTS};

impl Fault {
    /// An accepted delivery once more, with this fault if it is one of the sender's;
    /// without any it comes to the same. Other faults keep what they made of it.
    pub fn deliver_again(
        self,
        told: &Delivery,
        before: &World,
        world: &mut World,
        rows: &mut [u8],
    ) {
        if self != Fault::None && !SENDER_FAULTS.contains(&self) {
            return;
        }
        let mut site = before.sites[told.me()];
        world.news = before.news + self.merge(told, &mut site);
        if self == Fault::LetsSenderDecide {
            let_sender_decide(told, &mut site);
        }
        world.sites[told.me()] = site;
        answer(told, world, rows);
    }

    /// The sender's entry first, then the others', but for those that the fault
    /// leaves out, and with the one that it takes in. Gives the news.
    fn merge(self, told: &Delivery, site: &mut Site) -> usize {
        let (me, row) = (told.me(), told.row());
        let others = (0..MAX_SITES).filter(|&other| other != row.sender);
        let is_taken = |&other: &usize| match self {
            Fault::MissesSiteZero => other != me && (other != 0 || row.sender == 0),
            Fault::TakesSenderAlone => other != me && other == row.sender,
            Fault::TakesOwnAsSender => other != me || other == row.sender,
            _ => other != me,
        };
        let order = once(row.sender).chain(others).filter(is_taken);
        site.vector.merge_in(&row.vector, order)
    }
}

/// Writes the outcome that the sender shows, once the row is merged.
fn let_sender_decide(told: &Delivery, site: &mut Site) {
    let of_sender = outcome_of(site.vector.codes()[told.row().sender]);
    if let (None, Some(side)) = (site.log.outcome, of_sender) {
        site.log.outcome = Some(side);
        site.vector.set(told.me(), State::Terminated(side));
    }
}

/// What follows the merge, as the model does it; a reply takes the place of the
/// one that is sent already.
fn answer(told: &Delivery, world: &mut World, rows: &mut [u8]) {
    let me = told.me();
    let mut actor = Actor::new(&world.sizes, me, &mut world.sites[me]);
    if let Some(reply) = actor.act(Command::deliver(0, me), Some(told.row())) {
        reply.write(rows, world.row_count - 1);
    }
}
