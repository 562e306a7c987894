//! The schedule of everyone who is back, given to both sides in step: each has a world
//! and a store of its own, and after every call all their bytes are the same.

use model::calls::{Calls, RESULT_BYTES};
use model::layout::{decode, encode, WORLD_BYTES};
use model::rounds::{play_rounds_by, ROUNDS};
use model::row::STORE_BYTES;
use model::{number, Ask, World};

use crate::common::rounds::claim::Tried;
use crate::common::rounds::{Reached, FILL};
use crate::comparer::{hex, same, value, Agreed, PLAYED};

/// The store, the world and the result of a side.
type Held = [Vec<u8>; 3];

/// The two sides.
pub struct InStep<'a> {
    library: &'a dyn Calls,
    model: &'a dyn Calls,
    /// Calls that were compared.
    pub calls: usize,
}

impl<'a> InStep<'a> {
    pub fn new(library: &'a dyn Calls, model: &'a dyn Calls) -> InStep<'a> {
        InStep {
            library,
            model,
            calls: 0,
        }
    }

    /// A day by both sides: its list, then the rounds, then the list with the rounds'
    /// commands after it.
    pub fn day(&mut self, day: &Reached) -> Result<Tried, String> {
        let (store, world) = (day.store.clone(), encode(&day.world).to_vec());
        self.leads_to(&day.list, &[store, world])?;
        let (tried, [store, world, _]) = self.rounds(day)?;
        if tried.told.refusal.is_none() {
            let mut list = day.list.clone();
            let commands = tried.told.commands.iter();
            commands.for_each(|command| command.push(&mut list));
            self.leads_to(&list, &[store, world])?;
        }
        Ok(tried)
    }

    /// Does a list, played as a whole, lead each side to this store and world?
    fn leads_to(&self, list: &[u8], wanted: &[Vec<u8>; 2]) -> Result<(), String> {
        for side in [self.library, self.model] {
            let (mut store, mut world) = (vec![FILL; STORE_BYTES], vec![FILL; WORLD_BYTES]);
            let mut result = [FILL; RESULT_BYTES];
            let number = side.play_list(list, &mut store, &mut world, &mut result);
            if number != 0 || [store, world] != *wanted {
                return Err(format!("list {} leads elsewhere\n", hex(list)));
            }
        }
        Ok(())
    }

    /// The three rounds from a world on; what one side holds at the end, both do. The
    /// first difference ends them.
    pub fn rounds(&mut self, day: &Reached) -> Result<(Tried, Held), String> {
        let held = [
            day.store.clone(),
            encode(&day.world).to_vec(),
            vec![0; RESULT_BYTES],
        ];
        let mut held = [held.clone(), held];
        let (mut after, mut why) = (day.world, None);
        let told = play_rounds_by(&mut after, &mut [], ROUNDS, |world, _, ask| {
            let agreed = match why {
                None => self.call(&mut held, ask),
                Some(_) => return Err(number::WORLD),
            };
            let number = agreed.unwrap_or_else(|found| {
                why = Some(found);
                number::WORLD.into()
            });
            taken_over(number, &held[0], world)
        });
        if let Some(why) = why {
            return Err(format!("{why}after list {}\n", hex(&day.list)));
        }
        let tried = Tried {
            before: day.world,
            after,
            told,
        };
        let [library, _] = held;
        Ok((tried, library))
    }

    /// A call by both sides.
    fn call(&mut self, [library, model]: &mut [Held; 2], ask: Ask) -> Agreed {
        self.calls += 1;
        let play = |side: &dyn Calls, [store, world, result]: &mut Held| {
            side.play_command(world, store, ask, result)
        };
        let (left, right) = (play(self.library, library), play(self.model, model));
        if left == right && library == model {
            return Ok(left);
        }
        let (left, right) = ((left, library.clone()), (right, model.clone()));
        same("command", PLAYED, left, right).map(|(number, _)| number)
    }
}

/// What an accepted call has left, or the number of the refusal.
fn taken_over(number: u32, [_, bytes, result]: &Held, world: &mut World) -> Result<usize, u8> {
    match number {
        0 => {
            *world = decode(bytes)?;
            Ok(value(result))
        }
        refusal => Err(refusal as u8),
    }
}
