//! Calls made for one clause each, with the number that the paper gives.

mod commands;
mod lists;
mod news;
mod reports;
mod senders;
mod shared;
mod weights;
mod worlds;

pub use commands::commands;
pub use lists::lists;
pub use news::news;
pub use reports::reports;
pub use senders::senders;
pub use weights::weights;
pub use worlds::{every_byte, worlds};
