//! An independent model of the quorum commitment player for inter-club sheets.
//!
//! The rules, the checks, the report, the lines, the quiet day's list, the converter and
//! the rounds of everyone who is back are written from documents 01 and 02, with mutable
//! state and plain Rust, so that another player can be compared with them. Only
//! layout.rs and calls.rs follow docs/LAYOUT.md: they say how a world and the answers
//! cross to C. The call that writes the quiet day's list, with the order of its
//! refusals, is in no paper but in docs/DECISIONS.md, 69. Nor is the step of a single site:
//! terms.rs, single.rs, step_call.rs, disk.rs and network.rs follow the call's description,
//! and its rules are those of the papers.

#![forbid(unsafe_code)]

pub mod calls;
pub mod claim;
pub mod command;
pub mod convert;
pub mod disk;
pub mod flaw;
pub mod generate;
pub mod header;
pub mod layout;
pub mod lines;
pub mod meeting;
pub mod network;
pub mod number;
pub mod opening;
pub mod play;
pub mod player;
pub mod quiet;
pub mod record;
pub mod report;
pub mod rounds;
pub mod row;
pub mod scale;
pub mod single;
pub mod site;
pub mod sizes;
pub mod state;
pub mod step;
pub mod step_call;
pub mod tally;
pub mod terms;
pub mod vector;
pub mod world;

pub use command::{Ask, Command};
pub use convert::convert;
pub use header::{Edition, Header};
pub use lines::{read_lines, write_lines, Output};
pub use network::{Event, Network};
pub use play::{one_command, play_list, Played};
pub use player::printed;
pub use quiet::{write_quiet, Replies};
pub use record::{Record, Written};
pub use report::{report, Numbers};
pub use rounds::{play_rounds, Rounds};
pub use row::{Kind, Row};
pub use single::{Input, Stepped};
pub use site::{GroupRecord, Log, Role, Site};
pub use sizes::Sizes;
pub use state::{Side, State};
pub use terms::Terms;
pub use vector::Vector;
pub use world::World;
