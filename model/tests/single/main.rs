//! One site by itself: its step on bytes, what a crash leaves of it, networks of such sites
//! with what is claimed of their records, and steps beside calls on a world.

#[path = "../common/mod.rs"]
mod common;

mod beside;
mod crashes;
mod days;
mod histories;
mod search;
mod search_faults;

const SEED: u64 = 20_270_701;
