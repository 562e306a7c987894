//! The world: one competition, with all its sites.

use crate::number;
use crate::site::Site;
use crate::sizes::{Sizes, MAX_SITES};

/// Most rows that can be sent.
pub const MAX_ROWS: usize = 1024;
/// Most news that a world can have had.
pub const MAX_NEWS: usize = 491_520;

/// One competition. The fields are open so that damaged worlds can be made.
#[derive(Clone, Copy, Debug, PartialEq, Eq, Hash)]
pub struct World {
    pub sizes: Sizes,
    /// Rows sent so far.
    pub row_count: usize,
    /// How many entries rose in all accepted deliveries so far.
    pub news: usize,
    pub sites: [Site; MAX_SITES],
}

impl World {
    /// The world of zeros.
    pub const ZEROS: World = World {
        sizes: Sizes::ZEROS,
        row_count: 0,
        news: 0,
        sites: [Site::IDLE; MAX_SITES],
    };

    /// The world before any command; the world of zeros for refused sizes.
    pub fn fresh(sizes: Sizes) -> World {
        let mut world = World::ZEROS;
        if sizes.make_world() {
            world.sizes = sizes;
            world.sites[..sizes.n].fill(Site::FRESH);
        }
        world
    }

    /// Check 17, as the one-command call makes it.
    pub fn check(&self) -> Result<(), u8> {
        let n = self.sizes.n;
        let mut sites = self.members().iter().enumerate();
        let is_valid = self.sizes.make_world()
            && self.row_count <= MAX_ROWS
            && self.news <= MAX_NEWS
            && sites.all(|(own, site)| site.is_valid(n, own));
        is_valid.then_some(()).ok_or(number::WORLD)
    }

    /// The sites that take part.
    pub fn members(&self) -> &[Site] {
        &self.sites[..self.sizes.n.min(MAX_SITES)]
    }
}
