//! The world as bytes, the way it crosses to C: docs/LAYOUT.md.
//!
//! 672 bytes: a head of 16, a weight for each of the sixteen sites, then 40 bytes
//! for each of them. Numbers of more than one byte have the low byte first.

use std::ops::Range;

use crate::number;
use crate::site::{GroupRecord, Log, Role, Site};
use crate::sizes::{ones, Sizes};
use crate::state::Side;
use crate::vector::Vector;
use crate::world::World;

/// Bytes of a world.
pub const WORLD_BYTES: usize = 672;
/// Bytes before the weights.
pub const HEAD_BYTES: usize = 16;
/// The weights, a byte each.
pub const WEIGHTS: Range<usize> = 16..32;
/// Where the first site is.
pub const SITES_AT: usize = 32;
/// Bytes of a site.
pub const SITE_BYTES: usize = 40;
/// The layout's own number, the first byte.
pub const LAYOUT: u8 = 3;
/// The news in the head.
pub const NEWS: Range<usize> = 10..14;
/// A site's codes, seen from the site's first byte.
pub const CODES: Range<usize> = 8..24;
/// The codes of its group record.
pub const GROUP_CODES: Range<usize> = 24..40;

/// The world's bytes. A number too large for its field becomes the largest
/// that fits, which is as bad for the check on worlds.
pub fn encode(world: &World) -> [u8; WORLD_BYTES] {
    let mut bytes = [0; WORLD_BYTES];
    bytes[0] = LAYOUT;
    update(&mut bytes, world);
    bytes
}

/// Writes a world over the bytes of an earlier one. Site records from n up
/// never change, so their bytes stay.
pub fn update(bytes: &mut [u8], world: &World) {
    let sizes = &world.sizes;
    bytes[1] = sizes.n.min(255) as u8;
    bytes[2..4].copy_from_slice(&word(sizes.commit_quorum));
    bytes[4..6].copy_from_slice(&word(sizes.abort_quorum));
    bytes[6..8].copy_from_slice(&sizes.willing.to_le_bytes());
    bytes[8..10].copy_from_slice(&word(world.row_count));
    bytes[NEWS].copy_from_slice(&double_word(world.news));
    bytes[WEIGHTS].copy_from_slice(&sizes.weights);
    let places = bytes[SITES_AT..].chunks_exact_mut(SITE_BYTES);
    for (place, site) in places.zip(world.members()) {
        encode_site(place, site);
    }
}

/// A site's bytes.
pub fn site_bytes(site: &Site) -> [u8; SITE_BYTES] {
    let mut bytes = [0; SITE_BYTES];
    encode_site(&mut bytes, site);
    bytes
}

/// Writes a site over the bytes of an earlier one.
#[inline]
pub fn encode_site(bytes: &mut [u8], site: &Site) {
    let group_vector = site.log.group.map_or(Vector::ZEROS, |record| record.vector);
    bytes[0] = site.up.into();
    bytes[1] = site.is_coordinator().into();
    bytes[2] = site.log.prepare.into();
    bytes[3] = side_byte(site.log.group_side());
    bytes[4] = side_byte(site.log.outcome);
    bytes[CODES].copy_from_slice(site.vector.codes());
    bytes[GROUP_CODES].copy_from_slice(group_vector.codes());
}

/// The world that the bytes say. The refusal is 17: for bytes outside the
/// layout, and for what no site of a world can hold. Of site records from n up
/// the layout alone is asked, and they come out idle.
pub fn decode(bytes: &[u8]) -> Result<World, u8> {
    if !is_inside(bytes) {
        return Err(number::WORLD);
    }
    let mut weights = ones(0);
    weights.copy_from_slice(&bytes[WEIGHTS]);
    let sizes = Sizes {
        n: bytes[1].into(),
        commit_quorum: word_at(bytes, 2).into(),
        abort_quorum: word_at(bytes, 4).into(),
        willing: word_at(bytes, 6),
        weights,
    };
    let mut world = World {
        sizes,
        row_count: word_at(bytes, 8).into(),
        news: double_word_at(bytes, NEWS.start) as usize,
        ..World::ZEROS
    };
    for (site, place) in world.sites.iter_mut().zip(sites(bytes)).take(sizes.n) {
        *site = decode_site(place).ok_or(number::WORLD)?;
    }
    Ok(world)
}

/// The site that bytes inside the layout say. None for a code above 5, or a group's
/// vector without a group.
#[inline]
pub fn decode_site(bytes: &[u8]) -> Option<Site> {
    let group_vector = Vector::read(&bytes[GROUP_CODES])?;
    let group = side(bytes[3]).map(|side| GroupRecord {
        side,
        vector: group_vector,
    });
    if group.is_none() && group_vector != Vector::ZEROS {
        return None;
    }
    let role = match bytes[1] {
        0 => Role::Subordinate,
        _ => Role::Coordinator,
    };
    Some(Site {
        up: bytes[0] == 1,
        role,
        log: Log {
            prepare: bytes[2] == 1,
            group,
            outcome: side(bytes[4]),
        },
        vector: Vector::read(&bytes[CODES])?,
    })
}

/// Are the bytes inside the layout?
fn is_inside(bytes: &[u8]) -> bool {
    bytes.len() == WORLD_BYTES
        && bytes[0] == LAYOUT
        && bytes[NEWS.end..HEAD_BYTES].iter().all(|&byte| byte == 0)
        && sites(bytes).all(is_site_inside)
}

/// Three flags, two sides, three bytes of 0, and any codes.
#[inline]
pub fn is_site_inside(bytes: &[u8]) -> bool {
    bytes[..3].iter().all(|&flag| flag <= 1)
        && bytes[3..5].iter().all(|&side| side <= 2)
        && bytes[5..8].iter().all(|&byte| byte == 0)
}

/// The sixteen site records.
fn sites(bytes: &[u8]) -> impl Iterator<Item = &[u8]> {
    bytes[SITES_AT..].chunks_exact(SITE_BYTES)
}

pub(crate) fn word(number: usize) -> [u8; 2] {
    (number.min(65_535) as u16).to_le_bytes()
}

pub(crate) fn word_at(bytes: &[u8], at: usize) -> u16 {
    u16::from_le_bytes([bytes[at], bytes[at + 1]])
}

pub(crate) fn double_word(number: usize) -> [u8; 4] {
    let fits = u32::try_from(number).unwrap_or(u32::MAX);
    fits.to_le_bytes()
}

fn double_word_at(bytes: &[u8], at: usize) -> u32 {
    u32::from(word_at(bytes, at + 2)) << 16 | u32::from(word_at(bytes, at))
}

pub(crate) fn side_byte(side: Option<Side>) -> u8 {
    match side {
        None => 0,
        Some(Side::Commit) => 1,
        Some(Side::Abort) => 2,
    }
}

pub(crate) fn side(byte: u8) -> Option<Side> {
    match byte {
        1 => Some(Side::Commit),
        2 => Some(Side::Abort),
        _ => None,
    }
}
