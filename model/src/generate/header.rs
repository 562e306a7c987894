//! Sizes for headers, and headers of the second edition that are refused.

use super::rng::Rng;
use crate::header::{Edition, SECOND};
use crate::sizes::{everyone, ones, Sizes, Weights, MAX_SITES, MIN_SITES};

/// How a list begins.
pub type Beginning = (Edition, Sizes);

/// The lowest and the highest weight that is drawn for a list's sites.
const WEIGHTS: [(usize, usize); 6] = [(1, 1), (1, 2), (1, 9), (1, 255), (200, 255), (255, 255)];

/// Sizes that pass, in either edition.
pub fn beginning(rng: &mut Rng) -> Beginning {
    if rng.chance(50) {
        (Edition::First, plain(rng))
    } else {
        (Edition::Second, weighted(rng))
    }
}

/// Sizes that pass, small ones more often; each site weighs 1.
pub fn plain(rng: &mut Rng) -> Sizes {
    let n = sites(rng);
    plain_of(rng, n)
}

/// Such sizes of n sites.
pub fn plain_of(rng: &mut Rng, n: usize) -> Sizes {
    let sizes = Sizes::new(n, 0, 0, willing(rng, n));
    with_quorums(sizes, quorums(rng, &sizes))
}

/// Sizes that pass, with weights of all sorts and quorums often at their bounds.
pub fn weighted(rng: &mut Rng) -> Sizes {
    let n = sites(rng);
    weighted_of(rng, n)
}

/// Such sizes of n sites.
pub fn weighted_of(rng: &mut Rng, n: usize) -> Sizes {
    let plain = Sizes::new(n, 0, 0, willing(rng, n));
    let weights = weights(rng, n);
    let sizes = Sizes { weights, ..plain };
    let far = far_quorums(rng, &sizes);
    with_quorums(sizes, far)
}

/// Sizes that pass, in either edition: of ones most often, else of ones but for one
/// site, or weighted.
pub fn even_or_not(rng: &mut Rng) -> Beginning {
    match rng.below(10) {
        0..=4 => (Edition::First, plain(rng)),
        5..=7 => (Edition::Second, plain(rng)),
        8 => (Edition::Second, nearly_even(rng)),
        _ => (Edition::Second, weighted(rng)),
    }
}

/// Sizes that pass, where all sites but one weigh 1. That one can weigh n - 2, and
/// three sites have no quorums then.
fn nearly_even(rng: &mut Rng) -> Sizes {
    let n = rng.between(MIN_SITES + 1, MAX_SITES);
    let mut sizes = Sizes::new(n, 0, 0, willing(rng, n));
    sizes.weights[rng.below(n)] = rng.between(2, n - 2) as u8;
    let far = far_quorums(rng, &sizes);
    with_quorums(sizes, far)
}

/// How many sites there are, few more often.
fn sites(rng: &mut Rng) -> usize {
    let most = rng.choose(&[5, MAX_SITES]);
    rng.between(MIN_SITES, most)
}

fn with_quorums(sizes: Sizes, (commit_quorum, abort_quorum): (usize, usize)) -> Sizes {
    Sizes {
        commit_quorum,
        abort_quorum,
        ..sizes
    }
}

/// Legal quorums, as small as can be half of the time.
pub fn quorums(rng: &mut Rng, sizes: &Sizes) -> (usize, usize) {
    let (least, most) = bounds(sizes);
    let c = rng.between(least, most);
    (c, met_by(rng, sizes, c))
}

/// Legal quorums of which the first is at a bound half of the time.
fn far_quorums(rng: &mut Rng, sizes: &Sizes) -> (usize, usize) {
    let (least, most) = bounds(sizes);
    let any = rng.between(least, most);
    let c = rng.choose(&[least, most, any, any]);
    (c, met_by(rng, sizes, c))
}

/// The least and the most that a quorum can be.
fn bounds(sizes: &Sizes) -> (usize, usize) {
    let heaviest = sizes.heaviest();
    (heaviest + 1, sizes.weight() - heaviest)
}

/// A quorum that meets this one, as small as can be half of the time.
fn met_by(rng: &mut Rng, sizes: &Sizes, quorum: usize) -> usize {
    let (_, most) = bounds(sizes);
    let least = sizes.weight() + 1 - quorum;
    if rng.chance(50) {
        least
    } else {
        rng.between(least, most)
    }
}

/// Weights that leave room for quorums; at times one is as heavy as it can be.
fn weights(rng: &mut Rng, n: usize) -> Weights {
    let (low, high) = rng.choose(&WEIGHTS);
    let mut weights = ones(n);
    weights[..n].fill_with(|| rng.between(low, high) as u8);
    if rng.chance(40) {
        let heavy = rng.below(n);
        let others: usize = weights.iter().map(|&weight| usize::from(weight)).sum();
        let most = (others - usize::from(weights[heavy]) - 1).min(255);
        weights[heavy] = most as u8;
    }
    evened(weights, n)
}

/// Weights of which one is not more than all the others; else all are that heavy.
fn evened(mut weights: Weights, n: usize) -> Weights {
    let sizes = Sizes {
        weights,
        ..Sizes::new(n, 0, 0, 0)
    };
    let heaviest = sizes.heaviest();
    if 2 * heaviest >= sizes.weight() {
        weights[..n].fill(heaviest as u8);
    }
    weights
}

/// Willing sites: all, all but one, or any.
fn willing(rng: &mut Rng, n: usize) -> u16 {
    let all = everyone(n);
    match rng.below(10) {
        0..=7 => all,
        8 => all & !(1 << rng.below(n)),
        _ => all & rng.draw() as u16,
    }
}

/// A header of the second edition with one or two things wrong, and cut at times;
/// seldom its first bytes alone.
pub fn bad_header(rng: &mut Rng) -> Vec<u8> {
    if rng.chance(15) {
        let n = rng.choose(&[0, 2, 3, 16, 17, 255]);
        let size = rng.below(7);
        return [vec![SECOND, n], rng.bytes(size)].concat();
    }
    let mut sizes = weighted(rng);
    for _ in 0..rng.between(1, 2) {
        break_sizes(rng, &mut sizes);
    }
    let mut header = Edition::Second.header(&sizes);
    if rng.chance(5) {
        header[0] = rng.choose(&[129, 131, 132]);
    }
    if rng.chance(25) {
        header.truncate(rng.below(header.len()));
    }
    header
}

/// Makes one number of these sizes wrong, most often by as little as can be.
pub fn break_sizes(rng: &mut Rng, sizes: &mut Sizes) {
    let (n, all) = (sizes.n.clamp(1, MAX_SITES), sizes.weight());
    let past = all - sizes.heaviest() + 1;
    match rng.below(9) {
        0 | 1 => sizes.weights[rng.below(n)] = 0,
        2 => sizes.commit_quorum = rng.choose(&[past, past, all, 65_535]),
        3 => sizes.abort_quorum = rng.choose(&[past, past, all, 65_535]),
        4 => sizes.abort_quorum = all.saturating_sub(sizes.commit_quorum),
        5 => sizes.commit_quorum = sizes.commit_quorum.wrapping_add(256) & 0xffff,
        6 => sizes.willing |= rng.draw() as u16 & !everyone(n),
        7 => sizes.n = rng.choose(&[0, 2, 17, 130, 255]),
        _ => top_heavy(rng, sizes),
    }
}

/// One site of 255 beside sites of 1: there are no quorums for it.
fn top_heavy(rng: &mut Rng, sizes: &mut Sizes) {
    sizes.weights = ones(sizes.n);
    sizes.weights[rng.below(sizes.n.min(MAX_SITES))] = 255;
}
