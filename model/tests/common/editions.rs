//! Lists in both editions.

/// The worked list in the second edition.
pub const M3_SECOND: [u8; 32] = [
    130, 3, 2, 0, 2, 0, 7, 0, 1, 1, 1, //
    1, 2, 0, 0, 1, 2, 1, 0, 0, 3, 0, 2, 2, 0, 2, 2, 3, 0, 0, 3, 0,
];

/// Four sites, quorums of 3, all willing, in both editions. These quorums fit too
/// where one site weighs 2.
pub const FIRST: [u8; 5] = [4, 3, 3, 15, 0];
pub const SECOND: [u8; 12] = [130, 4, 3, 0, 3, 0, 15, 0, 1, 1, 1, 1];
