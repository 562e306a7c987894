//! Lists that cannot be written as lines, and sizes that cannot be read from
//! them, each for a clause of document 01.

/// A clause, its number and place, and a list for it.
pub type BadList = (&'static str, u8, usize, &'static [u8]);

pub const BAD_LISTS: &[BadList] = &[
    ("write: 2 under 5", 2, 0, &[]),
    ("write: 2 under 5", 2, 0, &[3]),
    ("write: 2 under 5", 2, 0, &[3, 2, 2, 7]),
    ("write: 3 n under 3", 3, 0, &[0, 0, 0, 0, 0]),
    ("write: 3 n under 3", 3, 0, &[2, 2, 2, 3, 0]),
    ("write: 3 n over 16", 3, 0, &[17, 9, 9, 3, 0]),
    ("write: 3 n over 16", 3, 0, &[255, 255, 255, 255, 255]),
    ("write: 3 a later edition", 3, 0, &[130, 9, 9, 3, 0]),
    ("write: 3 a later edition", 3, 0, &[130, 3, 0, 0, 0]),
    (
        "write: 3 a later edition",
        3,
        0,
        &[130, 3, 2, 0, 2, 0, 7, 0, 1, 1, 1],
    ),
    (
        "write: 3 a later edition",
        3,
        0,
        &[130, 3, 2, 0, 2, 0, 7, 0, 1, 0, 1, 1],
    ),
    ("write: 3 a later edition", 3, 0, &[131, 9, 9, 3, 0]),
    ("write: 3 a later edition", 3, 0, &[132, 9, 9, 3, 0]),
    ("write: 4 C over n - 1", 4, 0, &[3, 3, 2, 7, 0]),
    ("write: 4 C over n - 1", 4, 0, &[3, 255, 2, 7, 0]),
    ("write: 4 A over n - 1", 4, 0, &[3, 2, 3, 7, 0]),
    ("write: 4 A over n - 1", 4, 0, &[3, 2, 255, 7, 0]),
    ("write: 4 C + A under n + 1", 4, 0, &[4, 2, 2, 15, 0]),
    ("write: 4 C + A under n + 1", 4, 0, &[3, 1, 2, 7, 0]),
    ("write: 5 willing bit at n or above", 5, 0, &[3, 2, 2, 8, 0]),
    (
        "write: 5 willing bit at n or above",
        5,
        0,
        &[3, 2, 2, 7, 128],
    ),
    ("write: 6 not 1 to 5", 6, 5, &[3, 2, 2, 7, 0, 0]),
    ("write: 6 not 1 to 5", 6, 5, &[3, 2, 2, 7, 0, 6]),
    ("write: 6 not 1 to 5", 6, 6, &[3, 2, 2, 7, 0, 1, 255]),
    (
        "write: 6 not 1 to 5",
        6,
        10,
        &[3, 2, 2, 7, 0, 1, 2, 0, 0, 1, 10, 1],
    ),
    ("write: 7 operands cut short", 7, 5, &[3, 2, 2, 7, 0, 2]),
    ("write: 7 operands cut short", 7, 5, &[3, 2, 2, 7, 0, 2, 0]),
    (
        "write: 7 operands cut short",
        7,
        5,
        &[3, 2, 2, 7, 0, 2, 0, 0],
    ),
    ("write: 7 operands cut short", 7, 6, &[3, 2, 2, 7, 0, 1, 3]),
    (
        "write: 7 operands cut short",
        7,
        7,
        &[3, 2, 2, 7, 0, 3, 0, 4],
    ),
    (
        "write: 7 operands cut short",
        7,
        9,
        &[3, 2, 2, 7, 0, 4, 0, 5, 0, 5],
    ),
    ("write: 2 before 3", 2, 0, &[2, 3, 3, 255]),
    ("write: 3 before 4", 3, 0, &[2, 3, 3, 255, 255, 9]),
    ("write: 4 before 5", 4, 0, &[3, 3, 3, 255, 255, 9]),
    ("write: 5 before 6", 5, 0, &[3, 2, 2, 255, 255, 9]),
    ("write: 5 before 7", 5, 0, &[3, 2, 2, 255, 255, 2]),
    // Only the end can be cut, so a bad byte before it is met first.
    ("write: 6 before 7", 6, 7, &[3, 2, 2, 7, 0, 4, 1, 0, 3]),
];

/// A clause, its number, and a first line for it.
pub type BadSizes = (&'static str, u8, &'static str);

pub const BAD_SIZES: &[BadSizes] = &[
    (
        "read: 3 n under 3",
        3,
        "sites 0 commit 0 abort 0 willing 0\n",
    ),
    (
        "read: 3 n under 3",
        3,
        "sites 2 commit 2 abort 2 willing 3\n",
    ),
    (
        "read: 3 n over 16",
        3,
        "sites 17 commit 9 abort 9 willing 3\n",
    ),
    (
        "read: 3 n over 16",
        3,
        "sites 255 commit 255 abort 255 willing 65535\n",
    ),
    (
        "read: 3 a later edition",
        3,
        "sites 130 commit 9 abort 9 willing 3\n",
    ),
    (
        "read: 4 C over n - 1",
        4,
        "sites 3 commit 3 abort 2 willing 7\n",
    ),
    (
        "read: 4 C over n - 1",
        4,
        "sites 3 commit 255 abort 2 willing 7\n",
    ),
    (
        "read: 4 A over n - 1",
        4,
        "sites 3 commit 2 abort 3 willing 7\n",
    ),
    (
        "read: 4 A over n - 1",
        4,
        "sites 3 commit 2 abort 255 willing 7\n",
    ),
    (
        "read: 4 C + A under n + 1",
        4,
        "sites 4 commit 2 abort 2 willing 15\n",
    ),
    (
        "read: 4 C + A under n + 1",
        4,
        "sites 3 commit 0 abort 0 willing 7\n",
    ),
    (
        "read: 5 willing bit at n or above",
        5,
        "sites 3 commit 2 abort 2 willing 8\n",
    ),
    (
        "read: 5 willing bit at n or above",
        5,
        "sites 15 commit 8 abort 8 willing 32768\n",
    ),
    (
        "read: 3 before 4",
        3,
        "sites 2 commit 3 abort 3 willing 65535\n",
    ),
    (
        "read: 4 before 5",
        4,
        "sites 3 commit 3 abort 3 willing 65535\n",
    ),
];
