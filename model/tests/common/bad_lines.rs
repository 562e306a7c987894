//! Lines that are refused by 19, sorted by what is wrong with them.

/// A first line and a whole day, with nothing wrong.
pub const FIRST: &str = "sites 3 commit 2 abort 2 willing 7\n";
pub const DAY: &str = "sites 3 commit 2 abort 2 willing 7\n\
                       start\n\
                       deliver 0 1\n\
                       timeout 0\n\
                       crash 0\n\
                       recover 0\n";

/// A clause, and lines for it.
pub type Sort = (&'static str, &'static [&'static str]);

/// Lines that are bad as second or later ones.
pub const BAD: &[Sort] = &[
    ("19 empty line", &["\n"]),
    (
        "19 second sites line",
        &[
            FIRST,
            "sites 16 commit 15 abort 15 willing 65535\n",
            "sites 0 commit 0 abort 0 willing 0\n",
        ],
    ),
    (
        "19 carriage return",
        &[
            "\r\n",
            "start\r\n",
            "\rstart\n",
            "timeout 0\r\n",
            "timeout\r0\n",
            "deliver 0 1\r\n",
        ],
    ),
    (
        "19 leading blank",
        &[" start\n", " timeout 0\n", "  crash 0\n", " deliver 0 1\n"],
    ),
    (
        "19 trailing blank",
        &[
            "start \n",
            "start  \n",
            "timeout 0 \n",
            "crash 0 \n",
            "recover 0 \n",
            "deliver 0 1 \n",
        ],
    ),
    (
        "19 two blanks",
        &[
            "timeout  0\n",
            "crash  0\n",
            "recover  0\n",
            "deliver  0 1\n",
            "deliver 0  1\n",
            "deliver 0   1\n",
        ],
    ),
    (
        "19 tab",
        &[
            "start\t\n",
            "\tstart\n",
            "timeout\t0\n",
            "timeout 0\t\n",
            "deliver\t0 1\n",
            "deliver 0\t1\n",
        ],
    ),
    (
        "19 leading nought",
        &[
            "timeout 00\n",
            "timeout 01\n",
            "crash 007\n",
            "recover 0255\n",
            "recover 0000000001\n",
            "deliver 00 1\n",
            "deliver 01 1\n",
            "deliver 065535 1\n",
            "deliver 0 00\n",
            "deliver 0 01\n",
        ],
    ),
    (
        "19 site past 255",
        &[
            "timeout 256\n",
            "timeout 257\n",
            "timeout 999\n",
            "timeout 1000\n",
            "crash 256\n",
            "crash 300\n",
            "recover 256\n",
            "recover 65536\n",
            "deliver 0 256\n",
            "deliver 0 65535\n",
        ],
    ),
    (
        "19 row past 65,535",
        &[
            "deliver 65536 0\n",
            "deliver 65537 0\n",
            "deliver 70000 0\n",
            "deliver 99999 0\n",
            "deliver 100000 0\n",
            "deliver 131072 0\n",
        ],
    ),
    (
        "19 long number",
        &[
            "timeout 4294967296\n",
            "crash 4294967297\n",
            "recover 18446744073709551616\n",
            "deliver 4294967296 0\n",
            "deliver 18446744073709551617 0\n",
            "deliver 0 18446744073709551617\n",
            "deliver 0 340282366920938463463374607431768211456\n",
            "deliver 10000000000000000000000000000000000000000000000000000000000001 0\n",
        ],
    ),
    (
        "19 sign",
        &[
            "timeout +0\n",
            "timeout -0\n",
            "crash +1\n",
            "recover -1\n",
            "deliver +0 1\n",
            "deliver 0 -1\n",
        ],
    ),
    (
        "19 no number",
        &[
            "timeout x\n",
            "timeout one\n",
            "timeout 1.\n",
            "timeout 1.0\n",
            "crash 1e0\n",
            "crash 0x1\n",
            "recover 1_0\n",
            "recover 1,0\n",
            "deliver row 1\n",
            "deliver 0,1\n",
            "deliver 0 1;\n",
            "deliver 0 :\n",
            "deliver / 0\n",
        ],
    ),
    (
        "19 upper case",
        &[
            "Start\n",
            "START\n",
            "starT\n",
            "Timeout 0\n",
            "Crash 0\n",
            "RECOVER 0\n",
            "deliveR 0 1\n",
        ],
    ),
    (
        "19 unknown word",
        &[
            "star\n",
            "starts\n",
            "stert\n",
            "stop\n",
            "timeou 0\n",
            "timeouts 0\n",
            "crush 0\n",
            "recovers 0\n",
            "delivers 0 1\n",
            "deliver0 1\n",
            "timeout0\n",
            "0\n",
            "1 0\n",
            "# a day\n",
        ],
    ),
    (
        "19 word missing",
        &[
            "timeout\n",
            "timeout \n",
            "crash\n",
            "recover\n",
            "deliver\n",
            "deliver 0\n",
            "deliver 0 \n",
            " \n",
            "sites\n",
            "sites 3\n",
        ],
    ),
    (
        "19 word too many",
        &[
            "start 0\n",
            "start start\n",
            "timeout 0 0\n",
            "crash 0 1\n",
            "recover 0 recover\n",
            "deliver 0 1 2\n",
            "deliver 0 site 1\n",
        ],
    ),
    (
        "19 odd byte",
        &[
            "\0\n",
            "start\0\n",
            "\0start\n",
            "timeout 0\0\n",
            "timeout\x000\n",
            "timeout\u{a0}0\n",
            "timeout \u{661}\n",
            "deliver 0 \u{ff11}\n",
            "deliver 0 1\u{b}\n",
            "deliver 0 1\u{7f}\n",
            "\u{feff}start\n",
        ],
    ),
];

/// First lines that are bad.
pub const BAD_FIRST: &[Sort] = &[
    ("19 empty line", &["\n"]),
    (
        "19 command first",
        &[
            "start\n",
            "deliver 0 1\n",
            "timeout 0\n",
            "crash 0\n",
            "recover 0\n",
        ],
    ),
    (
        "19 carriage return",
        &["\r\n", "sites 3 commit 2 abort 2 willing 7\r\n"],
    ),
    (
        "19 leading blank",
        &[" sites 3 commit 2 abort 2 willing 7\n"],
    ),
    (
        "19 trailing blank",
        &["sites 3 commit 2 abort 2 willing 7 \n"],
    ),
    (
        "19 two blanks",
        &[
            "sites  3 commit 2 abort 2 willing 7\n",
            "sites 3  commit 2 abort 2 willing 7\n",
            "sites 3 commit  2 abort 2 willing 7\n",
            "sites 3 commit 2  abort 2 willing 7\n",
            "sites 3 commit 2 abort  2 willing 7\n",
            "sites 3 commit 2 abort 2  willing 7\n",
            "sites 3 commit 2 abort 2 willing  7\n",
        ],
    ),
    (
        "19 tab",
        &[
            "sites\t3 commit 2 abort 2 willing 7\n",
            "sites 3 commit 2 abort 2 willing 7\t\n",
        ],
    ),
    (
        "19 leading nought",
        &[
            "sites 03 commit 2 abort 2 willing 7\n",
            "sites 3 commit 02 abort 2 willing 7\n",
            "sites 3 commit 2 abort 02 willing 7\n",
            "sites 3 commit 2 abort 2 willing 07\n",
            "sites 3 commit 2 abort 2 willing 00\n",
        ],
    ),
    (
        "19 size past 255",
        &[
            "sites 256 commit 2 abort 2 willing 7\n",
            "sites 259 commit 2 abort 2 willing 7\n",
            "sites 3 commit 256 abort 2 willing 7\n",
            "sites 3 commit 258 abort 2 willing 7\n",
            "sites 3 commit 2 abort 256 willing 7\n",
            "sites 3 commit 2 abort 258 willing 7\n",
            "sites 65535 commit 2 abort 2 willing 7\n",
        ],
    ),
    (
        "19 willing past 65,535",
        &[
            "sites 3 commit 2 abort 2 willing 65536\n",
            "sites 3 commit 2 abort 2 willing 65543\n",
            "sites 3 commit 2 abort 2 willing 100000\n",
        ],
    ),
    (
        "19 long number",
        &[
            "sites 4294967299 commit 2 abort 2 willing 7\n",
            "sites 3 commit 18446744073709551618 abort 2 willing 7\n",
            "sites 3 commit 2 abort 2 willing 4294967303\n",
            "sites 3 commit 2 abort 2 willing 18446744073709551623\n",
        ],
    ),
    (
        "19 sign",
        &[
            "sites +3 commit 2 abort 2 willing 7\n",
            "sites 3 commit 2 abort 2 willing -1\n",
        ],
    ),
    (
        "19 no number",
        &[
            "sites n commit 2 abort 2 willing 7\n",
            "sites 3, commit 2, abort 2, willing 7\n",
            "sites 3 commit 2 abort 2 willing 0x7\n",
            "sites 3 commit 2 abort 2 willing all\n",
        ],
    ),
    (
        "19 upper case",
        &[
            "Sites 3 commit 2 abort 2 willing 7\n",
            "sites 3 Commit 2 abort 2 willing 7\n",
            "sites 3 commit 2 ABORT 2 willing 7\n",
            "sites 3 commit 2 abort 2 willinG 7\n",
        ],
    ),
    (
        "19 unknown word",
        &[
            "site 3 commit 2 abort 2 willing 7\n",
            "sites 3 commits 2 abort 2 willing 7\n",
            "sites 3 commit 2 abort 2 willin 7\n",
            "sites 3 abort 2 commit 2 willing 7\n",
            "willing 7 sites 3 commit 2 abort 2\n",
            "3 2 2 7\n",
        ],
    ),
    (
        "19 word missing",
        &[
            " \n",
            "sites\n",
            "sites 3\n",
            "sites 3 commit 2\n",
            "sites 3 commit 2 abort 2\n",
            "sites 3 commit 2 abort 2 willing\n",
            "sites 3 commit 2 abort 2 willing \n",
            "sites 3\ncommit 2\nabort 2\nwilling 7\n",
        ],
    ),
    (
        "19 word too many",
        &[
            "sites 3 commit 2 abort 2 willing 7 7\n",
            "sites 3 commit 2 abort 2 willing 7 news 0\n",
            "sites 3 commit 2 abort 2 willing 7 start\n",
        ],
    ),
    (
        "19 odd byte",
        &[
            "\0\n",
            "sites 3 commit 2 abort 2 willing 7\0\n",
            "sites 3 commit 2 abort 2 willing \u{667}\n",
            "\u{feff}sites 3 commit 2 abort 2 willing 7\n",
        ],
    ),
];
