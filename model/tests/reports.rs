//! The report call.

mod common;

use model::{number, report, Numbers, World};

use common::{three_sites, widest};

const fn numbers(events: usize, stop: u32, place: usize) -> Numbers {
    Numbers {
        events,
        stop,
        place,
    }
}

const BUFFER: [u8; 1100] = [b'#'; 1100];

#[test]
fn a_fresh_world_in_words() {
    let mut buffer = BUFFER;
    let world = World::fresh(three_sites(7));
    let size = report(&world, numbers(0, 0, 5), &mut buffer).unwrap();
    let text = "sites 3 commit 2 abort 2 events 0 rows 0 news 0\n\
                0 up subordinate active --- 000\n\
                1 up subordinate active --- 000\n\
                2 up subordinate active --- 000\n\
                end 5\n";
    assert_eq!(&buffer[..size], text.as_bytes());
    assert!(buffer[size..].iter().all(|&byte| byte == b'#'));
}

#[test]
fn every_stop_number_gets_all_lines() {
    let world = World::fresh(three_sites(0));
    for number in 1..=22 {
        let mut buffer = BUFFER;
        let size = report(&world, numbers(3, number, 12), &mut buffer).unwrap();
        let text = std::str::from_utf8(&buffer[..size]).unwrap();
        assert_eq!(text.lines().count(), 5);
        assert!(text.ends_with(&format!("\nrefused {number} at 12\n")));
    }
}

#[test]
fn numbers_out_of_range() {
    let world = World::fresh(three_sites(0));
    for numbers in [
        numbers(32_769, 0, 5),
        numbers(usize::MAX, 0, 5),
        numbers(0, 23, 5),
        numbers(0, 256, 5),
        numbers(0, u32::MAX, 5),
        numbers(0, 0, 32_769),
        numbers(0, 0, usize::MAX),
    ] {
        let mut buffer = BUFFER;
        let answer = report(&world, numbers, &mut buffer);
        assert_eq!(answer, Err(number::WORLD));
        assert_eq!(buffer, BUFFER);
        let answer = report(&world, numbers, &mut []);
        assert_eq!(answer, Err(number::WORLD));
    }
}

#[test]
fn news_up_to_the_limit_are_reported() {
    for (news, wanted) in [
        (0, Ok("sites 3 commit 2 abort 2 events 9 rows 0 news 0")),
        (
            491_519,
            Ok("sites 3 commit 2 abort 2 events 9 rows 0 news 491519"),
        ),
        (
            491_520,
            Ok("sites 3 commit 2 abort 2 events 9 rows 0 news 491520"),
        ),
        (491_521, Err(number::WORLD)),
        (usize::MAX, Err(number::WORLD)),
    ] {
        let fresh = World::fresh(three_sites(7));
        let world = World { news, ..fresh };
        let mut buffer = BUFFER;
        let first = report(&world, numbers(9, 0, 5), &mut buffer).map(|size| {
            let text = std::str::from_utf8(&buffer[..size]).unwrap();
            text.lines().next().unwrap()
        });
        assert_eq!(first, wanted);
        assert_eq!(buffer == BUFFER, wanted.is_err());
    }
}

#[test]
fn a_bad_world_comes_before_a_short_buffer() {
    let mut short = [b'#'; 1023];
    let answer = report(&World::ZEROS, numbers(0, 0, 0), &mut short);
    assert_eq!(answer, Err(number::WORLD));
    let world = World::fresh(three_sites(0));
    let answer = report(&world, numbers(0, 0, 0), &mut short);
    assert_eq!(answer, Err(number::BUFFER));
    let news = 491_521;
    let over = World { news, ..world };
    let answer = report(&over, numbers(0, 0, 0), &mut short);
    assert_eq!(answer, Err(number::WORLD));
    assert_eq!(short, [b'#'; 1023]);
}

#[test]
fn the_longest_report_fits() {
    let mut buffer = [b'#'; 1024];
    let size = report(&widest(), numbers(32_768, 22, 32_768), &mut buffer).unwrap();
    assert_eq!(size, 941);
    assert!(buffer[..size].ends_with(b"\nrefused 22 at 32768\n"));
    let text = std::str::from_utf8(&buffer[..size]).unwrap();
    let first = "sites 16 commit 3825 abort 3825 events 32768 rows 1024 news 491520";
    assert_eq!(text.lines().next(), Some(first));
    let last = "15 down coordinator commit-group PC- 0000000000000002";
    assert_eq!(text.lines().nth(16), Some(last));
}
