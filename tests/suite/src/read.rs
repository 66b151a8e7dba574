//! Tests of `kiosk_read`.

use crate::calls::read;
use crate::Reads;
use generate::example::T;
use generate::{days, each_seed, texts, vectors, Rng};

const RUNS: usize = 20_480;
const CODES: usize = 510;

pub fn example<S: Reads>() {
    assert_eq!(read::<S>(T, RUNS, CODES), [0, 4, 6, 0]);
}

pub fn vectors<S: Reads>() {
    for vector in vectors::texts() {
        assert_eq!(read::<S>(&vector.text, RUNS, CODES), vector.answer);
    }
}

/// Less room than the reader needs is 17 whatever the text holds; more is fine.
pub fn room<S: Reads>() {
    let long = vec![b'x'; 1_048_577];
    for text in [T, b"", b"timetable 1\nstop A\n", &long] {
        for runs in [0, 1, 30, RUNS - 1, RUNS, RUNS + 1, RUNS + 777] {
            for codes in [0, 1, 8, CODES - 1, CODES, CODES + 1, CODES + 99] {
                read::<S>(text, runs, codes);
            }
        }
    }
}

pub fn prefixes_of_t<S: Reads>() {
    for text in texts::prefixes(T) {
        assert_ne!(read::<S>(text, RUNS, CODES)[0], 0);
    }
}

pub fn bytes_of_t_changed<S: Reads>() {
    texts::byte_changes(T, |text| {
        read::<S>(text, RUNS, CODES);
    });
}

pub fn bytes_of_t_moved<S: Reads>() {
    texts::byte_moves(T, |text| {
        read::<S>(text, RUNS, CODES);
    });
}

pub fn lines_of_t_moved<S: Reads>() {
    texts::line_moves(T, |text| {
        read::<S>(text, RUNS, CODES);
    });
}

pub fn good_texts<S: Reads>() {
    each_seed("read::good_texts", 2_000, |rng| {
        let day = days::small(rng);
        let text = texts::text_of(rng, &day);
        assert_eq!(read::<S>(&text, RUNS, CODES), [0, day.stops, day.run_count(), 0]);
    });
}

pub fn damaged_texts<S: Reads>() {
    each_seed("read::damaged_texts", 20_000, |rng| {
        let day = match rng.below(3) {
            0 => days::tiny(rng),
            1 => {
                let day = days::ties(rng);
                days::damaged(rng, &day)
            }
            _ => days::small(rng),
        };
        let mut day = day;
        day.stops = day.stops.min(300);
        let text = texts::damaged(rng, &day);
        read::<S>(&text, RUNS, CODES);
    });
}

pub fn texts_at_the_limit<S: Reads>() {
    let mut rng = Rng::new(7);
    let greatest = texts::greatest_good(&mut rng);
    assert_eq!(read::<S>(&greatest, RUNS, CODES), [0, 255, 4_096, 0]);
    for len in [1_048_575, 1_048_576, 1_048_577, 1_048_578, 2_000_000] {
        let text = texts::filled_to(&mut rng, len);
        let number = if len <= 1_048_576 { 2 } else { 8 };
        assert_eq!(read::<S>(&text, RUNS, CODES)[0], number);
        // One line after another to the end.
        let mut lines = b"timetable 1\n".to_vec();
        lines.resize(len, b'\n');
        read::<S>(&lines, RUNS, CODES);
    }
    let crowd = days::Day { stops: 255, runs: days::sprawl(&mut rng).runs };
    for _ in 0..4 {
        let text = texts::text_of(&mut rng, &crowd);
        assert_eq!(read::<S>(&text, RUNS, CODES), [0, 255, 4_096, 0]);
    }
}
