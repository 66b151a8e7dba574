//! Tests of the program "journey".

use crate::calls::{journey, journey_expecting};
use crate::Program;
use generate::{days, each_seed, example, long, programs, texts, vectors};

pub fn vectors<S: Program>() {
    for program in vectors::programs() {
        journey_expecting::<S>(&program.input, &program.output);
    }
}

/// The cases stored in `tests/vectors`.
pub fn stored<S: Program>() {
    for (_, program) in vectors::stored_programs() {
        journey_expecting::<S>(&program.input, &program.output);
    }
}

pub fn random_inputs<S: Program>() {
    each_seed("journey::random_inputs", 600, |rng| {
        let day = days::small(rng);
        let count = rng.between(0, 40);
        journey::<S>(&programs::input(rng, &day, count));
    });
}

pub fn damaged_timetables<S: Program>() {
    each_seed("journey::damaged_timetables", 300, |rng| {
        let day = days::tiny(rng);
        let mut input = texts::damaged(rng, &day);
        if rng.one_in(2) {
            input.extend(b"early S0 S1 0\nend\nlate S1 S0 2879\n");
        }
        journey::<S>(&input);
    });
}

/// The example's input cut after every byte.
pub fn cut_inputs<S: Program>() {
    for input in texts::prefixes(&example::program_input()) {
        journey::<S>(input);
    }
}

pub fn input_at_the_limit<S: Program>() {
    let mut input = example::program_input();
    let ask = b"early MOOR QUAY-N 480\n";
    while input.len() + ask.len() < 65_536 {
        input.extend(ask);
    }
    for len in [65_535, 65_536, 65_537, 65_538, 131_072, 131_073] {
        let mut whole = input.clone();
        whole.resize(len, b'\n');
        journey::<S>(&whole);
        // The same, its last line unfinished.
        *whole.last_mut().unwrap() = b'x';
        journey::<S>(&whole);
    }
}

pub fn too_many_labels<S: Program>() {
    let codes: Vec<Vec<u8>> = (0..12).map(|i| vec![b'a' + i]).collect();
    for (labels, printed) in [(8_193, &b"no 22 0\n"[..]), (8_192, b"")] {
        let mut text = texts::text(&days::with_labels(labels), &codes);
        journey_expecting::<S>(&text, printed);
        text.extend(b"early b a 0\n");
        let asked: &[u8] = if printed.is_empty() { b"at 8 9 1\nride b a 8 9 1\n" } else { printed };
        journey_expecting::<S>(&text, asked);
    }
}

/// Much more output than input; in the long run as much as there can be.
pub fn much_output<S: Program>() {
    let (rides, asks) = if long() > 1 { (1_600, usize::MAX) } else { (1_000, 150) };
    journey::<S>(&programs::much_output(rides, asks));
}
