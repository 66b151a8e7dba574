//! The whole suite over the plain implementation: what ours is measured against
//! gives the same answers, and the tests can pass.

use suite::{Ask, Asks, Builds, Checks, Numbers, Program, Reads, Rides};

struct Plain;

impl Reads for Plain {
    fn read(text: &[u8], runs: &mut [u32], codes: &mut [u32], answer: &mut [u32; 4]) {
        plain::read(text, runs, codes, answer);
        // Both ways to find a code must agree.
        let (mut again_runs, mut again_codes) = (vec![1; runs.len()], vec![1; codes.len()]);
        let mut again = [1; 4];
        plain::read_by_scan(text, &mut again_runs, &mut again_codes, &mut again);
        assert!(again == *answer && again_runs == runs && again_codes == codes);
    }
}

impl Builds for Plain {
    fn build_room() -> usize {
        plain::BUILD_ROOM
    }
    fn build(given: Numbers, tables: &mut [u8], work: &mut [u16], answer: &mut [u32; 4]) {
        plain::build(given.stops, given.run_count, given.runs, tables, work, answer);
    }
}

impl Checks for Plain {
    fn check_room() -> usize {
        plain::CHECK_ROOM
    }
    fn check(tables: &[u8], given: Numbers, work: &mut [u16], answer: &mut [u32; 4]) {
        plain::check(tables, given.stops, given.run_count, given.runs, work, answer);
    }
}

fn asked(ask: Ask) -> plain::Ask {
    ask.said(plain::Ask::Early, plain::Ask::Late, plain::Ask::Short)
}

impl Asks for Plain {
    fn ask(tables: &[u8], ask: Ask, answer: &mut [u32; 4]) {
        plain::ask(tables, ask.from, ask.to, asked(ask), answer);
    }
}

impl Rides for Plain {
    fn rides_room() -> usize {
        plain::RIDES_ROOM
    }
    fn ask_rides(
        tables: &[u8],
        given: Numbers,
        ask: Ask,
        list: &mut [u32],
        work: &mut [u16],
        answer: &mut [u32; 4],
    ) {
        let Numbers { stops, run_count, runs } = given;
        let Ask { from, to, .. } = ask;
        plain::ask_rides(tables, stops, run_count, runs, from, to, asked(ask), list, work, answer);
    }
}

impl Program for Plain {
    fn journey(input: &[u8]) -> Vec<u8> {
        plain::journey(input)
    }
}

suite::read_tests!(Plain);
suite::build_tests!(Plain);
suite::check_tests!(Plain);
suite::asks_tests!(Plain);
suite::rides_tests!(Plain);
suite::room_tests!(Plain);
suite::journey_tests!(Plain);
