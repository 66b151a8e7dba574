//! The safe wrapper: what its enums hold for the example day.

#![allow(unused_imports, dead_code)]

use generate::example;
use kiosk::{Ask, Built, Journey, Numbers, Read, Refusal};

fn refused<T>(number: u32, place: u32, stop: u32) -> Result<T, Refusal> {
    Err(Refusal { number, place, stop })
}

#[test]
fn refusals_have_meanings() {
    let refusal = |number, place, stop| Refusal { number, place, stop };
    assert_eq!(refusal(20, 4, 2).to_string(), "refusal 20 at 4, stop 2: gap");
    assert_eq!(refusal(2, 7, 0).to_string(), "refusal 2 at 7: line shape");
    for number in 1..=22 {
        assert_ne!(refusal(number, 0, 0).meaning(), refusal(23, 0, 0).meaning());
    }
}

#[cfg(feature = "read")]
#[test]
fn read() {
    let mut runs = vec![7; kiosk::RUNS_ROOM];
    let mut codes = vec![7; kiosk::CODES_ROOM];
    let read = kiosk::read(example::T, &mut runs, &mut codes);
    assert_eq!(read, Ok(Read { stops: 4, runs: 6 }));
    assert_eq!(runs[..30], example::day().numbers());
    let cut = &example::T[..example::T.len() - 1];
    assert_eq!(kiosk::read(cut, &mut runs, &mut codes), refused(2, 12, 0));
    assert_eq!(kiosk::read(example::T, &mut runs[1..], &mut codes), refused(17, 0, 0));
}

#[cfg(feature = "build")]
#[test]
fn build() {
    let (runs, mut work) = (example::day().numbers(), vec![7; kiosk::build_room()]);
    let numbers = Numbers { stops: 4, run_count: 6, runs: &runs };
    let mut tables = vec![7; kiosk::TABLES_ROOM];
    let built = kiosk::build(numbers, &mut tables, &mut work);
    assert_eq!(built, Ok(Built { length: 54, labels: 6 }));
    assert_eq!(tables[..54], example::tables());
    assert_eq!(kiosk::build(numbers, &mut tables[..53], &mut work), refused(17, 0, 0));
}

#[cfg(feature = "check")]
#[test]
fn check() {
    let (runs, mut work) = (example::day().numbers(), vec![7; kiosk::check_room()]);
    let numbers = Numbers { stops: 4, run_count: 6, runs: &runs };
    assert_eq!(kiosk::check(&example::tables(), numbers, &mut work), Ok(()));
    let without = generate::tables::Sets::from_bytes(&example::tables()).without(3).bytes();
    assert_eq!(kiosk::check(&without, numbers, &mut work), refused(20, 4, 2));
}

#[cfg(feature = "asks")]
#[test]
fn ask() {
    let tables = example::tables();
    let ask = |ask| kiosk::ask(&tables, example::MOOR, example::QUAY_N, ask);
    let journey = |departure, arrival| Ok(Journey { departure, arrival, rides: 0 });
    assert_eq!(ask(Ask::Early { t: 480 }), journey(480, 525));
    assert_eq!(ask(Ask::Late { t: 540 }), journey(490, 540));
    assert_eq!(ask(Ask::Short { t: 480, t2: 540 }), journey(480, 525));
    assert_eq!(ask(Ask::Late { t: 524 }), refused(16, 0, 0));
}

#[cfg(feature = "rides")]
#[test]
fn ask_rides() {
    let (runs, mut work) = (example::day().numbers(), vec![7; kiosk::rides_room()]);
    let numbers = Numbers { stops: 4, run_count: 6, runs: &runs };
    let mut list = vec![7; kiosk::LIST_ROOM];
    let mut ask = |ask, list: &mut [u32]| {
        let tables = example::tables();
        kiosk::ask_rides(&tables, numbers, example::HUB, example::MOOR, ask, list, &mut work)
    };
    let journey = Ok(Journey { departure: 505, arrival: 560, rides: 2 });
    assert_eq!(ask(Ask::Early { t: 505 }, &mut list), journey);
    assert_eq!(list[..3], [5, 3, 0]);
    assert_eq!(ask(Ask::Late { t: 560 }, &mut list), journey);
    assert_eq!(ask(Ask::Short { t: 0, t2: 2_879 }, &mut list), journey);
    assert_eq!(ask(Ask::Early { t: 505 }, &mut list[..1]), refused(17, 0, 0));
    assert_eq!(ask(Ask::Early { t: 506 }, &mut list), refused(16, 0, 0));
}
