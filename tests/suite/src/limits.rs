//! Days at the limits with the tables the oracle gives them, worked out once for
//! all tests of a run: on such days the oracle takes its time.

use generate::days::{self, Day};
use generate::tables::Sets;
use generate::Rng;
use oracle::kinds::judge_numbers;
use oracle::rule;
use std::sync::OnceLock;

/// A day and the rule's tables of it, none where they would pass 8,192 labels.
pub struct Known {
    pub day: Day,
    pub sets: Option<Sets>,
}

/// The rule's tables of a day, if they keep within 8,192 labels.
pub fn own(day: &Day) -> Option<Sets> {
    let day = judge_numbers(day.stops, day.run_count(), &day.numbers(), true).unwrap();
    rule::tables(&day).ok().map(|tables| Sets::from_bytes(&tables.bytes()))
}

macro_rules! known {
    ($($(#[$doc:meta])* $name:ident = $day:expr;)*) => {
        $(
            $(#[$doc])*
            pub fn $name() -> &'static Known {
                static KNOWN: OnceLock<Known> = OnceLock::new();
                KNOWN.get_or_init(|| {
                    let day = $day;
                    let sets = own(&day);
                    Known { day, sets }
                })
            }
        )*
    };
}

known! {
    city = days::city(&mut Rng::new(5));
    sprawl = days::sprawl(&mut Rng::new(6));
    one_pair = days::one_pair(&mut Rng::new(7));
    many_ties = days::many_ties(&mut Rng::new(8));
    chain = days::chain();
    fullest = days::fullest();
    /// Exactly as many labels as there may be, and one more.
    full = days::with_labels(8_192);
    over_full = days::with_labels(8_193);
}

/// All of them.
pub fn all() -> [&'static Known; 8] {
    [city(), sprawl(), one_pair(), many_ties(), chain(), fullest(), full(), over_full()]
}

/// Those that have tables.
pub fn with_tables() -> impl Iterator<Item = (&'static Day, &'static Sets)> {
    all().into_iter().filter_map(|known| Some((&known.day, known.sets.as_ref()?)))
}
