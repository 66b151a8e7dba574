//! The sizes of working room.

use crate::{Builds, Checks, Rides};

/// No call needs more than 65,536 bytes.
pub fn within_the_limit<S: Builds + Checks + Rides>() {
    for room in [S::build_room(), S::check_room(), S::rides_room()] {
        assert!(2 * room <= 65_536, "{room} numbers of two bytes");
    }
}
