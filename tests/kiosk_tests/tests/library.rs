//! The suite over the static library, area by area as they land.

#[allow(unused_imports)]
use kiosk_tests::Library;

#[cfg(feature = "read")]
suite::read_tests!(Library);
#[cfg(feature = "build")]
suite::build_tests!(Library);
#[cfg(feature = "check")]
suite::check_tests!(Library);
#[cfg(feature = "asks")]
suite::asks_tests!(Library);
#[cfg(feature = "rides")]
suite::rides_tests!(Library);
#[cfg(all(feature = "build", feature = "check", feature = "rides"))]
suite::room_tests!(Library);
