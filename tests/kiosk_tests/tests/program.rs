//! The suite over the program "journey".

#[cfg(feature = "journey")]
suite::journey_tests!(kiosk_tests::program::Program);
