//! The rules of document 01, written out as directly as they can be.
//!
//! Nothing here is fast and nothing is clever: the worth of this crate is that
//! each function can be held beside the sentence it renders. It shares no code
//! and no idea with the kiosk software: journeys are enumerated or relaxed to a
//! fixpoint, sketches are all tried, rides are opened by recursion.
//!
//! * [`text`]: the timetable text;
//! * [`kinds`]: runs, days and refusals; given numbers judged;
//! * [`journeys`]: journeys by enumeration, by boarding, by relaxation; the asks;
//! * [`rule`]: the label rule, twice, and the tables file made from it;
//! * [`tables`]: tables judged, sketches, asks over tables;
//! * [`rides`]: labels opened into runs;
//! * [`verdict`]: the check;
//! * [`calls`]: what each call over the C boundary leaves in the answer and in
//!   every lent buffer;
//! * [`journey`]: the program, input bytes to output bytes;
//! * [`people`]: the programs for people, what they say of their files.

pub mod calls;
pub mod journey;
pub mod journeys;
pub mod kinds;
pub mod people;
pub mod rides;
pub mod rule;
pub mod tables;
pub mod text;
pub mod verdict;
