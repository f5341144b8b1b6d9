//! A second, independent statement of the port's rules: the grammar, the types
//! with their limits, the compiled nodes with their places, the members of a type
//! and the job format. Nothing here is taken from the crate.

pub mod job;
pub mod members;
pub mod nodes;
pub mod run;
pub mod text;
pub mod types;

/// Why a call is turned down, by number.
pub const NO_NODE: u8 = 2;
pub const NO_VALUE: u8 = 3;
pub const BAD_FORM: u8 = 4;
pub const TOO_DEEP: u8 = 7;
pub const TOO_WIDE: u8 = 8;
pub const TOO_HEAVY: u8 = 9;
pub const NO_ROOM: u8 = 10;
pub const BAD_TEXT: u8 = 11;
pub const BAD_JOB: u8 = 12;
