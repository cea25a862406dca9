//! The numbers of document 01's refusal table that the block file, the service and the check
//! give themselves. The engine's (11 to 13, and its own 14) come from the engine.

/// A header or body cut short, or a length its tag doesn't have.
pub const CUT_SHORT: u32 = 1;
/// A tag that is not 1 to 5.
pub const UNKNOWN_TAG: u32 = 2;
/// A falling tag, a second cap, no word, no cap.
pub const OUT_OF_TURN: u32 = 3;
/// One field more than allowed.
pub const TOO_MANY: u32 = 4;
/// A number outside its range.
pub const OUT_OF_RANGE: u32 = 5;
/// Lower above upper.
pub const CROSSED: u32 = 6;
/// A list's count, order or word number.
pub const BAD_LIST: u32 = 7;
/// Answer slice too small.
pub const SHORT_SLICE: u32 = 8;
/// As many times or prices as the block hasn't.
pub const WRONG_SHAPE: u32 = 9;
/// The engine's NotConverged, and a plan that breaks a bound on a written plan.
pub const NOT_CONVERGED: u32 = 14;
/// Gap outside signed 64 bits.
pub const OVERRUN: u32 = 15;
