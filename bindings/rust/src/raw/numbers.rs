//! The numbers of the header that the functions take and answer.

/// Answers and refusals.
pub mod number {
    pub const DONE: u8 = 0;
    pub const NOK: u8 = 1;
    pub const TOO_LONG: u8 = 2;
    pub const BAD_START: u8 = 3;
    pub const BAD_TEXT: u8 = 4;
    pub const NOT_ASCII: u8 = 5;
    pub const EOF: u8 = 6;
    pub const UNEXPECTED: u8 = 7;
    pub const VERDICT_ERROR: u8 = 8;
    pub const VERDICT_EOF: u8 = 9;
    pub const FULL: u8 = 10;
    pub const NO_PLACE: u8 = 11;
    pub const BAD_CALL: u8 = 12;
    pub const ASKING: u8 = 31;
    pub const PAUSED: u8 = 32;
    pub const KEPT: u8 = 33;
    pub const STARTED: u8 = 34;
    pub const PLACED: u8 = 35;
    pub const SERVED: u8 = 36;
    pub const IDLE: u8 = 37;
    pub const IN_PAGE: u8 = 38;
    pub const IN_SCRATCH: u8 = 39;
    pub const WORDS: u8 = 40;
}

/// Flags of a scan, summed.
pub mod flag {
    pub const ASKS: u8 = 1;
    pub const INTERRUPT: u8 = 2;
}

/// Verdicts on a body.
pub mod verdict {
    pub const OK: u8 = 0;
    pub const UNFINISHED: u8 = 1;
    pub const ERROR: u8 = 2;
}
