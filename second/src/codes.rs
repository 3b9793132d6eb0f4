//! The codes of every question, by name. 0 is answered, 1 to 12 are refusals, 32 and 33 are answers in the negative.
pub const ANSWERED: u32 = 0;
pub const CUT_SHORT: u32 = 1;
pub const RECORD_KIND: u32 = 2;
pub const RECORD_LENGTH: u32 = 3;
pub const OBJECT_AFTER_CONSTRAINT: u32 = 4;
pub const TOO_MANY: u32 = 5;
pub const NOT_IN_TABLE: u32 = 6;
pub const STATED_WEIGHT: u32 = 7;
pub const ENDS: u32 = 8;
pub const BYTES_AFTER_END: u32 = 9;
pub const K_RANGE: u32 = 10;
pub const NO_SUCH_CONSTRAINT: u32 = 11;
pub const TOO_SHORT: u32 = 12;
pub const NONE_DENSE: u32 = 32;
pub const NOT_SHOWN: u32 = 33;
