//! The layout of pool records: width, most records, and the first byte of each field.

/// "Records grow to 12 bytes."
pub const RECORD: usize = 12;
/// "There are n of them, at most 14, and none is allowed."
pub const MOST_PLACES: usize = 14;

/// Byte 0: "kind: 72 house, 77 member".
pub const KIND: usize = 0;
pub const HOUSE: u8 = 72;
pub const MEMBER: u8 = 77;
/// Byte 1: "class of the machine given, 0 to 31".
pub const CLASS: usize = 1;
/// Byte 2: "its bench grade, 0 to 100".
pub const GRADE: usize = 2;
/// Byte 3: "least grade taken, 0 to 100; 0 for a house".
pub const LEAST_GRADE: usize = 3;
/// Bytes 4 to 7: "classes taken, bit c (worth 2 to the power c) set where class c is
/// taken; 0 for a house".
pub const CLASSES_TAKEN: usize = 4;
/// "Bytes 8 and 9 are weeks waited, 0 to 999."
pub const WEEKS: usize = 8;
pub const GREATEST_WEEKS: u16 = 999;
/// "Bytes 10 and 11 the machine's number, 1 to 65,535."
pub const MACHINE_NUMBER: usize = 10;
