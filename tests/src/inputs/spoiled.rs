//! Lines that are spoiled, and fields that are no number, each in one way only.

/// Spoiled lines. None would be at fault for anything else where 1 and 2 are issued and 9 is not.
pub const SPOILED_LINES: [&[&str]; 5] = [
    EMPTY_FIELDS,
    WRONG_TABS,
    STRAY_BYTES,
    WRONG_WORDS,
    OTHER_FIELDS,
];

/// Fields that are missing or empty.
const EMPTY_FIELDS: &[&str] = &[
    "", "S", "S\t9", "S\t9\t", "S\t\tR", "S\t\t", "S\tR", "\t9\tR", "9\tR", "O", "O\t1", "O\t1\t",
    "O\t\t1", "O\t\t", "\t1\t2", "1\t2", "\t", "\t\t",
];

/// Tabs that are missing, doubled, in front or behind.
const WRONG_TABS: &[&str] = &[
    "S9R",
    "S9\tR",
    "S\t9R",
    "S\t\t9\tR",
    "S\t9\t\tR",
    "\tS\t9\tR",
    "S\t9\tR\t",
    "O12",
    "O1\t2",
    "O\t12",
    "O\t\t1\t2",
    "O\t1\t\t2",
    "\tO\t1\t2",
    "O\t1\t2\t",
];

/// Other bytes between the fields or around them.
const STRAY_BYTES: &[&str] = &[
    "S 9 R",
    "S\t9 R",
    "S 9\tR",
    "S,9,R",
    "S\x0b9\x0bR",
    " S\t9\tR",
    "S \t9\tR",
    "S\t9\tR ",
    "S\t9\tR\r",
    "O 1 2",
    "O\t1 2",
    "O\t1\t2\r",
    "O\t1\t2 ",
    "\r",
    " ",
    "\u{feff}S\t9\tR",
];

/// First fields and marks that are none.
const WRONG_WORDS: &[&str] = &[
    "s\t9\tR", "o\t1\t2", "SS\t9\tR", "OO\t1\t2", "SO\t1\t2", "R\t9\tS", "X\t9\tR", "0\t1\t2",
    "S\t9\tr", "S\t9\tu", "S\t9\tRR", "S\t9\tRU", "S\t9\tX", "S\t9\t0", "S\t9\t1",
];

/// Fields of the other kind of line, fields in the wrong order, and one too many.
const OTHER_FIELDS: &[&str] = &[
    "S\tR\t9",
    "S\t9\tR\tR",
    "S\t9\tR\t9",
    "S\t9\t1\tR",
    "S\t9\tR\t# read",
    "O\t1\tR",
    "O\tU\t2",
    "O\t1\t2\t3",
    "O\t1\t2\tR",
];

/// Lines of a catalogue that are spoiled, most of them in their objectors. None would be at fault for
/// anything else where 1 and 2 are issued and 9 is not.
pub const SPOILED_CARDS: &[&str] = &[
    "S\t9\tR\t",
    "S\t9\tR\t\t",
    "S\t9\tR\t1\t",
    "S\t9\tR\t\t1",
    "S\t9\tR\t1\t\t2",
    "S\t9\tR\t1\t2\t",
    "S\t9\t\tR\t1",
    "S\t\t9\tR\t1",
    "\tS\t9\tR\t1",
    "S\t9\tR1",
    "S\t9\tR\t1 2",
    "S\t9\tR 1",
    "S\t9\tR,1",
    "S\t9\tR\t1,2",
    "S\t9\tR\t1;2",
    "S\t9\tR\t 1",
    "S\t9\tR\t1 ",
    "S\t9\tR\t1\r",
    "S\t9\tR\t1\t2\r",
    "S\t9\tR\t1\x0b2",
    "S\t9\tR\t1\0",
    "S\t9\tR\tR",
    "S\t9\tR\t1\tR",
    "S\t9\tR\tS",
    "S\t9\tR\tO\t1",
    "S\t9\tR\t-",
    "S\t9\tR\t-1",
    "S\t9\tR\t+1",
    "S\t9\tR\t0",
    "S\t9\tR\t1\t0",
    "S\t9\tR\t0\t1",
    "S\t9\tR\t01",
    "S\t9\tR\t1\t02",
    "S\t9\tR\t100000001",
    "S\t9\tR\t1.",
    "S\t9\tR\t.1",
    "S\t9\tR\t1..2",
    "S\t9\t1",
    "S\t9\t1\t2",
    "S\t9\t1\tR\t2",
    "S\tR\t9\t1",
    "S\t9\tX\t1",
    "S\t9\tr\t1",
    "S\t9\tRU\t1",
    "S\t0\tR\t1",
    "s\t9\tR\t1",
    "O\t9\tR\t1",
    "O\t1\t2\t1",
    "9\tR\t1",
    "S\tS\t9\tR\t1",
];

/// Fields that are no number. Some would be 1 or 1987.14, which are issued, if they were cut to fewer
/// bits, or read without their zeros, or up to the first byte that is no digit.
pub const NO_NUMBERS: [&[&str]; 6] = [
    EMPTY_OR_ZERO,
    TOO_LONG,
    OTHER_BYTES,
    WRONG_YEARS,
    WRONG_SERIALS,
    WRONG_POINTS,
];

/// Empty, zero, or beginning with one.
const EMPTY_OR_ZERO: &[&str] = &[
    "",
    "0",
    "00",
    "01",
    "07",
    "007",
    "00000001",
    "00000000",
    "000000001",
    "000000000",
];

/// Nine digits or more, the codes of year numbers among them.
const TOO_LONG: &[&str] = &[
    "100000000",
    "119870014",
    "123456789",
    "999999999",
    "4294967295",
    "4294967297",
    "18446744073709551617",
    "340282366920938463463374607431768211457",
];

/// Bytes that are no digits, also those beside the digits, and digits of other scripts.
const OTHER_BYTES: &[&str] = &[
    "-1", "+1", "1-", "1.", "1.0", "1,0", "0x1", "1e3", "1_0", "1 ", " 1", "1\0", "\x001", "1a",
    "a1", "A", "/1", "1/", "1:", ":1", "\u{ff11}", "\u{661}", "\u{b9}",
];

/// Years of fewer digits than four or of more, before 1000 or after 2099, or none at all.
const WRONG_YEARS: &[&str] = &[
    ".14",
    "1.1",
    "99.1",
    "999.1",
    "0999.1",
    "0000.1",
    "0001.1",
    "0198.14",
    "2100.1",
    "2101.1",
    "2199.9999",
    "2987.14",
    "3000.1",
    "9999.1",
    "9999.9999",
    "10000.1",
    "19870.1",
    "19870.14",
    "01987.14",
    "11987.14",
    "00001987.14",
    "4294969283.14",
    "87.14",
    "'87.14",
];

/// Serials that begin with 0, have more digits than four, or are none at all.
const WRONG_SERIALS: &[&str] = &[
    "1987.",
    "1987.0",
    "1987.00",
    "1987.0000",
    "1987.01",
    "1987.014",
    "1987.0014",
    "1987.00014",
    "1987.10000",
    "1987.12345",
    "1987.99999",
    "1987.65550",
    "1987.4294967310",
    "2099.10000",
    "1000.0",
    "1987.a",
    "1987.1x",
    "1987.1e1",
    "1987.14 ",
    "1987.14\0",
    "1987.14\r",
    "1987.14a",
    "1987.14-",
];

/// Other bytes in the place of the point or beside it, several points, and points in other places.
const WRONG_POINTS: &[&str] = &[
    ".",
    "..",
    "1987,14",
    "1987-14",
    "1987/14",
    "1987:14",
    "1987 14",
    "1987_14",
    "1987x14",
    "1987\x0014",
    "1987\u{b7}14",
    "1987\u{ff0e}14",
    "1987\u{2024}14",
    "1987..1",
    "1987..14",
    "1987.14.2",
    "1987.14.",
    "1987.1.4",
    ".1987.14",
    "1987 .1",
    "1987. 1",
    " 1987.14",
    "x1987.1",
    "-1987.1",
    "+1987.14",
    "1987.-1",
    "1987.+1",
    "1987.,1",
    "1.98714",
    "19.8714",
    "198.714",
    "19871.4",
    "198714.",
    "1987.14/1987.14",
];
