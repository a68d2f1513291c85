//! The second solver: what the library ought to answer, worked out again from document 01 by other
//! means. It shares no code with the library, and knows nothing of how the library is called.

pub mod answer;
pub mod argument;
pub mod catalogue;
pub mod exercise;
pub mod expected;
pub mod game;
pub mod kinds;
pub mod listing;
pub mod mend;
pub mod number;
pub mod reason;
pub mod refusals;
pub mod register;
pub mod rounds;
pub mod sheet;
pub mod text;
pub mod verdict;
