//! The library as seen from here: its calls, the arrays they are lent, the program that makes them,
//! and the session that holds each answer against the second solver's.

pub mod array;
pub mod call;
pub mod caller;
pub mod session;
