//! What is handed to the library: small registers in full, random ones of many shapes, the examples
//! of document 01 and of the folder examples, and some with year numbers, as lists and as texts;
//! catalogues; damaged texts; what fuzzing has kept; registers that are edited, and sheets to be
//! updated; texts to be mended; and rooms of many lengths.

pub mod catalogues;
pub mod corpus;
pub mod crafted;
pub mod damage;
pub mod draft;
pub mod edits;
pub mod examples;
pub mod few_lines;
pub mod files;
pub mod handed;
pub mod lists;
pub mod mends;
pub mod numbers;
pub mod page;
pub mod reasons;
pub mod rooms;
pub mod shapes;
pub mod sheet;
pub mod sheets;
pub mod sized;
pub mod small;
pub mod spoiled;
pub mod text;
pub mod worn;
pub mod written;
pub mod years;
