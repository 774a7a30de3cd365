//! Tries the compiled library from outside: `reference` is a second implementation of document 01 and of the requests of
//! document 02, `generate` makes job files and tables, `stage` calls the library and compares each answer and each byte of
//! every buffer, `screen` reads state numbers back, `program` runs the programs.

pub mod cases;
pub mod generate;
pub mod lent;
pub mod paper;
pub mod program;
pub mod reference;
pub mod report;
pub mod screen;
pub mod stage;
pub mod tester;
