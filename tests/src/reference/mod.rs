//! Document 01, as requests 4, 6, 8 and 13 of document 02 change it, the list of request 5, the state numbers of request 11 and
//! the small gates of request 14, written a second time, to compare the compiled library and the programs with. It shares
//! nothing with them: own reading, own search, own check and lookup, own list, own state numbers, own small gates. Jobs are
//! counted from 0 here and from 1 in files, tables and answers.

pub mod boards;
pub mod entries;
pub mod implied;
pub mod lists;
pub mod needs;
pub mod reading;
pub mod search;
pub mod sets;
pub mod small;
pub mod states;
pub mod table;
pub mod text;
