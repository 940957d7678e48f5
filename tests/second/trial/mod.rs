//! The trial program from outside: its operations and their numbers, how a request
//! is written and a reply read, what has to come back, and two kinds of
//! conversation with it, one that runs ahead and one that waits for each reply. And the
//! driver that puts one row to a lent table.

pub mod conversation;
pub mod expect;
pub mod lending;
pub mod operation;
pub mod request;
pub mod scope;
pub mod talk;
