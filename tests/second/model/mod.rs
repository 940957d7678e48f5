//! What a sheet is and what it means, from the documents alone: the independent
//! program that everything else here asks. It reads and judges words and bytes,
//! answers the ten questions, looks up, joins and takes out, removes an edge, tells
//! where a row stands or would stand, adds one, reads and writes listings, and answers a
//! trace of the duty desk, by its whole history and by a lent table. Nothing of it knows
//! the trial program, or chance.

pub mod addition;
pub mod answer;
pub mod bits;
pub mod closure;
pub mod contents;
pub mod counter;
pub mod join;
pub mod judge;
pub mod limits;
pub mod listing;
pub mod lookup;
pub mod marks;
pub mod office;
pub mod place;
pub mod position;
pub mod reach;
pub mod redundant;
pub mod removal;
pub mod sheet;
pub mod survey;
pub mod take_out;
pub mod trace;
pub mod watch;
