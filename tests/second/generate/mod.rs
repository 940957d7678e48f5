//! Sheets and what is asked of them, drawn by chance: valid sheets of many shapes,
//! full ones, pairs that have something in common, sheets damaged on purpose or
//! spoiled without aim, rows to be added, lists that are paths or nearly, texts that are
//! listings or nearly, traces and tables of the duty desk. What each of them is worth is
//! for the model to say.

pub mod additions;
pub mod cast;
pub mod damage;
pub mod desk;
pub mod draft;
pub mod dress;
pub mod duty;
pub mod full;
pub mod inquiry;
pub mod lists;
pub mod longest;
pub mod make;
pub mod marks;
pub mod memberships;
pub mod outline;
pub mod pairs;
pub mod random;
pub mod scene;
pub mod scramble;
pub mod slips;
pub mod texts;
pub mod throng;
pub mod traces;
pub mod typing;
pub mod unions;
pub mod watches;
