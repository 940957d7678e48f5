//! The lookup of an identity in two sheets, with its refusals in the order of
//! the table.

use crate::model::answer::{refusal, sound, Refusal};
use crate::model::sheet::{node_rows, Row};

/// type, number, variant
pub type Wanted = [u32; 3];

/// Both sheets are checked, whichever of them has the identity.
pub fn lookup(wanted: Wanted, first: &[u32], second: &[u32]) -> Result<Row, Refusal> {
    sound(first, 1)?;
    sound(second, 2)?;
    standing(wanted, first).or(standing(wanted, second)).ok_or(refusal(32))
}

/// The row of the identity as it stands in an accepted sheet.
pub fn standing(wanted: Wanted, words: &[u32]) -> Option<Row> {
    node_rows(words).into_iter().find(|row| row[..3] == wanted)
}
