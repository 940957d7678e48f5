//! Where in its table a refused row stands.

#[derive(Clone, Copy, Debug, PartialEq, Eq, PartialOrd, Ord)]
pub enum Place {
    /// The sheet as a whole: no row is named.
    Whole,
    First,
    Middle,
    Last,
    /// A row that is the first and the last at once shows neither.
    Only,
    /// The two reasons for 33.
    Uneven,
    TooLong,
}

pub const ROW_PLACES: [Place; 3] = [Place::First, Place::Middle, Place::Last];

/// The first row at which a number can stand: nothing comes before row 0.
pub fn first_row(number: u32) -> usize {
    match number {
        9 | 10 | 16 | 17 => 1,
        _ => 0,
    }
}

/// Of a row refused with this number, in a table of so many rows.
pub fn place_in(number: u32, row: usize, count: usize) -> Place {
    match (row == first_row(number), row + 1 == count) {
        (true, true) => Place::Only,
        (true, false) => Place::First,
        (false, true) => Place::Last,
        (false, false) => Place::Middle,
    }
}
