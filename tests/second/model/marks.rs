//! The offices of a row, as a sum of marks: 1 for office 1, 2 for office 2, each
//! twice the one before.

pub fn mark_of(office: u32) -> u32 {
    1 << (office - 1)
}

/// The marks of all offices up to the count.
pub fn all_marks(office_count: u32) -> u32 {
    (1 << office_count) - 1
}

/// Whether the sum has the office in it.
pub fn has(offices: u32, office: u32) -> bool {
    offices & mark_of(office) != 0
}

/// The next office, and after the last the first: another one where there is one.
pub fn next_office(office: u32, office_count: u32) -> u32 {
    office % office_count + 1
}
