//! Which refusals were reached, where in their table, and by which operation.
//! What was not reached was not tried, so each gap is a failed test.

use std::collections::BTreeMap;
use std::fmt;

use crate::model::limits::WORD;
use crate::model::place::{place_in, Place, ROW_PLACES};
use crate::model::sheet::{edge_count, node_count, words_of};
use crate::trial::operation::{CHECK_BYTES, CHECK_WORDS, UNKNOWN};
use crate::trial::request::{Expected, Request};

#[derive(Clone, Copy, Debug, PartialEq, Eq, PartialOrd, Ord)]
pub struct Cell {
    pub operation: u32,
    pub number: u32,
    pub place: Place,
}

impl fmt::Display for Cell {
    fn fmt(&self, to: &mut fmt::Formatter) -> fmt::Result {
        match self.number {
            UNKNOWN => write!(to, "an unknown operation"),
            number => write!(to, "{number}, {:?}, by operation {}", self.place, self.operation),
        }
    }
}

pub fn needed() -> Vec<Cell> {
    let mut cells = Vec::new();
    for operation in [CHECK_WORDS, CHECK_BYTES] {
        for number in 0..=5 {
            cells.push(Cell { operation, number, place: Place::Whole });
        }
        for number in 6..=17 {
            cells.extend(ROW_PLACES.map(|place| Cell { operation, number, place }));
        }
    }
    for place in [Place::Uneven, Place::TooLong] {
        cells.push(Cell { operation: CHECK_BYTES, number: 33, place });
    }
    cells.push(Cell { operation: UNKNOWN, number: UNKNOWN, place: Place::Whole });
    cells
}

/// Where a case stands in the table, from what is expected of it alone.
pub fn cell(request: &Request, expected: &Expected) -> Cell {
    let (number, row) = (expected.reply[0], expected.reply[2] as usize);
    let refused = if expected.reply[1] == 2 { &request.second } else { &request.first };
    let words = words_of(refused);
    let place = match number {
        33 if request.first.len() % WORD != 0 => Place::Uneven,
        33 => Place::TooLong,
        // The row is a line, or that of a row to be added: no row of a table.
        _ if expected.reply[1] == 0 => Place::Whole,
        6..=10 => place_in(number, row, node_count(&words)),
        11..=17 => place_in(number, row, edge_count(&words)),
        _ => Place::Whole,
    };
    let operation = if number == UNKNOWN { UNKNOWN } else { request.operation };
    Cell { operation, number, place }
}

#[derive(Default)]
pub struct Coverage {
    counts: BTreeMap<Cell, usize>,
}

impl Coverage {
    pub fn add(&mut self, cell: Cell) {
        *self.counts.entry(cell).or_insert(0) += 1;
    }

    pub fn count(&self, cell: Cell) -> usize {
        self.counts.get(&cell).copied().unwrap_or(0)
    }

    pub fn misses(&self) -> Vec<Cell> {
        needed().into_iter().filter(|&cell| self.count(cell) == 0).collect()
    }

    pub fn print(&self) {
        println!("rows reached:    by words                     by bytes");
        println!("  number      first middle   last   only   first middle   last   only");
        for number in 6..=17 {
            let mut line = format!("  {number:>6}   ");
            for operation in [CHECK_WORDS, CHECK_BYTES] {
                for place in [Place::First, Place::Middle, Place::Last, Place::Only] {
                    line += &format!(" {:>6}", self.count(Cell { operation, number, place }));
                }
                line += " ";
            }
            println!("{}", line.trim_end());
        }
        let uneven = Cell { operation: CHECK_BYTES, number: 33, place: Place::Uneven };
        let too_long = Cell { place: Place::TooLong, ..uneven };
        println!("  33: {} uneven, {} too long", self.count(uneven), self.count(too_long));
    }
}
