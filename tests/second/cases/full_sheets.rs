//! Questions 1 to 4 on full sheets of every shape. All of them are named, and a series of
//! their own: the cases of the other series stay as they are.

use crate::cases::series::Series;
use crate::named;

const STREAM: u64 = 0x4675_6C6C_5368_6565;

pub fn series(seed: u64) -> Series {
    Series::new(seed, STREAM, named::full_sheets::all(), Vec::new())
}
