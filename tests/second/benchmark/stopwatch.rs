//! How long something takes that can be done again and again.

use std::time::{Duration, Instant};

const LEAST_TIMES: usize = 5;
const LEAST_SPAN: Duration = Duration::from_millis(300);

/// The time it took, done once.
pub fn once<E>(what: impl FnOnce() -> Result<(), E>) -> Result<Duration, E> {
    let from = Instant::now();
    what()?;
    Ok(from.elapsed())
}

/// The middle one of the times it took. A pause of the machine lengthens one of
/// them and not the middle.
pub fn middle<E>(mut what: impl FnMut() -> Result<(), E>) -> Result<Duration, E> {
    let mut times = Vec::new();
    let start = Instant::now();
    while times.len() < LEAST_TIMES || start.elapsed() < LEAST_SPAN {
        times.push(once(&mut what)?);
    }
    times.sort();
    Ok(times[times.len() / 2])
}

pub fn milliseconds(time: Duration) -> String {
    let value = time.as_secs_f64() * 1e3;
    match value {
        v if v < 10.0 => format!("{v:.2}"),
        v if v < 100.0 => format!("{v:.1}"),
        v => format!("{v:.0}"),
    }
}
