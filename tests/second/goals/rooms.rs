//! Goals that look the same for several operations: which of a list were met,
//! and how much room there was.

pub const ROOMS: [&str; 4] =
    ["exactly long enough", "room to spare", "one word short", "no room at all"];

/// Those of the goals that were met, each with its outcome.
pub fn chosen(goals: &[&str], met: &[bool], outcome: &str) -> Vec<String> {
    let met = goals.iter().zip(met).filter(|(_, &met)| met);
    met.map(|(goal, _)| format!("{outcome}, {goal}")).collect()
}

/// For a result of so many words, at least one.
pub fn room_goal(length: usize, room: usize) -> Option<&'static str> {
    match room {
        0 => Some(ROOMS[3]),
        _ if room == length => Some(ROOMS[0]),
        _ if room > length => Some(ROOMS[1]),
        _ if room + 1 == length => Some(ROOMS[2]),
        _ => None,
    }
}
