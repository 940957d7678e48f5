//! The tours of the listings: every number, slip, repeated row, missing end, pair of
//! faults and limit has its turn.

use std::collections::BTreeSet;

use crate::cases::listings::{full, trip, writing, writing_room, Aimed};
use crate::cases::series::{Made, Maker, Turn};
use crate::generate::damage;
use crate::generate::outline::Outline;
use crate::generate::pairs;
use crate::generate::random::Random;
use crate::generate::slips::{self, body, SLIPS};
use crate::generate::texts::{self, LINE_FAULTS, NO_NODE, TWO_IN_ONE};
use crate::generate::typing::*;
use crate::model::limits::*;
use crate::model::sheet::words_of;

/// Each number at each place of each line.
pub const NUMBERS: usize = PLACES * SPELLINGS;
/// The numbers of the nine lines together.
const PLACES: usize = 18;
/// Each slip on each of the nine lines.
const SLIPPED: usize = SLIPS.len() * PATTERNS.len();
/// Each of the nine lines twice: next to each other, apart, first and last.
const REPEATED: usize = 3 * PATTERNS.len();
/// Each edge line without its first end, its second, and both; twice.
const ENDS: usize = 2 * 3 * (PATTERNS.len() - FIRST_EDGE);
/// Two faults in one line, and in two lines, four times.
const ONE_LINE: usize = 4 * TWO_IN_ONE.len();
const TWO_LINES: usize = 4 * LINE_FAULTS.len() * (LINE_FAULTS.len() + 1);
/// Each fault with 4 and with 25, and 4 with 25; twice.
const WHOLE: usize = 2 * (2 * (LINE_FAULTS.len() + 1) + 1);
/// Each refusal of a sheet, and 28, three times.
const WRITER: usize = 3 * 18;
/// Each with three amounts of room.
const LIMITS: usize = 3 * COUNTS.len();
const OVER: usize = ABOVE.len();
const FAR: usize = 8;
/// Four sheets, there and back.
pub const FULL: usize = 4 * 3;

/// How many of them are of small texts; these come first.
pub const QUICK: usize = NUMBERS + SLIPPED + REPEATED + ENDS + ONE_LINE + TWO_LINES + WRITER;

pub fn all() -> Vec<(usize, Maker)> {
    vec![
        (NUMBERS, number_case),
        (SLIPPED, slip_case),
        (REPEATED, repeated_case),
        (ENDS, end_case),
        (ONE_LINE, one_line_case),
        (TWO_LINES, two_lines_case),
        (WRITER, writer_case),
        (WHOLE, whole_case),
        (LIMITS, limits_case),
        (OVER, over_case),
        (FAR, far_case),
        (FULL, full_case),
    ]
}

/// As many lines as a full sheet has.
pub const MOST_LINES: usize = MOST_NODES + MOST_EDGES;

fn place_of(at: usize) -> (usize, usize) {
    let places = (0..PATTERNS.len()).flat_map(|it| (0..places(it)).map(move |place| (it, place)));
    let all: Vec<(usize, usize)> = places.collect();
    all[at % all.len()]
}

const SPELLINGS: usize = 24;

fn spelling(random: &mut Random, at: usize) -> String {
    const TYPED: [&str; 15] = [
        "0",
        "1",
        "4294967295",
        "00",
        "01",
        "000",
        "04294967295",
        "4294967296",
        "4294967297",
        "9999999999",
        "8589934593",
        "18446744073709551615",
        "18446744073709551617",
        "340282366920938463463374607431768211457",
        "10000000000",
    ];
    match at {
        0..=14 => TYPED[at].to_string(),
        15 => long_number(random, 20),
        16 => long_number(random, 40),
        17 => long_number(random, 1_000),
        18 => "0".repeat(1_000),
        19 => "0".repeat(999) + "1",
        20 => format!("1{}", "0".repeat(999)),
        21 => format!("0{}", random.odd_word()),
        22 => (u64::from(random.word()) + (1 << 32)).to_string(),
        _ => random.word().max(1).to_string(),
    }
}

fn is_right(number: &str, variant: bool) -> bool {
    let value = number.parse::<u32>().ok();
    value.is_some_and(|value| value.to_string() == number && (value > 0 || variant))
}

/// A right number makes a right text: the ends of an edge line are there.
fn number_case(random: &mut Random, turn: &Turn) -> Made {
    let (pattern, place) = place_of(turn.at);
    let number = spelling(random, turn.at / PLACES);
    let right = is_right(&number, is_variant(pattern, place));
    let plain = sample(random, pattern);
    let line = plain.respelt(place, &number);
    let mut lines = if right { line.ends() } else { plain.ends() };
    lines.extend([(0, 11), (1, 21), (3, 41)].map(|(it, number)| Typed::new(it, &[number])));
    lines.push(line);
    any_order(random, &mut lines);
    let short: String = number.chars().take(44).collect();
    let name = format!("{}, number {place} spelt {short}", PATTERNS[pattern]);
    let number = if right { 0 } else { 41 };
    let mut aimed = Aimed::new("listing: a number", name, text(&lines), Some(number));
    aimed.room = right.then_some(MOST_WORDS);
    aimed.made(random)
}

fn slip_case(random: &mut Random, turn: &Turn) -> Made {
    let (slip, pattern) = (turn.at / PATTERNS.len(), turn.at % PATTERNS.len());
    let lines = texts::right(random);
    let bad = slips::on(random, slip, pattern);
    let at = match SLIPS[slip].0 {
        "no line feed" => lines.len(),
        _ => random.below(lines.len() + 1),
    };
    let text = [text(&lines[..at]), bad, text(&lines[at..])].concat();
    let name = format!("{}, {}", PATTERNS[pattern], SLIPS[slip].0);
    Aimed::new("listing: a slip", name, text, Some(40)).made(random)
}

/// A small sheet's lines and these, each once.
fn among(random: &mut Random, own: &[Typed]) -> Vec<Typed> {
    let small = texts::right(random);
    let all: BTreeSet<Typed> = small.into_iter().chain(own.iter().cloned()).collect();
    let mut lines: Vec<Typed> = all.into_iter().collect();
    any_order(random, &mut lines);
    lines
}

fn repeated_case(random: &mut Random, turn: &Turn) -> Made {
    let (pattern, how) = (turn.at / 3, turn.at % 3);
    let line = sample(random, pattern);
    let mut lines = among(random, &[line.ends(), vec![line.clone()]].concat());
    lines.retain(|it| *it != line);
    let at = match how {
        2 => 0,
        _ => random.below(lines.len() + 1),
    };
    lines.insert(at, line.clone());
    let again = match how {
        0 => at + 1,
        1 => random.between(at + 1, lines.len()),
        _ => lines.len(),
    };
    lines.insert(again, line);
    let name = format!("{}, lines {at} and {again}", PATTERNS[pattern]);
    Aimed::new("listing: a repeated row", name, text(&lines), Some(42)).made(random)
}

/// The number of an end that is missing stands as every other type, and a deed's
/// with other variants.
fn end_case(random: &mut Random, turn: &Turn) -> Made {
    let (pattern, missing) = (FIRST_EDGE + turn.at / 3 % 5, 1 + turn.at % 3);
    let line = sample(random, pattern);
    let ends = line.ends();
    let mut lines = BTreeSet::from([line.clone()]);
    for (at, end) in ends.iter().enumerate() {
        let number = &end.numbers[0];
        lines.insert(end.clone());
        for sort in [0, 1, 3] {
            lines.insert(Typed { pattern: sort, numbers: vec![number.clone()] });
        }
        for variant in 0..10 {
            lines.insert(Typed { pattern: 2, numbers: vec![number.clone(), variant.to_string()] });
        }
        if missing & (1 << at) != 0 {
            lines.remove(end);
        }
    }
    let mut lines: Vec<Typed> = lines.into_iter().collect();
    any_order(random, &mut lines);
    if random.one_in(2) {
        let second = texts::without_node(random, &lines);
        lines.push(second);
    }
    let name = format!("{}, ends {missing}", PATTERNS[pattern]);
    Aimed::new("listing: an end without a node", name, text(&lines), Some(43)).made(random)
}

fn one_line_case(random: &mut Random, turn: &Turn) -> Made {
    let pair = TWO_IN_ONE[turn.at % TWO_IN_ONE.len()];
    let lines = texts::roomy(random);
    let (text, line) = texts::one_line(random, &lines, pair);
    let name = format!("{} and {} in line {line}", pair[0], pair[1]);
    Aimed::new("listing: two faults in one line", name, text, Some(pair[0])).made(random)
}

fn two_lines_case(random: &mut Random, turn: &Turn) -> Made {
    let first = LINE_FAULTS[turn.at % LINE_FAULTS.len()];
    let others = [&LINE_FAULTS[..], &[NO_NODE]].concat();
    let second = others[turn.at / LINE_FAULTS.len() % others.len()];
    let lines = texts::roomy(random);
    let (text, line) = texts::two_lines(random, &lines, [first, second]);
    let name = format!("{first} in line {line}, and {second}");
    Aimed::new("listing: two faults", name, text, Some(first)).made(random)
}

/// 4 and 25 come last, and 25 after 4.
fn whole_case(random: &mut Random, turn: &Turn) -> Made {
    let faults = [&LINE_FAULTS[..], &[NO_NODE]].concat();
    let at = turn.at % (2 * faults.len() + 1);
    let number = faults.get(at / 2).copied().unwrap_or(4);
    let second = if at % 2 == 0 && number != 4 { 4 } else { 25 };
    let lines = if number == 4 || second == 4 { texts::over(random) } else { texts::roomy(random) };
    let text = match number {
        4 => text(&lines),
        _ => texts::one_fault(random, &lines, number).0,
    };
    let name = format!("{number} and {second}");
    let mut aimed = Aimed::new("listing: a fault and 4 or 25", name, text, Some(number));
    aimed.room = Some(if second == 25 { 0 } else { MOST_WORDS });
    aimed.made(random)
}

fn writer_case(random: &mut Random, turn: &Turn) -> Made {
    let number = 1 + (turn.at / 3) as u32;
    let (words, name) = match number {
        18 => (pairs::whole(random).marked(random, MOST_OFFICES).words(), "28".to_string()),
        _ => (words_of(&damage::aimed_anywhere(random, number)), number.to_string()),
    };
    let room = match turn.at % 3 {
        0 => 0,
        _ => writing_room(random, &words),
    };
    let request = writing(random, &words, room).request(random);
    ("listing: a sheet refused", format!("aimed at {name}"), request, None)
}

/// Nodes and edges at the limits, in no more lines than a full sheet has.
const COUNTS: [[usize; 2]; 9] = [
    [MOST_NODES - 1, 0],
    [MOST_NODES, 0],
    [MOST_NODES + 1, 0],
    [64, MOST_EDGES - 1],
    [64, MOST_EDGES],
    [64, MOST_EDGES + 1],
    [MOST_NODES, MOST_EDGES],
    [MOST_NODES, 70],
    [MOST_NODES + 1, 70],
];

/// And in more.
const ABOVE: [[usize; 2]; 3] =
    [[MOST_NODES, MOST_EDGES + 1], [MOST_NODES + 1, MOST_EDGES], [MOST_NODES + 1, MOST_EDGES + 1]];

fn limits_case(random: &mut Random, turn: &Turn) -> Made {
    at_limit(random, COUNTS[turn.at / 3], turn.at % 3)
}

fn over_case(random: &mut Random, turn: &Turn) -> Made {
    at_limit(random, ABOVE[turn.at], 0)
}

/// With exactly enough room, one word less, and none.
fn at_limit(random: &mut Random, [nodes, edges]: [usize; 2], how: usize) -> Made {
    let outline = crowd(random, nodes, edges);
    let lines = texts::ordered(random, &outline);
    let exact = Form::One.length(nodes, edges);
    let over = nodes > MOST_NODES || edges > MOST_EDGES;
    let number = match how {
        _ if over => 4,
        0 => 0,
        _ => 25,
    };
    let name = format!("{nodes} nodes and {edges} edges");
    let mut aimed = Aimed::new("listing: limits", name, text(&lines), Some(number));
    aimed.room = Some([exact, exact - 1, 0][how]);
    aimed.made(random)
}

/// Ten thousand good lines come before what is wrong: the limits are looked at last,
/// and every row is remembered.
fn far_case(random: &mut Random, turn: &Turn) -> Made {
    let mut lines = throng(random, turn.at % 2 == 1);
    let count = lines.len();
    let own = lines[random.between(count - 200, count - 1)].clone();
    let (what, bad) = match turn.at {
        0 => ("40 behind", slips::any(random, &own)),
        1 => ("41 behind", own.respelt(0, "0").line()),
        2 => ("the first row again behind", lines[0].line()),
        3 => ("a late row again behind", own.line()),
        4 => ("14 behind", Typed::new(WITHIN, &[7, 7]).line()),
        5 => ("no line feed behind", body(&Typed::new(3, &[77]))),
        6 => ("nothing behind", Vec::new()),
        _ => {
            lines.insert(count - 5, Typed::new(8, &[1, 0, 1]));
            ("an end without a node among", Vec::new())
        }
    };
    let number = [40, 41, 42, 42, 14, 40, 4, 43][turn.at];
    let name = format!("{what} {count} good lines");
    let text = [text(&lines), bad].concat();
    let mut aimed = Aimed::new("listing: far over the limits", name, text, Some(number));
    aimed.room = Some(MOST_WORDS);
    aimed.made(random)
}

fn full_case(random: &mut Random, turn: &Turn) -> Made {
    let leg = turn.at % 3;
    let mut together = Random::for_case(turn.seed, (turn.number - leg) as u64);
    let outline: Outline = full(&mut together);
    trip(random, &outline, leg)
}
