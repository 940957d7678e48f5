//! Slips of the keyboard: a right line made into one that is none of the nine.

use crate::generate::random::Random;
use crate::generate::typing::{sample, Typed, PATTERNS};

/// A line with the slip, or nothing where the line has no place for it.
type Slip = fn(&mut Random, &Typed) -> Option<Vec<u8>>;

/// All but the first leave the line feed at the line's end.
pub const SLIPS: [(&str, Slip); 36] = [
    ("no line feed", |_, typed| Some(body(typed))),
    ("an empty line", |_, _| Some(b"\n".to_vec())),
    ("a space alone", |_, _| Some(b" \n".to_vec())),
    ("a tab", |random, typed| for_space(random, typed, b"\t")),
    ("a carriage return", |_, typed| Some([&body(typed)[..], b"\r\n"].concat())),
    ("a carriage return within", |random, typed| insert(random, typed, b"\r")),
    ("two spaces", |random, typed| for_space(random, typed, b"  ")),
    ("a leading space", |_, typed| Some([b" ", &typed.line()[..]].concat())),
    ("a trailing space", |_, typed| Some([&body(typed)[..], b" \n"].concat())),
    ("a trailing tab", |_, typed| Some([&body(typed)[..], b"\t\n"].concat())),
    ("no space", |random, typed| for_space(random, typed, b"")),
    ("a comma", |random, typed| for_space(random, typed, b",")),
    ("a space and a comma", |random, typed| for_space(random, typed, b", ")),
    ("a no-break space", |random, typed| for_space(random, typed, b"\xC2\xA0")),
    ("a vertical tab", |random, typed| for_space(random, typed, b"\x0B")),
    ("a byte above 127", |random, typed| {
        let byte = random.between(128, 255) as u8;
        insert(random, typed, &[byte])
    }),
    ("a byte 0", |random, typed| insert(random, typed, &[0])),
    ("a byte 0 for a space", |random, typed| for_space(random, typed, &[0])),
    ("a plus sign", |random, typed| before_number(random, typed, "+")),
    ("a minus sign", |random, typed| before_number(random, typed, "-")),
    ("a hexadecimal number", |random, typed| before_number(random, typed, "0x")),
    ("a decimal point", |random, typed| in_number(random, typed, |it| format!("{it}.0"))),
    ("a letter in a number", |random, typed| in_number(random, typed, |it| format!("{it}a"))),
    ("a grouped number", |random, typed| in_number(random, typed, |it| format!("{it},000"))),
    ("no number", |random, typed| in_number(random, typed, |_| String::new())),
    ("an Arabic digit", |random, typed| in_number(random, typed, |_| "\u{0661}".to_string())),
    ("no variant", |random, typed| variant(random, typed, |_| String::new())),
    ("an empty variant", |random, typed| variant(random, typed, |_| "/".to_string())),
    ("a second slash", |random, typed| variant(random, typed, |it| format!("/{it}/1"))),
    ("two slashes", |random, typed| variant(random, typed, |it| format!("//{it}"))),
    ("a space for the slash", |random, typed| variant(random, typed, |it| format!(" {it}"))),
    ("a variant too many", |random, typed| in_bare(random, typed)),
    ("a number too few", |_, typed| too_few(typed)),
    ("a number too many", |_, typed| Some([&body(typed)[..], b" 1\n"].concat())),
    ("a capital letter", |random, typed| Some(capital(random, typed))),
    ("another word", |random, typed| Some(another_word(random, typed))),
];

/// Those that change neither numbers nor line feed.
const AROUND: [&str; 6] = [
    "a tab",
    "a carriage return",
    "two spaces",
    "a leading space",
    "a trailing space",
    "a capital letter",
];

/// Without its line feed.
pub fn body(typed: &Typed) -> Vec<u8> {
    let mut line = typed.line();
    line.pop();
    line
}

/// One of its spaces.
fn for_space(random: &mut Random, typed: &Typed, instead: &[u8]) -> Option<Vec<u8>> {
    let line = typed.line();
    let spaces: Vec<usize> = (0..line.len()).filter(|&at| line[at] == b' ').collect();
    let at = random.pick(&spaces);
    Some([&line[..at], instead, &line[at + 1..]].concat())
}

/// Before the line feed, in any place.
fn insert(random: &mut Random, typed: &Typed, more: &[u8]) -> Option<Vec<u8>> {
    let line = typed.line();
    let at = random.below(line.len());
    Some([&line[..at], more, &line[at..]].concat())
}

fn in_number(
    random: &mut Random,
    typed: &Typed,
    change: impl Fn(&str) -> String,
) -> Option<Vec<u8>> {
    let place = random.below(typed.numbers.len());
    Some(typed.respelt(place, &change(&typed.numbers[place])).line())
}

fn before_number(random: &mut Random, typed: &Typed, sign: &str) -> Option<Vec<u8>> {
    in_number(random, typed, |number| format!("{sign}{number}"))
}

/// What stands from the slash to the variant's end.
fn variant(_: &mut Random, typed: &Typed, change: impl Fn(&str) -> String) -> Option<Vec<u8>> {
    let line = String::from_utf8(typed.line()).ok()?;
    let slash = line.find('/')?;
    let length = line[slash + 1..].find(|it: char| !it.is_ascii_digit())?;
    let (own, rest) = line[slash + 1..].split_at(length);
    Some([&line[..slash], &change(own), rest].concat().into_bytes())
}

/// A variant on a node that is not a deed: on one of the numbers that a space
/// comes before and that no slash follows.
fn in_bare(random: &mut Random, typed: &Typed) -> Option<Vec<u8>> {
    let line = String::from_utf8(body(typed)).ok()?;
    let mut parts: Vec<String> = line.split(' ').map(String::from).collect();
    let bare: Vec<usize> = (1..parts.len()).filter(|&at| !parts[at].contains('/')).collect();
    if bare.is_empty() {
        return None;
    }
    parts[random.pick(&bare)] += random.pick(&["/0", "/1"]);
    Some([&parts.join(" "), "\n"].concat().into_bytes())
}

/// Without its last name.
fn too_few(typed: &Typed) -> Option<Vec<u8>> {
    let line = body(typed);
    let space = line.iter().rposition(|&byte| byte == b' ')?;
    Some([&line[..space], b"\n"].concat())
}

fn capital(random: &mut Random, typed: &Typed) -> Vec<u8> {
    let mut line = typed.line();
    let letters: Vec<usize> = (0..line.len()).filter(|&at| line[at].is_ascii_lowercase()).collect();
    if random.one_in(2) {
        letters.iter().for_each(|&at| line[at].make_ascii_uppercase());
    } else {
        line[random.pick(&letters)].make_ascii_uppercase();
    }
    line
}

const OTHERS: [&str; 12] = [
    "persons", "perso", "member", "i", "ins", "withi", "granted", "grants", "bans", "apply", "#",
    "",
];

fn another_word(random: &mut Random, typed: &Typed) -> Vec<u8> {
    let line = typed.line();
    let space = line.iter().position(|&byte| byte == b' ').unwrap_or(0);
    [random.pick(&OTHERS).as_bytes(), &line[space..]].concat()
}

/// Any slip but the first, on this line.
pub fn any(random: &mut Random, typed: &Typed) -> Vec<u8> {
    loop {
        let (_, slip) = SLIPS[random.between(1, SLIPS.len() - 1)];
        if let Some(line) = slip(random, typed) {
            return line;
        }
    }
}

/// One that leaves its numbers as they are.
pub fn around(random: &mut Random, typed: &Typed) -> Vec<u8> {
    let own: Vec<Slip> =
        SLIPS.iter().filter(|(name, _)| AROUND.contains(name)).map(|slip| slip.1).collect();
    random.pick(&own)(random, typed).unwrap_or_default()
}

/// This slip on a line of this pattern, or of the next one that has a place for it.
pub fn on(random: &mut Random, slip: usize, pattern: usize) -> Vec<u8> {
    let patterns = (0..PATTERNS.len()).map(|at| (pattern + at) % PATTERNS.len());
    let mut lines = patterns.filter_map(|pattern| {
        let typed = sample(random, pattern);
        SLIPS[slip].1(random, &typed)
    });
    lines.next().expect("each slip has its place on one of the nine")
}
