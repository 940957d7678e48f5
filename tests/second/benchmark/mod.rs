//! The time of every operation on full sheets of every shape: what the trial
//! program takes for a request, and what this program takes to judge it. The
//! sheets and the requests are the same in every run.

pub mod cases;
pub mod sheets;
pub mod stopwatch;

use std::time::Duration;

use crate::benchmark::cases::{bare, overlong, request, OPERATIONS, OVERLONG};
use crate::benchmark::stopwatch::{middle, milliseconds, once};
use crate::generate::full::{Shape, SHAPES};
use crate::run::options::Options;
use crate::run::tally::Tally;
use crate::trial::expect::expect;
use crate::trial::operation::{READ_LISTING, WRITE_LISTING};
use crate::trial::request::{compare, Expected, Request};
use crate::trial::talk::Talk;

/// One operation on one shape.
struct Figure {
    /// What the reply said, in short.
    reply: String,
    /// Of the trial program; nothing where a reply was wrong.
    whole: Option<Duration>,
    /// Of the whole, what is spent whether or not a sheet is looked at.
    bare: Option<Duration>,
    judged: Duration,
}

struct Line {
    title: &'static str,
    figures: Vec<Figure>,
}

pub fn run(options: &Options) -> Tally {
    let mut tally = Tally::default();
    let measured = measure_all(options, &mut tally).map(|lines| print(&lines));
    let measured = measured.and_then(|()| measure_overlong(options, &mut tally));
    if let Err(fault) = measured {
        tally.test(&format!("the trial: {fault}"), false);
    }
    tally
}

/// Texts over the limits take seconds, so each is asked twice: once to compare, and
/// once to time.
fn measure_overlong(options: &Options, tally: &mut Tally) -> Result<(), String> {
    if !options.only.has(READ_LISTING) {
        return Ok(());
    }
    let mut talk = Talk::open(&options.command)?;
    println!("\n| A listing over the limits, lines | the trial program, s | the second program, ms |\n|---|---|---|");
    for count in OVERLONG {
        let request = overlong(count);
        let bytes = request.bytes();
        let differences = compare(&expect(&request), &talk.ask(&bytes, request.out_len)?);
        tally.test(&format!("{count} lines: {}", differences.join("; ")), differences.is_empty());
        let took = once(|| talk.ask(&bytes, request.out_len).map(drop))?;
        println!("| {count} | {:.2} | {} |", took.as_secs_f64(), milliseconds(judged(&request)?));
    }
    talk.close()
}

fn measure_all(options: &Options, tally: &mut Tally) -> Result<Vec<Line>, String> {
    let mut talk = Talk::open(&options.command)?;
    let mut lines = Vec::new();
    for (operation, title) in OPERATIONS {
        if options.only.has(operation) {
            let one = |shape: Shape| figure(&mut talk, tally, operation, shape);
            let figures = SHAPES.into_iter().map(one).collect::<Result<_, _>>()?;
            lines.push(Line { title, figures });
        }
    }
    talk.close()?;
    Ok(lines)
}

fn figure(
    talk: &mut Talk,
    tally: &mut Tally,
    operation: u32,
    shape: Shape,
) -> Result<Figure, String> {
    let request = request(operation, shape);
    let bare = bare(&request);
    let expected = expect(&request);
    let name = format!("operation {operation} on {shape:?}");
    Ok(Figure {
        reply: in_short(operation, &expected),
        whole: asked(talk, tally, &name, &request, &expected)?,
        bare: asked(talk, tally, &format!("{name}, refused at once"), &bare, &expect(&bare))?,
        judged: judged(&request)?,
    })
}

/// The first reply is compared and not timed: an emulator translates a piece of code
/// when it is first used.
fn asked(
    talk: &mut Talk,
    tally: &mut Tally,
    name: &str,
    request: &Request,
    expected: &Expected,
) -> Result<Option<Duration>, String> {
    let bytes = request.bytes();
    let reply = talk.ask(&bytes, request.out_len)?;
    let differences = compare(expected, &reply);
    tally.test(&format!("{name}: {}", differences.join("; ")), differences.is_empty());
    if !differences.is_empty() {
        return Ok(None);
    }
    middle(|| talk.ask(&bytes, request.out_len).map(drop)).map(Some)
}

fn judged(request: &Request) -> Result<Duration, String> {
    middle(|| {
        std::hint::black_box(expect(std::hint::black_box(request)));
        Ok(())
    })
}

fn in_short(operation: u32, expected: &Expected) -> String {
    let [number, _, _, value, count, ..] = expected.reply;
    match (number, value, count) {
        (0, 0, 0) => "accepted".to_string(),
        (0, 0, 1) => "1 word".to_string(),
        (0, 0, count) if operation == WRITE_LISTING => format!("{count} bytes"),
        (0, 0, count) => format!("{count} words"),
        (0, value, 0) => format!("value {value}"),
        (0, value, count) => format!("value {value}, count {count}"),
        (number, ..) => format!("refused {number}"),
    }
}

fn print(lines: &[Line]) {
    let net = |figure: &Figure| Some(figure.whole?.saturating_sub(figure.bare?));
    let told = |time: Option<Duration>| time.map_or("wrong reply".to_string(), milliseconds);
    table("The trial program, bare request taken off, ms", lines, |figure| told(net(figure)));
    table("Its bare request, ms", lines, |figure| told(figure.bare));
    table("The second program, ms", lines, |figure| milliseconds(figure.judged));
    table("What came back", lines, |figure| figure.reply.clone());
}

fn table(title: &str, lines: &[Line], cell: impl Fn(&Figure) -> String) {
    println!("\n| {title} | long chain | ring | star | dense |\n|---|---|---|---|---|");
    for line in lines {
        let cells: Vec<String> = line.figures.iter().map(&cell).collect();
        println!("| {} | {} |", line.title, cells.join(" | "));
    }
}
