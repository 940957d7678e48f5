//! Named cases of questions 1 to 4 on full sheets of every shape, at both sides: a long
//! chain, a ring, a star and a dense one, each of 508 categories. The shape tells every
//! answer by itself, so two programs that are wrong in the same way are seen.

use std::sync::OnceLock;

use crate::generate::full::Shape;
use crate::generate::lists::words;
use crate::model::office::{Deed, Side};
use crate::model::sheet::Sheet;
use crate::named::book::{Asked, Book};
use crate::named::layout::*;
use crate::named::{neighbours, ties};
use crate::trial::operation::WAYS;

/// Made once: the self-test makes some sixty plans.
pub fn all() -> Vec<Asked> {
    static ALL: OnceLock<Vec<Asked>> = OnceLock::new();
    ALL.get_or_init(made).clone()
}

fn made() -> Vec<Asked> {
    let mut book = Book::default();
    for side in [Side::Grant, Side::Ban] {
        for shape in SHAPES {
            let layout = layout(shape, side);
            one_office(&mut book, &layout);
            lacking(&mut book, &layout);
            lists(&mut book, &layout);
            two_offices(&mut book, &layout);
            other_ways(&mut book, &layout);
        }
        orders(&mut book, side);
        whole_ring(&mut book, side);
        borders(&mut book, side);
        ties::add_all(&mut book, side);
        neighbours::add_all(&mut book, side);
    }
    book.asked
}

/// The second deed node takes turns, so that each shape has both, one at each side.
const SHAPES: [(Shape, Order, [Deed; 2]); 4] = [
    (Shape::Chain, Order::Rising, [OTHER_VARIANT, OTHER_NUMBER]),
    (Shape::Ring, Order::Strewn, [OTHER_NUMBER, OTHER_VARIANT]),
    (Shape::Star, Order::Falling, [OTHER_VARIANT, OTHER_NUMBER]),
    (Shape::Dense, Order::Strewn, [OTHER_NUMBER, OTHER_VARIANT]),
];

fn layout((shape, order, spares): (Shape, Order, [Deed; 2]), side: Side) -> Layout {
    let spare = spares[kind(side) as usize];
    Layout { shape, order, side, spare, office_count: 1, lack: Lack::Nothing, also: (0, 0) }
}

/// 0 asks for a grant, and 1 for a ban.
pub fn kind(side: Side) -> u32 {
    u32::from(side == Side::Ban)
}

/// The answer where there are paths of this side alone.
pub fn alone(side: Side) -> u32 {
    1 + kind(side)
}

const BOTH: u32 = 3;
const UNDETERMINED: u32 = 0;

/// What is asked at an office or under a rule.
pub fn triple(first: u32) -> [u32; 4] {
    [first, CLERK, RIGHT_ON.0, SHIP]
}

pub fn quest(office: u32, side: Side) -> [u32; 5] {
    [office, kind(side), CLERK, RIGHT_ON.0, SHIP]
}

/// The whole path through these categories.
pub fn through(categories: &[u32]) -> Vec<u32> {
    let mut path = vec![(CLERK, 0)];
    path.extend(categories.iter().map(|&category| (category, 0)));
    path.extend([RIGHT_ON, (SHIP, 0)]);
    words(&path)
}

fn name(layout: &Layout) -> String {
    let Layout { shape, side, office_count, .. } = layout;
    format!("full {shape:?} of {side:?}s, offices {office_count}")
}

fn one_office(book: &mut Book, layout: &Layout) {
    let (name, sheet, side) = (name(layout), layout.sheet(), layout.side);
    book.answer(&name, &sheet, triple(1), alone(side));
    for rule in 1..=3 {
        book.joint(&format!("{name}, rule {rule}"), &sheet, triple(rule), (alone(side), 1));
    }
    let path = through(&layout.path());
    book.witness_alone(&name, &sheet, quest(1, side), &path);
    book.one_word_short(&name, &sheet, quest(1, side), &path);
    book.listed(&name, &sheet, quest(1, side), &path, true);
    book.no_path_alone(&name, &sheet, quest(1, side.other()), path.len());
    if layout.spare == OTHER_NUMBER {
        // The first category has both rights on it.
        let other = [1, CLERK, OTHER_NUMBER.0, SHIP];
        book.answer(&format!("{name}, the other deed"), &sheet, other, BOTH);
    }
    let sheet = Layout { also: (1, 0), ..*layout }.sheet();
    let name = format!("{name}, both rights");
    book.answer(&name, &sheet, triple(1), BOTH);
    for (rule, answer) in [(1, 1), (2, 2), (3, BOTH)] {
        book.joint(&format!("{name}, rule {rule}"), &sheet, triple(rule), (answer, 1));
    }
    let short = through(&layout.path()[..1]);
    book.witness_alone(&name, &sheet, quest(1, side.other()), &short);
}

/// The one row that decides is not there. Where it is the right, the other deed node has one;
/// where it is the step, all others are there.
fn lacking(book: &mut Book, layout: &Layout) {
    let (side, path) = (layout.side, through(&layout.path()));
    let step = Piece::Step(layout.middle());
    for piece in [Piece::Member, step, Piece::Right, Piece::Applies] {
        let sheet = Layout { lack: Lack::Missing(piece), ..*layout }.sheet();
        let name = format!("{} without {piece:?}", name(layout));
        book.answer(&name, &sheet, triple(1), UNDETERMINED);
        if piece == step {
            book.no_path_alone(&name, &sheet, quest(1, side), path.len());
            book.listed(&name, &sheet, quest(1, side), &path, false);
            book.joint(&name, &sheet, triple(3), (UNDETERMINED, 0));
        }
    }
}

/// Lists that are nearly the path.
fn lists(book: &mut Book, layout: &Layout) {
    let (sheet, side, path) = (layout.sheet(), layout.side, layout.path());
    let (middle, left_out) = (layout.middle(), path[layout.middle()]);
    let mut add = |what: &str, list: &[u32]| {
        let name = format!("{}, {what}", name(layout));
        book.listed(&name, &sheet, quest(1, side), list, false);
    };
    let mut changed = |what: &str, change: &dyn Fn(&mut Vec<u32>)| {
        let mut path = path.clone();
        change(&mut path);
        add(what, &through(&path));
    };
    changed("a category that is not there", &|path| path[middle] = at_row(0));
    changed("two categories swapped", &|path| path.swap(middle, middle + 1));
    changed("a category twice in a row", &|path| path.insert(middle, path[middle]));
    changed("a category in place of the next", &|path| path[middle + 1] = path[middle]);
    changed("the first category at the end again", &|path| path.push(path[0]));
    changed("a category left out", &|path| path.retain(|&at| at != left_out));
    let whole = through(&path);
    add("its last word cut off", &whole[..whole.len() - 1]);
    add("a word more", &[&whole[..], &[0]].concat());
    let mut other = whole.clone();
    other[whole.len() - 3] = layout.spare.1;
    add("another variant", &other);
    // Every step is right, and so are the ends.
    let back_and_forth = [path[middle], path[middle + 1]];
    let again = match layout.shape {
        Shape::Chain => Vec::new(),
        Shape::Ring => [&path[..], &path[..]].concat(),
        Shape::Star => vec![path[0], path[1], at_row(2), path[1], path[2]],
        Shape::Dense => [&path[..middle], &back_and_forth, &path[middle..]].concat(),
    };
    if !again.is_empty() {
        add("a category come to twice", &through(&again));
    }
    // In the chain the end has the other side's right too, but no way leads there.
    book.listed(
        &format!("{}, as the other side's", name(layout)),
        &sheet,
        quest(1, side.other()),
        &whole,
        false,
    );
}

/// Office 1 lacks a row of the path, or has the one half of it alone.
fn two_offices(book: &mut Book, layout: &Layout) {
    let (side, path) = (layout.side, through(&layout.path()));
    let whole = Layout { office_count: 2, ..*layout };
    let (name, step) = (name(&whole), Piece::Step(layout.middle()));
    let lacking = Layout { lack: Lack::AtOffice1(step), ..whole };
    let opposed = Layout { also: (1, 0), ..lacking }.sheet();
    // One office grants and the other bans.
    book.answer(&format!("{name}, asked at 1"), &opposed, triple(1), alone(side.other()));
    book.answer(&format!("{name}, asked at 2"), &opposed, triple(2), alone(side));
    let by_rules = match side {
        Side::Grant => [(1, 2), (2, 1), (2, 1)],
        Side::Ban => [(1, 1), (2, 2), (1, 1)],
    };
    for (rule, says) in (1..).zip(by_rules) {
        book.joint(&format!("{name}, rule {rule}"), &opposed, triple(rule), says);
    }
    book.witness_alone(&name, &opposed, quest(2, side), &path);
    book.one_word_short(&name, &opposed, quest(2, side), &path);
    book.no_path_alone(&name, &opposed, quest(1, side), path.len());
    for office in [1, 2] {
        let name = format!("{name}, listed at {office}");
        book.listed(&name, &opposed, quest(office, side), &path, office == 2);
    }
    let both = Layout { also: (2, 0), ..lacking }.sheet();
    let both_name = format!("{name}, both rights at office 2");
    book.answer(&both_name, &both, triple(2), BOTH);
    book.joint(&both_name, &both, triple(3), (BOTH, 2));
    for piece in [Piece::Member, step, Piece::Right, Piece::Applies] {
        let sheet = Layout { lack: Lack::AtOffice1(piece), ..whole }.sheet();
        let name = format!("{name}, {piece:?} at office 2 alone");
        book.answer(&format!("{name}, asked at 1"), &sheet, triple(1), UNDETERMINED);
        book.answer(&format!("{name}, asked at 2"), &sheet, triple(2), alone(side));
        if piece == Piece::Member {
            book.joint(&name, &sheet, triple(3), (alone(side), 2));
        }
    }
    let sheet = Layout { lack: Lack::Halves, ..whole }.sheet();
    let name = format!("{name}, a half each");
    for office in [1, 2] {
        let name = format!("{name}, asked at {office}");
        book.answer(&name, &sheet, triple(office), UNDETERMINED);
        book.no_path_alone(&name, &sheet, quest(office, side), path.len());
        book.listed(&name, &sheet, quest(office, side), &path, false);
    }
    book.joint(&name, &sheet, triple(1), (UNDETERMINED, 0));
}

/// A few of them of an opened sheet and by the counter, whose entries take files.
fn other_ways(book: &mut Book, layout: &Layout) {
    let (side, mut own) = (layout.side, Book::default());
    let sheet = layout.sheet();
    own.answer(&name(layout), &sheet, triple(1), alone(side));
    own.witness_alone(&name(layout), &sheet, quest(1, side), &through(&layout.path()));
    let two = Layout { office_count: 2, lack: Lack::AtOffice1(Piece::Right), ..*layout };
    own.joint(&name(&two), &two.sheet(), triple(1), (alone(side), 2));
    for way in WAYS {
        book.asked.extend(own.asked.iter().cloned().filter_map(|asked| asked.by(way)));
    }
}

/// The long chain, its numbers falling and strewn.
fn orders(book: &mut Book, side: Side) {
    for order in [Order::Falling, Order::Strewn] {
        let layout = layout((Shape::Chain, order, [OTHER_NUMBER, OTHER_VARIANT]), side);
        let (name, sheet) = (format!("{}, {order:?}", name(&layout)), layout.sheet());
        book.answer(&name, &sheet, triple(1), alone(side));
        book.witness_alone(&name, &sheet, quest(1, side), &through(&layout.path()));
    }
}

/// One side goes round the ring the one way, and the other the other way.
fn whole_ring(book: &mut Book, side: Side) {
    let ring = Layout { also: (1, 1), ..layout(SHAPES[1], side) };
    let (name, sheet, path) = (format!("{}, whole", name(&ring)), ring.sheet(), ring.path());
    book.answer(&name, &sheet, triple(1), BOTH);
    book.witness_alone(&name, &sheet, quest(1, side), &through(&path));
    let back = [&path[..1], &path[1..].iter().rev().copied().collect::<Vec<u32>>()].concat();
    let name = format!("{name}, the other way");
    book.witness_alone(&name, &sheet, quest(1, side.other()), &through(&back));
    book.listed(&name, &sheet, quest(1, side.other()), &through(&path), false);
}

/// Rows on both sides of the borders of 32 and of 64, and the last category's: a mark that is
/// kept in another word than it is looked for is lost.
const BORDERS: [u32; 9] = [31, 32, 63, 64, 127, 128, 447, 448, CATEGORIES];

/// Three of them are a path by themselves: the clerk's category, the hub, and the one that
/// has the right.
fn borders(book: &mut Book, side: Side) {
    for at in 0..BORDERS.len() {
        let rows = [0, 1, 2].map(|more| BORDERS[(at + more) % BORDERS.len()]);
        let (sheet, path) = (star_at(side, rows), rows.map(at_row));
        let name = format!("full Star of {side:?}s over the rows {rows:?}");
        book.answer(&name, &sheet, triple(1), alone(side));
        book.witness_alone(&name, &sheet, quest(1, side), &through(&path));
    }
}

fn star_at(side: Side, rows: [u32; 3]) -> Sheet {
    let path = rows.map(at_row);
    let mut plot = Plot::new(side, 1, &[CLERK], &[SHIP]);
    plot.know(&line(Order::Rising), &[RIGHT_ON, OTHER_NUMBER]);
    plot.member(CLERK, path[0], 1);
    plot.steps(&path);
    plot.right(side, path[2], RIGHT_ON, 1);
    plot.applies(RIGHT_ON, SHIP, 1);
    plot.star(&path, OTHER_NUMBER);
    plot.sheet()
}
