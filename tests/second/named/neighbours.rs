//! Named cases of questions 1 to 4 on full sheets where the row before or after decides:
//! taken along with the one that is asked for, it would change the answer.

use crate::model::office::Side;
use crate::model::sheet::Sheet;
use crate::named::book::Book;
use crate::named::full_sheets::{alone, kind, quest, through, triple};
use crate::named::layout::*;

pub fn add_all(book: &mut Book, side: Side) {
    persons(book, side);
    folios(book, side);
    variants(book, side);
    categories(book, side);
}

/// Two persons, in neighbouring rows. One is at the start of a long chain, and the other in a
/// category that leads nowhere.
fn persons(book: &mut Book, side: Side) {
    let all = line(Order::Rising);
    let (aside, path) = (all[0], &all[1..]);
    for (one, other) in [(CLERK, NEIGHBOUR), (NEIGHBOUR, CLERK)] {
        let mut plot = Plot::new(side, 1, &[CLERK, NEIGHBOUR], &[SHIP]);
        plot.know(&all, &[RIGHT_ON]);
        plot.member(one, path[0], 1);
        plot.member(other, aside, 1);
        plot.steps(path);
        plot.right(side, path[path.len() - 1], RIGHT_ON, 1);
        plot.applies(RIGHT_ON, SHIP, 1);
        plot.rights_out_of_reach(&path[1..]);
        (2..5).for_each(|back| plot.steps_back(&path[1..], back));
        let (name, sheet) =
            (format!("full chain of {side:?}s, {one} beside {other}"), plot.sheet());
        let ask = |person: u32| [1, person, RIGHT_ON.0, SHIP];
        let witness = |person: u32| [1, kind(side), person, RIGHT_ON.0, SHIP];
        book.answer(&format!("{name}, {one} asked"), &sheet, ask(one), alone(side));
        book.answer(&format!("{name}, {other} asked"), &sheet, ask(other), 0);
        book.joint(&format!("{name}, {other} asked"), &sheet, ask(other), (0, 0));
        let mut whole = through(path);
        whole[0] = one;
        book.witness_alone(&name, &sheet, witness(one), &whole);
        book.no_path_alone(&name, &sheet, witness(other), whole.len());
        book.listed(&name, &sheet, witness(one), &whole, true);
        whole[0] = other;
        book.listed(&format!("{name}, as {other}'s"), &sheet, witness(other), &whole, false);
    }
}

/// Two folios, in the last two node rows. The deed applies to one of them.
fn folios(book: &mut Book, side: Side) {
    let all = line(Order::Rising);
    for (one, other) in [(SHIP, SISTER), (SISTER, SHIP)] {
        let mut plot = Plot::new(side, 1, &[CLERK], &[SHIP, SISTER]);
        plot.know(&all, &[RIGHT_ON]);
        plot.member(CLERK, all[0], 1);
        plot.steps(&all);
        plot.right(side, all[all.len() - 1], RIGHT_ON, 1);
        plot.applies(RIGHT_ON, one, 1);
        plot.rights_out_of_reach(&all[1..]);
        (2..5).for_each(|back| plot.steps_back(&all[1..], back));
        let (name, sheet) =
            (format!("full chain of {side:?}s, {one} beside {other}"), plot.sheet());
        let ask = |folio: u32| [1, CLERK, RIGHT_ON.0, folio];
        let witness = |folio: u32| [1, kind(side), CLERK, RIGHT_ON.0, folio];
        book.answer(&format!("{name}, {one} asked"), &sheet, ask(one), alone(side));
        book.answer(&format!("{name}, {other} asked"), &sheet, ask(other), 0);
        book.joint(&format!("{name}, {other} asked"), &sheet, ask(other), (0, 0));
        let mut whole = through(&all);
        let end = whole.len() - 2;
        whole[end] = one;
        book.witness_alone(&name, &sheet, witness(one), &whole);
        book.no_path_alone(&name, &sheet, witness(other), whole.len());
    }
}

/// One variant has the right at the end of a long chain, and the other applies.
fn variants(book: &mut Book, side: Side) {
    let all = line(Order::Strewn);
    for (one, other) in [(RIGHT_ON, OTHER_VARIANT), (OTHER_VARIANT, RIGHT_ON)] {
        let mut plot = Plot::new(side, 1, &[CLERK], &[SHIP]);
        plot.know(&all, &[RIGHT_ON, OTHER_VARIANT]);
        plot.member(CLERK, all[0], 1);
        plot.steps(&all);
        plot.right(side, all[all.len() - 1], one, 1);
        plot.applies(other, SHIP, 1);
        (2..6).for_each(|back| plot.steps_back(&all[1..], back));
        let (name, sheet) =
            (format!("full chain of {side:?}s, {one:?} not on the folio"), plot.sheet());
        book.answer(&name, &sheet, triple(1), 0);
        book.no_path_alone(&name, &sheet, quest(1, side), 2 * all.len());
    }
}

/// The clerk's category leads to one that leads nowhere. In the row before it or after it
/// stands one that leads on, or that has the right.
fn categories(book: &mut Book, side: Side) {
    // Rows at a border of 64, so that the neighbour's mark is in another word.
    for (own, beside) in [(191, 192), (192, 191)] {
        let [own, beside, nowhere] = [own, beside, 300].map(at_row);
        let rest = line(Order::Falling).into_iter();
        let rest: Vec<u32> =
            rest.filter(|category| ![own, beside, nowhere].contains(category)).collect();
        let leads_on = [&[beside], &rest[..]].concat();
        let name = format!("full chain of {side:?}s, {own} beside {beside}");
        let sheet = beside_a_chain(side, own, nowhere, &leads_on);
        undetermined(book, &format!("{name}, which leads on"), side, &sheet);
        let list = through(&[&[own], &rest[..]].concat());
        book.listed(&name, &sheet, quest(1, side), &list, false);
        let has_right = [&rest[..], &[beside]].concat();
        let sheet = beside_a_chain(side, own, nowhere, &has_right);
        undetermined(book, &format!("{name}, which has the right"), side, &sheet);
    }
}

/// The clerk is in the one category, which leads nowhere. The others are a chain to the right.
fn beside_a_chain(side: Side, own: u32, nowhere: u32, chain: &[u32]) -> Sheet {
    let mut plot = Plot::new(side, 1, &[CLERK], &[SHIP]);
    plot.know(&line(Order::Rising), &[RIGHT_ON, OTHER_VARIANT]);
    plot.member(CLERK, own, 1);
    plot.steps(&[own, nowhere]);
    plot.steps(chain);
    plot.right(side, chain[chain.len() - 1], RIGHT_ON, 1);
    plot.applies(RIGHT_ON, SHIP, 1);
    plot.rights_on(OTHER_VARIANT, &line(Order::Rising));
    (2..4).for_each(|back| plot.steps_back(&chain[1..], back));
    plot.sheet()
}

fn undetermined(book: &mut Book, name: &str, side: Side, sheet: &Sheet) {
    book.answer(name, sheet, triple(1), 0);
    book.no_path_alone(name, sheet, quest(1, side), 2 * CATEGORIES as usize);
}
