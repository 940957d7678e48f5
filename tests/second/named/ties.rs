//! Named cases of question 3 on full sheets with two paths of one length or more: the least
//! number at the first category that differs decides, wherever that is.

use crate::model::office::Side;
use crate::model::sheet::Sheet;
use crate::named::book::Book;
use crate::named::full_sheets::{alone, quest, through, triple};
use crate::named::layout::*;

pub fn add_all(book: &mut Book, side: Side) {
    twins(book, side);
    branches(book, side);
    strides(book, side);
}

/// A sheet whose only paths are the ones that are drawn. The other deed node's rights fill it,
/// and then steps back along these lines.
fn drawn(side: Side, lines: &[&[u32]], draw: impl Fn(&mut Plot)) -> Sheet {
    let all = line(Order::Rising);
    let mut plot = Plot::new(side, 1, &[CLERK], &[SHIP]);
    plot.know(&all, &[RIGHT_ON, OTHER_NUMBER]);
    draw(&mut plot);
    plot.applies(RIGHT_ON, SHIP, 1);
    plot.applies(OTHER_NUMBER, SHIP, 1);
    plot.rights_on(OTHER_NUMBER, &all);
    for back in 2..4 {
        lines.iter().for_each(|line| plot.steps_back(line, back));
    }
    plot.sheet()
}

/// Each of these paths.
fn with_paths(side: Side, paths: &[&[u32]]) -> Sheet {
    drawn(side, paths, |plot| {
        for path in paths {
            plot.member(CLERK, path[0], 1);
            plot.steps(path);
            plot.right(side, path[path.len() - 1], RIGHT_ON, 1);
        }
    })
}

/// Of the chain's places: the first ones, one in the middle, the last ones.
const PLACES: [usize; 5] =
    [0, 1, CATEGORIES as usize / 2, CATEGORIES as usize - 3, CATEGORIES as usize - 2];

/// Beside one category of a chain stands another, in the row before it or in the row after it,
/// with the same category before and behind.
fn twins(book: &mut Book, side: Side) {
    for place in PLACES {
        for (lower, name) in [(true, "lower"), (false, "higher")] {
            let mut path = line(Order::Rising);
            let twin = path.remove(if lower { place } else { place + 1 });
            let mut other = path.clone();
            other[place] = twin;
            let sheet = with_paths(side, &[&path, &other]);
            let name = format!("full chain of {side:?}s, a twin with the {name} number at {place}");
            let [least, other] = if lower { [other, path] } else { [path, other] };
            book.witness_alone(&name, &sheet, quest(1, side), &through(&least));
            book.listed(&name, &sheet, quest(1, side), &through(&other), true);
        }
    }
}

/// Two lines from one category to another, each of half the rest. The one begins with the
/// lower number, and all that follow are higher.
fn branches(book: &mut Book, side: Side) {
    let all = line(Order::Rising);
    let end = all.len() - 1;
    for (longer, name) in [(0, "as long"), (1, "one longer")] {
        let half = end / 2 + longer;
        let rest: Vec<u32> = all[3..end].to_vec();
        let (behind_higher, behind_lower) = rest.split_at(rest.len() - (half - 1));
        let branch = |first: u32, behind: &[u32]| -> Vec<u32> {
            [&all[..1], &[first], behind, &all[end..]].concat()
        };
        let lower = branch(all[1], behind_lower);
        let higher = branch(all[2], behind_higher);
        let sheet = with_paths(side, &[&lower, &higher]);
        let name = format!("full branches of {side:?}s, the lower one {name}");
        let [shown, other] = if longer == 0 { [lower, higher] } else { [higher, lower] };
        book.answer(&name, &sheet, triple(1), alone(side));
        book.witness_alone(&name, &sheet, quest(1, side), &through(&shown));
        book.listed(&name, &sheet, quest(1, side), &through(&other), true);
    }
}

/// So many places ahead a step may lead.
const REACH: usize = 4;

/// From each category one, two, three or four places ahead. All strides but one are whole; the
/// short one comes first where the numbers rise, and last where they fall.
fn strides(book: &mut Book, side: Side) {
    for order in [Order::Rising, Order::Falling] {
        let all = line(order);
        let end = all.len() - 1;
        let short = end % REACH;
        let sheet = drawn(side, &[], |plot| {
            plot.member(CLERK, all[0], 1);
            plot.right(side, all[end], RIGHT_ON, 1);
            for ahead in 1..=REACH {
                (ahead..=end).for_each(|to| plot.step(all[to - ahead], all[to], 1));
            }
        });
        let stopping = |first: usize| -> Vec<u32> {
            let whole = (first..end).step_by(REACH).filter(|&at| at > 0);
            [0].into_iter().chain(whole).chain([end]).map(|at| all[at]).collect()
        };
        let [soon, late] = [stopping(short), stopping(0)];
        let [least, other] = if order == Order::Rising { [soon, late] } else { [late, soon] };
        let name = format!("full strides of {side:?}s, {order:?}");
        book.answer(&name, &sheet, triple(1), alone(side));
        book.witness_alone(&name, &sheet, quest(1, side), &through(&least));
        book.listed(&name, &sheet, quest(1, side), &through(&other), true);
    }
}
