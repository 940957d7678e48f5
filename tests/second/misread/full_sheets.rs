//! Wrong versions of questions 1 to 4 that small sheets may not show: rows at the borders of
//! a word of marks, the last row, marks that stay from one walk to the next, neighbours' rows,
//! ties anywhere along a path, and lists with one fault.

use std::collections::{BTreeMap, BTreeSet};

use crate::generate::lists::{words, Path};
use crate::misread::{wrong, Asked, Misreading, Outcome};
use crate::model::answer::*;
use crate::model::closure::witness;
use crate::model::limits::{edge_offset, MOST_NODES};
use crate::model::marks::all_marks;
use crate::model::office::{Ask, Office, Side};
use crate::model::sheet::*;
use crate::named::layout::CATEGORIES;
use crate::trial::request::Request;

/// A question 1 to 4 of an accepted sheet.
pub struct Asking {
    operation: u32,
    numbers: [u32; 6],
    sheet: Vec<u32>,
    list: Vec<u32>,
    room: usize,
}

impl Asked for Asking {
    fn of(request: &Request) -> Option<Asking> {
        (ANSWER..=LISTED).contains(&request.operation).then(|| Asking {
            operation: request.operation,
            numbers: request.numbers,
            sheet: words_of(&request.first),
            list: words_of(&request.second),
            room: request.out_len,
        })
    }
}

const ALL: &[u32] = &[1, 2, 3, 4];
const WALKS: &[u32] = &[1, 2, 3];
const ANSWERS: &[u32] = &[1, 2];
const JOINTS: &[u32] = &[2];
const PATHS: &[u32] = &[3];
const LISTS: &[u32] = &[4];

#[rustfmt::skip]
pub const WRONG: [Misreading<Asking>; 43] = [
    wrong("the last node row is lost", ALL, |asking| without_row(asking, MOST_NODES as u32 - 1)),
    wrong("row 31 is lost", ALL, |asking| without_row(asking, 31)),
    wrong("row 32 is lost", ALL, |asking| without_row(asking, 32)),
    wrong("row 63 is lost", ALL, |asking| without_row(asking, 63)),
    wrong("row 64 is lost", ALL, |asking| without_row(asking, 64)),
    wrong("row 127 is lost", ALL, |asking| without_row(asking, 127)),
    wrong("row 128 is lost", ALL, |asking| without_row(asking, 128)),
    wrong("the last category's row is lost", ALL, |asking| without_row(asking, CATEGORIES)),
    wrong("the last edge row is lost", ALL, without_last_edge),
    wrong("rows 32 apart have one mark", WALKS, |asking| one_mark(asking, 32)),
    wrong("rows 64 apart have one mark", WALKS, |asking| one_mark(asking, 64)),
    wrong("a path has a category less than there are", ALL, bounded),
    wrong("the person before comes along", WALKS, |asking| along(asking, &[MEMBER], 1, -1)),
    wrong("the person after comes along", WALKS, |asking| along(asking, &[MEMBER], 1, 1)),
    wrong("the steps from the category before come along", ALL, |asking| step_along(asking, -1)),
    wrong("the steps from the category after come along", ALL, |asking| step_along(asking, 1)),
    wrong("the rights of the category before come along", WALKS, |asking| along(asking, &[GRANT, BAN], 1, -1)),
    wrong("the rights of the category after come along", WALKS, |asking| along(asking, &[GRANT, BAN], 1, 1)),
    wrong("the folio before comes along", WALKS, |asking| along(asking, &[APPLIES], 2, -1)),
    wrong("the folio after comes along", WALKS, |asking| along(asking, &[APPLIES], 2, 1)),
    wrong("the grants' marks stay for the bans", ANSWERS, grants_stay),
    wrong("office 1's marks stay for office 2", JOINTS, office_stays),
    wrong("bans are walked the way of grants", ALL, same_way),
    wrong("all offices are one", ALL, |asking| viewed(asking, |_, _| Office::stitched(&asking.sheet))),
    wrong("the variants of a deed are one", ALL, fused),
    wrong("a right on any deed serves", WALKS, any_deed),
    wrong("a deed applies to any folio", WALKS, any_folio),
    wrong("office 1 alone is asked", JOINTS, first_alone),
    wrong("office 1 decides", JOINTS, first_decides),
    wrong("every rule is grant-first", JOINTS, |asking| by_rule(asking, 1)),
    wrong("every rule is deny-first", JOINTS, |asking| by_rule(asking, 2)),
    wrong("a tie goes to the greatest", PATHS, |asking| chosen(asking, |_, _| true)),
    wrong("a tie at the start goes to the greatest", PATHS, |asking| chosen(asking, |at, _| at < 2)),
    wrong("a tie half way goes to the greatest", PATHS, |asking| chosen(asking, half_way)),
    wrong("a tie at the end goes to the greatest", PATHS, |asking| chosen(asking, |at, all| at + 2 >= all)),
    wrong("the least last category that differs decides", PATHS, from_the_end),
    wrong("a word too few is room enough", PATHS, a_word_too_few),
    wrong("no path is an empty one", PATHS, empty_path),
    wrong("a list's odd word is dropped", LISTS, odd_word_dropped),
    wrong("a list may have a category twice", LISTS, |asking| loosely(asking, Loose::Twice)),
    wrong("a list may go a step either way", LISTS, |asking| loosely(asking, Loose::EitherWay)),
    wrong("a list may leave out a category", LISTS, |asking| loosely(asking, Loose::LeftOut)),
    wrong("a list's middle is not looked at", LISTS, |asking| loosely(asking, Loose::Middle)),
];

/// Without a mistake, by what the wrong versions have in common: told apart from the right
/// answer, these would show a slip of theirs.
#[rustfmt::skip]
pub const RIGHT: [Misreading<Asking>; 4] = [
    wrong("what an office has", ALL, |asking| viewed(asking, |office, _| asking.office(office))),
    wrong("all edge rows", ALL, |asking| changed(asking, |_| ())),
    wrong("a tie goes to the least", PATHS, |asking| chosen(asking, |_, _| false)),
    wrong("a list is let off nothing", LISTS, |asking| loosely(asking, Loose::Nothing)),
];

impl Asking {
    fn ask(&self) -> Ask {
        ask_of(self.operation, &self.numbers)
    }

    fn right(&self) -> Outcome {
        answer(self.operation, &self.numbers, &self.sheet, &self.list, self.room)
    }

    fn office(&self, number: u32) -> Office {
        Office::of(&self.sheet, number)
    }

    /// The sheet with other edge rows. It need not be one that the check accepts.
    fn with_edges(&self, change: impl Fn(&mut Vec<Row>)) -> Vec<u32> {
        let nodes = node_count(&self.sheet);
        let mut edges: Vec<Row> =
            edge_rows(&self.sheet).map(|row| [row[0], row[1], row[2], row[3]]).collect();
        change(&mut edges);
        let mut sheet = self.sheet[..edge_offset(nodes)].to_vec();
        sheet[3] = edges.len() as u32;
        sheet.extend(edges.iter().flatten());
        sheet
    }

    fn types(&self) -> Vec<u32> {
        node_rows(&self.sheet).iter().map(|row| row[0]).collect()
    }
}

/// Questions 1 to 3, by what finds a path at an office.
fn walked(asking: &Asking, find: impl Fn(u32, Side) -> Option<Path>) -> Outcome {
    let value = |office: u32| {
        let found = |side: Side| u32::from(find(office, side).is_some());
        found(Side::Grant) + 2 * found(Side::Ban)
    };
    let first = asking.numbers[0];
    match asking.operation {
        ANSWER => Ok(Answer { value: value(first), ..Answer::default() }),
        JOINT => {
            let answers: Vec<u32> = (1..=office_count(&asking.sheet)).map(value).collect();
            let (value, count) = joint(first, &answers);
            Ok(Answer { value, count, ..Answer::default() })
        }
        _ => {
            let path = find(first, Side::of_word(asking.numbers[1])).ok_or(refusal(26))?;
            fitting(words(&path), asking.room)
        }
    }
}

fn shown(yes: bool) -> Outcome {
    Ok(Answer { value: u32::from(yes), ..Answer::default() })
}

/// The right answer, but from what an office is taken to have.
fn viewed(asking: &Asking, view: impl Fn(u32, Side) -> Office) -> Outcome {
    let ask = asking.ask();
    if asking.operation == LISTED {
        let side = Side::of_word(asking.numbers[1]);
        return shown(is_path(&view(asking.numbers[0], side), side, &ask, &asking.list));
    }
    walked(asking, |office, side| witness(&view(office, side), side, &ask))
}

fn changed(asking: &Asking, change: impl Fn(&mut Vec<Row>)) -> Outcome {
    let sheet = asking.with_edges(change);
    viewed(asking, |office, _| Office::of(&sheet, office))
}

fn without_row(asking: &Asking, lost: u32) -> Outcome {
    changed(asking, |edges| edges.retain(|row| ![row[1], row[2]].contains(&lost)))
}

fn without_last_edge(asking: &Asking) -> Outcome {
    changed(asking, |edges| edges.truncate(edges.len() - 1))
}

fn one_mark(asking: &Asking, apart: u32) -> Outcome {
    let types = asking.types();
    let category = |row: u32| types.get(row as usize) == Some(&CATEGORY);
    let all = all_marks(office_count(&asking.sheet));
    changed(asking, |edges| {
        let rows = (0..types.len() as u32).filter(|&row| category(row) && category(row ^ apart));
        edges.extend(rows.map(|row| [CONTAINED, row, row ^ apart, all]));
    })
}

fn bounded(asking: &Asking) -> Outcome {
    // Person, deed and folio come to the categories.
    let most = CATEGORIES as usize - 1 + 3;
    if asking.operation == LISTED && asking.list.len() > 2 * most {
        return shown(false);
    }
    if asking.operation == LISTED {
        return asking.right();
    }
    let find = |office, side| witness(&asking.office(office), side, &asking.ask());
    walked(asking, |office, side| find(office, side).filter(|path| path.len() <= most))
}

/// The edge as the row so many further has it at this end, if that is of the same type.
fn also_at(types: &[u32], edge: &Row, end: usize, further: i32) -> Option<Row> {
    let row = edge[end].checked_add_signed(further)?;
    let alike = types.get(row as usize) == Some(&types[edge[end] as usize]);
    let mut also = *edge;
    also[end] = row;
    (alike && also[1] != also[2]).then_some(also)
}

/// Every row takes along the edges of these kinds that the row so many further has at this end.
fn with_neighbours(asking: &Asking, kinds: &[u32], end: usize, further: i32) -> Vec<u32> {
    let types = asking.types();
    asking.with_edges(|edges| {
        let own = edges.iter().filter(|row| kinds.contains(&row[0]));
        let more: Vec<Row> = own.filter_map(|row| also_at(&types, row, end, -further)).collect();
        edges.extend(more);
    })
}

fn along(asking: &Asking, kinds: &[u32], end: usize, further: i32) -> Outcome {
    let sheet = with_neighbours(asking, kinds, end, further);
    viewed(asking, |office, _| Office::of(&sheet, office))
}

/// A ban's walk leaves an edge's other end.
fn step_along(asking: &Asking, further: i32) -> Outcome {
    let [from, to] = [1, 2].map(|end| with_neighbours(asking, &[CONTAINED], end, further));
    viewed(asking, |office, side| match side {
        Side::Grant => Office::of(&from, office),
        Side::Ban => Office::of(&to, office),
    })
}

/// The categories that a walk comes to.
fn reached(office: &Office, side: Side, person: u32) -> BTreeSet<u32> {
    let steps = ahead(office, side);
    let mut open: Vec<u32> =
        office.member.iter().filter(|pair| pair.0 == person).map(|pair| pair.1).collect();
    let mut reached = BTreeSet::new();
    while let Some(category) = open.pop() {
        if reached.insert(category) {
            open.extend(steps.get(&category).into_iter().flatten());
        }
    }
    reached
}

fn ahead(office: &Office, side: Side) -> BTreeMap<u32, BTreeSet<u32>> {
    let mut ahead = BTreeMap::new();
    for (from, to) in office.all_steps(side) {
        ahead.entry(from).or_insert_with(BTreeSet::new).insert(to);
    }
    ahead
}

/// An office where the person is also in categories that are still marked.
fn marked(mut office: Office, person: u32, still: BTreeSet<u32>) -> Office {
    office.member.extend(still.into_iter().map(|category| (person, category)));
    office
}

fn grants_stay(asking: &Asking) -> Outcome {
    let person = asking.ask().person;
    viewed(asking, |office, side| {
        let own = asking.office(office);
        match side {
            Side::Grant => own,
            Side::Ban => {
                let still = reached(&own, Side::Grant, person);
                marked(own, person, still)
            }
        }
    })
}

fn office_stays(asking: &Asking) -> Outcome {
    let person = asking.ask().person;
    viewed(asking, |office, side| match office {
        1 => asking.office(1),
        _ => marked(asking.office(office), person, reached(&asking.office(1), side, person)),
    })
}

fn same_way(asking: &Asking) -> Outcome {
    viewed(asking, |office, side| {
        let mut own = asking.office(office);
        if side == Side::Ban {
            own.contained = own.contained.iter().map(|&(low, high)| (high, low)).collect();
        }
        own
    })
}

fn fused(asking: &Asking) -> Outcome {
    let mut one = asking.list.clone();
    if let Some(at) = one.len().checked_sub(3) {
        one[at] = 0;
    }
    let fused = Asking { list: one, sheet: asking.sheet.clone(), ..*asking };
    viewed(&fused, |office, _| fused.office(office).fused())
}

fn any_deed(asking: &Asking) -> Outcome {
    viewed(asking, |office, _| {
        let mut own = asking.office(office);
        let deeds = own.deeds.clone();
        for rights in [&mut own.grant, &mut own.ban] {
            let with: Vec<u32> = rights.iter().map(|pair| pair.0).collect();
            let every = |category: u32| deeds.iter().map(move |&deed| (category, deed));
            rights.extend(with.into_iter().flat_map(every));
        }
        own
    })
}

fn any_folio(asking: &Asking) -> Outcome {
    viewed(asking, |office, _| {
        let mut own = asking.office(office);
        let folios = own.folios.clone();
        let every = |&deed| folios.iter().map(move |&folio| (deed, folio));
        own.applies = own.deeds.iter().flat_map(every).collect();
        own
    })
}

fn first_alone(asking: &Asking) -> Outcome {
    let (value, count) = joint(asking.numbers[0], &[answer_at(&asking.office(1), &asking.ask())]);
    Ok(Answer { value, count, ..Answer::default() })
}

fn first_decides(asking: &Asking) -> Outcome {
    asking.right().map(|said| Answer { count: said.count.min(1), ..said })
}

fn by_rule(asking: &Asking, rule: u32) -> Outcome {
    let mut numbers = asking.numbers;
    numbers[0] = rule;
    answer(JOINT, &numbers, &asking.sheet, &[], 0)
}

/// How many steps it is from each category to one that has the right.
fn distances(office: &Office, side: Side, ask: &Ask) -> BTreeMap<u32, usize> {
    let serving = office.serving(ask);
    let ends = office.rights(side).iter().filter(|pair| serving.contains(&pair.1));
    let back = ahead(office, side.other());
    let mut layer: BTreeSet<u32> = ends.map(|pair| pair.0).collect();
    let mut distances = BTreeMap::new();
    for distance in 0.. {
        layer.retain(|category| !distances.contains_key(category));
        if layer.is_empty() {
            break;
        }
        distances.extend(layer.iter().map(|&category| (category, distance)));
        let before = layer.iter().filter_map(|category| back.get(category)).flatten();
        layer = before.copied().collect();
    }
    distances
}

/// A shortest path, each category chosen by its place among so many: `greatest` tells whether
/// it is the greatest that leads on, and not the least.
fn chosen(asking: &Asking, greatest: fn(usize, usize) -> bool) -> Outcome {
    let (ask, side) = (asking.ask(), Side::of_word(asking.numbers[1]));
    let office = asking.office(asking.numbers[0]);
    let Some(right) = witness(&office, side, &ask) else {
        return asking.right();
    };
    let (distances, steps) = (distances(&office, side, &ask), ahead(&office, side));
    let length = right.len() - 3;
    let starts = office.member.iter().filter(|pair| pair.0 == ask.person).map(|pair| pair.1);
    let mut choice: BTreeSet<u32> = starts.collect();
    let mut path = right.clone();
    for at in 0..length {
        choice.retain(|category| distances.get(category) == Some(&(length - 1 - at)));
        let one = if greatest(at, length) { choice.last() } else { choice.first() };
        path[1 + at].0 = *one.expect("a shortest path goes on");
        choice = steps.get(&path[1 + at].0).cloned().unwrap_or_default();
    }
    fitting(words(&path), asking.room)
}

fn half_way(at: usize, length: usize) -> bool {
    (length / 4..3 * length / 4).contains(&at)
}

/// The witness of the path walked back, from the right to the person.
fn from_the_end(asking: &Asking) -> Outcome {
    let (ask, side) = (asking.ask(), Side::of_word(asking.numbers[1]));
    let own = asking.office(asking.numbers[0]);
    let serving = own.serving(&ask);
    let ends = own.rights(side).iter().filter(|pair| serving.contains(&pair.1));
    let starts = own.member.iter().filter(|pair| pair.0 == ask.person);
    let deed = *serving.first().ok_or(refusal(26))?;
    let mut turned = own.clone();
    turned.member = ends.map(|pair| (ask.person, pair.0)).collect();
    let rights = starts.map(|pair| (pair.1, deed)).collect();
    match side {
        Side::Grant => turned.ban = rights,
        Side::Ban => turned.grant = rights,
    }
    let mut path = witness(&turned, side.other(), &ask).ok_or(refusal(26))?;
    let end = path.len() - 2;
    path[1..end].reverse();
    fitting(words(&path), asking.room)
}

fn a_word_too_few(asking: &Asking) -> Outcome {
    let more = Asking { room: asking.room + 1, ..copied(asking) };
    let mut said = more.right()?;
    said.written.truncate(asking.room);
    Ok(said)
}

fn copied(asking: &Asking) -> Asking {
    Asking { sheet: asking.sheet.clone(), list: asking.list.clone(), ..*asking }
}

fn empty_path(asking: &Asking) -> Outcome {
    match asking.right() {
        Err(Refusal { number: 26, .. }) => Ok(Answer::default()),
        said => said,
    }
}

fn odd_word_dropped(asking: &Asking) -> Outcome {
    let mut even = copied(asking);
    even.list.truncate(asking.list.len() / 2 * 2);
    even.right()
}

/// What a list is let off.
#[derive(Clone, Copy, PartialEq)]
enum Loose {
    Nothing,
    Twice,
    EitherWay,
    LeftOut,
    Middle,
}

/// A list whose ends are right, with one thing about its categories not looked at.
fn loosely(asking: &Asking, loose: Loose) -> Outcome {
    let (ask, side) = (asking.ask(), Side::of_word(asking.numbers[1]));
    let office = asking.office(asking.numbers[0]);
    let nodes: Vec<(u32, u32)> =
        asking.list.chunks(2).map(|two| (two[0], two[two.len() - 1])).collect();
    if asking.list.len() % 2 != 0 || nodes.len() < 4 {
        return asking.right();
    }
    let categories: Vec<u32> = nodes[1..nodes.len() - 2].iter().map(|node| node.0).collect();
    let ends = [&nodes[..2], &nodes[nodes.len() - 3..]].concat();
    // The ends by themselves are a path of an office where one step joins them.
    let (first, last) = (ends[1].0, ends[2].0);
    let mut joined = office.clone();
    joined.contained.extend([(first, last), (last, first)]);
    let short = if first == last { [&ends[..2], &ends[3..]].concat() } else { ends };
    let distinct = categories.iter().collect::<BTreeSet<_>>().len() == categories.len();
    let steps = |from: u32, to: u32| match loose {
        Loose::Middle => true,
        Loose::EitherWay => office.steps(side, from, to) || office.steps(side, to, from),
        Loose::LeftOut => {
            let over = |&way: &u32| office.steps(side, from, way) && office.steps(side, way, to);
            office.steps(side, from, to) || office.categories.iter().any(over)
        }
        Loose::Nothing | Loose::Twice => office.steps(side, from, to),
    };
    let goes = categories.windows(2).all(|pair| steps(pair[0], pair[1]));
    let ends_fit = is_path(&joined, side, &ask, &words(&short));
    shown(ends_fit && goes && (distinct || loose == Loose::Twice))
}
