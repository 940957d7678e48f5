//! Sheets built up row by row, and what is asked after an addition. Each addition is
//! asked of the sheet so far; what comes of the last one is the sheet that the same rows
//! are as a listing, in another order. After a single addition the row is found where it
//! was said to stand, and question 1 is answered as before: everywhere after a node, and
//! at the other offices after an edge.

use crate::cases::additions::{added, searched};
use crate::cases::plan::{asked_case, Case};
use crate::cases::removals::{can_be_asked, small};
use crate::cases::series::Made;
use crate::generate::additions::right;
use crate::generate::dress::dress;
use crate::generate::inquiry::Inquiry;
use crate::generate::outline::Outline;
use crate::generate::random::Random;
use crate::generate::{pairs, texts, typing};
use crate::goals;
use crate::goals::additions::HOWS;
use crate::model::addition::{add, width};
use crate::model::answer::ANSWER;
use crate::model::contents::{Contents, Identity, Link};
use crate::model::limits::MOST_OFFICES;
use crate::model::marks::has;
use crate::model::position::{key_of, Table, TABLES};
use crate::model::removal::{every_answer, Said};
use crate::model::sheet::*;
use crate::trial::expect::expect;
use crate::trial::operation::{CHECK_WORDS, READ_LISTING};
use crate::trial::request::{Request, MOST_OUTPUT};

/// Requests of one sheet: the additions and searches by which it is built and the sheet
/// itself; then an addition to another, a search, and questions.
pub const ASKED: usize = BUILDING + AFTER;
const BUILDING: usize = 20;
const AFTER: usize = 2 + QUESTIONS;
const QUESTIONS: usize = 6;

const STREAM: u64 = 0x4275_696C_7433_3435;

/// Sheets are drawn apart from what is asked of them.
const SHEETS: u64 = 0x526F_7762_7952_6F77;

/// Each answer at each office that must stay after an addition to each table has its
/// turn, twice.
pub const TOUR: usize = 2 * 2 * 2 * 4;

pub struct Built {
    seed: u64,
    sheets: usize,
}

impl Built {
    /// So many beside the tour.
    pub fn new(seed: u64, random: usize) -> Built {
        Built { seed: seed ^ STREAM, sheets: TOUR + random }
    }

    pub fn len(&self) -> usize {
        ASKED * self.sheets
    }

    /// Its number in a plan, and its place here.
    pub fn case(&self, number: usize, at: usize) -> Case {
        let (sheet, leg) = (at / ASKED, at % ASKED);
        let mut drawn = Random::for_case(self.seed ^ SHEETS, sheet as u64);
        let mut random = Random::for_case(self.seed, at as u64);
        let (made, own) = match leg.checked_sub(BUILDING) {
            None => Building::drawn(&mut drawn, sheet).leg(&mut random, leg),
            Some(leg) => After::drawn(&mut drawn, sheet).leg(&mut random, leg),
        };
        let mut case = asked_case(number, made);
        case.about.goals.extend(own);
        case
    }
}

/// A row that is still to be added, by what it names.
#[derive(Clone, Copy)]
enum Step {
    Node(Identity, u32),
    Edge(Link, u32),
}

/// A sheet, and the order in which its rows come.
struct Building {
    sheet: Vec<u32>,
    steps: Vec<Step>,
    how: &'static str,
}

impl Building {
    fn drawn(random: &mut Random, at: usize) -> Building {
        let count = [1, MOST_OFFICES][at / 2 % 2];
        let sheet = loop {
            let sheet = pairs::whole(random).marked(random, count);
            if sheet.edges.len() > 2
                && (8..BUILDING).contains(&(sheet.nodes.len() + sheet.edges.len()))
            {
                break sheet.words();
            }
        };
        let Contents { nodes, edges } = Contents::of(&sheet);
        let mut steps: Vec<Step> =
            nodes.into_iter().map(|(node, offices)| Step::Node(node, offices)).collect();
        random.shuffle(&mut steps);
        let mut links: Vec<(Link, u32)> = edges.into_iter().collect();
        random.shuffle(&mut links);
        for (link, offices) in links {
            let after = steps.iter().rposition(|step| step.is_end_of(&link)).map_or(0, |at| at + 1);
            let place = if at % 2 == 0 { steps.len() } else { random.between(after, steps.len()) };
            steps.insert(place, Step::Edge(link, offices));
        }
        Building { sheet, steps, how: HOWS[at % 2] }
    }

    /// The sheet after so many steps.
    fn so_far(&self, count: usize) -> Vec<u32> {
        let nothing = Sheet::new(office_count(&self.sheet), &[], &[]).words();
        self.steps[..count].iter().fold(nothing, |words, step| {
            let (table, row) = step.row(&words);
            add(table, row, &words, MOST_OUTPUT).unwrap_or_default().written
        })
    }

    fn leg(&self, random: &mut Random, leg: usize) -> (Made, Vec<String>) {
        match leg {
            _ if leg < self.steps.len() => self.addition(random, leg),
            _ if leg + 1 < BUILDING => self.search(random),
            _ => self.finished(random),
        }
    }

    fn addition(&self, random: &mut Random, at: usize) -> (Made, Vec<String>) {
        let words = self.so_far(at);
        let (table, row) = self.steps[at].row(&words);
        let room = words.len() + width(table, &words) + random.below(3);
        let request = added(random, table, row, &words, room).request(random);
        let number = expect(&request).reply[0];
        let slip = (number != 0).then(|| format!("a row of a sheet is refused by {number}"));
        let name = format!("row {at} of {}, {}", self.steps.len(), self.how);
        (("built: a row more", name, request, slip), goals::additions::building(table, self.how))
    }

    fn search(&self, random: &mut Random) -> (Made, Vec<String>) {
        let words = self.so_far(self.steps.len());
        let table = random.pick(&TABLES);
        let rows = table.rows(&words);
        let at = random.below(rows.len());
        let request = searched(random, table, key_of(rows[at]), &words).request(random);
        let slip = not_at(&request, at);
        (("built: a row found", format!("row {at}"), request, slip), goals::additions::built(table))
    }

    /// What was built is what was drawn. The listing is of the drawn rows.
    fn finished(&self, random: &mut Random) -> (Made, Vec<String>) {
        let words = self.so_far(self.steps.len());
        let other = words != self.sheet;
        let slip = other.then(|| "what was built is not what was drawn".to_string());
        let goals = goals::additions::finished(office_count(&words), self.how);
        if office_count(&words) > 1 {
            let request = dress(random, CHECK_WORDS, bytes_of(&words));
            return (("built: joint", self.how.to_string(), request, slip), goals);
        }
        let rows = |table: Table| table.rows(&self.sheet);
        let outline = Outline::of(&Sheet::new(1, &rows(Table::Nodes), &rows(Table::Edges)));
        let text = typing::text(&texts::ordered(random, &outline));
        let (room, second) = (words.len() + random.below(3), Vec::new());
        let (operation, numbers, sheet) = (READ_LISTING, Vec::new(), text);
        let request = Inquiry { operation, numbers, sheet, second, room }.request(random);
        let unlike = !expect(&request).output.starts_with(&words);
        let listed = unlike.then(|| "what was built is not what is listed".to_string());
        (("built: as listed", self.how.to_string(), request, slip.or(listed)), goals)
    }
}

impl Step {
    fn is_end_of(&self, link: &Link) -> bool {
        matches!(self, Step::Node(node, _) if [link.1, link.2].contains(node))
    }

    /// As it is added to this sheet, which has its ends.
    fn row(&self, words: &[u32]) -> (Table, Row) {
        let at = |(sort, number, variant): Identity| {
            Table::Nodes.position([sort, number, variant], words).row
        };
        match *self {
            Step::Node((sort, number, variant), offices) => {
                (Table::Nodes, [sort, number, variant, offices])
            }
            Step::Edge((kind, from, to), offices) => {
                (Table::Edges, [kind, at(from), at(to), offices])
            }
        }
    }
}

/// The search does not say that the row is there, at this place.
fn not_at(request: &Request, row: usize) -> Option<String> {
    let said = expect(request).reply;
    (said[..5] != [0, 0, 0, 1, row as u32]).then(|| format!("row {row} is said to be {said:?}"))
}

/// A row added to a sheet that can be asked something.
struct After {
    words: Vec<u32>,
    table: Table,
    row: Row,
    /// office, person, deed, folio; and whether the answer must be as before
    asks: Vec<([u32; 4], bool)>,
}

impl After {
    /// The answer that has its turn is looked for, but not for long. Of an edge there are
    /// offices that it is not about, in most cases.
    fn drawn(random: &mut Random, at: usize) -> After {
        let table = TABLES[at % 2];
        let turn = (1 + (at / 8 % 2) as u32, (at / 2 % 4) as u32);
        let mut tries = 200;
        loop {
            let words = small(random).words();
            let Some(row) = right(random, table, &words, None) else { continue };
            let alone = row[3].count_ones() == office_count(&words);
            if !can_be_asked(&words) || (table == Table::Edges && alone && at % 16 != 15) {
                continue;
            }
            tries -= 1;
            let mut said = every_answer(&words);
            random.shuffle(&mut said);
            let (asks, met) = asks(table, row, &said, turn);
            if met || tries < 0 || (alone && table == Table::Edges) {
                return After { words, table, row, asks };
            }
        }
    }

    fn leg(&self, random: &mut Random, leg: usize) -> (Made, Vec<String>) {
        let room = self.words.len() + width(self.table, &self.words);
        let said = add(self.table, self.row, &self.words, room).unwrap_or_default();
        match leg {
            0 => {
                let inquiry = added(random, self.table, self.row, &self.words, room);
                (("built: one row", self.name(), inquiry.request(random), None), Vec::new())
            }
            1 => {
                let key = key_of(self.row);
                let request = searched(random, self.table, key, &said.written).request(random);
                let slip = not_at(&request, said.value as usize);
                let goals = goals::additions::found_again(self.table);
                (("built: found again", self.name(), request, slip), goals)
            }
            _ => self.question(random, &said.written, leg - 2),
        }
    }

    fn name(&self) -> String {
        format!("{:?}, {:?} more", self.table, self.row)
    }

    /// What must be as before comes first; the last question is one that need not be.
    fn question(&self, random: &mut Random, after: &[u32], at: usize) -> (Made, Vec<String>) {
        let last = self.asks.len() - 1;
        let (ask, same) = self.asks[if at + 1 == QUESTIONS { last } else { at.min(last) }];
        let (operation, numbers, sheet) = (ANSWER, ask.to_vec(), bytes_of(after));
        let request =
            Inquiry { operation, numbers, sheet, second: Vec::new(), room: 0 }.request(random);
        let before = expect(&Request { first: bytes_of(&self.words), ..request.clone() });
        let now = expect(&request);
        let changed = (same && now != before)
            .then(|| format!("it was answered {:?}, and is now {:?}", before.reply, now.reply));
        let goals = match (same, now.reply) {
            (true, [0, _, _, value, ..]) => goals::additions::as_before(self.table, ask[0], value),
            _ => Vec::new(),
        };
        (("built: question 1", self.name(), request, changed), goals)
    }
}

/// Every triple at every office, and whether its answer must stay: the office and answer
/// that have their turn come first, and then answers that could be lost. A new node changes
/// no answer, but it may be the first by which an office knows a number; an edge changes
/// none at an office without its mark. Tells whether the turn was met.
fn asks(table: Table, row: Row, said: &[Said], turn: (u32, u32)) -> (Vec<([u32; 4], bool)>, bool) {
    let mut asks = Vec::new();
    for Said { ask, at, .. } in said {
        for (office, said) in (1..).zip(at) {
            let same = match table {
                Table::Nodes => said.is_ok(),
                Table::Edges => !has(row[3], office),
            };
            let first = *said == Ok(turn.1) && office == turn.0;
            let order = (!same, !first, said.unwrap_or(0) == 0);
            asks.push((order, [office, ask.person, ask.deed, ask.folio]));
        }
    }
    asks.sort_by_key(|(order, _)| *order);
    let met = asks.first().is_some_and(|(order, _)| (order.0, order.1) == (false, false));
    (asks.into_iter().map(|(order, ask)| (ask, !order.0)).collect(), met)
}
