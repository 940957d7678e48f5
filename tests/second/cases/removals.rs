//! What question 10 lists is removed, one edge at a time. Of each sheet drawn, one
//! removal is put to the trial: it lists the edge, it accepts the sheet without it, and
//! it answers question 1 as before. What is expected is what was answered before the
//! removal. This program alone removes every edge that is listed (`run`).

use crate::cases::plan::{asked_case, judged, Case};
use crate::cases::series::{made, Made, Series};
use crate::generate::dress::dress;
use crate::generate::inquiry::Inquiry;
use crate::generate::random::Random;
use crate::generate::{memberships, scene, throng};
use crate::goals;
use crate::model::answer::ANSWER;
use crate::model::redundant::redundant_rows;
use crate::model::removal::{every_answer, removals, Removal, Said};
use crate::model::sheet::*;
use crate::model::survey::REDUNDANT;
use crate::named;
use crate::trial::expect::expect;
use crate::trial::operation::CHECK_WORDS;
use crate::trial::request::Request;

/// Requests of one removal: the list, the check, and so many questions.
pub const ASKED: usize = 2 + QUESTIONS;
const QUESTIONS: usize = 6;

const STREAM: u64 = 0x5265_6D6F_7661_6C73;

/// Sheets are drawn apart from what is asked of them.
const SHEETS: u64 = 0x4C69_7374_6564_2E2E;

pub struct Removals {
    seed: u64,
    named: Series,
    pub sheets: usize,
}

/// A sheet, an edge removed from it, and what question 1 is asked afterwards: office,
/// person, deed, folio.
struct Chosen {
    words: Vec<u32>,
    removal: Removal,
    asks: Vec<[u32; 4]>,
}

impl Removals {
    pub fn new(seed: u64, sheets: usize) -> Removals {
        let named = Series::new(seed, STREAM, named::removals::all(), Vec::new());
        Removals { seed: seed ^ STREAM, named, sheets }
    }

    pub fn len(&self) -> usize {
        self.named.len() + ASKED * self.sheets
    }

    pub fn sheet(&self, at: usize) -> Vec<u32> {
        self.drawn(at).0
    }

    /// A sheet with an edge that is listed, and with something to ask; and each removal
    /// that it lists. Each kind of edge is looked for in turn, but not for long.
    fn drawn(&self, at: usize) -> (Vec<u32>, Vec<Removal>, Random) {
        let mut random = Random::for_case(self.seed ^ SHEETS, at as u64);
        let mut tries = 4;
        loop {
            let words = small(&mut random).words();
            let listed = removals(&words, redundant_rows);
            tries -= 1;
            let wanted = tries < 0 || listed.iter().any(|removal| removal.kind == kind(at));
            if wanted && !listed.is_empty() && can_be_asked(&words) {
                return (words, listed, random);
            }
        }
    }

    fn chosen(&self, at: usize) -> Chosen {
        let (words, mut listed, mut random) = self.drawn(at);
        random.shuffle(&mut listed);
        listed.sort_by_key(|removal| removal.kind != kind(at));
        let mut said = every_answer(&words);
        random.shuffle(&mut said);
        let asks = asks(&said);
        Chosen { words, removal: listed.swap_remove(0), asks }
    }

    /// Its number in a plan, and its place here.
    pub fn case(&self, number: usize, at: usize) -> Case {
        let Some(at) = at.checked_sub(self.named.len()) else {
            return asked_case(number, self.named.case(at));
        };
        let mut random = Random::for_case(self.seed, at as u64);
        let chosen = self.chosen(at / ASKED);
        match at % ASKED {
            0 => asked_case(number, chosen.list(&mut random)),
            1 => chosen.as_before(number, dress(&mut random, CHECK_WORDS, chosen.rest())),
            leg => chosen.question(&mut random, number, leg - 2),
        }
    }
}

fn kind(at: usize) -> u32 {
    [MEMBER, CONTAINED, GRANT, BAN][at % 4]
}

pub fn small(random: &mut Random) -> Sheet {
    match random.below(10) {
        0 => scene::small(random),
        1..=4 => throng::small(random),
        _ => memberships::small(random),
    }
}

pub fn can_be_asked(words: &[u32]) -> bool {
    let has = |sort: u32| node_rows(words).iter().any(|row| row[0] == sort);
    has(PERSON) && has(DEED) && has(FOLIO)
}

/// Every triple at every office. Only an answer that there was can be lost, so those
/// come first.
fn asks(said: &[Said]) -> Vec<[u32; 4]> {
    let mut asks = Vec::new();
    for Said { ask, at, .. } in said {
        for (office, said) in (1..).zip(at) {
            asks.push((said.unwrap_or(0) == 0, [office, ask.person, ask.deed, ask.folio]));
        }
    }
    asks.sort_by_key(|(nothing, _)| *nothing);
    asks.into_iter().map(|(_, ask)| ask).collect()
}

impl Chosen {
    fn rest(&self) -> Vec<u8> {
        bytes_of(&self.removal.rest)
    }

    fn name(&self) -> String {
        let Removal { office, row, kind, .. } = self.removal;
        format!("without row {row} of kind {kind} at office {office}")
    }

    /// The trial lists the edge, of the sheet that still has it.
    fn list(&self, random: &mut Random) -> Made {
        let office = self.removal.office;
        let room = redundant_rows(&self.words, office).len();
        let sheet = bytes_of(&self.words);
        let (operation, numbers, second) = (REDUNDANT, vec![office], Vec::new());
        let inquiry = Inquiry { operation, numbers, sheet, second, room };
        made(random, "removal: the list", self.name(), inquiry)
    }

    /// The last question is one that is likely to have had no answer.
    fn question(&self, random: &mut Random, number: usize, at: usize) -> Case {
        let last = self.asks.len() - 1;
        let ask = self.asks[if at + 1 == QUESTIONS { last } else { at.min(last) }];
        let (operation, numbers, sheet) = (ANSWER, ask.to_vec(), self.rest());
        let inquiry = Inquiry { operation, numbers, sheet, second: Vec::new(), room: 0 };
        let mut case = self.as_before(number, inquiry.request(random));
        let [refused, _, _, value, ..] = case.expected.reply;
        case.about.goals = goals::met(&case.request, &case.expected);
        if refused == 0 {
            case.about.goals.extend(goals::removals::asked(&self.removal, ask[0], value));
        }
        case
    }

    /// Of the sheet without the edge, with what is to be said of the sheet that had it.
    fn as_before(&self, number: usize, request: Request) -> Case {
        let before = expect(&Request { first: bytes_of(&self.words), ..request.clone() });
        let mut case = judged(number, "removal: as before", self.name(), request);
        let changed = case.expected != before;
        let fault =
            || format!("this program says {:?} of the sheet without it", case.expected.reply);
        case.about.own_fault = changed.then(fault);
        case.expected = before;
        case
    }
}
