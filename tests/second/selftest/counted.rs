//! Questions 5 to 10 against every path of small sheets, counted out row by row:
//! nothing of the closures is used here.

use std::collections::BTreeSet;

use crate::generate::random::Random;
use crate::generate::{memberships, throng};
use crate::model::judge::judge_words;
use crate::model::marks::mark_of;
use crate::model::office::{Ask, Side};
use crate::model::sheet::*;
use crate::model::survey::survey;
use crate::run::tally::Tally;
use crate::selftest::paths::{all_paths, ask_words};

pub fn run(tally: &mut Tally) {
    for number in 0..1_800 {
        let random = &mut Random::for_case(11, number);
        let (name, sheet) = match number {
            0..1_200 => (format!("throng {number}"), throng::small(random)),
            _ => (format!("memberships {number}"), memberships::small(random)),
        };
        let words = sheet.words();
        tally.test(&format!("{name} is valid"), judge_words(&words).number == 0);
        let office = random.between(1, sheet.office_count as usize) as u32;
        let counted = Counted::of(&sheet, office);
        for operation in 5..=10 {
            let agreed = counted.agrees(&words, office, operation);
            tally.test(&format!("{name}, question {operation}"), agreed);
        }
    }
}

struct Counted<'a> {
    sheet: &'a Sheet,
    mark: u32,
    granted: BTreeSet<(u32, u32, u32)>,
    banned: BTreeSet<(u32, u32, u32)>,
}

fn triples(sheet: &Sheet, office: u32, side: Side) -> BTreeSet<(u32, u32, u32)> {
    let paths = all_paths(sheet, office, side);
    let triple = |list: &Vec<u32>| {
        let Ask { person, deed, folio } = ask_words(list);
        (person, deed, folio)
    };
    paths.iter().map(triple).collect()
}

impl<'a> Counted<'a> {
    fn of(sheet: &'a Sheet, office: u32) -> Counted<'a> {
        let granted = triples(sheet, office, Side::Grant);
        let banned = triples(sheet, office, Side::Ban);
        Counted { sheet, mark: mark_of(office), granted, banned }
    }

    /// Numbers of a type that the office knows, each once.
    fn numbers(&self, sort: u32) -> BTreeSet<u32> {
        let known = |row: &&Row| row[0] == sort && row[3] & self.mark != 0;
        self.sheet.nodes.iter().filter(known).map(|row| row[1]).collect()
    }

    /// Everything that the question can be asked of this office.
    fn agrees(&self, words: &[u32], office: u32, operation: u32) -> bool {
        let says = |numbers: &[u32]| {
            let asked: Vec<u32> = [office].into_iter().chain(numbers.iter().copied()).collect();
            survey(operation, &asked, words, 999).map_or(Vec::new(), |answer| answer.written)
        };
        let (deeds, folios) = (self.numbers(DEED), self.numbers(FOLIO));
        match operation {
            5 => self.numbers(CATEGORY).into_iter().all(|c| says(&[c]) == self.in_category(c)),
            6 => deeds.iter().all(|&d| folios.iter().all(|&f| says(&[d, f]) == self.persons(d, f))),
            7 => says(&[]) == self.without_grant(),
            8 => says(&[]) == self.both(),
            9 => deeds.iter().all(|&d| {
                let mut others = deeds.iter().filter(|&&other| other != d);
                others.all(|&other| says(&[d, other]) == self.pair(d, other))
            }),
            _ => says(&[]) == self.redundant(),
        }
    }

    fn persons(&self, deed: u32, folio: u32) -> Vec<u32> {
        let mut persons = self.numbers(PERSON);
        persons.retain(|&person| self.granted.contains(&(person, deed, folio)));
        persons.into_iter().collect()
    }

    fn without_grant(&self) -> Vec<u32> {
        let mut folios = self.numbers(FOLIO);
        folios.retain(|&folio| !self.granted.iter().any(|triple| triple.2 == folio));
        folios.into_iter().collect()
    }

    fn both(&self) -> Vec<u32> {
        let least = self.granted.intersection(&self.banned).next();
        least.map_or(Vec::new(), |&(person, deed, folio)| vec![person, deed, folio])
    }

    fn pair(&self, one: u32, other: u32) -> Vec<u32> {
        let mut pairs = BTreeSet::new();
        for &(person, deed, folio) in &self.granted {
            if deed == one && self.granted.contains(&(person, other, folio)) {
                pairs.insert((person, folio));
            }
        }
        pairs.first().map_or(Vec::new(), |&(person, folio)| vec![person, folio])
    }

    /// Edges of one kind from a row, at the office.
    fn next(&self, kind: u32, from: u32) -> Vec<u32> {
        let fits = |row: &&Row| row[0] == kind && row[1] == from && row[3] & self.mark != 0;
        self.sheet.edges.iter().filter(fits).map(|row| row[2]).collect()
    }

    /// The lengths of all paths of containments from one row to another, no row
    /// twice.
    fn lengths(&self, seen: &mut Vec<u32>, to: u32, lengths: &mut BTreeSet<usize>) {
        let here = seen[seen.len() - 1];
        if here == to {
            lengths.insert(seen.len() - 1);
            return;
        }
        for next in self.next(CONTAINED, here) {
            if !seen.contains(&next) {
                seen.push(next);
                self.lengths(seen, to, lengths);
                seen.pop();
            }
        }
    }

    fn steps(&self, from: u32, to: u32) -> BTreeSet<usize> {
        let mut lengths = BTreeSet::new();
        self.lengths(&mut vec![from], to, &mut lengths);
        lengths
    }

    fn in_category(&self, category: u32) -> Vec<u32> {
        let rows = self.sheet.nodes.iter();
        let row = rows.clone().position(|row| row[0] == CATEGORY && row[1] == category);
        let to = row.map_or(0, |row| row as u32);
        let inside =
            |from: u32| self.next(MEMBER, from).iter().any(|&c| !self.steps(c, to).is_empty());
        let persons = (0..).zip(rows).filter(|(at, row)| row[0] == PERSON && inside(*at));
        persons.map(|(_, row)| row[1]).collect()
    }

    fn redundant(&self) -> Vec<u32> {
        let rows = (0..).zip(&self.sheet.edges).filter(|(_, row)| row[3] & self.mark != 0);
        rows.filter(|(_, row)| self.is_redundant(row)).map(|(at, _)| at).collect()
    }

    fn is_redundant(&self, row: &Row) -> bool {
        let [kind, from, to, _] = *row;
        let over = |low: u32, high: u32| low != high && !self.steps(low, high).is_empty();
        let holders = |kind: u32| {
            let fits = move |row: &&Row| row[0] == kind && row[2] == to && row[3] & self.mark != 0;
            self.sheet.edges.iter().filter(fits).map(|row| row[1])
        };
        match kind {
            MEMBER => {
                let own = self.next(MEMBER, from);
                let bans = |row: &Row| row[0] == BAN && row[3] & self.mark != 0;
                own.iter().any(|&other| over(other, to))
                    && (!self.sheet.edges.iter().any(bans)
                        || own.iter().any(|&other| over(to, other)))
            }
            CONTAINED => self.steps(from, to).into_iter().any(|length| length >= 2),
            GRANT => holders(GRANT).any(|other| over(from, other)),
            BAN => holders(BAN).any(|other| over(other, from)),
            _ => false,
        }
    }
}
