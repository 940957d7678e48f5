//! What to ask of a sheet: triples that have a path here, or elsewhere, or that
//! are not known at all.

use crate::generate::lists::{path_ask, stroll};
use crate::generate::random::Random;
use crate::model::closure::witness;
use crate::model::limits::MOST_OFFICES;
use crate::model::office::{Ask, Office, Side};
use crate::model::sheet::office_count;
use crate::trial::request::MOST_OUTPUT;

/// One office's view, and the others' for comparison.
pub struct Desk {
    pub here: Office,
    pub elsewhere: Vec<Office>,
    pub side: Side,
}

impl Desk {
    pub fn open(words: &[u32], office: u32, side: Side) -> Desk {
        let others = (1..=office_count(words)).filter(|&other| other != office);
        let mut elsewhere: Vec<Office> = others.map(|other| Office::of(words, other)).collect();
        elsewhere.push(Office::stitched(words));
        Desk { here: Office::of(words, office), elsewhere, side }
    }

    /// What any office knows.
    pub fn all(&self) -> &Office {
        &self.elsewhere[self.elsewhere.len() - 1]
    }

    pub fn ask(&self, random: &mut Random, manner: &str) -> Ask {
        match manner {
            "question: anything known" => self.anything_known(random),
            "question: a path elsewhere" => {
                let office = &self.elsewhere[random.below(self.elsewhere.len())];
                let path = stroll(random, office, self.side);
                path.map_or_else(|| self.anything_known(random), |path| path_ask(&path))
            }
            "question: something unknown" => self.something_unknown(random),
            "question: bad office or rule" if random.one_in(2) => self.something_unknown(random),
            _ => self.a_path(random),
        }
    }

    fn a_path(&self, random: &mut Random) -> Ask {
        let side = if random.one_in(5) { self.side.other() } else { self.side };
        let path = stroll(random, &self.here, side);
        path.map_or_else(|| self.anything_known(random), |path| path_ask(&path))
    }

    fn anything_known(&self, random: &mut Random) -> Ask {
        let deeds = self.here.deeds.iter().map(|deed| deed.0);
        Ask {
            person: one(random, self.here.persons.iter().copied()),
            deed: one(random, deeds),
            folio: one(random, self.here.folios.iter().copied()),
        }
    }

    fn something_unknown(&self, random: &mut Random) -> Ask {
        let mut ask = self.a_path(random);
        let which = random.between(1, 7);
        let all = self.all();
        if which & 1 != 0 {
            let absent = all.persons.difference(&self.here.persons).copied();
            ask.person = self.stranger(random, ask.person, absent);
        }
        if which & 2 != 0 {
            let absent = all.deeds.difference(&self.here.deeds).map(|deed| deed.0);
            ask.deed = self.stranger(random, ask.deed, absent);
        }
        if which & 4 != 0 {
            let absent = all.folios.difference(&self.here.folios).copied();
            ask.folio = self.stranger(random, ask.folio, absent);
        }
        ask
    }

    /// Most likely unknown: one that only the other office has, a neighbour, a
    /// number of another type, or no number at all.
    pub fn stranger(
        &self,
        random: &mut Random,
        number: u32,
        absent: impl Iterator<Item = u32>,
    ) -> u32 {
        match random.below(9) {
            0 => 0,
            1 => u32::MAX,
            2 => number.wrapping_add(1),
            3 => number.wrapping_sub(1),
            4 => one(random, self.here.categories.iter().copied()),
            _ => one(random, absent),
        }
    }

    pub fn room(&self, random: &mut Random, ask: &Ask) -> usize {
        let path = witness(&self.here, self.side, ask);
        room_for(random, path.map_or(0, |path| 2 * path.len()))
    }
}

pub fn one(random: &mut Random, numbers: impl Iterator<Item = u32>) -> u32 {
    let numbers: Vec<u32> = numbers.collect();
    match numbers.len() {
        0 => random.odd_word(),
        _ => random.pick(&numbers),
    }
}

/// About the length of the result, where one word decides.
pub fn room_for(random: &mut Random, length: usize) -> usize {
    match random.below(24) {
        0..=6 => length,
        7..=9 => length.saturating_sub(1),
        10 => length.saturating_sub(2),
        11 => length / 2,
        12 => random.below(length + 1),
        13 => 0,
        14 => random.between(13, 1_200),
        15 if random.one_in(50) => MOST_OUTPUT,
        _ => length + random.between(1, 12),
    }
}

/// An office that no sheet of so many has.
pub fn bad_office(random: &mut Random, office_count: u32) -> u32 {
    let above = MOST_OFFICES + 1;
    random.pick(&[0, office_count + 1, above, above + 1, 257, 258, 1 << 31, u32::MAX])
}
