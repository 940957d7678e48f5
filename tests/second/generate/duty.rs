//! Small sheets for the duty desk: the two offices know the same names for the most part,
//! and each answers as it likes.

use crate::generate::cast::cast;
use crate::generate::draft::Draft;
use crate::generate::random::Random;
use crate::generate::{damage, make, pairs, scene};
use crate::model::office::{Deed, Side};
use crate::model::sheet::*;

/// A person or two, a deed number or two, and up to three folios. A grant and a ban of one
/// deed are of two variants, so each office may have either, both or none.
pub fn small(random: &mut Random) -> Sheet {
    let (cast, mut draft) = (cast(random), Draft::default());
    let persons = &cast.persons[..random.between(1, 2)];
    let folios = &cast.folios[..random.between(1, 3)];
    let numbers = &cast.deeds[..random.between(1, 2)];
    for (person, category) in persons.iter().zip(&cast.categories) {
        draft.member(*person, *category, offices(random));
        for &number in numbers {
            for (side, variant) in [Side::Grant, Side::Ban].into_iter().zip(&cast.variants) {
                let offices = random.below(4) as u32;
                if offices != 0 {
                    draft.right(side, *category, (number, *variant), offices);
                }
            }
        }
    }
    let deeds = numbers.iter().flat_map(|&number| {
        cast.variants[..2].iter().map(move |&variant| -> Deed { (number, variant) })
    });
    for deed in deeds {
        for &folio in folios {
            draft.applies(deed, folio, offices(random));
        }
    }
    draft.sheet(2)
}

/// Both in most cases.
fn offices(random: &mut Random) -> u32 {
    random.pick(&[1, 2, 3, 3, 3, 3, 3, 3])
}

/// Of two offices.
pub fn any(random: &mut Random) -> Sheet {
    let sheet = match random.below(20) {
        0 => make::small(random),
        1..=4 => scene::small(random),
        _ => small(random),
    };
    match sheet.office_count {
        2 => sheet,
        _ => small(random),
    }
}

/// Of one office: office 1 alone has what it had.
pub fn of_one_office(random: &mut Random) -> Sheet {
    loop {
        let sheet = scene::small(random);
        if sheet.office_count == 1 {
            return sheet;
        }
    }
}

/// As many rows as there may be.
pub fn full(random: &mut Random) -> Sheet {
    loop {
        let sheet = make::full(random);
        if sheet.office_count == 2 {
            return sheet;
        }
    }
}

/// Some of the spoiled ones are still sheets.
pub fn bad(random: &mut Random, spoiled: bool) -> Vec<u32> {
    match spoiled {
        true => {
            let words = small(random).words();
            pairs::spoiled(random, &words)
        }
        false => words_of(&damage::any(random)),
    }
}
