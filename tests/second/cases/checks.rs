//! The two checks of a sheet, and operations that there are not: first the named
//! cases, then one aimed at each cell of the coverage table, then random ones.

use crate::cases::plan::{judged, Case};
use crate::generate::dress::{dress, remainder};
use crate::generate::random::Random;
use crate::generate::{damage, make, scramble};
use crate::goals::coverage::{self, Cell};
use crate::model::sheet::bytes_of;
use crate::named::checks::{self, Named};
use crate::trial::operation::{CHECK_BYTES, CHECK_WORDS, NO_OPERATIONS, UNKNOWN};

pub struct Checks {
    seed: u64,
    named: Vec<Named>,
    targets: Vec<Cell>,
    random: usize,
}

type Maker = fn(&mut Random) -> Vec<u8>;

/// Kinds made without a target, and their shares out of 100; the rest is
/// "damaged".
const KINDS: [(&str, usize, Maker); 10] = [
    ("valid", 20, valid),
    ("several faults", 24, damage::several),
    ("random words", 4, scramble::random_words),
    ("words after a header", 8, scramble::words_after_header),
    ("cut or longer", 6, scramble::resized),
    ("flipped bits", 6, scramble::flipped_bits),
    ("swapped words", 3, scramble::swapped_words),
    ("swapped rows", 3, scramble::swapped_rows),
    ("duplicated row", 3, scramble::duplicated_row),
    ("unknown operation", 1, valid),
];

fn valid(random: &mut Random) -> Vec<u8> {
    bytes_of(&make::any(random).words())
}

impl Checks {
    pub fn new(seed: u64, random: usize) -> Checks {
        let refused = |cell: &Cell| cell.number != 0 && cell.number != UNKNOWN;
        let targets = coverage::needed().into_iter().filter(refused).collect();
        Checks { seed, named: checks::all(), targets, random }
    }

    pub fn len(&self) -> usize {
        self.named.len() + self.targets.len() + self.random
    }

    pub fn case(&self, number: usize) -> Case {
        let mut random = Random::for_case(self.seed, number as u64);
        let past_named = number.checked_sub(self.named.len());
        match past_named {
            None => self.named_case(&mut random, number),
            Some(at) if at < self.targets.len() => {
                aimed_case(&mut random, number, "tour", self.targets[at])
            }
            Some(_) => self.random_case(&mut random, number),
        }
    }

    fn named_case(&self, random: &mut Random, number: usize) -> Case {
        let named = &self.named[number];
        let request = dress(random, named.operation, named.payload.clone());
        let mut case = judged(number, "named", named.name.clone(), request);
        let judge_says = (case.expected.reply[0], case.expected.reply[2]);
        if judge_says != named.says {
            let fault = format!("the document says {:?}, the judge {judge_says:?}", named.says);
            case.about.own_fault = Some(fault);
        }
        case
    }

    fn random_case(&self, random: &mut Random, number: usize) -> Case {
        let mut chance = random.below(100);
        for (kind, share, make) in KINDS {
            if chance < share {
                return loose_case(random, number, kind, make);
            }
            chance -= share;
        }
        let target = random.pick(&self.targets);
        aimed_case(random, number, "damaged", target)
    }
}

fn aimed_case(random: &mut Random, number: usize, kind: &'static str, target: Cell) -> Case {
    let payload = damage::aimed(random, target.number, target.place);
    let request = dress(random, target.operation, payload);
    judged(number, kind, format!("aimed at {target}"), request)
}

fn loose_case(random: &mut Random, number: usize, kind: &'static str, make: Maker) -> Case {
    let operation = match kind {
        "unknown operation" => random.pick(&NO_OPERATIONS),
        _ => random.pick(&[CHECK_WORDS, CHECK_BYTES]),
    };
    let mut payload = make(random);
    // Dropped by the operation on words.
    if operation == CHECK_WORDS {
        remainder(random, &mut payload);
    }
    let request = dress(random, operation, payload);
    let mut case = judged(number, kind, String::new(), request);
    if kind == "valid" && case.expected.reply[0] != 0 {
        case.about.own_fault = Some("made as a valid sheet, but refused by the judge".to_string());
    }
    case
}
