//! Full sheets without chance, for the named cases of questions 1 to 4: one person, 508
//! categories, two deed nodes and a folio, or others in place of the second deed node. What
//! is asked for has one shortest path, and the shape tells it.

use crate::generate::draft::Draft;
use crate::generate::full::Shape;
use crate::model::limits::{MOST_EDGES, MOST_NODES};
use crate::model::marks::all_marks;
use crate::model::office::{Deed, Side};
use crate::model::sheet::*;

/// All nodes but four.
pub const CATEGORIES: u32 = MOST_NODES as u32 - 4;

pub const CLERK: u32 = 11;
/// Stands in the row after the clerk's, where there is one.
pub const NEIGHBOUR: u32 = 12;
pub const RIGHT_ON: Deed = (31, 5);
pub const SHIP: u32 = 41;
/// Stands in the row after the ship's, where there is one.
pub const SISTER: u32 = 42;

/// The deed node before the one asked for. It does not apply to the folio.
pub const OTHER_VARIANT: Deed = (31, 4);
/// The deed node after the one asked for. It applies to the folio.
pub const OTHER_NUMBER: Deed = (32, 0);

/// The category at a row, where one person stands before the categories.
pub fn at_row(row: u32) -> u32 {
    5_000 + row
}

/// How the numbers of the categories go along a path. A walk that reads the edge rows once
/// gets along a rising line and stops at the first step of a falling one.
#[derive(Clone, Copy, Debug, PartialEq)]
pub enum Order {
    Rising,
    Falling,
    Strewn,
}

/// 211 has no divisor in common with 508, so every category comes once.
const STRIDE: u32 = 211;

pub fn line(order: Order) -> Vec<u32> {
    let row = |at: u32| match order {
        Order::Rising => 1 + at,
        Order::Falling => CATEGORIES - at,
        Order::Strewn => 1 + at * STRIDE % CATEGORIES,
    };
    (0..CATEGORIES).map(|at| at_row(row(at))).collect()
}

/// An edge row of the path.
#[derive(Clone, Copy, Debug, PartialEq)]
pub enum Piece {
    Member,
    /// From the category at this place of the path.
    Step(usize),
    Right,
    Applies,
}

/// What a path does not have.
#[derive(Clone, Copy, Debug, PartialEq)]
pub enum Lack {
    Nothing,
    Missing(Piece),
    /// The row is that of office 2 alone.
    AtOffice1(Piece),
    /// Up to its middle the path is office 1's, and from there on office 2's.
    Halves,
}

/// A sheet and the one path that it is made about.
#[derive(Clone, Copy, Debug)]
pub struct Layout {
    pub shape: Shape,
    pub order: Order,
    pub side: Side,
    pub spare: Deed,
    pub office_count: u32,
    pub lack: Lack,
    /// The offices that have the other side's right too, and at which category of the path.
    pub also: (u32, usize),
}

impl Layout {
    /// The categories of the path, in its order.
    pub fn path(&self) -> Vec<u32> {
        let line = line(self.order);
        match self.shape {
            Shape::Star => vec![line[0], line[line.len() / 2], line[line.len() - 1]],
            _ => line,
        }
    }

    /// Where the step half way begins.
    pub fn middle(&self) -> usize {
        let length = if self.shape == Shape::Star { 3 } else { CATEGORIES as usize };
        (length - 1) / 2
    }

    fn marks(&self, piece: Piece) -> u32 {
        let second_half = match piece {
            Piece::Member => false,
            Piece::Step(at) => at >= self.middle(),
            Piece::Right | Piece::Applies => true,
        };
        match self.lack {
            Lack::Missing(missing) if missing == piece => 0,
            Lack::AtOffice1(lacking) if lacking == piece => 2,
            Lack::Halves if second_half => 2,
            Lack::Halves => 1,
            _ => all_marks(self.office_count),
        }
    }

    pub fn sheet(&self) -> Sheet {
        let (path, side) = (self.path(), self.side);
        let mut plot = Plot::new(side, self.office_count, &[CLERK], &[SHIP]);
        plot.know(&line(self.order), &[RIGHT_ON, self.spare]);
        plot.member(CLERK, path[0], self.marks(Piece::Member));
        for (at, pair) in path.windows(2).enumerate() {
            plot.step(pair[0], pair[1], self.marks(Piece::Step(at)));
        }
        plot.right(side, path[path.len() - 1], RIGHT_ON, self.marks(Piece::Right));
        plot.right(side.other(), path[self.also.1], RIGHT_ON, self.also.0);
        plot.applies(RIGHT_ON, SHIP, self.marks(Piece::Applies));
        if self.spare.0 != RIGHT_ON.0 {
            plot.applies(self.spare, SHIP, plot.all);
        }
        self.fill(&mut plot, &path);
        plot.sheet()
    }

    fn fill(&self, plot: &mut Plot, path: &[u32]) {
        match self.shape {
            Shape::Chain => plot.rights_out_of_reach(&path[1..]),
            Shape::Ring => plot.step(path[path.len() - 1], path[0], plot.all),
            Shape::Star => return plot.star(path, self.spare),
            Shape::Dense => (1..=3).for_each(|back| plot.steps_back(path, back)),
        }
        plot.rights_on(self.spare, path);
        // The first category is left out: from there the other side would come everywhere.
        (2..6).for_each(|back| plot.steps_back(&path[1..], back));
    }
}

/// A sheet that is being drawn. A row without an office is left out, and so is one for which
/// the table has no room.
pub struct Plot {
    draft: Draft,
    side: Side,
    office_count: u32,
    pub all: u32,
    persons: Vec<u32>,
    folios: Vec<u32>,
}

impl Plot {
    pub fn new(side: Side, office_count: u32, persons: &[u32], folios: &[u32]) -> Plot {
        Plot {
            draft: Draft::default(),
            side,
            office_count,
            all: all_marks(office_count),
            persons: persons.to_vec(),
            folios: folios.to_vec(),
        }
    }

    /// Every node, whether or not an edge comes to it.
    pub fn know(&mut self, categories: &[u32], deeds: &[Deed]) {
        let (draft, all) = (&mut self.draft, self.all);
        self.persons.iter().for_each(|&number| draft.node((PERSON, number, 0), all));
        categories.iter().for_each(|&number| draft.node((CATEGORY, number, 0), all));
        deeds.iter().for_each(|&(number, variant)| draft.node((DEED, number, variant), all));
        self.folios.iter().for_each(|&number| draft.node((FOLIO, number, 0), all));
    }

    fn room(&self, offices: u32) -> bool {
        offices != 0 && self.draft.edge_count() < MOST_EDGES
    }

    pub fn member(&mut self, person: u32, category: u32, offices: u32) {
        if self.room(offices) {
            self.draft.member(person, category, offices);
        }
    }

    /// A step of the sheet's side.
    pub fn step(&mut self, from: u32, to: u32, offices: u32) {
        if self.room(offices) {
            self.draft.step(self.side, from, to, offices);
        }
    }

    /// The same along these categories, at all offices.
    pub fn steps(&mut self, categories: &[u32]) {
        categories.windows(2).for_each(|pair| self.step(pair[0], pair[1], self.all));
    }

    pub fn right(&mut self, side: Side, category: u32, deed: Deed, offices: u32) {
        if self.room(offices) {
            self.draft.right(side, category, deed, offices);
        }
    }

    pub fn applies(&mut self, deed: Deed, folio: u32, offices: u32) {
        if self.room(offices) {
            self.draft.applies(deed, folio, offices);
        }
    }

    /// Grants and bans of a deed that is not asked for.
    pub fn rights_on(&mut self, deed: Deed, categories: &[u32]) {
        for &category in categories {
            self.right(Side::Grant, category, deed, self.all);
            self.right(Side::Ban, category, deed, self.all);
        }
    }

    /// The other side's rights on the deed asked for: a walk of that side that goes the way of
    /// this one finds them.
    pub fn rights_out_of_reach(&mut self, categories: &[u32]) {
        for &category in categories {
            self.right(self.side.other(), category, RIGHT_ON, self.all);
        }
    }

    /// Every category is equal to the hub, which is the second of the path. The path's own
    /// steps stay as they are. Some spokes that are not on it lead to one another.
    pub fn star(&mut self, path: &[u32], spare: Deed) {
        let (hub, all) = (path[1], line(Order::Rising));
        for &spoke in all.iter().filter(|&&category| category != hub) {
            for step in [(spoke, hub), (hub, spoke)] {
                if ![(path[0], hub), (hub, path[2])].contains(&step) {
                    self.step(step.0, step.1, self.all);
                }
            }
        }
        self.rights_on(spare, &all);
        let aside: Vec<u32> = all.into_iter().filter(|spoke| !path.contains(spoke)).collect();
        self.steps_back(&aside[..20], 1);
    }

    /// From each of these categories to the one so many places before it: they shorten
    /// nothing.
    pub fn steps_back(&mut self, categories: &[u32], back: usize) {
        for at in back..categories.len() {
            if self.room(self.all) {
                self.draft.step(self.side, categories[at], categories[at - back], self.all);
            }
        }
    }

    pub fn sheet(&self) -> Sheet {
        self.draft.sheet(self.office_count)
    }
}
