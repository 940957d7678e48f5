//! The independent second program of the rights sheet, written from the
//! documents alone: it judges sheets by itself, puts them to the trial
//! program and compares every word that comes back.
//!
//! Its folders, each of which knows those before it and none after: `model`, what a
//! sheet is and means; `trial`, the trial program from outside; `generate`, sheets
//! and questions drawn by chance; `goals`, what must have been tried; `named`, cases
//! that the document decides; `cases`, all of them in their order; `run`, a run and
//! what it prints; `misread`, wrong versions; `benchmark`; `selftest`.
//!
//! second [--seed N] [--cases N] [--questions N] [--only OPERATIONS] [--case K]
//!     [--patience SECONDS] -- COMMAND ARGS..
//! second --long N [--seed N] [--only OPERATIONS] [--case K] -- COMMAND ARGS..
//! second --tables [--seed N] [--case K] [--patience SECONDS] -- COMMAND ARGS..
//! second --benchmark [--only OPERATIONS] -- COMMAND ARGS..
//! second --seeds FOLDER [--seed N]
//! second --texts FOLDER [--seed N]
//! second --lines FOLDER [--seed N]
//! second --rows FOLDER [--seed N]
//! second --traces FOLDER [--seed N]
//! second --lent FOLDER [--seed N]
//! second --self-test

mod benchmark;
mod cases;
mod generate;
mod goals;
mod misread;
mod model;
mod named;
mod run;
mod selftest;
mod trial;

use std::process::exit;

use run::options::{Options, USAGE};
use run::seeds;

fn main() {
    let tally = match Options::read(std::env::args().skip(1)) {
        Ok(options) if options.self_test => selftest::run(),
        Ok(options) if options.tables => run::tables::run(&options),
        Ok(options) if options.benchmark => benchmark::run(&options),
        Ok(Options { seed, seeds: Some((sort, folder)), .. }) => seeds::write(sort, seed, &folder),
        Ok(options) => run::run(&options),
        Err(why) => {
            eprintln!("{why}\n{USAGE}");
            exit(2);
        }
    };
    tally.print();
    exit(if tally.good() { 0 } else { 1 });
}
