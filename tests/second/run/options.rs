//! The command line.

use crate::cases::plan::Counts;
use crate::run::seeds::Seeds;
use crate::trial::scope::Scope;

pub const USAGE: &str = "usage:
  second [--seed N] [--cases N] [--questions N] [--only OPERATIONS] [--case K]
      [--patience SECONDS] -- COMMAND ARGS..
  second --long N [--seed N] [--only OPERATIONS] [--case K] -- COMMAND ARGS..
  second --tables [--seed N] [--case K] [--patience SECONDS] -- COMMAND ARGS..
  second --benchmark [--only OPERATIONS] -- COMMAND ARGS..
  second --seeds FOLDER [--seed N]
  second --texts FOLDER [--seed N]
  second --lines FOLDER [--seed N]
  second --rows FOLDER [--seed N]
  second --traces FOLDER [--seed N]
  second --lent FOLDER [--seed N]
  second --self-test";

const COUNTS: Counts = Counts {
    checks: 24_000,
    questions: 24_000,
    surveys: 20_000,
    lookups: 2_000,
    joins: 10_000,
    ways: 4_200,
    listings: 27_000,
    additions: 6_400,
    traces: 10_000,
    built: 188,
    removals: 5_000,
};

pub struct Options {
    pub seed: u64,
    /// --cases sets how many there are of the checks, and --questions all others.
    pub counts: Counts,
    /// The operations that are tried, such as 5 or 5-10 or 0,1-4,20.
    pub only: Scope,
    /// One case alone, by its number.
    pub case: Option<usize>,
    /// Seconds without a reply after which the trial is given up.
    pub patience: u64,
    /// So many generated cases at least; how far it is goes to standard error.
    pub long: bool,
    /// What a fuzzer begins with, and the folder for it.
    pub seeds: Option<(Seeds, String)>,
    pub self_test: bool,
    /// One row on lent tables, put to a driver of its own.
    pub tables: bool,
    /// Times instead of comparisons.
    pub benchmark: bool,
    pub command: Vec<String>,
}

impl Options {
    pub fn read(mut words: impl Iterator<Item = String>) -> Result<Options, String> {
        let mut options = Options {
            seed: 20_240_611,
            counts: COUNTS,
            only: Scope::default(),
            case: None,
            patience: 300,
            long: false,
            seeds: None,
            self_test: false,
            tables: false,
            benchmark: false,
            command: Vec::new(),
        };
        while let Some(word) = words.next() {
            match word.as_str() {
                "--seed" => options.seed = number(&word, words.next())?,
                "--cases" => options.counts.checks = number(&word, words.next())?,
                "--questions" => {
                    let each = number(&word, words.next())?;
                    options.counts = options.counts.with_others(each);
                }
                "--long" => {
                    options.counts = Counts::of_long_run(number(&word, words.next())?);
                    options.long = true;
                }
                "--only" => operations(&mut options.only, words.next())?,
                "--case" => options.case = Some(number(&word, words.next())?),
                "--patience" => options.patience = number(&word, words.next())?,
                "--seeds" => options.seeds = folder(Seeds::Files, words.next()),
                "--texts" => options.seeds = folder(Seeds::Texts, words.next()),
                "--lines" => options.seeds = folder(Seeds::Lines, words.next()),
                "--rows" => options.seeds = folder(Seeds::Rows, words.next()),
                "--traces" => options.seeds = folder(Seeds::Traces, words.next()),
                "--lent" => options.seeds = folder(Seeds::Lent, words.next()),
                "--self-test" => options.self_test = true,
                "--tables" => options.tables = true,
                "--benchmark" => options.benchmark = true,
                "--" => options.command = words.by_ref().collect(),
                _ => return Err(format!("not understood: {word}")),
            }
        }
        if options.command.is_empty() && !options.self_test && options.seeds.is_none() {
            return Err("no command that starts the trial program".to_string());
        }
        Ok(options)
    }
}

fn folder(seeds: Seeds, word: Option<String>) -> Option<(Seeds, String)> {
    word.map(|folder| (seeds, folder))
}

fn number<T: std::str::FromStr>(option: &str, word: Option<String>) -> Result<T, String> {
    let word = word.ok_or(format!("{option} needs a number"))?;
    word.parse().map_err(|_| format!("{option} needs a number, not {word}"))
}

fn operations(scope: &mut Scope, word: Option<String>) -> Result<(), String> {
    let word = word.ok_or("--only needs operations")?;
    scope.name(&word).ok_or(format!("--only needs operations, such as 5 or 5-10, not {word}"))
}
