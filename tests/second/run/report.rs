//! What a run prints.

use std::collections::BTreeMap;
use std::sync::Arc;

use crate::cases::plan::{About, Case, Plan};
use crate::goals::coverage::{needed, Coverage};
use crate::goals::{self, Goals};
use crate::model::limits::{HEADER, NODE_WIDTH};
use crate::model::listing::lines;
use crate::model::removal::Removal;
use crate::model::sheet::{bytes_of, words_of};
use crate::run::tally::Tally;
use crate::trial::operation::{READ_LISTING, UNKNOWN, WRITE_LISTING};
use crate::trial::scope::Scope;

const MOST_SHOWN: usize = 10;

pub struct Report {
    plan: Arc<Plan>,
    /// The cases of the run, in the order in which they are asked.
    numbers: Vec<usize>,
    /// What is outside of it need not be covered.
    scope: Scope,
    answered: usize,
    /// One case alone is shown whole and cannot cover the table.
    alone: bool,
    tally: Tally,
    shown: usize,
    kinds: BTreeMap<&'static str, usize>,
    operations: BTreeMap<u32, usize>,
    outcomes: BTreeMap<u32, usize>,
    coverage: Coverage,
    goals: Goals,
    /// Edges removed by this program alone, and the answers that it compared.
    removals: usize,
    compared: usize,
}

impl Report {
    pub fn new(plan: Arc<Plan>, numbers: Vec<usize>, scope: Scope, alone: bool) -> Report {
        Report {
            plan,
            numbers,
            scope,
            answered: 0,
            alone,
            tally: Tally::default(),
            shown: 0,
            kinds: BTreeMap::new(),
            operations: BTreeMap::new(),
            outcomes: BTreeMap::new(),
            coverage: Coverage::default(),
            goals: Goals::default(),
            removals: 0,
            compared: 0,
        }
    }

    /// How many cases the run has.
    pub fn len(&self) -> usize {
        self.numbers.len()
    }

    /// By this program alone, after which so many answers were compared.
    pub fn removed(
        &mut self,
        sheet: usize,
        removal: &Removal,
        answers: usize,
        harm: Option<String>,
    ) {
        self.removals += 1;
        self.compared += answers;
        goals::removals::compared(removal).iter().for_each(|goal| self.goals.add(goal));
        self.tally.count(harm.is_none());
        if let (Some(harm), true) = (harm, self.shown < MOST_SHOWN) {
            self.shown += 1;
            let &Removal { office, row, .. } = removal;
            println!(
                "FAILED: sheet {sheet} of the removals, row {row} removed at office {office}:"
            );
            println!("    {harm}");
        }
    }

    pub fn answered(&mut self, about: About, mut differences: Vec<String>) {
        self.answered += 1;
        *self.kinds.entry(about.kind).or_insert(0) += 1;
        *self.operations.entry(about.operation).or_insert(0) += 1;
        *self.outcomes.entry(about.cell.number).or_insert(0) += 1;
        self.coverage.add(about.cell);
        about.goals.iter().for_each(|goal| self.goals.add(goal));
        differences.extend(about.own_fault.clone());
        let passed = differences.is_empty();
        self.tally.count(passed);
        if about.kind == "named" && passed {
            println!("ok: {}", about.name);
        }
        if self.alone {
            self.shown += 1;
            self.show(&about, &differences, usize::MAX);
        } else if !passed && self.shown < MOST_SHOWN {
            self.shown += 1;
            self.show(&about, &differences, 24);
        }
    }

    /// The request is made again from its number: keeping all of them until
    /// their replies come would take much room.
    fn show(&self, about: &About, differences: &[String], most_rows: usize) {
        let word = if differences.is_empty() { "case" } else { "FAILED: case" };
        println!("{word} {}, {}", about.number, about.title());
        for difference in differences {
            println!("    {difference}");
        }
        let case = self.plan.case(about.number);
        print_request(&case, most_rows);
    }

    pub fn close(mut self, faults: Vec<String>) -> Tally {
        if self.tally.failed > self.shown {
            println!("{} cases failed, {} are shown", self.tally.failed, self.shown);
        }
        for fault in &faults {
            self.tally.test(&format!("the trial: {fault}"), false);
        }
        if faults.is_empty() {
            self.tally.count(true);
        }
        self.count_unanswered();
        if !self.alone {
            self.print_counts();
            self.test_coverage();
        }
        self.tally
    }

    /// Replies come in the order of the requests, so the first case without
    /// one is known; it is likely the one that ended the trial.
    fn count_unanswered(&mut self) {
        let unanswered = self.numbers.len() - self.answered;
        if unanswered > 0 {
            let first = self.numbers[self.answered];
            println!("FAILED: {unanswered} cases were not answered, the first of them:");
            self.tally.failed += unanswered;
            let about = self.plan.case(first).about;
            self.show(&about, &["no reply".to_string()], 24);
        }
    }

    fn print_counts(&self) {
        let named = self.kinds.get("named").unwrap_or(&0);
        println!("{} cases generated, {named} named", self.answered - named);
        println!("{} edges removed and {} answers compared here", self.removals, self.compared);
        println!("cases by kind:");
        for (kind, count) in &self.kinds {
            println!("  {kind}: {count}");
        }
        println!("cases by operation:");
        for (operation, count) in &self.operations {
            println!("  {operation}: {count}");
        }
        println!("cases by expected outcome:");
        for number in (0..=17).chain(20..=33).chain(40..=43).chain([50, 51, 54, UNKNOWN]) {
            let name = if number == UNKNOWN { "unknown".to_string() } else { number.to_string() };
            println!("  {name}: {}", self.outcomes.get(&number).unwrap_or(&0));
        }
        self.coverage.print();
        self.goals.print(&self.scope);
    }

    fn test_coverage(&mut self) {
        let misses = self.coverage.misses();
        for cell in needed().into_iter().filter(|cell| self.scope.has(cell.operation)) {
            self.tally.test(&format!("never reached: {cell}"), !misses.contains(&cell));
        }
        let misses = self.goals.misses();
        for goal in goals::needed_in(&self.scope) {
            self.tally.test(&format!("never met: {goal}"), !misses.contains(&goal));
        }
    }
}

fn print_request(case: &Case, most_rows: usize) {
    let Case { request, expected, .. } = case;
    println!("    operation {}, numbers {:?}", request.operation, request.numbers);
    println!("    payloads of {} and {} bytes", request.first.len(), request.second.len());
    println!("    output of {} words filled with {}", request.out_len, request.fill);
    println!("    expected reply {:?}, then {} words", expected.reply, expected.output.len());
    print_words("second payload", &words_of(&request.second), most_rows);
    print_words("expected output", &expected.output, most_rows);
    let more = match request.operation {
        READ_LISTING => print_text(&request.first, expected.reply[2] as usize, most_rows),
        _ => print_sheet(&request.first, most_rows),
    };
    if more {
        println!(
            "    and more; --case {} with the same seed and counts shows all",
            case.about.number
        );
    }
    if request.operation == WRITE_LISTING {
        let text = &bytes_of(&expected.output)[..expected.reply[4] as usize];
        println!("    expected text:");
        print_text(text, 0, most_rows);
    }
}

/// So many rows of it; tells whether there are more.
fn print_sheet(bytes: &[u8], most_rows: usize) -> bool {
    let words = words_of(bytes);
    let (header, rows) = words.split_at(words.len().min(HEADER));
    println!("    header {header:?}");
    for (at, row) in rows.chunks(NODE_WIDTH).enumerate().take(most_rows) {
        println!("    from word {}: {row:?}", HEADER + NODE_WIDTH * at);
    }
    rows.len().div_ceil(NODE_WIDTH) > most_rows
}

/// So many lines of it, those about this one; tells whether there are more.
fn print_text(text: &[u8], line: usize, most_lines: usize) -> bool {
    let lines: Vec<&[u8]> = lines(text).collect();
    let from = if lines.len() > most_lines { line.saturating_sub(most_lines / 2) } else { 0 };
    for (at, line) in lines.iter().enumerate().skip(from).take(most_lines) {
        println!("    line {at}: {}", line.escape_ascii());
    }
    lines.len() > most_lines
}

fn print_words(name: &str, words: &[u32], most_rows: usize) {
    let most = most_rows.saturating_mul(NODE_WIDTH).min(words.len());
    println!("    {name}, {most} of {} words: {:?}", words.len(), &words[..most]);
}
