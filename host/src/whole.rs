//! A whole run of the comparison: every group, its counts, and what differs.

use crate::compare::{Comparison, Failure, Side, Totals};
use crate::groups::{Entry, Group, Size, GROUPS};
use crate::model::Model;
use crate::oracle;
use crate::random::Random;
use crate::run::{of_the_rust, CANNOT_RUN};
use crate::shrink::smallest;
use crate::subject::{
    beside, linked_code, Linked, CALLS_AT_HAND, CALLS_MISSING, EMULATED_CODE, LINKED_IS_EMULATED, LISTING_AT_HAND,
    LISTING_MISSING,
};
use crate::{show, workers, wrong};
use std::process::ExitCode;
use std::time::Instant;

pub struct Options {
    pub seed: u64,
    pub size: Size,
    pub model: bool,
    pub only: Option<String>,
    pub part: Option<Part>,
}

/// The run in two parts, of which the first needs the Rust text.
#[derive(Clone, Copy, PartialEq, Eq)]
pub enum Part {
    Rust,
    Rest,
}

impl Options {
    fn named(&self, name: &str) -> bool {
        self.only.as_ref().is_none_or(|words| name.contains(words.as_str()))
    }

    fn runs(&self, group: &Group) -> bool {
        let in_part = match self.part {
            None => true,
            Some(Part::Rust) => group.beside_the_rust(),
            // without its text nothing is left to the other part
            Some(Part::Rest) => !oracle::AT_HAND || !group.beside_the_rust(),
        };
        in_part && self.named(group.name)
    }

    /// Whether the wrong rules are tried, and all numbers have to be met.
    fn with_wrong_rules(&self) -> bool {
        self.part != Some(Part::Rest) || !oracle::AT_HAND
    }

    /// Why a group does not run; empty where it does.
    fn missing(&self, group: &Group) -> &'static str {
        if group.of_the_rust_alone() && !oracle::AT_HAND {
            "it asks the Rust alone"
        } else if self.model {
            ""
        } else {
            missing(group.entry)
        }
    }
}

/// Why the library of an entry is not there; empty where it is.
fn missing(entry: Entry) -> &'static str {
    match entry {
        Entry::Call | Entry::Unplug | Entry::Messages | Entry::Encoders | Entry::Comparisons | Entry::Wrapper => CALLS_MISSING,
        Entry::Replay => LISTING_MISSING,
        Entry::Vectors if CALLS_MISSING.is_empty() => LISTING_MISSING,
        Entry::Vectors => CALLS_MISSING,
        Entry::None | Entry::Plain => "",
    }
}

pub fn compare(options: &Options) -> ExitCode {
    if options.part == Some(Part::Rust) {
        return of_the_rust(|| compare_here(options));
    }
    compare_here(options)
}

fn compare_here(options: &Options) -> ExitCode {
    if !options.model && !CALLS_AT_HAND && !LISTING_AT_HAND {
        println!("host: there is nothing to compare; `scripts/library calls listing` makes the libraries");
        println!("host: --model compares the model of the paper");
        println!("host: {CALLS_MISSING}; {LISTING_MISSING}");
        return ExitCode::from(CANNOT_RUN);
    }
    say_what(options);
    let groups: Vec<&Group> = GROUPS.iter().filter(|group| options.runs(group)).collect();
    let mut counts = Counts::default();
    workers::in_order(&groups, |group| run(group, options), |of_group| counts.add(of_group));
    counts.say(options);
    if options.only.is_none() && options.with_wrong_rules() && counts.not_run == 0 {
        let met = every_number_met(&counts.totals);
        (counts.passed, counts.failed) = (counts.passed + u64::from(met), counts.failed + u64::from(!met));
    }
    if options.named(wrong::NAME) && options.with_wrong_rules() {
        let (caught, missed) = wrong::run(options.seed);
        (counts.passed, counts.failed) = (counts.passed + caught, counts.failed + missed);
    }
    if !oracle::AT_HAND {
        println!("NOT COMPARED WITH THE RUST: {NO_TEXT}");
    }
    println!("{} passed, {} failed", counts.passed, counts.failed);
    ExitCode::from(u8::from(counts.failed > 0))
}

const NO_TEXT: &str = concat!("its text was not found in ", env!("RAFT_SRC_TRIED"), " when this was built");

fn say_what(options: &Options) {
    let seed = options.seed;
    if oracle::AT_HAND {
        println!("the Rust in {}, and the model of the paper, seed {seed}", env!("RAFT_SRC_TRIED"));
    } else {
        println!("the model of the paper alone, seed {seed}: not the Rust, since {NO_TEXT}");
    }
    if options.model {
        println!("beside the same model, in the place of the libraries");
        return;
    }
    println!("beside {}: every input", linked_code());
    if beside().is_some() {
        println!(
            "and beside {EMULATED_CODE}: each input of the examples, limits, edges, vectors and scripts, one in twenty else"
        );
    } else if LINKED_IS_EMULATED {
        println!("there is no native code that is as new as these libraries: scripts/native makes it, for a far shorter run");
    }
}

// ** One group

/// What came of a group.
enum Outcome {
    Passed,
    Failed,
    /// its library is missing
    NotRun,
    /// it asks the Rust alone, and has no part in what is left without it
    NoPart,
}

struct OfGroup {
    outcome: Outcome,
    said: String,
    /// inputs of the first side and of the second; of a group that asks neither, none
    asked: [u64; 2],
    totals: Totals,
}

fn run(group: &Group, options: &Options) -> OfGroup {
    let missing = options.missing(group);
    if !missing.is_empty() {
        let outcome = if group.of_the_rust_alone() { Outcome::NoPart } else { Outcome::NotRun };
        return OfGroup { outcome, said: format!("not run {}: {missing}", group.name), asked: [0; 2], totals: Totals::default() };
    }
    let start = Instant::now();
    let mut comparison = if options.model { Comparison::new(&Model::PAPER) } else { Comparison::with_second(&Linked, beside()) };
    comparison.begin(group.name, group.emulated);
    let mut random = Random::new(options.seed, group.name);
    let result = (group.run)(&mut comparison, &mut random, options.size);
    let inputs = comparison.inputs;
    let asked =
        if matches!(group.entry, Entry::None | Entry::Plain) { [0; 2] } else { [inputs, comparison.asked_second().unwrap_or(0)] };
    let (outcome, said) = match result {
        Ok(()) => {
            let (counts, seconds) = (counts_of(&comparison, group.entry), start.elapsed().as_secs_f64());
            (Outcome::Passed, format!("passed  {}: {counts}, {seconds:.1} s", group.name))
        }
        Err(failure) => {
            let report = report(&mut comparison, *failure, options.model);
            (Outcome::Failed, format!("FAILED  {}: at input {inputs}, seed {}\n{report}", group.name, options.seed))
        }
    };
    OfGroup { outcome, said, asked, totals: comparison.into_totals() }
}

/// What was asked in a group.
fn counts_of(comparison: &Comparison, entry: Entry) -> String {
    let Comparison { inputs, with_rust, accepted, lines, remark, .. } = comparison;
    let mut counts = match entry {
        Entry::Call | Entry::Unplug => format!("{inputs} inputs, {with_rust} with the Rust, {accepted} accepted"),
        Entry::Messages => format!("{inputs} inputs, {accepted} accepted"),
        Entry::Encoders => format!("{inputs} inputs, {remark}"),
        Entry::Comparisons => format!("{inputs} inputs, {accepted} accepted, {lines} lines"),
        Entry::Replay | Entry::Wrapper | Entry::Vectors => format!("{inputs} inputs, {with_rust} with the Rust"),
        Entry::Plain => return format!("{inputs} inputs, {accepted} accepted, nothing asked of the subject"),
        Entry::None if *inputs > 0 => return format!("{inputs} inputs of the Rust alone"),
        Entry::None => return "nothing asked of the subject".to_string(),
    };
    if let Some(emulated) = comparison.asked_second() {
        counts += &format!(", {emulated} emulated");
    }
    counts
}

fn report(comparison: &mut Comparison, failure: Failure, model: bool) -> String {
    let against = failure.difference.against;
    let subject = match comparison.differs {
        Some(Side::Second) => EMULATED_CODE.to_string(),
        _ if model => "the model in the place of the libraries".to_string(),
        _ => linked_code(),
    };
    let (input, difference) = smallest(comparison, failure.input, against);
    let what = difference.unwrap_or(failure.difference).what;
    let (against, input) = (against.name(), show::input(&input));
    format!("{subject}: it differs from {against}. The smallest input found:\n{input}\n{what}")
}

// ** All groups

#[derive(Default)]
struct Counts {
    passed: u64,
    failed: u64,
    not_run: u64,
    /// groups that ask something, and inputs of each side
    groups: u64,
    asked: [u64; 2],
    totals: Totals,
}

impl Counts {
    fn add(&mut self, of_group: OfGroup) {
        println!("{}", of_group.said);
        match of_group.outcome {
            Outcome::Passed => self.passed += 1,
            Outcome::Failed => self.failed += 1,
            Outcome::NotRun => self.not_run += 1,
            Outcome::NoPart => {}
        }
        self.groups += u64::from(of_group.asked[0] > 0);
        self.asked = [0, 1].map(|side| self.asked[side] + of_group.asked[side]);
        self.totals.add(&of_group.totals);
    }

    fn say(&self, options: &Options) {
        let steps = &self.totals.steps;
        let [all, with_quorums] = [0, 1].map(|which| steps.held.iter().map(|of_call| of_call[which]).sum::<u64>());
        if all > 0 {
            println!(
                "steps of which any two quorums, before and after, share a voter: {all}, {with_quorums} with a quorum before"
            );
            println!("those looked at plainly too: {}, with {} pairs of quorums", steps.plainly, steps.pairs);
        }
        if !options.model {
            println!("{}: {} inputs of {} groups", linked_code(), self.asked[0], self.groups);
        }
        if !options.model && beside().is_some() {
            println!("{EMULATED_CODE}: {} inputs of the same {} groups", self.asked[1], self.groups);
        }
    }
}

/// "Number 13 is kept for the Rust's message but never given"; 21 to 27 are those of requests that are not here.
fn is_given(number: usize) -> bool {
    !matches!(number, 13 | 21..=27)
}

fn every_number_met(totals: &Totals) -> bool {
    let Totals { numbers, other_fault, entries, .. } = totals;
    let counted = numbers.iter().enumerate().filter(|(number, count)| is_given(*number) || **count > 0);
    let met: Vec<String> = counted.map(|(number, count)| format!("{number}: {count}")).collect();
    println!("answers by number: {}", met.join(", "));
    if oracle::AT_HAND {
        println!("the Rust named another fault of the group than the paper {other_fault} times");
        let (plainly, repaired) = (entries.plainly, entries.repaired);
        println!("entries of accepted lists: {plainly} judged by plain prefixes, {repaired} with one more voter and repairs");
    }
    let as_it_should = numbers.iter().enumerate().all(|(number, &count)| (count > 0) == is_given(number));
    println!("{}  every number was met but 13 and 21 to 27, which were not", if as_it_should { "passed" } else { "FAILED" });
    as_it_should
}
