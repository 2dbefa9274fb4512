//! The comparison shown to be able to fail: each wrong rule of the model in turn is the subject, and has to be caught.

use crate::compare::{Against, Comparison, Failure};
use crate::groups::{Entry, Group, Size, GROUPS};
use crate::model::{Model, Wrong};
use crate::oracle;
use crate::random::Random;
use crate::show;
use crate::shrink::smallest;
use crate::workers;

pub const NAME: &str = "wrong on purpose";

/// Says rule by rule where it was caught; how many were, and how many not.
pub fn run(seed: u64) -> (u64, u64) {
    println!("{NAME}, each rule in turn in the model as the subject:");
    let (mut caught, mut missed) = (0, 0);
    let tell = |said: Result<String, String>| {
        (caught, missed) = (caught + u64::from(said.is_ok()), missed + u64::from(said.is_err()));
        println!("{}", said.unwrap_or_else(|not_caught| not_caught));
    };
    workers::in_order(&Wrong::ALL, |rule| tried(*rule, seed), tell);
    (caught, missed)
}

/// Where a rule was caught, or that it was not.
fn tried(rule: Wrong, seed: u64) -> Result<String, String> {
    let model = Model::with(rule);
    let mut comparison = Comparison::new(&model);
    match catch(&mut comparison, rule, seed) {
        Some((group, failure)) => Ok(report(&mut comparison, rule, group, *failure)),
        None => Err(format!("FAILED  not caught: {}", rule.sentence())),
    }
}

/// The first group that shows a difference: from the Rust, if its text is at hand and the rule is one that it can show. The
/// paper's own examples and those worked by hand are left out: they were chosen to show these errors. Rules of messages are tried
/// on messages alone, those of comparing two on such pairs, and others on all else.
fn catch(comparison: &mut Comparison, rule: Wrong, seed: u64) -> Option<(&'static Group, Box<Failure>)> {
    let by_the_rust = oracle::AT_HAND && rule.seen_by_the_rust();
    let shown = |failure: &Failure| !by_the_rust || failure.difference.against == Against::Rust;
    let chosen = |group: &&Group| group.name.contains("document 01") || group.name.contains("examples");
    let asks = |group: &&Group| match group.entry {
        Entry::Messages => rule.of_messages(),
        Entry::Comparisons => rule.of_comparisons(),
        Entry::Call | Entry::Unplug | Entry::Replay => !rule.of_messages() && !rule.of_comparisons(),
        Entry::Encoders | Entry::Plain | Entry::Wrapper | Entry::Vectors | Entry::None => false,
    };
    let tried = GROUPS.iter().filter(|group| asks(group) && !chosen(group));
    for group in tried {
        let mut random = Random::new(seed, group.name);
        comparison.begin(group.name, group.emulated);
        match (group.run)(comparison, &mut random, Size::Quick) {
            Err(failure) if shown(&failure) => return Some((group, failure)),
            _ => {}
        }
    }
    None
}

fn report(comparison: &mut Comparison, rule: Wrong, group: &Group, failure: Failure) -> String {
    let against = failure.difference.against;
    let (input, difference) = smallest(comparison, failure.input, against);
    let difference = difference.unwrap_or(failure.difference);
    let lines = [
        format!("passed  caught by {}: {}", against.name(), rule.sentence()),
        format!("in {}", group.name),
        show::input(&input),
        difference.what,
    ];
    lines.join("\n").trim_end().replace('\n', "\n        ")
}
