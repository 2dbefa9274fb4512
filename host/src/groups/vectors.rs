//! The fixed vectors: every case of the file that the program `vectors` replays without Rust (VECTORS.md).

use super::Size;
use crate::compare::{Against, Compared, Comparison, Difference, Failure, Input};
use crate::random::Random;
use crate::vectors::{cases, replayed};
use std::fs;

const FILE: &str = concat!(env!("CARGO_MANIFEST_DIR"), "/../crates/vectors/stdin");

pub fn vectors(comparison: &mut Comparison, _: &mut Random, _: Size) -> Compared {
    let failure =
        |input, against, what| Box::new(Failure { input: Input::Other(input), difference: Difference { against, what } });
    let file =
        fs::read(FILE).map_err(|error| failure(FILE.to_string(), Against::Paper, format!("it cannot be read: {error}")))?;
    for (number, case) in (1..).zip(cases(&file)) {
        comparison.inputs += 1;
        comparison.with_rust += u64::from(case.by_rust);
        let against = if case.by_rust { Against::Rust } else { Against::Paper };
        let differs = |comparison: &mut Comparison| replayed(&case, comparison.subject).err();
        if let Some(difference) = comparison.each_side(|side| differs(side).map(|what| Difference { against, what })) {
            return Err(failure(format!("case {number} of {FILE}"), against, difference.what));
        }
    }
    Ok(())
}
