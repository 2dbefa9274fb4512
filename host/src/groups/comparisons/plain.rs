//! The plain Rust that the bench times beside the proved code, held against lines.rs: it has to answer as that does.

use super::{failed, sources};
use crate::compare::pairs::right_lines;
use crate::compare::{Compared, Comparison};
use crate::groups::Size;
use crate::lines::plain::compare;
use crate::lines::NO_ROOM_FOR_LINES;
use crate::message::REFUSED;
use crate::random::Random;
use crate::show;

pub fn plain(comparison: &mut Comparison, random: &mut Random, size: Size) -> Compared {
    let Comparison { inputs, accepted, .. } = comparison;
    for source in sources::ALL {
        source(random, size.pick(Size::Quick, Size::Quick, Size::Usual), &mut |first, second| {
            *inputs += 1;
            *accepted += u64::from(right_lines(first, second).is_ok());
            says(first, second)
        })?;
    }
    Ok(())
}

/// In a longer buffer, one that is just long enough, and one that is a byte short.
fn says(first: &[u8], second: &[u8]) -> Compared {
    let right = right_lines(first, second);
    let length = right.as_ref().map_or(0, String::len);
    for room in [length, length.saturating_sub(1), length + 9] {
        let mut out = vec![0xa5; room];
        let returned = compare(first, second, &mut out);
        let (value, lines) = match &right {
            Err(number) => (REFUSED + number, ""),
            Ok(lines) if lines.len() > room => (NO_ROOM_FOR_LINES, ""),
            Ok(lines) => (lines.len() as u64, &lines[..]),
        };
        let expected = [lines.as_bytes(), &vec![0xa5; room - lines.len()]].concat();
        if (returned, &out) != (value, &expected) {
            let what =
                format!("{}, expected {}\n{}", show::written(returned), show::written(value), show::listings(&out, &expected));
            return failed(&format!("src/lines/plain.rs alone, in {room} bytes:\n{}", show::pair(first, second)), what);
        }
    }
    Ok(())
}
