//! Openings from files of every kind into buffers of every length: "checked first;
//! 17 comes after 7", so a file's own row comes before a buffer that is too short and
//! before a number that no graph has.

use super::watched::Referee;
use crate::groups::graphs::{self, Example};
use reference::layout::ROUND_LEN;
use reference::refusal::{answer, Refusal};

/// Buffers of no bytes, too short, and long enough.
const ROOMS: [usize; 6] = [0, 1, ROUND_LEN / 2, ROUND_LEN - 1, ROUND_LEN, ROUND_LEN + 1];

/// None, and numbers that every graph has, that few have and that none has.
const OWNS: [Option<u32>; 6] = [None, Some(0), Some(4), Some(255), Some(257), Some(65_536)];

/// What document 01 says of an opening; the example's number is what it says of the file.
fn documented(example: &Example, own: Option<u32>, room: usize) -> u32 {
    let acceptors = || u32::from(example.file[3]);
    match example.number {
        0 if room < ROUND_LEN || own.is_some_and(|number| number >= acceptors()) => {
            Refusal::Argument.number()
        }
        number => number,
    }
}

pub fn run(referee: &mut Referee) {
    for example in graphs::examples() {
        for own in OWNS {
            for room in ROOMS {
                let model = answer(&referee.open(&example.file, (1, 12, own), room).0);
                let expected = documented(&example, own, room);
                referee.opened.reached.count(model);
                referee.tally.check(model == expected, || {
                    let name = &example.name;
                    format!("{name} as {own:?} in {room} bytes: model {model}, document {expected}")
                });
            }
        }
    }
}
