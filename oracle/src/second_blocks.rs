//! What the second block of a place has to keep to in form 2 (W5), clause by clause: how
//! each is broken while all others hold, and how that is told.

use crate::cases::{Case, text};
use crate::damages::set;
use crate::random::Random;
use crate::rules::DOCUMENT_01;
use crate::the_table::{
    BLOCK, Form, REALM, Row, SECOND_POLICY, SUMS, THIRD_POLICY, put, row_is_free, sound, sums,
};

/// How a clause is broken.
#[derive(Clone, Copy)]
enum Way {
    /// One of these values at an offset from the first to the second, the sums put right.
    Byte(usize, usize, &'static [u8]),
    /// A byte right behind the text that starts here.
    Behind(usize),
    /// One of the two sums.
    Sum(usize),
    /// The whole block is zero.
    Missing,
    /// The first, second and third policy are held or not.
    Policies([bool; 3]),
    /// A byte of a free place's second block, or a whole one left standing there.
    Free(usize, usize),
}

/// A clause, and whether it is broken by a place's two blocks.
pub struct Clause {
    pub name: &'static str,
    way: Way,
    broken: fn(&[u8], &[u8]) -> bool,
}

pub static CLAUSES: [Clause; 17] = [
    Clause {
        name: "another byte 0",
        way: Way::Byte(0, 0, &[0, 1, 2, 4, 255]),
        broken: |first, second| used(first) && second[0] != 3 && !row_is_free(second),
    },
    Clause {
        name: "no second block",
        way: Way::Missing,
        broken: |first, second| used(first) && row_is_free(second),
    },
    Clause {
        name: "a realm of over 128 bytes",
        way: Way::Byte(1, 1, &[129, 130, 255]),
        broken: |first, second| used(first) && second[1] > 128,
    },
    Clause {
        name: "byte 2",
        way: Way::Byte(2, 2, &[1, 128, 255]),
        broken: |first, second| used(first) && second[2] != 0,
    },
    Clause {
        name: "a second policy of over 128 bytes",
        way: Way::Byte(3, 3, &[129, 130, 255]),
        broken: |first, second| used(first) && second[3] > 128,
    },
    Clause {
        name: "a third policy of over 128 bytes",
        way: Way::Byte(4, 4, &[129, 130, 255]),
        broken: |first, second| used(first) && second[4] > 128,
    },
    Clause {
        name: "bytes 5 to 7",
        way: Way::Byte(5, 7, &[1, 128, 255]),
        broken: |first, second| used(first) && !row_is_free(&second[5..8]),
    },
    Clause {
        name: "a byte behind the realm",
        way: Way::Behind(REALM),
        broken: |first, second| used(first) && behind(second, REALM),
    },
    Clause {
        name: "a byte behind the second policy",
        way: Way::Behind(SECOND_POLICY),
        broken: |first, second| used(first) && behind(second, SECOND_POLICY),
    },
    Clause {
        name: "a byte behind the third policy",
        way: Way::Behind(THIRD_POLICY),
        broken: |first, second| used(first) && behind(second, THIRD_POLICY),
    },
    Clause {
        name: "bytes 392 to 509",
        way: Way::Byte(392, 509, &[1, 128, 255]),
        broken: |first, second| used(first) && !row_is_free(&second[392..SUMS]),
    },
    Clause {
        name: "the second sum",
        way: Way::Sum(0),
        broken: |first, second| used(first) && sums(&second[..SUMS])[0] != second[SUMS],
    },
    Clause {
        name: "the first sum",
        way: Way::Sum(1),
        broken: |first, second| used(first) && sums(&second[..SUMS])[1] != second[SUMS + 1],
    },
    Clause {
        name: "a third policy without a second",
        way: Way::Policies([true, false, true]),
        broken: |first, second| used(first) && second[3] == 0 && second[4] != 0,
    },
    Clause {
        name: "a second policy without a first",
        way: Way::Policies([false, true, false]),
        broken: |first, second| used(first) && first[4] == 0 && second[3] != 0,
    },
    Clause {
        name: "a free place's second block",
        way: Way::Free(0, SUMS - 1),
        broken: |first, second| !used(first) && !row_is_free(&second[..SUMS]),
    },
    Clause {
        name: "the sums of a free place's second block",
        way: Way::Free(SUMS, BLOCK - 1),
        broken: |first, second| {
            !used(first) && row_is_free(&second[..SUMS]) && !row_is_free(&second[SUMS..])
        },
    },
];

fn used(first: &[u8]) -> bool {
    first[0] == 2
}

/// Where a text's length stands and where its room ends.
fn text_of(start: usize) -> (usize, usize) {
    match start {
        REALM => (1, SECOND_POLICY),
        SECOND_POLICY => (3, THIRD_POLICY),
        _ => (4, 392),
    }
}

/// A byte is set behind the text. A length that is no length has nothing behind it.
fn behind(second: &[u8], start: usize) -> bool {
    let (at, end) = text_of(start);
    let length = usize::from(second[at]);
    length <= 128 && !row_is_free(&second[start + length..end])
}

/// The one clause of its second blocks that a row of form 2 breaks, if all else is sound.
pub fn broken_alone(bytes: &[u8]) -> Option<&'static str> {
    let mut broken = Vec::new();
    let mut in_form_1 = bytes.get(..BLOCK)?.to_vec();
    for place in bytes[BLOCK..].chunks_exact(Form::Two.place()) {
        let (first, second) = place.split_at(BLOCK);
        in_form_1.extend(first);
        broken.extend(
            CLAUSES
                .iter()
                .filter(|clause| (clause.broken)(first, second)),
        );
    }
    let alone = broken.len() == 1 && sound(&DOCUMENT_01, Form::One, &in_form_1).is_some();
    broken.first().filter(|_| alone).map(|clause| clause.name)
}

/// Breaks one clause in the row of a case, which stands in form 2.
pub fn break_clause(case: &mut Case, clause: &Clause, random: &mut Random) {
    let place = prepare(&mut case.row, clause, random);
    case.write_row();
    let start = Form::Two.start(place) + BLOCK;
    break_block(&mut case.row_bytes()[start..][..BLOCK], clause.way, random);
}

/// Makes the row such that only this clause will be broken in the place that is given
/// back: an access that says all it can, none of it as long as may be, or a free place.
fn prepare(row: &mut Row, clause: &Clause, random: &mut Random) -> u8 {
    let place = *random.pick(&row.line);
    let held = match clause.way {
        Way::Free(..) => {
            row.free(place);
            return place;
        }
        Way::Policies(held) => held,
        _ => [true; 3],
    };
    if let Some(access) = &mut row.places[usize::from(place) - 1] {
        access.realm = text(random, 120);
        access.policies = held.map(|held| held.then(|| text(random, 120)));
    }
    place
}

fn break_block(block: &mut [u8], way: Way, random: &mut Random) {
    match way {
        Way::Byte(low, high, values) => {
            let (at, value) = (random.from_to(low, high), *random.pick(values));
            set(block, 0, at, value, true);
        }
        Way::Behind(text) => {
            let (at, end) = text_of(text);
            let from = text + usize::from(block[at]);
            let at = *random.pick(&[from, from, end - 1]);
            set(block, 0, at, 1, true);
        }
        Way::Sum(which) => {
            let held = block[SUMS + which];
            block[SUMS + which] = *random.pick(&[held ^ 1, held.wrapping_add(1)]);
        }
        Way::Missing => block.fill(0),
        Way::Free(0, _) if random.once_in(3) => {
            // A second block of some access that is gone.
            put(block, 0, &[3, 4]);
            put(block, REALM, b"gone");
            let right = sums(&block[..SUMS]);
            put(block, SUMS, &right);
        }
        Way::Free(low, high) => {
            let at = *random.pick(&[low, low, high]);
            let value = *random.pick(&[1, 3, 255]);
            set(block, 0, at, value, low == 0 && random.once_in(2));
        }
        Way::Policies(_) => (),
    }
}
