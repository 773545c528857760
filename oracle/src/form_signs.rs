//! What of a call has to do with the form of its table (W5), for the report.

use std::collections::BTreeSet;
use std::sync::LazyLock;

use crate::forms::NO_FORMS;
use crate::move_signs::{signs_of_move, wanted_of_moves};
use crate::operator_signs::Subject;
use crate::program::{Asked, Operation, Seen};
use crate::reading_a_message::{ORIGIN_REALM, ROUTING_POLICY, SESSION_ID, is};
use crate::report::{loosely_read, readable};
use crate::second_blocks::{CLAUSES, broken_alone};
use crate::set_up::table_fits;
use crate::the_table::{Access, Form, Row, decode, find, row_at};

/// How many policies come in each form, and what comes of it.
const COUNTS: [(u32, usize, &str); 19] = [
    (1, 0, "265 type 0: 2001"),
    (1, 1, "265 type 0: 2001"),
    (1, 2, "265 type 0: 5009"),
    (1, 0, "265 type 1: 5005"),
    (1, 1, "265 type 1: 2001"),
    (1, 2, "265 type 1: 5009"),
    (1, 3, "265 type 1: 5009"),
    (2, 0, "265 type 0: 2001"),
    (2, 1, "265 type 0: 2001"),
    (2, 2, "265 type 0: 2001"),
    (2, 3, "265 type 0: 2001"),
    (2, 4, "265 type 0: 5009"),
    (2, 5, "265 type 0: 5009"),
    (2, 0, "265 type 1: 5005"),
    (2, 1, "265 type 1: 2001"),
    (2, 2, "265 type 1: 2001"),
    (2, 3, "265 type 1: 2001"),
    (2, 4, "265 type 1: 5009"),
    (2, 5, "265 type 1: 5009"),
];

/// Lengths at both sides of the limits, and what comes of them.
const LENGTHS: [(usize, u32); 4] = [(0, 5014), (1, 2001), (128, 2001), (129, 5014)];

/// What else has to come up.
const OTHERS: [&str; 20] = [
    "4 policies, one of a wrong length, 265 type 0: 5009",
    "4 policies, one of a wrong length, 265 type 1: 5009",
    "form 1, 1 policies for 0",
    "form 1, 1 policies for 1",
    "form 2, cut of 3 policies, the freed place taken again",
    "form 2, cut of 3 policies, a lower place taken",
    "form 2, cut of a realm of 0 bytes",
    "form 2, cut of a realm of 1 bytes",
    "form 2, cut of a realm of 128 bytes",
    "form 2, ended with 0 policies",
    "form 2, ended with 1 policies",
    "form 2, ended with 2 policies",
    "form 2, ended with 3 policies",
    "a length of both forms, form 1, add: number 0",
    "a length of both forms, form 2, add: number 0",
    "a length of both forms, form 1, enter: number 0",
    "a length of both forms, form 2, enter: number 0",
    "a length of both forms, form 1, enter: number 26",
    "a length of both forms, form 2, enter: number 26",
    "a length of both forms, form 2, add: number 13",
];

/// What has to come up; of all that could be said of forms, the report says no more.
pub static WANTED_OF_FORMS: LazyLock<BTreeSet<String>> = LazyLock::new(wanted);

fn wanted() -> BTreeSet<String> {
    let mut all: Vec<String> = OTHERS.map(str::to_string).to_vec();
    for kind in ["clear", "enter", "add", "handle", "move", "judge"] {
        all.extend(NO_FORMS.map(|form| format!("form {form}, {kind}: number 1")));
    }
    for kind in ["clear", "enter", "add", "handle", "judge"] {
        all.extend([1, 2].map(|form| format!("form {form}, a row of the other, {kind}: number 1")));
    }
    all.extend(COUNTS.map(|(form, count, came)| count_key(form, count, came)));
    for (length, code) in LENGTHS {
        for sort in ["265 type 0", "265 type 1"] {
            let came = format!("{sort}: {code}");
            let one = |place| length_key(2, (place, 3), length, &came);
            all.extend([1, 2, 3].map(one));
            all.extend([1, 2].map(|form| length_key(form, (1, 1), length, &came)));
        }
        let came = format!("265 type 0: {code}");
        all.extend([1, 2].map(|form| realm_key(form, length, &came)));
    }
    for held in 0..=3 {
        all.extend([1, 2, 3].map(|brought| format!("form 2, {brought} policies for {held}")));
    }
    for clause in &CLAUSES {
        let came = ["request: 5012", "add: number 13", "move: number 20"];
        all.extend(came.map(|came| clause_key(clause.name, came)));
    }
    all.extend(wanted_of_moves());
    all.into_iter().collect()
}

fn count_key(form: u32, count: usize, came: &str) -> String {
    format!("form {form}, {count} policies, {came}")
}

/// One of several policies, counted from 1, has this length.
fn length_key(form: u32, (place, count): (usize, usize), length: usize, came: &str) -> String {
    format!("form {form}, policy {place} of {count} has {length} bytes, {came}")
}

fn realm_key(form: u32, length: usize, came: &str) -> String {
    format!("form {form}, a realm of {length} bytes, {came}")
}

/// A row in which nothing but this clause of second blocks is broken.
pub fn clause_key(clause: &str, came: &str) -> String {
    format!("{clause} alone, {came}")
}

/// `came` is what the report says of the call by itself.
pub fn signs_of_forms(
    operation: &Operation,
    subject: &Subject,
    table: &[u8],
    seen: &Seen,
    came: &str,
) -> Vec<String> {
    let Some(said) = operation.form() else {
        return Vec::new();
    };
    let by_itself = format!("form {said}, {came}");
    let mut signs = vec![by_itself.clone()];
    if let Operation::Move { target, .. } = operation {
        signs.extend(signs_of_move(said, table, target.length as usize, came));
    } else if let Some(form) = Form::numbered(said) {
        signs.extend(signs_of_length(form, table, came));
        let index = find(form, table, subject.operator, subject.name);
        let bytes = index.map(|index| row_at(form, table, index));
        if let Some(bytes) = bytes.filter(|_| form == Form::Two) {
            signs.extend(sign_of_clause(bytes, seen, came));
        }
        if let Operation::Handle(asked) = operation {
            signs.extend(signs_of_request(said, &asked.message, came));
            let row = bytes.and_then(|bytes| decode(form, bytes));
            signs.extend(row.map_or(Vec::new(), |row| {
                signs_of_row(said, asked, &row, seen, came)
            }));
        }
    }
    signs.retain(|sign| *sign == by_itself || WANTED_OF_FORMS.contains(sign));
    signs
}

/// Lengths that are those of the other form, alone or too.
fn signs_of_length(form: Form, table: &[u8], came: &str) -> Option<String> {
    let number = form.number();
    match (table_fits(form, table), table_fits(form.other(), table)) {
        (false, true) => Some(format!("form {number}, a row of the other, {came}")),
        (true, true) => Some(format!("a length of both forms, form {number}, {came}")),
        _ => None,
    }
}

fn sign_of_clause(bytes: &[u8], seen: &Seen, came: &str) -> Option<String> {
    let came = match (seen.numbers[0], seen.numbers[1]) {
        (5012, 1) => "request: 5012",
        (13, 0) => came,
        _ => return None,
    };
    broken_alone(bytes).map(|clause| clause_key(clause, came))
}

/// How many policies a request brings and how long they are, and its gateway's realm.
fn signs_of_request(form: u32, message: &[u8], came: &str) -> Vec<String> {
    let (avps, _) = loosely_read(message);
    let policies = avps.iter().filter(|avp| is(avp, ROUTING_POLICY));
    let lengths: Vec<usize> = policies.map(|avp| avp.value.len()).collect();
    let count = lengths.len();
    let fits = |length: &usize| (1..=128).contains(length);
    let wrong = lengths.iter().filter(|length| !fits(length)).count();
    let mut signs = vec![count_key(form, count, came)];
    for (place, length) in (1..).zip(&lengths) {
        if wrong == usize::from(!fits(length)) {
            signs.push(length_key(form, (place, count), *length, came));
        }
    }
    if count == 4 && wrong == 1 {
        signs.push(format!("4 policies, one of a wrong length, {came}"));
    }
    let realm = readable(message, ORIGIN_REALM).map_or(0, <[u8]>::len);
    signs.push(realm_key(form, realm, came));
    signs
}

/// What the access held that was changed, cut or ended.
fn signs_of_row(form: u32, asked: &Asked, row: &Row, seen: &Seen, came: &str) -> Vec<String> {
    let session = readable(&asked.message, SESSION_ID).unwrap_or_default();
    let about = row.place_of(session).and_then(|place| row.access(place));
    let held = |access: &Access| access.policies.iter().flatten().count();
    match (came, about, seen.numbers[4]) {
        ("265 type 1: 2001", Some(access), _) => {
            let (avps, _) = loosely_read(&asked.message);
            let brought = avps.iter().filter(|avp| is(avp, ROUTING_POLICY)).count();
            vec![format!(
                "form {form}, {brought} policies for {}",
                held(access)
            )]
        }
        ("275: 2001", Some(access), _) => {
            vec![format!("form {form}, ended with {} policies", held(access))]
        }
        (_, _, 1) => {
            let cut = &seen.notice_room[..seen.numbers[5] as usize];
            let place = row.place_of(cut).unwrap_or(0);
            let Some(access) = row.access(place) else {
                return Vec::new();
            };
            let again = u32::from(place) == seen.numbers[3];
            let taken = if again {
                "the freed place taken again"
            } else {
                "a lower place taken"
            };
            vec![
                format!("form {form}, cut of {} policies, {taken}", held(access)),
                format!(
                    "form {form}, cut of a realm of {} bytes",
                    access.realm.len()
                ),
            ]
        }
        _ => Vec::new(),
    }
}
