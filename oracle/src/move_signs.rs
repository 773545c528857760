//! What of a move has to do with its lengths and its rows (W5), for the report.

use crate::form_signs::clause_key;
use crate::moves::MOST_MOVED;
use crate::moving::{fits_form_1, forms, length_in, row_may_move};
use crate::rules::DOCUMENT_01;
use crate::second_blocks::broken_alone;
use crate::set_up::table_fits;
use crate::the_table::{Form, LAST_OPERATOR, NAME, OPERATOR, Row, decode, row_is_free, rows};

/// What has to come up of moves to each form.
const OF_BOTH: [&str; 26] = [
    "1 rows, move: number 0",
    "7 rows, move: number 0",
    "a wholly zero row, move: number 0",
    "a name twice, move: number 0",
    "operator 15, move: number 0",
    "no access, move: number 0",
    "8 accesses, move: number 0",
    "a policy, move: number 0",
    "an empty source, move: number 1",
    "a source one byte short, move: number 1",
    "a source one byte long, move: number 1",
    "a source in the form to move to, move: number 1",
    "a source of 1,025 rows, move: number 1",
    "a source of 1,024 rows, move: number 19",
    "a target one byte short, move: number 19",
    "a target one byte long, move: number 19",
    "a target one row short, move: number 19",
    "a target one row long, move: number 19",
    "an empty target, move: number 19",
    "a target as long as the source, move: number 19",
    "20 for the first row alone, move: number 20",
    "20 for a middle row alone, move: number 20",
    "20 for the last row alone, move: number 20",
    "20 for another byte 0, move: number 20",
    "20 for an operator over 15, move: number 20",
    "19 beside 20, move: number 19",
];

/// What has to come up of moves back alone.
const OF_MOVES_BACK: [&str; 8] = [
    "21 for the first row alone, move: number 21",
    "21 for a middle row alone, move: number 21",
    "21 for the last row alone, move: number 21",
    "21 for a realm alone, move: number 21",
    "21 for a second policy alone, move: number 21",
    "19 beside 21, move: number 19",
    "20 before 21, move: number 20",
    "20 behind 21, move: number 20",
];

pub fn wanted_of_moves() -> Vec<String> {
    let mut all = Vec::new();
    for form in [1, 2] {
        all.extend(OF_BOTH.map(|sign| format!("to form {form}, {sign}")));
        let numbers = [0, 1, 19, 20].map(|number| format!("form {form}, move: number {number}"));
        all.extend(numbers);
    }
    all.extend(OF_MOVES_BACK.map(|sign| format!("to form 1, {sign}")));
    all.push("form 1, move: number 21".to_string());
    all
}

/// `said` is the form to move to, `target` the target's length.
pub fn signs_of_move(said: u32, source: &[u8], target: usize, came: &str) -> Vec<String> {
    let Some(to) = Form::numbered(said) else {
        return Vec::new();
    };
    let from = to.other();
    let mut signs = Vec::new();
    if forms(&DOCUMENT_01, source, said).is_none() {
        signs.extend(signs_of_source(from, source));
    } else {
        signs.extend(signs_of_target(from, source, target));
        signs.extend(signs_of_refusals(from, source, target));
        if came == "move: number 0" {
            signs.extend(signs_of_success(from, source));
        }
    }
    let told = |sign: String| format!("to form {said}, {sign}, {came}");
    let mut signs: Vec<String> = signs.into_iter().map(told).collect();
    if from == Form::Two && came == "move: number 20" {
        let mut stay = rows(from, source).filter(|row| !row_may_move(&DOCUMENT_01, from, row));
        if let (Some(row), None) = (stay.next(), stay.next()) {
            signs.extend(broken_alone(row).map(|clause| clause_key(clause, came)));
        }
    }
    signs
}

fn these(signs: &[(bool, &str)]) -> Vec<String> {
    let there = signs.iter().filter(|(is_so, _)| *is_so);
    there.map(|(_, sign)| sign.to_string()).collect()
}

fn signs_of_source(from: Form, source: &[u8]) -> Vec<String> {
    let (length, row) = (source.len(), from.row());
    these(&[
        (length == 0, "an empty source"),
        (length % row == row - 1, "a source one byte short"),
        (length % row == 1, "a source one byte long"),
        (
            table_fits(from.other(), source),
            "a source in the form to move to",
        ),
        (length == 1_025 * row, "a source of 1,025 rows"),
    ])
}

fn signs_of_target(from: Form, source: &[u8], target: usize) -> Vec<String> {
    let right = length_in(from, from.other(), source);
    let row = from.other().row();
    these(&[
        (source.len() == 1_024 * from.row(), "a source of 1,024 rows"),
        (target + 1 == right, "a target one byte short"),
        (target == right + 1, "a target one byte long"),
        (target + row == right, "a target one row short"),
        (target == right + row, "a target one row long"),
        (target == 0, "an empty target"),
        (target == source.len(), "a target as long as the source"),
    ])
}

/// Which rows can not move, which say too much, and what else is wrong.
fn signs_of_refusals(from: Form, source: &[u8], target: usize) -> Vec<String> {
    let all: Vec<&[u8]> = rows(from, source).collect();
    let which = |holds: &dyn Fn(&[u8]) -> bool| -> Vec<usize> {
        (0..all.len()).filter(|&index| holds(all[index])).collect()
    };
    let stay = which(&|row| !row_may_move(&DOCUMENT_01, from, row));
    let full = match from {
        Form::One => Vec::new(),
        Form::Two => {
            which(&|row| row_may_move(&DOCUMENT_01, from, row) && !fits_form_1(&DOCUMENT_01, row))
        }
    };
    let wrong = target != length_in(from, from.other(), source);
    let mut signs = these(&[
        (wrong && !stay.is_empty(), "19 beside 20"),
        (wrong && !full.is_empty(), "19 beside 21"),
        (
            stay.first() < full.first() && !stay.is_empty(),
            "20 before 21",
        ),
        (
            stay.last() > full.last() && !full.is_empty(),
            "20 behind 21",
        ),
    ]);
    signs.extend(alone(20, &stay, all.len()));
    signs.extend(alone(21, &full, all.len()));
    for row in stay.iter().map(|&index| all[index]) {
        let over = row[OPERATOR] > LAST_OPERATOR;
        signs.extend(these(&[
            (row[0] != 1, "20 for another byte 0"),
            (row[0] == 1 && over, "20 for an operator over 15"),
        ]));
    }
    if let [index] = full[..] {
        signs.extend(what_it_holds(all[index]));
    }
    signs
}

/// Where the only row stands for which a number is given.
fn alone(number: u8, which: &[usize], count: usize) -> Option<String> {
    let &[index] = which else {
        return None;
    };
    let place = match index {
        _ if count < 3 => return None,
        0 => "the first row",
        last if last + 1 == count => "the last row",
        _ => "a middle row",
    };
    Some(format!("{number} for {place} alone"))
}

fn what_it_holds(row: &[u8]) -> Vec<String> {
    let row = decode(Form::Two, row).unwrap_or_default();
    let realm = row.places.iter().flatten().any(|a| !a.realm.is_empty());
    let mut accesses = row.places.iter().flatten();
    let second = accesses.any(|a| a.policies[1].is_some());
    these(&[
        (realm && !second, "21 for a realm alone"),
        (second && !realm, "21 for a second policy alone"),
    ])
}

/// What was moved.
fn signs_of_success(from: Form, source: &[u8]) -> Vec<String> {
    let all: Vec<&[u8]> = rows(from, source).collect();
    let mut names: Vec<&[u8]> = all.iter().map(|row| &row[..NAME + 15]).collect();
    names.retain(|name| name[0] == 1);
    let count = names.len();
    names.sort_unstable();
    names.dedup();
    let says = all.iter().filter(|row| !row_is_free(row));
    let says: Vec<_> = says.filter_map(|row| decode(from, row)).collect();
    let policy = |row: &Row| {
        let mut accesses = row.places.iter().flatten();
        accesses.any(|a| a.policies[0].is_some())
    };
    these(&[
        (all.len() == 1, "1 rows"),
        (all.len() == MOST_MOVED, "7 rows"),
        (all.iter().any(|row| row_is_free(row)), "a wholly zero row"),
        (names.len() < count, "a name twice"),
        (says.iter().any(|row| row.operator == 15), "operator 15"),
        (says.iter().any(|row| row.line.is_empty()), "no access"),
        (says.iter().any(|row| row.line.len() == 8), "8 accesses"),
        (says.iter().any(policy), "a policy"),
    ])
}
