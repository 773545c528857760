//! What of a call has to do with operators and their shares (W8), for the report.

use std::collections::BTreeSet;
use std::sync::LazyLock;

use crate::handling::{Call, no_answer};
use crate::operators::{BYTES_19, IN_ORDER};
use crate::program::{Asked, Operation};
use crate::rules::DOCUMENT_01;
use crate::set_up::{
    NewRow, name_fits, operator_fits, own_rows, share_is_full, shares_fit, table_fits,
};
use crate::the_table::{Form, OPERATOR, bears, find, is_of, row_is_free, rows, sound};

/// Operators that each call has to bring.
const BROUGHT: [u32; 5] = [0, 1, 15, 16, u32::MAX];

/// What comes of calls that have to pass over rows of other operators.
const PASSING: [&str; 5] = [
    "enter: number 0",
    "add: number 0",
    "265 type 0: 2001",
    "265 type 1: 2001",
    "275: 2001",
];

/// What comes of calls of an operator that has no such name, though another has.
const ALONE: [&str; 5] = [
    "enter: number 0",
    "add: number 12",
    "265 type 0: E5001",
    "265 type 1: E5001",
    "275: E5001",
];

/// What has to come up of shares, and of two numbers that hold at once.
const OTHERS: [&str; 41] = [
    "name of three operators, 265 type 0: 2001",
    "name of three operators, 275: 2001",
    "name of three operators, add: number 0",
    "shares sum to the rows, enter: number 0",
    "shares sum to one more, enter: number 26",
    "shares sum past 2^32, enter: number 26",
    "shares fit modulo 2^32, enter: number 26",
    "0 shares, enter: number 26",
    "15 shares that would fit, enter: number 26",
    "17 shares that would fit, enter: number 26",
    "share of 0, enter: number 27",
    "rows as many as the share, and a free one, enter: number 27",
    "rows over the share, enter: number 27",
    "an unsound row fills the share, enter: number 27",
    "share not full and no free row, enter: number 11",
    "rows of all operators would fill the share, enter: number 0",
    "rows of nobody would fill the share, enter: number 0",
    "byte 19 of the operator in a row, enter: number 33",
    "byte 19 of the operator in a row, add: number 33",
    "byte 19 of the operator in a row, handle: number 33",
    "1 beside 33, enter",
    "1 beside 26, enter",
    "1 beside 9, enter",
    "33 beside 26, enter",
    "33 beside 9, enter",
    "33 beside 10, enter",
    "33 beside 11, enter",
    "26 beside 9, enter",
    "26 beside 10, enter",
    "26 beside 27, enter",
    "26 beside 11, enter",
    "9 beside 10, enter",
    "9 beside 27, enter",
    "9 beside 11, enter",
    "10 beside 27, enter",
    "10 beside 11, enter",
    "27 beside 11, enter",
    "1 beside 33, add",
    "33 beside 14, add",
    "1 beside 33, handle",
    "33 beside 2, handle",
];

/// What has to come up; of all that could be said of operators, the report says no more.
pub static WANTED_OF_OPERATORS: LazyLock<BTreeSet<String>> = LazyLock::new(wanted);

fn wanted() -> BTreeSet<String> {
    let mut all: Vec<String> = OTHERS.map(str::to_string).to_vec();
    for operation in ["enter", "add", "handle"] {
        all.extend(BROUGHT.map(|operator| format!("operator {operator}, {operation}")));
    }
    all.extend((0..16).map(|operator| format!("entered by operator {operator}")));
    for came in PASSING {
        all.extend(BYTES_19.map(|byte| format!("byte 19 of {byte} passed over, {came}")));
    }
    all.extend(ALONE.map(|came| format!("name of others alone, {came}")));
    all.into_iter().collect()
}

/// Who calls, and for which name.
pub struct Subject<'a> {
    pub operator: u32,
    pub name: &'a [u8],
}

/// The table of a call, and the form in which it is lent.
type Lent<'a> = (Form, &'a [u8]);

/// `came` is what the report says of the call by itself.
pub fn signs_of_operators(
    operation: &Operation,
    subject: &Subject,
    table: &[u8],
    came: &str,
) -> Vec<String> {
    let Some(form) = operation.form().and_then(Form::numbered) else {
        return Vec::new();
    };
    let lent = (form, table);
    let mut signs = match operation {
        Operation::Clear { .. }
        | Operation::Move { .. }
        | Operation::Abort(_)
        | Operation::Answered(_)
        | Operation::Burst(_)
        | Operation::ReAuth(_)
        | Operation::Judge(_) => return Vec::new(),
        Operation::Enter { shares, .. } => {
            let new = NewRow {
                operator: subject.operator,
                shares,
                name: subject.name,
            };
            signs_of_entering(&new, lent, came)
        }
        Operation::Add { limit, flags, .. } => {
            let no_entry = *limit > 8 || *flags > 3;
            signs_of_two(subject.operator, lent, (14, no_entry), came)
        }
        Operation::Handle(asked) => {
            let names = own_names_fail(asked);
            signs_of_two(subject.operator, lent, (2, names), came)
        }
    };
    let kind = ["enter", "add"]
        .into_iter()
        .find(|kind| came.starts_with(kind));
    let kind = kind.unwrap_or("handle");
    signs.push(format!("operator {}, {kind}", subject.operator));
    if table_fits(form, table) {
        signs.extend(signs_of_rows(subject, lent, came));
    }
    signs.retain(|sign| WANTED_OF_OPERATORS.contains(sign));
    signs
}

fn own_names_fail(asked: &Asked) -> bool {
    let call = Call {
        form: 1,
        table: &mut [0; Form::One.row()],
        operator: 0,
        host: &asked.host,
        realm: &asked.realm,
        message: &[],
        wag: false,
        answer_room: &mut [],
        notice_room: &mut [],
    };
    no_answer(&DOCUMENT_01, &call) == 2
}

/// Of a call other than an entering: 33 beside 1, and beside the number behind it.
fn signs_of_two(operator: u32, (form, table): Lent, later: (u8, bool), came: &str) -> Vec<String> {
    let kind = came.split(':').next().unwrap_or_default();
    match (table_fits(form, table), operator_fits(operator), later) {
        (false, false, _) => vec![format!("1 beside 33, {kind}")],
        (true, false, (number, true)) => vec![format!("33 beside {number}, {kind}")],
        _ => Vec::new(),
    }
}

/// Which rows of the name, and of other operators, the call met.
fn signs_of_rows(subject: &Subject, (form, table): Lent, came: &str) -> Vec<String> {
    let mut signs = Vec::new();
    let rows = || rows(form, table);
    if !operator_fits(subject.operator) {
        if rows().any(|row| is_of(row, subject.operator) && row[0] == 1) {
            signs.push(format!("byte 19 of the operator in a row, {came}"));
        }
        return signs;
    }
    let found = find(form, table, subject.operator, subject.name);
    let before = rows().take(found.unwrap_or(rows().count()));
    let mut passed: Vec<u8> = before
        .filter(|row| bears(row, subject.name))
        .map(|row| row[OPERATOR])
        .collect();
    passed.sort_unstable();
    passed.dedup();
    for byte in &passed {
        signs.push(format!("byte 19 of {byte} passed over, {came}"));
    }
    if found.is_none() && !passed.is_empty() {
        signs.push(format!("name of others alone, {came}"));
    }
    let is_sound = |row: &[u8]| sound(&DOCUMENT_01, form, row).is_some();
    let namesakes = rows().filter(|row| bears(row, subject.name) && is_sound(row));
    let mut operators: Vec<u8> = namesakes.map(|row| row[OPERATOR]).collect();
    operators.sort_unstable();
    operators.dedup();
    if operators.len() > 2 {
        signs.push(format!("name of three operators, {came}"));
    }
    signs
}

/// Which numbers hold beside the one that was given, and what the shares are.
fn signs_of_entering(new: &NewRow, lent: Lent, came: &str) -> Vec<String> {
    let mut signs = Vec::new();
    let given = IN_ORDER
        .into_iter()
        .find(|&number| holds(new, lent, number));
    if let Some(given) = given {
        let later = IN_ORDER
            .into_iter()
            .skip_while(|&number| number != given)
            .skip(1);
        let beside = later.filter(|&number| holds(new, lent, number));
        signs.extend(beside.map(|number| format!("{given} beside {number}, enter")));
    } else {
        signs.push(format!("entered by operator {}", new.operator));
    }
    let (form, table) = lent;
    if table_fits(form, table) && operator_fits(new.operator) {
        let of_shares = signs_of_shares(new, lent).into_iter();
        signs.extend(of_shares.map(|sign| format!("{sign}, {came}")));
    }
    signs
}

/// Whether a number holds of an entering, whatever comes before it. Of a table that does
/// not fit, and of an operator over 15, some are not asked.
fn holds(new: &NewRow, (form, table): Lent, number: u8) -> bool {
    let (fits, known) = (table_fits(form, table), operator_fits(new.operator));
    match number {
        1 => !fits,
        33 => !known,
        26 => !shares_fit(form, table, new.shares),
        9 => !name_fits(new.name),
        10 => fits && find(form, table, new.operator, new.name).is_some(),
        27 => fits && known && share_is_full(form, table, new),
        _ => fits && !rows(form, table).any(row_is_free),
    }
}

fn signs_of_shares(new: &NewRow, (form, table): Lent) -> Vec<String> {
    let rows = (table.len() / form.row()) as u64;
    let mut signs = signs_of_sum(new.shares, rows);
    signs.extend(signs_of_own_share(new, (form, table)));
    signs
}

/// How many shares there are, and what they sum to.
fn signs_of_sum(shares: &[u32], rows: u64) -> Vec<String> {
    let sum: u64 = shares.iter().copied().map(u64::from).sum();
    let past = sum >= 1 << 32;
    let count = shares.len();
    if count == 0 {
        return vec!["0 shares".to_string()];
    }
    if count != 16 {
        let would_fit = (sum <= rows).then(|| format!("{count} shares that would fit"));
        return would_fit.into_iter().collect();
    }
    these(&[
        (sum == rows, "shares sum to the rows"),
        (sum == rows + 1, "shares sum to one more"),
        (past, "shares sum past 2^32"),
        (past && sum % (1 << 32) <= rows, "shares fit modulo 2^32"),
    ])
}

/// Which rows fill the operator's own share, or would.
fn signs_of_own_share(new: &NewRow, (form, table): Lent) -> Vec<String> {
    let rows = || rows(form, table);
    let its = |row: &&[u8]| is_of(row, new.operator);
    let share = new.shares.get(new.operator as usize).copied();
    let share = share.unwrap_or(0) as usize;
    let own = own_rows(form, table, new.operator);
    let open = own < share;
    let free = rows().any(row_is_free);
    let whole = rows().filter(|row| its(row) && sound(&DOCUMENT_01, form, row).is_some());
    let begun = rows().filter(|row| row[0] == 1);
    let held = rows().filter(|row| its(row) && !row_is_free(row));
    let as_many = own == share && own > 0;
    these(&[
        (share == 0, "share of 0"),
        (as_many && free, "rows as many as the share, and a free one"),
        (own > share, "rows over the share"),
        (
            !open && whole.count() < share,
            "an unsound row fills the share",
        ),
        (open && !free, "share not full and no free row"),
        (
            open && begun.count() >= share,
            "rows of all operators would fill the share",
        ),
        (
            open && held.count() >= share,
            "rows of nobody would fill the share",
        ),
    ])
}

/// Those signs that are there.
fn these(signs: &[(bool, &str)]) -> Vec<String> {
    let there = signs.iter().filter(|(is_so, _)| *is_so);
    there.map(|(_, sign)| sign.to_string()).collect()
}
