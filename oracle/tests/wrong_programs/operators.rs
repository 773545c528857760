//! Wrong programs that take operators and their shares (W8) in another way.

use oracle::handling::{handle, no_answer};
use oracle::rules::Rules;
use oracle::set_up::*;
use oracle::the_table::*;

use crate::{RIGHT, Wrong};

/// Enters with the tests of these numbers, in this order.
fn enter_in(rules: &Rules, said: u32, table: &mut [u8], new: &NewRow, order: [u8; 7]) -> u8 {
    let Some(form) = Form::numbered(said) else {
        return 1;
    };
    let holds = |number: &u8| match number {
        1 => !table_fits(form, table),
        33 => !operator_fits(new.operator),
        26 => !shares_fit(form, table, new.shares),
        9 => !name_fits(new.name),
        10 => find(form, table, new.operator, new.name).is_some(),
        27 => share_is_full(form, table, new),
        _ => !rows(form, table).any(row_is_free),
    };
    match order.into_iter().find(holds) {
        Some(number) => number,
        None => enter(rules, said, table, new),
    }
}

fn by_name(_: &Rules, form: Form, table: &[u8], _: u32, name: &[u8]) -> Option<usize> {
    rows(form, table).position(|row| bears(row, name))
}

const BY_NAME: Rules = Rules {
    find: by_name,
    ..RIGHT
};

const ANY_OPERATOR: Rules = Rules {
    operator_fits: |_| true,
    ..RIGHT
};

/// Whether the rows that count here are as many as the share or more.
fn full_by(form: Form, table: &[u8], new: &NewRow, counts: impl Fn(&[u8]) -> bool) -> bool {
    let share = new.shares[new.operator as usize] as usize;
    rows(form, table).filter(|row| counts(row)).count() >= share
}

fn whole_sum(shares: &[u32]) -> u64 {
    shares.iter().copied().map(u64::from).sum()
}

fn rows_of(form: Form, table: &[u8]) -> u64 {
    (table.len() / form.row()) as u64
}

/// A row is written with another operator than its own where this says so.
fn written_as(row: &Row, zero: fn(&Row) -> bool) -> Row {
    let operator = if zero(row) { 0 } else { row.operator };
    let row = row.clone();
    Row { operator, ..row }
}

pub fn programs() -> Vec<Wrong> {
    [lookups(), operators(), orders(), shares(), full_shares()].concat()
}

fn lookups() -> Vec<Wrong> {
    wrong! {
        "finds a row by name alone": find = by_name;
        "finds a row by name alone on entering": enter = |_, said, table, new| enter(&BY_NAME, said, table, new);
        "finds a row by name alone on adding": add = |_, said, table, of, new| {
            add(&BY_NAME, said, table, of, new)
        };
        "finds a row by name alone for a request": handle = |_, call| handle(&BY_NAME, call);
        "asks the first row of a name for its operator": find = |r, form, table, operator, name| {
            by_name(r, form, table, operator, name).filter(|&i| is_of(row_at(form, table, i), operator))
        };
        "gives the rows of operator 0 to all": find = |_, form, table, operator, name| {
            let own = |row: &[u8]| is_of(row, operator) || is_of(row, 0);
            rows(form, table).position(|row| own(row) && bears(row, name))
        };
        "gives rows over 15 to all": find = |_, form, table, operator, name| {
            let own = |row: &[u8]| is_of(row, operator) || row[OPERATOR] > 15;
            rows(form, table).position(|row| own(row) && bears(row, name))
        };
        "finds by the low four bits of byte 19": find = |_, form, table, operator, name| {
            let own = |row: &[u8]| u32::from(row[OPERATOR] & 15) == operator;
            rows(form, table).position(|row| own(row) && bears(row, name))
        };
        "never writes byte 19": store = |r, form, table, index, row| {
            store(r, form, table, index, &written_as(row, |_| true))
        };
        "does not write byte 19 on entering": store = |r, form, table, index, row| {
            store(r, form, table, index, &written_as(row, |row| row.entries.is_empty()))
        };
        "clears byte 19 when an access is open": store = |r, form, table, index, row| {
            store(r, form, table, index, &written_as(row, |row| !row.line.is_empty()))
        };
    }
}

fn operators() -> Vec<Wrong> {
    wrong! {
        "does not test the operator": operator_fits = |_| true;
        "takes operator 16": operator_fits = |operator| operator <= 16;
        "refuses operator 15": operator_fits = |operator| operator < 15;
        "takes an operator by its low byte": operator_fits = |operator| operator as u8 <= 15,
            find = |_, form, table, operator, name| find(form, table, operator & 255, name);
        "does not test the operator of a request": handle = |_, call| handle(&ANY_OPERATOR, call);
        "does not test the operator on adding": add = |_, said, table, of, new| {
            add(&ANY_OPERATOR, said, table, of, new)
        };
        "does not test the operator on entering": enter = |_, said, table, new| enter(&ANY_OPERATOR, said, table, new);
        "tests 33 before 1 for a request": no_answer = |r, call| match no_answer(r, call) {
            1 if !operator_fits(call.operator) => 33,
            number => number,
        };
        "tests 33 after 2": no_answer = |r, call| {
            let fits = |name: &[u8]| (1..=128).contains(&name.len());
            match no_answer(r, call) {
                33 if !fits(call.host) || !fits(call.realm) => 2,
                number => number,
            }
        };
        "tests 33 after 8": no_answer = |r, call| {
            match no_answer(&Rules { operator_fits: |_| true, ..*r }, call) {
                0 if !operator_fits(call.operator) => 33,
                number => number,
            }
        };
        "tests 33 before 1 on adding": add = |r, said, table, of, new| {
            match add(r, said, table, of, new) {
                1 if !operator_fits(of.operator) => 33,
                number => number,
            }
        };
        "tests 33 after 12": add = |r, said, table, of, new| {
            let form = Form::numbered(said).unwrap_or(Form::One);
            match add(r, said, table, of, new) {
                33 if find(form, table, of.operator, of.name).is_none() => 12,
                number => number,
            }
        };
    }
}

fn orders() -> Vec<Wrong> {
    wrong! {
        "tests 33 before 1 on entering": enter = |r, said, t, new| enter_in(r, said, t, new, [33, 1, 26, 9, 10, 27, 11]);
        "tests 26 before 33": enter = |r, said, t, new| enter_in(r, said, t, new, [1, 26, 33, 9, 10, 27, 11]);
        "tests 26 after 9": enter = |r, said, t, new| enter_in(r, said, t, new, [1, 33, 9, 26, 10, 27, 11]);
        "tests 26 after 10": enter = |r, said, t, new| enter_in(r, said, t, new, [1, 33, 9, 10, 26, 27, 11]);
        "tests 26 after 27": enter = |r, said, t, new| enter_in(r, said, t, new, [1, 33, 9, 10, 27, 26, 11]);
        "tests 26 after 11": enter = |r, said, t, new| enter_in(r, said, t, new, [1, 33, 9, 10, 27, 11, 26]);
        "tests 33 after 9": enter = |r, said, t, new| enter_in(r, said, t, new, [1, 9, 33, 26, 10, 27, 11]);
        "tests 27 before 10": enter = |r, said, t, new| enter_in(r, said, t, new, [1, 33, 26, 9, 27, 10, 11]);
        "tests 27 before 9": enter = |r, said, t, new| enter_in(r, said, t, new, [1, 33, 26, 27, 9, 10, 11]);
        "tests 27 before 26": enter = |r, said, t, new| enter_in(r, said, t, new, [1, 33, 27, 26, 9, 10, 11]);
        "tests 27 after 11": enter = |r, said, t, new| enter_in(r, said, t, new, [1, 33, 26, 9, 10, 11, 27]);
        "tests 11 before 10": enter = |r, said, t, new| enter_in(r, said, t, new, [1, 33, 26, 9, 11, 10, 27]);
        "gives 27 where no row is free": enter = |r, said, t, new| match enter(r, said, t, new) {
            11 => 27,
            number => number,
        };
        "gives 11 where a share is full": enter = |r, said, t, new| match enter(r, said, t, new) {
            27 => 11,
            number => number,
        };
        "knows no 11": enter = |r, said, t, new| match enter(r, said, t, new) {
            11 => 0,
            number => number,
        };
    }
}

fn shares() -> Vec<Wrong> {
    wrong! {
        "does not test shares": shares_fit = |_, _, _| true;
        "lets shares sum to more than the rows": shares_fit = |_, _, shares| shares.len() == 16;
        "lets shares sum to one more": shares_fit = |form, table, shares| {
            shares.len() == 16 && whole_sum(shares) <= rows_of(form, table) + 1
        };
        "lets shares sum to 1,024": shares_fit = |_, _, shares| {
            shares.len() == 16 && whole_sum(shares) <= MOST_ROWS as u64
        };
        "lets shares sum to less than the rows only": shares_fit = |form, table, shares| {
            shares.len() == 16 && whole_sum(shares) < rows_of(form, table)
        };
        "sums shares modulo 2^32": shares_fit = |form, table, shares| {
            shares.len() == 16 && whole_sum(shares) as u32 as u64 <= rows_of(form, table)
        };
        "sums shares by their low 16 bits": shares_fit = |form, table, shares| {
            shares.len() == 16 && whole_sum(shares) as u16 as u64 <= rows_of(form, table)
        };
        "tests each share by itself": shares_fit = |form, table, shares| {
            shares.len() == 16 && shares.iter().all(|&share| u64::from(share) <= rows_of(form, table))
        };
        "does not sum the last share": shares_fit = |form, table, shares| {
            shares.len() == 16 && whole_sum(&shares[..15]) <= rows_of(form, table)
        };
        "does not sum the first share": shares_fit = |form, table, shares| {
            shares.len() == 16 && whole_sum(&shares[1..]) <= rows_of(form, table)
        };
        "takes fifteen shares": shares_fit = |form, table, shares| {
            (15..=16).contains(&shares.len()) && whole_sum(shares) <= rows_of(form, table)
        };
        "takes seventeen shares": shares_fit = |form, table, shares| {
            shares.len() >= 16 && whole_sum(shares) <= rows_of(form, table)
        };
        "takes no shares": shares_fit = |form, table, shares| {
            [0, 16].contains(&shares.len()) && whole_sum(shares) <= rows_of(form, table)
        };
    }
}

fn full_shares() -> Vec<Wrong> {
    wrong! {
        "does not test the share": share_is_full = |_, _, _, _| false;
        "27 counts the rows of all operators": share_is_full = |_, form, table, new| {
            full_by(form, table, new, |row| row[0] == 1)
        };
        "27 counts all rows in use": share_is_full = |_, form, table, new| {
            full_by(form, table, new, |row| !row_is_free(row))
        };
        "27 counts rows by byte 19 alone": share_is_full = |_, form, table, new| {
            full_by(form, table, new, |row| !row_is_free(row) && is_of(row, new.operator))
        };
        "27 counts sound rows only": share_is_full = |r, form, table, new| {
            full_by(form, table, new, |row| is_of(row, new.operator) && sound(r, form, row).is_some())
        };
        "27 counts rows of a name that can be found": share_is_full = |_, form, table, new| {
            let named = |row: &[u8]| row[0] == 1 && (1..=15).contains(&row[1]);
            full_by(form, table, new, |row| named(row) && is_of(row, new.operator))
        };
        "27 only over the share": share_is_full = |_, form, table, new| {
            own_rows(form, table, new.operator) > new.shares[new.operator as usize] as usize
        };
        "27 one before the share": share_is_full = |_, form, table, new| {
            own_rows(form, table, new.operator) + 1 >= new.shares[new.operator as usize] as usize
        };
        "27 at the share only": share_is_full = |_, form, table, new| {
            own_rows(form, table, new.operator) == new.shares[new.operator as usize] as usize
        };
        "takes a share of 0 for no limit": share_is_full = |_, form, table, new| {
            new.shares[new.operator as usize] != 0 && share_is_full(form, table, new)
        };
        "takes the share of operator 0 for all": share_is_full = |_, form, table, new| {
            own_rows(form, table, new.operator) >= new.shares[0] as usize
        };
        "takes the share of the next operator": share_is_full = |_, form, table, new| {
            own_rows(form, table, new.operator) >= new.shares[(new.operator as usize + 1) % 16] as usize
        };
        "takes the sum of the shares for each": share_is_full = |_, form, table, new| {
            own_rows(form, table, new.operator) as u64 >= whole_sum(new.shares)
        };
    }
}
