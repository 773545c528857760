//! The three set-up operations: clear a table, enter a subscriber, add a W-APN.
//! Each gives its number, 0 on success, and writes only on success.

use crate::rules::Rules;
use crate::the_table::{
    Entry, Form, LAST_OPERATOR, MOST_ENTRIES, MOST_ROWS, Row, is_of, limit_sum, row_at, rows, sound,
};

/// Whole rows of the form, at least 1, at most 1,024.
pub fn table_fits(form: Form, table: &[u8]) -> bool {
    let row = form.row();
    table.len().is_multiple_of(row) && (1..=MOST_ROWS).contains(&(table.len() / row))
}

/// The form in which a table is lent. Number 1 is given where there is none: no table
/// has a form that is neither 1 nor 2.
pub fn form_lent(rules: &Rules, said: u32, table: &[u8]) -> Option<Form> {
    let fits = |form: &Form| (rules.table_fits)(*form, table);
    (rules.form_numbered)(said).filter(fits)
}

/// Number 33 is given unless this holds, in every call that brings an operator (W8).
pub fn operator_fits(operator: u32) -> bool {
    operator <= u32::from(LAST_OPERATOR)
}

/// What is given for a new row: who enters the name, and how many rows each of the
/// sixteen operators may have.
#[derive(Clone, Debug, PartialEq, Eq)]
pub struct NewRow<'a> {
    pub operator: u32,
    pub shares: &'a [u32],
    pub name: &'a [u8],
}

/// Number 26 is given unless this holds: a share for each operator, and no more of them
/// together than the table has rows.
pub fn shares_fit(form: Form, table: &[u8], shares: &[u32]) -> bool {
    let sum: u128 = shares.iter().copied().map(u128::from).sum();
    let rows = (table.len() / form.row()) as u128;
    shares.len() == usize::from(LAST_OPERATOR) + 1 && sum <= rows
}

/// Number 27 is given if this holds. Rows count as soon as they begin like one, sound
/// or not.
pub fn share_is_full(form: Form, table: &[u8], new: &NewRow) -> bool {
    let share = new.shares.get(new.operator as usize).copied();
    own_rows(form, table, new.operator) as u64 >= u64::from(share.unwrap_or(0))
}

pub fn own_rows(form: Form, table: &[u8], operator: u32) -> usize {
    let own = |row: &&[u8]| row[0] == 1 && is_of(row, operator);
    rows(form, table).filter(own).count()
}

/// Whose row an entry is added to.
#[derive(Clone, Debug, PartialEq, Eq)]
pub struct Account<'a> {
    pub operator: u32,
    pub name: &'a [u8],
}

/// What is given for a new entry.
#[derive(Clone, Debug, PartialEq, Eq)]
pub struct NewEntry<'a> {
    pub label: &'a [u8],
    pub limit: u8,
    pub flags: u8,
}

pub fn clear(rules: &Rules, said: u32, table: &mut [u8]) -> u8 {
    if form_lent(rules, said, table).is_none() {
        return 1;
    }
    table.fill(0);
    0
}

pub fn enter(rules: &Rules, said: u32, table: &mut [u8], new: &NewRow) -> u8 {
    let Some(form) = form_lent(rules, said, table) else {
        return 1;
    };
    if !(rules.operator_fits)(new.operator) {
        return 33;
    }
    if !(rules.shares_fit)(form, table, new.shares) {
        return 26;
    }
    if !name_fits(new.name) {
        return 9;
    }
    if (rules.find)(rules, form, table, new.operator, new.name).is_some() {
        return 10;
    }
    if (rules.share_is_full)(rules, form, table, new) {
        return 27;
    }
    let Some(index) = rows(form, table).position(rules.row_is_free) else {
        return 11;
    };
    let row = Row {
        operator: new.operator as u8,
        name: new.name.to_vec(),
        ..Row::default()
    };
    (rules.store)(rules, form, table, index, &row);
    0
}

/// Number 9 is given unless this holds.
pub fn name_fits(name: &[u8]) -> bool {
    (1..=15).contains(&name.len()) && name.iter().all(u8::is_ascii_digit)
}

pub fn add(rules: &Rules, said: u32, table: &mut [u8], of: &Account, new: &NewEntry) -> u8 {
    let Some(form) = form_lent(rules, said, table) else {
        return 1;
    };
    if !(rules.operator_fits)(of.operator) {
        return 33;
    }
    let Some(index) = (rules.find)(rules, form, table, of.operator, of.name) else {
        return 12;
    };
    let Some(mut row) = sound(rules, form, row_at(form, table, index)) else {
        return 13;
    };
    let number = (rules.may_add)(&row, new);
    if number == 0 {
        row.entries.push(Entry {
            label: new.label.to_vec(),
            flags: new.flags,
            limit: new.limit,
        });
        (rules.store)(rules, form, table, index, &row);
    }
    number
}

/// The tests of a new entry against a sound row, numbers 14 to 17.
pub fn may_add(row: &Row, new: &NewEntry) -> u8 {
    let in_form = (1..=100).contains(&new.label.len());
    if !in_form || !(1..=8).contains(&new.limit) || new.flags > 3 {
        14
    } else if row.entry_of(new.label).is_some() {
        15
    } else if row.entries.len() >= MOST_ENTRIES {
        16
    } else if limit_sum(row) + u32::from(new.limit) > 8 {
        17
    } else {
        0
    }
}
