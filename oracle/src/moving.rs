//! Moving a table from one form to the other (W5): each row is read in the form it has
//! and what it says is written in the other.

use crate::rules::Rules;
use crate::set_up::form_lent;
use crate::the_table::{Form, Row, decode, encode, row_is_free, rows, sound};

/// Gives its number, 0 on success. `said` is the form to move to. All rows are looked at
/// before the first byte of the target is written.
pub fn move_table(rules: &Rules, source: &[u8], target: &mut [u8], said: u32) -> u8 {
    let Some((from, to)) = forms(rules, source, said) else {
        return 1;
    };
    if target.len() != length_in(from, to, source) {
        return 19;
    }
    if !rows(from, source).all(|row| (rules.row_may_move)(rules, from, row)) {
        return 20;
    }
    if to == Form::One && !rows(from, source).all(|row| fits_form_1(rules, row)) {
        return 21;
    }
    write(rules, (from, to), source, target);
    0
}

/// The form that the source has and the one it goes to: the source is lent in the form
/// that is not said.
pub fn forms(rules: &Rules, source: &[u8], said: u32) -> Option<(Form, Form)> {
    let to = (rules.form_numbered)(said)?;
    let from = form_lent(rules, to.other().number(), source)?;
    Some((from, to))
}

/// As many rows of the other form.
pub fn length_in(from: Form, to: Form, source: &[u8]) -> usize {
    source.len() / from.row() * to.row()
}

/// Number 20 is given unless this holds of every row, whether a lookup finds it or not.
pub fn row_may_move(rules: &Rules, form: Form, row: &[u8]) -> bool {
    row_is_free(row) || sound(rules, form, row).is_some()
}

/// Number 21 is given unless this holds of every row that moves back.
pub fn fits_form_1(rules: &Rules, row: &[u8]) -> bool {
    decode(Form::Two, row).is_none_or(|row| (rules.says_form_1)(&row))
}

/// Neither a realm nor a second policy. Where there is no second there is no third.
pub fn says_form_1(row: &Row) -> bool {
    let mut accesses = row.places.iter().flatten();
    accesses.all(|a| a.realm.is_empty() && a.policies[1].is_none())
}

/// Writes the whole target. A wholly zero row stays wholly zero.
pub fn write(rules: &Rules, (from, to): (Form, Form), source: &[u8], target: &mut [u8]) {
    for (row, place) in rows(from, source).zip(target.chunks_exact_mut(to.row())) {
        match decode(from, row).filter(|_| !row_is_free(row)) {
            Some(row) => place.copy_from_slice(&encode(rules, to, &row)),
            None => place.fill(0),
        }
    }
}
