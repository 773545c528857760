//! Wrong programs that differ in sums, soundness, the lookup or the storing of a row.

use oracle::rules::Rules;
use oracle::the_table::*;

use crate::{RIGHT, Wrong};

/// Fletcher-16 as if a byte had 256 remainders.
fn sums_modulo_256(bytes: &[u8]) -> [u8; 2] {
    let step = |[second, first]: [u8; 2], &byte: &u8| {
        let first = first.wrapping_add(byte);
        [second.wrapping_add(first), first]
    };
    bytes.iter().fold([0, 0], step)
}

/// Compares two rows with some bytes of each block left out; the sums that are held
/// have to fit the bytes that are held.
fn same_but(held: &[u8], written: &[u8], counts: fn(usize) -> bool) -> bool {
    let pairs = held.iter().zip(written).enumerate();
    let mut counted = pairs.filter(|(i, _)| i % BLOCK < SUMS && counts(*i));
    let summed = |block: &[u8]| sums(&block[..SUMS]) == block[SUMS..];
    counted.all(|(_, (a, b))| a == b) && held.chunks(BLOCK).all(summed)
}

/// Stores a row, but leaves the old sums of block 0 where an access was only ended.
fn stale_sums(rules: &Rules, form: Form, table: &mut [u8], index: usize, row: &Row) {
    let old = row_at(form, table, index).to_vec();
    store(rules, form, table, index, row);
    if old[IN_USE].count_ones() as usize > row.line.len() {
        put(table, index * form.row() + SUMS, &old[SUMS..BLOCK]);
    }
}

/// Stores a row, but leaves the texts of a freed place behind.
fn texts_left(rules: &Rules, form: Form, table: &mut [u8], index: usize, row: &Row) {
    let old = row_at(form, table, index).to_vec();
    store(rules, form, table, index, row);
    for place in 1..=8 {
        if old[IN_USE] >> (place - 1) & 1 == 1 && row.access(place).is_none() {
            let start = form.start(place);
            put(
                table,
                index * form.row() + start + SESSION,
                &old[start + SESSION..start + SUMS],
            );
        }
    }
}

/// Stores a row, but writes a shorter policy over a longer one without its tail.
fn policy_tail_left(rules: &Rules, form: Form, table: &mut [u8], index: usize, row: &Row) {
    let old = decode(form, row_at(form, table, index));
    let mut row = row.clone();
    for (new, old) in row
        .places
        .iter_mut()
        .zip(old.iter().flat_map(|r| &r.places))
    {
        if let (Some(new), Some(old)) = (new, old)
            && let (Some(new), Some(old)) = (&mut new.policies[0], &old.policies[0])
            && new.len() < old.len()
        {
            new.extend(&old[new.len()..]);
        }
    }
    store(rules, form, table, index, &row);
}

/// Stores a row with its newest access at the head of the order line.
fn newest_first(rules: &Rules, form: Form, table: &mut [u8], index: usize, row: &Row) {
    let old = decode(form, row_at(form, table, index)).unwrap_or_default();
    let mut row = row.clone();
    if row.line.last() != old.line.last() && row.line.len() >= old.line.len() {
        row.line.rotate_right(1);
    }
    store(rules, form, table, index, &row);
}

/// Takes accesses on a barred entry for damage.
fn no_access_on_barred(row: &Row) -> bool {
    let barred = |a: &Access| row.entry(a.entry).is_some_and(|e| e.flags & BARRED != 0);
    !row.places.iter().flatten().any(barred)
}

fn matches(row: &[u8], operator: u32, name: &[u8]) -> bool {
    is_of(row, operator) && bears(row, name)
}

pub fn programs() -> Vec<Wrong> {
    wrong! {
        "sums modulo 256": sums = sums_modulo_256;
        "stores the first sum first": sums = |bytes| {
            let [second, first] = sums(bytes);
            [first, second]
        };
        "starts the sums at 1": sums = |bytes| sums(&[&[1], bytes].concat());
        "takes a stored 255 for 0": same_row = |_, held, written| {
            let brought_down = |(i, b): (usize, &u8)| if i % BLOCK >= SUMS { b % 255 } else { *b };
            held.iter().enumerate().map(brought_down).eq(written.iter().copied())
        };
        "does not compare sums": same_row = |_, held, written| {
            let (held, written) = (held.chunks(BLOCK), written.chunks(BLOCK));
            held.zip(written).all(|(h, w)| h[..SUMS] == w[..SUMS])
        };
        "compares only the second sum": same_row = |_, held, written| {
            let (held, written) = (held.chunks(BLOCK), written.chunks(BLOCK));
            held.zip(written).all(|(h, w)| h[..=SUMS] == w[..=SUMS])
        };
        "does not look at the ends of blocks": same_row = |_, held, written| {
            same_but(held, written, |i| i % BLOCK < 448)
        };
        "does not look at bytes 28 to 31": same_row = |_, held, written| {
            same_but(held, written, |i| !(28..32).contains(&i))
        };
        "does not look at the end of the name": same_row = |_, held, written| {
            same_but(held, written, |i| !(3..17).contains(&i))
        };
        "does not look at the line behind a zero": same_row = |_, held, written| {
            same_but(held, written, |i| !(21..28).contains(&i))
        };
        "does not look at an entry's last byte": same_row = |_, held, written| {
            same_but(held, written, |i| !(32..448).contains(&i) || (i - 32) % 104 != 103)
        };
        "does not look at the ends of labels": same_row = |_, held, written| {
            same_but(held, written, |i| !(32..448).contains(&i) || !(2..101).contains(&((i - 32) % 104)))
        };
        "does not look at unused entries": same_row = |_, held, written| {
            same_but(held, written, |i| !(136..448).contains(&i))
        };
        "does not look at bytes 6 and 7 of a place": same_row = |_, held, written| {
            same_but(held, written, |i| i < BLOCK || !(6..8).contains(&(i % BLOCK)))
        };
        "does not look at the ends of a place's texts": same_row = |_, held, written| {
            same_but(held, written, |i| i < BLOCK || !(9..392).contains(&(i % BLOCK)))
        };
        "does not look at the bits of the places in use": same_row = |_, held, written| {
            same_but(held, written, |i| i != IN_USE)
        };
        "takes any byte for a policy held": same_row = |_, held, written| {
            same_but(held, written, |i| i < BLOCK || i % BLOCK != 4)
        };
        "does not look at the length of a policy not held": same_row = |_, held, written| {
            same_but(held, written, |i| i < BLOCK || i % BLOCK != 5)
        };
        "does not look into free places": same_row = |_, held, written| {
            let used = |b: &[u8]| b[0] != 0;
            held.chunks(BLOCK).zip(written.chunks(BLOCK)).all(|(h, w)| h == w || !used(h))
        };
        "skips an unsound row of the same name": find = |r, form, table, operator, name| {
            let rows = || rows(form, table);
            rows().position(|row| matches(row, operator, name) && sound(r, form, row).is_some())
                .or_else(|| rows().position(|row| matches(row, operator, name)))
        };
        "finds sound rows only": find = |r, form, table, operator, name| {
            rows(form, table).position(|row| matches(row, operator, name) && sound(r, form, row).is_some())
        };
        "finds the last row of a name": find = |_, form, table, operator, name| {
            rows(form, table).rposition(|row| matches(row, operator, name))
        };
        "does not look at a row's first byte": find = |_, form, table, operator, name| {
            rows(form, table).position(|row| {
                matches(&[&[1], &row[1..]].concat(), operator, name)
            })
        };
        "finds a row by the front of its name": find = |_, form, table, operator, name| {
            let fits = |row: &[u8]| row[0] == 1 && is_of(row, operator) && row[NAME..].starts_with(name);
            rows(form, table).position(|row| (1..=15).contains(&name.len()) && fits(row))
        };
        "does not test soundness": same_row = |_, _, _| true, conditions = &[];
        "leaves block 0's sums when a place is freed": store = stale_sums;
        "leaves the texts of a freed place": store = texts_left;
        "leaves the end of a longer policy": store = policy_tail_left;
        "puts the new access first on the line": store = newest_first;
        "allows no access on a barred entry": conditions = {
            [CONDITIONS, &[no_access_on_barred]].concat().leak()
        };
        "writes no sums": store = |r, form, table, index, row| {
            store(&Rules { sums: |_| [0, 0], ..*r }, form, table, index, row)
        };
    }
}
