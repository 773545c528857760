//! Wrong programs that compare labels, or what is no label, in another way than W3 asks.

use oracle::Code;
use oracle::deciding::*;
use oracle::reading_a_message::*;
use oracle::rules::Rules;
use oracle::set_up::{NewEntry, add, may_add};
use oracle::the_table::*;

use crate::{RIGHT, Wrong};

type Same = fn(&[u8], &[u8]) -> bool;

const EXACTLY: Same = |one, other| one == other;

/// Two labels whose bytes are the same once this is done to each.
fn folded(one: &[u8], other: &[u8], fold: fn(u8) -> u8) -> bool {
    let folds = |text: &[u8]| text.iter().map(|&b| fold(b)).collect::<Vec<u8>>();
    folds(one) == folds(other)
}

/// The request about the row's own label where this comparison finds one, else about a
/// label that no row can hold.
fn asking<'a>(row: &Row, request: &Request<'a>, same: Same) -> Request<'a> {
    let label = request.text(W_APN);
    let held = row.entries.iter().find(|e| same(&e.label, label));
    let held = held.map_or(vec![0; 101], |e| e.label.clone());
    let mut other = request.clone();
    for (name, value) in &mut other.values {
        if *name == W_APN {
            *value = held.clone().leak();
        }
    }
    other
}

fn may_open_by(row: &Row, request: &Request, same: Same) -> Result<u8, Code> {
    may_open(row, &asking(row, request, same))
}

fn terminate_by(row: &mut Row, request: &Request, same: Same) -> Result<(), Code> {
    let asked = asking(row, request, same);
    terminate(row, &asked)
}

/// The label as it is held where this comparison finds it, else one that is new.
fn may_add_by(row: &Row, new: &NewEntry, same: Same) -> u8 {
    let number = may_add(row, new);
    let held = row.entries.iter().any(|e| same(&e.label, new.label));
    match number {
        15 if !held => may_add(
            row,
            &NewEntry {
                label: &NEW,
                ..*new
            },
        ),
        14 => 14,
        _ if held => 15,
        _ => number,
    }
}

/// A label that the generator never writes.
const NEW: [u8; 100] = [1; 100];

/// The conditions of a sound row, labels compared by this.
fn conditions_by(differ: fn(&Row) -> bool) -> &'static [fn(&Row) -> bool] {
    let entry = |label: &[u8]| Entry {
        label: label.to_vec(),
        flags: 0,
        limit: 1,
    };
    let twice = Row {
        name: b"1".to_vec(),
        entries: vec![entry(b"a"), entry(b"a")],
        ..Row::default()
    };
    let others = CONDITIONS.iter().copied().filter(|kept| kept(&twice));
    others.chain([differ]).collect::<Vec<_>>().leak()
}

fn differ_by(row: &Row, same: Same) -> bool {
    let labels: Vec<_> = row.entries.iter().map(|e| &e.label).collect();
    let differs = |(n, label): (usize, &&Vec<u8>)| !labels[..n].iter().any(|e| same(e, label));
    labels.iter().enumerate().all(differs)
}

/// A row in which a Session-Id that is the same but for case is the one asked for.
fn session_in_any_case(row: &Row, request: &Request) -> Row {
    let mut row = row.clone();
    let asked = request.text(SESSION_ID);
    for access in row.places.iter_mut().flatten() {
        if access.session.eq_ignore_ascii_case(asked) {
            access.session = asked.to_vec();
        }
    }
    row
}

pub fn programs() -> Vec<Wrong> {
    wrong! {
        "compares labels byte by byte on opening": may_open = |row, q| may_open_by(row, q, EXACTLY);
        "compares labels byte by byte on termination": terminate = |row, q| terminate_by(row, q, EXACTLY);
        "compares labels byte by byte on adding": may_add = |row, new| may_add_by(row, new, EXACTLY);
        "compares labels byte by byte in a row": conditions = conditions_by(|row| differ_by(row, EXACTLY));
        "folds 40 to 5F on opening": may_open = |row, q| may_open_by(row, q, |a, b| {
            folded(a, b, |x| if (0x40..0x60).contains(&x) { x + 0x20 } else { x })
        });
        "folds 5B too on termination": terminate = |row, q| terminate_by(row, q, |a, b| {
            folded(a, b, |x| if (0x41..=0x5B).contains(&x) { x + 0x20 } else { x })
        });
        "folds 40 too on adding": may_add = |row, new| may_add_by(row, new, |a, b| {
            folded(a, b, |x| if (0x40..=0x5A).contains(&x) { x + 0x20 } else { x })
        });
        "folds 5B too in a row": conditions = conditions_by(|row| differ_by(row, |a, b| {
            folded(a, b, |x| if (0x41..=0x5B).contains(&x) { x + 0x20 } else { x })
        }));
        "leaves the letter A out": may_open = |row, q| may_open_by(row, q, |a, b| {
            folded(a, b, |x| if (0x42..=0x5A).contains(&x) { x + 0x20 } else { x })
        });
        "leaves the letter Z out": terminate = |row, q| terminate_by(row, q, |a, b| {
            folded(a, b, |x| if (0x41..0x5A).contains(&x) { x + 0x20 } else { x })
        });
        "drops one bit of every byte": may_open = |row, q| may_open_by(row, q, |a, b| {
            folded(a, b, |x| x & 0xDF)
        });
        "folds letters over 7F on opening": may_open = |row, q| may_open_by(row, q, |a, b| {
            folded(a, b, |x| if x >= 0xC0 { x | 0x20 } else { x.to_ascii_lowercase() })
        });
        "folds letters over 7F on adding": may_add = |row, new| may_add_by(row, new, |a, b| {
            folded(a, b, |x| if x >= 0xC0 { x | 0x20 } else { x.to_ascii_lowercase() })
        });
        "stores the folded label": add = |r, said, table, of, new| {
            let label = new.label.to_ascii_lowercase();
            add(r, said, table, of, &NewEntry { label: &label, ..*new })
        };
        "compares Session-Ids in any case on opening": held = |row, entry, q| {
            (RIGHT.held)(&session_in_any_case(row, q), entry, q)
        };
        "compares Session-Ids in any case for a policy": take_policy = |row, q, wag| {
            *row = session_in_any_case(row, q);
            take_policy(row, q, wag)
        };
        "compares Session-Ids in any case on termination": terminate = |row, q| {
            *row = session_in_any_case(row, q);
            terminate(row, q)
        };
        "compares names in any case": find = |_, form, table, operator, name| {
            let same = |row: &[u8]| is_of(row, operator) && row[NAME..][..name.len()].eq_ignore_ascii_case(name);
            let bears_it = |row: &[u8]| row[0] == 1 && usize::from(row[1]) == name.len() && same(row);
            (1..=15).contains(&name.len()).then(|| rows(form, table).position(bears_it))?
        };
    }
}
