//! Every way in which a sound row can be spoilt.

use crate::cases::{Case, access, entries};
use crate::either_case::typed;
use crate::random::Random;
use crate::reading_a_message::USER_NAME;
use crate::second_blocks::{CLAUSES, break_clause};
use crate::the_table::{
    Access, BLOCK, ENTRIES, ENTRY, ENTRY_COUNT, Entry, Form, HOST, IN_USE, LINE, NAME, OPERATOR,
    POLICY, Row, SESSION, SUMS, put, sums,
};

/// How many ways there are to damage a row of either form; form 2 has more of its own.
pub const DAMAGES: usize = 15 + HEAD_DAMAGES + ACCESS_DAMAGES + 3;
const HEAD_DAMAGES: usize = 19;
const ACCESS_DAMAGES: usize = 14;

/// Spoils the case's row in any way that its form knows.
pub fn any_damage(case: &mut Case, random: &mut Random) {
    if case.form == Form::Two && random.once_in(4) {
        let clause = random.pick(&CLAUSES);
        return break_clause(case, clause, random);
    }
    damage(case, random.below(DAMAGES), random);
}

/// Spoils the case's row in one respect and writes it into the table.
pub fn damage(case: &mut Case, way: usize, random: &mut Random) {
    let (form, name) = (case.form, case.row.name.clone());
    damage_meaning(form, &mut case.row, way, random);
    case.write_row();
    // A name that was damaged too is asked for as it now stands.
    let user = case.draft.avp(USER_NAME);
    if let Some(user) = user.filter(|avp| avp.value == name) {
        user.value = case.row.name.clone();
    }
    let (row, bytes) = (case.row.clone(), case.row_bytes());
    let Some(way) = way.checked_sub(15) else {
        return;
    };
    if row.line.is_empty() || way < HEAD_DAMAGES {
        return damage_head(bytes, &row, way % HEAD_DAMAGES, random);
    }
    let place = form.start(*random.pick(&row.line));
    let free = (1..=8).find(|&p| row.access(p).is_none());
    match (way - HEAD_DAMAGES, free) {
        (way, _) if way < ACCESS_DAMAGES => damage_access(bytes, place, way, random),
        (_, Some(free)) if random.once_in(2) => damage_free(bytes, form.start(free), random),
        _ => stored_255(bytes, place, random),
    }
}

/// Ways 0 to 14: a row in the right form that breaks one of the other conditions.
/// Where it has nothing to break, it stays sound.
fn damage_meaning(form: Form, row: &mut Row, way: usize, random: &mut Random) {
    let entry = random.below(row.entries.len());
    match way {
        0 => row.line.push(*random.pick(&[1, 5, 8, 9, 255])),
        1 => drop(row.line.pop()),
        2 => repeat_on_line(row, random),
        3 => same_session(row, random),
        4 => any_access(row, random, |a, r| a.entry = *r.pick(&[0, 5, 9, 255])),
        5 => any_access(row, random, |a, _| a.policies[0] = Some(Vec::new())),
        6 => any_access(row, random, |a, _| a.session.clear()),
        7 => any_access(row, random, |a, _| a.host.clear()),
        8 => label_twice(row, random),
        9 => limits_of_nine(row),
        10 => over_limit(form, row, random),
        11 => row.entries[entry].label.clear(),
        12 => row.entries[entry].flags |= *random.pick(&[4, 8, 128]),
        13 => no_limit(row),
        14 => row.name[0] = *random.pick(b"/:a "),
        _ => (),
    }
}

/// A last entry that allows no access at all.
fn no_limit(row: &mut Row) {
    row.entries.truncate(3);
    let last = row.entries.len() as u8;
    let gone: Vec<u8> = row.line.clone();
    for place in gone {
        if row.access(place).is_some_and(|a| a.entry > last) {
            row.free(place);
        }
    }
    row.entries.push(Entry {
        label: b"none".to_vec(),
        flags: 0,
        limit: 0,
    });
}

fn any_access(row: &mut Row, random: &mut Random, change: fn(&mut Access, &mut Random)) {
    let mut open: Vec<_> = row.places.iter_mut().flatten().collect();
    let chosen = random.below(open.len());
    if let Some(access) = open.get_mut(chosen) {
        change(access, random);
    }
}

fn repeat_on_line(row: &mut Row, random: &mut Random) {
    if let Some(&first) = row.line.first() {
        let other = random.below(row.line.len());
        row.line[other] = first;
        if other == 0 {
            row.line.push(first);
        }
    }
}

fn same_session(row: &mut Row, random: &mut Random) {
    if row.line.len() < 2 {
        return;
    }
    let from = row.access(row.line[0]).map(|a| a.session.clone());
    let to = row.line[random.from_to(1, row.line.len() - 1)];
    if let (Some(session), Some(access)) = (from, &mut row.places[usize::from(to) - 1]) {
        access.session = session;
    }
}

/// The last label is the first, half the time in another case.
fn label_twice(row: &mut Row, random: &mut Random) {
    if let Some((first, rest)) = row.entries.split_first_mut()
        && let Some(last) = rest.last_mut()
    {
        last.label = typed(&first.label, random);
    }
}

/// Limits that are in range one by one, but sum to nine.
fn limits_of_nine(row: &mut Row) {
    let rest: u8 = row.entries.iter().skip(1).map(|e| e.limit).sum();
    if let Some(first) = row.entries.first_mut() {
        first.limit = 9 - rest.min(8);
    }
}

/// One more access on an entry than its limit allows.
fn over_limit(form: Form, row: &mut Row, random: &mut Random) {
    let number = random.from_to(1, row.entries.len()) as u8;
    let limit = usize::from(row.entries[usize::from(number) - 1].limit);
    for place in 1..=8u8 {
        if row.open_on(number) > limit {
            return;
        }
        if row.access(place).is_none() {
            let session = vec![b's', place];
            row.places[usize::from(place) - 1] = Some(access(form, number, session, random));
            row.line.push(place);
        }
    }
}

/// Sets one byte of the block that starts here to another value and, if asked, puts the
/// sums right.
pub fn set(bytes: &mut [u8], start: usize, offset: usize, value: u8, repair: bool) {
    let block = &mut bytes[start..][..BLOCK];
    block[offset] = if block[offset] == value {
        value ^ 1
    } else {
        value
    };
    if repair {
        let right = sums(&block[..SUMS]);
        put(block, SUMS, &right);
    }
}

/// Block 0: each byte in turn, above all those that mean something.
fn damage_head(bytes: &mut [u8], row: &Row, way: usize, random: &mut Random) {
    let count = row.entries.len();
    let entry = ENTRIES + ENTRY * random.below(count);
    let unused = ENTRIES + ENTRY * count;
    let label_end = entry + 1 + usize::from(bytes[entry]);
    let name_end = NAME + row.name.len();
    let places: [(usize, &[u8]); HEAD_DAMAGES] = [
        (0, &[0, 2, 255]),
        (1, &[0, 14, 15, 16, 255]),
        (random.from_to(NAME, name_end - 1), &[0, b'/', b':', b'a']),
        (random.from_to(name_end.min(16), 16), &[b'0', 1]),
        (IN_USE, &[0, 1, 128, 255]),
        (ENTRY_COUNT, &[0, 1, 2, 3, 4, 5, 255]),
        (OPERATOR, &[0, 1, 15, 16, 255]),
        (LINE + random.below(8), &[0, 1, 2, 8, 9, 255]),
        (LINE + 7, &[1, 8]),
        (random.from_to(28, 31), &[1, 128]),
        (entry, &[0, 101, 100, 1, 255]),
        (label_end.min(entry + 100), &[1]),
        (entry + 101, &[4, 8, 128, 255]),
        (entry + 102, &[0, 9, 255]),
        (entry + 103, &[1, 255]),
        (unused.min(448) + random.below(60), &[1, 128]),
        (random.from_to(448, 509), &[1, 255]),
        (SUMS + random.below(2), &[0, 1, 255]),
        (random.below(BLOCK), &[1]),
    ];
    let (offset, values) = places[way];
    let value = *random.pick(values);
    set(bytes, 0, offset, value, offset < SUMS && !random.once_in(3));
}

/// A free place has to be wholly zero, its sums included. Blocks are told by where they
/// start.
fn damage_free(bytes: &mut [u8], place: usize, random: &mut Random) {
    let offset = *random.pick(&[0, 1, 8, 100, 509, 510, 511]);
    let value = *random.pick(&[1, 2, 255]);
    set(
        bytes,
        place,
        offset,
        value,
        offset < SUMS && !random.once_in(3),
    );
}

fn damage_access(bytes: &mut [u8], place: usize, way: usize, random: &mut Random) {
    let block = &bytes[place..][..BLOCK];
    let end = |start: usize, length: u8| start + usize::from(length).min(127);
    let places: [(usize, &[u8]); ACCESS_DAMAGES] = [
        (0, &[0, 1, 3, 255]),
        (1, &[0, 1, 2, 3, 4, 5]),
        (2, &[0, 127, 128, 129, 255]),
        (3, &[0, 127, 128, 129, 255]),
        (4, &[0, 1]),
        (4, &[2, 255]),
        (5, &[0, 1, 128, 129, 255]),
        (random.from_to(6, 7), &[1, 255]),
        (end(SESSION, block[2]), &[1]),
        (end(HOST, block[3]), &[1]),
        (end(POLICY, block[5]), &[1]),
        (random.from_to(392, 509), &[1, 255]),
        (SUMS + random.below(2), &[0, 1, 255]),
        (random.below(BLOCK), &[1]),
    ];
    let (offset, values) = places[way];
    let value = *random.pick(values);
    set(
        bytes,
        place,
        offset,
        value,
        offset < SUMS && !random.once_in(3),
    );
}

/// An access whose first sum is 0, with 255 stored for it: the same remainder, but
/// not the one that is to be stored.
fn stored_255(bytes: &mut [u8], place: usize, random: &mut Random) {
    let block = &mut bytes[place..][..BLOCK];
    let text = if random.once_in(2) { SESSION } else { HOST };
    let fits = |block: &mut [u8], value: u8| {
        block[text] = value;
        sums(&block[..SUMS])[1] == 0
    };
    let value = (1..=255).find(|&value| fits(block, value));
    let right = sums(&block[..SUMS]);
    put(block, SUMS, &right);
    if value.is_some() {
        block[SUMS + 1] = 255;
    }
}

/// A row of no subscriber: wholly random, or zero but for one byte.
pub fn odd_row(form: Form, random: &mut Random) -> Vec<u8> {
    let all = form.row();
    let mut bytes = vec![0; all];
    match random.below(3) {
        0 => {
            let length = random.from_to(1, 40);
            put(&mut bytes, random.below(all - 40), &random.bytes(length));
        }
        1 if random.once_in(2) => bytes = random.bytes(all),
        1 => bytes[random.from_to(1, all - 1)] = 1,
        _ => bytes[all - 1] = 1,
    }
    bytes
}

/// An entry at random, for tests of what may be added.
pub fn some_entry(random: &mut Random) -> Entry {
    let all = entries(random);
    random.pick(&all).clone()
}
