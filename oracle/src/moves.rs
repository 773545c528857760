//! Moves of tables (W5): such of which none, one or two of the numbers hold, and where in
//! the table.

use crate::cases::{digits, some_policies, sound_row};
use crate::damages::odd_row;
use crate::drafts::Draft;
use crate::forms::NO_FORMS;
use crate::generator::request;
use crate::program::{Operation, Room};
use crate::random::Random;
use crate::recorder::Recorder;
use crate::rules::DOCUMENT_01;
use crate::the_table::{BLOCK, FORMS, Form, Row, SUMS, decode, encode, put, rows, sums};

/// No move of a script has more rows: what it writes stands in one record.
pub const MOST_MOVED: usize = 7;

/// Which numbers hold of a move, and in which way.
#[derive(Clone)]
pub struct Moving {
    to: Form,
    rows: usize,
    /// A form to say that there is not.
    no_form: Option<u32>,
    /// The way in which the source or the target has a wrong length.
    source: Option<usize>,
    target: Option<usize>,
    /// Which row is unsound: 0 the first, 1 one in the middle, 2 the last.
    unsound: Option<usize>,
    /// Which row holds what form 1 has no room for, and what of it.
    holds: Option<(usize, usize)>,
}

const SOURCES: usize = 5;
const TARGETS: usize = 7;
const HELD: usize = 4;

/// None, each in every way, and every two.
pub fn moves() -> Vec<Moving> {
    let mut all = Vec::new();
    for to in FORMS {
        let none = Moving {
            to,
            rows: 3,
            no_form: None,
            source: None,
            target: None,
            unsound: None,
            holds: None,
        };
        let mut add = |change: &dyn Fn(&mut Moving)| {
            let mut one = none.clone();
            change(&mut one);
            all.push(one);
        };
        for rows in [1, 2, 3, 4, 5, 6, MOST_MOVED, MOST_MOVED] {
            add(&|m| m.rows = rows);
        }
        (0..SOURCES).for_each(|way| add(&|m| m.source = Some(way)));
        (0..TARGETS).for_each(|way| add(&|m| m.target = Some(way)));
        for form in NO_FORMS {
            add(&|m| m.no_form = Some(form));
        }
        for row in 0..3 {
            (0..2).for_each(|_| add(&|m| m.unsound = Some(row)));
            add(&|m| (m.target, m.unsound) = (Some(row), Some(row)));
            add(&|m| (m.source, m.target) = (Some(row), Some(row)));
            add(&|m| (m.source, m.unsound) = (Some(row), Some(row)));
            if to == Form::One {
                (0..HELD).for_each(|what| add(&|m| m.holds = Some((row, what))));
                add(&|m| (m.target, m.holds) = (Some(row), Some((row, row))));
                add(&|m| (m.unsound, m.holds) = (Some(row), Some((2 - row, row))));
            }
        }
    }
    all
}

/// Makes a table of which just this holds, and moves it. One that was moved is moved back
/// or used.
pub fn moving(recorder: &mut Recorder, how: &Moving, random: &mut Random) {
    let from = how.to.other();
    let mut rows: Vec<Vec<u8>> = (0..how.rows).map(|_| row_to_move(from, random)).collect();
    if how.rows == MOST_MOVED {
        // One name stands twice.
        let name = digits(random);
        for place in [0, 2] {
            rows[at(place, how.rows)] = row_named(from, &name, random);
        }
    }
    if let Some((place, what)) = how.holds {
        rows[at(place, how.rows)] = row_that_holds(what, random);
    }
    if let Some(place) = how.unsound {
        rows[at(place, how.rows)] = row_that_stays(from, random);
    }
    let mut source = rows.concat();
    if let Some(way) = how.source {
        resize_source(&mut source, from, way);
    }
    let length = match how.target {
        Some(way) => wrong_target(from, how.rows, way),
        None => how.rows * how.to.row(),
    };
    recorder.set_table(&source);
    let form = how.no_form.unwrap_or(how.to.number());
    let moved = recorder.call(operation(form, length, random), false);
    if let Some(seen) = moved.filter(|seen| seen.numbers[0] == 0) {
        recorder.set_table(&seen.answer_room);
        if random.once_in(2) {
            move_to(recorder, from, random);
        } else {
            use_moved(recorder, how.to, random);
        }
    }
}

/// The index of the first, a middle or the last row.
fn at(place: usize, count: usize) -> usize {
    [0, count / 2, count - 1][place]
}

fn operation(form: u32, length: usize, random: &mut Random) -> Operation {
    let target = Room {
        length: length as u32,
        seed: random.byte(),
    };
    Operation::Move { form, target }
}

/// Moves the table as it stands, to a room of the right length where a record can hold
/// what is written there.
pub fn move_to(recorder: &mut Recorder, to: Form, random: &mut Random) {
    let rows = recorder.table.len() / to.other().row();
    let length = to.row() * rows.min(MOST_MOVED);
    recorder.call(operation(to.number(), length, random), false);
}

/// A row that says no more than form 1 can, or a wholly zero one.
fn row_to_move(from: Form, random: &mut Random) -> Vec<u8> {
    if random.once_in(6) {
        return vec![0; from.row()];
    }
    row_named(from, &digits(random), random)
}

fn row_named(from: Form, name: &[u8], random: &mut Random) -> Vec<u8> {
    let mut row = sound_row(Form::One, name, random);
    row.operator = *random.pick(&[0, 0, 1, 7, 15]);
    if random.once_in(4) {
        row.line.clear();
        row.places = Default::default();
    }
    encode(&DOCUMENT_01, from, &row)
}

/// A sound row of form 2 with an access that holds a realm, a second policy, both, or a
/// third policy too.
fn row_that_holds(what: usize, random: &mut Random) -> Vec<u8> {
    let mut row = with_access(random);
    let place = usize::from(*random.pick(&row.line)) - 1;
    if let Some(access) = &mut row.places[place] {
        if what != 1 {
            access.realm = vec![b'r'; *random.pick(&[1, 5, 128])];
        }
        let policies = [0, 2, 2, 3][what];
        if policies > 0 {
            access.policies = some_policies(policies, random);
        }
    }
    encode(&DOCUMENT_01, Form::Two, &row)
}

/// A row with at least one access, which says no more than form 1 can.
fn with_access(random: &mut Random) -> Row {
    loop {
        let row = sound_row(Form::One, &digits(random), random);
        if !row.line.is_empty() {
            return row;
        }
    }
}

/// A row that is neither sound nor wholly zero: of nobody, of an operator over 15, with
/// another byte 0, or with sums that do not agree.
fn row_that_stays(from: Form, random: &mut Random) -> Vec<u8> {
    let row = with_access(random);
    let mut bytes = encode(&DOCUMENT_01, from, &row);
    match random.below(5) {
        0 => return odd_row(from, random),
        1 => bytes[19] = *random.pick(&[16, 255]),
        2 => bytes[0] = *random.pick(&[0, 2, 255]),
        3 => bytes[SUMS + 1] ^= 1,
        _ => {
            let last = bytes.len() - 1;
            bytes[last] ^= 1;
            return bytes;
        }
    }
    if bytes[0] != 1 || bytes[19] > 15 {
        let right = sums(&bytes[..SUMS]);
        put(&mut bytes[..BLOCK], SUMS, &right);
    }
    bytes
}

/// No rows, a byte too few or too many, a row of the other form, or the other form's rows.
fn resize_source(source: &mut Vec<u8>, from: Form, way: usize) {
    let length = source.len();
    let other = from.other().row();
    let lengths = [
        0,
        length - 1,
        length + 1,
        other,
        length / from.row() * other,
    ];
    source.resize(lengths[way], 0);
}

/// A byte or a row too few or too many, none, or as long as the source.
fn wrong_target(from: Form, count: usize, way: usize) -> usize {
    let row = from.other().row();
    let right = count * row;
    let most = crate::framing::LONGEST_TARGET as usize;
    let lengths = [
        right - 1,
        right + 1,
        right - row,
        right + row,
        0,
        count * from.row(),
        right + 512,
    ];
    lengths[way].min(most)
}

/// What moved is found again: an access is opened in it, and one is ended.
fn use_moved(recorder: &mut Recorder, form: Form, random: &mut Random) {
    let all = rows(form, &recorder.table).filter_map(|bytes| decode(form, bytes));
    let used: Vec<Row> = all.filter(|row| !row.line.is_empty()).collect();
    if used.is_empty() {
        return;
    }
    let row = random.pick(&used).clone();
    let operator = u32::from(row.operator);
    for (entry, number) in row.entries.iter().zip(b'1'..) {
        let session = [b"after the move ", &[number][..]].concat();
        let open = Draft::open(&row.name, &session, b"pdg", &entry.label);
        recorder.call(request(form, operator, &open, true, random), false);
    }
    let access = row.access(row.line[0]);
    let label = access.and_then(|a| row.entry(a.entry)).map(|e| &e.label);
    if let (Some(access), Some(label)) = (access, label) {
        let end = Draft::termination(&row.name, &access.session, b"pdg", label);
        recorder.call(request(form, operator, &end, true, random), false);
    }
}
