//! Bursts made from a seed (W2): every sort of message and of end, rooms on both sides of
//! what a message asks for, and the calls that are refused.

use std::ops::{Deref, DerefMut};

use crate::burst::{Burst, Taken};
use crate::cases::{digits, sound_row, text};
use crate::drafts::Draft;
use crate::operators::namesake;
use crate::program::{Bursting, Room};
use crate::random::Random;
use crate::reading_a_message::{ORIGIN_REALM, REQUEST};
use crate::rules::{DOCUMENT_01, Rules};
use crate::the_table::{BARRED, FORMS, Form, MAY_ROAM, Row, encode};

/// A burst with its table; its other inputs are asked for as if they were its own.
#[derive(Clone, Debug, PartialEq, Eq)]
pub struct BurstCall {
    pub table: Vec<u8>,
    pub asked: Bursting,
}

impl Deref for BurstCall {
    type Target = Bursting;

    fn deref(&self) -> &Bursting {
        &self.asked
    }
}

impl DerefMut for BurstCall {
    fn deref_mut(&mut self) -> &mut Bursting {
        &mut self.asked
    }
}

/// What is lent to be written in.
#[derive(Clone, Debug, PartialEq, Eq)]
pub struct Written {
    pub table: Vec<u8>,
    pub answers: Vec<u8>,
    pub notices: Vec<u8>,
    pub results: Vec<[u32; 8]>,
}

/// How far each of the five things goes that a burst uses up.
#[derive(Clone, Copy, Debug, PartialEq, Eq)]
pub struct Ends {
    pub messages: usize,
    pub wags: usize,
    pub answers: usize,
    pub notices: usize,
    pub results: usize,
}

impl BurstCall {
    /// Table and rooms before the call.
    pub fn fresh(&self) -> Written {
        Written {
            table: self.table.clone(),
            answers: self.answer_room.fresh(),
            notices: self.notice_room.fresh(),
            results: self.fresh_places(),
        }
    }

    pub fn ends(&self) -> Ends {
        Ends {
            messages: self.messages.len(),
            wags: self.wags.len(),
            answers: self.answer_room.length as usize,
            notices: self.notice_room.length as usize,
            results: self.places,
        }
    }

    /// Calls with what is left behind `done`, as far as `ends` go.
    pub fn go_on(&self, rules: &Rules, written: &mut Written, done: &Taken, ends: &Ends) -> Taken {
        let slot = Form::numbered(self.form).map_or(0, Form::notice);
        let mut burst = Burst {
            form: self.form,
            table: &mut written.table,
            operator: self.operator,
            host: &self.host,
            realm: &self.realm,
            messages: &self.messages[done.bytes..ends.messages],
            wags: &self.wags[done.messages..ends.wags],
            answer_room: &mut written.answers[done.answers..ends.answers],
            notice_room: &mut written.notices[done.notices * slot..ends.notices],
            results: &mut written.results[done.messages..ends.results],
        };
        (rules.burst)(rules, &mut burst)
    }
}

/// What a call gave back, and what it left.
pub fn given(rules: &Rules, call: &BurstCall) -> (Taken, Written) {
    let mut written = call.fresh();
    let taken = call.go_on(rules, &mut written, &Taken::default(), &call.ends());
    (taken, written)
}

/// A table of one operator's subscribers, with others of the same name before and behind.
pub struct Ground {
    pub form: Form,
    pub operator: u32,
    pub rows: Vec<Row>,
    pub table: Vec<u8>,
}

impl Ground {
    pub fn new(random: &mut Random) -> Ground {
        let form = *random.pick(&FORMS);
        let operator = *random.pick(&[0, 0, 1, 9, 15]);
        let mut rows: Vec<Row> = Vec::new();
        for _ in 0..random.from_to(1, 3) {
            let row = open_row(form, operator, random);
            if rows.iter().all(|other| other.name != row.name) {
                rows.push(row);
            }
        }
        let mut table = Vec::new();
        for row in &rows {
            if random.once_in(3) {
                table.extend(namesake(form, row, random));
            }
            let mut bytes = encode(&DOCUMENT_01, form, row);
            // Now and then a row is not sound any more.
            let at = random.from_to(20, form.row() - 1);
            bytes[at] ^= u8::from(random.once_in(9));
            table.extend(bytes);
        }
        table.extend(vec![0; form.row() * random.below(2)]);
        Ground {
            form,
            operator: u32::from(operator),
            rows,
            table,
        }
    }

    /// Messages by chance, each with the number of its subscriber.
    pub fn messages(&self, count: usize, random: &mut Random) -> Vec<(usize, Vec<u8>)> {
        let one = |random: &mut Random| {
            let whose = random.below(self.rows.len());
            (whose, message(&self.rows[whose], random))
        };
        (0..count).map(|_| one(random)).collect()
    }
}

/// A subscriber of this operator most of whose entries are not barred.
fn open_row(form: Form, operator: u8, random: &mut Random) -> Row {
    let name = digits(random);
    let mut row = sound_row(form, &name, random);
    row.operator = operator;
    for entry in &mut row.entries {
        entry.flags &= if random.once_in(8) { BARRED } else { MAY_ROAM };
    }
    row
}

/// A message of a subscriber: most are good, and each number from 5 to 8 comes up, now and
/// then two in one message.
fn message(row: &Row, random: &mut Random) -> Vec<u8> {
    let mut draft = request(row, random);
    for _ in 0..random.from_to(1, 2) {
        match random.below(20) {
            0 | 1 => draft.version = *random.pick(&[0, 2, 255]),
            2 => draft.flags &= !REQUEST,
            3 => draft.size = Some(draft.bytes().len() + random.from_to(1, 3)),
            4 => draft.size = Some(*random.pick(&[20, 20, 21, 22, 23, 24, 40])),
            5 => draft.size = Some(*random.pick(&[24, 60, 4_096, 4_097, 4_100, 4_104])),
            6 => draft.avps.truncate(random.below(10)),
            7 => draft.flags |= 1 << random.below(6),
            _ => (),
        }
    }
    draft.bytes()
}

/// A request about the row as it was at first, under few Session-Ids besides those held.
fn request(row: &Row, random: &mut Random) -> Draft {
    let label = random.pick(&row.entries).label.clone();
    let held = row.line.get(random.below(8)).and_then(|p| row.access(*p));
    let new = vec![b's', *random.pick(b"abcd")];
    let old = held.map_or(new.clone(), |access| access.session.clone());
    let session = if random.once_in(3) { old } else { new };
    let host = text(random, 128);
    let mut draft = match random.below(8) {
        0 | 1 => Draft::policy(&row.name, &session, &host, &text(random, 128)),
        2 => Draft::termination(&row.name, &session, &host, &label),
        _ => Draft::open(&row.name, &session, &host, &label),
    };
    if let Some(realm) = draft.avp(ORIGIN_REALM) {
        realm.value = text(random, 128);
    }
    draft
}

/// What may stand behind the last whole message: nothing, or bytes whose front is a bad
/// boundary as long as no more come behind them.
pub fn tail(ground: &Ground, random: &mut Random) -> Vec<u8> {
    let mut bytes = ground.messages(1, random).remove(0).1;
    match random.below(12) {
        0 => bytes.truncate(random.from_to(1, 3)),
        1 => bytes.truncate(random.from_to(4, bytes.len() - 1)),
        2 => bytes.truncate(bytes.len() - 1),
        3 => {
            let longer = (bytes.len() as u32 + 1).to_be_bytes();
            bytes[1..4].copy_from_slice(&longer[1..]);
        }
        4 | 5 => {
            // Whole messages behind a header that says less than a header.
            let less = *random.pick(&[0, 1, 4, 18, 19, 19, 19]);
            bytes[1..4].copy_from_slice(&[0, 0, less]);
            bytes.truncate(*random.pick(&[usize::from(less.max(4)), 20, 20, bytes.len()]));
            bytes.extend(ground.messages(1, random).remove(0).1);
        }
        // A length whose first byte alone says that it runs past the end.
        6 => bytes[1] = 1 + random.byte() % 255,
        _ => bytes.clear(),
    }
    bytes
}

/// A call that takes all, with exactly the rooms that suffice for any messages.
pub fn whole_call(
    ground: &Ground,
    messages: &[(usize, Vec<u8>)],
    tail: &[u8],
    random: &mut Random,
) -> BurstCall {
    let count = messages.len();
    let mut joined: Vec<u8> = messages
        .iter()
        .flat_map(|(_, bytes)| bytes.clone())
        .collect();
    joined.extend(tail);
    let asked = Bursting {
        form: ground.form.number(),
        operator: ground.operator,
        host: text(random, 128),
        realm: text(random, 128),
        messages: joined,
        wags: (0..count)
            .map(|_| *random.pick(&[0, 1, 1, 2, 255]))
            .collect(),
        answer_room: Room {
            length: 5_120 * count as u32,
            seed: random.byte(),
        },
        notice_room: Room {
            length: (ground.form.notice() * count) as u32,
            seed: random.byte(),
        },
        places: count,
    };
    BurstCall {
        table: ground.table.clone(),
        asked,
    }
}

/// Makes the rooms so long that they are enough, or one byte short, for some message.
pub fn narrow(call: &mut BurstCall, random: &mut Random) {
    let (taken, written) = given(&DOCUMENT_01, call);
    let slot = Form::numbered(call.form).map_or(0, Form::notice);
    let mut before = (0, 0);
    let mut each = vec![before];
    for result in &written.results[..taken.messages] {
        before.0 += result[2];
        before.1 += result[4] * slot as u32;
        each.push(before);
    }
    let short = |random: &mut Random| u32::from(random.once_in(2));
    if random.once_in(2) {
        call.answer_room.length = random.pick(&each).0 + 5_120 - short(random);
    }
    if random.once_in(2) {
        call.notice_room.length = random.pick(&each).1 + slot as u32 - short(random);
    }
    if random.once_in(20) {
        call.answer_room.length = random.below(600) as u32;
    }
}

/// Lends more or fewer WAG bytes and places than there are messages.
fn lend(call: &mut BurstCall, random: &mut Random) {
    let around = |count: usize, random: &mut Random| match random.below(8) {
        0 => count.saturating_sub(1),
        1 => random.below(count + 1),
        2 | 3 => count + random.from_to(1, 3),
        _ => count,
    };
    let wags = around(call.wags.len(), random);
    call.wags.resize(wags, 1);
    call.places = around(call.places, random);
}

/// Spoils what a call is refused for, each thing by chance.
fn refuse(call: &mut BurstCall, random: &mut Random) {
    if random.once_in(2) {
        match random.below(4) {
            0 => call.form = *random.pick(&[0, 3, 257]),
            1 => call.form = 3 - call.form,
            2 => call.table.push(0),
            _ => call.table.clear(),
        }
    }
    if random.once_in(2) {
        call.operator = *random.pick(&[16, 16, 256, u32::MAX]);
    }
    if random.once_in(2) {
        let length = *random.pick(&[0, 129]);
        let name = if random.once_in(2) {
            &mut call.host
        } else {
            &mut call.realm
        };
        *name = vec![b'n'; length];
    }
}

/// A burst on a table of its own.
pub fn burst_call(random: &mut Random) -> BurstCall {
    let ground = Ground::new(random);
    let count = *random.pick(&[0, 1, 2, 3, 4, 6, 9]);
    let messages = ground.messages(count, random);
    let tail = tail(&ground, random);
    let mut call = whole_call(&ground, &messages, &tail, random);
    match random.below(12) {
        0..3 => (),
        3..8 => narrow(&mut call, random),
        8..10 => {
            narrow(&mut call, random);
            lend(&mut call, random);
        }
        10 => lend(&mut call, random),
        _ => {
            lend(&mut call, random);
            refuse(&mut call, random);
        }
    }
    call
}

/// So many calls, the same for one seed on every machine.
pub fn burst_calls(seed: u64, count: usize) -> Vec<BurstCall> {
    let mut random = Random::new(seed);
    (0..count).map(|_| burst_call(&mut random)).collect()
}
