//! Scripts as bytes. The README gives the format byte by byte.

use crate::program::{Aborting, Answering, Asked, Bursting, Judging, Operation, Room};
use crate::reauth_calls::ReAuthCall;
use crate::script::{Changes, Expected, K1, Record, digest};

pub const MAGIC: &[u8; 8] = b"WMSCRIPT";
pub const VERSION: u32 = 7;

/// No record is longer, its type and length included.
pub const LONGEST_RECORD: usize = 65_536;
/// No table is longer: one row of form 2 more than a table may have, and a little.
pub const LONGEST_TABLE: usize = 8_921_664;
/// No target of a move is longer.
pub const LONGEST_TARGET: u32 = 65_536;
/// No room for an answer or an Abort-Session-Request is longer; none for an AA-Request
/// is longer than `LONGEST_NOTICES`.
pub const LONGEST_ANSWER: u32 = 8_192;
/// No messages of a burst have more bytes together, and no rooms of it are longer.
pub const LONGEST_BURST: usize = 40_960;
pub const LONGEST_ANSWERS: u32 = 65_536;
pub const LONGEST_NOTICES: u32 = 6_144;
/// No burst brings more words of the WAG, or more places for results.
pub const MOST_MESSAGES: usize = 16;
/// No entering brings more shares.
pub const MOST_SHARES: usize = 17;

const HEADER: u8 = 1;
const SET_TABLE: u8 = 2;
const PATCH: u8 = 3;
const CLEAR: u8 = 4;
const ENTER: u8 = 5;
const ADD: u8 = 6;
const HANDLE: u8 = 7;
const END: u8 = 8;
const MOVE: u8 = 9;
const ABORT: u8 = 10;
const ANSWERED: u8 = 11;
const BURST: u8 = 12;
const RE_AUTH: u8 = 13;
const JUDGE: u8 = 14;

/// Appends a record: type, length of the rest, body, check.
fn frame(script: &mut Vec<u8>, kind: u8, body: &[u8]) {
    let start = script.len();
    script.push(kind);
    word(script, body.len() + 4);
    script.extend(body);
    let check = digest(K1, &script[start..]);
    script.extend(check.to_be_bytes());
}

fn word(to: &mut Vec<u8>, value: usize) {
    to.extend((value as u32).to_be_bytes());
}

fn bytes(to: &mut Vec<u8>, value: &[u8]) {
    word(to, value.len());
    to.extend(value);
}

/// A whole script, from header to end.
pub fn write(records: &[Record]) -> Vec<u8> {
    let mut script = Vec::new();
    let mut body = MAGIC.to_vec();
    body.extend(VERSION.to_be_bytes());
    word(&mut body, records.len() + 2);
    frame(&mut script, HEADER, &body);
    let mut calls = 0;
    for record in records {
        calls += usize::from(matches!(record, Record::Call(..)));
        let (kind, body) = write_record(record);
        frame(&mut script, kind, &body);
    }
    body.clear();
    word(&mut body, calls);
    frame(&mut script, END, &body);
    script
}

fn write_record(record: &Record) -> (u8, Vec<u8>) {
    let mut body = Vec::new();
    let kind = match record {
        Record::SetTable(length) => {
            word(&mut body, *length as usize);
            SET_TABLE
        }
        Record::Patch { offset, bytes: new } => {
            word(&mut body, *offset as usize);
            bytes(&mut body, new);
            PATCH
        }
        Record::Call(operation, expected) => {
            let kind = write_operation(&mut body, operation);
            for result in &expected.results {
                words(&mut body, *result);
            }
            write_expected(&mut body, expected);
            kind
        }
    };
    (kind, body)
}

/// A call that says a form says it first.
fn write_operation(body: &mut Vec<u8>, operation: &Operation) -> u8 {
    if let Some(form) = operation.form() {
        word(body, form as usize);
    }
    match operation {
        Operation::Clear { .. } => CLEAR,
        Operation::Enter {
            operator,
            shares,
            name,
            ..
        } => {
            word(body, *operator as usize);
            word(body, shares.len());
            for share in shares {
                word(body, *share as usize);
            }
            bytes(body, name);
            ENTER
        }
        Operation::Add {
            operator,
            name,
            label,
            limit,
            flags,
            ..
        } => {
            word(body, *operator as usize);
            bytes(body, name);
            bytes(body, label);
            body.extend([*limit, *flags]);
            ADD
        }
        Operation::Handle(asked) => {
            write_asked(body, asked);
            HANDLE
        }
        Operation::Move { target, .. } => {
            write_room(body, *target);
            MOVE
        }
        Operation::Abort(aborting) => {
            write_aborting(body, aborting);
            ABORT
        }
        Operation::Answered(asked) => {
            words(body, asked.identifiers);
            bytes(body, &asked.session);
            bytes(body, &asked.answer);
            ANSWERED
        }
        Operation::Burst(asked) => {
            write_bursting(body, asked);
            BURST
        }
        Operation::ReAuth(call) => {
            write_re_auth(body, call);
            RE_AUTH
        }
        Operation::Judge(judging) => {
            write_asked(body, &judging.asked);
            for text in [&judging.after, &judging.answer, &judging.notice] {
                bytes(body, text);
            }
            JUDGE
        }
    }
}

fn words<const COUNT: usize>(to: &mut Vec<u8>, values: [u32; COUNT]) {
    for value in values {
        word(to, value as usize);
    }
}

fn write_aborting(body: &mut Vec<u8>, aborting: &Aborting) {
    words(body, aborting.lengths);
    words(body, aborting.identifiers);
    write_room(body, aborting.room);
    bytes(body, &aborting.host);
    bytes(body, &aborting.realm);
    bytes(body, &aborting.notice);
}

fn write_re_auth(body: &mut Vec<u8>, call: &ReAuthCall) {
    words(body, call.identifiers);
    write_room(body, call.answer_room);
    write_room(body, call.request_room);
    for text in [
        &call.host,
        &call.realm,
        &call.session,
        &call.user,
        &call.label,
        &call.visited,
        &call.message,
    ] {
        bytes(body, text);
    }
}

fn write_asked(body: &mut Vec<u8>, asked: &Asked) {
    word(body, asked.operator as usize);
    bytes(body, &asked.host);
    bytes(body, &asked.realm);
    bytes(body, &asked.message);
    body.push(u8::from(asked.wag));
    write_room(body, asked.answer_room);
    write_room(body, asked.notice_room);
}

/// The results that are expected stand right behind the number of places.
fn write_bursting(body: &mut Vec<u8>, asked: &Bursting) {
    word(body, asked.operator as usize);
    bytes(body, &asked.host);
    bytes(body, &asked.realm);
    bytes(body, &asked.messages);
    bytes(body, &asked.wags);
    write_room(body, asked.answer_room);
    write_room(body, asked.notice_room);
    word(body, asked.places);
}

fn write_room(body: &mut Vec<u8>, room: Room) {
    word(body, room.length as usize);
    body.push(room.seed);
}

fn write_expected(body: &mut Vec<u8>, expected: &Expected) {
    words(body, expected.numbers);
    bytes(body, &expected.answer);
    bytes(body, &expected.notice);
    match &expected.changes {
        Changes::AllZero => {
            body.push(1);
            word(body, 0);
        }
        Changes::Runs(runs) => {
            body.push(0);
            word(body, runs.len());
            for (offset, new) in runs {
                word(body, *offset as usize);
                bytes(body, new);
            }
        }
    }
    body.push(u8::from(expected.digests.is_some()));
    for half in expected.digests.unwrap_or_default() {
        word(body, half as usize);
    }
}

/// What is wrong with a script that is cut short or damaged.
pub type Defect = &'static str;

/// Takes fields off the front of a record's body.
struct Fields<'a>(&'a [u8]);

impl<'a> Fields<'a> {
    fn take(&mut self, count: usize) -> Result<&'a [u8], Defect> {
        let short = "a record's fields do not fill it";
        let (taken, rest) = self.0.split_at_checked(count).ok_or(short)?;
        self.0 = rest;
        Ok(taken)
    }

    fn byte(&mut self) -> Result<u8, Defect> {
        Ok(self.take(1)?[0])
    }

    fn word(&mut self) -> Result<u32, Defect> {
        let bytes = self.take(4)?;
        Ok(u32::from_be_bytes([bytes[0], bytes[1], bytes[2], bytes[3]]))
    }

    fn words<const COUNT: usize>(&mut self) -> Result<[u32; COUNT], Defect> {
        let mut values = [0; COUNT];
        for value in &mut values {
            *value = self.word()?;
        }
        Ok(values)
    }

    fn bytes(&mut self) -> Result<Vec<u8>, Defect> {
        let length = self.word()? as usize;
        Ok(self.take(length)?.to_vec())
    }

    fn shares(&mut self) -> Result<Vec<u32>, Defect> {
        let count = self.word()? as usize;
        if count > MOST_SHARES {
            return Err("too many shares");
        }
        (0..count).map(|_| self.word()).collect()
    }

    fn room(&mut self) -> Result<Room, Defect> {
        let length = self.word()?;
        let seed = self.byte()?;
        Ok(Room { length, seed })
    }

    fn done(&self) -> Result<(), Defect> {
        let long = "a record's fields do not fill it";
        if self.0.is_empty() { Ok(()) } else { Err(long) }
    }
}

/// Splits one record off the script: its type and body, the check being right.
fn unframe<'a>(script: &mut &'a [u8]) -> Result<(u8, Fields<'a>), Defect> {
    let cut_short = "the script is cut short";
    let (head, rest) = script.split_at_checked(5).ok_or(cut_short)?;
    let length = u32::from_be_bytes([head[1], head[2], head[3], head[4]]) as usize;
    if !(4..=LONGEST_RECORD - 5).contains(&length) {
        return Err("a record's length is out of bounds");
    }
    let (body, after) = rest.split_at_checked(length).ok_or(cut_short)?;
    let (body, check) = body.split_at(length - 4);
    if digest(K1, head.iter().chain(body)).to_be_bytes() != check {
        return Err("a record's check is wrong");
    }
    *script = after;
    Ok((head[0], Fields(body)))
}

/// Reads a whole script. Nothing of it is returned unless all of it is in order.
pub fn read(mut script: &[u8]) -> Result<Vec<Record>, Defect> {
    let announced = read_header(&mut script)?;
    let mut records = Vec::new();
    let mut calls = 0;
    loop {
        let (kind, mut fields) = unframe(&mut script)?;
        if kind == END {
            let counted = fields.word()? == calls && announced as usize == records.len() + 2;
            fields.done()?;
            if !counted {
                return Err("a count is wrong");
            }
            let nothing_after = script.is_empty();
            return nothing_after
                .then_some(records)
                .ok_or("bytes after the end");
        }
        let record = read_record(kind, &mut fields)?;
        fields.done()?;
        calls += u32::from(matches!(record, Record::Call(..)));
        records.push(record);
    }
}

fn read_header(script: &mut &[u8]) -> Result<u32, Defect> {
    let (kind, mut fields) = unframe(script)?;
    if kind != HEADER || fields.take(8)? != MAGIC || fields.word()? != VERSION {
        return Err("this is no script of this version");
    }
    let announced = fields.word()?;
    fields.done()?;
    Ok(announced)
}

fn read_record(kind: u8, fields: &mut Fields) -> Result<Record, Defect> {
    let operation = match kind {
        SET_TABLE => {
            let length = fields.word()?;
            let fits = length as usize <= LONGEST_TABLE;
            return fits
                .then_some(Record::SetTable(length))
                .ok_or("a table too long");
        }
        PATCH => {
            return Ok(Record::Patch {
                offset: fields.word()?,
                bytes: fields.bytes()?,
            });
        }
        CLEAR => Operation::Clear {
            form: fields.word()?,
        },
        ENTER => Operation::Enter {
            form: fields.word()?,
            operator: fields.word()?,
            shares: fields.shares()?,
            name: fields.bytes()?,
        },
        ADD => Operation::Add {
            form: fields.word()?,
            operator: fields.word()?,
            name: fields.bytes()?,
            label: fields.bytes()?,
            limit: fields.byte()?,
            flags: fields.byte()?,
        },
        HANDLE => Operation::Handle(read_asked(fields)?),
        MOVE => read_move(fields)?,
        ABORT => read_aborting(fields)?,
        ANSWERED => Operation::Answered(Answering {
            identifiers: fields.words()?,
            session: fields.bytes()?,
            answer: fields.bytes()?,
        }),
        BURST => Operation::Burst(read_bursting(fields)?),
        RE_AUTH => Operation::ReAuth(read_re_auth(fields)?),
        JUDGE => Operation::Judge(Judging {
            asked: read_asked(fields)?,
            after: fields.bytes()?,
            answer: fields.bytes()?,
            notice: fields.bytes()?,
        }),
        _ => return Err("a record of no known type"),
    };
    let results = match &operation {
        Operation::Burst(asked) => read_results(fields, asked.places)?,
        _ => Vec::new(),
    };
    let expected = Expected {
        results,
        ..read_expected(fields)?
    };
    Ok(Record::Call(operation, expected))
}

fn read_bursting(fields: &mut Fields) -> Result<Bursting, Defect> {
    let asked = Bursting {
        form: fields.word()?,
        operator: fields.word()?,
        host: fields.bytes()?,
        realm: fields.bytes()?,
        messages: fields.bytes()?,
        wags: fields.bytes()?,
        answer_room: fields.room()?,
        notice_room: fields.room()?,
        places: fields.word()? as usize,
    };
    let fit = asked.messages.len() <= LONGEST_BURST
        && asked.answer_room.length <= LONGEST_ANSWERS
        && asked.notice_room.length <= LONGEST_NOTICES
        && asked.wags.len() <= MOST_MESSAGES
        && asked.places <= MOST_MESSAGES;
    fit.then_some(asked).ok_or("a burst too long")
}

fn read_re_auth(fields: &mut Fields) -> Result<ReAuthCall, Defect> {
    let (identifiers, answer_room) = (fields.words()?, fields.room()?);
    let call = ReAuthCall {
        identifiers,
        answer_room,
        request_room: fields.room()?,
        host: fields.bytes()?,
        realm: fields.bytes()?,
        session: fields.bytes()?,
        user: fields.bytes()?,
        label: fields.bytes()?,
        visited: fields.bytes()?,
        message: fields.bytes()?,
    };
    let fit =
        call.answer_room.length <= LONGEST_ANSWER && call.request_room.length <= LONGEST_NOTICES;
    fit.then_some(call).ok_or("a room too long")
}

fn read_results(fields: &mut Fields, places: usize) -> Result<Vec<[u32; 8]>, Defect> {
    (0..places).map(|_| fields.words()).collect()
}

fn read_move(fields: &mut Fields) -> Result<Operation, Defect> {
    let form = fields.word()?;
    let target = fields.room()?;
    let fits = target.length <= LONGEST_TARGET;
    fits.then_some(Operation::Move { form, target })
        .ok_or("a room too long")
}

fn read_aborting(fields: &mut Fields) -> Result<Operation, Defect> {
    let aborting = Aborting {
        lengths: fields.words()?,
        identifiers: fields.words()?,
        room: fields.room()?,
        host: fields.bytes()?,
        realm: fields.bytes()?,
        notice: fields.bytes()?,
    };
    let fits = aborting.room.length <= LONGEST_ANSWER;
    fits.then_some(Operation::Abort(aborting))
        .ok_or("a room too long")
}

fn read_asked(fields: &mut Fields) -> Result<Asked, Defect> {
    let asked = Asked {
        form: fields.word()?,
        operator: fields.word()?,
        host: fields.bytes()?,
        realm: fields.bytes()?,
        message: fields.bytes()?,
        wag: fields.byte()? == 1,
        answer_room: fields.room()?,
        notice_room: fields.room()?,
    };
    let fit = asked.answer_room.length <= LONGEST_ANSWER && asked.notice_room.length <= 1_024;
    fit.then_some(asked).ok_or("a room too long")
}

fn read_expected(fields: &mut Fields) -> Result<Expected, Defect> {
    let numbers = fields.words()?;
    let (answer, notice) = (fields.bytes()?, fields.bytes()?);
    let all_zero = fields.byte()? == 1;
    let mut runs = Vec::new();
    for _ in 0..fields.word()? {
        runs.push((fields.word()?, fields.bytes()?));
    }
    let given = fields.byte()? == 1;
    let digests = [fields.word()?, fields.word()?];
    Ok(Expected {
        numbers,
        answer,
        notice,
        changes: if all_zero {
            Changes::AllZero
        } else {
            Changes::Runs(runs)
        },
        digests: given.then_some(digests),
        results: Vec::new(),
    })
}
