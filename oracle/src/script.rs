//! Scripts: operations with all their inputs and, beside them, what has to come of
//! them; how they are recorded and how a program is judged by them.

use crate::program::{Judging, Operation, Program, Room, Seen, perform};
use crate::the_table::Form;

/// A patch brings at most so many bytes.
pub const LONGEST_PATCH: usize = 32_768;
/// Up to this many bytes of table, every call has the table's digests.
pub const SMALL_TABLE: usize = 16 * Form::Two.row();

const PRIME: u64 = 2_147_483_647;
pub const K1: u64 = 1_103_515_245;
pub const K2: u64 = 1_664_525;

/// h = (h * K + byte + 1) mod 2,147,483,647, from h = 0.
pub fn digest<'a>(k: u64, bytes: impl IntoIterator<Item = &'a u8>) -> u32 {
    let all = bytes.into_iter();
    (all.fold(0, |h, &byte| step(k, h, byte)) % PRIME) as u32
}

/// One step of a digest. The prime being one less than a power of two, high bits count
/// like low ones and are added to them, which is quicker than dividing; what is left
/// is below 2^32, and is brought below the prime at the end.
fn step(k: u64, h: u64, byte: u8) -> u64 {
    let fold = |x: u64| (x & PRIME) + (x >> 31);
    fold(fold(h * k + u64::from(byte) + 1))
}

/// Both digests in one pass.
pub fn digests(table: &[u8]) -> [u32; 2] {
    let both = |[a, b]: [u64; 2], &byte: &u8| [step(K1, a, byte), step(K2, b, byte)];
    table.iter().fold([0, 0], both).map(|h| (h % PRIME) as u32)
}

/// How the table stands after a call.
#[derive(Clone, Debug, PartialEq, Eq)]
pub enum Changes {
    /// Every byte is zero.
    AllZero,
    /// These bytes stand at these offsets; elsewhere nothing changed.
    Runs(Vec<(u32, Vec<u8>)>),
}

#[derive(Clone, Debug, PartialEq, Eq)]
pub struct Expected {
    pub numbers: [u32; 8],
    pub answer: Vec<u8>,
    pub notice: Vec<u8>,
    pub changes: Changes,
    pub digests: Option<[u32; 2]>,
    /// Of a burst, all places for results as they stand afterwards.
    pub results: Vec<[u32; 8]>,
}

#[derive(Clone, Debug, PartialEq, Eq)]
pub enum Record {
    /// The table has this length now, and is all zero.
    SetTable(u32),
    Patch {
        offset: u32,
        bytes: Vec<u8>,
    },
    Call(Operation, Expected),
}

/// Tables are compared piece by piece, and only pieces that differ byte by byte.
const PIECE: usize = 4_096;

/// The stretches in which two tables of one length differ. Stretches with little
/// between them are taken as one.
pub fn runs(old: &[u8], new: &[u8]) -> Vec<(u32, Vec<u8>)> {
    let mut found: Vec<(usize, usize)> = Vec::new();
    for (piece, (was, is)) in old.chunks(PIECE).zip(new.chunks(PIECE)).enumerate() {
        if was == is {
            continue;
        }
        for at in (0..was.len()).filter(|&i| was[i] != is[i]) {
            let at = piece * PIECE + at;
            match found.last_mut() {
                Some((start, end)) if at - *end < 9 && at - *start < LONGEST_PATCH => *end = at + 1,
                _ => found.push((at, at + 1)),
            }
        }
    }
    let bytes = |(start, end): (usize, usize)| (start as u32, new[start..end].to_vec());
    found.into_iter().map(bytes).collect()
}

/// How many bytes stand at the front of the answer room and of the notice room. A move that
/// succeeded has written its whole target, one that did not none of it.
fn written(operation: &Operation, seen: &Seen) -> (usize, usize) {
    let slot = operation.form().and_then(Form::numbered);
    let slot = slot.map_or(0, Form::notice);
    let numbers = seen.numbers.map(|number| number as usize);
    match operation {
        Operation::Burst(_) => (numbers[3], numbers[4] * slot),
        Operation::Move { target, .. } if numbers[0] == 0 => (target.length as usize, 0),
        Operation::ReAuth(_) => (numbers[2], numbers[3]),
        Operation::Judge(_) => seen.ours.into(),
        _ => (numbers[2], numbers[4] * slot),
    }
}

/// What a call has to give, from what the oracle gave.
pub fn expect(operation: &Operation, seen: &Seen, old: &[u8], new: &[u8], mark: bool) -> Expected {
    let done = seen.numbers[0] == 0;
    let (length, noticed) = written(operation, seen);
    let cleared = matches!(operation, Operation::Clear { .. }) && done;
    Expected {
        numbers: seen.numbers,
        answer: seen.answer_room[..length].to_vec(),
        notice: seen.notice_room[..noticed].to_vec(),
        changes: if cleared {
            Changes::AllZero
        } else {
            Changes::Runs(runs(old, new))
        },
        digests: (mark || new.len() <= SMALL_TABLE).then(|| digests(new)),
        results: seen.results.clone(),
    }
}

/// Applies a record to a table; a call is performed by the program and its results
/// are held against the expected ones. The error says what differs.
pub fn judge(
    program: &mut dyn Program,
    record: &Record,
    table: &mut Vec<u8>,
) -> Result<(), &'static str> {
    match record {
        Record::SetTable(length) => {
            table.clear();
            table.resize(*length as usize, 0);
            Ok(())
        }
        Record::Patch { offset, bytes } => {
            let end = *offset as usize + bytes.len();
            let to = table.get_mut(*offset as usize..end);
            to.ok_or("a patch beyond the table")?.copy_from_slice(bytes);
            Ok(())
        }
        Record::Call(operation, expected) => {
            let seen = perform(program, operation, table);
            compare(operation, &seen, expected)?;
            compare_table(table, expected)
        }
    }
}

fn compare(operation: &Operation, seen: &Seen, expected: &Expected) -> Result<(), &'static str> {
    if seen.numbers != expected.numbers {
        return Err("the numbers returned");
    }
    if seen.results != expected.results {
        return Err("the results");
    }
    match operation {
        Operation::Handle(asked) | Operation::Judge(Judging { asked, .. }) => {
            compare_rooms(asked.answer_room, asked.notice_room, seen, expected)?;
        }
        Operation::Burst(asked) => {
            compare_rooms(asked.answer_room, asked.notice_room, seen, expected)?;
        }
        Operation::ReAuth(call) => {
            compare_rooms(call.answer_room, call.request_room, seen, expected)?;
        }
        Operation::Move { target, .. }
            if !room_holds(*target, &seen.answer_room, &expected.answer) =>
        {
            return Err("the target room");
        }
        Operation::Abort(aborting)
            if !room_holds(aborting.room, &seen.answer_room, &expected.answer) =>
        {
            return Err("the room of the request");
        }
        _ => (),
    }
    Ok(())
}

fn compare_rooms(
    answer: Room,
    notice: Room,
    seen: &Seen,
    expected: &Expected,
) -> Result<(), &'static str> {
    if !room_holds(answer, &seen.answer_room, &expected.answer) {
        return Err("the answer room");
    }
    if !room_holds(notice, &seen.notice_room, &expected.notice) {
        return Err("the notice room");
    }
    Ok(())
}

/// The front is as expected, the rest as it was before the call.
fn room_holds(room: Room, now: &[u8], front: &[u8]) -> bool {
    let rest = now.iter().enumerate().skip(front.len());
    now.starts_with(front) && rest.fold(true, |same, (i, &byte)| same & (byte == room.fill(i)))
}

fn compare_table(table: &[u8], expected: &Expected) -> Result<(), &'static str> {
    let as_expected = match &expected.changes {
        Changes::AllZero => table.iter().all(|&byte| byte == 0),
        Changes::Runs(runs) => runs.iter().all(|(offset, bytes)| {
            let from = table.get(*offset as usize..).unwrap_or_default();
            from.starts_with(bytes)
        }),
    };
    if !as_expected {
        return Err("the table's changes");
    }
    match expected.digests {
        Some(wanted) if digests(table) != wanted => Err("the table's digests"),
        _ => Ok(()),
    }
}

/// So many calls are spoiled.
pub const SPOILED: usize = 47;

/// Spoils what is expected of these calls, a different thing of each: of requests the eight
/// numbers, the answer, the notice, the table, and both digests; of moves the number, the target, and
/// a target that is expected to be written though the move is refused; of written
/// Abort-Session-Requests the number, the length, the request, and a room that is expected to be written though it is
/// refused; whether an answer belongs; of bursts the five numbers, the answers, the notices, the
/// table, the result of the last message, a place behind it, and a room that is expected to be
/// written though the burst is refused; of calls of the gateway the four numbers, the answer,
/// the AA-Request, and either room that is expected to be written though it is not; of judgements
/// the number, the mismatch, its byte, the answer, the notice, the row, and a room that is expected
/// to be written though it is not. Whoever plays the script must
/// report just these calls; a player that reports none of them can not be trusted with a script that is
/// right. It says how many were spoiled.
pub fn spoil(records: &mut [Record]) -> usize {
    let mut spoiled = 0;
    let mut at = 0;
    for kind in 0..SPOILED {
        while at < records.len() && !spoil_record(&mut records[at], kind) {
            at += 1;
        }
        spoiled += usize::from(at < records.len());
        at += 1;
    }
    spoiled
}

fn spoil_record(record: &mut Record, kind: usize) -> bool {
    match record {
        Record::Call(Operation::Handle(_), expected) if kind < 13 => spoil_request(expected, kind),
        Record::Call(Operation::Move { target, .. }, expected) => match kind {
            13 => spoil_number(expected, 0),
            14 => spoil_last(&mut expected.answer),
            15 => spoil_refused(*target, expected),
            _ => false,
        },
        Record::Call(Operation::Abort(aborting), expected) => match kind {
            16 => spoil_number(expected, 0),
            17 => spoil_number(expected, 2),
            18 => spoil_last(&mut expected.answer),
            19 => spoil_refused(aborting.room, expected),
            _ => false,
        },
        Record::Call(Operation::Answered(_), expected) if kind == 20 => {
            expected.numbers[0] ^= 1;
            true
        }
        Record::Call(Operation::Burst(asked), expected) if kind > 20 && kind < 32 => match kind {
            21..26 => spoil_number(expected, kind - 21),
            26 => spoil_last(&mut expected.answer),
            27 => spoil_last(&mut expected.notice),
            28 => spoil_changes(expected),
            29 => spoil_result(expected, |taken| taken.checked_sub(1)),
            30 => spoil_result(expected, Some),
            _ => expected.numbers[0] > 0 && spoil_refused(asked.answer_room, expected),
        },
        Record::Call(Operation::ReAuth(call), expected) => match kind {
            32..36 => spoil_number(expected, kind - 32),
            36 => spoil_last(&mut expected.answer),
            37 => spoil_last(&mut expected.notice),
            38 => spoil_refused(call.answer_room, expected),
            39 => spoil_unwritten(call.request_room, &mut expected.notice),
            _ => false,
        },
        Record::Call(Operation::Judge(judging), expected) => match kind {
            40..43 => spoil_number(expected, kind - 40),
            43 => spoil_last(&mut expected.answer),
            44 => spoil_last(&mut expected.notice),
            45 => spoil_changes(expected),
            46 => spoil_refused(judging.asked.answer_room, expected),
            _ => false,
        },
        _ => false,
    }
}

fn spoil_number(expected: &mut Expected, which: usize) -> bool {
    expected.numbers[which] += 1;
    true
}

/// A byte that was written, of a room that nothing is written into.
fn spoil_refused(room: Room, expected: &mut Expected) -> bool {
    spoil_unwritten(room, &mut expected.answer)
}

fn spoil_unwritten(room: Room, front: &mut Vec<u8>) -> bool {
    let unwritten = room.length > 0 && front.is_empty();
    if unwritten {
        *front = vec![room.fill(0) ^ 1];
    }
    unwritten
}

fn spoil_request(expected: &mut Expected, kind: usize) -> bool {
    match kind {
        0..8 => expected.numbers[kind] += 1,
        8 => return spoil_last(&mut expected.answer),
        9 => return spoil_last(&mut expected.notice),
        10 => return spoil_changes(expected),
        _ => match &mut expected.digests {
            Some(halves) => halves[kind - 11] = halves[kind - 11].wrapping_add(1),
            None => return false,
        },
    }
    true
}

fn spoil_changes(expected: &mut Expected) -> bool {
    match &mut expected.changes {
        Changes::Runs(runs) => runs.last_mut().is_some_and(|run| spoil_last(&mut run.1)),
        Changes::AllZero => false,
    }
}

/// The last number of the place that is said by how many messages were taken.
fn spoil_result(expected: &mut Expected, which: impl Fn(usize) -> Option<usize>) -> bool {
    let place = which(expected.numbers[1] as usize);
    let place = place.and_then(|place| expected.results.get_mut(place));
    place.map(|result| result[7] ^= 1).is_some()
}

fn spoil_last(bytes: &mut [u8]) -> bool {
    bytes.last_mut().map(|byte| *byte ^= 1).is_some()
}
