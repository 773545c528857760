//! One operation with all its inputs, and performing it on a table.

use crate::Outcome;
use crate::burst::{Burst, Taken};
use crate::disconnecting::{Abort, Sent, Written};
use crate::handling::Call;
use crate::judging::{JudgeRules, Judged, Judgement, REQUEST_W10, Rooms, judge_in};
use crate::reauth_calls::{ReAuthCall, given_by};
use crate::reauthorizing::{ReAuth, ReAuthorized};
use crate::rules::Rules;
use crate::set_up::{Account, NewEntry, NewRow};
use crate::the_table::put;

/// A program that offers the ten operations: the oracle, or one compared with it. `form`
/// is the one in which the table is lent; for a move, the one to move to.
pub trait Program {
    fn clear(&mut self, form: u32, table: &mut [u8]) -> u8;
    fn enter(&mut self, form: u32, table: &mut [u8], new: &NewRow) -> u8;
    fn add(&mut self, form: u32, table: &mut [u8], of: &Account, new: &NewEntry) -> u8;
    fn handle(&mut self, call: Call) -> Outcome;
    fn move_table(&mut self, source: &[u8], target: &mut [u8], form: u32) -> u8;
    fn abort(&mut self, abort: &Abort, room: &mut [u8]) -> Written;
    fn belongs(&mut self, sent: &Sent, answer: &[u8]) -> bool;
    fn burst(&mut self, burst: &mut Burst) -> Taken;
    fn re_authorize(&mut self, call: &mut ReAuth) -> ReAuthorized;
    fn judge(&mut self, judged: &Judged, rooms: Rooms) -> Judgement;
}

impl Program for Rules {
    fn clear(&mut self, form: u32, table: &mut [u8]) -> u8 {
        (self.clear)(self, form, table)
    }

    fn enter(&mut self, form: u32, table: &mut [u8], new: &NewRow) -> u8 {
        (self.enter)(self, form, table, new)
    }

    fn add(&mut self, form: u32, table: &mut [u8], of: &Account, new: &NewEntry) -> u8 {
        (self.add)(self, form, table, of, new)
    }

    fn handle(&mut self, call: Call) -> Outcome {
        (self.handle)(self, call)
    }

    fn move_table(&mut self, source: &[u8], target: &mut [u8], form: u32) -> u8 {
        (self.move_table)(self, source, target, form)
    }

    fn abort(&mut self, abort: &Abort, room: &mut [u8]) -> Written {
        (self.abort)(self, abort, room)
    }

    fn belongs(&mut self, sent: &Sent, answer: &[u8]) -> bool {
        (self.belongs)(self, sent, answer)
    }

    fn burst(&mut self, burst: &mut Burst) -> Taken {
        (self.burst)(self, burst)
    }

    fn re_authorize(&mut self, call: &mut ReAuth) -> ReAuthorized {
        (self.re_authorize)(self, call)
    }

    fn judge(&mut self, judged: &Judged, rooms: Rooms) -> Judgement {
        let rules = JudgeRules {
            server: *self,
            ..REQUEST_W10
        };
        judge_in(&rules, judged, rooms)
    }
}

/// A room by its length and the pattern it is filled with before the call.
#[derive(Clone, Copy, Debug, PartialEq, Eq)]
pub struct Room {
    pub length: u32,
    pub seed: u8,
}

impl Room {
    /// Byte i of the pattern.
    pub fn fill(self, index: usize) -> u8 {
        self.seed.wrapping_add((index as u8).wrapping_mul(7))
    }

    pub fn fresh(self) -> Vec<u8> {
        (0..self.length as usize).map(|i| self.fill(i)).collect()
    }
}

/// The inputs of a request's call, apart from the table.
#[derive(Clone, Debug, PartialEq, Eq)]
pub struct Asked {
    pub form: u32,
    pub operator: u32,
    pub host: Vec<u8>,
    pub realm: Vec<u8>,
    pub message: Vec<u8>,
    pub wag: bool,
    pub answer_room: Room,
    pub notice_room: Room,
}

/// The inputs of a burst, apart from the table. There are so many places for results.
#[derive(Clone, Debug, PartialEq, Eq)]
pub struct Bursting {
    pub form: u32,
    pub operator: u32,
    pub host: Vec<u8>,
    pub realm: Vec<u8>,
    pub messages: Vec<u8>,
    pub wags: Vec<u8>,
    pub answer_room: Room,
    pub notice_room: Room,
    pub places: usize,
}

impl Bursting {
    /// The places before the call: number k of place i is 900 + 8 i + k.
    pub fn fresh_places(&self) -> Vec<[u32; 8]> {
        let place =
            |index: usize| [0, 1, 2, 3, 4, 5, 6, 7].map(|field| 900 + 8 * index as u32 + field);
        (0..self.places).map(place).collect()
    }
}

/// The inputs of writing an Abort-Session-Request.
#[derive(Clone, Debug, PartialEq, Eq)]
pub struct Aborting {
    pub lengths: [u32; 3],
    pub identifiers: [u32; 2],
    pub room: Room,
    pub host: Vec<u8>,
    pub realm: Vec<u8>,
    pub notice: Vec<u8>,
}

impl Aborting {
    pub fn abort(&self) -> Abort<'_> {
        Abort {
            host: &self.host,
            realm: &self.realm,
            notice: &self.notice,
            lengths: self.lengths,
            identifiers: self.identifiers,
        }
    }
}

/// The inputs of judging an answer to one.
#[derive(Clone, Debug, PartialEq, Eq)]
pub struct Answering {
    pub identifiers: [u32; 2],
    pub session: Vec<u8>,
    pub answer: Vec<u8>,
}

impl Answering {
    pub fn sent(&self) -> Sent<'_> {
        Sent {
            session: &self.session,
            identifiers: self.identifiers,
        }
    }
}

/// The inputs of judging what the old server made of a request (W10), apart from the row
/// before, which is the table.
#[derive(Clone, Debug, PartialEq, Eq)]
pub struct Judging {
    pub asked: Asked,
    pub after: Vec<u8>,
    pub answer: Vec<u8>,
    pub notice: Vec<u8>,
}

impl Judging {
    pub fn judged<'a>(&'a self, before: &'a [u8]) -> Judged<'a> {
        Judged {
            form: self.asked.form,
            before,
            operator: self.asked.operator,
            host: &self.asked.host,
            realm: &self.asked.realm,
            message: &self.asked.message,
            wag: self.asked.wag,
            answer: &self.answer,
            notice: &self.notice,
            after: &self.after,
        }
    }

    pub fn rooms(&self) -> Rooms {
        Rooms {
            answer: self.asked.answer_room.length as usize,
            notice: self.asked.notice_room.length as usize,
        }
    }
}

#[derive(Clone, Debug, PartialEq, Eq)]
pub enum Operation {
    Clear {
        form: u32,
    },
    Enter {
        form: u32,
        operator: u32,
        shares: Vec<u32>,
        name: Vec<u8>,
    },
    Add {
        form: u32,
        operator: u32,
        name: Vec<u8>,
        label: Vec<u8>,
        limit: u8,
        flags: u8,
    },
    Handle(Asked),
    /// The table is the source, and stays.
    Move {
        form: u32,
        target: Room,
    },
    /// Neither this nor the next has to do with the table.
    Abort(Aborting),
    Answered(Answering),
    Burst(Bursting),
    /// The gateway's; it has no table either.
    ReAuth(ReAuthCall),
    Judge(Judging),
}

impl Operation {
    /// The number by which the call says a form, if it says one.
    pub fn form(&self) -> Option<u32> {
        match self {
            Operation::Clear { form }
            | Operation::Enter { form, .. }
            | Operation::Add { form, .. }
            | Operation::Move { form, .. } => Some(*form),
            Operation::Handle(asked) => Some(asked.form),
            Operation::Burst(asked) => Some(asked.form),
            Operation::Judge(judging) => Some(judging.asked.form),
            Operation::Abort(_) | Operation::Answered(_) | Operation::ReAuth(_) => None,
        }
    }

    /// The same call with another form said.
    pub fn saying(mut self, number: u32) -> Operation {
        match &mut self {
            Operation::Clear { form }
            | Operation::Enter { form, .. }
            | Operation::Add { form, .. }
            | Operation::Move { form, .. } => *form = number,
            Operation::Handle(asked) => asked.form = number,
            Operation::Burst(asked) => asked.form = number,
            Operation::Judge(judging) => judging.asked.form = number,
            Operation::Abort(_) | Operation::Answered(_) | Operation::ReAuth(_) => (),
        }
        self
    }
}

/// What came of an operation besides the table. The numbers are code, kind, length,
/// place, cut, and the lengths of the cut texts; set-up and moving have only the first,
/// writing an Abort-Session-Request the length too, and of an answer the first is 1 if it
/// belongs. A burst has its own number, how many messages and bytes were taken, and how many
/// bytes of answers and notices were written; it alone has places for results. A call of the
/// gateway has code, kind, the length of the answer and that of the AA-Request, judging its
/// number, the kind of the mismatch and its byte. Set-up has
/// no rooms; the target of a move, and the room for an Abort-Session-Request, stand where
/// the answer room does, and that for an AA-Request where the notice room does. Of judging
/// alone it says how long our answer and our notice are that it wrote.
#[derive(Clone, Debug, PartialEq, Eq, Default)]
pub struct Seen {
    pub numbers: [u32; 8],
    pub answer_room: Vec<u8>,
    pub notice_room: Vec<u8>,
    pub results: Vec<[u32; 8]>,
    pub ours: [usize; 2],
}

pub fn perform(program: &mut dyn Program, operation: &Operation, table: &mut [u8]) -> Seen {
    let mut seen = Seen::default();
    let number = match operation {
        Operation::Clear { form } => program.clear(*form, table),
        Operation::Enter {
            form,
            operator,
            shares,
            name,
        } => {
            let operator = *operator;
            let new = NewRow {
                operator,
                shares,
                name,
            };
            program.enter(*form, table, &new)
        }
        Operation::Add {
            form,
            operator,
            name,
            label,
            limit,
            flags,
        } => {
            let (operator, limit, flags) = (*operator, *limit, *flags);
            let new = NewEntry {
                label,
                limit,
                flags,
            };
            program.add(*form, table, &Account { operator, name }, &new)
        }
        Operation::Handle(asked) => return perform_handle(program, asked, table),
        Operation::Burst(asked) => return perform_burst(program, asked, table),
        Operation::ReAuth(call) => return perform_re_auth(program, call),
        Operation::Judge(judging) => return perform_judge(program, judging, table),
        Operation::Move { form, target } => {
            seen.answer_room = target.fresh();
            program.move_table(table, &mut seen.answer_room, *form)
        }
        Operation::Abort(aborting) => {
            seen.answer_room = aborting.room.fresh();
            let written = program.abort(&aborting.abort(), &mut seen.answer_room);
            seen.numbers[2] = written.length as u32;
            written.number
        }
        Operation::Answered(asked) => u8::from(program.belongs(&asked.sent(), &asked.answer)),
    };
    seen.numbers[0] = u32::from(number);
    seen
}

fn perform_handle(program: &mut dyn Program, asked: &Asked, table: &mut [u8]) -> Seen {
    let mut answer_room = asked.answer_room.fresh();
    let mut notice_room = asked.notice_room.fresh();
    let outcome = program.handle(Call {
        form: asked.form,
        table,
        operator: asked.operator,
        host: &asked.host,
        realm: &asked.realm,
        message: &asked.message,
        wag: asked.wag,
        answer_room: &mut answer_room,
        notice_room: &mut notice_room,
    });
    Seen {
        numbers: outcome.numbers(),
        answer_room,
        notice_room,
        ..Seen::default()
    }
}

fn perform_burst(program: &mut dyn Program, asked: &Bursting, table: &mut [u8]) -> Seen {
    let mut seen = Seen {
        answer_room: asked.answer_room.fresh(),
        notice_room: asked.notice_room.fresh(),
        results: asked.fresh_places(),
        ..Seen::default()
    };
    let taken = program.burst(&mut Burst {
        form: asked.form,
        table,
        operator: asked.operator,
        host: &asked.host,
        realm: &asked.realm,
        messages: &asked.messages,
        wags: &asked.wags,
        answer_room: &mut seen.answer_room,
        notice_room: &mut seen.notice_room,
        results: &mut seen.results,
    });
    seen.numbers = taken.numbers();
    seen
}

fn perform_re_auth(program: &mut dyn Program, call: &ReAuthCall) -> Seen {
    let given = given_by(|lent| program.re_authorize(lent), call);
    let mut seen = Seen {
        answer_room: given.answer_room,
        notice_room: given.request_room,
        ..Seen::default()
    };
    seen.numbers[..4].copy_from_slice(&given.result.numbers());
    seen
}

fn perform_judge(program: &mut dyn Program, judging: &Judging, table: &mut [u8]) -> Seen {
    let mut seen = Seen {
        answer_room: judging.asked.answer_room.fresh(),
        notice_room: judging.asked.notice_room.fresh(),
        ..Seen::default()
    };
    let judgement = program.judge(&judging.judged(table), judging.rooms());
    seen.numbers[..3].copy_from_slice(&judgement.verdict.numbers());
    if let Some(due) = judgement.written {
        put(table, 0, &due.row);
        put(&mut seen.answer_room, 0, &due.answer);
        put(&mut seen.notice_room, 0, &due.notice);
        seen.ours = [due.answer.len(), due.notice.len()];
    }
    seen
}
