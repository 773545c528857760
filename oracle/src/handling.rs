//! Handling one request: the calls that get no Diameter answer, then reading,
//! deciding and writing in this order.

use crate::deciding::{Asking, Decision, decide};
use crate::reading_a_message::{Avp, Header, REQUEST, Request, header, walk};
use crate::rules::Rules;
use crate::set_up::form_lent;
use crate::the_table::{Form, put};
use crate::writing_the_answer::{Reached, Reply, answer};
use crate::{Code, Outcome};

/// One call's inputs. Table and rooms hold its results afterwards.
pub struct Call<'a> {
    pub form: u32,
    pub table: &'a mut [u8],
    pub operator: u32,
    pub host: &'a [u8],
    pub realm: &'a [u8],
    pub message: &'a [u8],
    pub wag: bool,
    pub answer_room: &'a mut [u8],
    pub notice_room: &'a mut [u8],
}

/// What a call brings besides messages and rooms.
pub struct Lent<'a> {
    pub form: u32,
    pub table: &'a [u8],
    pub operator: u32,
    pub host: &'a [u8],
    pub realm: &'a [u8],
}

/// The form of the table, or number 1, then 33, then 2: these a burst gives too (W2).
pub fn lent_form(rules: &Rules, lent: &Lent) -> Result<Form, u16> {
    let fits = |name: &[u8]| (1..=128).contains(&name.len());
    let form = form_lent(rules, lent.form, lent.table).ok_or(1u16)?;
    if !(rules.operator_fits)(lent.operator) {
        return Err(33);
    }
    if !fits(lent.host) || !fits(lent.realm) {
        return Err(2);
    }
    Ok(form)
}

/// An answer is never longer.
pub const ANSWER_ROOM: usize = 5_120;

/// Number 1, then 33, then 2 to 8, in this order; 0 for a call that gets an answer.
pub fn no_answer(rules: &Rules, call: &Call) -> u16 {
    let lent = Lent {
        form: call.form,
        table: call.table,
        operator: call.operator,
        host: call.host,
        realm: call.realm,
    };
    let form = match lent_form(rules, &lent) {
        Ok(form) => form,
        Err(number) => return number,
    };
    if call.answer_room.len() < ANSWER_ROOM {
        return 3;
    }
    if call.notice_room.len() < form.notice() {
        return 4;
    }
    message_number(call.message)
}

/// Numbers 5 to 8, on the message alone.
pub fn message_number(message: &[u8]) -> u16 {
    let flags = header(message).map_or(0, |header| header.flags);
    match frame_number(message) {
        0 if flags & REQUEST == 0 => 8,
        number => number,
    }
}

/// Numbers 5 to 7, which are asked of answers too (W6).
pub fn frame_number(message: &[u8]) -> u16 {
    let Some(header) = header(message) else {
        return 5;
    };
    let length = message.len();
    if length > 4_096 {
        5
    } else if header.version != 1 {
        6
    } else if header.length as usize != length || !length.is_multiple_of(4) {
        7
    } else {
        0
    }
}

/// What was read of a message: how far it came, its AVPs once the whole walk passed,
/// and its request or the code of the first test that failed.
pub struct Read<'m> {
    pub reached: Reached,
    pub avps: Vec<Avp<'m>>,
    pub request: Result<Request<'m>, Code>,
}

pub fn read<'m>(rules: &Rules, form: Form, header: &Header, message: &'m [u8]) -> Read<'m> {
    let failed = |reached, code| Read {
        reached,
        avps: Vec::new(),
        request: Err(code),
    };
    if let Err(code) = (rules.header_tests)(header) {
        return failed(Reached::Header, code);
    }
    let avps = match walk(rules, message) {
        Ok(avps) => avps,
        Err(code) => return failed(Reached::Walk, code),
    };
    let request = (rules.read_list)(rules, form, header.command, &avps);
    let passed = request.is_ok();
    Read {
        reached: if passed {
            Reached::Decision
        } else {
            Reached::List
        },
        avps,
        request,
    }
}

pub fn handle(rules: &Rules, call: Call) -> Outcome {
    let number = (rules.no_answer)(rules, &call);
    let Some(header) = header(call.message).filter(|_| number == 0) else {
        return Outcome::no_answer(number);
    };
    let Some(form) = (rules.form_numbered)(call.form) else {
        return Outcome::no_answer(1);
    };
    let read = read(rules, form, &header, call.message);
    let decision = match &read.request {
        Ok(request) => {
            let (operator, wag) = (call.operator, call.wag);
            let asking = Asking {
                form,
                operator,
                request,
                wag,
            };
            decide(rules, call.table, &asking)
        }
        Err(code) => Decision::refused(*code),
    };
    let reply = Reply {
        message: call.message,
        header,
        reached: read.reached,
        avps: &read.avps,
        request: &read.request.unwrap_or_default(),
        code: decision.code,
        host: call.host,
        realm: call.realm,
    };
    let bytes = answer(rules, &reply);
    put(call.answer_room, 0, &bytes);
    if let Some(cut) = &decision.cut {
        (rules.notice)(form, call.notice_room, cut);
    }
    Outcome {
        code: decision.code,
        length: bytes.len(),
        place: decision.place,
        cut: decision.cut.as_ref().map(rules.cut_lengths),
    }
}
