//! W2, a whole burst in one call: messages back to back, each handled as if it had come
//! alone, and their answers and notices written one behind the other.

use crate::handling::{ANSWER_ROOM, Call, Lent, lent_form};
use crate::reading_a_message::{HEADER, number};
use crate::rules::Rules;
use crate::the_table::Form;

/// One call's inputs: a byte for each message says the WAG's word, 0 for no, and a place
/// for each takes the numbers of its outcome. Table, rooms and places hold the results
/// afterwards.
pub struct Burst<'a> {
    pub form: u32,
    pub table: &'a mut [u8],
    pub operator: u32,
    pub host: &'a [u8],
    pub realm: &'a [u8],
    pub messages: &'a [u8],
    pub wags: &'a [u8],
    pub answer_room: &'a mut [u8],
    pub notice_room: &'a mut [u8],
    pub results: &'a mut [[u32; 8]],
}

/// What a burst returns: its number, how many messages and bytes of them were taken, and
/// how many bytes of answers and how many notices were written.
#[derive(Clone, Copy, Debug, PartialEq, Eq, Default)]
pub struct Taken {
    pub number: u16,
    pub messages: usize,
    pub bytes: usize,
    pub answers: usize,
    pub notices: usize,
}

impl Taken {
    /// The five, and three that a burst has nothing for.
    pub fn numbers(&self) -> [u32; 8] {
        let counts = [self.messages, self.bytes, self.answers, self.notices];
        let [messages, bytes, answers, notices] = counts.map(|count| count as u32);
        [
            u32::from(self.number),
            messages,
            bytes,
            answers,
            notices,
            0,
            0,
            0,
        ]
    }
}

/// How long the message at the front is, by its header and nothing else of it. There is
/// none at the end, nor with fewer than 4 bytes left, nor where the header says less than
/// a header or more than is left.
pub fn message_length(rest: &[u8]) -> Option<usize> {
    let length = number(rest.get(1..4)?) as usize;
    (HEADER..=rest.len()).contains(&length).then_some(length)
}

/// The whole messages before the first bad boundary.
pub fn whole_messages<'m>(rules: &Rules, messages: &'m [u8]) -> Vec<&'m [u8]> {
    let mut whole = Vec::new();
    let mut rest = messages;
    while let Some((message, behind)) =
        (rules.message_length)(rest).and_then(|length| rest.split_at_checked(length))
    {
        whole.push(message);
        rest = behind;
    }
    whole
}

/// Number 1, then 33, then 2, then 18, which counts what there is and not what the rooms
/// allow; 0 for a burst that is gone through.
pub fn burst_number(rules: &Rules, burst: &Burst) -> u16 {
    let lent = Lent {
        form: burst.form,
        table: burst.table,
        operator: burst.operator,
        host: burst.host,
        realm: burst.realm,
    };
    if let Err(number) = lent_form(rules, &lent) {
        return number;
    }
    let whole = whole_messages(rules, burst.messages).len();
    let enough = burst.wags.len() >= whole && burst.results.len() >= whole;
    if enough { 0 } else { 18 }
}

/// Whether so many bytes for answers and for notices will do for one more message,
/// whatever comes of it.
pub fn room_for_one(form: Form, answers: usize, notices: usize) -> bool {
    answers >= ANSWER_ROOM && notices >= form.notice()
}

pub fn burst(rules: &Rules, burst: &mut Burst) -> Taken {
    let number = (rules.burst_number)(rules, burst);
    let Some(form) = (rules.form_numbered)(burst.form).filter(|_| number == 0) else {
        return Taken {
            number,
            ..Taken::default()
        };
    };
    let mut taken = Taken::default();
    for message in whole_messages(rules, burst.messages) {
        let answers = burst.answer_room.len() - taken.answers;
        let notices = burst.notice_room.len() - taken.notices * form.notice();
        if !(rules.room_for_one)(form, answers, notices) {
            break;
        }
        (rules.take)(rules, form, burst, &mut taken, message);
    }
    taken
}

/// Handles the next message in what is left of the rooms. A number from 5 to 8 stands in
/// its place like any other outcome; no answer goes with it.
pub fn take(rules: &Rules, form: Form, burst: &mut Burst, taken: &mut Taken, message: &[u8]) {
    let wag = burst.wags.get(taken.messages).copied();
    let notices = taken.notices * form.notice();
    let call = Call {
        form: burst.form,
        table: burst.table,
        operator: burst.operator,
        host: burst.host,
        realm: burst.realm,
        message,
        wag: wag.unwrap_or(0) != 0,
        answer_room: &mut burst.answer_room[taken.answers..],
        notice_room: &mut burst.notice_room[notices..],
    };
    let outcome = (rules.handle)(rules, call);
    if let Some(place) = burst.results.get_mut(taken.messages) {
        *place = outcome.numbers();
    }
    taken.messages += 1;
    taken.bytes += message.len();
    taken.answers += outcome.length;
    taken.notices += usize::from(outcome.cut.is_some());
}
