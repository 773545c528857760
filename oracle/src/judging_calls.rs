//! W10: requests made from a seed, with what our own server makes of them, or with the old
//! server's answers, in which mismatches are planted.

use crate::cases::{Case, SORTS, Sort};
use crate::drafts::{Draft, DraftAvp};
use crate::generator::fill;
use crate::judging::{Due, Judged, REQUEST_W10, Verdict, due};
use crate::old_answers::Old;
use crate::planting::PLANTS;
use crate::program::{Asked, Judging, Operation, Room};
use crate::random::Random;
use crate::reading_a_message::{
    Name, PROXY_INFO, REQUEST, SESSION_ID, VISITED_NETWORK, W_APN, base,
};
use crate::the_table::{FORMS, Form, put};

/// A request with its row, and what the old server made of it; the verdict that is wanted,
/// and why.
#[derive(Clone, Debug, PartialEq, Eq)]
pub struct JudgeCall {
    pub form: u32,
    pub before: Vec<u8>,
    pub operator: u32,
    pub host: Vec<u8>,
    pub realm: Vec<u8>,
    pub message: Vec<u8>,
    pub wag: bool,
    pub answer: Vec<u8>,
    pub notice: Vec<u8>,
    pub after: Vec<u8>,
    pub planted: Vec<&'static str>,
    pub wanted: Verdict,
}

impl JudgeCall {
    pub fn judged(&self) -> Judged<'_> {
        Judged {
            form: self.form,
            before: &self.before,
            operator: self.operator,
            host: &self.host,
            realm: &self.realm,
            message: &self.message,
            wag: self.wag,
            answer: &self.answer,
            notice: &self.notice,
            after: &self.after,
        }
    }

    /// The same as a call of a script, with these rooms; the row before is the table.
    pub fn operation(&self, [answer_room, notice_room]: [Room; 2]) -> Operation {
        let asked = Asked {
            form: self.form,
            operator: self.operator,
            host: self.host.clone(),
            realm: self.realm.clone(),
            message: self.message.clone(),
            wag: self.wag,
            answer_room,
            notice_room,
        };
        Operation::Judge(Judging {
            asked,
            after: self.after.clone(),
            answer: self.answer.clone(),
            notice: self.notice.clone(),
        })
    }

    /// The old server did what ours does.
    pub fn answer_as_ours(&mut self) {
        let Due {
            answer,
            notice,
            row,
        } = due(&REQUEST_W10, &self.judged());
        (self.answer, self.notice, self.after) = (answer, notice, row);
    }
}

/// A request about a row, with what our own server makes of it.
pub fn own_call(random: &mut Random) -> JudgeCall {
    let form = *random.pick(&FORMS);
    own_call_in(form, random)
}

pub fn own_call_in(form: Form, random: &mut Random) -> JudgeCall {
    let sort = *random.pick(&SORTS);
    let mut case = match random.below(5) {
        0 | 1 => Case::full(form, random),
        _ => Case::in_form(form, sort, random),
    };
    proxies(&mut case.draft, random);
    vary(&mut case, random);
    let mut call = JudgeCall {
        form: form.number(),
        before: case.row_bytes().to_vec(),
        operator: case.operator,
        host: case.host,
        realm: case.realm,
        message: case.draft.bytes(),
        wag: case.wag,
        answer: Vec::new(),
        notice: Vec::new(),
        after: Vec::new(),
        planted: Vec::new(),
        wanted: Verdict::Accepted,
    };
    call.answer_as_ours();
    call
}

/// Up to three more Proxy-Infos, some alike but for one thing.
fn proxies(draft: &mut Draft, random: &mut Random) {
    for _ in 0..*random.pick(&[0, 1, 2, 3]) {
        let mut proxy = DraftAvp::new(PROXY_INFO, random.pick(&[b"p1", b"p2"]).as_slice());
        proxy.flags = *random.pick(&[0, 0x40, 0x40, 0x60]);
        proxy.padding = random.byte();
        draft.insert(random.below(20), proxy);
    }
}

/// Lets the request come to something else now and then: every sort of answer, and none.
fn vary(case: &mut Case, random: &mut Random) {
    match random.below(32) {
        0 => case.operator = (case.operator + 1) % 16,
        1 => damage(case.row_bytes(), random),
        2 => case.draft.version = 2,
        3 => case.draft.flags &= !REQUEST,
        4 => case.draft.command = *random.pick(&[0, 258, 300]),
        5 => case.draft.flags |= 1 << random.below(6),
        6 => drop(case.draft.avps.pop()),
        7 => case.draft.insert(9, DraftAvp::new(base(99_999), b"?")),
        8 => case.draft.avps[random.below(8)].flags |= 1,
        9 => case.draft.avps.swap(0, 1),
        10 | 11 => ask_again(case),
        12 => case.wag = false,
        13 => {
            let visited = DraftAvp::new(VISITED_NETWORK, b"mnc020");
            case.draft.insert(3, visited);
        }
        14 => case.draft.size = Some(*random.pick(&[16, 20, 4_100])),
        15 => write(&mut case.draft, W_APN, b"not entered"),
        16 => fill(&mut case.draft, 4_096, random),
        _ => (),
    }
}

/// Asks once more for an access that stands: with W11 it is granted on its own entry.
fn ask_again(case: &mut Case) {
    let held = case.row.places.iter().flatten().next().cloned();
    if let (Sort::Open, Some(held)) = (case.sort, held) {
        let label = case.row.entry(held.entry).map(|entry| entry.label.clone());
        write(&mut case.draft, SESSION_ID, &held.session);
        write(&mut case.draft, W_APN, &label.unwrap_or_default());
    }
}

fn write(draft: &mut Draft, name: Name, value: &[u8]) {
    if let Some(avp) = draft.avp(name) {
        avp.value = value.to_vec();
    }
}

/// A byte of the row is another one.
fn damage(row: &mut [u8], random: &mut Random) {
    let at = random.from_to(20, row.len() - 1);
    row[at] ^= 1;
}

/// The same answer as ours, in another order and with more in it, as the old server has it.
pub fn old_answer(call: JudgeCall, random: &mut Random) -> Old {
    let mut old = Old::new(call);
    old.reorder(random);
    old.add_to(random);
    old
}

/// An answer of the old server, in which so many mismatches are planted.
pub fn old_call(mismatches: usize, random: &mut Random) -> JudgeCall {
    let mut old = old_answer(own_call(random), random);
    while old.call.planted.len() < mismatches {
        let (_, name, plant) = random.pick(&PLANTS);
        if plant(&mut old, random).is_some() {
            old.call.planted.push(name);
        }
    }
    old.finish()
}

/// Changes a byte of the old answer, or takes out, doubles or exchanges words; the length in the
/// header is most often made true again.
pub fn change(call: &mut JudgeCall, random: &mut Random) {
    let answer = &mut call.answer;
    if answer.len() < 32 {
        return;
    }
    let word = 20 + 4 * random.below((answer.len() - 20) / 4);
    let other = 20 + 4 * random.below((answer.len() - 20) / 4);
    match random.below(8) {
        0..4 => {
            let at = random.from_to(20, answer.len() - 1);
            answer[at] = *random.pick(&[0, 1, 0x20, 0x40, 0x80, answer[at] ^ 1, answer[at] ^ 0x40]);
        }
        4 => drop(answer.drain(word.min(other)..word.max(other))),
        5 => {
            let words = answer[word.min(other)..word.max(other)].to_vec();
            let at = 20 + 4 * random.below((answer.len() - 20) / 4);
            answer.splice(at..at, words);
        }
        6 => answer.swap(word, other),
        _ => {
            let at = random.below(20);
            answer[at] ^= 1 << random.below(8);
        }
    }
    if !random.once_in(8) {
        let length = (answer.len() as u32).to_be_bytes();
        put(answer, 1, &length[1..]);
    }
}

/// So many, the same for one seed on every machine: a third as it should be, the others with
/// one or two mismatches.
pub fn old_calls(seed: u64, count: usize) -> Vec<JudgeCall> {
    let mut random = Random::new(seed);
    (0..count)
        .map(|nth| old_call(nth % 3, &mut random))
        .collect()
}
