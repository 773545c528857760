//! W12: histories made from a seed. A table is cleared, several operators enter the same few
//! names, and calls of every sort follow, refused ones too, all in one form.

use crate::cases::garnish;
use crate::drafts::{Draft, DraftAvp};
use crate::either_case::typed;
use crate::generator::{add, clear, enter, request};
use crate::history::{History, HistoryRules, Who};
use crate::program::{Bursting, Operation, Program, Room, perform};
use crate::random::Random;
use crate::reading_a_message::{REQUEST, VISITED_NETWORK};
use crate::the_table::{BARRED, FORMS, Form, MAY_ROAM};

/// A table as it was found, and the calls made on it; the first one clears it.
#[derive(Clone, Debug, PartialEq, Eq)]
pub struct Story {
    pub form: Form,
    pub table: Vec<u8>,
    pub calls: Vec<Operation>,
}

const NAMES: [&[u8]; 3] = [b"1", b"1", b"001010123456789"];
const LABELS: [&[u8]; 5] = [b"board", b"board", b"Yard-7", b"Yard-7", b"z"];
const OPERATORS: [u32; 3] = [0, 1, 15];

/// Session-Ids come again, also under another label or account. Those of a history end in
/// few numbers around the one at which 16 bits begin anew.
fn session(random: &mut Random) -> Vec<u8> {
    let number = random.from_to(65_533, 65_538);
    format!("gw;{number}").into_bytes()
}

/// Few labels, some more often than others, as different hands type them.
fn some_label(random: &mut Random) -> Vec<u8> {
    let label = *random.pick(&LABELS);
    typed(label, random)
}

fn host(random: &mut Random) -> Vec<u8> {
    vec![b'p', b'd', b'g', *random.pick(b"123")]
}

pub fn story(random: &mut Random) -> Story {
    let form = *random.pick(&FORMS);
    let count = random.from_to(1, 5);
    let length = (count + random.below(2)) * form.row();
    let mut story = Story {
        form,
        table: vec![random.byte(); length],
        calls: vec![clear(form)],
    };
    let subjects: Vec<Who> = (0..count)
        .map(|_| (*random.pick(&OPERATORS), random.pick(&NAMES).to_vec()))
        .collect();
    let shares = shares_of(&subjects);
    story.set_up(&subjects, &shares, random);
    let ends = *random.pick(&[2, 3, 5, 12]);
    for _ in 0..random.from_to(10, 60) {
        story.call(&subjects, &shares, ends, random);
    }
    story
}

/// So many histories, the same for one seed on every machine.
pub fn stories(seed: u64, count: usize) -> Vec<Story> {
    let mut random = Random::new(seed);
    (0..count).map(|_| story(&mut random)).collect()
}

fn shares_of(subjects: &[Who]) -> Vec<u32> {
    let mut shares = vec![0; 16];
    for (operator, _) in subjects {
        shares[*operator as usize] += 1;
    }
    shares
}

impl Story {
    fn set_up(&mut self, subjects: &[Who], shares: &[u32], random: &mut Random) {
        for (operator, name) in subjects {
            self.calls.push(enter(self.form, *operator, shares, name));
            for _ in 0..random.from_to(1, 3) {
                let new = entry(self.form, *operator, name, random);
                self.calls.push(new);
            }
        }
    }

    fn call(&mut self, subjects: &[Who], shares: &[u32], ends: usize, random: &mut Random) {
        let (mut operator, mut name) = random.pick(subjects).clone();
        if random.once_in(12) {
            operator = *random.pick(&[0, 1, 15, 16]);
            name = random.pick(&NAMES).to_vec();
        }
        let form = self.form;
        match random.below(30) {
            0 => self.calls.push(enter(form, operator, shares, &name)),
            1 | 2 => self.calls.push(entry(form, operator, &name, random)),
            3 if random.once_in(4) => {
                self.calls.push(clear(form));
                self.set_up(subjects, shares, random);
            }
            4..8 => {
                let burst = burst(form, operator, &name, ends, random);
                self.calls.push(burst);
            }
            _ => {
                let draft = draft(&name, ends, random);
                let asked = request(form, operator, &draft, random.once_in(2), random);
                self.calls.push(asked);
            }
        }
    }

    /// Plays the calls on the table and follows them; the first call after which a law is
    /// broken ends it, with that law.
    pub fn play(&self, program: &mut dyn Program, rules: &HistoryRules) -> Played {
        let mut table = self.table.clone();
        let mut history = History::default();
        for (place, call) in self.calls.iter().enumerate() {
            let before = (table.clone(), history.clone());
            let seen = perform(program, call, &mut table);
            history.follow(rules, call, &seen);
            if table == before.0 && history == before.1 {
                continue;
            }
            if let Some(law) = history.broken(rules, self.form, &table) {
                return Err((place, law));
            }
        }
        Ok((history, table))
    }
}

/// What a history came to and its table, or at which call it broke which law.
pub type Played = Result<(History, Vec<u8>), (usize, &'static str)>;

/// Adds one of the labels, in any case, most often with a small limit.
fn entry(form: Form, operator: u32, name: &[u8], random: &mut Random) -> Operation {
    let label = some_label(random);
    let limit = *random.pick(&[1, 1, 2, 2, 2, 3, 4, 0]);
    let barred = if random.once_in(12) { BARRED } else { 0 };
    let roams = if random.once_in(2) { MAY_ROAM } else { 0 };
    add(form, operator, name, &label, limit, barred | roams)
}

/// A request about the account, most often an opening; now and then one that is refused.
fn draft(name: &[u8], ends: usize, random: &mut Random) -> Draft {
    let (session, host) = (session(random), host(random));
    let label = some_label(random);
    let mut draft = if random.once_in(ends) {
        Draft::termination(name, &session, &host, &label)
    } else if random.once_in(12) {
        Draft::policy(name, &session, &host, b"permit")
    } else {
        Draft::open(name, &session, &host, &label)
    };
    if random.once_in(10) {
        draft.avps.push(DraftAvp::new(VISITED_NETWORK, b"mnc020"));
    }
    if random.once_in(6) {
        garnish(&mut draft, random);
    }
    match random.below(60) {
        0 => draft.version = 2,
        1 => draft.flags &= !REQUEST,
        2 => draft.command = 300,
        3 => drop(draft.avps.pop()),
        4 => draft.avps.swap(0, 1),
        _ => (),
    }
    draft
}

/// Some requests in one call, half the time all about one account; now and then with too
/// little room for all, a place too few, or a last message that is cut off.
fn burst(form: Form, operator: u32, name: &[u8], ends: usize, random: &mut Random) -> Operation {
    let count = random.from_to(0, 5);
    let mut messages = Vec::new();
    let one_name = random.once_in(2);
    for _ in 0..count {
        let other = *random.pick(&NAMES);
        let name = if one_name { name } else { other };
        messages.extend(draft(name, ends, random).bytes());
    }
    if random.once_in(6) {
        messages.pop();
    }
    let full = !random.once_in(4);
    let room = |slot: usize, random: &mut Random| Room {
        length: (slot * if full { count } else { random.below(count + 1) }) as u32,
        seed: random.byte(),
    };
    Operation::Burst(Bursting {
        form: form.number(),
        operator,
        host: b"aaa.home.example".to_vec(),
        realm: b"home.example".to_vec(),
        messages,
        wags: (0..count).map(|_| random.byte() % 2).collect(),
        answer_room: room(5_120, random),
        notice_room: room(form.notice(), random),
        places: count - usize::from(count > 0 && random.once_in(8)),
    })
}
