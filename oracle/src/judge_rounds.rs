//! The judgements of a script (W10): old answers with one and two mismatches planted, each number
//! from both sides of its limits, alone and with another one, and answers changed by chance.

use std::fmt;
use std::ops::Range;

use crate::forms::NO_FORMS;
use crate::generator::Deck;
use crate::handling::{ANSWER_ROOM, message_number};
use crate::judging::{ENOUGH, Ended, Kind, REQUEST_W10, Verdict, number, walk};
use crate::judging_calls::{JudgeCall, change, old_answer, own_call_in};
use crate::old_answers::{Front, Item, Mark, Old, plain};
use crate::planting::{PLANTS, Plant};
use crate::program::{Judging, Room};
use crate::random::Random;
use crate::reading_a_message::{HEADER, REQUEST};
use crate::recorder::Recorder;
use crate::the_table::{FORMS, Form};

/// One thing of a call.
#[derive(Clone, Copy, Debug, PartialEq, Eq)]
pub enum Way {
    /// How long the rows, the own names and the rooms are.
    Before(usize),
    After(usize),
    Host(usize),
    Realm(usize),
    AnswerRoom(usize),
    NoticeRoom(usize),
    /// Who calls, and the number that the request gets instead of an answer, or 0.
    Operator(u32),
    Request(u16),
    /// So many groups stand in one another.
    Deep(usize),
}

impl fmt::Display for Way {
    fn fmt(&self, f: &mut fmt::Formatter) -> fmt::Result {
        let (what, number) = match *self {
            Way::Before(length) => ("row before of", length),
            Way::After(length) => ("row after of", length),
            Way::Host(length) => ("own host of", length),
            Way::Realm(length) => ("own realm of", length),
            Way::AnswerRoom(length) => ("answer room of", length),
            Way::NoticeRoom(length) => ("notice room of", length),
            Way::Operator(operator) => ("operator", operator as usize),
            Way::Request(number) => ("request of number", usize::from(number)),
            Way::Deep(groups) => ("groups to depth", groups),
        };
        write!(f, "{what} {number}")
    }
}

impl Way {
    /// All that this can say of a call.
    pub fn all(judging: &Judging, before: &[u8]) -> [Way; 9] {
        let rooms = judging.rooms();
        [
            Way::Before(before.len()),
            Way::After(judging.after.len()),
            Way::Host(judging.asked.host.len()),
            Way::Realm(judging.asked.realm.len()),
            Way::AnswerRoom(rooms.answer),
            Way::NoticeRoom(rooms.notice),
            Way::Operator(judging.asked.operator),
            Way::Request(message_number(&judging.asked.message)),
            Way::Deep(depth(&judging.answer)),
        ]
    }
}

/// How many groups of an answer stand in one another, as far as it can be walked.
pub fn depth(answer: &[u8]) -> usize {
    let behind = answer.get(HEADER..).unwrap_or_default();
    let walked = |left| walk(&REQUEST_W10, behind, HEADER, left);
    let too_deep = |left: &usize| matches!(walked(*left), Err(Ended::TooDeep(_)));
    (0..).take_while(too_deep).count()
}

/// The limits from both sides, with the number that comes of it, 0 for what is accepted.
pub fn limits(form: Form) -> Vec<(Way, u16)> {
    let (row, notice, other) = (form.row(), form.notice(), form.other());
    let of_the_other = if other.notice() < notice { 4 } else { 0 };
    let mut all = Vec::new();
    for way in [Way::Before, Way::After] {
        let wrong = [0, row - 1, row + 1, 2 * row, other.row()];
        all.extend(wrong.map(|length| (way(length), 1)));
        all.push((way(row), 0));
    }
    for way in [Way::Host, Way::Realm] {
        let lengths = [(0, 2), (1, 0), (128, 0), (129, 2)];
        all.extend(lengths.map(|(length, number)| (way(length), number)));
    }
    let operators = [(15, 0), (16, 33), (256, 33), (u32::MAX, 33)];
    all.extend(operators.map(|(operator, number)| (Way::Operator(operator), number)));
    all.extend([5, 6, 7, 8].map(|number| (Way::Request(number), 0)));
    let rooms = [
        (0, 3),
        (ANSWER_ROOM - 1, 3),
        (ANSWER_ROOM, 0),
        (ANSWER_ROOM + 1, 0),
    ];
    all.extend(rooms.map(|(length, number)| (Way::AnswerRoom(length), number)));
    let rooms = [
        (0, 4),
        (notice - 1, 4),
        (notice, 0),
        (notice + 1, 0),
        (other.notice(), of_the_other),
    ];
    all.extend(rooms.map(|(length, number)| (Way::NoticeRoom(length), number)));
    let depths = [(4, 0), (5, 31), (6, 31)];
    all.extend(depths.map(|(groups, number)| (Way::Deep(groups), number)));
    all
}

/// The numbers, 32 aside, in the order in which they are tested.
pub const NUMBERS: [u16; 6] = [1, 33, 2, 3, 4, 31];

/// Every two of these, in their order.
pub fn pairs<T: Copy>(all: &[T]) -> Vec<[T; 2]> {
    let mut pairs = Vec::new();
    for (place, first) in all.iter().enumerate() {
        pairs.extend(all[place + 1..].iter().map(|second| [*first, *second]));
    }
    pairs
}

/// What can be told of an answer, 31 being no kind, in the order in which it is told.
const TOLD: [Option<Kind>; 7] = [
    None,
    Some(Kind::Header),
    Some(Kind::Walk),
    Some(Kind::Avp),
    Some(Kind::Missing),
    Some(Kind::Notice),
    Some(Kind::Row),
];

/// Every two that can be planted in one answer: 31, walk, AVP and missing also twice.
pub fn two_told() -> Vec<[Option<Kind>; 2]> {
    let mut all = pairs(&TOLD);
    all.extend([0, 2, 3, 4].map(|place| [TOLD[place]; 2]));
    all
}

/// The fields of the header, and the bytes in which they stand.
pub const FIELDS: [(&str, Range<usize>); 7] = [
    ("version", 0..1),
    ("length", 1..4),
    ("flags", 4..5),
    ("command", 5..8),
    ("Application-Id", 8..12),
    ("Hop-by-Hop", 12..16),
    ("End-to-End", 16..20),
];

/// What is still to come of each sort of judgement.
pub struct JudgeDecks {
    planted: Deck<(Form, Plant)>,
    two: Deck<(Form, [Option<Kind>; 2])>,
    fields: Deck<(Form, Range<usize>)>,
    limits: Deck<(Form, (Way, u16))>,
    beside: Deck<(Form, [u16; 2])>,
    not_the_form: Deck<u32>,
}

/// Each card in both forms.
fn in_both<T: Clone>(cards: impl Fn(Form) -> Vec<T>) -> Deck<(Form, T)> {
    let cards = FORMS.map(|form| cards(form).into_iter().map(move |card| (form, card)));
    Deck::new(cards.into_iter().flatten().collect())
}

impl Default for JudgeDecks {
    fn default() -> JudgeDecks {
        JudgeDecks {
            planted: in_both(|_| PLANTS.to_vec()),
            two: in_both(|_| two_told()),
            fields: in_both(|_| FIELDS.map(|(_, bytes)| bytes).to_vec()),
            limits: in_both(limits),
            beside: in_both(|_| pairs(&NUMBERS)),
            not_the_form: Deck::new([&NO_FORMS[..], &[1, 2]].concat()),
        }
    }
}

/// A call in the making; what has to be told, where it is known; what the report says of it.
pub struct Made {
    pub call: JudgeCall,
    pub rooms: [Room; 2],
    pub wanted: Option<Verdict>,
    key: Option<String>,
}

impl Made {
    /// In rooms that are large enough, now and then a little larger.
    fn new(call: JudgeCall, random: &mut Random) -> Made {
        let form = Form::numbered(call.form).unwrap_or(Form::Two);
        let rooms = [ENOUGH.answer, form.notice()].map(|length| Room {
            length: (length + random.below(3)) as u32,
            seed: random.byte(),
        });
        let wanted = Some(call.wanted);
        Made {
            call,
            rooms,
            wanted,
            key: None,
        }
    }

    /// A call is as said here; the groups of its answer are made so beforehand.
    fn apply(&mut self, way: Way, random: &mut Random) {
        let call = &mut self.call;
        match way {
            Way::Before(length) => call.before.resize(length, 0),
            Way::After(length) => call.after.resize(length, 0),
            Way::Host(length) => call.host = random.bytes(length),
            Way::Realm(length) => call.realm = random.bytes(length),
            Way::AnswerRoom(length) => self.rooms[0].length = length as u32,
            Way::NoticeRoom(length) => self.rooms[1].length = length as u32,
            Way::Operator(operator) => call.operator = operator,
            Way::Request(number) => unanswered(&mut call.message, number, random),
            Way::Deep(_) => (),
        }
    }
}

/// The judgements of a round of a script.
pub fn judgements(recorder: &mut Recorder, decks: &mut JudgeDecks, random: &mut Random) {
    for made in round(decks, random) {
        recorder.set_table(&made.call.before);
        let seen = recorder.call(made.call.operation(made.rooms), false);
        if let (Some(_), Some(key)) = (seen, made.key) {
            recorder.report.add(key);
        }
    }
}

/// Of each sort as many as let every card come up soon.
pub fn round(decks: &mut JudgeDecks, random: &mut Random) -> Vec<Made> {
    let mut all = Vec::new();
    for _ in 0..4 {
        let (form, plant) = *decks.planted.draw(random);
        let key = planted_key(form, plant.1);
        all.push(planted(form, |_| vec![plant], key, random));
    }
    for _ in 0..4 {
        let (form, told) = *decks.two.draw(random);
        let key = two_key(form, told);
        all.push(planted(form, |random| of_kinds(told, random), key, random));
    }
    let (form, bytes) = decks.fields.draw(random).clone();
    all.push(spoilt_field(form, bytes, random));
    for _ in 0..6 {
        let (form, limit) = *decks.limits.draw(random);
        all.push(at_limits(form, &[limit], random));
    }
    for _ in 0..2 {
        let (form, numbers) = *decks.beside.draw(random);
        let both = numbers.map(|number| way_to(form, number, random));
        all.push(at_limits(form, &both, random));
    }
    all.push(not_the_form(*decks.not_the_form.draw(random), random));
    for form in FORMS {
        let old = old_answer(answered(form, random), random);
        all.push(Made::new(old.finish(), random));
        all.push(changed(form, random));
    }
    all
}

/// What the report says of one mismatch that was planted, and of two.
pub fn planted_key(form: Form, name: &str) -> String {
    format!("form {}, judge, planted: {name}", form.number())
}

pub fn two_key(form: Form, told: [Option<Kind>; 2]) -> String {
    let [first, second] = told.map(|told| told.map_or("31", kind_name));
    planted_key(form, &format!("{first} and {second}"))
}

pub fn kind_name(kind: Kind) -> &'static str {
    match kind {
        Kind::Header => "header",
        Kind::Walk => "walk",
        Kind::Avp => "AVP",
        Kind::Missing => "missing",
        Kind::Notice => "notice",
        Kind::Row => "row",
    }
}

/// An old answer with these mismatches in it. Not every answer can have them, so that requests
/// are made until one can.
fn planted(
    form: Form,
    plants: impl Fn(&mut Random) -> Vec<Plant>,
    key: String,
    random: &mut Random,
) -> Made {
    loop {
        let mut old = old_answer(own_call_in(form, random), random);
        let plants = plants(random);
        let mut each = plants.iter().map(|(.., plant)| plant(&mut old, random));
        if each.all(|done| done.is_some()) {
            old.call.planted = plants.iter().map(|(_, name, _)| *name).collect();
            return Made {
                key: Some(key),
                ..Made::new(old.finish(), random)
            };
        }
    }
}

/// One mismatch of each of these kinds.
fn of_kinds(told: [Option<Kind>; 2], random: &mut Random) -> Vec<Plant> {
    let one_of = |told| {
        let plants = PLANTS.into_iter().filter(|plant| plant.0 == told);
        *random.pick(&plants.collect::<Vec<Plant>>())
    };
    told.map(one_of).to_vec()
}

/// A request that is answered.
fn answered(form: Form, random: &mut Random) -> JudgeCall {
    loop {
        let call = own_call_in(form, random);
        if !call.answer.is_empty() {
            return call;
        }
    }
}

/// A bit of this field of the header is another one.
fn spoilt_field(form: Form, bytes: Range<usize>, random: &mut Random) -> Made {
    let mut old = old_answer(answered(form, random), random);
    let at = random.from_to(bytes.start, bytes.end - 1);
    old.front = Front::Spoilt(at, 1 << random.below(8));
    Made::new(old.finish(), random)
}

/// A way that comes to this number.
fn way_to(form: Form, number: u16, random: &mut Random) -> (Way, u16) {
    let ways = limits(form).into_iter().filter(|(_, of)| *of == number);
    *random.pick(&ways.collect::<Vec<_>>())
}

/// A call that is as said here, in the order of the numbers that come of it. Where none does,
/// the old server does what ours does then.
fn at_limits(form: Form, limits: &[(Way, u16)], random: &mut Random) -> Made {
    let deep = limits.iter().find_map(|(way, _)| match way {
        Way::Deep(groups) => Some(*groups),
        _ => None,
    });
    let call = answered(form, random);
    let call = match deep {
        Some(groups) => nested(call, groups, random),
        None => call,
    };
    let mut made = Made::new(call, random);
    for (way, _) in limits {
        made.apply(*way, random);
    }
    if deep.is_none() && number(&made.call.judged(), ENOUGH) == 0 {
        made.call.answer_as_ours();
    }
    let told = limits.iter().map(|(_, number)| *number).find(|n| *n != 0);
    made.wanted = Some(told.map_or(Verdict::Accepted, Verdict::Refused));
    made
}

/// A request that gets this number, from 5 to 8, instead of an answer.
fn unanswered(message: &mut Vec<u8>, number: u16, random: &mut Random) {
    match number {
        5 => message.resize(*random.pick(&[0, 19, 4_100]), 0),
        6 => message[0] = 2,
        7 => message[3] ^= 1 << random.below(8),
        _ => message[4] &= !REQUEST,
    }
}

/// Our answer with so many groups in one another in it.
fn nested(call: JudgeCall, groups: usize, random: &mut Random) -> JudgeCall {
    let mut old = Old::new(call);
    let core = plain(random).bytes();
    let (avp, _) = old.nested(groups, &core, random);
    let mark = (groups > 4).then_some(Mark::Deep);
    old.insert(Item::added(avp, mark), random);
    old.finish()
}

/// Two rows of a form that is not the one said.
fn not_the_form(said: u32, random: &mut Random) -> Made {
    let form = Form::numbered(said).map_or(*random.pick(&FORMS), Form::other);
    let mut made = Made::new(own_call_in(form, random), random);
    made.call.form = said;
    made.wanted = Some(Verdict::Refused(1));
    made
}

/// An old answer that was changed by chance: what has to be told of it is not known.
fn changed(form: Form, random: &mut Random) -> Made {
    let mut made = Made::new(old_answer(answered(form, random), random).finish(), random);
    for _ in 0..random.from_to(1, 2) {
        change(&mut made.call, random);
    }
    made.wanted = None;
    made
}
