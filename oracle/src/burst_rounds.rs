//! The bursts of a script (W2): some made to show one thing each, from both sides of
//! every limit, and some by chance.

use crate::burst_calls::{BurstCall, Ground, burst_call, given, tail, whole_call};
use crate::drafts::Draft;
use crate::forms::NO_FORMS;
use crate::generator::Deck;
use crate::program::Operation;
use crate::random::Random;
use crate::reading_a_message::REQUEST;
use crate::recorder::Recorder;
use crate::rules::DOCUMENT_01;
use crate::the_table::{FORMS, Form};

/// No burst of a script has more bytes, so that what comes of it fits its record.
const MOST_BYTES: usize = 20_000;

/// What a burst is made to show.
#[derive(Clone, Copy, Debug)]
enum Shown {
    /// None, or many, or enough of them for two cuts.
    NoMessages,
    Many,
    TwoCuts,
    /// What stands behind the last whole message.
    Behind(Behind),
    /// A message of so many bytes, with others before and behind it.
    Sized(usize),
    /// A policy that is granted or refused by this word of the WAG.
    Word(u8),
    /// A room that is at its limit for a message.
    Room(Form, Limit),
    /// No room for a message that would get this number.
    NoRoom(u16),
    /// So many words or places more than there are messages.
    Words(isize),
    Places(isize),
    /// An own name of this length.
    Host(usize),
    Realm(usize),
    /// A number by itself, and two of which the first is given.
    Number(Form, u16),
    Two(u16, u16),
    /// A form that there is not.
    NoForm(u32),
}

/// Just enough, or a byte short, for the first message or a later one.
#[derive(Clone, Copy, Debug)]
struct Limit {
    of_notices: bool,
    later: bool,
    short: bool,
}

#[derive(Clone, Copy, Debug)]
enum Behind {
    /// So many bytes.
    Bytes(usize),
    /// A header that says this, with so many bytes from it to the end.
    Header(u32, usize),
    /// A header that says this in front of a whole message.
    Between(u32),
}

/// The numbers of a burst in the order of their tests.
pub const IN_ORDER: [u16; 4] = [1, 33, 2, 18];

/// Lengths at both sides of the limits, and such that the next message stands at an odd
/// byte.
pub const SIZES: [usize; 8] = [20, 21, 22, 23, 24, 4_096, 4_097, 4_100];

/// Words of the WAG.
pub const WORDS: [u8; 4] = [0, 1, 2, 255];

/// What a bad boundary says, and how many bytes there are.
const HEADERS: [(u32, usize); 9] = [
    (0, 20),
    (4, 4),
    (19, 19),
    (19, 20),
    (20, 19),
    (21, 20),
    (60, 59),
    (0x01_0014, 20),
    (0xFF_FFFF, 40),
];

fn all_shown() -> Vec<Shown> {
    let mut all = vec![Shown::NoMessages, Shown::Many, Shown::TwoCuts];
    all.extend((0..5).map(|left| Shown::Behind(Behind::Bytes(left))));
    all.extend(HEADERS.map(|(said, left)| Shown::Behind(Behind::Header(said, left))));
    all.extend([0, 19].map(|said| Shown::Behind(Behind::Between(said))));
    all.extend(SIZES.map(Shown::Sized));
    all.extend(WORDS.map(Shown::Word));
    all.extend([5, 6, 7, 8].map(Shown::NoRoom));
    all.extend([-1, 1].map(Shown::Words));
    all.extend([-1, 1].map(Shown::Places));
    all.extend([0, 1, 128, 129].map(Shown::Host));
    all.extend([0, 1, 128, 129].map(Shown::Realm));
    all.extend(NO_FORMS.map(Shown::NoForm));
    for form in FORMS {
        all.extend(limits().map(|limit| Shown::Room(form, limit)));
        all.extend(IN_ORDER.map(|number| Shown::Number(form, number)));
    }
    for (place, first) in IN_ORDER.into_iter().enumerate() {
        let behind = IN_ORDER[place + 1..].iter();
        all.extend(behind.map(|second| Shown::Two(first, *second)));
    }
    all
}

fn limits() -> [Limit; 8] {
    [0, 1, 2, 3, 4, 5, 6, 7].map(|bits| Limit {
        of_notices: bits & 4 != 0,
        later: bits & 2 != 0,
        short: bits & 1 != 0,
    })
}

/// What is still to be shown.
pub struct BurstDecks {
    shown: Deck<Shown>,
}

impl BurstDecks {
    pub fn new() -> BurstDecks {
        BurstDecks {
            shown: Deck::new(all_shown()),
        }
    }
}

impl Default for BurstDecks {
    fn default() -> BurstDecks {
        BurstDecks::new()
    }
}

/// Some bursts, each on a table of its own.
pub fn bursts(recorder: &mut Recorder, decks: &mut BurstDecks, random: &mut Random) {
    for _ in 0..8 {
        let shown = *decks.shown.draw(random);
        play(recorder, &showing(shown, random));
    }
    for _ in 0..3 {
        play(recorder, &by_chance(random));
    }
}

fn play(recorder: &mut Recorder, call: &BurstCall) {
    recorder.set_table(&call.table);
    recorder.call(Operation::Burst(call.asked.clone()), false);
}

fn by_chance(random: &mut Random) -> BurstCall {
    loop {
        let call = burst_call(random);
        if call.messages.len() <= MOST_BYTES {
            return call;
        }
    }
}

/// Bursts are made until one shows it: what its messages come to is chance.
fn showing(shown: Shown, random: &mut Random) -> BurstCall {
    loop {
        let mut call = made(shown, random);
        if call.messages.len() <= MOST_BYTES && change(&mut call, shown, random) {
            return call;
        }
    }
}

/// Messages with all that they ask for.
fn made(shown: Shown, random: &mut Random) -> BurstCall {
    let ground = Ground::new(random);
    let count = match shown {
        Shown::NoMessages => 0,
        Shown::Many => 12,
        _ => random.from_to(3, 5),
    };
    let mut messages = ground.messages(count, random);
    match shown {
        Shown::Sized(size) => messages[1].1 = opening(&ground, Some(size)),
        Shown::NoRoom(number) => messages[0].1 = without_answer(&ground, number),
        Shown::Word(_) => {
            messages[0].1 = opening(&ground, None);
            messages[1].1 = policy(&ground);
        }
        _ => (),
    }
    let behind = match shown {
        Shown::Behind(behind) => bytes_behind(&ground, behind, random),
        _ => Vec::new(),
    };
    whole_call(&ground, &messages, &behind, random)
}

const SESSION: &[u8] = b"of a round";

fn opening(ground: &Ground, size: Option<usize>) -> Vec<u8> {
    let row = &ground.rows[0];
    let mut draft = Draft::open(&row.name, SESSION, b"pdg", &row.entries[0].label);
    draft.size = size;
    draft.bytes()
}

fn policy(ground: &Ground) -> Vec<u8> {
    Draft::policy(&ground.rows[0].name, SESSION, b"pdg", b"permit").bytes()
}

fn without_answer(ground: &Ground, number: u16) -> Vec<u8> {
    let mut draft = Draft::policy(&ground.rows[0].name, SESSION, b"pdg", b"permit");
    match number {
        5 => draft.size = Some(4_100),
        6 => draft.version = 2,
        7 => draft.size = Some(21),
        _ => draft.flags &= !REQUEST,
    }
    draft.bytes()
}

fn bytes_behind(ground: &Ground, behind: Behind, random: &mut Random) -> Vec<u8> {
    let saying = |said: u32| {
        let mut bytes = opening(ground, Some(60));
        bytes[1..4].copy_from_slice(&said.to_be_bytes()[1..]);
        bytes
    };
    match behind {
        Behind::Bytes(left) => {
            let any = tail(ground, random).into_iter();
            any.chain([1, 0, 0, 60]).take(left).collect()
        }
        Behind::Header(said, left) => saying(said)[..left].to_vec(),
        Behind::Between(said) => [&saying(said)[..20], &opening(ground, None)].concat(),
    }
}

/// Changes what is lent besides the messages; false if this burst can not show it.
fn change(call: &mut BurstCall, shown: Shown, random: &mut Random) -> bool {
    match shown {
        Shown::TwoCuts => return given(&DOCUMENT_01, call).0.notices > 1,
        Shown::Word(word) => {
            call.wags[1] = word;
            return given(&DOCUMENT_01, call).1.results[0][0] == 2001;
        }
        Shown::Room(form, limit) => {
            return call.form == form.number() && at_limit(call, limit);
        }
        Shown::NoRoom(_) => call.answer_room.length = 5_119,
        Shown::Words(more) => {
            let count = call.places.wrapping_add_signed(more);
            call.wags.resize(count, 1);
        }
        Shown::Places(more) => call.places = call.places.wrapping_add_signed(more),
        Shown::Host(length) => call.host = vec![b'h'; length],
        Shown::Realm(length) => call.realm = vec![b'r'; length],
        Shown::Number(form, number) => {
            let right = call.form == form.number();
            hold(call, number, random);
            // 18 counts what there is, also where no message has room.
            call.answer_room.length = 5_119;
            return right;
        }
        Shown::Two(first, second) => {
            hold(call, first, random);
            hold(call, second, random);
        }
        Shown::NoForm(form) => call.form = form,
        Shown::Many => {
            call.answer_room.length = 65_536;
            call.notice_room.length = 6_144;
        }
        Shown::NoMessages | Shown::Behind(_) | Shown::Sized(_) => (),
    }
    true
}

/// Makes a number hold.
fn hold(call: &mut BurstCall, number: u16, random: &mut Random) {
    match number {
        1 => {
            call.table.pop();
        }
        33 => call.operator = *random.pick(&[16, 17, 256, u32::MAX]),
        2 if random.once_in(2) => call.host.clear(),
        2 => call.realm = vec![b'r'; 129],
        _ if random.once_in(2) => call.places -= 1,
        _ => {
            call.wags.pop();
        }
    }
}

/// Makes a room just long enough, or a byte too short, for the first message or for the
/// last; false if nothing before the last uses up any of it.
fn at_limit(call: &mut BurstCall, limit: Limit) -> bool {
    let (taken, written) = given(&DOCUMENT_01, call);
    let results = written.results[..taken.messages].iter();
    let notice = Form::numbered(call.form).map_or(0, Form::notice) as u32;
    let used = |result: &[u32; 8]| match limit.of_notices {
        true => result[4] * notice,
        false => result[2],
    };
    let before: u32 = results.rev().skip(1).map(used).sum();
    let before = if limit.later { before } else { 0 };
    let (room, least) = match limit.of_notices {
        true => (&mut call.asked.notice_room, notice),
        false => (&mut call.asked.answer_room, 5_120),
    };
    room.length = before + least - u32::from(limit.short);
    !limit.later || before > 0
}
