//! Calls of the disconnection (W6): Abort-Session-Requests written and refused, from
//! notices made here and from those of real cuts, and answers to them, good and damaged.

use crate::cases::{Case, text};
use crate::disconnecting::{ABORT_SESSION, RESULT_CODE};
use crate::drafts::{Draft, DraftAvp};
use crate::generator::{Deck, record};
use crate::known_avps::{known_and_ignored, unknown};
use crate::program::{Aborting, Answering, Operation, Room, Seen};
use crate::random::Random;
use crate::reading_a_message::{
    Name, ORIGIN_HOST, ORIGIN_REALM, REQUEST, SESSION_ID, TERMINATION, base,
};
use crate::recorder::Recorder;
use crate::the_table::{FORMS, Form};

/// What of a writing is at a limit, or past it.
#[derive(Clone, Copy, Debug)]
enum Limit {
    Host(usize),
    Realm(usize),
    Notice(usize),
    /// Of Session-Id, host and realm, by place.
    Length(usize, u32),
    Room(u32),
}

/// Notice rooms around the lengths of both forms.
pub const NOTICE_ROOMS: [u32; 8] = [0, 255, 256, 257, 383, 384, 385, 1_024];
/// Lengths of the texts in a notice; the last four would do if only low bits counted.
pub const LENGTHS: [u32; 10] = [0, 1, 127, 128, 129, 256, 257, 384, 65_537, u32::MAX];
pub const OWN_NAMES: [usize; 5] = [0, 1, 128, 129, 300];
pub const NOTICES: [usize; 6] = [0, 256, 383, 384, 385, 1_024];
pub const ROOMS: [u32; 6] = [0, 712, 1_023, 1_024, 1_025, 2_000];

/// What is still to come of each sort of call.
pub struct AbortDecks {
    rooms: Deck<(Form, u32)>,
    limits: Deck<Vec<Limit>>,
    ways: Deck<Way>,
}

impl AbortDecks {
    pub fn new() -> AbortDecks {
        let rooms = FORMS.map(|form| NOTICE_ROOMS.map(|length| (form, length)));
        AbortDecks {
            rooms: Deck::new(rooms.concat()),
            limits: Deck::new(limits()),
            ways: Deck::new([FAULTS, NO_FAULTS].concat()),
        }
    }
}

impl Default for AbortDecks {
    fn default() -> AbortDecks {
        AbortDecks::new()
    }
}

/// Each limit by itself, and every two numbers at once.
fn limits() -> Vec<Vec<Limit>> {
    let mut all = Vec::new();
    all.extend(OWN_NAMES.map(Limit::Host));
    all.extend(OWN_NAMES.map(Limit::Realm));
    all.extend(NOTICES.map(Limit::Notice));
    for place in 0..3 {
        all.extend(LENGTHS.map(|length| Limit::Length(place, length)));
    }
    all.extend(ROOMS.map(Limit::Room));
    let mut all: Vec<Vec<Limit>> = all.into_iter().map(|limit| vec![limit]).collect();
    let refused = [
        vec![Limit::Host(0), Limit::Realm(129)],
        vec![Limit::Notice(383), Limit::Notice(383)],
        vec![Limit::Length(0, 0), Limit::Length(2, 129)],
        vec![Limit::Room(1_023), Limit::Room(0)],
    ];
    for (place, first) in refused.iter().enumerate() {
        for second in &refused[place + 1..] {
            all.push(vec![first[0], second[1]]);
            all.push(vec![first[1], second[0]]);
        }
    }
    all
}

/// Some calls of every sort.
pub fn disconnections(recorder: &mut Recorder, decks: &mut AbortDecks, random: &mut Random) {
    for _ in 0..2 {
        let (form, length) = *decks.rooms.draw(random);
        let mut case = Case::full(form, random);
        case.notice_room.length = length;
        record(recorder, &case);
    }
    for _ in 0..5 {
        let limits = decks.limits.draw(random).clone();
        let mut aborting = good_aborting(random);
        for limit in limits {
            at_limit(&mut aborting, limit, random);
        }
        recorder.call(Operation::Abort(aborting), false);
    }
    for _ in 0..6 {
        let way = *decks.ways.draw(random);
        let mut exchange = Exchange::new(random);
        way(&mut exchange, random);
        recorder.call(exchange.operation(), false);
    }
    noisy_answer(recorder, random);
    from_cut_to_answer(recorder, random);
}

fn at_limit(aborting: &mut Aborting, limit: Limit, random: &mut Random) {
    match limit {
        Limit::Host(length) => aborting.host = random.bytes(length),
        Limit::Realm(length) => aborting.realm = random.bytes(length),
        Limit::Notice(length) => aborting.notice.resize(length, 7),
        Limit::Length(place, length) => aborting.lengths[place] = length,
        Limit::Room(length) => aborting.room.length = length,
    }
}

/// A writing that succeeds. Half the time what is behind the texts of the notice is not
/// zero, which nothing asks for.
fn good_aborting(random: &mut Random) -> Aborting {
    let mut notice = Vec::new();
    let mut lengths = [0; 3];
    let tail = random.once_in(2);
    for length in &mut lengths {
        let mut text = text(random, 128);
        *length = text.len() as u32;
        let rest = 128 - text.len();
        text.extend(if tail {
            random.bytes(rest)
        } else {
            vec![0; rest]
        });
        notice.extend(text);
    }
    Aborting {
        lengths,
        identifiers: identifiers(random),
        room: Room {
            length: *random.pick(&[1_024, 1_024, 1_500]),
            seed: random.byte(),
        },
        host: text(random, 128),
        realm: text(random, 128),
        notice,
    }
}

/// Both identifiers, now and then the same or of odd value.
fn identifiers(random: &mut Random) -> [u32; 2] {
    let [any, other] = [random.draw() as u32, random.draw() as u32];
    let hop = *random.pick(&[any, 0, 1, u32::MAX]);
    let end = *random.pick(&[other, hop, hop.wrapping_add(1), 1 << 24]);
    [hop, end]
}

/// A request that was sent, and an answer in the making.
struct Exchange {
    session: Vec<u8>,
    identifiers: [u32; 2],
    draft: Draft,
}

impl Exchange {
    /// A good answer: whatever has no say in it is by chance. The identifiers differ.
    fn new(random: &mut Random) -> Exchange {
        let [hop, end] = identifiers(random);
        let end = if hop == end { end ^ 1 } else { end };
        Exchange::to(&text(random, 128), [hop, end], random)
    }

    fn to(session: &[u8], identifiers: [u32; 2], random: &mut Random) -> Exchange {
        let code = *random.pick(&[2001, 2001, 5002, 3002, 0, u32::MAX]);
        let mut draft = Draft::termination(b"1", session, b"pdg", b"board");
        draft.avps.truncate(1);
        draft.avps.extend([
            DraftAvp::number(RESULT_CODE, code),
            DraftAvp::new(ORIGIN_HOST, &text(random, 128)),
            DraftAvp::new(ORIGIN_REALM, &text(random, 128)),
        ]);
        random.shuffle(&mut draft.avps[1..]);
        draft.command = ABORT_SESSION;
        draft.flags = random.byte() & !REQUEST;
        draft.application = *random.pick(&[1, 1, 0, 10_415, u32::MAX]);
        let [hop, end] = identifiers.map(u32::to_be_bytes);
        draft.identifiers[..4].copy_from_slice(&hop);
        draft.identifiers[4..].copy_from_slice(&end);
        for avp in &mut draft.avps {
            avp.flags = *random.pick(&[0, 0x20, 0x40, 0x60]);
            avp.padding = *random.pick(&[0, 0, 255]);
        }
        Exchange {
            session: session.to_vec(),
            identifiers,
            draft,
        }
    }

    fn operation(&self) -> Operation {
        Operation::Answered(Answering {
            identifiers: self.identifiers,
            session: self.session.clone(),
            answer: self.draft.bytes(),
        })
    }

    /// The answer's Session-Id, which is its first AVP.
    fn first(&mut self) -> &mut DraftAvp {
        &mut self.draft.avps[0]
    }

    /// The place of the Result-Code.
    fn result(&mut self) -> usize {
        self.draft.position(RESULT_CODE).unwrap_or(0)
    }

    /// The Session-Id sent and answered.
    fn named(&mut self, session: Vec<u8>) {
        self.first().value = session.clone();
        self.session = session;
    }

    fn insert(&mut self, avp: DraftAvp, random: &mut Random) {
        self.draft.insert(random.below(9), avp);
    }
}

type Way = fn(&mut Exchange, &mut Random);

fn with_vendor(name: Name, vendor: u32) -> Name {
    Name {
        vendor: Some(vendor),
        ..name
    }
}

const VENDORS: [u32; 3] = [0, 9, 10_415];
const EXPERIMENTAL_RESULT: Name = base(297);

/// What makes an answer belong no more, each alone.
const FAULTS: &[Way] = &[
    |e, _| e.draft.flags |= REQUEST,
    |e, _| e.draft.flags = 0xC0,
    |e, _| e.draft.command = TERMINATION,
    |e, random| e.draft.command = *random.pick(&[0, 258, 265, 274 + (1 << 16), 0x00FF_FFFF]),
    |e, _| e.draft.identifiers[0] ^= 0x80,
    |e, _| e.draft.identifiers[3] ^= 1,
    |e, _| e.draft.identifiers[4] ^= 0x80,
    |e, _| e.draft.identifiers[7] ^= 1,
    |e, random| e.draft.identifiers[random.below(4)] ^= 1 << random.below(8),
    |e, random| e.draft.identifiers[4 + random.below(4)] ^= 1 << random.below(8),
    |e, _| e.draft.identifiers.rotate_left(4),
    |e, _| e.draft.identifiers.rotate_left(4),
    |e, random| e.draft.avps.swap(0, 1 + random.below(3)),
    |e, _| {
        let result = e.result();
        e.draft.avps.swap(0, result);
    },
    |e, random| {
        let again = e.first().clone();
        e.insert(again, random);
    },
    |e, random| {
        let other = DraftAvp::new(SESSION_ID, &text(random, 128));
        e.insert(other, random);
    },
    |e, _| {
        let again = e.first().clone();
        e.draft.avps.push(again);
    },
    |e, random| e.first().name = with_vendor(SESSION_ID, *random.pick(&VENDORS)),
    |e, random| {
        // One with V first and the right one behind it.
        let mut other = e.first().clone();
        other.name = with_vendor(SESSION_ID, *random.pick(&VENDORS));
        e.draft.avps.insert(0, other);
    },
    |e, _| {
        e.draft.avps.remove(0);
    },
    |e, _| e.draft.avps.clear(),
    |e, random| {
        let at = random.below(e.session.len());
        e.first().value[at] ^= 1 << random.below(8);
    },
    |e, _| {
        let last = e.session.len() - 1;
        e.first().value[last] ^= 1;
    },
    |e, random| e.first().value.push(*random.pick(&[0, b'x'])),
    |e, _| {
        e.first().value.pop();
    },
    |e, _| e.first().value.clear(),
    |e, _| {
        e.named(b"pdg;1;Abc".to_vec());
        e.first().value = b"pdg;1;aBC".to_vec();
    },
    |e, random| {
        e.session.clear();
        e.first().value = random.bytes(1);
    },
    |e, _| {
        let result = e.result();
        e.draft.avps.remove(result);
    },
    |e, random| {
        let at = e.result();
        let again = e.draft.avps[at].clone();
        e.insert(again, random);
    },
    |e, random| {
        let other = DraftAvp::number(RESULT_CODE, random.draw() as u32);
        e.insert(other, random);
    },
    |e, random| {
        // A second one of another length is a second one.
        let other = DraftAvp::new(RESULT_CODE, &random.bytes(3));
        e.insert(other, random);
    },
    |e, random| {
        let at = e.result();
        e.draft.avps[at].name = with_vendor(RESULT_CODE, *random.pick(&VENDORS));
    },
    |e, _| {
        let at = e.result();
        e.draft.avps[at].name = EXPERIMENTAL_RESULT;
    },
    |e, random| result_of(e, 0, random),
    |e, random| result_of(e, 3, random),
    |e, random| result_of(e, 5, random),
    |e, random| result_of(e, 8, random),
    |e, random| {
        let length = random.from_to(9, 130);
        result_of(e, length, random);
    },
    |e, random| e.draft.tail = random.pick(&[[0; 4], [0, 0, 1, 12]]).to_vec(),
    |e, random| {
        let at = random.below(e.draft.avps.len());
        e.draft.avps[at].flags |= 1 << random.below(5);
    },
    |e, random| {
        let at = random.below(e.draft.avps.len());
        e.draft.avps[at].length = Some(random.below(8) as u32);
    },
    |e, random| e.draft.tail = vec![0, 0, 0, 25, 0x80, 0, 0, *random.pick(&[8, 11])],
    |e, random| {
        let last = e.draft.avps.len() - 1;
        let length = *random.pick(&[200, 4_000, 1 << 16, 0x00FF_FFFF]);
        e.draft.avps[last].length = Some(length);
    },
    |e, random| e.draft.length_off = *random.pick(&[-4, 4, 1, -1, -20, 1 << 16]),
    |e, random| {
        // A good answer up to where its header says, and an AVP behind that.
        let more = DraftAvp::new(base(25), &random.bytes(4));
        e.draft.length_off = -(more.bytes().len() as i32);
        e.draft.avps.push(more);
    },
    |e, random| {
        // True, but no multiple of 4.
        let size = e.draft.bytes().len() + random.from_to(1, 3);
        e.draft.size = Some(size);
    },
    |e, random| e.draft.size = Some(random.below(20)),
    |e, _| e.draft.size = Some(19),
    |e, _| e.draft.size = Some(0),
    |e, _| e.draft.size = Some(20),
    |e, random| fill(e, 4_100, random),
    |e, random| fill(e, 4_104, random),
    |e, random| e.draft.version = *random.pick(&[0, 2, 2, 17, 255]),
    |e, _| e.draft.version = 2,
    |e, random| {
        // An AVP that is not known, with M, is no fault; a broken one behind it is.
        e.insert(DraftAvp::new(*random.pick(&unknown()), b"?"), random);
        e.draft.tail = vec![0; 4];
    },
];

fn result_of(exchange: &mut Exchange, length: usize, random: &mut Random) {
    let at = exchange.result();
    exchange.draft.avps[at].value = random.bytes(length);
}

/// Brings an answer to a size with one long AVP at its end.
fn fill(exchange: &mut Exchange, size: usize, random: &mut Random) {
    let rest = size - exchange.draft.bytes().len() - 8;
    let bytes = random.bytes(rest);
    exchange.draft.avps.push(DraftAvp::new(base(25), &bytes));
}

/// What has no say, and texts of every length.
const NO_FAULTS: &[Way] = &[
    |_, _| (),
    |e, _| e.draft.flags = 0,
    |e, _| e.draft.flags = 0x20,
    |e, _| e.draft.flags = 0x10,
    |e, _| e.draft.flags = 0x40,
    |e, random| e.draft.flags = 1 << random.below(4),
    |e, _| e.draft.application = 0,
    |e, random| {
        let mut unknown = DraftAvp::new(*random.pick(&unknown()), &random.bytes(5));
        unknown.flags |= 0x40;
        e.insert(unknown, random);
    },
    |e, random| e.insert(DraftAvp::new(base(99_999), &random.bytes(2)), random),
    |e, random| {
        let name = *random.pick(&known_and_ignored());
        e.insert(DraftAvp::new(name, &random.bytes(7)), random);
    },
    |e, _| e.named(Vec::new()),
    |e, _| e.named(Vec::new()),
    |e, random| e.named(random.bytes(1)),
    |e, random| e.named(random.bytes(128)),
    |e, random| e.named(random.bytes(129)),
    |e, random| e.named(random.bytes(2_000)),
    |e, random| {
        let beside = with_vendor(SESSION_ID, *random.pick(&VENDORS));
        let beside = DraftAvp::new(beside, &e.session.clone());
        e.insert(beside, random);
    },
    |e, random| {
        let beside = with_vendor(RESULT_CODE, *random.pick(&VENDORS));
        e.insert(DraftAvp::number(beside, 2001), random);
    },
    |e, random| e.insert(DraftAvp::number(EXPERIMENTAL_RESULT, 5042), random),
    |e, _| {
        let at = e.result();
        e.draft.avps[at].value = 5002u32.to_be_bytes().to_vec();
    },
    |e, _| {
        e.named(Vec::new());
        let result = e.result();
        e.draft.avps.swap(1, result);
        e.draft.avps.truncate(2);
    },
    |e, random| fill(e, 4_096, random),
    |e, _| {
        let identifiers = [e.identifiers[0]; 2];
        let [hop, end] = identifiers.map(u32::to_be_bytes);
        e.identifiers = identifiers;
        e.draft.identifiers = [hop, end].concat().try_into().unwrap_or_default();
    },
];

/// A good answer with bytes changed by chance.
fn noisy_answer(recorder: &mut Recorder, random: &mut Random) {
    let exchange = Exchange::new(random);
    let mut answer = exchange.draft.bytes();
    for _ in 0..random.from_to(1, 3) {
        let at = random.below(answer.len());
        answer[at] ^= 1 << random.below(8);
    }
    recorder.call(
        Operation::Answered(Answering {
            identifiers: exchange.identifiers,
            session: exchange.session,
            answer,
        }),
        false,
    );
}

/// A cut in form 2, the request that is made of its notice, and the answer to it. An
/// access that came from a move has no realm, and no request can be made for it.
fn from_cut_to_answer(recorder: &mut Recorder, random: &mut Random) {
    let case = Case::full(Form::Two, random);
    recorder.set_table(&case.table);
    let Some(seen) = recorder.call(case.operation(), false) else {
        return;
    };
    let aborting = of_cut(&case, &seen, random);
    let session = aborting.notice[..aborting.lengths[0] as usize].to_vec();
    let identifiers = aborting.identifiers;
    recorder.call(Operation::Abort(aborting), false);
    let exchange = Exchange::to(&session, identifiers, random);
    recorder.call(exchange.operation(), false);
}

fn of_cut(case: &Case, seen: &Seen, random: &mut Random) -> Aborting {
    let [.., session, host, realm] = seen.numbers;
    Aborting {
        lengths: [session, host, realm],
        host: case.host.clone(),
        realm: case.realm.clone(),
        notice: seen.notice_room.clone(),
        ..good_aborting(random)
    }
}
