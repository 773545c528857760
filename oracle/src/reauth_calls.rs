//! Calls of the gateway made from a seed (W11): each number, each code and each limit from
//! both sides, every two of them at once, damaged messages, and what has no say.

use crate::cases::{garnish, text};
use crate::drafts::{Draft, DraftAvp};
use crate::faults::{Fault, field_checks, too_often};
use crate::generator::Deck;
use crate::known_avps::{known_and_ignored, unknown};
use crate::program::{Operation, Room};
use crate::random::Random;
use crate::reading_a_message::{
    AA, AUTH_APPLICATION_ID, AUTH_REQUEST_TYPE, DESTINATION_HOST, DESTINATION_REALM, LIST_258,
    Name, ORIGIN_HOST, ORIGIN_REALM, PROXIABLE, PROXY_INFO, RE_AUTH, RE_AUTH_REQUEST_TYPE, REQUEST,
    ROUTING_POLICY, SESSION_ID, SESSION_REQUEST_TYPE, TERMINATION, TERMINATION_CAUSE, USER_NAME,
    VENDOR_3GPP, VISITED_NETWORK, W_APN, base,
};
use crate::reauthorizing::{LentAccess, ReAuth, ReAuthorized, re_auth_list};
use crate::recorder::Recorder;
use crate::rules::Rules;
use crate::the_table::Form;

/// A call with all its inputs.
#[derive(Clone, Debug, PartialEq, Eq)]
pub struct ReAuthCall {
    pub host: Vec<u8>,
    pub realm: Vec<u8>,
    pub session: Vec<u8>,
    pub user: Vec<u8>,
    pub label: Vec<u8>,
    pub visited: Vec<u8>,
    pub message: Vec<u8>,
    pub identifiers: [u32; 2],
    pub answer_room: Room,
    pub request_room: Room,
}

/// What a call gave back, and both rooms afterwards.
#[derive(Clone, Debug, PartialEq, Eq)]
pub struct Given {
    pub result: ReAuthorized,
    pub answer_room: Vec<u8>,
    pub request_room: Vec<u8>,
}

impl Given {
    pub fn answer(&self) -> &[u8] {
        &self.answer_room[..self.result.length]
    }

    pub fn request(&self) -> &[u8] {
        &self.request_room[..self.result.request_length]
    }
}

pub fn given(rules: &Rules, call: &ReAuthCall) -> Given {
    given_by(|lent| (rules.re_authorize)(rules, lent), call)
}

/// The same by whatever program there is.
pub fn given_by(
    re_authorize: impl FnOnce(&mut ReAuth) -> ReAuthorized,
    call: &ReAuthCall,
) -> Given {
    let mut answer_room = call.answer_room.fresh();
    let mut request_room = call.request_room.fresh();
    let mut lent = ReAuth {
        host: &call.host,
        realm: &call.realm,
        access: LentAccess {
            session: &call.session,
            user: &call.user,
            label: &call.label,
            visited: &call.visited,
        },
        message: &call.message,
        identifiers: call.identifiers,
        answer_room: &mut answer_room,
        request_room: &mut request_room,
    };
    let result = re_authorize(&mut lent);
    Given {
        result,
        answer_room,
        request_room,
    }
}

/// The texts of a Re-Auth-Request, in the order in which they stand in it.
#[derive(Clone, Debug, PartialEq, Eq)]
pub struct Texts {
    pub session: Vec<u8>,
    pub origin_host: Vec<u8>,
    pub origin_realm: Vec<u8>,
    pub destination_realm: Vec<u8>,
    pub destination_host: Vec<u8>,
}

impl Texts {
    pub fn new(random: &mut Random) -> Texts {
        Texts {
            session: text(random, 128),
            origin_host: text(random, 128),
            origin_realm: text(random, 128),
            destination_realm: text(random, 128),
            destination_host: text(random, 128),
        }
    }

    /// The Re-Auth-Request, in the order of the list.
    pub fn lay_out(&self) -> Draft {
        let avps = vec![
            DraftAvp::new(SESSION_ID, &self.session),
            DraftAvp::number(AUTH_APPLICATION_ID, 1),
            DraftAvp::new(ORIGIN_HOST, &self.origin_host),
            DraftAvp::new(ORIGIN_REALM, &self.origin_realm),
            DraftAvp::new(DESTINATION_REALM, &self.destination_realm),
            DraftAvp::new(DESTINATION_HOST, &self.destination_host),
            DraftAvp::number(RE_AUTH_REQUEST_TYPE, 0),
        ];
        Draft {
            version: 1,
            flags: REQUEST | PROXIABLE,
            command: RE_AUTH,
            application: 1,
            identifiers: [0, 0, 0, 3, 0, 0, 1, 3],
            avps,
            tail: Vec::new(),
            size: None,
            length_off: 0,
        }
    }
}

/// A call that goes on, about the access that its message names.
pub fn good_call(texts: &Texts, message: Vec<u8>, random: &mut Random) -> ReAuthCall {
    let room = |random: &mut Random| Room {
        length: *random.pick(&[5_120, 5_120, 5_121, 6_000]),
        seed: random.byte(),
    };
    let visited = text(random, 128);
    let identifiers = random.draw();
    ReAuthCall {
        host: text(random, 128),
        realm: text(random, 128),
        session: texts.session.clone(),
        user: text(random, 128),
        label: text(random, 100),
        visited: if random.once_in(2) {
            visited
        } else {
            Vec::new()
        },
        message,
        identifiers: [(identifiers >> 32) as u32, identifiers as u32],
        answer_room: room(random),
        request_room: room(random),
    }
}

/// What is wrong with a call, or at a limit.
#[derive(Clone, Debug)]
enum Way {
    Host(usize),
    Realm(usize),
    AnswerRoom(u32),
    RequestRoom(u32),
    Session(usize),
    User(usize),
    Label(usize),
    Visited(usize),
    /// Something about the message alone.
    Message(Fault),
    /// The Session-Id of another access.
    OtherSession,
    /// A User-Name, of which nothing is asked.
    NameToo,
}

/// For each check, in the order in which they are made, the ways to fail it.
fn checks() -> Vec<Vec<Way>> {
    use Fault::*;
    let of_message = |faults: Vec<Fault>| faults.into_iter().map(Way::Message).collect();
    let mut all = call_checks();
    let messages = [
        [0, 1, 19, 4_097, 4_100, 5_000].map(Size).to_vec(),
        [0, 2, 17, 255].map(Version).to_vec(),
        [-4, 4, 1, -1, 1 << 16].map(LengthOff).to_vec(),
        vec![NotRequest],
        [1, 2, 4, 8, 15].map(HeaderFlags).to_vec(),
        vec![HeaderFlags(0x20)],
        COMMANDS.map(Command).to_vec(),
        [0, 2, 10_415, 1 << 24, 257, u32::MAX]
            .map(Application)
            .to_vec(),
        vec![Tail(&[0; 4]), Tail(&[0, 0, 1, 28]), Size(24)],
        [1, 2, 4, 8, 16, 31].map(AvpFlags).to_vec(),
        [0, 1, 7, 4_090, 1 << 16, 0x00FF_FFFF].map(Claim).to_vec(),
        vec![Tail(&[0, 0, 0, 25, 0x80, 0, 0, 11])],
        not_known().into_iter().map(Unknown).collect(),
        not_known().into_iter().map(UnknownFirst).collect(),
    ];
    all.extend(messages.map(of_message));
    for field in re_auth_list(Form::One, RE_AUTH) {
        all.extend(field_checks(field, None).into_iter().map(of_message));
    }
    all.push(vec![Way::OtherSession; 4]);
    all
}

/// Those that have to do with the message not at all.
fn call_checks() -> Vec<Vec<Way>> {
    let lengths = [0, 129, 130, 300];
    let rooms = [0, 1_128, 5_119];
    let texts = [lengths.map(Way::Session), lengths.map(Way::User)].concat();
    let labels = [0, 101, 128, 300].map(Way::Label);
    let visited = [129, 130, 300].map(Way::Visited);
    vec![
        [lengths.map(Way::Host), lengths.map(Way::Realm)].concat(),
        [rooms.map(Way::AnswerRoom), rooms.map(Way::RequestRoom)].concat(),
        [&texts[..], &labels, &visited].concat(),
    ]
}

/// Commands that the gateway does not serve. The server writes more in the answer to a
/// 265, so that it comes most often.
const COMMANDS: [u32; 9] = [
    0,
    259,
    AA,
    AA,
    AA,
    274,
    TERMINATION,
    RE_AUTH + (1 << 16),
    0x00FF_FFFF,
];

/// How many checks there are up to the header's last.
const EARLY: usize = 11;

/// To the gateway Re-Auth-Request-Type is known, but under no vendor.
pub fn not_known() -> Vec<Name> {
    let mut names = unknown();
    names.retain(|name| *name != RE_AUTH_REQUEST_TYPE);
    names.extend([0, 9, VENDOR_3GPP].map(|vendor| Name {
        vendor: Some(vendor),
        ..RE_AUTH_REQUEST_TYPE
    }));
    names
}

/// What is just within a limit.
fn within() -> Vec<Way> {
    let mut all = Vec::new();
    for length in [1, 128] {
        all.extend([Way::Host, Way::Realm, Way::Session, Way::User].map(|way| way(length)));
    }
    all.extend([1, 99, 100].map(Way::Label));
    all.extend([0, 1, 128].map(Way::Visited));
    all.extend([5_120, 5_121].map(Way::AnswerRoom));
    all.extend([5_120, 5_121].map(Way::RequestRoom));
    all.push(Way::Message(Fault::Size(20)));
    all
}

/// What the report asks for, one by one: each limit from both sides, two numbers at once,
/// and the ways of the gateway's own list.
fn edges() -> Vec<Vec<Way>> {
    use Fault::*;
    let mut all: Vec<Vec<Way>> = within().into_iter().map(|way| vec![way]).collect();
    let alone = [0, 129].map(|n| [Way::Host(n), Way::Realm(n), Way::Session(n), Way::User(n)]);
    all.extend(alone.concat().into_iter().map(|way| vec![way]));
    let others = [Way::Label(0), Way::Label(101), Way::Visited(129)];
    all.extend(others.map(|way| vec![way]));
    let rooms = [Way::AnswerRoom(5_119), Way::RequestRoom(5_119)];
    all.extend(rooms.map(|way| vec![way]));
    let numbers = [
        Way::Host(129),
        Way::RequestRoom(0),
        Way::User(0),
        Way::Message(Size(19)),
    ];
    for (place, first) in numbers.iter().enumerate() {
        let later = numbers[place + 1..].iter();
        all.extend(later.map(|second| vec![first.clone(), second.clone()]));
    }
    let [host, kind] = [LIST_258[0], LIST_258[1]];
    let of_message = [
        NotRequest,
        Command(AA),
        Absent(host.name),
        Absent(kind.name),
        TooOften(kind),
        Length(kind, 5),
        Value(kind.name, 1),
        Value(kind.name, 1 << 24),
    ];
    all.extend(of_message.map(|fault| vec![Way::Message(fault)]));
    all.extend([vec![Way::OtherSession], vec![Way::NameToo]]);
    all
}

/// A message and its call in the making.
struct Making {
    draft: Draft,
    call: ReAuthCall,
}

impl Making {
    fn new(random: &mut Random) -> Making {
        let texts = Texts::new(random);
        let mut draft = texts.lay_out();
        if !random.once_in(3) {
            garnish(&mut draft, random);
            ignored(&mut draft, random);
        }
        let call = good_call(&texts, Vec::new(), random);
        Making { draft, call }
    }

    fn apply(&mut self, way: &Way, random: &mut Random) {
        let (call, draft) = (&mut self.call, &mut self.draft);
        match way {
            Way::Host(length) => call.host = random.bytes(*length),
            Way::Realm(length) => call.realm = random.bytes(*length),
            Way::AnswerRoom(length) => call.answer_room.length = *length,
            Way::RequestRoom(length) => call.request_room.length = *length,
            Way::User(length) => call.user = random.bytes(*length),
            Way::Label(length) => call.label = random.bytes(*length),
            Way::Visited(length) => call.visited = random.bytes(*length),
            Way::Session(length) => {
                call.session = random.bytes(*length);
                if let Some(avp) = draft.avp(SESSION_ID) {
                    avp.value = call.session.clone();
                }
            }
            Way::OtherSession => other_session(&mut call.session, random),
            Way::NameToo => draft
                .avps
                .push(DraftAvp::new(USER_NAME, b"001010123456789")),
            Way::Message(Fault::TooOften(field)) => too_often(draft, field, 1, random),
            Way::Message(fault) => fault.apply_to(draft, random),
        }
    }

    /// One way of each check.
    fn apply_both(&mut self, checks: &[Vec<Way>; 2], random: &mut Random) {
        for ways in checks {
            self.apply(random.pick(ways), random);
        }
    }

    fn done(mut self) -> ReAuthCall {
        self.call.message = self.draft.bytes();
        self.call
    }
}

/// A Session-Id that differs in little, and still has 1 to 128 bytes.
fn other_session(session: &mut Vec<u8>, random: &mut Random) {
    let at = random.below(session.len());
    match (random.below(5), session.len()) {
        (0, 2..) => drop(session.pop()),
        (1, 2..) => drop(session.remove(0)),
        (2, ..128) => session.push(*random.pick(&[0, b'x'])),
        (3, 1..) => session[at] ^= 0x20,
        (_, 1..) => session[at] ^= 1 << random.below(8),
        (_, 0) => session.push(b's'),
    }
}

/// AVPs that are known and that the gateway asks nothing of, whatever they hold.
fn ignored(draft: &mut Draft, random: &mut Random) {
    const NAMES: [Name; 8] = [
        USER_NAME,
        AUTH_REQUEST_TYPE,
        TERMINATION_CAUSE,
        W_APN,
        SESSION_REQUEST_TYPE,
        ROUTING_POLICY,
        VISITED_NETWORK,
        PROXY_INFO,
    ];
    while random.once_in(2) {
        let length = *random.pick(&[0, 1, 4, 5, 130]);
        let names = [&NAMES[..], &known_and_ignored()];
        let names = *random.pick(&names);
        let name = *random.pick(names);
        let avp = DraftAvp::new(name, &random.bytes(length));
        draft.insert(random.below(20), avp);
    }
    if random.once_in(4) {
        let vendor = Some(*random.pick(&[0, 9, 10_415]));
        let code = RE_AUTH_REQUEST_TYPE.code;
        let mut beside = DraftAvp::number(Name { code, vendor }, 1);
        beside.flags = 0;
        draft.insert(random.below(20), beside);
    }
}

/// What is still to come of each sort of call.
pub struct ReAuthDecks {
    singles: Deck<Way>,
    pairs: Deck<[Vec<Way>; 2]>,
    early_pairs: Deck<[Vec<Way>; 2]>,
    within: Deck<Way>,
    edges: Deck<Vec<Way>>,
}

/// Every two of these checks.
fn pairs(checks: &[Vec<Way>]) -> Vec<[Vec<Way>; 2]> {
    let mut pairs = Vec::new();
    for (place, first) in checks.iter().enumerate() {
        let later = checks[place + 1..].iter();
        pairs.extend(later.map(|second| [first.clone(), second.clone()]));
    }
    pairs
}

impl Default for ReAuthDecks {
    fn default() -> ReAuthDecks {
        let checks = checks();
        ReAuthDecks {
            singles: Deck::new(checks.concat()),
            pairs: Deck::new(pairs(&checks)),
            early_pairs: Deck::new(pairs(&checks[..EARLY])),
            within: Deck::new(within()),
            edges: Deck::new(edges()),
        }
    }
}

/// A call of some sort.
pub fn re_auth_call(decks: &mut ReAuthDecks, random: &mut Random) -> ReAuthCall {
    let sort = random.below(12);
    call_of(sort, decks, random)
}

/// What the report asks for; it comes up in scripts alone.
const EDGE: usize = 12;

/// A call of this sort: one fault, two early ones, two, a limit, a long message, or damage.
fn call_of(sort: usize, decks: &mut ReAuthDecks, random: &mut Random) -> ReAuthCall {
    let mut making = Making::new(random);
    match sort {
        0..3 => making.apply(decks.singles.draw(random), random),
        3 => making.apply_both(decks.early_pairs.draw(random), random),
        4..8 => making.apply_both(decks.pairs.draw(random), random),
        8..10 => making.apply(decks.within.draw(random), random),
        EDGE => {
            for way in decks.edges.draw(random).clone() {
                making.apply(&way, random);
            }
        }
        10 => fill(
            &mut making.draft,
            *random.pick(&[4_096, 4_096, 4_100]),
            random,
        ),
        _ => {
            let mut call = making.done();
            for _ in 0..random.from_to(1, 3) {
                let at = random.below(call.message.len());
                call.message[at] ^= 1 << random.below(8);
            }
            return call;
        }
    }
    making.done()
}

/// Brings a message to a size with one long AVP at its end, which may be a Proxy-Info.
fn fill(draft: &mut Draft, size: usize, random: &mut Random) {
    let rest = size.saturating_sub(draft.bytes().len() + 8);
    let name = *random.pick(&[PROXY_INFO, base(25)]);
    draft.avps.push(DraftAvp::new(name, &random.bytes(rest)));
}

/// The calls of a round of a script: of each sort as many as let every card come up soon.
pub fn re_auths(recorder: &mut Recorder, decks: &mut ReAuthDecks, random: &mut Random) {
    for sort in [0, 0, 0, 0, 3, 4, 4, 8, 10, 11, EDGE, EDGE, EDGE, EDGE, EDGE] {
        let call = call_of(sort, decks, random);
        recorder.call(Operation::ReAuth(call), false);
    }
}

/// So many calls, the same for one seed on every machine.
pub fn re_auth_calls(seed: u64, count: usize) -> Vec<ReAuthCall> {
    let mut random = Random::new(seed);
    let mut decks = ReAuthDecks::default();
    (0..count)
        .map(|_| re_auth_call(&mut decks, &mut random))
        .collect()
}
