//! W7's board beside the server: as long as the board is fed call by call, a screen shows
//! connected at a place exactly if its Session-Id stands there in a sound row. The last
//! tests show what a sales desk must not do.

use std::collections::BTreeMap;

use oracle::board_calls::{request, result};
use oracle::cases::sound_row;
use oracle::drafts::Draft;
use oracle::handling::Call;
use oracle::random::Random;
use oracle::rules::DOCUMENT_01;
use oracle::set_up::{Account, NewEntry, NewRow};
use oracle::the_board::{
    ASKED, BoardRules, CONNECTED, CUT, Event, LONGEST, OFF, REQUEST_W7, Screen, TERMINATION,
    TYPE_0, TYPE_1,
};
use oracle::the_table::{Form, Row, decode, encode, row_at, rows, sound};
use oracle::{Code, Outcome, SUCCESS};

/// The board knows nothing of forms; the server's table has this one.
const FORM: Form = Form::Two;

/// A request as the board is told of it, and as it is sent.
struct Asked {
    which: u32,
    session: Vec<u8>,
    draft: Draft,
    wag: bool,
}

/// What the server made of it. `cut` is the Session-Id in the notice.
struct Answered {
    outcome: Outcome,
    cut: Option<Vec<u8>>,
}

/// A server's table and a board.
#[derive(Clone)]
struct Desk {
    rules: BoardRules,
    table: Vec<u8>,
    board: Vec<Screen>,
}

impl Desk {
    fn send(&mut self, asked: &Asked) -> Answered {
        let (mut answer_room, mut notice_room) = ([0; 5_120], [0; FORM.notice()]);
        let outcome = (DOCUMENT_01.handle)(
            &DOCUMENT_01,
            Call {
                form: FORM.number(),
                table: &mut self.table,
                operator: 0,
                host: b"aaa",
                realm: b"home",
                message: &asked.draft.bytes(),
                wag: asked.wag,
                answer_room: &mut answer_room,
                notice_room: &mut notice_room,
            },
        );
        let cut = outcome
            .cut
            .map(|[length, ..]| notice_room[..length].to_vec());
        Answered { outcome, cut }
    }

    fn feed(&mut self, session: &[u8], event: &Event) -> u32 {
        (self.rules.feed)(&self.rules, &mut self.board, session, event)
    }

    fn feed_request(&mut self, asked: &Asked) {
        self.feed(&asked.session, &request(asked.which));
    }

    fn feed_result(&mut self, asked: &Asked, answered: &Answered) {
        let Outcome { code, place, .. } = answered.outcome;
        let (number, kind) = (u32::from(code.number()), u32::from(code.kind()));
        let event = result(asked.which, number, kind, u32::from(place));
        self.feed(&asked.session, &event);
    }

    fn feed_notice(&mut self, answered: &Answered) {
        if let Some(session) = &answered.cut {
            self.feed(session, &Event::Notice);
        }
    }

    /// One call, and the board is fed with all of it.
    fn call(&mut self, asked: &Asked, notice_first: bool) -> Answered {
        self.feed_request(asked);
        let answered = self.send(asked);
        if notice_first {
            self.feed_notice(&answered);
        }
        self.feed_result(asked, &answered);
        if !notice_first {
            self.feed_notice(&answered);
        }
        answered
    }

    /// Every row that is sound, also one that no lookup finds.
    fn sound_rows(&self) -> Vec<Row> {
        rows(FORM, &self.table)
            .filter_map(|bytes| sound(&DOCUMENT_01, FORM, bytes))
            .collect()
    }

    /// A screen of the board whose state is not that of the table, if there is one.
    fn differs(&self) -> Option<&Screen> {
        let rows = self.sound_rows();
        let stands = |session: &[u8], place: u32| {
            let at = u8::try_from(place).unwrap_or(0);
            let holds = |row: &Row| row.access(at).is_some_and(|a| a.session == session);
            rows.iter().any(holds)
        };
        let agrees = |screen: &&Screen| {
            let session = screen.named().unwrap_or_default();
            let shows = |place: u32| screen.shown() == (CONNECTED, place);
            let elsewhere = screen.state == CONNECTED && !(1..=8).contains(&screen.place);
            !elsewhere && (1..=8).all(|place| shows(place) == stands(session, place))
        };
        self.board.iter().find(|screen| !agrees(screen))
    }

    /// A Session-Id of the board stands in two sound rows.
    fn shared(&self) -> bool {
        let rows = self.sound_rows();
        let holders = |screen: &Screen| {
            let session = screen.named().unwrap_or_default();
            rows.iter()
                .filter(|r| r.place_of(session).is_some())
                .count()
        };
        self.board.iter().any(|screen| holders(screen) > 1)
    }

    fn shown(&self, session: &[u8]) -> (u32, u32) {
        let named = |screen: &&Screen| screen.named() == Some(session);
        self.board.iter().find(named).map_or((9, 9), Screen::shown)
    }
}

fn screen(session: &[u8], state: u32, place: u32) -> Screen {
    let mut screen = Screen {
        state,
        place,
        length: session.len() as u32,
        session: [0; LONGEST],
    };
    screen.session[..session.len()].copy_from_slice(session);
    screen
}

/// Twenty-four Session-Ids, among them some of 1 and of 128 bytes, and beginnings of others.
fn pool() -> Vec<Vec<u8>> {
    let mut pool: Vec<Vec<u8>> = (0..16).map(|n| format!("pdg;{n}").into_bytes()).collect();
    pool.extend([
        b"p".to_vec(),
        b"P".to_vec(),
        b"pdg".to_vec(),
        b"pdg;".to_vec(),
    ]);
    for length in [127, 128] {
        pool.extend([vec![b'x'; length], vec![b'y'; length]]);
    }
    pool
}

/// Accounts with accesses from the pool, no Session-Id twice; a row that no lookup finds, a
/// damaged one that holds Session-Ids too, and a free one.
fn table(random: &mut Random) -> Vec<u8> {
    let mut left = pool();
    random.shuffle(&mut left);
    let mut table = Vec::new();
    for name in [b"1", b"2", b"3", b"1"] {
        let mut row = sound_row(FORM, name, random);
        row.entries.iter_mut().for_each(|e| e.flags &= 2);
        for place in 1..=8 {
            let taken = row.access(place).is_some() && random.once_in(2);
            match taken.then(|| left.pop()).flatten() {
                Some(session) => {
                    let access = row.places[usize::from(place) - 1].as_mut();
                    access.into_iter().for_each(|a| a.session = session.clone());
                }
                None => drop(row.free(place)),
            }
        }
        table.extend(encode(&DOCUMENT_01, FORM, &row));
    }
    let mut damaged = table[..FORM.row()].to_vec();
    damaged[2] = b'4';
    table.extend(damaged);
    table.extend([0; FORM.row()]);
    table
}

/// A board that agrees with the table: what does not stand there is off, asked or cut.
fn board(table: &[u8], random: &mut Random) -> Vec<Screen> {
    let rows: Vec<Row> = rows(FORM, table)
        .filter_map(|bytes| sound(&DOCUMENT_01, FORM, bytes))
        .collect();
    let mut sessions = pool();
    random.shuffle(&mut sessions);
    sessions.truncate(random.from_to(1, 24));
    let one = |session: &Vec<u8>| {
        let place = rows.iter().find_map(|row| row.place_of(session));
        let other = *random.pick(&[OFF, OFF, ASKED, CUT]);
        let state = place.map_or(other, |_| CONNECTED);
        screen(session, state, place.map_or(0, u32::from))
    };
    sessions.iter().map(one).collect()
}

/// A request of some account, now and then about an access that it has, now and then one
/// that can not be read.
fn next_request(desk: &Desk, random: &mut Random) -> Asked {
    let rows = desk.sound_rows();
    let row = random.pick(&rows);
    let mut name = row.name.clone();
    let mut session = random.pick(&pool()).clone();
    let mut label = match row.entries.is_empty() {
        true => b"none".to_vec(),
        false => random.pick(&row.entries).label.clone(),
    };
    let which = *random.pick(&[TYPE_0, TYPE_0, TYPE_0, TYPE_1, TERMINATION, TERMINATION]);
    let own = row.line.get(random.below(row.line.len()));
    if let Some(access) = own.and_then(|&place| row.access(place))
        && which != TYPE_0
        && !random.once_in(3)
    {
        session = access.session.clone();
        label = row.entries[usize::from(access.entry) - 1].label.clone();
    }
    match random.below(30) {
        0 => name = b"4".to_vec(),
        1 => name = b"77".to_vec(),
        2 => label = b"nowhere".to_vec(),
        _ => (),
    }
    let mut asked = asked(which, &name, &session, &label);
    asked.wag = random.once_in(2);
    match random.below(30) {
        0 => asked.draft.version = 2,
        1 => asked.draft.flags = 0,
        2 => asked.draft.application = 9,
        3 => drop(asked.draft.avps.pop()),
        _ => (),
    }
    asked
}

fn asked(which: u32, name: &[u8], session: &[u8], label: &[u8]) -> Asked {
    let draft = match which {
        TYPE_0 => Draft::open(name, session, b"pdg", label),
        TYPE_1 => Draft::policy(name, session, b"pdg", b"policy"),
        _ => Draft::termination(name, session, b"pdg", label),
    };
    Asked {
        which,
        session: session.to_vec(),
        draft,
        wag: false,
    }
}

/// A subscriber of operator 0, whose share is the whole table.
fn enter(table: &mut [u8], name: &[u8]) -> u8 {
    let mut shares = [0; 16];
    shares[0] = (table.len() / FORM.row()) as u32;
    let new = NewRow {
        operator: 0,
        shares: &shares,
        name,
    };
    (DOCUMENT_01.enter)(&DOCUMENT_01, FORM.number(), table, &new)
}

/// Entering and adding move no access.
fn set_up(table: &mut [u8], random: &mut Random) {
    let name = [b'0' + random.below(10) as u8];
    enter(table, &name);
    let label = [b'l', random.byte()];
    let new = NewEntry {
        label: &label,
        limit: random.from_to(1, 8) as u8,
        flags: 0,
    };
    let account = Account {
        operator: 0,
        name: &name,
    };
    (DOCUMENT_01.add)(&DOCUMENT_01, FORM.number(), table, &account, &new);
}

/// Things that a run has to meet.
const WANTED: &[&str] = &[
    "connected",
    "connected again after a cut",
    "connected for another account",
    "cut, its notice before the result",
    "cut, its notice behind the result",
    "cut of a screen on no entry",
    "off after a refusal",
    "off after no answer",
    "off after a termination",
    "connected through a refusal",
    "a request on no entry",
    "not sent, two accounts would share it",
    "connected in a row that no lookup finds",
    "dark, and in a damaged row",
];

/// What came up in runs, and the first call after which board and table differed.
#[derive(Default)]
struct Ran {
    calls: usize,
    came: BTreeMap<&'static str, usize>,
    owner: BTreeMap<Vec<u8>, Vec<u8>>,
    differed: Option<usize>,
}

impl Ran {
    fn note(&mut self, when: bool, what: &'static str) {
        if when {
            *self.came.entry(what).or_default() += 1;
        }
    }

    fn note_call(&mut self, before: &Desk, after: &Desk, asked: &Asked, answered: &Answered) {
        let session = &asked.session;
        let (was, is) = (before.shown(session).0, after.shown(session).0);
        let code = answered.outcome.code;
        let connected = is == CONNECTED && answered.outcome.place != 0;
        self.note(connected, "connected");
        self.note(connected && was == CUT, "connected again after a cut");
        if connected {
            let user = asked.draft.avps[7].value.clone();
            let last = self.owner.insert(session.clone(), user.clone());
            let other = last.is_some_and(|last| last != user);
            self.note(other, "connected for another account");
        }
        let refused = asked.which == TYPE_0 && code != SUCCESS;
        let silent = matches!(code, Code::NoAnswer(_));
        let off = is == OFF && refused;
        self.note(off && !silent, "off after a refusal");
        self.note(off && silent, "off after no answer");
        let ended = asked.which == TERMINATION && is == OFF && was == CONNECTED;
        self.note(ended, "off after a termination");
        self.note(refused && is == CONNECTED, "connected through a refusal");
        self.note(was == 9, "a request on no entry");
    }

    /// Rows 3 and 4 are the one that no lookup finds and the damaged one.
    fn note_rows(&mut self, desk: &Desk) {
        let rows =
            [3, 4].map(|index| decode(FORM, row_at(FORM, &desk.table, index)).unwrap_or_default());
        for screen in &desk.board {
            let session = screen.named().unwrap_or_default();
            let [hidden, damaged] = rows.each_ref().map(|row| row.place_of(session).is_some());
            let lit = screen.state == CONNECTED;
            self.note(lit && hidden, "connected in a row that no lookup finds");
            self.note(!lit && damaged, "dark, and in a damaged row");
        }
    }

    fn note_cut(&mut self, before: &Desk, answered: &Answered, notice_first: bool) {
        let Some(session) = &answered.cut else {
            return;
        };
        let there = before.shown(session).0 == CONNECTED;
        self.note(!there, "cut of a screen on no entry");
        self.note(there && notice_first, "cut, its notice before the result");
        self.note(there && !notice_first, "cut, its notice behind the result");
    }

    /// A run from a table and a board that agree, each call fed whole before the next.
    fn run(&mut self, rules: BoardRules, seed: u64, calls: usize) {
        let mut random = Random::new(seed);
        let table = table(&mut random);
        let board = board(&table, &mut random);
        let mut desk = Desk {
            rules,
            table,
            board,
        };
        self.owner.clear();
        assert!(desk.differs().is_none() && !desk.shared());
        for _ in 0..calls {
            if random.once_in(40) {
                set_up(&mut desk.table, &mut random);
            }
            let asked = next_request(&desk, &mut random);
            let notice_first = random.once_in(2);
            let before = desk.clone();
            let answered = desk.call(&asked, notice_first);
            if desk.shared() {
                self.note(true, "not sent, two accounts would share it");
                desk = before;
                continue;
            }
            self.calls += 1;
            self.note_call(&before, &desk, &asked, &answered);
            self.note_cut(&before, &answered, notice_first);
            self.note_rows(&desk);
            if desk.differs().is_some() {
                self.differed.get_or_insert(self.calls);
                return;
            }
        }
    }
}

const RUNS: u64 = 40;
const CALLS: usize = 250;

#[test]
fn connected_exactly_if_it_stands() {
    let mut ran = Ran::default();
    for seed in 0..RUNS {
        ran.run(REQUEST_W7, seed, CALLS);
        assert_eq!(ran.differed, None, "seed {seed}");
    }
    println!("{} calls: {:?}", ran.calls, ran.came);
    for what in WANTED {
        assert!(ran.came.contains_key(what), "{what} never came up");
    }
}

fn wrong_boards() -> [(&'static str, BoardRules); 5] {
    let w7 = REQUEST_W7;
    [
        (
            "a notice is passed over",
            BoardRules {
                after: |rules, held, event| match event {
                    Event::Notice => held,
                    _ => (REQUEST_W7.after)(rules, held, event),
                },
                ..w7
            },
        ),
        (
            "a cut screen is not asked again",
            BoardRules {
                after: |rules, held, event| match (held.0, event) {
                    (CUT, Event::Request { .. }) => held,
                    _ => (REQUEST_W7.after)(rules, held, event),
                },
                ..w7
            },
        ),
        (
            "a request puts a connected screen to asked",
            BoardRules {
                after: |rules, held, event| match (held.0, event) {
                    (CONNECTED, Event::Request { which: TYPE_0 }) => (ASKED, 0),
                    _ => (REQUEST_W7.after)(rules, held, event),
                },
                ..w7
            },
        ),
        (
            "a termination that was refused sets off",
            BoardRules {
                after: |rules, held, event| match event {
                    Event::Result {
                        which: TERMINATION, ..
                    } => (OFF, 0),
                    _ => (REQUEST_W7.after)(rules, held, event),
                },
                ..w7
            },
        ),
        (
            "the first entry that begins with it",
            BoardRules {
                entry_of: |list, session| {
                    let begins = |s: &Screen| s.named().is_some_and(|t| t.starts_with(session));
                    list.iter().position(begins)
                },
                ..w7
            },
        ),
    ]
}

/// The run tells a board that goes wrong.
#[test]
fn the_run_tells_wrong_boards() {
    for (name, rules) in wrong_boards() {
        let mut ran = Ran::default();
        for seed in 0..RUNS {
            ran.run(rules, seed, CALLS);
            if ran.differed.is_some() {
                break;
            }
        }
        assert!(ran.differed.is_some(), "{name} is not told");
    }
}

/// Accounts 1 and 2 with "board" of limit 2, and a board with three screens that are off.
fn small_desk() -> Desk {
    let mut table = vec![0; 2 * FORM.row()];
    for name in [b"1", b"2"] {
        assert_eq!(enter(&mut table, name), 0);
        let new = NewEntry {
            label: b"board",
            limit: 2,
            flags: 0,
        };
        let account = Account { operator: 0, name };
        assert_eq!(
            (DOCUMENT_01.add)(&DOCUMENT_01, FORM.number(), &mut table, &account, &new),
            0
        );
    }
    let board = [b"a", b"b", b"c"].map(|session| screen(session, OFF, 0));
    Desk {
        rules: REQUEST_W7,
        table,
        board: board.to_vec(),
    }
}

fn open(name: &[u8], session: &[u8], label: &[u8]) -> Asked {
    asked(TYPE_0, name, session, label)
}

fn end(name: &[u8], session: &[u8]) -> Asked {
    asked(TERMINATION, name, session, b"board")
}

/// Asked, connected, cut; the board agrees all the way.
#[test]
fn the_worked_cases_on_a_board() {
    let mut desk = small_desk();
    let shown = |desk: &Desk| [b"a", b"b", b"c"].map(|session| desk.shown(session));
    let off = (OFF, 0);
    let way = [
        (open(b"1", b"a", b"board"), [(CONNECTED, 1), off, off]),
        (
            open(b"1", b"b", b"board"),
            [(CONNECTED, 1), (CONNECTED, 2), off],
        ),
        (
            open(b"1", b"c", b"board"),
            [(CUT, 0), (CONNECTED, 2), (CONNECTED, 1)],
        ),
        (
            open(b"1", b"b", b"board"),
            [(CUT, 0), (CONNECTED, 2), (CONNECTED, 1)],
        ),
        (end(b"1", b"c"), [(CUT, 0), (CONNECTED, 2), off]),
        (end(b"1", b"a"), [(CUT, 0), (CONNECTED, 2), off]),
    ];
    for (asked, expected) in way {
        desk.call(&asked, true);
        assert_eq!(shown(&desk), expected);
        assert!(desk.differs().is_none());
    }
}

/// Two accounts hold one Session-Id: the board has one entry for both.
#[test]
fn two_accounts_with_one_session_id() {
    let mut desk = small_desk();
    desk.call(&open(b"2", b"b", b"board"), false);
    desk.call(&open(b"1", b"a", b"board"), false);
    assert!(desk.differs().is_none());
    let second = desk.call(&open(b"2", b"a", b"board"), false);
    assert_eq!((second.outcome.code, second.outcome.place), (SUCCESS, 2));
    assert!(desk.shared());
    // It stands at places 1 and 2, and shows one of them.
    assert_eq!(desk.shown(b"a"), (CONNECTED, 1));
    assert!(desk.differs().is_some());
    // One of the two ends, and the screen is dark though the other stands.
    desk.call(&end(b"2", b"a"), false);
    assert!(!desk.shared());
    assert_eq!(desk.shown(b"a"), (OFF, 0));
    assert!(desk.differs().is_some());
}

/// A request is fed before the result of an earlier one: that result, a refusal, puts the
/// screen off, and the success that follows finds nothing asked.
#[test]
fn a_request_before_an_earlier_result() {
    let mut desk = small_desk();
    let (first, second) = (open(b"1", b"a", b"yard"), open(b"1", b"a", b"board"));
    desk.feed_request(&first);
    desk.feed_request(&second);
    let answers = [desk.send(&first), desk.send(&second)];
    desk.feed_result(&first, &answers[0]);
    assert_eq!(desk.shown(b"a"), (OFF, 0));
    assert_eq!(answers[1].outcome.place, 1);
    desk.feed_result(&second, &answers[1]);
    assert_eq!(desk.shown(b"a"), (OFF, 0));
    assert!(desk.differs().is_some() && !desk.shared());
    // Call by call the same two leave it connected.
    let mut desk = small_desk();
    desk.call(&first, false);
    desk.call(&second, false);
    assert_eq!(desk.shown(b"a"), (CONNECTED, 1));
    assert!(desk.differs().is_none());
}

/// A notice is fed after a later call has opened its Session-Id again.
#[test]
fn a_notice_behind_a_later_result() {
    let mut desk = small_desk();
    desk.call(&open(b"1", b"a", b"board"), false);
    desk.call(&open(b"1", b"b", b"board"), false);
    let third = open(b"1", b"c", b"board");
    desk.feed_request(&third);
    let answered = desk.send(&third);
    desk.feed_result(&third, &answered);
    desk.call(&open(b"1", b"a", b"board"), false);
    desk.feed_notice(&answered);
    assert_eq!(desk.shown(b"a"), (CUT, 0));
    assert!(desk.differs().is_some() && !desk.shared());
}

/// A state that does not exist, which C can lend, is never asked, so never connected.
#[test]
fn a_state_that_does_not_exist() {
    let mut desk = small_desk();
    desk.board[0].state = 4;
    assert!(desk.differs().is_none());
    let answered = desk.call(&open(b"1", b"a", b"board"), false);
    assert_eq!(answered.outcome.place, 1);
    assert_eq!(desk.shown(b"a"), (4, 0));
    assert!(desk.differs().is_some());
}
