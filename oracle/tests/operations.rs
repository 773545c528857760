//! What holds for every call: refusals change nothing, sound rows stay sound, no input
//! of any size stops the program, and subscribers do not touch each other.

use oracle::drafts::{Draft, DraftAvp};
use oracle::generator::{add, enter, generate, request};
use oracle::handling::Call;
use oracle::operators::all_rows;
use oracle::program::{Asked, Operation, Room, Seen, perform};
use oracle::random::Random;
use oracle::reading_a_message::PROXY_INFO;
use oracle::rules::DOCUMENT_01;
use oracle::script::{Changes, Record, judge};
use oracle::set_up::{Account, NewEntry, NewRow};
use oracle::the_table::{FORMS, Form, find, row_at, sound};

fn run(operation: &Operation, table: &mut [u8]) -> Seen {
    perform(&mut DOCUMENT_01.clone(), operation, table)
}

/// Whether a call ended in success: number 0 of a set-up, or 2001. Judging writes what is due
/// whatever it says of the old server.
fn succeeded(operation: &Operation, seen: &Seen) -> bool {
    match operation {
        Operation::Handle(_) | Operation::ReAuth(_) => seen.numbers[0] == 2001,
        Operation::Answered(_) => seen.numbers[0] == 1,
        Operation::Judge(_) => [0, 31, 32].contains(&seen.numbers[0]),
        _ => seen.numbers[0] == 0,
    }
}

/// Goes through generated calls with the table before and after each.
fn each_call(seed: u64, calls: usize, look: impl Fn(&Operation, &Seen, &[u8], &[u8])) {
    let mut table = Vec::new();
    for record in generate(seed, calls).records {
        match &record {
            Record::Call(operation, _) => {
                let before = table.clone();
                let seen = run(operation, &mut table);
                look(operation, &seen, &before, &table);
            }
            other => judge(&mut DOCUMENT_01.clone(), other, &mut table).unwrap(),
        }
    }
}

#[test]
fn refusals_change_nothing() {
    each_call(21, 4_000, |operation, seen, before, after| {
        if succeeded(operation, seen) {
            return;
        }
        assert!(before == after, "{operation:?}");
        assert_eq!(seen.numbers[3..], [0; 5]);
        if let Operation::Move { target, .. } = operation {
            assert!(seen.answer_room == target.fresh());
        }
        if let Operation::Abort(aborting) = operation {
            assert_eq!(seen.numbers[2], 0);
            assert!(seen.answer_room == aborting.room.fresh());
        }
        if let Operation::ReAuth(call) = operation {
            assert!(seen.notice_room == call.request_room.fresh());
        }
        if let Operation::Burst(asked) = operation {
            assert_eq!(seen.numbers[1..3], [0; 2]);
            assert!(seen.answer_room == asked.answer_room.fresh());
            assert!(seen.notice_room == asked.notice_room.fresh());
            assert!(seen.results == asked.fresh_places());
        }
        if let Operation::Judge(judging) = operation {
            assert!(seen.answer_room == judging.asked.answer_room.fresh());
            assert!(seen.notice_room == judging.asked.notice_room.fresh());
        }
        if let Operation::Handle(asked) = operation {
            assert!(seen.notice_room == asked.notice_room.fresh());
            let answer = asked.answer_room.fresh();
            let length = seen.numbers[2] as usize;
            assert_eq!(length == 0, seen.numbers[1] == 0);
            assert!(seen.answer_room[length..] == answer[length..]);
        }
    });
}

#[test]
fn sound_rows_stay_sound() {
    each_call(22, 4_000, |operation, _, before, after| {
        let Some(form) = operation.form().and_then(Form::numbered) else {
            return;
        };
        if is_clear(operation) || before.len() > 64 * form.row() {
            return;
        }
        let row = form.row();
        for (was, is) in before.chunks_exact(row).zip(after.chunks_exact(row)) {
            if was != is {
                let entered = was.iter().all(|&b| b == 0);
                assert!(entered || sound(&DOCUMENT_01, form, was).is_some());
                assert!(sound(&DOCUMENT_01, form, is).is_some(), "{operation:?}");
            }
        }
    });
}

#[test]
fn only_one_row_changes() {
    each_call(23, 3_000, |operation, _, before, after| {
        let form = operation.form().and_then(Form::numbered);
        let row = form.map_or(1, Form::row);
        let rows = before.chunks(row).zip(after.chunks(row));
        let changed = rows.filter(|(was, is)| was != is).count();
        assert!(changed <= 1 || changes_many(operation));
    });
}

fn changes_many(operation: &Operation) -> bool {
    is_clear(operation) || matches!(operation, Operation::Burst(_))
}

fn is_clear(operation: &Operation) -> bool {
    matches!(operation, Operation::Clear { .. })
}

const SIZES: [usize; 15] = [
    0, 1, 7, 8, 19, 20, 21, 24, 128, 129, 255, 256, 4_096, 5_120, 9_000,
];

/// Names of megabytes, rooms of nothing: number 1 or 2, and nothing changes.
#[test]
fn no_size_stops_a_request() {
    let long = vec![b'7'; 3 << 20];
    for (size, other) in SIZES.iter().flat_map(|&a| SIZES.map(|b| (a, b))) {
        let (mut answer_room, mut notice_room) = (vec![1; other], vec![2; size]);
        let form = FORMS[size % 2];
        let mut table = vec![0xFF; form.row() * (size % 3) + other % 2];
        let call = Call {
            form: form.number(),
            table: &mut table,
            operator: size as u32 % 16,
            host: &long[..size],
            realm: &long,
            message: &long[..other],
            wag: true,
            answer_room: &mut answer_room,
            notice_room: &mut notice_room,
        };
        let outcome = (DOCUMENT_01.handle)(&DOCUMENT_01, call);
        assert!([1, 2].contains(&outcome.code.number()));
        assert_eq!(answer_room, vec![1; other]);
        assert_eq!(notice_room, vec![2; size]);
    }
}

#[test]
fn no_size_stops_a_set_up() {
    let rules = &DOCUMENT_01;
    let long = vec![b'7'; 3 << 20];
    for (size, form) in SIZES
        .into_iter()
        .flat_map(|size| FORMS.map(|form| (size, form)))
    {
        let said = form.number();
        let mut table = vec![0; form.row()];
        let name = &long[..size];
        let right = if (1..=15).contains(&size) { 0 } else { 9 };
        let shares = &all_rows(form, &table, 3);
        let subscriber = NewRow {
            operator: 3,
            shares,
            name,
        };
        assert_eq!((rules.enter)(rules, said, &mut table, &subscriber), right);
        let many = &vec![0; size + 17];
        let subscriber = NewRow {
            shares: many,
            ..subscriber
        };
        assert_eq!((rules.enter)(rules, said, &mut table, &subscriber), 26);
        let label = name;
        let (limit, flags) = (size as u8, 0);
        let new = NewEntry {
            label,
            limit,
            flags,
        };
        let nobody = Account {
            operator: 3,
            name: &long,
        };
        assert_eq!((rules.add)(rules, said, &mut table, &nobody, &new), 12);
        let part = size.min(form.row() - 1);
        assert_eq!((rules.clear)(rules, said, &mut table[..part]), 1);
        let mut target = vec![7; size];
        let number = (rules.move_table)(rules, &table, &mut target, form.other().number());
        assert_eq!((number, target), (19, vec![7; size]));
    }
}

/// The longest answer: all names as long as may be, and the rest of a message of
/// 4,096 bytes is one Proxy-Info, which comes back although the lists fail.
#[test]
fn the_longest_answer_fits() {
    let mut draft = Draft::open(b"1", &[b's'; 128], b"pdg", b"board");
    draft.avps.truncate(1);
    draft
        .avps
        .push(DraftAvp::new(PROXY_INFO, &[7; 4_096 - 20 - 136 - 8]));
    let Operation::Handle(asked) = ask(draft.bytes()) else {
        return;
    };
    let own = vec![b'o'; 128];
    let (host, realm) = (own.clone(), own);
    let operation = Operation::Handle(Asked {
        host,
        realm,
        ..asked
    });
    let seen = run(&operation, &mut [0; Form::One.row()]);
    let length = 20 + 136 + 24 + 12 + 136 + 136 + (4_096 - 20 - 136);
    assert_eq!(seen.numbers, [5005, 1, length, 0, 0, 0, 0, 0]);
    assert_eq!(seen.answer_room[1..4], length.to_be_bytes()[1..]);
}

/// Random rows and random messages behind a good header: answered, nothing changed.
#[test]
fn chance_does_not_stop_the_program() {
    let mut random = Random::new(24);
    for _ in 0..3_000 {
        let length = random.below(60) * 4;
        let mut message = vec![
            1, 0, 0, 0, 0x80, 0, 1, 9, 0, 0, 0, 1, 0, 0, 0, 0, 0, 0, 0, 0,
        ];
        message.extend(random.bytes(length));
        let size = (message.len() as u32).to_be_bytes();
        message[1..4].copy_from_slice(&size[1..]);
        let form = *random.pick(&FORMS);
        let mut table = random.bytes(form.row());
        let before = table.clone();
        let seen = run(&ask(message).saying(form.number()), &mut table);
        assert_eq!(seen.numbers[1], 1);
        assert!(table == before);
    }
}

fn ask(message: Vec<u8>) -> Operation {
    let seed = 3;
    Operation::Handle(Asked {
        form: 1,
        operator: 0,
        host: b"h".to_vec(),
        realm: b"r".to_vec(),
        message,
        wag: true,
        answer_room: Room {
            length: 5_120,
            seed,
        },
        notice_room: Room { length: 384, seed },
    })
}

// ---- Order between subscribers ----------------------------------------------------

/// Operators and their names, one of which two of them have.
const SUBSCRIBERS: [(u32, &[u8]); 4] = [(0, b"001"), (7, b"001"), (0, b"0010"), (15, b"999")];

/// A table with four subscribers, each with two W-APNs.
fn four_subscribers(form: Form) -> Vec<u8> {
    let mut table = vec![0; 5 * form.row()];
    let shares = [2, 0, 0, 0, 0, 0, 0, 1, 0, 0, 0, 0, 0, 0, 0, 1];
    for (operator, name) in SUBSCRIBERS {
        for operation in [
            enter(form, operator, &shares, name),
            add(form, operator, name, b"board", 2, 2),
            add(form, operator, name, b"yard", 3, 0),
        ] {
            assert_eq!(run(&operation, &mut table).numbers[0], 0);
        }
    }
    table
}

/// Requests of one subscriber, some of which can not be read as far as the name.
fn requests_of(form: Form, (operator, name): (u32, &[u8]), random: &mut Random) -> Vec<Operation> {
    let one = |random: &mut Random| {
        let session = [*random.pick(b"abcdefgh")];
        let label: &[u8] = if random.once_in(2) { b"board" } else { b"yard" };
        let mut draft = match random.below(6) {
            0 => Draft::policy(name, &session, b"pdg", b"permit out 50"),
            1 => Draft::termination(name, &session, b"pdg", label),
            _ => Draft::open(name, &session, b"pdg", label),
        };
        if random.once_in(10) {
            draft.flags |= 1 << random.below(6);
        }
        if random.once_in(10) {
            draft.avps.truncate(random.below(10));
        }
        request(form, operator, &draft, random.once_in(2), random)
    };
    (0..30).map(|_| one(random)).collect()
}

/// Handles lists in an order of chance that keeps each list's own order; gives each
/// list's results, and the table.
fn mixed(form: Form, lists: &[Vec<Operation>], random: &mut Random) -> (Vec<Vec<Seen>>, Vec<u8>) {
    let mut table = four_subscribers(form);
    let mut turns: Vec<usize> = Vec::new();
    for (turn, list) in lists.iter().enumerate() {
        turns.extend(vec![turn; list.len()]);
    }
    random.shuffle(&mut turns);
    let mut results = vec![Vec::new(); lists.len()];
    for turn in turns {
        let next = results[turn].len();
        let seen = run(&lists[turn][next], &mut table);
        results[turn].push(seen);
    }
    (results, table)
}

#[test]
fn order_between_subscribers_does_not_matter() {
    let mut random = Random::new(25);
    for turn in 0..16 {
        let form = FORMS[turn % 2];
        let lists: Vec<_> = SUBSCRIBERS
            .map(|subscriber| requests_of(form, subscriber, &mut random))
            .into();
        let first = mixed(form, &lists, &mut random);
        for _ in 0..4 {
            assert!(mixed(form, &lists, &mut random) == first);
        }
        alone(form, &lists, &first);
    }
}

/// Each subscriber's requests alone give the same answers and the same row.
fn alone(form: Form, lists: &[Vec<Operation>], (results, table): &(Vec<Vec<Seen>>, Vec<u8>)) {
    for (turn, (operator, name)) in SUBSCRIBERS.into_iter().enumerate() {
        let mut own = four_subscribers(form);
        let seen: Vec<Seen> = lists[turn].iter().map(|o| run(o, &mut own)).collect();
        assert!(seen == results[turn]);
        let index = find(form, table, operator, name).unwrap();
        assert!(row_at(form, &own, index) == row_at(form, table, index));
    }
}

/// Calls on tables that are not small are seldom summed up, but always in the end.
#[test]
fn every_table_is_summed_up_before_it_goes() {
    let mut digested = true;
    for record in generate(26, 6_000).records {
        match record {
            Record::SetTable(_) => assert!(std::mem::replace(&mut digested, true)),
            Record::Patch { .. } => (),
            Record::Call(_, expected) => {
                digested = expected.digests.is_some() || expected.changes == Changes::AllZero;
            }
        }
    }
}
