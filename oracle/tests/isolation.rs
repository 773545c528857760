//! What one operator may learn of another (W8): searched for counterexamples on pairs of
//! histories of one operator's calls among those of others, bursts too.

use oracle::burst::{self, Taken, take, whole_messages};
use oracle::burst_calls::{BurstCall, Written};
use oracle::deciding::USER_UNKNOWN;
use oracle::drafts::Draft;
use oracle::generator::{add, enter, generate, request};
use oracle::operators::all_rows;
use oracle::program::{Bursting, Operation, Room, Seen, perform};
use oracle::random::Random;
use oracle::rules::{DOCUMENT_01, Rules};
use oracle::script::{Record, judge};
use oracle::set_up::own_rows;
use oracle::the_table::{
    CONDITIONS, FORMS, Form, OPERATOR, Row, bears, encode, is_of, rows, sound,
};

/// An operator's call; what it enters goes under the shares of the history.
#[derive(Clone)]
enum Step {
    Enter(Vec<u8>),
    Other(Operation),
    /// Its table is that of the history.
    Burst(BurstCall),
}

/// What a call told; of a burst what it wrote besides the table.
#[derive(PartialEq)]
enum Told {
    Call(Seen),
    Burst(Taken, Written),
}

/// Two histories: the same calls of one operator, each among other calls of others.
struct Pair {
    form: Form,
    operator: u32,
    rows: usize,
    shares: [Vec<u32>; 2],
    histories: [Vec<(u32, Step)>; 2],
}

const NAMES: [&[u8]; 4] = [b"1", b"12", b"001010123456789", b"12a"];
const LABELS: [&[u8]; 2] = [b"board", b"yard"];

/// A call of this operator by chance, on few names, labels and sessions.
fn step(form: Form, operator: u32, random: &mut Random) -> Step {
    match random.below(10) {
        0..3 => Step::Enter(random.pick(&NAMES).to_vec()),
        3 | 4 => {
            let (name, label) = (*random.pick(&NAMES), *random.pick(&LABELS));
            let limit = 1 + random.below(2) as u8;
            Step::Other(add(form, operator, name, label, limit, 2))
        }
        5..9 => {
            let name = *random.pick(&NAMES);
            let draft = some_request(name, random);
            Step::Other(request(form, operator, &draft, random.once_in(2), random))
        }
        _ => {
            let name = *random.pick(&NAMES);
            Step::Burst(some_burst(form, operator, name, random))
        }
    }
}

fn some_request(name: &[u8], random: &mut Random) -> Draft {
    let label = *random.pick(&LABELS);
    let session = [*random.pick(b"abc")];
    match random.below(4) {
        0 => Draft::policy(name, &session, b"pdg", b"permit"),
        1 => Draft::termination(name, &session, b"pdg", label),
        _ => Draft::open(name, &session, b"pdg", label),
    }
}

/// Some requests in one call, most for one subscriber, now and then with too little room
/// or a place too few.
fn some_burst(form: Form, operator: u32, usual: &[u8], random: &mut Random) -> BurstCall {
    let count = random.from_to(0, 4);
    let mut messages = Vec::new();
    for _ in 0..count {
        let mut draft = match random.below(4) {
            0 => some_request(NAMES[random.below(4)], random),
            1 => some_request(usual, random),
            _ => Draft::open(usual, &[*random.pick(b"abc")], b"pdg", LABELS[0]),
        };
        draft.version += u8::from(random.once_in(9));
        messages.extend(draft.bytes());
    }
    // The last one is cut off now and then.
    if random.once_in(3) {
        messages.pop();
    }
    let (answer, notice) = (5_120, form.notice());
    let few = random.below(700);
    let seed = random.byte();
    let asked = Bursting {
        form: form.number(),
        operator,
        host: b"aaa.home.example".to_vec(),
        realm: b"home.example".to_vec(),
        messages,
        wags: (0..count).map(|_| random.byte() % 3).collect(),
        answer_room: Room {
            length: *random.pick(&[answer * count, answer * count, answer + few]) as u32,
            seed,
        },
        notice_room: Room {
            length: *random.pick(&[notice * count, notice * count, notice]) as u32,
            seed,
        },
        places: count - usize::from(count > 0 && random.once_in(8)),
    };
    BurstCall {
        table: Vec::new(),
        asked,
    }
}

/// Shares that have this one for the operator and this sum.
fn shares(operator: u32, own: u32, sum: u32, random: &mut Random) -> Vec<u32> {
    let mut shares = vec![0; 16];
    shares[operator as usize] = own;
    for _ in own..sum {
        let far = *random.pick(&[2, 15]);
        let near = random.from_to(1, far);
        shares[(operator as usize + near) % 16] += 1;
    }
    shares
}

/// The operator's calls, and those of others among them: three in a row at most.
fn history(form: Form, operator: u32, own: &[Step], random: &mut Random) -> Vec<(u32, Step)> {
    let mut all = Vec::new();
    let others = random.below(4);
    for mine in own.iter().map(Some).chain([None]) {
        for _ in 0..random.below(others + 1) {
            let another = (operator + random.from_to(1, 2) as u32) % 16;
            let another = if random.once_in(9) { 16 } else { another };
            all.push((another, step(form, another, random)));
        }
        all.extend(mine.map(|step| (operator, step.clone())));
    }
    all
}

fn pair(random: &mut Random) -> Pair {
    let form = *random.pick(&FORMS);
    let operator = random.below(16) as u32;
    let rows = random.from_to(1, 5);
    let over = usize::from(random.once_in(8));
    let sum = random.from_to(0, rows + over) as u32;
    let half = sum as usize / 2 * random.below(3).min(1);
    let own = random.from_to(half, sum as usize) as u32;
    let mut mine: Vec<Step> = (0..random.from_to(1, 20))
        .map(|_| step(form, operator, random))
        .collect();
    // Half the time there is somebody whose accesses can be cut.
    if random.once_in(2) {
        let name = *random.pick(&NAMES);
        let board = add(form, operator, name, LABELS[0], 1, 2);
        mine.splice(0..0, [Step::Enter(name.to_vec()), Step::Other(board)]);
        mine.push(Step::Burst(some_burst(form, operator, name, random)));
    }
    Pair {
        form,
        operator,
        rows,
        shares: [(); 2].map(|()| shares(operator, own, sum, random)),
        histories: [(); 2].map(|()| history(form, operator, &mine, random)),
    }
}

/// What the operator is told, and its rows in order.
type Known = (Vec<Told>, Vec<Vec<u8>>);

/// Makes one call of a history on its table.
fn call(
    rules: &Rules,
    pair: &Pair,
    which: usize,
    table: &mut Vec<u8>,
    by: u32,
    step: &Step,
) -> Told {
    let operation = match step {
        Step::Enter(name) => enter(pair.form, by, &pair.shares[which], name),
        Step::Other(operation) => operation.clone(),
        Step::Burst(call) => {
            let mut written = call.fresh();
            written.table = std::mem::take(table);
            let taken = call.go_on(rules, &mut written, &Taken::default(), &call.ends());
            *table = std::mem::take(&mut written.table);
            return Told::Burst(taken, written);
        }
    };
    Told::Call(perform(&mut rules.clone(), &operation, table))
}

/// Plays one history of a pair on a cleared table. The error says what a table that is
/// reached from a cleared one must not show.
fn play(rules: &Rules, pair: &Pair, which: usize) -> Result<Known, &'static str> {
    let (form, shares) = (pair.form, &pair.shares[which]);
    let mut table = vec![0; pair.rows * form.row()];
    let mut told = Vec::new();
    for (operator, step) in &pair.histories[which] {
        let now = call(rules, pair, which, &mut table, *operator, step);
        let entered = matches!(step, Step::Enter(_));
        if matches!(&now, Told::Call(seen) if entered && seen.numbers[0] == 11) {
            return Err("number 11");
        }
        let over =
            |operator: u32| own_rows(form, &table, operator) > shares[operator as usize] as usize;
        if (0..16).any(over) {
            return Err("rows over a share");
        }
        if *operator == pair.operator {
            told.push(now);
        }
    }
    let own = |row: &&[u8]| row[0] == 1 && is_of(row, pair.operator);
    let rows = rows(form, &table).filter(own).map(<[u8]>::to_vec);
    Ok((told, rows.collect()))
}

/// The first of so many pairs that shows one operator something of another.
fn leak(rules: &Rules, seed: u64, pairs: usize) -> Option<&'static str> {
    let mut random = Random::new(seed);
    (0..pairs).find_map(|_| {
        let pair = pair(&mut random);
        match (play(rules, &pair, 0), play(rules, &pair, 1)) {
            (Err(what), _) | (_, Err(what)) => Some(what),
            (Ok((told, _)), Ok((other, _))) if told != other => Some("told otherwise"),
            (Ok((_, rows)), Ok((_, other))) if rows != other => Some("other rows"),
            _ => None,
        }
    })
}

#[test]
fn no_operator_learns_of_another() {
    assert_eq!(leak(&DOCUMENT_01, 61, 6_000), None);
}

/// The search is of use: it finds what these programs tell.
#[test]
fn programs_that_tell_of_others_are_found() {
    let by_name = Rules {
        find: |_, form, table, _, name| rows(form, table).position(|row| bears(row, name)),
        ..DOCUMENT_01
    };
    assert!(leak(&by_name, 62, 2_000).is_some());
    let by_name_in_bursts = Rules {
        take: |rules, form, lent, taken, message| {
            let by_name = Rules {
                find: |_, form, table, _, name| rows(form, table).position(|row| bears(row, name)),
                ..*rules
            };
            let rules = if taken.messages > 0 { &by_name } else { rules };
            take(rules, form, lent, taken, message);
        },
        ..DOCUMENT_01
    };
    assert!(leak(&by_name_in_bursts, 62, 2_000).is_some());
    let stops_by_rows = Rules {
        burst: |rules, lent| {
            let form = Form::numbered(lent.form).unwrap_or(Form::One);
            let used = rows(form, lent.table).filter(|row| row[0] == 1).count();
            let whole = whole_messages(rules, lent.messages);
            if whole.len() > 2 && used > 2 && (rules.burst_number)(rules, lent) == 0 {
                lent.messages = &lent.messages[..whole[0].len()];
            }
            burst::burst(rules, lent)
        },
        ..DOCUMENT_01
    };
    assert!(leak(&stops_by_rows, 62, 2_000).is_some());
    let all_rows_count = Rules {
        share_is_full: |_, form, table, new| {
            let used = rows(form, table).filter(|row| row[0] == 1).count();
            used >= new.shares[new.operator as usize] as usize
        },
        ..DOCUMENT_01
    };
    assert!(leak(&all_rows_count, 62, 2_000).is_some());
    let any_sum = Rules {
        shares_fit: |_, _, shares| shares.len() == 16,
        ..DOCUMENT_01
    };
    assert_eq!(leak(&any_sum, 62, 2_000), Some("number 11"));
    let one_over = Rules {
        share_is_full: |_, form, table, new| {
            own_rows(form, table, new.operator) > new.shares[new.operator as usize] as usize
        },
        ..DOCUMENT_01
    };
    assert!(leak(&one_over, 62, 2_000).is_some());
    let no_share = Rules {
        share_is_full: |_, _, _, _| false,
        ..DOCUMENT_01
    };
    assert!(leak(&no_share, 62, 2_000).is_some());
}

/// The pairs are of use too: shares of others differ, the operator comes to several rows,
/// and it is told each number that it can be told.
#[test]
fn pairs_tell_of_many_things() {
    let mut random = Random::new(63);
    let mut numbers = std::collections::BTreeSet::new();
    let mut in_bursts = std::collections::BTreeSet::new();
    let (mut differ, mut several, mut cuts) = (0, 0, 0);
    for _ in 0..600 {
        let pair = pair(&mut random);
        differ += usize::from(pair.shares[0] != pair.shares[1]);
        let (told, rows) = play(&DOCUMENT_01, &pair, 0).unwrap();
        several += usize::from(rows.len() > 1);
        for told in &told {
            match told {
                Told::Call(seen) => {
                    numbers.insert((seen.numbers[0], seen.numbers[1]));
                }
                Told::Burst(taken, written) => {
                    let results = &written.results[..taken.messages];
                    in_bursts.extend(results.iter().map(|place| (place[0], place[1])));
                    in_bursts.insert((u32::from(taken.number), 0));
                    cuts += taken.notices;
                }
            }
        }
    }
    assert!(differ > 100 && several > 60, "{differ} {several}");
    for number in [0, 9, 10, 12, 15, 26, 27] {
        assert!(numbers.contains(&(number, 0)), "{number}");
    }
    for code in [(2001, 1), (5012, 1), (5001, 2), (5042, 2), (5044, 2)] {
        assert!(numbers.contains(&code), "{code:?}");
        assert!(in_bursts.contains(&code), "{code:?} in a burst");
    }
    assert!(
        [0, 6, 18]
            .iter()
            .all(|number| in_bursts.contains(&(*number, 0)))
    );
    assert!(cuts > 10, "{cuts}");
}

fn run(operation: &Operation, table: &mut [u8]) -> Seen {
    perform(&mut DOCUMENT_01.clone(), operation, table)
}

/// With shares that change between enterings what one operator is told depends on the
/// other: the row is taken under shares that gave it away, and 11 comes.
#[test]
fn shares_that_change_tell_of_others() {
    let mut shares = [vec![0; 16], vec![0; 16]];
    (shares[0][1], shares[1][0]) = (1, 1);
    for form in FORMS {
        let mut table = vec![0; form.row()];
        let second = enter(form, 0, &shares[1], b"1");
        assert_eq!(run(&second, &mut table.clone()).numbers[0], 0);
        let first = enter(form, 1, &shares[0], b"1");
        assert_eq!(run(&first, &mut table).numbers[0], 0);
        assert_eq!(run(&second, &mut table).numbers[0], 11);
    }
}

/// Shares that stay: 27 where the table has free rows, and none is kept from the other.
#[test]
fn a_full_share_leaves_the_others_theirs() {
    let mut shares = vec![0; 16];
    (shares[0], shares[3]) = (1, 2);
    let form = Form::Two;
    let mut table = vec![0; 3 * form.row()];
    let mut number =
        |operator, name: &[u8]| run(&enter(form, operator, &shares, name), &mut table).numbers[0];
    assert_eq!(number(0, b"1"), 0);
    assert_eq!(number(0, b"2"), 27);
    assert_eq!(number(0, b"1"), 10);
    assert_eq!(number(3, b"1"), 0);
    assert_eq!(number(3, b"2"), 0);
    assert_eq!(number(3, b"3"), 27);
    assert_eq!(number(5, b"1"), 27);
    assert_eq!(number(16, b"1"), 33);
    assert_eq!(
        rows(form, &table)
            .map(|row| row[OPERATOR])
            .collect::<Vec<u8>>(),
        [0, 3, 3]
    );
}

/// Byte 19 from 0 to 15 is an operator; over 15 the row is unsound, whatever its sums.
#[test]
fn rows_of_operators_over_15_are_unsound() {
    for operator in 0..=255 {
        let row = Row {
            operator,
            name: b"1".to_vec(),
            ..Row::default()
        };
        for form in FORMS {
            let bytes = encode(&DOCUMENT_01, form, &row);
            assert_eq!(sound(&DOCUMENT_01, form, &bytes).is_some(), operator <= 15);
        }
        assert!(CONDITIONS[1..].iter().all(|condition| condition(&row)));
    }
}

/// A table without byte 19 set is operator 0's: it gets what document 01 says, for whom
/// a row is found by its name alone; for all others each request that is read gets
/// USER_UNKNOWN, and adding 12.
#[test]
fn tables_without_operators_are_operator_0s() {
    let mut before = Rules {
        find: |_, form, table, _, name| rows(form, table).position(|row| bears(row, name)),
        ..DOCUMENT_01
    };
    let mut random = Random::new(64);
    let mut table = Vec::new();
    let mut met = [0; 3];
    for record in generate(65, 4_000).records {
        let Record::Call(operation, _) = &record else {
            judge(&mut DOCUMENT_01.clone(), &record, &mut table).unwrap();
            continue;
        };
        let Some(form) = operation.form().and_then(Form::numbered) else {
            continue;
        };
        let old = table.chunks(form.row());
        let old: Vec<u8> = old.flat_map(|row| without_operator(form, row)).collect();
        let other = 1 + random.below(15) as u32;
        let (mine, others) = (
            called_by(operation, 0, form, &old),
            called_by(operation, other, form, &old),
        );
        let [mut now, mut then, mut theirs] = [old.clone(), old.clone(), old.clone()];
        let seen = run(&mine, &mut now);
        assert!(seen == perform(&mut before, &mine, &mut then) && now == then);
        let their = run(&others, &mut theirs);
        let unknown = [u32::from(USER_UNKNOWN.number()), 2];
        match operation {
            Operation::Handle(_) if decided(&seen) => {
                assert_eq!(their.numbers[..2], unknown);
                met[0] += 1;
            }
            Operation::Add { .. } if seen.numbers[0] != 1 => {
                assert_eq!(their.numbers[0], 12);
                met[1] += 1;
            }
            _ => met[2] += 1,
        }
        assert!(
            theirs == old || !matches!(operation, Operation::Handle(_) | Operation::Add { .. })
        );
        run(operation, &mut table);
    }
    assert!(met.into_iter().all(|times| times > 100), "{met:?}");
}

/// A row as it is without byte 19, its sums right again if they were right.
fn without_operator(form: Form, row: &[u8]) -> Vec<u8> {
    let mut bytes = row.to_vec();
    if let Some(row) = sound(&DOCUMENT_01, form, row) {
        return encode(&DOCUMENT_01, form, &Row { operator: 0, ..row });
    }
    if let Some(byte) = bytes.get_mut(OPERATOR) {
        *byte = 0;
    }
    bytes
}

/// The same call by another operator, who has all rows for its share.
fn called_by(operation: &Operation, by: u32, form: Form, table: &[u8]) -> Operation {
    let mut operation = operation.clone();
    match &mut operation {
        Operation::Clear { .. }
        | Operation::Move { .. }
        | Operation::Abort(_)
        | Operation::Answered(_)
        | Operation::ReAuth(_) => (),
        Operation::Enter {
            operator, shares, ..
        } => {
            (*operator, *shares) = (by, all_rows(form, table, by));
        }
        Operation::Add { operator, .. } => *operator = by,
        Operation::Handle(asked) => asked.operator = by,
        Operation::Burst(asked) => asked.operator = by,
        Operation::Judge(judging) => judging.asked.operator = by,
    }
    operation
}

/// A code that only deciding gives: a success, an Experimental-Result, 5003 or 5012.
fn decided(seen: &Seen) -> bool {
    match seen.numbers[1] {
        0 => false,
        1 => [2001, 5003, 5012].contains(&seen.numbers[0]),
        _ => true,
    }
}
