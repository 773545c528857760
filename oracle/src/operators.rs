//! Calls of several operators on one table (W8): rows of one name under several
//! operators, and enterings of which none, one or two of the numbers hold.

use crate::cases::{Case, SORTS, digits, sound_row};
use crate::damages::odd_row;
use crate::drafts::Draft;
use crate::generator::{add, enter, odd_name, record, request};
use crate::random::Random;
use crate::recorder::Recorder;
use crate::rules::DOCUMENT_01;
use crate::set_up::{name_fits, own_rows};
use crate::the_table::{BLOCK, FORMS, Form, OPERATOR, Row, SUMS, encode};

/// What byte 19 of a row is made to hold.
pub const BYTES_19: [u8; 5] = [0, 1, 15, 16, 255];

/// The numbers of an entering in the order of their tests.
pub const IN_ORDER: [u8; 7] = [1, 33, 26, 9, 10, 27, 11];

const OVER_15: [u32; 6] = [16, 17, 255, 256, 1 << 16, u32::MAX];

/// Shares that give all rows of the table to one operator.
pub fn all_rows(form: Form, table: &[u8], operator: u32) -> Vec<u32> {
    let mut shares = vec![0; 16];
    shares[operator as usize] = (table.len() / form.row()) as u32;
    shares
}

/// A row that has the name of this one and another byte 19: the same but for that, one
/// with other entries and accesses, or one whose sums are wrong.
pub fn namesake(form: Form, row: &Row, random: &mut Random) -> Vec<u8> {
    let others = BYTES_19.into_iter().filter(|&byte| byte != row.operator);
    let operator = *random.pick(&others.collect::<Vec<u8>>());
    let other = match random.below(2) {
        0 => row.clone(),
        _ => sound_row(form, &row.name, random),
    };
    let mut bytes = encode(&DOCUMENT_01, form, &Row { operator, ..other });
    if random.once_in(4) {
        bytes[SUMS] ^= 1;
    }
    bytes
}

/// Which numbers hold of an entering, and in which way the shares are bad if they are;
/// where none is given, in any.
#[derive(Clone)]
pub struct Situation {
    numbers: Vec<u8>,
    bad_shares: Option<usize>,
}

impl Situation {
    fn new(numbers: &[u8], bad_shares: Option<usize>) -> Situation {
        let numbers = numbers.to_vec();
        Situation {
            numbers,
            bad_shares,
        }
    }

    fn holds(&self, number: u8) -> bool {
        self.numbers.contains(&number)
    }
}

/// Every two numbers, every one and none more often, and bad shares in every way.
pub fn situations() -> Vec<Situation> {
    let mut all = vec![Situation::new(&[], None); 5];
    for (place, &first) in IN_ORDER.iter().enumerate() {
        all.extend(vec![Situation::new(&[first], None); 2]);
        let later = IN_ORDER[place + 1..].iter();
        all.extend(later.map(|&second| Situation::new(&[first, second], None)));
    }
    all.extend((0..BAD_SHARES).map(|way| Situation::new(&[26], Some(way))));
    all
}

/// Enters a name on a table of which just these numbers hold.
pub fn entering(recorder: &mut Recorder, situation: &Situation, random: &mut Random) {
    let holds = |number| situation.holds(number);
    let form = *random.pick(&FORMS);
    let known = random.below(16) as u32;
    let operator = if holds(33) {
        *random.pick(&OVER_15)
    } else {
        *random.pick(&[0, 1, 15, known, known])
    };
    let name = match (holds(9), holds(10)) {
        (false, _) => digits(random),
        (true, true) => near_digits(random),
        (true, false) => no_digits(random),
    };
    let mut table = table_for(form, situation, (operator as u8, &name), random);
    let mut shares = shares_for((form, &table), operator, holds(27), random);
    if holds(26) {
        let way = situation.bad_shares.unwrap_or(random.below(BAD_SHARES));
        let rows = (table.len() / form.row()) as u32;
        shares = bad_shares(rows, operator, shares, way, random);
    }
    if holds(1) {
        let length = *random.pick(&[0, form.row() - 1, table.len() - 1, table.len() + 1]);
        table.resize(length, 0);
    }
    recorder.set_table(&table);
    recorder.call(enter(form, operator, &shares, &name), false);
}

/// Rows of others and of this operator, one of this name where 10 holds, and at least one
/// that is free, or nobody's where 11 holds.
fn table_for(
    form: Form,
    situation: &Situation,
    (own, name): (u8, &[u8]),
    random: &mut Random,
) -> Vec<u8> {
    let holds = |number| situation.holds(number);
    let mut rows = rows_of_others(form, own, name, random);
    if holds(10) {
        rows.push(own_row(form, own, name, random));
    }
    for _ in 0..random.below(3) + usize::from(holds(27)) {
        let another = format!("3141592653589{}", random.below(10));
        let mut row = own_row(form, own, another.as_bytes(), random);
        if random.once_in(4) {
            row[1] = *random.pick(&[0, 16, 255]);
        }
        rows.push(row);
    }
    let more = if holds(11) {
        odd_row(form, random)
    } else {
        vec![0; form.row()]
    };
    rows.extend(vec![more; random.from_to(1, 2)]);
    random.shuffle(&mut rows);
    rows.concat()
}

/// A name that a row can bear and that is not of digits alone.
fn near_digits(random: &mut Random) -> Vec<u8> {
    let mut name = digits(random);
    let place = random.below(name.len());
    name[place] = *random.pick(b"/:a ");
    name
}

fn no_digits(random: &mut Random) -> Vec<u8> {
    loop {
        let name = odd_name(random);
        if !name_fits(&name) {
            return name;
        }
    }
}

/// Rows of other operators, of this name more often than not, and rows that have the
/// operator's number in byte 19 and are nobody's.
fn rows_of_others(form: Form, own: u8, name: &[u8], random: &mut Random) -> Vec<Vec<u8>> {
    let mut rows = Vec::new();
    for _ in 0..random.below(4) {
        let mut row = entered(own, name);
        if random.once_in(3) {
            row.name = digits(random);
        }
        rows.push(namesake(form, &row, random));
    }
    if random.once_in(3) {
        let mut row = own_row(form, own, name, random);
        row[0] = *random.pick(&[0, 2, 3, 255]);
        rows.push(row);
    }
    rows
}

fn entered(operator: u8, name: &[u8]) -> Row {
    Row {
        operator,
        name: name.to_vec(),
        ..Row::default()
    }
}

/// A row of this operator, unsound now and then.
fn own_row(form: Form, operator: u8, name: &[u8], random: &mut Random) -> Vec<u8> {
    let mut bytes = encode(&DOCUMENT_01, form, &entered(operator, name));
    if random.once_in(2) {
        bytes[random.from_to(OPERATOR + 1, BLOCK - 1)] ^= 1;
    }
    bytes
}

/// Sixteen shares that the table has rows for, the operator's own full or not.
fn shares_for(
    (form, table): (Form, &[u8]),
    operator: u32,
    full: bool,
    random: &mut Random,
) -> Vec<u32> {
    let rows = table.len() / form.row();
    let own = own_rows(form, table, operator);
    let share = if full {
        *random.pick(&[own, own, own, 0, own / 2])
    } else {
        *random.pick(&[own + 1, own + 1, rows])
    };
    let mut shares = vec![0; 16];
    let place = operator as usize % 16;
    shares[place] = share.min(rows) as u32;
    let mut left = rows - share.min(rows);
    while left > 0 && !random.once_in(4) {
        let part = random.from_to(1, left);
        shares[other_places(operator, random)[0]] += part as u32;
        left -= part;
    }
    shares
}

/// The places of the shares that are not the operator's.
fn other_places(operator: u32, random: &mut Random) -> Vec<usize> {
    let others = (1..16).map(|step| (operator as usize + step) % 16);
    let mut others: Vec<usize> = others.collect();
    random.shuffle(&mut others);
    others
}

/// How many ways there are to spoil shares.
const BAD_SHARES: usize = 7;

/// The shares spoilt: too much by one, by far or only as whole numbers, or not sixteen.
fn bad_shares(
    rows: u32,
    operator: u32,
    mut shares: Vec<u32>,
    way: usize,
    random: &mut Random,
) -> Vec<u32> {
    let sum: u32 = shares.iter().sum();
    let others = other_places(operator, random);
    let (one, two) = (others[0], others[1]);
    match way {
        0 => shares[one] += rows + 1 - sum,
        1 => drop(shares.pop()),
        2 => shares.push(0),
        3 => {
            shares[one] += 1 << 31;
            shares[two] += 1 << 31;
        }
        4 => (shares[one], shares[two]) = (u32::MAX, 1),
        5 => shares = vec![u32::MAX; 16],
        _ => shares.clear(),
    }
    shares
}

/// Requests and W-APNs of operators: of one that has no such name, of one over 15 with
/// something else wrong too, and of one over 15 whose number stands in a row.
pub fn operators(recorder: &mut Recorder, random: &mut Random) {
    for sort in SORTS {
        let mut case = Case::good(sort, random);
        case.operator = (case.operator + random.from_to(1, 15) as u32) % 16;
        record(recorder, &case);
        let new = add(case.form, case.operator, &case.row.name, b"new", 1, 0);
        recorder.call(new, false);
    }
    let mut case = Case::good(*random.pick(&SORTS), random);
    case.operator = *random.pick(&[16, 255, u32::MAX]);
    case.host.resize(*random.pick(&[0, 129]), b'h');
    record(recorder, &case);
    recorder.call(add(case.form, case.operator, b"1", b"new", 9, 4), false);
    case.table.pop();
    record(recorder, &case);
    recorder.call(add(case.form, case.operator, b"1", b"new", 1, 0), false);
    let mut case = Case::good(*random.pick(&SORTS), random);
    case.row.operator = *random.pick(&[16, 255]);
    case.operator = u32::from(case.row.operator);
    case.write_row();
    record(recorder, &case);
    let new = [digits(random), case.row.name.clone()];
    let (form, operator) = (case.form, case.operator);
    recorder.call(add(form, operator, &case.row.name, b"new", 1, 0), false);
    let shares = all_rows(form, &case.table, 0);
    recorder.call(enter(form, operator, &shares, &new[random.below(2)]), false);
    namesakes_in_turn(recorder, random);
}

/// One name entered by operators in turn, each of which adds to its own row alone. Now
/// and then rows of that name that are nobody's come first.
fn namesakes_in_turn(recorder: &mut Recorder, random: &mut Random) {
    let name = digits(random);
    let form = *random.pick(&FORMS);
    let mut operators: Vec<u32> = (0..16).collect();
    random.shuffle(&mut operators);
    operators.truncate(random.from_to(3, 5));
    let mut shares = vec![0; 16];
    for &operator in &operators {
        shares[operator as usize] = 1;
    }
    let mut table = Vec::new();
    if random.once_in(2) {
        for operator in [16, 255] {
            table.extend(encode(&DOCUMENT_01, form, &entered(operator, &name)));
        }
    }
    table.extend(vec![0; operators.len() * form.row()]);
    recorder.set_table(&table);
    for &operator in &operators {
        recorder.call(enter(form, operator, &shares, &name), false);
        recorder.call(add(form, operator, &name, b"board", 1, 0), false);
    }
    let last = *random.pick(&operators);
    recorder.call(enter(form, last, &shares, &name), false);
    recorder.call(enter(form, last, &shares, b"314"), false);
    for operator in [last, operators[0], last] {
        let session = [b's', *random.pick(b"12")];
        let opening = Draft::open(&name, &session, b"pdg", b"board");
        recorder.call(request(form, operator, &opening, true, random), false);
    }
    let ending = Draft::termination(&name, b"s1", b"pdg", b"board");
    recorder.call(request(form, last, &ending, true, random), false);
}
