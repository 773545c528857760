//! Makes the calls of a script from a seed, round after round, each round with some of
//! every sort.

use crate::abort_calls::{AbortDecks, disconnections};
use crate::burst_rounds::{BurstDecks, bursts};
use crate::cases::{Case, SORTS, Sort, digits, garnish, sound_row, text};
use crate::damages::{DAMAGES, any_damage, damage, odd_row, some_entry};
use crate::drafts::{Draft, DraftAvp};
use crate::either_case::{PAIRS, either_case, typed};
use crate::faults::{Fault, checks, deciding_checks, header_checks, own_checks};
use crate::forms::{FormDecks, in_forms};
use crate::judge_rounds::{JudgeDecks, judgements};
use crate::known_avps::{known_and_ignored, unknown};
use crate::moves::move_to;
use crate::operators::{Situation, all_rows, entering, namesake, operators, situations};
use crate::program::{Operation, Room};
use crate::random::Random;
use crate::reading_a_message::{Name, PROXY_INFO, VISITED_NETWORK};
use crate::reauth_calls::{ReAuthDecks, re_auths};
use crate::recorder::Recorder;
use crate::rules::DOCUMENT_01;
use crate::sequences::sequence;
use crate::the_table::{FORMS, Form, MOST_ROWS, encode, put};

/// Cards that all come up once, in an order of chance, before one comes again.
pub struct Deck<T> {
    cards: Vec<T>,
    drawn: usize,
}

impl<T> Deck<T> {
    pub fn new(cards: Vec<T>) -> Deck<T> {
        Deck { cards, drawn: 0 }
    }

    pub fn draw(&mut self, random: &mut Random) -> &T {
        if self.drawn.is_multiple_of(self.cards.len()) {
            random.shuffle(&mut self.cards);
        }
        self.drawn += 1;
        &self.cards[(self.drawn - 1) % self.cards.len()]
    }
}

/// What is still to come of faults, pairs of faults and damages.
struct Decks {
    singles: Deck<(Sort, Fault)>,
    pairs: Deck<Pair>,
    damages: Deck<usize>,
    pairs_of_bytes: Deck<(u8, u8)>,
    known: Deck<Name>,
    unknown: Deck<(Sort, Vec<Fault>)>,
    situations: Deck<Situation>,
    forms: FormDecks,
    aborts: AbortDecks,
    bursts: BurstDecks,
    re_auths: ReAuthDecks,
    judgements: JudgeDecks,
}

/// The calls of a script.
pub fn generate(seed: u64, calls: usize) -> Recorder {
    let mut recorder = Recorder::new(calls);
    let mut random = Random::new(seed);
    let mut decks = Decks {
        singles: Deck::new(all_singles()),
        pairs: Deck::new(all_pairs()),
        damages: Deck::new((0..DAMAGES).collect()),
        pairs_of_bytes: Deck::new(PAIRS.to_vec()),
        known: Deck::new(known_and_ignored()),
        unknown: Deck::new(all_unknown()),
        situations: Deck::new(situations()),
        forms: FormDecks::new(),
        aborts: AbortDecks::new(),
        bursts: BurstDecks::new(),
        re_auths: ReAuthDecks::default(),
        judgements: JudgeDecks::default(),
    };
    for turn in 0.. {
        if recorder.is_full() {
            break;
        }
        round(&mut recorder, &mut decks, &mut random);
        match turn % 50 {
            9 => big_tables(&mut recorder, Form::One, &mut random),
            10 => big_tables(&mut recorder, Form::Two, &mut random),
            _ => (),
        }
    }
    recorder
}

/// Some calls of every sort.
fn round(recorder: &mut Recorder, decks: &mut Decks, random: &mut Random) {
    for sort in SORTS {
        record(recorder, &Case::good(sort, random));
    }
    disconnections(recorder, &mut decks.aborts, random);
    bursts(recorder, &mut decks.bursts, random);
    re_auths(recorder, &mut decks.re_auths, random);
    judgements(recorder, &mut decks.judgements, random);
    for _ in 0..14 {
        let (sort, fault) = decks.singles.draw(random).clone();
        faulty(recorder, sort, &[fault], random);
    }
    for _ in 0..72 {
        let (sort, first, second) = decks.pairs.draw(random).clone();
        let faults = [random.pick(&first).clone(), random.pick(&second).clone()];
        faulty(recorder, sort, &faults, random);
    }
    for (sort, fault) in late_faults(random) {
        faulty(recorder, sort, &[fault], random);
    }
    for later in [Fault::Application(2), Fault::HeaderFlags(0x20)] {
        let bits_and_more = [Fault::HeaderFlags(1), later];
        faulty(recorder, Sort::Open, &bits_and_more, random);
    }
    for form in FORMS {
        let foreign = [
            Fault::Command(257),
            Fault::HeaderFlags(*random.pick(&[4, 0x20])),
        ];
        let case = Case::in_form(form, Sort::Open, random);
        with_faults(recorder, case, &foreign, random);
    }
    let form = *random.pick(&FORMS);
    record(recorder, &Case::full(form, random));
    for _ in 0..9 {
        let way = *decks.damages.draw(random);
        damaged(recorder, way, random);
    }
    for sort in SORTS {
        known_with_m(recorder, decks, sort, random);
    }
    for _ in 0..6 {
        let (sort, faults) = decks.unknown.draw(random).clone();
        faulty(recorder, sort, &faults, random);
    }
    for _ in 0..14 {
        let situation = decks.situations.draw(random).clone();
        entering(recorder, &situation, random);
    }
    operators(recorder, random);
    duplicates(recorder, random);
    noise(recorder, random);
    edges(recorder, random);
    set_up(recorder, random);
    for form in FORMS {
        adding(recorder, form, random);
    }
    either_case(recorder, *decks.pairs_of_bytes.draw(random), random);
    in_forms(recorder, &mut decks.forms, random);
    sequence(recorder, random);
}

pub fn record(recorder: &mut Recorder, case: &Case) {
    recorder.set_table(&case.table);
    recorder.call(case.operation(), false);
}

fn all_singles() -> Vec<(Sort, Fault)> {
    let mut all = Vec::new();
    for sort in SORTS {
        all.extend(checks(sort).concat().into_iter().map(|fault| (sort, fault)));
    }
    all
}

/// For each sort, every AVP that is not known by itself, and one before and one behind
/// each failure of header and walk.
fn all_unknown() -> Vec<(Sort, Vec<Fault>)> {
    let mut all = Vec::new();
    for sort in SORTS {
        let names = unknown();
        let alone = names.iter().map(|name| (sort, vec![Fault::Unknown(*name)]));
        all.extend(alone);
        for (turn, failure) in header_checks(sort).iter().enumerate() {
            let name = names[turn % names.len()];
            for unknown in [Fault::UnknownFirst(name), Fault::UnknownLast(name)] {
                all.push((sort, vec![failure[0].clone(), unknown]));
            }
        }
    }
    all
}

/// A request that is granted in spite of AVPs with M that no list names: they are known.
fn known_with_m(recorder: &mut Recorder, decks: &mut Decks, sort: Sort, random: &mut Random) {
    let mut case = Case::good(sort, random);
    for _ in 0..3 {
        let length = random.below(14);
        let name = *decks.known.draw(random);
        let avp = DraftAvp::new(name, &random.bytes(length));
        case.draft.insert(random.below(20), avp);
    }
    record(recorder, &case);
}

/// For each sort, one of the faults that only deciding can find.
fn late_faults(random: &mut Random) -> Vec<(Sort, Fault)> {
    let mut late = Vec::new();
    for sort in SORTS {
        late.push((sort, Fault::UnknownUser));
        late.push((sort, random.pick(&deciding_checks(sort).concat()).clone()));
    }
    late
}

type Pair = (Sort, Vec<Fault>, Vec<Fault>);

/// Every two checks of each sort of request; two that all sorts share only once.
fn all_pairs() -> Vec<Pair> {
    let mut all = Vec::new();
    for (turn, sort) in SORTS.into_iter().enumerate() {
        let checks = checks(sort);
        let shared = checks.len() - own_checks(sort).len();
        for (place, first) in checks.iter().enumerate() {
            for (other, second) in checks.iter().enumerate().skip(place + 1) {
                if other >= shared || (place + other) % SORTS.len() == turn {
                    all.push((sort, first.clone(), second.clone()));
                }
            }
        }
    }
    all
}

fn faulty(recorder: &mut Recorder, sort: Sort, faults: &[Fault], random: &mut Random) {
    let case = Case::good(sort, random);
    with_faults(recorder, case, faults, random);
}

fn with_faults(recorder: &mut Recorder, mut case: Case, faults: &[Fault], random: &mut Random) {
    let mut faults = faults.to_vec();
    faults.sort_by_key(turn);
    for fault in faults {
        fault.apply(&mut case, random);
    }
    record(recorder, &case);
}

/// Damage comes after the faults that write the row anew, and a table of another size
/// after all that write into it.
fn turn(fault: &Fault) -> u8 {
    match fault {
        Fault::TableSize(..) | Fault::OtherRow => 2,
        Fault::DamagedRow => 1,
        _ => 0,
    }
}

/// A damaged row, asked about by each operation that looks at it.
fn damaged(recorder: &mut Recorder, way: usize, random: &mut Random) {
    let mut case = Case::good(*random.pick(&SORTS), random);
    damage(&mut case, way, random);
    record(recorder, &case);
    let name = case.row.name.clone();
    if random.once_in(3) {
        let entry = some_entry(random);
        let (form, operator) = (case.form, case.operator);
        recorder.set_table(&case.table);
        let new = add(
            form,
            operator,
            &name,
            &entry.label,
            entry.limit,
            entry.flags,
        );
        recorder.call(new, false);
        let shares = all_rows(form, &case.table, operator);
        recorder.call(enter(form, operator, &shares, &name), false);
        move_to(recorder, form.other(), random);
    }
}

pub fn clear(form: Form) -> Operation {
    let form = form.number();
    Operation::Clear { form }
}

pub fn enter(form: Form, operator: u32, shares: &[u32], name: &[u8]) -> Operation {
    Operation::Enter {
        form: form.number(),
        operator,
        shares: shares.to_vec(),
        name: name.to_vec(),
    }
}

pub fn add(
    form: Form,
    operator: u32,
    name: &[u8],
    label: &[u8],
    limit: u8,
    flags: u8,
) -> Operation {
    Operation::Add {
        form: form.number(),
        operator,
        name: name.to_vec(),
        label: label.to_vec(),
        limit,
        flags,
    }
}

/// Two rows of one name, either of which may be damaged.
fn duplicates(recorder: &mut Recorder, random: &mut Random) {
    let mut case = Case::good(*random.pick(&SORTS), random);
    let form = case.form;
    let good = case.row_bytes().to_vec();
    let (operator, name) = (case.operator, case.row.name.clone());
    let mut other = sound_row(form, &name, random);
    other.operator = case.row.operator;
    let mut other = encode(&DOCUMENT_01, form, &other);
    if random.once_in(2) {
        any_damage(&mut case, random);
        put(&mut other, 0, case.row_bytes());
    }
    let mut rows = [good, other];
    random.shuffle(&mut rows);
    case.table = rows.concat();
    record(recorder, &case);
    recorder.call(add(form, operator, &name, b"second", 1, 0), false);
    let shares = all_rows(form, &case.table, operator);
    recorder.call(enter(form, operator, &shares, &name), false);
}

/// Good messages with bytes changed at random, and messages of mere chance.
fn noise(recorder: &mut Recorder, random: &mut Random) {
    for _ in 0..6 {
        let case = Case::good(*random.pick(&SORTS), random);
        let mut operation = case.operation();
        if let Operation::Handle(asked) = &mut operation {
            spoil(&mut asked.message, random);
        }
        recorder.set_table(&case.table);
        recorder.call(operation, false);
    }
}

fn spoil(message: &mut Vec<u8>, random: &mut Random) {
    if random.once_in(12) {
        let length = random.below(64);
        *message = random.bytes(length);
    }
    for _ in 0..random.below(4) {
        let at = random.below(message.len());
        let change = 1 << random.below(8);
        if let Some(byte) = message.get_mut(at) {
            *byte = if random.once_in(2) {
                random.byte()
            } else {
                *byte ^ change
            };
        }
    }
    if random.once_in(3) {
        message.truncate(random.below(message.len() / 4 + 1) * 4);
    }
    if random.once_in(2) && message.len() >= 4 {
        let length = (message.len() as u32).to_be_bytes();
        put(message, 1, &length[1..]);
    }
}

/// Lengths at their limits: the longest and shortest messages, texts and own names,
/// and answers filled with Proxy-Info.
fn edges(recorder: &mut Recorder, random: &mut Random) {
    for _ in 0..4 {
        let mut case = Case::good(*random.pick(&SORTS), random);
        match random.below(5) {
            0 => fill(
                &mut case.draft,
                *random.pick(&[4_092, 4_096, 4_096, 4_100]),
                random,
            ),
            1 => case.draft.size = Some(*random.pick(&[19, 20, 20, 24, 28])),
            2 => {
                case.host = vec![b'h'; *random.pick(&[1, 128])];
                case.realm = vec![b'r'; *random.pick(&[1, 128])];
            }
            3 => {
                case.answer_room.length = *random.pick(&[5_119, 5_120, 8_192]);
                let least = case.form.notice() as u32;
                case.notice_room.length = *random.pick(&[least - 1, least, 1_024]);
            }
            _ => {
                let sort = case.sort;
                let fault = &checks(sort).concat()[random.below(60)];
                fault.apply(&mut case, random);
                fill(&mut case.draft, 4_096, random);
            }
        }
        record(recorder, &case);
    }
}

/// Brings a message to the size, unless it has been given another one, with one long AVP or many Proxy-Infos.
pub fn fill(draft: &mut Draft, size: usize, random: &mut Random) {
    let one = random.once_in(2);
    while draft.size.is_none() && draft.bytes().len() + 8 <= size {
        let room = size - draft.bytes().len() - 8;
        let piece = if one {
            room
        } else {
            room.min(random.below(60))
        };
        // No rest of 4 bytes may remain, in which no AVP could stand.
        let piece = if room - piece < 12 { room } else { piece };
        let name = if random.once_in(3) {
            Name {
                code: 25,
                vendor: None,
            }
        } else {
            PROXY_INFO
        };
        let mut avp = DraftAvp::new(name, &random.bytes(piece));
        avp.padding = random.byte();
        draft.avps.push(avp);
    }
}

/// Set-up on small tables, refused as often as not.
fn set_up(recorder: &mut Recorder, random: &mut Random) {
    let form = *random.pick(&FORMS);
    let row = form.row();
    let sizes = [row, 2 * row, 3 * row, 0, row - 1, row + 1];
    let size = *random.pick(&[0, 1, 2, 0, 1, 2, 0, 1, 2, 3, 4, 5]);
    let mut table = vec![0; sizes[size]];
    if random.once_in(3) {
        put(&mut table, 0, &odd_row(form, random));
    }
    recorder.set_table(&table);
    let operator = *random.pick(&[0, 0, 1, 8, 15]);
    let shares = all_rows(form, &table, operator);
    let first = digits(random);
    recorder.call(enter(form, operator, &shares, &first), false);
    let known = [first.clone(), first, digits(random)];
    for _ in 0..random.from_to(8, 18) {
        let mut name = random.pick(&known).clone();
        if random.once_in(5) {
            name = odd_name(random);
        }
        let operation = match random.below(12) {
            0 if random.once_in(3) => clear(form),
            0..4 => enter(form, operator, &shares, &name),
            _ => odd_add(form, operator, &name, random),
        };
        recorder.call(operation, false);
    }
}

/// W-APNs added to a row that may have no room for them, one of them known already.
fn adding(recorder: &mut Recorder, form: Form, random: &mut Random) {
    let name = digits(random);
    let mut row = sound_row(form, &name, random);
    let operator = random.below(16) as u32;
    row.operator = operator as u8;
    let table = [
        namesake(form, &row, random),
        encode(&DOCUMENT_01, form, &row),
    ];
    recorder.set_table(&table.concat());
    let known = typed(&random.pick(&row.entries).label, random);
    for label in [known, text(random, 100), vec![b'n'; 101], text(random, 100)] {
        let limit = *random.pick(&[1, 1, 2, 8, 9]);
        let flags = *random.pick(&[0, 1, 2, 3, 3, 4]);
        let new = add(form, operator, &name, &label, limit, flags);
        recorder.call(new, false);
    }
}

pub fn odd_name(random: &mut Random) -> Vec<u8> {
    match random.below(5) {
        0 => Vec::new(),
        1 => vec![b'1'; *random.pick(&[15, 16, 17, 256, 271, 8_000])],
        2 => text(random, 15),
        3 => vec![*random.pick(b"/:0 9a")],
        _ => digits(random),
    }
}

/// Labels from a small store, so that some come twice; limits and flags also beyond
/// what is allowed.
fn odd_add(form: Form, operator: u32, name: &[u8], random: &mut Random) -> Operation {
    let long = *random.pick(&[0, 1, 100, 101, 256, 300]);
    let label = match random.below(8) {
        0 => vec![b'l'; long],
        1 => text(random, 100),
        n => typed(&[b'a' + n as u8 % 5], random),
    };
    let limit = *random.pick(&[1, 1, 1, 1, 1, 1, 2, 2, 3, 4, 8, 0, 9, 255]);
    let flags = *random.pick(&[0, 1, 2, 3, 0, 1, 2, 3, 0, 1, 2, 3, 4, 255]);
    add(form, operator, name, &label, limit, flags)
}

/// Tables of 1,024 rows, of more, and of a byte too few or too many.
fn big_tables(recorder: &mut Recorder, form: Form, random: &mut Random) {
    let row = form.row();
    let most = MOST_ROWS * row;
    let mut table = vec![0; most];
    for row in table.chunks_mut(row) {
        row[0] = 3;
    }
    table[most - row] = 0;
    recorder.set_table(&table);
    big_calls(recorder, form, random);
    for size in [most + row, most - 1, most + 1] {
        recorder.set_table(&vec![0; size]);
        let name = b"12345";
        let mut case = Case::in_form(form, Sort::Open, random);
        case.operator = 0;
        recorder.call(case.operation(), false);
        recorder.call(add(form, 0, name, b"board", 1, 0), false);
        let shares = all_rows(form, &vec![0; row], 0);
        recorder.call(enter(form, 0, &shares, name), false);
        move_to(recorder, form.other(), random);
        recorder.call(clear(form), true);
    }
}

/// The one free row is the last; then it is used, and the table is cleared. A move is
/// refused in between: there is no room for so many rows in a record.
fn big_calls(recorder: &mut Recorder, form: Form, random: &mut Random) {
    let name = digits(random);
    let mut stranger = name.clone();
    stranger[0] = if stranger[0] == b'9' {
        b'0'
    } else {
        stranger[0] + 1
    };
    let operator = random.below(16) as u32;
    let shares = all_rows(form, &recorder.table, operator);
    for name in [&name, &name, &stranger] {
        recorder.call(enter(form, operator, &shares, name), true);
    }
    recorder.call(add(form, operator, &name, b"board", 2, 2), false);
    recorder.call(add(form, operator, &stranger, b"board", 2, 2), false);
    move_to(recorder, form.other(), random);
    for session in [b"one", b"two", b"six", b"ten"] {
        let mut draft = Draft::open(&name, session, b"pdg", b"board");
        draft.avps.push(DraftAvp::new(VISITED_NETWORK, b"v"));
        garnish(&mut draft, random);
        recorder.call(request(form, operator, &draft, true, random), false);
    }
    let draft = Draft::termination(&name, b"six", b"pdg", b"board");
    recorder.call(request(form, operator, &draft, true, random), true);
    recorder.call(clear(form), true);
}

/// A draft as a call whose other inputs are in order.
pub fn request(
    form: Form,
    operator: u32,
    draft: &Draft,
    wag: bool,
    random: &mut Random,
) -> Operation {
    let seed = random.byte();
    Operation::Handle(crate::program::Asked {
        form: form.number(),
        operator,
        host: b"aaa.home.example".to_vec(),
        realm: b"home.example".to_vec(),
        message: draft.bytes(),
        wag,
        answer_room: Room {
            length: 5_120,
            seed,
        },
        notice_room: Room {
            length: form.notice() as u32,
            seed,
        },
    })
}
