//! W12, the incident played: openings on a full table, on and on past the number at which 16
//! bits begin anew, each cut held against the history of the calls.

use crate::drafts::Draft;
use crate::handling::Call;
use crate::history::{History, REQUEST_W12, Told};
use crate::random::Random;
use crate::rules::Rules;
use crate::set_up::{Account, NewEntry, NewRow};
use crate::the_table::{Form, MOST_ROWS};

const FORM: Form = Form::One;
const OPERATORS: usize = 16;
const LABELS: [&[u8]; 2] = [b"board", b"yard"];
const LIMIT: u8 = 2;
/// The server before this one numbered its tunnels from here on with 0 again.
pub const ROLLOVER: usize = 65_536;

/// What came of a run. Openings are counted from 0 over the whole server.
#[derive(Clone, Debug, PartialEq, Eq, Default)]
pub struct Run {
    pub cuts: usize,
    pub terminations: usize,
    /// The openings for which another than the oldest was cut.
    pub not_the_oldest: Vec<usize>,
    /// Those for which it was the one just opened.
    pub just_opened: Vec<usize>,
    /// What the table shows in the end that it must not, wrong cuts aside.
    pub broken: Option<&'static str>,
}

/// A full table: sixteen operators with the same sixty-four names, two labels each.
fn full_table(rules: &Rules) -> Vec<u8> {
    let mut table = vec![0; MOST_ROWS * FORM.row()];
    let shares = [(MOST_ROWS / OPERATORS) as u32; OPERATORS];
    for index in 0..MOST_ROWS {
        let operator = (index % OPERATORS) as u32;
        let name = &name(index);
        let shares = &shares;
        let new = NewRow {
            operator,
            shares,
            name,
        };
        let mut number = (rules.enter)(rules, FORM.number(), &mut table, &new);
        for label in LABELS {
            let (limit, flags) = (LIMIT, 0);
            let new = NewEntry {
                label,
                limit,
                flags,
            };
            let account = Account { operator, name };
            number |= (rules.add)(rules, FORM.number(), &mut table, &account, &new);
        }
        assert_eq!(number, 0, "account {index}");
    }
    table
}

fn name(index: usize) -> Vec<u8> {
    format!("0010100000{:05}", index / OPERATORS).into_bytes()
}

/// The openings from this one to the one before that, by accounts drawn at random, with a
/// termination now and then. Each Session-Id ends in the number of its opening.
pub fn run(rules: &Rules, openings: std::ops::Range<usize>, seed: u64) -> Run {
    let mut random = Random::new(seed);
    let mut table = full_table(rules);
    let mut history = History::default();
    let mut run = Run::default();
    for opening in openings {
        let account = random.below(MOST_ROWS);
        let who = ((account % OPERATORS) as u32, name(account));
        if random.once_in(16) {
            let line = history.accounts.get(&who).map(|tunnels| &tunnels.line);
            let standing = line.filter(|line| !line.is_empty());
            if let Some(tunnel) = standing.map(|line| random.pick(line)) {
                let draft = Draft::termination(&who.1, &tunnel.session, b"gw", &tunnel.label);
                request(rules, &mut table, &mut history, who.0, &draft.bytes());
                run.terminations += 1;
            }
        }
        let session = format!("gw.example;{opening}").into_bytes();
        let label = *random.pick(&LABELS);
        let draft = Draft::open(&who.1, &session, b"gw.example", label);
        request(rules, &mut table, &mut history, who.0, &draft.bytes());
        for cut in history.cuts.drain(..) {
            run.cuts += 1;
            let took = |tunnel| cut.session == tunnel;
            if !cut.first.is_some_and(|o| took(o.session)) {
                run.not_the_oldest.push(opening);
            }
            if cut.latest.is_some_and(|o| took(o.session)) {
                run.just_opened.push(opening);
            }
        }
    }
    run.broken = history.broken(&REQUEST_W12, FORM, &table);
    run
}

/// Handles a message, and follows it.
fn request(rules: &Rules, table: &mut [u8], history: &mut History, operator: u32, message: &[u8]) {
    let mut answer_room = [0; 5_120];
    let mut notice = [0; FORM.notice()];
    let outcome = (rules.handle)(
        rules,
        Call {
            form: FORM.number(),
            table,
            operator,
            host: b"aaa.home.example",
            realm: b"home.example",
            message,
            wag: true,
            answer_room: &mut answer_room,
            notice_room: &mut notice,
        },
    );
    let told = Told {
        operator,
        message,
        numbers: outcome.numbers(),
        notice: &notice,
    };
    history.request(&REQUEST_W12, &told);
}
