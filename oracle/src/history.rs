//! W12, proof of age: from calls and their results alone, each account's tunnels in the
//! order in which they were opened, and how many of them were opened, cut and terminated;
//! and what a table has to show of this.

use std::collections::BTreeMap;

use crate::SUCCESS;
use crate::burst::whole_messages;
use crate::program::{Asked, Bursting, Operation, Seen};
use crate::reading_a_message::{
    HEADER, Name, ORIGIN_HOST, SESSION_ID, TERMINATION, USER_NAME, W_APN, header, is, walk_tests,
};
use crate::rules::WITH_W11;
use crate::the_table::{Entry, Form, Row, row_is_free, rows, same_label, sound};

/// A subscriber: operator and name.
pub type Who = (u32, Vec<u8>);

/// A tunnel as its opening made it.
#[derive(Clone, Debug, PartialEq, Eq)]
pub struct Opening {
    pub session: Vec<u8>,
    pub host: Vec<u8>,
    pub label: Vec<u8>,
}

/// What happened on an account, in order; what went is told by its Session-Id.
#[derive(Clone, Debug, PartialEq, Eq)]
pub enum Event {
    Opened(Opening),
    Cut(Vec<u8>),
    Terminated(Vec<u8>),
}

/// A request with the eight numbers of its result and the notice that belongs to it.
pub struct Told<'a> {
    pub operator: u32,
    pub message: &'a [u8],
    pub numbers: [u32; 8],
    pub notice: &'a [u8],
}

impl<'a> Told<'a> {
    /// The value of the first AVP of this name, by the walk's four tests alone; of no bytes
    /// where there is none.
    pub fn text(&self, name: Name) -> &'a [u8] {
        let mut rest = self.message.get(HEADER..).unwrap_or_default();
        while let Ok(avp) = walk_tests(rest) {
            if is(&avp, name) {
                return avp.value;
            }
            rest = &rest[avp.whole.len()..];
        }
        &[]
    }

    pub fn who(&self) -> Who {
        (self.operator, self.text(USER_NAME).to_vec())
    }

    pub fn is_termination(&self) -> bool {
        header(self.message).is_some_and(|header| header.command == TERMINATION)
    }

    pub fn succeeded(&self) -> bool {
        let success = [SUCCESS.number().into(), SUCCESS.kind().into()];
        self.numbers[..2] == success
    }

    /// Session-Id and gateway of the tunnel that was cut, as the notice tells them.
    pub fn cut(&self) -> Option<(&'a [u8], &'a [u8])> {
        let [.., cut, session, host, _] = self.numbers;
        let text = |start: usize, length: u32| {
            let end = start + length as usize;
            self.notice.get(start..end).unwrap_or_default()
        };
        (cut != 0).then(|| (text(0, session), text(128, host)))
    }
}

/// The numbers of one account and label.
#[derive(Clone, Copy, Debug, PartialEq, Eq, Default)]
pub struct Counts {
    pub opened: usize,
    pub cut: usize,
    pub terminated: usize,
}

/// All that is known of one account.
#[derive(Clone, Debug, PartialEq, Eq, Default)]
pub struct Tunnels {
    /// Those that stand, the one opened first at the front.
    pub line: Vec<Opening>,
    pub events: Vec<Event>,
    /// By label, in the spelling under which it counts.
    pub counts: BTreeMap<Vec<u8>, Counts>,
}

/// A cut that was made: under which label, what went, which tunnel on that label stood
/// first, and which one was the last opened on it, standing or not.
#[derive(Clone, Debug, PartialEq, Eq)]
pub struct Cut {
    pub who: Who,
    pub label: Vec<u8>,
    pub session: Vec<u8>,
    pub host: Vec<u8>,
    pub first: Option<Opening>,
    pub latest: Option<Opening>,
}

/// What the calls since the last clearing come to.
#[derive(Clone, Debug, PartialEq, Eq, Default)]
pub struct History {
    pub accounts: BTreeMap<Who, Tunnels>,
    pub cuts: Vec<Cut>,
}

/// The decisions that a reader of calls could take otherwise, one field each.
#[derive(Clone, Copy)]
pub struct HistoryRules {
    pub starts_again: fn(&Operation, &Seen) -> bool,
    pub requests: for<'a> fn(&'a Operation, &'a Seen) -> Vec<Told<'a>>,
    pub who: fn(&Told) -> Who,
    pub opens: fn(&Told) -> bool,
    pub terminates: fn(&Told) -> bool,
    pub opened_label: fn(&Told) -> Vec<u8>,
    pub cut_label: fn(&Tunnels, &Told) -> Vec<u8>,
    pub ended_label: fn(&Tunnels, &Told) -> Vec<u8>,
    pub counts_as: fn(&[u8]) -> Vec<u8>,
    pub stand: fn(&mut Tunnels, Opening),
}

pub const REQUEST_W12: HistoryRules = HistoryRules {
    starts_again,
    requests,
    who: |told| told.who(),
    opens: |told| told.numbers[3] != 0,
    terminates: |told| told.is_termination() && told.succeeded(),
    opened_label: |told| told.text(W_APN).to_vec(),
    cut_label: |_, told| told.text(W_APN).to_vec(),
    ended_label: |_, told| told.text(W_APN).to_vec(),
    counts_as: |label| label.to_ascii_lowercase(),
    stand,
};

/// Clearing is a call that gave 0.
pub fn starts_again(operation: &Operation, seen: &Seen) -> bool {
    matches!(operation, Operation::Clear { .. }) && seen.numbers[0] == 0
}

/// The requests of a call, each with its result: set-up has none, a burst those that it took.
pub fn requests<'a>(operation: &'a Operation, seen: &'a Seen) -> Vec<Told<'a>> {
    match operation {
        Operation::Handle(asked) => vec![handled(asked, seen)],
        Operation::Burst(asked) => taken(asked, seen),
        _ => Vec::new(),
    }
}

fn handled<'a>(asked: &'a Asked, seen: &'a Seen) -> Told<'a> {
    Told {
        operator: asked.operator,
        message: &asked.message,
        numbers: seen.numbers,
        notice: &seen.notice_room,
    }
}

/// The k-th notice belongs to the k-th result with a cut.
fn taken<'a>(asked: &'a Bursting, seen: &'a Seen) -> Vec<Told<'a>> {
    let slot = Form::numbered(asked.form).map_or(1, Form::notice);
    let mut notices = seen.notice_room.chunks(slot);
    let whole = whole_messages(&WITH_W11, &asked.messages);
    let took = seen.numbers[1] as usize;
    let each = whole.into_iter().zip(&seen.results).take(took);
    each.map(|(message, numbers)| Told {
        operator: asked.operator,
        message,
        numbers: *numbers,
        notice: if numbers[4] == 0 {
            &[]
        } else {
            notices.next().unwrap_or_default()
        },
    })
    .collect()
}

/// An opening stands at the end, and nowhere else.
pub fn stand(tunnels: &mut Tunnels, opening: Opening) {
    tunnels.leave(&opening.session);
    tunnels.line.push(opening);
}

impl Tunnels {
    fn leave(&mut self, session: &[u8]) {
        self.line.retain(|standing| standing.session != session);
    }

    fn count(&mut self, rules: &HistoryRules, label: &[u8]) -> &mut Counts {
        self.counts.entry((rules.counts_as)(label)).or_default()
    }

    /// The first of those that stand on a label.
    pub fn first_on(&self, label: &[u8]) -> Option<&Opening> {
        self.line.iter().find(|o| same_label(&o.label, label))
    }

    /// The last opening on a label, whatever became of it.
    pub fn latest_on(&self, label: &[u8]) -> Option<&Opening> {
        let mut openings = self.events.iter().rev().filter_map(|event| match event {
            Event::Opened(opening) => Some(opening),
            _ => None,
        });
        openings.find(|opening| same_label(&opening.label, label))
    }

    /// The tunnel that this cut took is gone; the cut counts under its label.
    fn cut(&mut self, rules: &HistoryRules, told: &Told, session: &[u8], host: &[u8]) -> Cut {
        let label = told.text(W_APN);
        let cut = Cut {
            who: told.who(),
            label: label.to_vec(),
            session: session.to_vec(),
            host: host.to_vec(),
            first: self.first_on(label).cloned(),
            latest: self.latest_on(label).cloned(),
        };
        let counted = (rules.cut_label)(self, told);
        self.count(rules, &counted).cut += 1;
        self.leave(session);
        self.events.push(Event::Cut(session.to_vec()));
        cut
    }

    fn open(&mut self, rules: &HistoryRules, told: &Told) {
        let label = (rules.opened_label)(told);
        self.count(rules, &label).opened += 1;
        let opening = Opening {
            session: told.text(SESSION_ID).to_vec(),
            host: told.text(ORIGIN_HOST).to_vec(),
            label: told.text(W_APN).to_vec(),
        };
        (rules.stand)(self, opening.clone());
        self.events.push(Event::Opened(opening));
    }

    fn terminate(&mut self, rules: &HistoryRules, told: &Told) {
        let label = (rules.ended_label)(self, told);
        self.count(rules, &label).terminated += 1;
        let session = told.text(SESSION_ID);
        self.leave(session);
        self.events.push(Event::Terminated(session.to_vec()));
    }
}

impl History {
    /// Goes on by one call.
    pub fn follow(&mut self, rules: &HistoryRules, operation: &Operation, seen: &Seen) {
        if (rules.starts_again)(operation, seen) {
            *self = History::default();
        }
        for told in (rules.requests)(operation, seen) {
            self.request(rules, &told);
        }
    }

    /// A cut goes before the opening for which it was made.
    pub fn request(&mut self, rules: &HistoryRules, told: &Told) {
        let (opens, ends) = ((rules.opens)(told), (rules.terminates)(told));
        let cut = told.cut();
        if !opens && !ends && cut.is_none() {
            return;
        }
        let tunnels = self.accounts.entry((rules.who)(told)).or_default();
        if let Some((session, host)) = cut {
            self.cuts.push(tunnels.cut(rules, told, session, host));
        }
        if opens {
            tunnels.open(rules, told);
        } else if ends {
            tunnels.terminate(rules, told);
        }
    }

    /// The first law that the table does not keep, if there is one.
    pub fn broken(&self, rules: &HistoryRules, form: Form, table: &[u8]) -> Option<&'static str> {
        let used = rows(form, table).filter(|bytes| !row_is_free(bytes));
        let read = used.map(|bytes| sound(&WITH_W11, form, bytes));
        let Some(rows) = read.collect::<Option<Vec<Row>>>() else {
            return Some("a row is neither zero nor sound");
        };
        let mut by_name: BTreeMap<Who, &Row> = BTreeMap::new();
        for row in &rows {
            if by_name.insert(who(row), row).is_some() {
                return Some("an account has two rows");
            }
        }
        let nobody = Row::default();
        let nothing = Tunnels::default();
        let all = self.accounts.keys().chain(by_name.keys());
        for who in all {
            let tunnels = self.accounts.get(who).unwrap_or(&nothing);
            let row = by_name.get(who).copied().unwrap_or(&nobody);
            if lines_differ(&tunnels.line, &line_of(row)) {
                return Some("the order line is not that of the openings");
            }
            if counts_differ(rules, tunnels, row) {
                return Some("openings are not what stands, was cut and was terminated");
            }
            if over_a_limit(row) {
                return Some("more tunnels on a name than its limit");
            }
        }
        self.cuts.iter().find_map(|cut| {
            let limit = by_name.get(&cut.who).and_then(|row| {
                let entry = row.entry(row.entry_of(&cut.label)?)?;
                Some(entry.limit)
            });
            cut.is_wrong(limit.unwrap_or(1))
        })
    }
}

fn who(row: &Row) -> Who {
    (u32::from(row.operator), row.name.clone())
}

impl Cut {
    /// A cut takes what was opened first on its name, so never what was opened last, unless
    /// one tunnel is all that the name allows.
    pub fn is_wrong(&self, limit: u8) -> Option<&'static str> {
        let took = |opening: &Opening| opening.session == self.session;
        if limit > 1 && self.latest.as_ref().is_some_and(took) {
            return Some("a cut took the tunnel that was just opened");
        }
        let first = self.first.as_ref();
        if !first.is_some_and(|o| took(o) && o.host == self.host) {
            return Some("a cut did not take the tunnel that was opened first");
        }
        None
    }
}

/// The order line as the row has it: Session-Id, gateway and label of each.
pub fn line_of(row: &Row) -> Vec<Opening> {
    let opening = |place: &u8| {
        let access = row.access(*place)?;
        Some(Opening {
            session: access.session.clone(),
            host: access.host.clone(),
            label: row.entry(access.entry)?.label.clone(),
        })
    };
    row.line.iter().filter_map(opening).collect()
}

fn lines_differ(one: &[Opening], other: &[Opening]) -> bool {
    let same = |(one, other): (&Opening, &Opening)| {
        one.session == other.session
            && one.host == other.host
            && same_label(&one.label, &other.label)
    };
    one.len() != other.len() || !one.iter().zip(other).all(same)
}

/// Opened are those that stand in the row, those cut and those terminated, for each label.
fn counts_differ(rules: &HistoryRules, tunnels: &Tunnels, row: &Row) -> bool {
    let mut standing: BTreeMap<Vec<u8>, usize> = BTreeMap::new();
    for tunnel in line_of(row) {
        *standing
            .entry((rules.counts_as)(&tunnel.label))
            .or_default() += 1;
    }
    let none = Counts::default();
    let labels = standing.keys().chain(tunnels.counts.keys());
    let mut differs = labels.map(|label| {
        let n = tunnels.counts.get(label).unwrap_or(&none);
        let standing = standing.get(label).unwrap_or(&0);
        n.opened != standing + n.cut + n.terminated
    });
    differs.any(|differs| differs)
}

fn over_a_limit(row: &Row) -> bool {
    let line = line_of(row);
    let over = |entry: &Entry| {
        let on_it = line.iter().filter(|o| same_label(&o.label, &entry.label));
        on_it.count() > usize::from(entry.limit)
    };
    row.entries.iter().any(over)
}
