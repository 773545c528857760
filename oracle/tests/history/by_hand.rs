//! The worked cases as one history, and what each law says of it.

use oracle::drafts::Draft;
use oracle::generator::{add, clear, enter, request};
use oracle::history::{Counts, Cut, History, Opening, REQUEST_W12};
use oracle::program::{Operation, Seen, perform};
use oracle::random::Random;
use oracle::rules::WITH_W11;
use oracle::the_table::{FORMS, Form};

const NAME: &[u8] = b"001010123456789";

struct Table {
    form: Form,
    bytes: Vec<u8>,
    history: History,
}

impl Table {
    /// Two operators have the name; "board" allows two tunnels, "yard" one.
    fn new(form: Form) -> Table {
        let mut table = Table {
            form,
            bytes: vec![7; 2 * form.row()],
            history: History::default(),
        };
        let mut shares = [0; 16];
        (shares[0], shares[3]) = (1, 1);
        table.call(&clear(form));
        for operator in [0, 3] {
            table.call(&enter(form, operator, &shares, NAME));
            table.call(&add(form, operator, NAME, b"board", 2, 0));
            table.call(&add(form, operator, NAME, b"yard", 1, 0));
        }
        table
    }

    fn call(&mut self, operation: &Operation) -> Seen {
        let seen = perform(&mut WITH_W11.clone(), operation, &mut self.bytes);
        self.history.follow(&REQUEST_W12, operation, &seen);
        let law = self.history.broken(&REQUEST_W12, self.form, &self.bytes);
        assert_eq!(law, None);
        seen
    }

    /// Code and place.
    fn open(&mut self, session: &[u8], label: &[u8]) -> (u32, u32) {
        self.request(&Draft::open(NAME, session, b"pdg", label))
    }

    fn end(&mut self, session: &[u8], label: &[u8]) -> (u32, u32) {
        self.request(&Draft::termination(NAME, session, b"pdg", label))
    }

    fn request(&mut self, draft: &Draft) -> (u32, u32) {
        let mut random = Random::new(1);
        let seen = self.call(&request(self.form, 0, draft, true, &mut random));
        (seen.numbers[0], seen.numbers[3])
    }

    fn line(&self) -> String {
        let tunnels = &self.history.accounts[&(0, NAME.to_vec())];
        let sessions = tunnels.line.iter().flat_map(|o| o.session.clone());
        String::from_utf8(sessions.collect()).unwrap()
    }

    /// Opened, cut and terminated.
    fn counts(&self, label: &[u8]) -> [usize; 3] {
        let tunnels = &self.history.accounts[&(0, NAME.to_vec())];
        let Counts {
            opened,
            cut,
            terminated,
        } = tunnels.counts[label];
        [opened, cut, terminated]
    }
}

#[test]
fn the_worked_cases_are_a_history() {
    for form in FORMS {
        let mut table = Table::new(form);
        assert_eq!(table.open(b"a", b"board"), (2001, 1));
        assert_eq!(table.open(b"b", b"Board"), (2001, 2));
        assert_eq!(table.line(), "ab");
        assert_eq!(table.open(b"c", b"board"), (2001, 1));
        assert_eq!(table.line(), "bc");
        // W11: the one that stands is granted, and keeps its age.
        assert_eq!(table.open(b"b", b"board"), (2001, 0));
        assert_eq!(table.line(), "bc");
        assert_eq!(table.open(b"y", b"yard"), (2001, 3));
        assert_eq!(table.open(b"b", b"yard"), (5012, 0));
        assert_eq!(table.open(b"d", b"BOARD"), (2001, 2));
        assert_eq!(table.line(), "cyd");
        // One that was cut and comes again is the youngest.
        assert_eq!(table.open(b"a", b"board"), (2001, 1));
        assert_eq!(table.line(), "yda");
        assert_eq!(table.counts(b"board"), [5, 3, 0]);
        assert_eq!(table.end(b"c", b"board"), (5042, 0));
        assert_eq!(table.end(b"d", b"yard"), (5042, 0));
        assert_eq!(table.end(b"d", b"bOARD"), (2001, 0));
        assert_eq!(table.line(), "ya");
        assert_eq!(table.open(b"z", b"yard"), (2001, 2));
        assert_eq!(table.line(), "az");
        assert_eq!(table.counts(b"board"), [5, 3, 1]);
        assert_eq!(table.counts(b"yard"), [2, 1, 0]);
        // The other operator's account of this name has no tunnel and no count.
        assert_eq!(table.history.accounts.len(), 1);
        table.call(&clear(form));
        assert_eq!(table.history, History::default());
    }
}

/// Only a limit of 1 allows that the tunnel just opened is cut.
#[test]
fn the_one_just_opened_is_cut_at_a_limit_of_one_alone() {
    let opening = |session: &[u8]| Opening {
        session: session.to_vec(),
        host: b"pdg".to_vec(),
        label: b"board".to_vec(),
    };
    let cut = |session: &[u8], first: &[u8], latest: &[u8]| Cut {
        who: (0, NAME.to_vec()),
        label: b"BOARD".to_vec(),
        session: session.to_vec(),
        host: b"pdg".to_vec(),
        first: Some(opening(first)),
        latest: Some(opening(latest)),
    };
    assert_eq!(cut(b"a", b"a", b"b").is_wrong(2), None);
    assert_eq!(cut(b"a", b"a", b"a").is_wrong(1), None);
    assert!(cut(b"a", b"a", b"a").is_wrong(2).is_some());
    assert!(cut(b"b", b"a", b"b").is_wrong(2).is_some());
    assert!(cut(b"b", b"a", b"c").is_wrong(2).is_some());
    let other_host = Cut {
        host: b"gw".to_vec(),
        ..cut(b"a", b"a", b"b")
    };
    assert!(other_host.is_wrong(2).is_some());
}
