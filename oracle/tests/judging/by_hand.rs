//! The order of the numbers, and single answers by hand.

use oracle::drafts::{Draft, DraftAvp};
use oracle::judging::{EXPERIMENTAL_RESULT, FAILED_AVP, Kind, SUBSCRIPTION_ID, Verdict};
use oracle::judging_calls::JudgeCall;
use oracle::reading_a_message::{PROXY_INFO, base};
use oracle::rules::WITH_W11;
use oracle::the_table::{Access, Entry, FORMS, Form, Policies, Row, encode};

use crate::verdict;

const NAME: &[u8] = b"001010123456789";

/// The account of the worked cases with a tunnel at its limit, and an opening that cuts it,
/// as our server answers it.
fn cutting(form: Form) -> JudgeCall {
    let mut row = Row {
        name: NAME.to_vec(),
        entries: vec![Entry {
            label: b"yard".to_vec(),
            flags: 0,
            limit: 1,
        }],
        ..Row::default()
    };
    row.places[0] = Some(Access {
        entry: 1,
        session: b"a".to_vec(),
        host: b"pdg".to_vec(),
        realm: Vec::new(),
        policies: Policies::default(),
    });
    row.line.push(1);
    let mut draft = Draft::open(NAME, b"b", b"pdg", b"Yard");
    draft.avps.push(DraftAvp::new(PROXY_INFO, b"p1"));
    draft.avps.push(DraftAvp::new(PROXY_INFO, b"p2"));
    answered(JudgeCall {
        form: form.number(),
        before: encode(&WITH_W11, form, &row),
        operator: 0,
        host: b"aaa.home.example".to_vec(),
        realm: b"home.example".to_vec(),
        message: draft.bytes(),
        wag: false,
        answer: Vec::new(),
        notice: Vec::new(),
        after: Vec::new(),
        planted: Vec::new(),
        wanted: Verdict::Accepted,
    })
}

fn answered(mut call: JudgeCall) -> JudgeCall {
    call.answer_as_ours();
    call
}

/// Puts an AVP behind the last one, and makes the length true.
fn add(call: &mut JudgeCall, avp: &DraftAvp) -> usize {
    let at = call.answer.len();
    call.answer.extend(avp.bytes());
    let length = (call.answer.len() as u32).to_be_bytes();
    call.answer[1..4].copy_from_slice(&length[1..]);
    at
}

/// Groups in one another, so many of them, the innermost empty.
fn groups(count: usize) -> DraftAvp {
    let names = [FAILED_AVP, EXPERIMENTAL_RESULT, SUBSCRIPTION_ID];
    let mut group = DraftAvp::new(FAILED_AVP, b"");
    for nth in 1..count {
        let outer = if nth + 1 == count {
            FAILED_AVP
        } else {
            names[nth % 3]
        };
        group = DraftAvp::new(outer, &group.bytes());
    }
    group
}

#[test]
fn numbers_are_tested_in_order() {
    for form in FORMS {
        let mut call = cutting(form);
        assert_eq!(verdict(&call), Verdict::Accepted);
        assert_eq!(call.notice.len(), form.notice());
        // From the last to the first, each in front of those before.
        call.after[9] ^= 1;
        assert_eq!(verdict(&call), Verdict::Mismatch(Kind::Row, 9));
        call.notice[130] ^= 1;
        assert_eq!(verdict(&call), Verdict::Mismatch(Kind::Notice, 130));
        let last = call.answer.len() - 12;
        call.answer.truncate(last);
        let length = (last as u32).to_be_bytes();
        call.answer[1..4].copy_from_slice(&length[1..]);
        assert_eq!(verdict(&call), Verdict::Mismatch(Kind::Missing, 0));
        let at = add(&mut call, &DraftAvp::new(base(99_999), b"M"));
        assert_eq!(verdict(&call), Verdict::Mismatch(Kind::Avp, at));
        let mut broken = DraftAvp::new(base(1), b"");
        broken.length = Some(7);
        let at = add(&mut call, &broken);
        assert_eq!(verdict(&call), Verdict::Mismatch(Kind::Walk, at));
        call.answer[19] ^= 1;
        assert_eq!(verdict(&call), Verdict::Mismatch(Kind::Header, 19));
        // What is behind the AVP that failed is not read, what is before it is.
        let mut deep = call.clone();
        add(&mut deep, &groups(5));
        assert_eq!(verdict(&deep), Verdict::Mismatch(Kind::Header, 19));
        call.answer.truncate(at);
        add(&mut call, &groups(5));
        add(&mut call, &broken);
        assert_eq!(verdict(&call), Verdict::Refused(31));
        call.host.clear();
        assert_eq!(verdict(&call), Verdict::Refused(2));
        call.operator = 16;
        assert_eq!(verdict(&call), Verdict::Refused(33));
        for rows in [0, 2] {
            let mut other = call.clone();
            other.after.resize(rows * form.row(), 0);
            assert_eq!(verdict(&other), Verdict::Refused(1));
            let mut other = call.clone();
            other.before.resize(rows * form.row(), 0);
            assert_eq!(verdict(&other), Verdict::Refused(1));
        }
        for said in [0, 3, 3 - form.number()] {
            call.form = said;
            assert_eq!(verdict(&call), Verdict::Refused(1));
        }
    }
}

/// Four groups in one another pass, a fifth does not, and one that fails its own tests is no
/// group.
#[test]
fn groups_nest_to_depth_four() {
    for count in 1..=6 {
        let mut call = cutting(Form::One);
        add(&mut call, &groups(count));
        let wanted = if count > 4 {
            Verdict::Refused(31)
        } else {
            Verdict::Accepted
        };
        assert_eq!(verdict(&call), wanted, "{count}");
    }
    let mut call = cutting(Form::One);
    let mut avp = groups(5);
    // The innermost group's length, at the end of them all.
    *avp.value.last_mut().unwrap() = 7;
    let at = add(&mut call, &avp);
    assert_eq!(verdict(&call), Verdict::Mismatch(Kind::Walk, at + 32));
}

/// An answer that is not due, one that is missing, and one that is too short.
#[test]
fn answers_that_are_no_answers() {
    let mut call = cutting(Form::Two);
    let full = call.answer.clone();
    call.answer.clear();
    assert_eq!(verdict(&call), Verdict::Mismatch(Kind::Header, 0));
    call.answer = full[..12].to_vec();
    assert_eq!(verdict(&call), Verdict::Mismatch(Kind::Header, 3));
    call.answer[1..4].copy_from_slice(&[0, 0, 12]);
    assert_eq!(verdict(&call), Verdict::Mismatch(Kind::Header, 12));
    // A message of version 2 has none.
    call.message[0] = 2;
    let mut call = answered(call);
    assert!(call.answer.is_empty() && call.notice.is_empty() && call.before == call.after);
    assert_eq!(verdict(&call), Verdict::Accepted);
    call.answer = full;
    assert_eq!(verdict(&call), Verdict::Mismatch(Kind::Header, 0));
    add(&mut call, &groups(5));
    assert_eq!(verdict(&call), Verdict::Refused(31));
}

/// Of 2^24 bytes or more no header can say the length; a word less passes.
#[test]
fn a_length_that_no_header_holds() {
    let mut call = cutting(Form::One);
    let front = call.answer.len();
    for (size, wanted) in [
        ((1 << 24) - 4, Verdict::Accepted),
        (1 << 24, Verdict::Mismatch(Kind::Header, 1)),
        ((1 << 24) + 4, Verdict::Mismatch(Kind::Header, 1)),
    ] {
        call.answer.truncate(front);
        let mut much = DraftAvp::new(base(281), &vec![0; size - front - 8]);
        much.flags = 0;
        add(&mut call, &much);
        assert_eq!(call.answer.len(), size);
        assert_eq!(verdict(&call), wanted);
    }
}
