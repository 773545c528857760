//! W10, judging the old server's answers: whether an answer, a notice and a row are those
//! that one call gives on a table of exactly that row, and if not, what differs first.

use crate::handling::{ANSWER_ROOM, Call};
use crate::reading_a_message::{Avp, HEADER, Name, SESSION_ID, base, is, walk_tests};
use crate::rules::{Rules, WITH_W11};
use crate::set_up::operator_fits;
use crate::the_table::Form;

/// What is to be judged: a request with all that a call brings besides its rooms, the row
/// before, and what the old server made of it. An answer or a notice of no bytes is none.
#[derive(Clone, Copy, Debug)]
pub struct Judged<'a> {
    pub form: u32,
    pub before: &'a [u8],
    pub operator: u32,
    pub host: &'a [u8],
    pub realm: &'a [u8],
    pub message: &'a [u8],
    pub wag: bool,
    pub answer: &'a [u8],
    pub notice: &'a [u8],
    pub after: &'a [u8],
}

/// What a mismatch is in, in the order in which they are told.
#[derive(Clone, Copy, Debug, PartialEq, Eq, PartialOrd, Ord)]
pub enum Kind {
    Header = 1,
    Walk,
    Avp,
    Missing,
    Notice,
    Row,
}

/// How long the rooms are that ours is written into.
#[derive(Clone, Copy, Debug, PartialEq, Eq)]
pub struct Rooms {
    pub answer: usize,
    pub notice: usize,
}

/// Rooms for whatever is due.
pub const ENOUGH: Rooms = Rooms {
    answer: ANSWER_ROOM,
    notice: Form::Two.notice(),
};

#[derive(Clone, Copy, Debug, PartialEq, Eq, PartialOrd, Ord)]
pub enum Verdict {
    Accepted,
    /// Numbers 1, 33, 2, 3, 4 and 31.
    Refused(u16),
    /// Number 32: the first mismatch and its byte.
    Mismatch(Kind, usize),
}

impl Verdict {
    /// The number, 0 if accepted, with 32 the kind and the byte.
    pub fn numbers(self) -> [u32; 3] {
        match self {
            Verdict::Accepted => [0; 3],
            Verdict::Refused(number) => [u32::from(number), 0, 0],
            Verdict::Mismatch(kind, byte) => [32, kind as u32, byte as u32],
        }
    }
}

/// What demand 2 says: an answer, a notice or none, and the row.
#[derive(Clone, Debug, PartialEq, Eq, Default)]
pub struct Due {
    pub answer: Vec<u8>,
    pub notice: Vec<u8>,
    pub row: Vec<u8>,
}

/// A verdict, and what is due: it is written over the row before and into the rooms, whatever
/// the verdict, unless it is a number of the call's own.
#[derive(Clone, Debug, PartialEq, Eq)]
pub struct Judgement {
    pub verdict: Verdict,
    pub written: Option<Due>,
}

/// An AVP of the answer and where it starts there.
#[derive(Clone, Copy, Debug, PartialEq, Eq)]
pub struct Placed<'a> {
    pub at: usize,
    pub avp: Avp<'a>,
}

/// Why a walk ended early, and where the AVP starts at which it did.
#[derive(Clone, Copy, Debug, PartialEq, Eq)]
pub enum Ended {
    Fails(usize),
    TooDeep(usize),
}

pub type Walked<'a> = Result<Vec<Placed<'a>>, Ended>;

/// Both sides, with the walk over the old server's answer.
pub struct Sides<'a> {
    pub judged: &'a Judged<'a>,
    pub due: &'a Due,
    pub walked: &'a Walked<'a>,
}

/// Where one thing differs, if it does.
pub type Stage = fn(&JudgeRules, &Sides) -> Option<usize>;

/// The decisions that a judge could take otherwise, one field each.
#[derive(Clone, Copy)]
pub struct JudgeRules {
    pub server: Rules,
    pub number: fn(&Judged, Rooms) -> u16,
    pub due: fn(&JudgeRules, &Judged) -> Due,
    pub depth: usize,
    pub is_group: fn(&Avp) -> bool,
    pub walk: for<'a> fn(&JudgeRules, &'a [u8], usize, usize) -> Walked<'a>,
    pub stages: [(Kind, Stage); 6],
    pub told: fn(&[(Kind, usize)]) -> Option<(Kind, usize)>,
    /// Whether 31 is told, given what differs.
    pub too_deep_first: fn(&[(Kind, usize)]) -> bool,
    pub first_is_own: fn(&[Avp]) -> bool,
    pub passed_over: fn(&[Avp], &Avp) -> bool,
    pub next: fn(&[Avp], &Avp) -> Option<usize>,
    pub same: fn(&Avp, &Avp) -> bool,
}

pub const REQUEST_W10: JudgeRules = JudgeRules {
    server: WITH_W11,
    number,
    due,
    depth: 4,
    is_group,
    walk,
    stages: [
        (Kind::Header, header_differs),
        (Kind::Walk, walk_fails),
        (Kind::Avp, avp_differs),
        (Kind::Missing, one_is_missing),
        (Kind::Notice, notice_differs),
        (Kind::Row, row_differs),
    ],
    told: |differing| differing.first().copied(),
    too_deep_first: |_| true,
    first_is_own,
    passed_over,
    next,
    same,
};

pub const RESULT_CODE: Name = base(268);
pub const EXPERIMENTAL_RESULT: Name = base(297);
pub const SUBSCRIPTION_ID: Name = base(443);
pub const FAILED_AVP: Name = base(279);

/// Number 1 unless both rows are one row of the form said, then 33, then 2; a room that is too
/// small for any answer or notice is 3 or 4, as for a call. 0 if none holds.
pub fn number(judged: &Judged, rooms: Rooms) -> u16 {
    let one_row = |form: &Form| [judged.before, judged.after].map(<[u8]>::len) == [form.row(); 2];
    let Some(form) = Form::numbered(judged.form).filter(one_row) else {
        return 1;
    };
    let named = |name: &[u8]| (1..=128).contains(&name.len());
    if !operator_fits(judged.operator) {
        33
    } else if !named(judged.host) || !named(judged.realm) {
        2
    } else if rooms.answer < ANSWER_ROOM {
        3
    } else if rooms.notice < form.notice() {
        4
    } else {
        0
    }
}

/// What one call gives on a table of the row before, in rooms that are large enough. A
/// request that gets a number from 5 to 8 has no answer and no notice and leaves the row.
pub fn due(rules: &JudgeRules, judged: &Judged) -> Due {
    let slot = Form::numbered(judged.form).map_or(0, Form::notice);
    let mut due = Due {
        answer: vec![0; ANSWER_ROOM],
        notice: vec![0; slot],
        row: judged.before.to_vec(),
    };
    let call = Call {
        form: judged.form,
        table: &mut due.row,
        operator: judged.operator,
        host: judged.host,
        realm: judged.realm,
        message: judged.message,
        wag: judged.wag,
        answer_room: &mut due.answer,
        notice_room: &mut due.notice,
    };
    let outcome = (rules.server.handle)(&rules.server, call);
    due.answer.truncate(outcome.length);
    if outcome.cut.is_none() {
        due.notice.clear();
    }
    due
}

/// The three groups; Proxy-Info is none here, and one with V is none.
pub fn is_group(avp: &Avp) -> bool {
    [EXPERIMENTAL_RESULT, SUBSCRIPTION_ID, FAILED_AVP]
        .iter()
        .any(|name| is(avp, *name))
}

/// The four tests of each AVP, and each group's inside as it comes, whatever it stands in,
/// with so many groups left that may stand in one another. `start` is where these bytes are.
pub fn walk<'a>(rules: &JudgeRules, bytes: &'a [u8], start: usize, left: usize) -> Walked<'a> {
    let mut placed = Vec::new();
    let (mut rest, mut at) = (bytes, start);
    while !rest.is_empty() {
        let avp = walk_tests(rest).map_err(|_| Ended::Fails(at))?;
        if (rules.is_group)(&avp) {
            let inside = left.checked_sub(1).ok_or(Ended::TooDeep(at))?;
            let front = if avp.vendor.is_some() { 12 } else { 8 };
            (rules.walk)(rules, avp.value, at + front, inside)?;
        }
        placed.push(Placed { at, avp });
        rest = &rest[avp.whole.len()..];
        at += avp.whole.len();
    }
    Ok(placed)
}

/// The verdict where there is room enough.
pub fn judge(rules: &JudgeRules, judged: &Judged) -> Verdict {
    judge_in(rules, judged, ENOUGH).verdict
}

/// A number of the call's own, then 31, then the first mismatch.
pub fn judge_in(rules: &JudgeRules, judged: &Judged, rooms: Rooms) -> Judgement {
    let number = (rules.number)(judged, rooms);
    if number != 0 {
        return Judgement {
            verdict: Verdict::Refused(number),
            written: None,
        };
    }
    let due = (rules.due)(rules, judged);
    Judgement {
        verdict: held_against(rules, judged, &due),
        written: Some(due),
    }
}

/// What the old server did, held against what is due.
fn held_against(rules: &JudgeRules, judged: &Judged, due: &Due) -> Verdict {
    let behind = judged.answer.get(HEADER..).unwrap_or_default();
    let walked = &(rules.walk)(rules, behind, HEADER, rules.depth);
    let sides = Sides {
        judged,
        due,
        walked,
    };
    let differs = |(kind, stage): &(Kind, Stage)| Some((*kind, stage(rules, &sides)?));
    let differing: Vec<_> = rules.stages.iter().filter_map(differs).collect();
    if matches!(walked, Err(Ended::TooDeep(_))) && (rules.too_deep_first)(&differing) {
        return Verdict::Refused(31);
    }
    match (rules.told)(&differing) {
        Some((kind, byte)) => Verdict::Mismatch(kind, byte),
        None => Verdict::Accepted,
    }
}

/// The first byte in which two things differ, the shorter one at its end.
pub fn first_difference(one: &[u8], other: &[u8]) -> Option<usize> {
    let longer = one.len().max(other.len());
    (0..longer).find(|&at| one.get(at) != other.get(at))
}

/// All twenty bytes, with the length of the bytes given. What is longer than three bytes can
/// say differs in the first of them.
pub fn header_differs(_: &JudgeRules, sides: &Sides) -> Option<usize> {
    let (ours, theirs) = (&sides.due.answer, sides.judged.answer);
    if ours.is_empty() || theirs.is_empty() {
        return (ours.len() != theirs.len()).then_some(0);
    }
    let length = theirs.len();
    let wanted = |at: usize| match at {
        1 => length >> 16,
        2 => length >> 8 & 0xFF,
        3 => length & 0xFF,
        _ => usize::from(ours[at]),
    };
    (0..HEADER).find(|&at| theirs.get(at).copied().map(usize::from) != Some(wanted(at)))
}

pub fn walk_fails(_: &JudgeRules, sides: &Sides) -> Option<usize> {
    match sides.walked {
        Err(Ended::Fails(at)) => Some(*at),
        _ => None,
    }
}

/// The AVPs of an answer of ours.
pub fn avps_of(answer: &[u8]) -> Vec<Avp<'_>> {
    let mut avps = Vec::new();
    let mut rest = answer.get(HEADER..).unwrap_or_default();
    while let Ok(avp) = walk_tests(rest) {
        rest = &rest[avp.whole.len()..];
        avps.push(avp);
    }
    avps
}

/// Each AVP in its place: where the first mismatch starts, and those of ours not met then.
fn compared<'a>(rules: &JudgeRules, sides: &Sides<'a>) -> (Option<usize>, Vec<Avp<'a>>) {
    let ours = avps_of(&sides.due.answer);
    let mut unmet = ours.clone();
    let theirs = sides.walked.as_deref().unwrap_or_default();
    for (place, Placed { at, avp }) in theirs.iter().enumerate() {
        let own = place == 0 && (rules.first_is_own)(&ours);
        if !own && (rules.passed_over)(&ours, avp) {
            continue;
        }
        let next = (rules.next)(&unmet, avp).filter(|nth| !own || *nth == 0);
        match next.filter(|nth| (rules.same)(&unmet[*nth], avp)) {
            Some(nth) => drop(unmet.remove(nth)),
            None => return (Some(*at), unmet),
        }
    }
    (None, unmet)
}

pub fn avp_differs(rules: &JudgeRules, sides: &Sides) -> Option<usize> {
    compared(rules, sides).0
}

/// Told after all places, and of no byte.
pub fn one_is_missing(rules: &JudgeRules, sides: &Sides) -> Option<usize> {
    let unmet = compared(rules, sides).1;
    (!unmet.is_empty()).then_some(0)
}

pub fn notice_differs(_: &JudgeRules, sides: &Sides) -> Option<usize> {
    first_difference(&sides.due.notice, sides.judged.notice)
}

pub fn row_differs(_: &JudgeRules, sides: &Sides) -> Option<usize> {
    first_difference(&sides.due.row, sides.judged.after)
}

/// If ours starts with Session-Id, the first place is its own.
pub fn first_is_own(ours: &[Avp]) -> bool {
    ours.first().is_some_and(|avp| is(avp, SESSION_ID))
}

pub fn same_name(one: &Avp, other: &Avp) -> bool {
    one.code == other.code && one.vendor == other.vendor
}

/// Failed-AVP, however often, and a name that this answer of ours lacks, without M.
pub fn passed_over(ours: &[Avp], avp: &Avp) -> bool {
    let lacks = !ours.iter().any(|other| same_name(other, avp));
    is(avp, FAILED_AVP) || lacks && !avp.mandatory
}

/// The next of that name not yet met.
pub fn next(unmet: &[Avp], avp: &Avp) -> Option<usize> {
    unmet.iter().position(|other| same_name(other, avp))
}

/// The flag byte and the value; padding is neither.
pub fn same(ours: &Avp, theirs: &Avp) -> bool {
    ours.whole[4] == theirs.whole[4] && ours.value == theirs.value
}
