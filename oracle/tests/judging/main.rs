//! W10, judging the old server's answers: what is planted in them is found, a second
//! definition of the same answer agrees, and wrong judges are told apart.

mod by_hand;
mod same_answer;
mod wrong_judges;

use std::collections::BTreeMap;

use oracle::judge_rounds::{JudgeDecks, round};
use oracle::judging::{
    EXPERIMENTAL_RESULT, Kind, REQUEST_W10, RESULT_CODE, Verdict, avps_of, judge,
};
use oracle::judging_calls::{JudgeCall, change, old_call, old_calls, own_call};
use oracle::program::{Operation, perform};
use oracle::random::Random;
use oracle::reading_a_message::is;
use oracle::rules::WITH_W11;
use same_answer::is_the_same;

fn verdict(call: &JudgeCall) -> Verdict {
    judge(&REQUEST_W10, &call.judged())
}

/// Everything our own server writes is accepted; every sort of answer comes up, and none.
#[test]
fn our_own_are_accepted() {
    let mut random = Random::new(100);
    let mut met: BTreeMap<(bool, bool, bool, usize), usize> = BTreeMap::new();
    for _ in 0..4_000 {
        let call = own_call(&mut random);
        assert_eq!(verdict(&call), Verdict::Accepted, "{call:?}");
        assert!(is_the_same(&call), "{call:?}");
        let answer = !call.answer.is_empty();
        let (notice, row) = (!call.notice.is_empty(), call.before != call.after);
        let avps = avps_of(&call.answer).len().min(9);
        *met.entry((answer, notice, row, avps)).or_default() += 1;
    }
    assert!(met.len() > 15, "{met:?}");
}

/// The verdict is the one planted: nothing, one mismatch, or the first of two. Each thing that
/// can be planted is, alone and before another one.
#[test]
fn what_is_planted_is_found() {
    let mut alone: BTreeMap<&str, usize> = BTreeMap::new();
    let mut pairs: BTreeMap<[&str; 2], usize> = BTreeMap::new();
    let mut verdicts: BTreeMap<[u32; 2], usize> = BTreeMap::new();
    for call in old_calls(101, 18_000) {
        assert_eq!(verdict(&call), call.wanted, "{call:?}");
        match call.planted[..] {
            [one] => *alone.entry(one).or_default() += 1,
            [one, other] => *pairs.entry([one.min(other), one.max(other)]).or_default() += 1,
            _ => (),
        }
        let [number, kind, _] = call.wanted.numbers();
        *verdicts.entry([number, kind]).or_default() += 1;
    }
    assert_eq!(alone.len(), 25, "{alone:#?}");
    assert!(alone.values().all(|times| *times > 20), "{alone:#?}");
    assert!(pairs.len() > 150, "{}", pairs.len());
    let numbers: Vec<[u32; 2]> = verdicts.keys().copied().collect();
    let wanted = [
        [0, 0],
        [31, 0],
        [32, 1],
        [32, 2],
        [32, 3],
        [32, 4],
        [32, 5],
        [32, 6],
    ];
    assert_eq!(numbers, wanted);
    assert!(verdicts.values().all(|times| *times > 100), "{verdicts:?}");
}

/// The calls of a script say what has to be told of them, and that is told; whatever the verdict,
/// row and rooms are left as by the request itself, and with a number of its own as they were.
#[test]
fn a_script_says_what_is_told() {
    let (mut decks, mut random) = (JudgeDecks::default(), Random::new(107));
    let mut known = 0;
    for made in (0..150).flat_map(|_| round(&mut decks, &mut random)) {
        let Operation::Judge(judging) = made.call.operation(made.rooms) else {
            unreachable!("a judgement is one");
        };
        let [mut judged, mut handled] = [made.call.before.clone(), made.call.before.clone()];
        let asked = Operation::Handle(judging.asked.clone());
        let seen = perform(
            &mut WITH_W11.clone(),
            &Operation::Judge(judging),
            &mut judged,
        );
        if let Some(wanted) = made.wanted {
            assert_eq!(seen.numbers[..3], wanted.numbers(), "{:?}", made.call);
            known += 1;
        }
        if [0, 31, 32].contains(&seen.numbers[0]) {
            let left = perform(&mut WITH_W11.clone(), &asked, &mut handled);
            assert!(left.answer_room == seen.answer_room && left.notice_room == seen.notice_room);
        }
        assert!(judged == handled, "{:?}", made.call);
    }
    assert!(known > 2_500, "{known}");
}

/// Accepted exactly if it is the same answer, notice and row, by a definition of its own.
#[test]
fn accepted_exactly_if_the_same() {
    for call in old_calls(102, 6_000) {
        let accepted = verdict(&call) == Verdict::Accepted;
        assert_eq!(accepted, is_the_same(&call), "{call:?}");
    }
}

/// The same where bytes are changed at random, most of them in the AVPs.
#[test]
fn accepted_exactly_if_the_same_after_any_change() {
    let mut random = Random::new(103);
    let mut accepted = 0;
    for _ in 0..9_000 {
        let mut call = old_call(0, &mut random);
        for _ in 0..random.from_to(1, 2) {
            change(&mut call, &mut random);
        }
        let now = verdict(&call) == Verdict::Accepted;
        accepted += usize::from(now);
        assert_eq!(now, is_the_same(&call), "{call:?}");
    }
    assert!((500..8_000).contains(&accepted), "{accepted}");
}

/// What is accepted has one Result-Code or Experimental-Result with M, that of ours.
#[test]
fn accepted_answers_have_one_result_with_m() {
    let mut random = Random::new(104);
    let mut others = 0;
    for _ in 0..3_000 {
        let call = old_call(0, &mut random);
        let results = |answer: &[u8]| {
            let avps = avps_of(answer).into_iter();
            let results = avps.filter(|a| is(a, RESULT_CODE) || is(a, EXPERIMENTAL_RESULT));
            results
                .map(|a| (a.mandatory, a.code, a.value.to_vec()))
                .collect::<Vec<_>>()
        };
        let ours = results(&oracle::judging::due(&REQUEST_W10, &call.judged()).answer);
        let (with, without): (Vec<_>, Vec<_>) = results(&call.answer)
            .into_iter()
            .partition(|(mandatory, ..)| *mandatory);
        assert_eq!(with, ours, "{call:?}");
        assert_eq!(with.len(), usize::from(!call.answer.is_empty()));
        others += usize::from(!without.is_empty());
    }
    // By the letter of the request one that contradicts it passes without M.
    assert!(others > 50, "{others}");
}

/// The kinds are told by number.
#[test]
fn kinds_have_numbers() {
    let kinds = [
        Kind::Header,
        Kind::Walk,
        Kind::Avp,
        Kind::Missing,
        Kind::Notice,
        Kind::Row,
    ];
    for (number, kind) in (1..).zip(kinds) {
        assert_eq!(Verdict::Mismatch(kind, 7).numbers(), [32, number, 7]);
    }
}
