//! Judges that take one thing otherwise: the old server's answers tell each of them apart.

use oracle::deciding::held_is_refused;
use oracle::framing::{read, write};
use oracle::handling::message_number;
use oracle::judge_rounds::{JudgeDecks, judgements};
use oracle::judging::*;
use oracle::judging_calls::old_calls;
use oracle::program::{Judging, Operation};
use oracle::random::Random;
use oracle::reading_a_message::{Avp, HEADER, MANDATORY, PROXY_INFO, SESSION_ID, is};
use oracle::recorder::Recorder;
use oracle::rules::{DOCUMENT_01, Rules, WITH_W11};
use oracle::script::{self, Record};
use oracle::the_table::Form;

type Wrong = (&'static str, JudgeRules);

const RIGHT: JudgeRules = REQUEST_W10;

macro_rules! wrong {
    ($($name:literal: $($field:ident = $value:expr),+;)+) => {
        vec![$(($name, JudgeRules { $($field: $value,)+ ..RIGHT })),+]
    };
}

/// The stages with another one of this kind.
fn stages(kind: Kind, stage: Stage) -> [(Kind, Stage); 6] {
    RIGHT
        .stages
        .map(|own| if own.0 == kind { (kind, stage) } else { own })
}

fn lacks(ours: &[Avp], avp: &Avp) -> bool {
    !ours.iter().any(|other| same_name(other, avp))
}

fn in_the_header() -> Vec<Wrong> {
    wrong! {
        "does not compare the length in the header": stages = stages(Kind::Header, |r, sides| {
            header_differs(r, sides).filter(|at| !(1..4).contains(at))
        });
        "compares the header with ours, length and all": stages = stages(Kind::Header, |_, sides| {
            let ours = sides.due.answer.get(..HEADER).unwrap_or_default();
            first_difference(ours, sides.judged.answer.get(..HEADER).unwrap_or_default())
        });
        "does not compare the flags": stages = stages(Kind::Header, |r, sides| {
            header_differs(r, sides).filter(|at| *at != 4)
        });
        "does not compare the identifiers": stages = stages(Kind::Header, |r, sides| {
            header_differs(r, sides).filter(|at| *at < 12)
        });
        "takes no answer for any": stages = stages(Kind::Header, |r, sides| {
            header_differs(r, sides).filter(|_| !sides.judged.answer.is_empty())
        });
        "takes an answer that is not due": stages = stages(Kind::Header, |r, sides| {
            header_differs(r, sides).filter(|_| message_number(sides.judged.message) == 0)
        });
        "tells an answer under 20 bytes at its front": stages = stages(Kind::Header, |r, sides| {
            let short = sides.judged.answer.len() < HEADER;
            header_differs(r, sides).map(|at| if short { 0 } else { at })
        });
        "tells a wrong header before a group that is too deep": too_deep_first = |differing| {
            !differing.iter().any(|(kind, _)| *kind == Kind::Header)
        };
        "tells any mismatch before a group that is too deep": too_deep_first = |differing| {
            differing.is_empty()
        };
    }
}

/// What differs before the AVP at which the walk fails, if that is none of a group.
fn differs_in_front(rules: &JudgeRules, sides: &Sides) -> Option<usize> {
    let Err(Ended::Fails(at)) = sides.walked else {
        return avp_differs(rules, sides);
    };
    let front = sides.judged.answer.get(HEADER..*at)?;
    let walked = &walk(rules, front, HEADER, rules.depth);
    avp_differs(rules, &Sides { walked, ..*sides })
}

fn in_the_walk() -> Vec<Wrong> {
    wrong! {
        "counts depth from 0": depth = 5;
        "lets groups nest to depth three": depth = 3;
        "an empty fifth group passes": walk = |rules, bytes, start, left| {
            match walk(rules, bytes, start, left) {
                Err(Ended::TooDeep(at)) if at >= start
                    && bytes.get(at - start + 5..at - start + 8) == Some(&[0, 0, 8]) =>
                {
                    Ok(Vec::new())
                }
                other => other,
            }
        };
        "does not look into groups": is_group = |_| false;
        "does not look into Failed-AVP": is_group = |avp| is_group(avp) && !is(avp, FAILED_AVP);
        "does not look into Subscription-Id": is_group = |avp| {
            is_group(avp) && !is(avp, SUBSCRIPTION_ID)
        };
        "does not look into Experimental-Result": is_group = |avp| {
            is_group(avp) && !is(avp, EXPERIMENTAL_RESULT)
        };
        "Proxy-Info is a group": is_group = |avp| is_group(avp) || is(avp, PROXY_INFO);
        "groups go by their code alone": is_group = |avp| [279, 297, 443].contains(&avp.code);
        "tells an inner AVP at its group": walk = |rules, bytes, start, left| {
            let outer = left < rules.depth;
            let at = |ended| match ended {
                Ended::Fails(_) if outer => Ended::Fails(start - 8),
                other => other,
            };
            walk(rules, bytes, start, left).map_err(at)
        };
        "tells an inner AVP from its group on": walk = |rules, bytes, start, left| {
            let start = if left < rules.depth { 0 } else { start };
            walk(rules, bytes, start, left)
        };
        "goes on behind an AVP that fails": walk = |rules, bytes, start, left| {
            match walk(rules, bytes, start, left) {
                Err(Ended::Fails(at)) if at >= start => {
                    let next = (at - start + 4..bytes.len()).step_by(4);
                    let deep = next.map(|from| walk(rules, &bytes[from..], from, left));
                    let deep = deep.into_iter().find(|walked| {
                        matches!(walked, Err(Ended::TooDeep(_)))
                    });
                    deep.unwrap_or(Err(Ended::Fails(at)))
                }
                other => other,
            }
        };
        "a rest too short for an AVP passes": stages = stages(Kind::Walk, |r, sides| {
            walk_fails(r, sides).filter(|at| at + 8 <= sides.judged.answer.len())
        });
        "an answer of no multiple of 4 passes": stages = stages(Kind::Walk, |r, sides| {
            walk_fails(r, sides).filter(|_| sides.judged.answer.len() % 4 == 0)
        });
        "compares AVPs as it walks": stages = {
            let mut stages = RIGHT.stages;
            stages[1] = (Kind::Avp, differs_in_front);
            stages[2] = (Kind::Walk, walk_fails);
            stages
        };
    }
}

fn in_the_avps() -> Vec<Wrong> {
    wrong! {
        "takes Proxy-Infos in any order": next = |unmet, avp| {
            let alike = |other: &Avp| same_name(other, avp) && same(other, avp);
            unmet.iter().position(alike).or(next(unmet, avp))
        };
        "passes over one without M of a name that ours has": passed_over = |ours, avp| {
            let other = !ours.iter().any(|own| same_name(own, avp) && own.value == avp.value);
            passed_over(ours, avp) || !avp.mandatory && other && !is(avp, PROXY_INFO)
        };
        "passes over any without M": passed_over = |ours, avp| {
            passed_over(ours, avp) || !avp.mandatory
        };
        "takes a Result-Code twice": passed_over = |ours, avp| {
            passed_over(ours, avp) || is(avp, RESULT_CODE)
        }, stages = stages(Kind::Missing, |r, sides| {
            one_is_missing(&JudgeRules { passed_over, ..*r }, sides)
        });
        "takes one more Proxy-Info": passed_over = |ours, avp| {
            passed_over(ours, avp) || is(avp, PROXY_INFO) && avp.value == b"one more"
        };
        "takes one with M that ours lacks": passed_over = |ours, avp| lacks(ours, avp);
        "does not pass over Failed-AVP with M": passed_over = |ours, avp| {
            lacks(ours, avp) && !avp.mandatory
        };
        "does not pass over anything but Failed-AVP": passed_over = |_, avp| is(avp, FAILED_AVP);
        "passes over Failed-AVP of a vendor with M": passed_over = |ours, avp| {
            passed_over(ours, avp) || avp.code == FAILED_AVP.code
        };
        "knows AVPs by their code alone": passed_over = |ours, avp| {
            let held = ours.iter().any(|other| other.code == avp.code);
            is(avp, FAILED_AVP) || !held && !avp.mandatory
        };
        "does not keep the first place for Session-Id": first_is_own = |_| false;
        "keeps the first place for whatever ours has there": first_is_own = |ours| !ours.is_empty();
        "compares padding": same = |ours, theirs| {
            same(ours, theirs) && ours.whole == theirs.whole
        };
        "compares the padding of Proxy-Info": same = |ours, theirs| {
            same(ours, theirs) && (!is(ours, PROXY_INFO) || ours.whole == theirs.whole)
        };
        "does not compare flags": same = |ours, theirs| ours.value == theirs.value;
        "compares M alone of the flags": same = |ours, theirs| {
            ours.value == theirs.value && ours.mandatory == theirs.mandatory
        };
        "compares all flags but M": same = |ours, theirs| {
            ours.value == theirs.value && (ours.whole[4] ^ theirs.whole[4]) & !MANDATORY == 0
        };
        "does not compare values": same = |ours, theirs| ours.whole[4] == theirs.whole[4];
        "compares lengths of values alone": same = |ours, theirs| {
            ours.whole[4] == theirs.whole[4] && ours.value.len() == theirs.value.len()
        };
        "misses none": stages = stages(Kind::Missing, |_, _| None);
        "misses no Proxy-Info": stages = stages(Kind::Missing, |r, sides| {
            let missing = one_is_missing(r, sides)?;
            let ours = avps_of(&sides.due.answer);
            let count = |avps: &[Avp]| avps.iter().filter(|a| is(a, PROXY_INFO)).count();
            let theirs: Vec<Avp> = sides.walked.iter().flatten().map(|placed| placed.avp).collect();
            (count(&ours) == count(&theirs)).then_some(missing)
        });
        "tells one that is missing at its place in ours": stages = stages(Kind::Missing, |r, sides| {
            one_is_missing(r, sides).map(|_| HEADER)
        });
        "tells one that is missing before an AVP that differs": told = |differing| {
            let missing = differing.iter().find(|(kind, _)| *kind == Kind::Missing);
            let header = differing.first().filter(|(kind, _)| *kind < Kind::Avp);
            header.or(missing).or(differing.first()).copied()
        };
        "an AVP is told where its value starts": stages = stages(Kind::Avp, |r, sides| {
            avp_differs(r, sides).map(|at| at + 8)
        });
        "Session-Id may come twice": passed_over = |ours, avp| {
            passed_over(ours, avp) || is(avp, SESSION_ID)
        };
    }
}

fn in_the_rest() -> Vec<Wrong> {
    wrong! {
        "does not compare the row": stages = stages(Kind::Row, |_, _| None);
        "compares the row where a cut was made": stages = stages(Kind::Row, |r, sides| {
            row_differs(r, sides).filter(|_| !sides.due.notice.is_empty())
        });
        "compares the row without its sums": stages = stages(Kind::Row, |r, sides| {
            row_differs(r, sides).filter(|at| at % 512 < 510)
        });
        "compares the row with the one before": stages = stages(Kind::Row, |_, sides| {
            first_difference(sides.judged.before, sides.judged.after)
        });
        "does not compare the notice": stages = stages(Kind::Notice, |_, _| None);
        "takes an empty notice for any": stages = stages(Kind::Notice, |r, sides| {
            notice_differs(r, sides).filter(|_| !sides.judged.notice.is_empty())
        });
        "takes a notice that is not due": stages = stages(Kind::Notice, |r, sides| {
            notice_differs(r, sides).filter(|_| !sides.due.notice.is_empty())
        });
        "compares 256 bytes of a notice": stages = stages(Kind::Notice, |r, sides| {
            notice_differs(r, sides).filter(|at| *at < 256)
        });
        "takes a notice that is longer": stages = stages(Kind::Notice, |r, sides| {
            notice_differs(r, sides).filter(|at| *at == 0 || *at < sides.due.notice.len())
        });
        "tells the last mismatch": told = |differing| differing.last().copied();
        "tells the second mismatch": told = |differing| {
            differing.get(1).or(differing.first()).copied()
        };
        "tells the row before the notice": told = |differing| match differing {
            [(Kind::Notice, _), row] => Some(*row),
            _ => differing.first().copied(),
        };
        "tells the notice before the answer": told = |differing| {
            let notice = differing.iter().find(|(kind, _)| *kind == Kind::Notice);
            notice.or(differing.first()).copied()
        };
        "judges by the rules before W11": server = Rules { held: held_is_refused, ..WITH_W11 };
        "takes the WAG's word for yes": due = |rules, judged| {
            due(rules, &Judged { wag: true, ..*judged })
        };
        "goes by the name alone": due = |rules, judged| {
            let operator = u32::from(judged.before[19]);
            due(rules, &Judged { operator, ..*judged })
        };
        "accepts everything": told = |_| None, too_deep_first = |_| false;
    }
}

/// Whether this number holds, whatever comes before it.
fn holds(judged: &Judged, rooms: Rooms, of: u16) -> bool {
    let named = |name: &[u8]| (1..=128).contains(&name.len());
    match of {
        1 => number(judged, rooms) == 1,
        33 => judged.operator > 15,
        2 => !named(judged.host) || !named(judged.realm),
        3 => rooms.answer < 5_120,
        _ => Form::numbered(judged.form).is_none_or(|form| rooms.notice < form.notice()),
    }
}

fn in_order(judged: &Judged, rooms: Rooms, order: [u16; 5]) -> u16 {
    let mut order = order.into_iter();
    order.find(|of| holds(judged, rooms, *of)).unwrap_or(0)
}

/// With rows that are as long as these.
fn with_rows(judged: &Judged, rooms: Rooms, before: &[u8], after: &[u8]) -> u16 {
    let other = Judged {
        before,
        after,
        ..*judged
    };
    number(&other, rooms)
}

fn in_the_numbers() -> Vec<Wrong> {
    wrong! {
        "tests 33 before 1": number = |j, rooms| in_order(j, rooms, [33, 1, 2, 3, 4]);
        "tests 2 before 1": number = |j, rooms| in_order(j, rooms, [2, 1, 33, 3, 4]);
        "tests 3 before 1": number = |j, rooms| in_order(j, rooms, [3, 1, 33, 2, 4]);
        "tests 4 before 1": number = |j, rooms| in_order(j, rooms, [4, 1, 33, 2, 3]);
        "tests 2 before 33": number = |j, rooms| in_order(j, rooms, [1, 2, 33, 3, 4]);
        "tests 3 before 33": number = |j, rooms| in_order(j, rooms, [1, 3, 33, 2, 4]);
        "tests 4 before 33": number = |j, rooms| in_order(j, rooms, [1, 4, 33, 2, 3]);
        "tests 3 before 2": number = |j, rooms| in_order(j, rooms, [1, 33, 3, 2, 4]);
        "tests 4 before 2": number = |j, rooms| in_order(j, rooms, [1, 33, 4, 2, 3]);
        "tests 4 before 3": number = |j, rooms| in_order(j, rooms, [1, 33, 2, 4, 3]);
        "does not test the row before": number = |j, rooms| {
            with_rows(j, rooms, j.after, j.after)
        };
        "does not test the row after": number = |j, rooms| {
            with_rows(j, rooms, j.before, j.before)
        };
        "takes more than a row before": number = |j, rooms| {
            let row = Form::numbered(j.form).map_or(0, Form::row);
            with_rows(j, rooms, j.before.get(..row).unwrap_or(j.before), j.after)
        };
        "takes more than a row after": number = |j, rooms| {
            let row = Form::numbered(j.form).map_or(0, Form::row);
            with_rows(j, rooms, j.before, j.after.get(..row).unwrap_or(j.after))
        };
        "takes rows of either form": number = |j, rooms| {
            let other = Form::numbered(j.form).map_or(0, |form| form.other().number());
            match number(j, rooms) {
                1 => number(&Judged { form: other, ..*j }, rooms),
                given => given,
            }
        };
        "takes operator 16": number = |j, rooms| {
            let operator = if j.operator == 16 { 0 } else { j.operator };
            number(&Judged { operator, ..*j }, rooms)
        };
        "takes operators modulo 256": number = |j, rooms| {
            number(&Judged { operator: j.operator % 256, ..*j }, rooms)
        };
        "takes an own host of no bytes": number = |j, rooms| {
            let host = if j.host.is_empty() { &b"h"[..] } else { j.host };
            number(&Judged { host, ..*j }, rooms)
        };
        "takes an own host of 129 bytes": number = |j, rooms| {
            number(&Judged { host: j.host.get(..128).unwrap_or(j.host), ..*j }, rooms)
        };
        "does not test the own realm": number = |j, rooms| {
            number(&Judged { realm: b"r", ..*j }, rooms)
        };
        "asks an own realm of 127 bytes at most": number = |j, rooms| {
            let realm = if j.realm.len() > 127 { &b""[..] } else { j.realm };
            number(&Judged { realm, ..*j }, rooms)
        };
        "takes a byte less for the answer": number = |j, rooms| {
            number(j, Rooms { answer: rooms.answer + 1, ..rooms })
        };
        "asks a byte more for the answer": number = |j, rooms| {
            number(j, Rooms { answer: rooms.answer.saturating_sub(1), ..rooms })
        };
        "takes a byte less for the notice": number = |j, rooms| {
            number(j, Rooms { notice: rooms.notice + 1, ..rooms })
        };
        "asks a byte more for the notice": number = |j, rooms| {
            number(j, Rooms { notice: rooms.notice.saturating_sub(1), ..rooms })
        };
        "asks 384 bytes for the notice of either form": number = |j, rooms| {
            number(j, Rooms { notice: if rooms.notice < 384 { 0 } else { 384 }, ..rooms })
        };
        "asks 256 bytes for the notice of either form": number = |j, rooms| {
            number(j, Rooms { notice: if rooms.notice < 256 { 0 } else { 384 }, ..rooms })
        };
    }
}

/// Judges that take something of the case otherwise than its numbers.
fn judges() -> Vec<Wrong> {
    [in_the_header(), in_the_walk(), in_the_avps(), in_the_rest()].concat()
}

#[test]
fn every_wrong_judge_is_told_apart() {
    let calls = old_calls(105, 9_000);
    let judges = judges();
    assert!(judges.len() > 60);
    each_is_told_apart(&judges, |rules| {
        let mut judged = calls
            .iter()
            .map(|call| (judge(rules, &call.judged()), call.wanted));
        judged.all(|(verdict, wanted)| verdict == wanted)
    });
}

/// The same by the judgements that stand in scripts, where numbers are given too.
#[test]
fn every_wrong_judge_is_told_apart_by_a_script() {
    let mut recorder = Recorder::new(6_000);
    let (mut decks, mut random) = (JudgeDecks::default(), Random::new(106));
    while !recorder.is_full() {
        judgements(&mut recorder, &mut decks, &mut random);
    }
    let records = read(&write(&recorder.records)).unwrap();
    let calls = with_their_rows(&records);
    let judges = [judges(), in_the_numbers()].concat();
    assert!(judges.len() > 90);
    each_is_told_apart(&judges, |rules| {
        calls.iter().all(|(before, judging, wanted)| {
            let judgement = judge_in(rules, &judging.judged(before), judging.rooms());
            judgement.verdict.numbers() == *wanted
        })
    });
}

/// The judgements of a script, each with its row before and the numbers expected.
fn with_their_rows(records: &[Record]) -> Vec<(Vec<u8>, &Judging, [u32; 3])> {
    let mut table = Vec::new();
    let mut calls = Vec::new();
    for record in records {
        if let Record::Call(Operation::Judge(judging), expected) = record {
            let [number, mismatch, byte, ..] = expected.numbers;
            calls.push((table.clone(), judging, [number, mismatch, byte]));
        }
        let played = script::judge(&mut DOCUMENT_01.clone(), record, &mut table);
        assert_eq!(played, Ok(()));
    }
    calls
}

/// Only the right judge gives all that is wanted.
fn each_is_told_apart(judges: &[Wrong], as_wanted: impl Fn(&JudgeRules) -> bool) {
    assert!(as_wanted(&RIGHT));
    let unnoticed = judges.iter().filter(|(_, rules)| as_wanted(rules));
    let unnoticed: Vec<&str> = unnoticed.map(|(name, _)| *name).collect();
    assert!(unnoticed.is_empty(), "not told apart: {unnoticed:#?}");
}
