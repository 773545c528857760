//! W9: the report by hand, its laws on lists by chance, and wrong programs told apart.

use oracle::random::Random;
use oracle::the_year::{
    CUTS, OPENED, REQUEST_W9, Rate, Report, Told, YearRules, columns, count, widened, year,
};
use oracle::year_calls::{YearCall, given, year_calls};

const EMPTY: Report = [[0; 4]; 24];

fn told(hour: u32, which: u32, code: u32, kind: u32, place: u32, cut: u32) -> Told {
    Told {
        hour,
        which,
        code,
        kind,
        place,
        cut,
    }
}

fn counted(report: &Report, list: &[Told]) -> (u32, Report) {
    let mut report = *report;
    ((REQUEST_W9.count)(&REQUEST_W9, &mut report, list), report)
}

fn rated(report: &Report) -> (u32, u64, u64) {
    let Rate {
        number,
        cuts,
        opened,
    } = (REQUEST_W9.rate)(&REQUEST_W9, report);
    (number, cuts, opened)
}

fn with(totals: &[(usize, usize, u64)]) -> Report {
    let mut report = EMPTY;
    for &(hour, column, total) in totals {
        report[hour][column] = total;
    }
    report
}

#[test]
fn each_result_goes_to_its_column() {
    let cases = [
        (told(5, 0, 2001, 1, 1, 0), [true, false, false, false]),
        (told(5, 0, 2001, 1, 8, 1), [true, true, false, false]),
        (told(5, 2, 5012, 2, 3, 0), [true, false, false, false]),
        (told(5, 2, 2001, 1, 0, 0), [false, false, true, false]),
        (told(5, 2, 2001, 1, 0, 1), [false, false, true, false]),
        (told(5, 2, 2001, 2, 0, 0), [false, false, false, true]),
        (told(5, 2, 5042, 2, 0, 0), [false, false, false, true]),
        (told(5, 1, 2001, 1, 0, 0), [false, false, false, true]),
        (told(5, 0, 2001, 1, 0, 0), [false, false, false, true]),
        (told(5, 0, 5001, 1, 0, 1), [false, false, false, true]),
        (told(5, 0, 6, 0, 0, 0), [false, false, false, true]),
    ];
    for (told, expected) in cases {
        assert_eq!(columns(&told), expected, "{told:?}");
    }
}

#[test]
fn a_list_is_counted_whole_or_not_at_all() {
    let good = told(23, 0, 2001, 1, 1, 1);
    let bad = told(24, 0, 2001, 1, 1, 0);
    assert_eq!(
        counted(&EMPTY, &[good]),
        (0, with(&[(23, 0, 1), (23, 1, 1)]))
    );
    assert_eq!(counted(&EMPTY, &[good, bad]), (29, EMPTY));
    let full = with(&[(3, 0, u64::MAX)]);
    assert_eq!(counted(&full, &[good]), (30, full));
    assert_eq!(counted(&full, &[good, bad]), (29, full));
    assert_eq!(counted(&full, &[told(3, 2, 2001, 1, 0, 0)]).0, 0);
    let passed = with(&[(3, 3, u64::MAX), (4, 3, 1)]);
    assert_eq!(counted(&passed, &[]), (30, passed));
}

#[test]
fn the_rate_in_lowest_terms() {
    assert_eq!(rated(&EMPTY), (0, 0, 1));
    assert_eq!(rated(&with(&[(0, 1, 7)])), (0, 0, 1));
    assert_eq!(rated(&with(&[(0, 0, 7)])), (0, 0, 1));
    assert_eq!(rated(&with(&[(0, 0, 8), (1, 0, 4), (2, 1, 9)])), (0, 3, 4));
    assert_eq!(
        rated(&with(&[(0, 0, u64::MAX), (2, 1, u64::MAX)])),
        (0, 1, 1)
    );
    assert_eq!(
        rated(&with(&[(0, 0, 1), (2, 3, u64::MAX), (3, 3, 1)])),
        (30, 0, 1)
    );
}

#[test]
fn any_order_and_two_reports_added() {
    let mut random = Random::new(7);
    for (call, _) in year_calls(&REQUEST_W9, 7, 2_000).calls {
        let YearCall::Count(report, list) = call else {
            continue;
        };
        let mut other = list.clone();
        random.shuffle(&mut other);
        assert_eq!(counted(&report, &list), counted(&report, &other));
        let half = random.below(list.len() + 1);
        let (first, second) = (
            counted(&EMPTY, &list[..half]),
            counted(&EMPTY, &list[half..]),
        );
        if first.0 == 0 && second.0 == 0 {
            let mut sum = first.1;
            let number = (REQUEST_W9.add)(&REQUEST_W9, &mut sum, &second.1);
            assert_eq!((number, sum), counted(&EMPTY, &list));
        }
    }
}

#[test]
fn nothing_is_missing() {
    for seed in 1..5 {
        assert!(
            year_calls(&REQUEST_W9, seed, 5_000).missing().is_empty(),
            "seed {seed}"
        );
    }
}

/// A list counted result by result, until one is bad.
fn up_to_the_bad_hour(rules: &YearRules, report: &mut Report, list: &[Told]) -> u32 {
    let numbers = list.iter().map(|told| count(rules, report, &[*told]));
    numbers.into_iter().find(|&number| number != 0).unwrap_or(0)
}

fn passed_bits_first(rules: &YearRules, report: &mut Report, list: &[Told]) -> u32 {
    let good: Vec<Told> = list.iter().copied().filter(|told| told.hour < 24).collect();
    if count(rules, &mut report.clone(), &good) == 30 {
        return 30;
    }
    count(rules, report, list)
}

fn wrapping(report: &mut Report, list: &[Told]) -> u32 {
    if list.iter().any(|told| told.hour > 23) {
        return 29;
    }
    for told in list {
        for (column, counts) in columns(told).into_iter().enumerate() {
            let total = &mut report[told.hour as usize][column];
            *total = total.wrapping_add(u64::from(counts));
        }
    }
    0
}

fn wrong_programs() -> Vec<(&'static str, YearRules)> {
    let w9 = REQUEST_W9;
    vec![
        (
            "a cut counts without an opening",
            YearRules {
                columns: |t| [columns(t)[0], t.cut != 0, columns(t)[2], columns(t)[3]],
                ..w9
            },
        ),
        (
            "a refused termination counts",
            YearRules {
                columns: |t| {
                    columns(&Told {
                        code: if t.kind == 1 { 2001 } else { t.code },
                        ..*t
                    })
                },
                ..w9
            },
        ),
        (
            "an Experimental-Result of 2001 is a success",
            YearRules {
                columns: |t| {
                    columns(&Told {
                        kind: if t.kind == 2 { 1 } else { t.kind },
                        ..*t
                    })
                },
                ..w9
            },
        ),
        (
            "every 2001 without a place is a termination",
            YearRules {
                columns: |t| columns(&Told { which: 2, ..*t }),
                ..w9
            },
        ),
        (
            "the kind of request goes before the place",
            YearRules {
                columns: |t| {
                    columns(&Told {
                        place: if t.which == 2 { 0 } else { t.place },
                        ..*t
                    })
                },
                ..w9
            },
        ),
        (
            "a place is 1 to 8",
            YearRules {
                columns: |t| {
                    columns(&Told {
                        place: if t.place > 8 { 0 } else { t.place },
                        ..*t
                    })
                },
                ..w9
            },
        ),
        (
            "a cut is 1",
            YearRules {
                columns: |t| {
                    columns(&Told {
                        cut: u32::from(t.cut == 1),
                        ..*t
                    })
                },
                ..w9
            },
        ),
        (
            "an opening with a cut is no opening",
            YearRules {
                columns: |t| {
                    [
                        columns(t)[0] && t.cut == 0,
                        columns(t)[1],
                        columns(t)[2],
                        columns(t)[3],
                    ]
                },
                ..w9
            },
        ),
        (
            "hour 24 is right",
            YearRules {
                hour_is_right: |hour| hour <= 24,
                ..w9
            },
        ),
        (
            "hour 23 is bad",
            YearRules {
                hour_is_right: |hour| hour < 23,
                ..w9
            },
        ),
        (
            "counted up to the bad hour",
            YearRules {
                count: up_to_the_bad_hour,
                ..w9
            },
        ),
        (
            "30 before 29",
            YearRules {
                count: passed_bits_first,
                ..w9
            },
        ),
        (
            "totals that wrap",
            YearRules {
                count: |_, report, list| wrapping(report, list),
                ..w9
            },
        ),
        (
            "the year is not tested",
            YearRules {
                held: |report| {
                    report
                        .iter()
                        .flatten()
                        .all(|&total| total <= u128::from(u64::MAX))
                },
                ..w9
            },
        ),
        (
            "the year of the openings alone is tested",
            YearRules {
                held: |report| year(report, OPENED) <= u128::from(u64::MAX),
                ..w9
            },
        ),
        (
            "the years of openings and cuts alone are tested",
            YearRules {
                held: |report| {
                    [OPENED, CUTS]
                        .iter()
                        .all(|&k| year(report, k) <= u128::from(u64::MAX))
                },
                ..w9
            },
        ),
        (
            "2^64 - 1 is refused",
            YearRules {
                held: |report| (0..4).all(|k| year(report, k) < u128::from(u64::MAX)),
                ..w9
            },
        ),
        (
            "an empty list is never refused",
            YearRules {
                count: |rules, report, list| {
                    if list.is_empty() {
                        0
                    } else {
                        count(rules, report, list)
                    }
                },
                ..w9
            },
        ),
        (
            "a sum that is refused is written",
            YearRules {
                add: |rules, report, other| {
                    let number = (REQUEST_W9.add)(rules, report, other);
                    if number != 0 {
                        *report = *other;
                    }
                    number
                },
                ..w9
            },
        ),
        (
            "a rate not in lowest terms",
            YearRules {
                lowest: |cuts, opened| (cuts, opened),
                ..w9
            },
        ),
        (
            "a rate halved while it goes",
            YearRules {
                lowest: |cuts, opened| {
                    let twos = (cuts | opened).trailing_zeros();
                    (cuts >> twos, opened >> twos)
                },
                ..w9
            },
        ),
        (
            "the rate of accesses opened to cuts",
            YearRules {
                lowest: |cuts, opened| {
                    let (cuts, opened) = (REQUEST_W9.lowest)(cuts, opened);
                    (opened, cuts)
                },
                ..w9
            },
        ),
        (
            "cuts without openings are a rate",
            YearRules {
                rate: |rules, report| {
                    let cuts = year(&widened(report), CUTS);
                    let rate = (REQUEST_W9.rate)(rules, report);
                    let none = rate.number == 0 && year(&widened(report), OPENED) == 0 && cuts != 0;
                    if none {
                        Rate {
                            cuts: 1,
                            opened: 0,
                            ..rate
                        }
                    } else {
                        rate
                    }
                },
                ..w9
            },
        ),
        (
            "a refused rate is 0 and 0",
            YearRules {
                rate: |rules, report| {
                    let rate = (REQUEST_W9.rate)(rules, report);
                    if rate.number == 30 {
                        Rate { opened: 0, ..rate }
                    } else {
                        rate
                    }
                },
                ..w9
            },
        ),
        (
            "the rate of the first hour that has any",
            YearRules {
                rate: |rules, report| {
                    let first = report
                        .iter()
                        .find(|hour| hour[OPENED] != 0)
                        .copied()
                        .unwrap_or_default();
                    let mut alone = EMPTY;
                    alone[0] = first;
                    (REQUEST_W9.rate)(rules, &alone)
                },
                ..w9
            },
        ),
    ]
}

#[test]
fn wrong_programs_are_told_apart() {
    let calls = year_calls(&REQUEST_W9, 1, 5_000).calls;
    let right = |(call, expected): &(YearCall, Vec<u64>)| given(&REQUEST_W9, call) == *expected;
    assert!(calls.iter().all(right));
    for (name, rules) in wrong_programs() {
        let differs = calls
            .iter()
            .filter(|(call, expected)| given(&rules, call) != *expected)
            .count();
        assert!(differs > 0, "{name} is not told");
    }
}
