//! The old server's fault comes up at each rollover, and never under document 01's rule.

use oracle::rollover::{OLD_SERVER, ROLLOVER, month, picture};
use oracle::rules::DOCUMENT_01;

#[test]
fn the_old_rule_cuts_what_was_just_opened() {
    let cuts = month(&OLD_SERVER, 1);
    let wrong: Vec<f64> = cuts
        .iter()
        .filter(|c| c.older_stood)
        .map(|c| c.hour)
        .collect();
    assert!(wrong.iter().all(|&hour| hour > ROLLOVER));
    for nth in 1..27 {
        let from = f64::from(nth) * ROLLOVER;
        assert!(
            wrong.iter().any(|hour| (from..from + 4.0).contains(hour)),
            "rollover {nth}"
        );
    }
    let young = |age: f64| cuts.iter().any(|c| c.older_stood && c.age < age);
    assert!(young(0.01));
}

#[test]
fn ours_cuts_the_oldest() {
    let cuts = month(&DOCUMENT_01, 1);
    assert!(cuts.len() > 10_000 && cuts.iter().all(|c| !c.older_stood));
}

/// The picture in docs/ is the one that the command makes.
#[test]
fn the_picture_is_this_one() {
    let kept = std::fs::read_to_string("../docs/rollover.svg").unwrap();
    assert!(kept == picture(1));
}
