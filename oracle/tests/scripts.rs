//! Scripts come back as they were written, and no damage to one goes unnoticed.

use oracle::framing::{LONGEST_RECORD, read, write};
use oracle::generator::generate;
use oracle::rules::DOCUMENT_01;
use oracle::script::{K1, K2, Record, SPOILED, digest, digests, judge, spoil};

#[test]
fn a_script_comes_back() {
    let records = generate(31, 5_200).records;
    assert!(read(&write(&records)) == Ok(records));
}

#[test]
fn a_script_agrees_with_the_oracle() {
    let records = read(&write(&generate(32, 1_500).records)).unwrap();
    let mut table = Vec::new();
    for record in &records {
        assert_eq!(judge(&mut DOCUMENT_01.clone(), record, &mut table), Ok(()));
    }
    let calls = records.iter().filter(|r| matches!(r, Record::Call(..)));
    assert_eq!(calls.count(), 1_500);
}

#[test]
fn wrong_expectations_are_told() {
    let mut records = generate(1, 2_000).records;
    assert_eq!(spoil(&mut records), SPOILED);
    let mut table = Vec::new();
    let told = |record: &Record| judge(&mut DOCUMENT_01.clone(), record, &mut table).is_err();
    assert_eq!(records.iter().map(told).filter(|&t| t).count(), SPOILED);
}

#[test]
fn one_seed_gives_one_script() {
    let script = write(&generate(33, 400).records);
    assert!(script == write(&generate(33, 400).records));
    assert!(script != write(&generate(34, 400).records));
}

/// The first bytes of every script, and those of an empty one as a whole.
#[test]
fn the_frame_in_bytes() {
    let script = write(&[]);
    let body = [
        b"\x01\x00\x00\x00\x14WMSCRIPT",
        &[0, 0, 0, 7, 0, 0, 0, 2][..],
    ]
    .concat();
    assert_eq!(script[..21], body);
    assert_eq!(script[21..25], digest(K1, &body).to_be_bytes());
    let end = [8, 0, 0, 0, 8, 0, 0, 0, 0];
    assert_eq!(script[25..34], end);
    assert_eq!(script[34..], digest(K1, &end).to_be_bytes());
    assert_eq!(read(&script), Ok(Vec::new()));
}

#[test]
fn digests_by_hand() {
    assert_eq!(digest(K1, &[]), 0);
    assert_eq!(digest(K1, &[6]), 7);
    assert_eq!(digests(&[0, 0]), [1_103_515_246, 1_664_526]);
    // 1,103,515,246 * 1,103,515,245 + 10 divided by 2,147,483,647.
    let third = (1_103_515_246u128 * 1_103_515_245 + 10) % 2_147_483_647;
    assert_eq!(u128::from(digest(K1, &[0, 0, 9])), third);
    assert_eq!(digest(K2, &[1]), 2);
}

#[test]
fn every_truncation_is_noticed() {
    let script = write(&generate(35, 12).records);
    for length in 0..script.len() {
        assert!(read(&script[..length]).is_err(), "{length}");
    }
    let longer = [&script[..], &[0]].concat();
    assert_eq!(read(&longer), Err("bytes after the end"));
}

#[test]
fn every_changed_byte_is_noticed() {
    let mut script = write(&generate(36, 8).records);
    for place in 0..script.len() {
        for bit in [1, 128] {
            script[place] ^= bit;
            assert!(read(&script).is_err(), "{place}");
            script[place] ^= bit;
        }
    }
}

/// A record left out or repeated keeps every check right, but not the counts.
#[test]
fn a_record_left_out_is_noticed() {
    let records = generate(37, 30).records;
    let whole = write(&records);
    let header_and_end = write(&[]).len();
    let first = write(&records[..1]).len() - header_and_end;
    let without = [&whole[..25], &whole[25 + first..]].concat();
    assert_eq!(read(&without), Err("a count is wrong"));
    let twice = [&whole[..25 + first], &whole[25..]].concat();
    assert_eq!(read(&twice), Err("a count is wrong"));
}

#[test]
fn records_keep_to_their_bounds() {
    let empty = write(&[]).len();
    for record in generate(38, 6_000).records {
        let length = write(std::slice::from_ref(&record)).len() - empty;
        assert!(length <= LONGEST_RECORD, "{length}");
    }
}
