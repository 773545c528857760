//! The command itself: exit statuses, and one clear line for what is wrong.

use std::path::PathBuf;
use std::process::{Command, Output};

fn oracle(arguments: &[&str]) -> Output {
    let program = env!("CARGO_BIN_EXE_oracle");
    Command::new(program).args(arguments).output().unwrap()
}

fn file(name: &str) -> PathBuf {
    PathBuf::from(env!("CARGO_TARGET_TMPDIR")).join(name)
}

fn lines(output: &Output) -> usize {
    String::from_utf8_lossy(&output.stderr).lines().count()
}

#[test]
fn bad_usage_gets_one_line_and_status_2() {
    let wrong: [&[&str]; 7] = [
        &[],
        &["scrip"],
        &["script", "--seed"],
        &["script", "--calls", "many"],
        &["script", "--size", "3"],
        &["check"],
        &["check", "one", "two"],
    ];
    for arguments in wrong {
        let output = oracle(arguments);
        assert_eq!(output.status.code(), Some(2), "{arguments:?}");
        assert_eq!(lines(&output), 1, "{arguments:?}");
        assert!(output.stdout.is_empty());
    }
}

#[test]
fn a_script_is_written_checked_and_refused_when_damaged() {
    let path = file("small.script");
    let name = path.to_str().unwrap();
    let written = oracle(&["script", "--seed", "5", "--calls", "300", "--out", name]);
    assert_eq!(written.status.code(), Some(0));
    assert_eq!(oracle(&["check", name]).status.code(), Some(0));
    let mut bytes = std::fs::read(&path).unwrap();
    let printed = oracle(&["script", "--seed", "5", "--calls", "300"]);
    assert!(printed.stdout == bytes);
    bytes.pop();
    std::fs::write(&path, bytes).unwrap();
    let refused = oracle(&["check", name]);
    assert_eq!(refused.status.code(), Some(1));
    assert_eq!(lines(&refused), 1);
}

/// Scripts of the board are the same each time, and a spoiled one is another.
#[test]
fn a_script_of_the_board_is_written() {
    let printed = |spoil| oracle(&["board", "--seed", "5", "--calls", "300", "--spoil", spoil]);
    let (whole, spoiled) = (printed("0"), printed("1"));
    assert_eq!(whole.status.code(), Some(0));
    assert!(whole.stdout.starts_with(b"WMBOARD1"));
    assert!(whole.stdout == printed("0").stdout);
    assert_eq!(spoiled.stdout.len(), whole.stdout.len());
    assert!(spoiled.stdout != whole.stdout);
}

/// Everything the report asks for comes up in a script of full size.
#[test]
fn nothing_is_missing_from_full_scripts() {
    for seed in ["1", "2", "3", "4"] {
        let output = oracle(&["script", "--seed", seed, "--calls", "8000"]);
        let report = String::from_utf8_lossy(&output.stderr).into_owned();
        assert_eq!(output.status.code(), Some(0), "{report}");
    }
}
