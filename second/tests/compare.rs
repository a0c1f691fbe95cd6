//! The comparing driver with commands that are right, and with some that are wrong.

use std::fs;
use std::process::{Command, Output};

const SECOND: &str = env!("CARGO_BIN_EXE_second");

/// Runs `second compare` with these words.
fn compare(words: &[&str], command: &[&str]) -> Output {
    let mut second = Command::new(SECOND);
    second.arg("compare").args(words).args(command);
    second.output().expect("it can be run")
}

fn assert_alike(words: &[&str], program: &str, count: &str) {
    let output = compare(words, &[SECOND, program]);
    let printed = String::from_utf8_lossy(&output.stdout);
    assert_eq!(printed, format!("{count}\n"));
    assert!(output.status.success());
}

/// What is said where a shell script, to which `$0` is this program, is wrong.
fn said(words: &[&str], script: &str) -> String {
    let output = compare(words, &["sh", "-c", script, SECOND]);
    assert_eq!(output.status.code(), Some(1));
    assert!(output.stdout.is_empty());
    String::from_utf8_lossy(&output.stderr).into_owned()
}

/// What stands after the word that starts a line.
fn after<'a>(text: &'a str, word: &str) -> &'a str {
    let line = text.lines().find_map(|line| line.strip_prefix(word));
    line.unwrap_or_else(|| panic!("no '{word}' in {text}"))
        .trim()
}

/// How many lines `second` prints for the word.
fn lines_of(word: &str) -> String {
    let output = Command::new(SECOND).arg(word).output();
    let printed = output.expect("it can be run").stdout;
    let lines = printed.iter().filter(|&&byte| byte == b'\n');
    lines.count().to_string()
}

#[test]
fn a_right_command_is_alike() {
    assert_alike(&["requests", "3", "400"], "answer", "400");
    assert_alike(&["vectors"], "answer", &lines_of("vectors"));
    assert_alike(&["files", "1", "12"], "bench", "12");
    assert_alike(&["captures"], "bench", &lines_of("captures"));
}

/// A word above 3FF is refused with another number.
#[test]
fn the_request_that_differs_gets_small() {
    let words = ["requests", "1", "500"];
    let text = said(&words, r#""$0" answer | sed 's/^3 /4 /'"#);
    assert!(text.contains("of `second requests 1 500`\nshrunk in "));
    assert!(!text.contains("not to the end"), "{text}");
    assert!(after(&text, "request").split(' ').count() <= 30, "{text}");
    assert!(after(&text, "command").starts_with("4 "), "{text}");
    assert!(after(&text, "second  ").starts_with("3 "), "{text}");
}

/// The last vectors are modules, of which each has hundreds of words.
#[test]
fn a_module_that_differs_gets_small() {
    let script = r#""$0" answer | sed '/^0 1 0 0 1 [0-9a-f]* [0-9a-f]* 3 /s/^0/1/'"#;
    let text = said(&["vectors"], script);
    assert!(text.contains("of `second vectors`\n"), "{text}");
    let request = after(&text, "request");
    assert!(request.starts_with("73 1 0 "), "{text}");
    assert!(request.split(' ').count() <= 60, "{text}");
}

#[test]
fn answers_that_are_missing_or_too_many_are_laid_to_a_request() {
    let words = ["requests", "2", "300"];
    let missing = said(&words, r#""$0" answer | sed '/^5 /d'"#);
    let answers = after(&missing, "command");
    assert!(answers.starts_with("(0 answers to 1 requests"), "{missing}");
    assert!(after(&missing, "second  ").starts_with("5 "), "{missing}");
    let doubled = said(&words, r#""$0" answer | sed '/^5 /p'"#);
    let answers = after(&doubled, "command");
    assert!(answers.contains("(2 answers to 1 requests"), "{doubled}");
    let failed = said(&words, r#""$0" answer; exit 3"#);
    let answers = after(&failed, "command");
    assert!(answers.contains("exit status: 3"), "{failed}");
}

/// The fifth answer is wrong, whatever was asked.
#[test]
fn a_difference_that_needs_what_came_before_is_shown_as_it_is() {
    let words = ["requests", "2", "300"];
    let text = said(&words, r#""$0" answer | sed '5s/^/1/'"#);
    assert!(text.contains("differ on request 5 of"), "{text}");
    assert!(text.contains("not shrunk: put alone"), "{text}");
}

/// A sync needs seven or eight words, by where in a word it starts.
#[test]
fn the_file_that_differs_gets_small() {
    let words = ["files", "1", "50"];
    let text = said(&words, r#""$0" bench | sed 's/SHORT/PASS/'"#);
    assert!(text.contains("differ on `second file "), "{text}");
    assert!(after(&text, "file of").len() <= "40 bytes: ".len() + 2 * 40);
    assert!(text.contains("command prints\n  A raster 1 rows 0 faults 0 PASS\\n\n"));
    assert!(text.ends_with("second prints\n  A raster 1 rows 0 faults 0 SHORT\\n\n"));
}

/// A count of which three bytes are missing; options without words; one word.
#[test]
fn the_bad_file_that_differs_gets_small() {
    for (change, size) in [
        ("s/file 9/file 4/", "1 bytes: "),
        ("s/file 4/file 9/", "11 bytes: "),
        ("s/file 3/file 9/", "17 bytes: "),
    ] {
        let script = format!(r#""$0" bench | sed '{change}'"#);
        let text = said(&["files", "1", "50"], &script);
        assert!(after(&text, "file of").starts_with(size), "{text}");
    }
}

/// Only files of over 5000 bytes differ, so the smallest is too long to be printed.
#[test]
fn a_long_file_is_written() {
    let script = r#"input=$(mktemp); cat >$input; "$0" bench <$input; size=$(wc -c <$input)
        rm $input; [ $size -le 5000 ] || echo more"#;
    let text = said(&["captures"], script);
    assert!(text.contains("NO SIGNAL\\n\n  more\\n\n"), "{text}");
    let path = after(&text, "file of 5001 bytes: written to ");
    assert!(fs::read(path).is_ok_and(|file| file.len() == 5001));
    fs::remove_file(path).expect("it is there");
}

#[test]
fn a_signal_is_a_difference() {
    let text = said(&["files", "1", "5"], r#""$0" bench; kill -9 $$"#);
    assert!(text.contains("(signal: 9 (SIGKILL))"), "{text}");
    assert!(text.contains("file of 0 bytes"), "{text}");
}

#[test]
fn a_status_is_a_difference() {
    let text = said(&["files", "1", "5"], r#""$0" bench; exit 3"#);
    assert!(text.contains("(exit status: 3)"), "{text}");
    assert!(text.contains("file of 0 bytes"), "{text}");
}

#[test]
fn nothing_to_compare_is_an_error() {
    for (words, message) in [
        (&["files", "2", "1", "cat"][..], "nothing to compare"),
        (&["requests", "1", "0", "cat"], "nothing to compare"),
        (&["files", "1", "2"], "usage: "),
        (&["others", "cat"], "usage: "),
        (&["captures", "./no-such-program"], "no-such-program"),
    ] {
        let output = compare(words, &[]);
        assert_eq!(output.status.code(), Some(1));
        assert!(String::from_utf8_lossy(&output.stderr).contains(message));
    }
}
