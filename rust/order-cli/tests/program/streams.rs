//! Outputs that take nothing: the exit status tells, whatever the sub-command, and nothing panics.

use crate::lost::Lost;
use crate::shell::{forecourt, shell};
use order_cli::commands;
use std::fs;
use std::path::Path;
use std::process::Stdio;

/// A command line of each sub-command that is refused.
const REFUSED: [&str; 12] = [
    "order check loyalty-first/order.sch",
    "order run loyalty-first/site.tab --text 9",
    "order run loyalty-first/site.tab --text 9 --report report",
    "order ready loyalty-first/site.tab --text 9",
    "order page loyalty-first/site.tab --text 9",
    "order draw loyalty-first/order.sch 0",
    "order pair loyalty-first/site.tab 0.0 9.0",
    "order same loyalty-first/site.tab --text 0 --text 9",
    "order same loyalty-first/site.tab --text 0 --text 9 --quiet",
    "order route loyalty-first/site.tab --text 0 --text 1",
    "order show loyalty-first/order.sch",
    "order build refused.txt refused.tab",
];

/// The exit status of a command line with these outputs, and what it says on standard error where that
/// is not lost.
fn said(folder: &Path, line: &str, output: Option<Lost>, errors: Option<Lost>) -> (i32, String) {
    let mut line = line.to_owned();
    let mut streams = [Stdio::null(), Stdio::piped()];
    for (stream, lost) in [output, errors].into_iter().enumerate() {
        if let Some(lost) = lost {
            line += &lost.redirection(stream as u8 + 1);
            streams[stream] = lost.stream();
        }
    }
    let [output, errors] = streams;
    let mut shell = shell(folder, &line);
    let child = shell
        .stdout(output)
        .stderr(errors)
        .spawn()
        .expect("a shell");
    let ended = child.wait_with_output().expect("an end");
    let words = String::from_utf8(ended.stderr).expect("a text");
    (ended.status.code().expect("no signal"), words)
}

/// All answers and all help.
fn answered() -> Vec<String> {
    let examples = commands::ALL.iter().map(|one| one.example.line.to_owned());
    let help = commands::ALL
        .iter()
        .map(|one| format!("order {} -h", one.name));
    let mut lines: Vec<String> = examples.chain(help).collect();
    lines.push("order --help".to_owned());
    lines
}

#[test]
fn an_answer_that_is_lost_has_status_2() {
    let folder = forecourt("answers");
    for line in answered() {
        assert_eq!(said(&folder, &line, None, None), (0, String::new()));
        for lost in Lost::ALL {
            let (status, words) = said(&folder, &line, Some(lost), None);
            assert_eq!(status, 2, "{line}: {lost:?}");
            let begin = "order: cannot write standard output: ";
            assert!(words.starts_with(begin), "{line}: {lost:?}: {words}");
            assert_eq!(words.lines().count(), 1, "{words}");
            let (status, _) = said(&folder, &line, Some(lost), Some(lost));
            assert_eq!(status, 2, "{line}: {lost:?} twice");
        }
    }
}

#[test]
fn a_refusal_keeps_status_1() {
    let folder = forecourt("refusals");
    fs::write(
        folder.join("refused.txt"),
        "actors 0\nmailboxes 0\nmutexes 0\n",
    )
    .expect("a text");
    for command in commands::ALL {
        let begin = format!("order {} ", command.name);
        assert!(REFUSED.iter().any(|line| line.starts_with(&begin)));
    }
    for line in REFUSED {
        let (status, words) = said(&folder, line, None, None);
        assert_eq!(status, 1, "{line}: {words}");
        for lost in Lost::ALL {
            assert_eq!(said(&folder, line, Some(lost), None), (1, words.clone()));
            for output in [None, Some(lost)] {
                let (status, _) = said(&folder, line, output, Some(lost));
                assert_eq!(status, 1, "{line}: {lost:?}");
            }
        }
    }
}

#[test]
fn wrong_use_keeps_status_2() {
    let folder = forecourt("uses");
    for lost in Lost::ALL {
        for line in ["order", "order no", "order run", "order check absent"] {
            let (status, _) = said(&folder, line, None, Some(lost));
            assert_eq!(status, 2, "{line}: {lost:?}");
        }
    }
}

#[test]
fn a_quiet_verdict_wants_no_output() {
    let folder = forecourt("verdicts");
    let table = "loyalty-first/site.tab";
    let [first, second] = ["0 0 1 1", "1 1 0 0"].map(|text| format!("--text \"{text}\""));
    for (line, verdict) in [
        (format!("order same {table} {first} {first} --quiet"), 0),
        (format!("order same {table} {first} {second} --quiet"), 3),
        (format!("order pair {table} 0.0 1.0 --quiet"), 0),
        (format!("order pair {table} 0.1 1.1 --quiet"), 3),
    ] {
        for lost in Lost::ALL {
            let (status, _) = said(&folder, &line, Some(lost), Some(lost));
            assert_eq!(status, verdict, "{line}: {lost:?}");
        }
    }
}
