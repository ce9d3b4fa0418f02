//! The commands as a user starts them.

mod common;

use common::{complaint, out, run, second_in, Folder, SECOND};
use std::fs;
use std::io::Write;
use std::process::{Command, Output, Stdio};

/// `answer` on some bytes.
fn answer(bytes: &[u8]) -> Output {
    let mut child = Command::new(SECOND)
        .arg("answer")
        .stdin(Stdio::piped())
        .stdout(Stdio::piped())
        .stderr(Stdio::piped())
        .spawn()
        .unwrap();
    // Written at once: the program reads all before it prints.
    child.stdin.take().unwrap().write_all(bytes).unwrap();
    child.wait_with_output().unwrap()
}

// ---- cases and store ----

#[test]
fn store_writes_what_it_lists() {
    let folder = Folder::new("store");
    let first = second_in(&folder.path, &["store", "one"]);
    let again = second_in(&folder.path, &["store", "deep/two"]);
    assert!(first.status.success() && again.status.success());
    assert_eq!(out(&first), out(&again));
    let names: Vec<String> = out(&first).lines().map(str::to_string).collect();
    let mut files: Vec<String> = fs::read_dir(folder.path.join("one"))
        .unwrap()
        .map(|entry| entry.unwrap().file_name().into_string().unwrap())
        .collect();
    files.sort();
    let wanted: Vec<String> = names.iter().map(|name| format!("{name}.rec")).collect();
    assert_eq!(files, wanted);
    for file in files {
        let one = fs::read(folder.path.join("one").join(&file)).unwrap();
        let two = fs::read(folder.path.join("deep/two").join(&file)).unwrap();
        assert!(one == two, "{file}");
    }
}

#[test]
fn cases_prints_names_and_texts() {
    let folder = Folder::new("cases");
    second_in(&folder.path, &["store", "."]);
    let words = ["cases", "m07-repair.rec", "./cut-000.rec", "m07-repair.rec"];
    let output = second_in(&folder.path, &words);
    assert!(output.status.success());
    let text = run(&folder.path.join("m07-repair.rec"));
    let wanted = format!(
        "# m07-repair.rec\n{text}# ./cut-000.rec\nrecord refused 6\n# m07-repair.rec\n{text}"
    );
    assert_eq!(out(&output), wanted);
    let output = second_in(&folder.path, &["cases", "example.rec", "none.rec"]);
    assert!(complaint(&output).starts_with("none.rec: "));
    assert_eq!(out(&second_in(&folder.path, &["cases"])), "");
}

// ---- calls, stream and answer ----

/// The bytes are those of the lists shown, in their order.
#[test]
fn stream_writes_the_lists_of_calls() {
    let folder = Folder::new("stream");
    let stream = second_in(&folder.path, &["stream", "3", "40"]);
    let calls = out(&second_in(&folder.path, &["calls", "3", "40"]));
    assert!(stream.status.success() && stream.stderr.is_empty());
    let bytes = &stream.stdout;
    let answered = answer(bytes);
    assert!(answered.status.success() && answered.stderr.is_empty());
    // The lines of `calls` have the call before, and no report behind.
    let text = out(&answered);
    let without_report: Vec<&str> = text
        .lines()
        .map(|line| line.rsplit_once(' ').unwrap().0)
        .collect();
    let shown: Vec<&str> = calls
        .lines()
        .map(|line| line.split_once(" = ").unwrap().1)
        .collect();
    assert!(shown.len() > 200);
    assert_eq!(without_report, shown);
    assert_eq!(words_of(bytes), calls_words(&calls));
    let again = second_in(&folder.path, &["stream", "3", "40"]);
    assert!(again.stdout == *bytes);
    assert!(second_in(&folder.path, &["stream", "4", "40"]).stdout != *bytes);
    assert!(second_in(&folder.path, &["stream", "3", "0"])
        .stdout
        .is_empty());
}

/// The bytes are those of the stories shown, then those of `stream`.
#[test]
fn stored_stream_has_the_stories_first() {
    let folder = Folder::new("stories");
    let second = |words: &[&str]| {
        let output = second_in(&folder.path, words);
        assert!(output.status.success() && output.stderr.is_empty());
        output.stdout
    };
    let text = String::from_utf8(second(&["stories"])).unwrap();
    let (names, lines): (Vec<&str>, Vec<&str>) =
        text.lines().partition(|line| line.starts_with("# "));
    assert_eq!((names.len(), lines.len()), (56, 5518));
    assert_eq!((names[0], names[15]), ("# honest", "# trap-liar"));
    assert_eq!(
        (names[16], names[30]),
        ("# stations-liar", "# one-to-n-stages")
    );
    assert_eq!((names[31], names[50]), ("# wide-honest", "# widths-desks"));
    assert_eq!(names[55], "# wide-winter-stations-nine");
    let bytes = second(&["story-stream"]);
    assert_eq!(words_of(&bytes), calls_words(&(lines.join("\n") + "\n")));
    let answered = out(&answer(&bytes));
    for (ours, shown) in answered.lines().zip(&lines) {
        let without_report = ours.rsplit_once(' ').unwrap().0;
        assert_eq!(without_report, shown.split_once(" = ").unwrap().1);
    }
    assert_eq!(answered.lines().count(), lines.len());
    let stored = second(&["stored-stream", "3", "40"]);
    assert!(stored == [&bytes[..], &second(&["stream", "3", "40"])].concat());
    assert!(stored == second(&["stored-stream", "3", "40"]));
}

/// The calls of a stream as text, read here once more.
fn words_of(mut bytes: &[u8]) -> Vec<String> {
    let names = [
        "make",
        "deal",
        "say",
        "hear",
        "settle",
        "open",
        "desk",
        "make-table",
        "desk-table",
        "locate",
    ];
    let number = |part: &[u8]| part.iter().fold(0, |sum, &b| 256 * sum + usize::from(b));
    let mut calls = Vec::new();
    while !bytes.is_empty() {
        let (wide, kind) = (bytes[0] / 128, usize::from(bytes[0] % 128));
        let size = if wide == 1 { 4 } else { 2 };
        let end = 3 + size * number(&bytes[1..3]);
        let numbers = bytes[3..end]
            .chunks(size)
            .map(|part| format!(" {}", number(part)));
        let name = ["", "wide-"][usize::from(wide)].to_string() + names[kind];
        calls.push(format!("{name}{}", numbers.collect::<String>()));
        bytes = &bytes[end..];
    }
    calls
}

fn calls_words(calls: &str) -> Vec<String> {
    calls
        .lines()
        .map(|line| line.split_once(" = ").unwrap().0.to_string())
        .collect()
}

/// Not an error, and the exit is 0: the lines before stand.
#[test]
fn answer_ends_where_a_call_is_none() {
    let _folder = Folder::new("answer-ends");
    let make = [0, 0, 3, 0, 5, 0, 1, 0, 1];
    let wide = [128, 0, 3, 0, 0, 0, 5, 0, 0, 0, 1, 0, 0, 0, 1];
    for (bytes, wanted) in [
        (vec![], ""),
        (vec![0], ""),
        (vec![9, 0, 0], "refused 1 ; 0 0 0 0\n"),
        (vec![9, 0, 1, 0], ""),
        (vec![10, 0, 0], ""),
        (vec![138, 0, 0], ""),
        (vec![130, 0, 1, 0, 0, 0, 1], ""),
        (vec![132, 0, 0], ""),
        (vec![128, 0, 3, 0, 5, 0, 1, 0, 1], ""),
        (wide.to_vec(), "ok ; 0 0 0 0\n"),
        (
            [&wide[..], &[1, 0, 0]].concat(),
            "ok ; 0 0 0 0\nrefused 18 ; 0 0 0 0\n",
        ),
        (
            [&make[..], &[129, 0, 0]].concat(),
            "ok ; 0 0 0 0\nrefused 18 ; 0 0 0 0\n",
        ),
        (vec![7, 0, 2, 0, 5, 0, 1], ""),
        (vec![7, 0, 3, 0, 5, 0, 1, 0, 1], "refused 3 ; 0 0 0 0\n"),
        (vec![8, 0, 4, 0, 5, 0, 1, 0, 0, 0, 1], ""),
        (
            vec![8, 0, 4, 0, 5, 0, 1, 0, 1, 0, 0],
            "refused 3 65535 ; 0 0 0 0\n",
        ),
        (vec![2, 0, 1, 0, 1], "refused 1 ; 0 0 0 0\n"),
        (
            vec![6, 0, 3, 0, 5, 0, 1, 0, 1],
            "refused 3 65535 ; 0 0 0 0\n",
        ),
        (make.to_vec(), "ok ; 0 0 0 0\n"),
        ([&make[..], &[2, 0]].concat(), "ok ; 0 0 0 0\n"),
        ([&make[..], &[10, 0, 0], &make].concat(), "ok ; 0 0 0 0\n"),
        (
            [&make[..], &[9, 0, 0], &[137, 0, 1, 0, 0, 0, 9]].concat(),
            "ok ; 0 0 0 0\nrefused 3 ; 0 0 0 0\nrefused 18 ; 0 0 0 0\n",
        ),
        ([&make[..], &[2, 0, 0], &make].concat(), "ok ; 0 0 0 0\n"),
        (make.repeat(2), "ok ; 0 0 0 0\nok ; 0 0 0 0\n"),
    ] {
        let output = answer(&bytes);
        assert_eq!(out(&output), wanted, "{bytes:?}");
        assert_eq!(output.status.code(), Some(0));
        assert!(output.stderr.is_empty());
    }
}

#[test]
fn anything_else_is_told_how() {
    let folder = Folder::new("usage");
    let told = |words: &[&str]| complaint(&second_in(&folder.path, words));
    for words in [
        &["cross"][..],
        &["store"],
        &["stream", "1"],
        &["stories", "1"],
        &["stored-stream", "1"],
        &["nothing"],
        &[],
    ] {
        assert!(told(words).starts_with("usage: second run"));
    }
    let text = told(&["cross", "x", "1", "bench"]);
    assert_eq!(text, "not a number: x\n");
}
