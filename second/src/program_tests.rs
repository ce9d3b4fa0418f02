//! Other programs run on bytes.

use crate::program::{feed, Ran, TIME_LIMIT};
use std::fs;
use std::os::unix::fs::PermissionsExt;
use std::path::PathBuf;
use std::sync::Mutex;
use std::time::{Duration, Instant};

/// One script at a time: a program started while another thread still has
/// its script open for writing would be "busy".
static ONE_AT_A_TIME: Mutex<()> = Mutex::new(());

/// What a script does with an input, and how long it took.
fn script(name: &str, lines: &str, input: &[u8], limit: Duration) -> (Ran, Duration) {
    let _alone = ONE_AT_A_TIME.lock().unwrap_or_else(|e| e.into_inner());
    let file: PathBuf = std::env::temp_dir().join(format!("second-{}-{name}", std::process::id()));
    fs::write(&file, format!("#!/bin/sh\n{lines}\n")).unwrap();
    fs::set_permissions(&file, fs::Permissions::from_mode(0o755)).unwrap();
    let start = Instant::now();
    let ran = feed(&file, input.to_vec(), limit);
    let time = start.elapsed();
    fs::remove_file(&file).unwrap();
    (ran.unwrap(), time)
}

fn end_of(name: &str, lines: &str) -> String {
    let (ran, _) = script(name, lines, b"abc", TIME_LIMIT);
    ran.bad_end.expect("a bad end")
}

#[test]
fn input_and_output_may_be_long() {
    // More than any pipe holds, in both directions at once.
    let input: Vec<u8> = (0..3_000_000_u32).map(|k| (k % 251) as u8).collect();
    let (ran, _) = script("cat", "exec cat", &input, TIME_LIMIT);
    assert_eq!(ran.bad_end, None);
    assert!(ran.output == input);
}

#[test]
fn not_reading_is_no_fault() {
    let (ran, _) = script("deaf", "echo done", &vec![0; 3_000_000], TIME_LIMIT);
    assert_eq!(ran.bad_end, None);
    assert_eq!(ran.output, b"done\n");
}

#[test]
fn bad_ends() {
    assert!(end_of("three", "cat; exit 3").contains('3'));
    assert!(end_of("killed", "cat; kill -9 $$").contains("signal"));
    assert!(end_of("endless", "exec yes").contains("signal"));
}

#[test]
fn programs_that_hang() {
    let short = Duration::from_millis(300);
    for (name, lines) in [
        ("sleeper", "exec sleep 60"),
        ("closer", "exec sleep 60 >&-"),
    ] {
        let (ran, time) = script(name, lines, b"", short);
        assert!(ran.bad_end.is_some_and(|end| end.contains("hangs")));
        assert!(time < Duration::from_secs(30));
    }
}
