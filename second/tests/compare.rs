//! The comparisons with other programs, as a user starts them.

mod common;

use common::{complaint, out, run, second_in, Folder, SECOND};
use std::fs;
use std::os::unix::fs::PermissionsExt;
use std::process::Output;

/// A script in a test's folder; in its lines SECOND stands for this program.
fn script(folder: &Folder, lines: &str) -> String {
    let path = folder.path.join("script");
    let lines = lines.replace("SECOND", SECOND);
    fs::write(&path, format!("#!/bin/sh\n{lines}\n")).unwrap();
    fs::set_permissions(&path, fs::Permissions::from_mode(0o755)).unwrap();
    path.to_str().unwrap().to_string()
}

// ---- cross ----

/// `cross` against a script.
fn cross(name: &str, lines: &str, seed: &str, count: &str) -> Output {
    let folder = Folder::new(name);
    let script = script(&folder, lines);
    second_in(&folder.path, &["cross", seed, count, &script])
}

#[test]
fn cross_passes_with_the_same_program() {
    let output = cross("same", "exec SECOND run", "3", "60");
    assert!(output.status.success(), "{output:?}");
    let text = out(&output);
    let mut lines = text.lines();
    let first = "bench: 60 records and 12 long inputs of seed 3, all alike";
    assert_eq!(lines.next(), Some(first));
    let counts: Vec<&str> = lines.collect();
    assert_eq!(counts.len(), 32);
    let number = |line: &str| -> usize { line[..8].trim().parse().unwrap() };
    // Every record is refused, accepted or rejected, narrow or wide.
    let ends = counts[..4].iter().chain(&counts[16..20]);
    assert_eq!(ends.map(|line| number(line)).sum::<usize>(), 60);
}

#[test]
fn cross_finds_another_text() {
    let text = complaint(&cross("other", "cat > /dev/null; echo hello", "3", "20"));
    assert!(text.starts_with("seed 3, record 0 "), "{text}");
    assert!(text.contains("the texts differ"));
    assert!(text.ends_with("--- the program prints\nhello\n---\n"));
}

/// The bytes shown are those of the record that `make` writes, and it is the
/// first on which the two differ.
#[test]
fn cross_names_the_first_wrong_record() {
    let lines = "SECOND run | sed 's/refused 9/refused 8/'";
    let text = complaint(&cross("nine", lines, "4", "300"));
    let folder = Folder::new("nine-again");
    second_in(&folder.path, &["make", "4", "300", "."]);
    let file = |k: usize| folder.path.join(format!("{k:06}.rec"));
    let number = (0..300)
        .find(|&k| run(&file(k)).contains("refused 9"))
        .unwrap();
    assert!(number > 0);
    assert!(
        text.starts_with(&format!("seed 4, record {number} ")),
        "{text}"
    );
    let bytes = fs::read(file(number)).unwrap();
    let hex: String = bytes.iter().map(|byte| format!("{byte:02x}")).collect();
    assert!(text.contains(&format!("\n{} bytes: {hex}\n", bytes.len())));
    let ours = run(&file(number));
    let theirs = ours.replace("refused 9", "refused 8");
    let both = format!("--- second prints\n{ours}--- the program prints\n{theirs}---\n");
    assert!(text.ends_with(&both));
}

#[test]
fn cross_finds_small_faults() {
    for (name, lines, what) in [
        ("longer", "SECOND run; echo", "the texts differ"),
        ("shorter", "printf %s \"$(SECOND run)\"", "the texts differ"),
        ("status", "SECOND run; exit 3", "exit status: 3"),
        ("killed", "SECOND run; kill -9 $$", "signal: 9"),
        ("silent", "cat > /dev/null", "the texts differ"),
    ] {
        let text = complaint(&cross(name, lines, "4", "2"));
        assert!(text.starts_with("seed 4, record 0 "), "{name}: {text}");
        assert!(text.contains(what), "{name}: {text}");
    }
    let folder = Folder::new("nothing");
    let words = ["cross", "4", "2", "no-such-program"];
    let text = complaint(&second_in(&folder.path, &words));
    assert!(text.contains("no-such-program does not run"));
}

/// A program that is wrong with long inputs only.
#[test]
fn cross_tries_long_inputs() {
    let lines = "cat > \"$0.$$\"
if [ $(wc -c < \"$0.$$\") -gt 9000000 ]; then echo record refused 6; else SECOND run < \"$0.$$\"; fi
rm \"$0.$$\"";
    let text = complaint(&cross("long", lines, "5", "4"));
    assert!(text.starts_with("seed 5, 10000000 "), "{text}");
    assert!(text.contains("\n10000000 bytes: "));
    assert!(text.contains("--- second prints\nrecord refused 1\n"));
    assert!(text.len() < 1000);
}

// ---- cross-calls ----

fn cross_calls(name: &str, lines: &str, count: &str) -> Output {
    let folder = Folder::new(name);
    let script = script(&folder, lines);
    second_in(&folder.path, &["cross-calls", "3", count, &script])
}

#[test]
fn cross_calls_passes_with_the_same_program() {
    let output = cross_calls("calls-same", "exec SECOND answer", "400");
    assert!(output.status.success(), "{output:?}");
    let text = out(&output);
    assert!(text.starts_with("calls: 400 lists of "), "{text}");
    assert!(text.contains(" runs of seed 3, all alike; make: ok "));
    assert!(text.contains("; desk: ok ") && text.ends_with(" short inputs\n"));
    assert_eq!(text.lines().count(), 1);
    // Nothing is missing: no answer was met 0 times.
    assert!(!text.contains(" 0,") && !text.contains(" 0;") && !text.contains(" 0\n"));
}

/// The batches are small enough, more than one, and together the bytes of
/// `stream`. From 1,000 lists on it is also asked that every answer came.
#[test]
fn cross_calls_sends_the_stream() {
    let lines = "cat > \"$0.$$\"
if [ $(wc -c < \"$0.$$\") -gt 60000 ]; then exit 1; fi
echo x >> \"$0.runs\"
cat \"$0.$$\" >> \"$0.all\"
SECOND answer < \"$0.$$\"
rm \"$0.$$\"";
    let folder = Folder::new("calls-batches");
    let script = script(&folder, lines);
    let output = second_in(&folder.path, &["cross-calls", "3", "1000", &script]);
    assert!(output.status.success(), "{output:?}");
    let text = out(&output);
    let stream = second_in(&folder.path, &["stream", "3", "1000"]).stdout;
    let sent = fs::read(format!("{script}.all")).unwrap();
    assert!(stream.len() > 120_000 && sent.starts_with(&stream));
    let number = |after: &str| -> usize {
        let rest = text.split_once(after).unwrap().1;
        rest.split(' ').next().unwrap().parse().unwrap()
    };
    let runs = fs::read_to_string(format!("{script}.runs")).unwrap();
    let batches = number(" calls in ");
    assert!(batches > 2);
    assert_eq!(runs.lines().count(), batches + number("; and "));
}

/// The calls shown are those of `calls`, up to the first wrong answer.
#[test]
fn cross_calls_shows_the_list() {
    let lines = "SECOND answer | sed 's/^refused 9/refused 8/'";
    let text = complaint(&cross_calls("calls-nine", lines, "200"));
    assert!(text.starts_with("seed 3, list "), "{text}");
    let shown: Vec<&str> = text.lines().skip(1).collect();
    let (calls, both) = shown.split_at(shown.len() - 2);
    assert!(both[0].starts_with("second: \"refused 9 ; 4 0 "), "{text}");
    assert!(both[1].starts_with("program: \"refused 8 ; 4 0 "), "{text}");
    let folder = Folder::new("calls-nine-again");
    let all = out(&second_in(&folder.path, &["calls", "3", "200"]));
    let of_all: Vec<&str> = all
        .lines()
        .map(|line| line.split_once(" = ").unwrap().0)
        .collect();
    let answers: Vec<&str> = all.lines().collect();
    let at = answers
        .iter()
        .position(|line| line.contains(" = refused 9 ;"))
        .unwrap();
    assert_eq!(of_all[at + 1 - calls.len()..=at], *calls);
    assert!(calls[0].starts_with("make") || calls[0].starts_with("wide-make"));
}

#[test]
fn cross_calls_finds_small_faults() {
    for (name, lines, what) in [
        (
            "calls-report",
            "SECOND answer | sed 's/ 0$/ 1/'",
            "second: ",
        ),
        ("calls-less", "SECOND answer | sed '$d'", "program: \"\""),
        (
            "calls-more",
            "SECOND answer; echo",
            "a line too many: \"\\n\"",
        ),
        ("calls-cut", "printf %s \"$(SECOND answer)\"", "program: "),
        ("calls-status", "SECOND answer; exit 3", "exit status: 3"),
        ("calls-silent", "cat > /dev/null", "program: \"\""),
    ] {
        let text = complaint(&cross_calls(name, lines, "3"));
        assert!(text.starts_with("seed 3, "), "{name}: {text}");
        assert!(text.contains(what), "{name}: {text}");
    }
}

/// Faults of the desk alone: its list, its refusals, the party it leaves.
#[test]
fn cross_calls_finds_faults_of_the_desk() {
    for (name, lines) in [
        ("desk-room", "s/^refused 3 65535/refused 3 0/"),
        ("desk-wide", "s/^refused 3 4294967295/refused 3 65535/"),
        ("desk-less", "s/^\\(refused [135]\\) 65535.* ;/\\1 ;/"),
        ("desk-five", "s/^refused 5/refused 3/"),
        ("desk-one", "s/^refused 1 65535/refused 3 65535/"),
        (
            "desk-last",
            "s/^\\(ok\\( [0-9]*\\)\\{19,\\}\\) [0-9]* ;/\\1 x ;/",
        ),
    ] {
        let lines = format!("SECOND answer | sed '{lines}'");
        let text = complaint(&cross_calls(name, &lines, "400"));
        let shown: Vec<&str> = text.lines().collect();
        assert!(text.starts_with("seed 3, list "), "{name}: {text}");
        let call = shown[shown.len() - 3];
        let desk = call.starts_with("desk") || call.starts_with("wide-desk");
        assert!(desk, "{name}: {text}");
    }
}

/// Faults in what is said of tables: another refusal at a making, at the desk
/// and at a party's calls, and 14 where another comes first.
#[test]
fn cross_calls_finds_faults_of_tables() {
    for (name, fault, call) in [
        (
            "table-desk",
            "s/^refused 14 65535/refused 5 65535/",
            "desk-table ",
        ),
        (
            "table-desk-3",
            "s/^refused 14 65535/refused 3 65535/",
            "desk-table ",
        ),
        ("table-calls", "s/^refused 14 ; 0/refused 4 ; 0/", ""),
        ("table-none", "s/^refused 14/ok/", ""),
    ] {
        let lines = format!("SECOND answer | sed '{fault}'");
        let text = complaint(&cross_calls(name, &lines, "400"));
        let shown: Vec<&str> = text.lines().collect();
        assert!(text.starts_with("seed 3, list "), "{name}: {text}");
        assert!(shown[shown.len() - 3].starts_with(call), "{name}: {text}");
        let ours = shown[shown.len() - 2];
        assert!(ours.starts_with("second: \"refused 14 "), "{name}: {text}");
    }
}

/// Faults in what is said of widths: another refusal than 18, numbers cut, and
/// what a sender writes.
#[test]
fn cross_calls_finds_faults_of_widths() {
    for (name, fault) in [
        ("width-three", "s/^refused 18/refused 3/"),
        ("width-none", "s/^refused 18/ok/"),
        (
            "width-not-sent",
            "s/^ok 4294967295 4294967295 ;/ok 65535 65535 ;/",
        ),
        ("width-share", "s/ ; 3 [0-9]\\{6,\\} / ; 3 7 /"),
        ("width-opened", "s/^ok [0-9]\\{6,\\} ;/ok 7 ;/"),
    ] {
        let lines = format!("SECOND answer | sed '{fault}'");
        let text = complaint(&cross_calls(name, &lines, "100"));
        assert!(text.starts_with("seed 3, list "), "{name}: {text}");
    }
}

/// A program that reads narrow records alone, as before: wide ones are refused
/// with 1.
#[test]
fn cross_finds_a_narrow_reader() {
    let lines = "cat > \"$0.$$\"
case \"$(head -c 1 \"$0.$$\" | od -An -v -tu1 | tr -d ' ')\" in
12[89]|1[3-9]?|2??) if [ $(wc -c < \"$0.$$\") = 1 ]; then echo record refused 6; else echo record refused 1; fi;;
*) SECOND run < \"$0.$$\";;
esac
rm \"$0.$$\"";
    let text = complaint(&cross("narrow-reader", lines, "3", "40"));
    assert!(text.ends_with("--- the program prints\nrecord refused 1\n---\n"));
    assert!(!text.contains("--- second prints\nrecord refused 1\n"));
}

/// Programs that are right on every list, and wrong only where an input ends
/// at what is no call, or has no make. They look at the first bytes.
#[test]
fn cross_calls_tries_short_inputs() {
    let choose = "cat > \"$0.$$\"
case \"$(head -c 9 \"$0.$$\" | od -An -v -tu1 | tr -s ' \\n' -)\" in
CASE;;
*) SECOND answer < \"$0.$$\";;
esac
rm \"$0.$$\"";
    for (name, case, input) in [
        ("short-kind", "-10-*) exit 1", "kind 10 of 0 numbers"),
        ("short-locate", "-9-0-5-*) exit 1", "kind 9 without a make"),
        ("short-desk", "-8-0-3-*) exit 1", "kind 8 of 3 numbers"),
        (
            "short-count",
            "-0-0-4-*) echo 'refused 1 ; 0 0 0 0'",
            "kind 0 of 4 numbers",
        ),
        ("short-none", "'') echo", "nothing"),
        (
            "short-make",
            "-2-0-1-*) echo no party",
            "kind 2 without a make",
        ),
    ] {
        let text = complaint(&cross_calls(name, &choose.replace("CASE", case), "2"));
        let start = format!("seed 3, short input \"{input}\": ");
        assert!(text.starts_with(&start), "{name}: {text}");
        assert!(text.contains("--- second prints\n"), "{name}: {text}");
    }
}
