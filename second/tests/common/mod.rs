//! What the tests of the commands share. Other programs are shell scripts in a
//! folder of their own; most of them use this program itself.

use std::fs;
use std::path::{Path, PathBuf};
use std::process::{Command, Output, Stdio};
use std::sync::{Mutex, MutexGuard};

pub const SECOND: &str = env!("CARGO_BIN_EXE_second");

/// One test at a time: a script that is started while another test's new
/// process still has it open for writing would be "busy". So every process
/// is started while its test holds a folder.
static ONE_AT_A_TIME: Mutex<()> = Mutex::new(());

/// A folder that goes away with the test.
pub struct Folder {
    pub path: PathBuf,
    _alone: MutexGuard<'static, ()>,
}

impl Folder {
    pub fn new(name: &str) -> Folder {
        let alone = ONE_AT_A_TIME.lock().unwrap_or_else(|e| e.into_inner());
        let path = std::env::temp_dir().join(format!("second-{}-{name}", std::process::id()));
        fs::create_dir_all(&path).unwrap();
        Folder {
            path,
            _alone: alone,
        }
    }
}

impl Drop for Folder {
    fn drop(&mut self) {
        let _ = fs::remove_dir_all(&self.path);
    }
}

/// The program, started in a test's folder.
pub fn second_in(folder: &Path, words: &[&str]) -> Output {
    Command::new(SECOND)
        .args(words)
        .current_dir(folder)
        .output()
        .unwrap()
}

pub fn run(file: &Path) -> String {
    let input = Stdio::from(fs::File::open(file).unwrap());
    let output = Command::new(SECOND).arg("run").stdin(input).output();
    String::from_utf8(output.unwrap().stdout).unwrap()
}

pub fn out(output: &Output) -> String {
    String::from_utf8_lossy(&output.stdout).to_string()
}

/// What a failing command says; it exits with 1 and prints nothing else.
pub fn complaint(output: &Output) -> String {
    assert_eq!(output.status.code(), Some(1));
    assert_eq!(out(output), "");
    String::from_utf8_lossy(&output.stderr).to_string()
}
