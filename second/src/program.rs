//! Another program, run on some bytes as its standard input, and its text
//! held against ours.

use std::io::{self, Read, Write};
use std::path::Path;
use std::process::{Child, ChildStdin, ChildStdout, Command, Stdio};
use std::sync::mpsc::{channel, Receiver};
use std::thread;
use std::time::{Duration, Instant};

/// A program that has not ended by then is taken to hang.
pub const TIME_LIMIT: Duration = Duration::from_secs(10);

/// More than any right program prints; one that prints without end is cut
/// off here and then found wrong.
const OUTPUT_LIMIT: u64 = 16 << 20;

/// How much of a long input a message shows.
const SHOWN: usize = 64;

/// What a program printed, and how it ended if not well.
#[derive(PartialEq, Eq, Debug)]
pub struct Ran {
    pub output: Vec<u8>,
    pub bad_end: Option<String>,
}

/// Runs the program on the input. Its standard error is ours.
pub fn feed(program: &Path, input: Vec<u8>, limit: Duration) -> io::Result<Ran> {
    let deadline = Instant::now() + limit;
    // A bare name is a file of this folder, not one to be looked for.
    let mut child = Command::new(std::path::absolute(program)?)
        .stdin(Stdio::piped())
        .stdout(Stdio::piped())
        .spawn()?;
    write_aside(child.stdin.take().expect("piped"), input);
    let reader = read_aside(child.stdout.take().expect("piped"));
    let printed = reader.recv_timeout(limit);
    let bad_end = match printed {
        Ok(_) => wait(&mut child, deadline)?,
        Err(_) => Some(stop(&mut child, "hangs")?),
    };
    Ok(Ran {
        output: printed.unwrap_or_default(),
        bad_end,
    })
}

/// Writing and reading go on side by side: a long input fills the pipe, and
/// so may a long output. That a program stops reading early is no fault, for
/// only what it prints counts; so failures to write are passed over.
fn write_aside(mut pipe: ChildStdin, input: Vec<u8>) {
    thread::spawn(move || {
        let _ = pipe.write_all(&input);
    });
}

/// The output arrives when the program has closed it.
fn read_aside(pipe: ChildStdout) -> Receiver<Vec<u8>> {
    let (sender, receiver) = channel();
    thread::spawn(move || {
        let mut output = Vec::new();
        let _ = pipe.take(OUTPUT_LIMIT).read_to_end(&mut output);
        // Nobody listens any more once the time is up.
        let _ = sender.send(output);
    });
    receiver
}

/// Waits for the end; what is told is how it was, unless all is well.
fn wait(child: &mut Child, deadline: Instant) -> io::Result<Option<String>> {
    let mut pause = Duration::from_micros(50);
    loop {
        if let Some(status) = child.try_wait()? {
            return Ok((!status.success()).then(|| format!("ends with {status}")));
        }
        if Instant::now() > deadline {
            return Ok(Some(stop(child, "closes its output and hangs")?));
        }
        thread::sleep(pause);
        pause = (2 * pause).min(Duration::from_millis(10));
    }
}

fn stop(child: &mut Child, what: &str) -> io::Result<String> {
    child.kill()?;
    child.wait()?;
    Ok(what.to_string())
}

// ---- comparison ----

/// Runs the program on the bytes; what is wrong if it does not print our text.
pub fn compare(program: &Path, bytes: &[u8], ours: &str) -> Result<(), String> {
    let ran = feed(program, bytes.to_vec(), TIME_LIMIT)
        .map_err(|e| format!("{} does not run: {e}", program.display()))?;
    if ran.bad_end.is_none() && ran.output == ours.as_bytes() {
        return Ok(());
    }
    Err(difference(bytes, ours, &ran))
}

fn difference(bytes: &[u8], ours: &str, ran: &Ran) -> String {
    let what = match &ran.bad_end {
        Some(end) => format!("the program {end}"),
        None => "the texts differ".to_string(),
    };
    let theirs = String::from_utf8_lossy(&ran.output);
    format!(
        "{what}\n{} bytes: {}\n--- second prints\n{ours}--- the program prints\n{theirs}---",
        bytes.len(),
        hex(bytes)
    )
}

/// The bytes in hex; of what is too long to be a record, the start.
fn hex(bytes: &[u8]) -> String {
    let (shown, rest) = if bytes.len() < 1 << 16 {
        (bytes, "")
    } else {
        (&bytes[..SHOWN], "...")
    };
    let digits: String = shown.iter().map(|byte| format!("{byte:02x}")).collect();
    digits + rest
}
