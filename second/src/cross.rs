//! The proved program `bench` against ours: random records, then inputs far
//! longer than any record. The two must print the same bytes.

use crate::bench;
use crate::field::Width;
use crate::make::random_record;
use crate::outcome::{self, Counts};
use crate::program::compare;
use crate::record::write;
use crate::rng::Rng;
use crate::scenario::{build, legal_size, HONEST};
use std::path::Path;
use std::sync::Mutex;
use std::thread;

/// Records are run by so many threads at a time.
const THREADS: usize = 2;

/// The records still to be run. They come from one generator, in the order
/// of their numbers, so that they are those of `make`.
struct Queue {
    rng: Rng,
    next: usize,
    end: usize,
}

/// A record's number, and what is wrong with it.
type Mismatch = (usize, String);

/// The whole comparison: the text of success, or that of a mismatch.
pub fn cross(seed: u64, count: usize, program: &Path) -> Result<String, String> {
    let counts = cross_records(seed, count, program).map_err(|(k, what)| {
        let files = k + 1;
        format!("seed {seed}, record {k} (the last that `make {seed} {files} DIR` writes): {what}")
    })?;
    let inputs = long_inputs(seed);
    let number = inputs.len();
    for (name, bytes) in inputs {
        compare(program, &bytes, &bench::run(&bytes))
            .map_err(|what| format!("seed {seed}, {name}: {what}"))?;
    }
    success(seed, count, number, &counts)
}

/// The text of success, unless some kind of outcome should have come.
pub fn success(seed: u64, count: usize, long: usize, counts: &Counts) -> Result<String, String> {
    outcome::all_met(count, "records", &outcome::never_met(counts))
        .map_err(|what| format!("seed {seed}, {what}"))?;
    let table = outcome::table(counts);
    Ok(format!(
        "bench: {count} records and {long} long inputs of seed {seed}, all alike\n{table}"
    ))
}

// ---- records ----

/// All records; of two mismatches met at once the first counts.
fn cross_records(seed: u64, count: usize, program: &Path) -> Result<Counts, Mismatch> {
    let queue = Mutex::new(Queue {
        rng: Rng::new(seed),
        next: 0,
        end: count,
    });
    let results: Vec<Result<Counts, Mismatch>> = thread::scope(|scope| {
        let workers: Vec<_> = (0..THREADS)
            .map(|_| scope.spawn(|| work(&queue, program)))
            .collect();
        let joined = workers.into_iter().map(|worker| worker.join());
        joined.map(|result| result.expect("no panic")).collect()
    });
    let mut total = Counts::default();
    let mut first: Option<Mismatch> = None;
    for result in results {
        match result {
            Ok(counts) => total.iter_mut().zip(counts).for_each(|(a, b)| *a += b),
            Err(found) if first.as_ref().is_some_and(|(k, _)| *k < found.0) => {}
            Err(found) => first = Some(found),
        }
    }
    first.map_or(Ok(total), Err)
}

/// The next record and its number.
fn take(queue: &Mutex<Queue>) -> Option<(usize, Vec<u8>)> {
    let mut queue = queue.lock().expect("no panic while it is held");
    if queue.next >= queue.end {
        return None;
    }
    let number = queue.next;
    queue.next += 1;
    let (_, bytes) = random_record(&mut queue.rng);
    Some((number, bytes))
}

/// Runs records until none is left. After a mismatch no more are handed out.
fn work(queue: &Mutex<Queue>, program: &Path) -> Result<Counts, Mismatch> {
    let mut counts = Counts::default();
    while let Some((number, bytes)) = take(queue) {
        let text = bench::run(&bytes);
        match compare(program, &bytes, &text) {
            Ok(()) => outcome::count(&mut counts, &bytes, &text),
            Err(what) => {
                queue.lock().expect("no panic while it is held").end = 0;
                return Err((number, what));
            }
        }
    }
    Ok(counts)
}

// ---- long inputs ----

/// 64 KiB and 10 MB, each of zeros, of random bytes, and of both zeros and
/// copies of itself behind a legal record, a narrow and a wide one. With 64 KiB
/// behind it a record looks right to a reader that keeps its length in 16 bits.
fn long_inputs(seed: u64) -> Vec<(String, Vec<u8>)> {
    // Other numbers than those of the records, also for the same seed.
    let mut rng = Rng::new(!seed);
    let mut inputs = Vec::new();
    for length in [1 << 16, 10_000_000] {
        let zeros = vec![0; length];
        let random = (0..length).map(|_| rng.byte()).collect();
        inputs.push((format!("{length} random bytes"), random));
        for (width, name) in [(Width::Narrow, "a record"), (Width::Wide, "a wide record")] {
            let (n, t) = legal_size(&mut rng);
            let record = write(&build(&mut rng, width, n, t, HONEST).record);
            let copies: Vec<u8> = record.iter().copied().cycle().take(length).collect();
            let behind = |tail: &[u8]| [&record, tail].concat();
            inputs.push((
                format!("{name} and {length} zeros behind it"),
                behind(&zeros),
            ));
            inputs.push((
                format!("{name} and {length} bytes of its copies behind it"),
                behind(&copies),
            ));
        }
        inputs.push((format!("{length} zeros"), zeros));
    }
    inputs
}
