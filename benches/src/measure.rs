//! Rows of the table: contenders that answer the same question, compared on every input and timed in turn.

use std::fmt::Debug;
use std::hint::black_box;
use std::time::Instant;

/// Who answers: the columns of the tables. `Trial` is the library's opening by trial, where that by locator is what is
/// timed; `Version` is compared, not timed; `Old` is an older library's function, where one is linked (benches/ab).
#[derive(Clone, Copy, PartialEq, Eq)]
pub enum Role {
    Proved,
    Plain,
    Special,
    Naive,
    Trial,
    Version,
    Old,
}

pub const TIMED: [Role; 5] = [Role::Proved, Role::Plain, Role::Special, Role::Naive, Role::Trial];

pub struct Contender<I, O> {
    pub role: Role,
    pub name: &'static str,
    pub call: fn(&I, &mut O),
}

pub struct Row<I, O> {
    pub key: String,
    pub title: String,
    pub inputs: Vec<I>,
    pub blank: O,
    pub contenders: Vec<Contender<I, O>>,
}

#[derive(Clone, Copy)]
pub struct Pace {
    pub samples: usize,
    /// Nanoseconds that a batch takes, if a call is not longer.
    pub batch: f64,
}

/// The calls between two looks at the clock.
#[derive(Clone, Copy)]
struct Batch {
    inputs: usize,
    rounds: usize,
}

/// The times of one contender in ns per call, one for each sample.
pub struct Times {
    pub role: Role,
    pub name: &'static str,
    pub samples: Vec<f64>,
}

/// A row, whatever it asks.
pub trait Bench {
    fn key(&self) -> &str;
    fn title(&self) -> &str;
    /// Whether there is a contender of this role.
    fn has(&self, role: Role) -> bool;
    /// Whether all contenders, but for an older library's function, answer alike on every input.
    fn compare(&self) -> Result<(), String>;
    /// Whether the older library's function answers as the library's does.
    fn compare_old(&self) -> Result<(), String>;
    /// Times the contenders of these roles.
    fn measure(&self, pace: Pace, roles: &[Role]) -> Vec<Times>;
    /// Calls one contender over and over; nothing is called where there is no such role.
    fn repeat(&self, role: Option<Role>, times: usize);
}

impl<I, O: Clone + PartialEq + Debug> Bench for Row<I, O> {
    fn key(&self) -> &str {
        &self.key
    }

    fn title(&self) -> &str {
        &self.title
    }

    fn has(&self, role: Role) -> bool {
        self.contenders.iter().any(|c| c.role == role)
    }

    fn compare(&self) -> Result<(), String> {
        self.alike(|role| role != Role::Old)
    }

    fn compare_old(&self) -> Result<(), String> {
        self.alike(|role| role == Role::Proved || role == Role::Old)
    }

    fn measure(&self, pace: Pace, roles: &[Role]) -> Vec<Times> {
        let timed: Vec<_> = self.contenders.iter().filter(|c| roles.contains(&c.role)).collect();
        let batches = self.batches(&timed, pace);
        let mut times: Vec<Times> =
            timed.iter().map(|c| Times { role: c.role, name: c.name, samples: Vec::new() }).collect();
        for sample in 0..pace.samples {
            for turn in 0..timed.len() {
                let k = (turn + sample) % timed.len();
                times[k].samples.push(self.time(timed[k].call, sample * batches[k].inputs, batches[k]));
            }
        }
        times
    }

    fn repeat(&self, role: Option<Role>, times: usize) {
        let mut out = self.blank.clone();
        let found = self.contenders.iter().find(|c| Some(c.role) == role);
        for k in 0..times {
            let input = black_box(&self.inputs[k % self.inputs.len()]);
            if let Some(contender) = found {
                (contender.call)(input, &mut out);
            }
            black_box(&mut out);
        }
    }
}

impl<I, O: Clone + PartialEq + Debug> Row<I, O> {
    /// Whether the contenders of some roles answer alike on every input.
    fn alike(&self, asked: impl Fn(Role) -> bool) -> Result<(), String> {
        for (k, input) in self.inputs.iter().enumerate() {
            let mut first = None;
            for contender in self.contenders.iter().filter(|c| asked(c.role)) {
                let mut out = self.blank.clone();
                (contender.call)(input, &mut out);
                let (name, answer) = first.get_or_insert((contender.name, out.clone()));
                if *answer != out {
                    let title = &self.title;
                    return Err(format!(
                        "{title}, input {k}: {name} answers {answer:?}, {} answers {out:?}",
                        contender.name
                    ));
                }
            }
        }
        Ok(())
    }

    /// Nanoseconds per call, over some inputs from a place on, in turn, and that for some rounds.
    fn time(&self, call: fn(&I, &mut O), from: usize, batch: Batch) -> f64 {
        let call = black_box(call);
        let mut out = self.blank.clone();
        let start = Instant::now();
        for _ in 0..batch.rounds {
            let mut at = from % self.inputs.len();
            for _ in 0..batch.inputs {
                call(black_box(&self.inputs[at]), &mut out);
                black_box(&mut out);
                at += 1;
                if at == self.inputs.len() {
                    at = 0;
                }
            }
        }
        start.elapsed().as_nanos() as f64 / (batch.inputs * batch.rounds) as f64
    }

    /// What each contender does in a batch: the same inputs for all, as many as the slowest can do in the time, though
    /// at least eight. The naive way does as many of them as it can.
    fn batches(&self, timed: &[&Contender<I, O>], pace: Pace) -> Vec<Batch> {
        let all = self.inputs.len();
        let first = |c: &Contender<I, O>| if c.role == Role::Naive { 1 } else { all };
        let costs: Vec<f64> =
            timed.iter().map(|c| self.time(c.call, 0, Batch { inputs: first(c), rounds: 1 })).collect();
        let others = timed.iter().zip(&costs).filter(|(c, _)| c.role != Role::Naive);
        let slowest = others.map(|(_, &cost)| cost).fold(1.0, f64::max);
        let inputs = ((pace.batch / slowest) as usize).clamp(all.min(8), all);
        let batch = |(c, &cost): (&&Contender<I, O>, &f64)| {
            let calls = ((pace.batch / cost) as usize).max(1);
            let inputs = if c.role == Role::Naive { inputs.min(calls) } else { inputs };
            Batch { inputs, rounds: (calls / inputs).max(1) }
        };
        timed.iter().zip(&costs).map(batch).collect()
    }
}

/// The value that a part of the samples lies below: 0.5 for the median.
pub fn quantile(samples: &[f64], part: f64) -> f64 {
    let mut sorted = samples.to_vec();
    sorted.sort_by(f64::total_cmp);
    sorted[((sorted.len() - 1) as f64 * part).round() as usize]
}

/// How many times longer one takes than the other: the median over pairs of samples taken one after the other, so that
/// a machine that slows down for a while does so for both.
pub fn ratio(one: &Times, other: &Times) -> f64 {
    let ratios: Vec<f64> = one.samples.iter().zip(&other.samples).map(|(a, b)| a / b).collect();
    quantile(&ratios, 0.5)
}
