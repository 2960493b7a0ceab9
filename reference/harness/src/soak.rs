//! A set of jobs, or of newcomers and turns, again and again through one process: every
//! answer compared each time, the resident memory sampled.

use std::io::{BufReader, Read, Write};
use std::process::{Child, Command, Stdio};
use std::sync::atomic::{AtomicBool, Ordering};
use std::sync::Arc;
use std::thread;
use std::time::{Duration, Instant};

use reference::generate;
use reference::history::stream;
use reference::mistake::Mistake;
use reference::rounds::{kind, Reply, Roof};
use reference::run;

use crate::arguments::fail;
use crate::frame::{self, Frame};
use crate::memory::{constant, resident_kib};
use crate::progress::Progress;
use crate::rounds;

/// Between two samples of the memory, in parts.
const SAMPLE_EVERY: u64 = 20_000;

/// What goes through a process again and again.
pub struct Set {
    /// What its parts are called.
    pub parts: &'static str,
    pub stream: Vec<u8>,
    /// How many parts it has.
    pub count: u64,
    /// How many of them are jobs.
    pub jobs: u64,
    pub steps: u64,
    /// What must be printed for the part of a number, counted over all rounds.
    text: Box<dyn Fn(u64) -> String>,
}

/// Frames of `replay`: the first jobs of the generator from a seed on, valid and damaged,
/// that are not too long.
pub fn frames(seed: u64) -> Set {
    const JOBS: usize = 1_000;
    // Longer ones would make few rounds of many hours.
    const MOST_STEPS: u64 = 500;
    let mut stream = Vec::new();
    let mut texts = Vec::new();
    let mut steps = 0;
    for seed in seed.. {
        let frame = Frame::varied(&generate::case(seed), seed);
        let case = frame.case();
        let outcome = run::outcome(&case.bytes, &case.limits);
        if outcome.steps <= MOST_STEPS {
            frame.write(&mut stream);
            texts.push(frame::text(&outcome));
            steps += outcome.steps;
        }
        if texts.len() == JOBS {
            break;
        }
    }
    let text = move |number| frame::heading(number) + &texts[number as usize % JOBS];
    Set {
        parts: "jobs",
        stream,
        count: JOBS as u64,
        jobs: JOBS as u64,
        steps,
        text: Box::new(text),
    }
}

/// Events of `rounds`: the first orders of the generator from a seed on that are not
/// too long. Each ends with an empty roof.
pub fn orders(seed: u64) -> Set {
    const ORDERS: usize = 400;
    const MOST_STEPS: u64 = 8_000;
    let mut events = Vec::new();
    // What becomes of each event, and the number of the first one of its order.
    let mut replies: Vec<(Reply, usize)> = Vec::new();
    let (mut orders, mut steps) = (0, 0);
    for order in (seed..).map(generate::order) {
        let mut roof = Roof::new(Mistake::None);
        let these: Vec<Reply> = order.iter().map(|event| roof.expect(event)).collect();
        let took: u64 = these.iter().map(taken).sum();
        if took <= MOST_STEPS {
            let first = events.len();
            events.extend(order);
            replies.extend(these.into_iter().map(|reply| (reply, first)));
            steps += took;
            orders += 1;
        }
        if orders == ORDERS {
            break;
        }
    }
    let count = events.len() as u64;
    let text = move |number: u64| {
        let place = number % count;
        let (reply, first) = &replies[place as usize];
        rounds::text(number as usize, reply, (number - place) as usize + first)
    };
    let newcomers = events.iter().filter(|event| event.kind == kind::NEWCOMER);
    Set {
        parts: "events",
        jobs: newcomers.count() as u64,
        stream: stream(&events),
        count,
        steps,
        text: Box::new(text),
    }
}

/// The steps of a turn.
fn taken(reply: &Reply) -> u64 {
    match reply {
        Reply::Turn { took, .. } => *took,
        _ => 0,
    }
}

/// True where nothing drifts and the memory is constant, over so many jobs and so long.
pub fn soak(path: &str, set: Set, jobs: u64, limit: Duration) -> bool {
    let rounds = jobs.div_ceil(set.jobs);
    let spawned = Command::new(path)
        .stdin(Stdio::piped())
        .stdout(Stdio::piped())
        .spawn();
    let mut child =
        spawned.unwrap_or_else(|error| fail(&format!("{path} does not start: {error}")));
    let stop = Arc::new(AtomicBool::new(false));
    let writer = write_rounds(&mut child, set.stream, rounds, stop.clone());
    let mut output = BufReader::with_capacity(1 << 20, child.stdout.take().expect("piped"));
    let mut progress = Progress::new("soak");
    let mut samples: Vec<(u64, u64)> = Vec::new();
    let start = Instant::now();
    let (mut done, mut bytes) = (0u64, 0u64);
    // Whole rounds, so that the streams end together.
    loop {
        let wanted = (set.text)(done);
        let mut got = vec![0; wanted.len()];
        if let Err(error) = output.read_exact(&mut got) {
            let whole = done % set.count == 0;
            if whole && (stop.load(Ordering::Relaxed) || done >= rounds * set.count) {
                break;
            }
            println!("the output ends at {done} {}: {error}", set.parts);
            return false;
        }
        if got != wanted.as_bytes() {
            let got = String::from_utf8_lossy(&got).into_owned();
            println!(
                "drift at {done} {}\nexpected\n{wanted}\ngot\n{got}",
                set.parts
            );
            return false;
        }
        done += 1;
        bytes += got.len() as u64;
        // Behind the last part the process ends, and what it does then is no growth.
        let more = done < rounds * set.count && !stop.load(Ordering::Relaxed);
        if done % SAMPLE_EVERY == 0 && more {
            samples.push((done, resident_kib(&child)));
            progress.show(|| format!("{done} {}", set.parts));
        }
        if done % set.count == 0 && start.elapsed() >= limit {
            stop.store(true, Ordering::Relaxed);
        }
    }
    let seconds = start.elapsed().as_secs_f64();
    writer.join().expect("the writer ends");
    let status = child.wait().expect("the process ends");
    let jobs = done / set.count * set.jobs;
    println!(
        "{jobs} jobs in {seconds:.1} s, {:.0} a second, {:.1} µs a job; {bytes} bytes printed, every answer the same",
        jobs as f64 / seconds,
        seconds * 1e6 / jobs as f64
    );
    if !status.success() {
        println!("it ended with {status}");
        return false;
    }
    constant(&samples, set.parts)
}

/// Writes the stream again and again, whole, until there are enough rounds or
/// `stop` is set; then closes the input.
fn write_rounds(
    child: &mut Child,
    stream: Vec<u8>,
    rounds: u64,
    stop: Arc<AtomicBool>,
) -> thread::JoinHandle<()> {
    let mut input = child.stdin.take().expect("piped");
    thread::spawn(move || {
        for _ in 0..rounds {
            if stop.load(Ordering::Relaxed) || input.write_all(&stream).is_err() {
                return;
            }
        }
    })
}
