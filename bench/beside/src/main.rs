//! Compares this repository's calls with those of the Rust crate tls-parser, in one process.
//! `bench/run` builds and runs it.
//!
//! - `times`: for each case the two sides run in turn, in batches of about 2 ms. Prints the median
//!   and the quartiles of the ratios of neighboring batches.
//! - `counted`: allocations and peak memory, in a build with the feature `count`.
//! - `instructions`: each side a few times with a mark between, to be run by callgrind.
//! - `streams`: cuts 64 MiB into records.
//! - `growth`: our calls on their worst inputs, of doubling size: time, or in the other build
//! memory.

mod cases;
mod growth;
mod inputs;
#[cfg(feature = "count")]
mod memory;
mod number;
mod ours;
mod rust;
mod view;

use cases::{Case, InPieces, Stream};
use std::hint::black_box;

/// Batches per case and side.
const BATCHES: usize = 60;

/// How often each side cuts a whole stream.
const STREAM_ROUNDS: usize = 15;

/// The length of a batch in seconds.
const BATCH_SECONDS: f64 = 0.002;

#[repr(C)]
struct Timespec {
    seconds: i64,
    nanoseconds: i64,
}

unsafe extern "C" {
    fn clock_gettime(clock: i32, time: *mut Timespec) -> i32;
}

/// The CPU time of this process in seconds, so that other processes on the core don't count.
fn processor_time() -> f64 {
    const PROCESS: i32 = 2;
    let mut time = Timespec { seconds: 0, nanoseconds: 0 };
    let failed = unsafe { clock_gettime(PROCESS, &mut time) };
    assert_eq!(failed, 0);
    time.seconds as f64 + time.nanoseconds as f64 / 1e9
}

fn seconds(calls: &dyn Fn(usize) -> u64, times: usize) -> f64 {
    let begin = processor_time();
    black_box(calls(black_box(times)));
    processor_time() - begin
}

/// The first quartile, the median and the third quartile.
fn quartiles(mut list: Vec<f64>) -> [f64; 3] {
    list.sort_by(f64::total_cmp);
    [1, 2, 3].map(|quarter| list[list.len() * quarter / 4])
}

/// How many calls make a batch.
fn batch_size(case: &Case) -> usize {
    let mut times = 1;
    while seconds(&case.ours, times).max(seconds(&case.rust, times)) < BATCH_SECONDS && times < 1 << 24 {
        times *= 2;
    }
    times
}

/// Whether a wanted word is part of the case's group and name.
fn is_wanted(wanted: &[String], group: &str, name: &str) -> bool {
    let whole = format!("{group}: {name}");
    wanted.is_empty() || wanted.iter().any(|part| whole.contains(part.as_str()))
}

/// Whether both sides return the same.
fn agrees(case: &Case) -> bool {
    (case.ours)(3) == (case.rust)(3)
}

/// The wanted cases on which both sides return the same.
fn measured(mut list: Vec<Case>, wanted: &[String]) -> Vec<Case> {
    list.retain(|case| is_wanted(wanted, case.group, &case.name) && agrees(case));
    list
}

fn times(wanted: &[String]) {
    println!("| group | case | ns, ours | ns, Rust | ratio | quartiles |\n|---|---|---|---|---|---|");
    let mut logs = 0.0;
    let mut count = 0;
    for case in measured(cases::all(), wanted) {
        let size = batch_size(&case);
        let mut ratios = Vec::new();
        let (mut all_ours, mut all_rust) = (Vec::new(), Vec::new());
        for round in 0..BATCHES {
            let (ours, rust) = if round % 2 == 0 {
                let ours = seconds(&case.ours, size);
                (ours, seconds(&case.rust, size))
            } else {
                let rust = seconds(&case.rust, size);
                (seconds(&case.ours, size), rust)
            };
            ratios.push(ours / rust);
            all_ours.push(ours);
            all_rust.push(rust);
        }
        let [low, middle, high] = quartiles(ratios);
        let [_, ours, _] = quartiles(all_ours).map(|s| s * 1e9 / size as f64);
        let [_, rust, _] = quartiles(all_rust).map(|s| s * 1e9 / size as f64);
        logs += middle.ln();
        count += 1;
        println!(
            "| {} | {} | {ours:.1} | {rust:.1} | {middle:.2} | {low:.2} to {high:.2} |",
            case.group, case.name
        );
    }
    println!("\nGeometric mean of the ratios of these {count} cases: {:.3}", (logs / f64::from(count)).exp());
}

/// Compares the answers of both sides; returns whether all are equal.
fn is_same(wanted: &[String]) -> bool {
    let mut is_same = true;
    for case in cases::all() {
        if is_wanted(wanted, case.group, &case.name) && !agrees(&case) {
            println!("The answers differ: {}, {}", case.group, case.name);
            is_same = false;
        }
    }
    for record in cases::written() {
        let mut out = vec![0; 1 << 17];
        let len = ours::ours_text(record.as_ptr(), record.len(), out.as_mut_ptr(), out.len());
        if rust::text_of(&record).as_deref() != Some(&out[..len]) || len == 0 {
            println!("The texts differ: a record of {} bytes", record.len());
            is_same = false;
        }
    }
    for Stream { name, bytes, piece, ours, beside, each } in cases::streams(1 << 16) {
        let told = |call: InPieces| call(bytes.as_ptr(), bytes.len(), piece);
        let number = told(ours);
        if number == 0 || told(beside) != number || each.is_some_and(|call| told(call) != number) {
            println!("The records of a stream differ: {name}");
            is_same = false;
        }
    }
    is_same
}

/// Makes callgrind write its counts.
#[unsafe(no_mangle)]
#[inline(never)]
pub extern "C" fn bench_mark() {
    black_box(());
}

/// Runs each side of each case twice to warm up, once, and eleven times, with a mark after each. A
/// part is counted before the next is made, since the cost of an allocation depends on what was
/// freed before.
fn instructions(wanted: &[String]) {
    for case in cases::PARTS.iter().flat_map(|part| measured(part(), wanted)) {
        println!("{}\t{}", case.group, case.name);
        for side in [&case.ours, &case.rust] {
            for times in [1, 1, 1, 11] {
                black_box(side(black_box(times)));
                bench_mark();
            }
        }
    }
}

/// Streams of this many MiB: bytes per second.
fn streams(wanted: &[String], total: usize) {
    println!("| stream | MB/s, ours | MB/s, beside | ratio of times | quartiles | MB/s, Rust that drains each record |");
    println!("|---|---|---|---|---|---|");
    for Stream { name, bytes, piece, ours, beside, each } in cases::streams(total) {
        if !is_wanted(wanted, "streams", &name) {
            continue;
        }
        let timed = |call: InPieces| {
            let begin = processor_time();
            black_box(call(bytes.as_ptr(), bytes.len(), piece));
            processor_time() - begin
        };
        let (mut ratios, mut all_ours, mut all_beside) = (Vec::new(), Vec::new(), Vec::new());
        for round in 0..STREAM_ROUNDS {
            let (one, other) = if round % 2 == 0 {
                let one = timed(ours);
                (one, timed(beside))
            } else {
                let other = timed(beside);
                (timed(ours), other)
            };
            ratios.push(one / other);
            all_ours.push(one);
            all_beside.push(other);
        }
        let speed = |list: Vec<f64>| bytes.len() as f64 / quartiles(list)[1] / 1e6;
        let (ours, beside) = (speed(all_ours), speed(all_beside));
        let each = match each {
            Some(_) if piece == bytes.len() => "not run: its time grows with the square".to_string(),
            Some(call) => format!("{:.0}", bytes.len() as f64 / timed(call) / 1e6),
            None => String::new(),
        };
        let [low, middle, high] = quartiles(ratios);
        println!("| {name} | {ours:.0} | {beside:.0} | {middle:.2} | {low:.2} to {high:.2} | {each} |");
    }
}

#[cfg(feature = "count")]
fn counted(wanted: &[String], total: usize) {
    let count = |calls: &dyn Fn(usize) -> u64, times: usize| {
        memory::begin();
        black_box(calls(black_box(times)));
        memory::asked()
    };
    println!("| group | case | requests, ours | requests, Rust |\n|---|---|---|---|");
    for case in measured(cases::all(), wanted) {
        let [ours, rust] = [&case.ours, &case.rust]
            .map(|side| count(side, 2).requests - count(side, 1).requests);
        println!("| {} | {} | {ours} | {rust} |", case.group, case.name);
    }
    println!("\n| stream | peak KB, ours | peak KB, beside | requests, ours | requests, beside |\n|---|---|---|---|---|");
    for Stream { name, bytes, piece, ours, beside, .. } in cases::streams(total) {
        if !is_wanted(wanted, "streams", &name) {
            continue;
        }
        let call = |call: InPieces| {
            count(&|_| call(bytes.as_ptr(), bytes.len(), piece), 1)
        };
        let (ours, beside) = (call(ours), call(beside));
        println!(
            "| {name} | {} | {} | {} | {} |",
            ours.peak / 1000, beside.peak / 1000, ours.requests, beside.requests
        );
    }
}

/// Nanoseconds per byte of input, the least of three runs.
#[cfg(not(feature = "count"))]
fn growth() {
    println!("| call, and its input | bytes at most | ns a byte, a quarter | a half | all |\n|---|---|---|---|---|");
    growth::table(&|call, len| {
        let least = (0..3).map(|_| seconds(&|_| call(), 1)).fold(f64::INFINITY, f64::min);
        format!("{:.1}", least * 1e9 / len as f64)
    });
}

/// Peak bytes of memory per byte of input.
#[cfg(feature = "count")]
fn growth() {
    println!("| call, and its input | bytes at most | bytes a byte, a quarter | a half | all |\n|---|---|---|---|---|");
    growth::table(&|call, len| {
        memory::begin();
        black_box(call());
        format!("{:.1}", memory::asked().peak as f64 / len as f64)
    });
}

fn main() {
    let mut words: Vec<String> = std::env::args().skip(1).collect();
    let verb = if words.is_empty() { String::new() } else { words.remove(0) };
    let total = 64 << 20;
    match verb.as_str() {
        "same" if is_same(&words) => println!("All answers are the same."),
        "same" => std::process::exit(1),
        "times" => times(&words),
        "instructions" => instructions(&words),
        "streams" => streams(&words, total),
        "growth" => growth(),
        #[cfg(feature = "count")]
        "counted" => counted(&words, total),
        _ => {
            eprintln!("beside same|times|instructions|streams|growth|counted [PART OF A NAME ..]");
            std::process::exit(2);
        }
    }
}
