//! Times library and peer side by side, on both channels, and how the times grow.
use razhikum::{Burst, Channel, Joiner, PAGE, PIECES, TREE_TEXT};
use razhikum_bench::inputs::{
    busy_trace, deep_tree, delayed, full_tree, jobs_apart, longest_tree, middle_tree, nominal_tree, small_tree,
    wide_tree,
};
use razhikum_bench::peer;
use razhikum_bench::peer::read::Axi;
use std::hint::black_box;
use std::path::Path;
use std::process::{Command, Stdio};
use std::time::{Duration, Instant};

const SAMPLES: usize = 9;
const SLOTS: u32 = 65_536;
/// The most that a run on the full tree may take on either channel, as a ratio to the peer.
const MOST: f64 = 1.3;

#[repr(C)]
struct Timespec {
    seconds: i64,
    nanoseconds: i64,
}

extern "C" {
    fn clock_gettime(clock: i32, time: *mut Timespec) -> i32;
}

/// The processor time of this thread, which other programs on the machine disturb less than the wall clock.
fn processor_time() -> Duration {
    const THREAD_CLOCK: i32 = 3;
    let mut time = Timespec { seconds: 0, nanoseconds: 0 };
    let status = unsafe { clock_gettime(THREAD_CLOCK, &mut time) };
    assert_eq!(status, 0, "the thread's clock");
    Duration::new(time.seconds as u64, time.nanoseconds as u32)
}

fn timed(work: &mut dyn FnMut(), times: u32) -> Duration {
    let start = processor_time();
    for _ in 0..times {
        work();
    }
    (processor_time() - start) / times
}

/// So often that a sample takes some milliseconds.
fn repeats(work: &mut dyn FnMut()) -> u32 {
    let once = timed(work, 1).max(Duration::from_nanos(50));
    (Duration::from_millis(5).as_nanos() / once.as_nanos()).clamp(1, 50_000) as u32
}

fn median(mut samples: Vec<Duration>) -> Duration {
    samples.sort();
    samples[samples.len() / 2]
}

/// The medians of library and peer. The samples take turns, so that a slow moment of the machine meets both.
fn side_by_side(library: &mut dyn FnMut(), peer: &mut dyn FnMut()) -> (Duration, Duration) {
    let (m, n) = (repeats(library), repeats(peer));
    let (mut of_library, mut of_peer) = (Vec::new(), Vec::new());
    for _ in 0..SAMPLES {
        of_library.push(timed(library, m));
        of_peer.push(timed(peer, n));
    }
    (median(of_library), median(of_peer))
}

fn shown(time: Duration) -> String {
    format!("{:.1} us", time.as_nanos() as f64 / 1_000.0)
}

/// Prints a row and answers the ratio.
fn row(what: &str, library: &mut dyn FnMut(), peer: &mut dyn FnMut()) -> f64 {
    let (l, p) = side_by_side(library, peer);
    let ratio = l.as_nanos() as f64 / p.as_nanos().max(1) as f64;
    println!("{what:<44}{:>14}{:>14}{ratio:>10.2}", shown(l), shown(p));
    ratio
}

fn reading_row(what: &str, tree: &[u8]) -> f64 {
    row(
        what,
        &mut || {
            let _ = black_box(razhikum::read_tree(black_box(tree)));
        },
        &mut || {
            let _ = black_box(peer::read::read_tree(black_box(tree)));
        },
    )
}

/// The trace reader. The library reads the tree in the same call, and so does the peer here.
fn trace_row(what: &str, tree: &[u8], trace: &[u8]) -> f64 {
    razhikum::read_trace(tree, trace).expect("a sound trace");
    row(
        what,
        &mut || {
            let _ = black_box(razhikum::read_trace(black_box(tree), black_box(trace)));
        },
        &mut || {
            let read = peer::read::read_tree(black_box(tree)).expect("a sound tree");
            let requests = peer::read::read_trace(read.accelerators.len(), black_box(trace));
            let _ = black_box(requests);
        },
    )
}

/// The bounds of every accelerator, one call for each. Each call reads the tree.
fn bounds_row(what: &str, tree: &[u8]) -> f64 {
    let n = peer::read::read_tree(tree).expect("a sound tree").accelerators.len() as u8;
    row(
        what,
        &mut || {
            for a in 0..n {
                let _ = black_box(razhikum::bound(black_box(tree), a));
            }
        },
        &mut || {
            for a in 0..n {
                let _ = black_box(peer::bounds::bound(black_box(tree), a));
            }
        },
    )
}

fn report_row(what: &str, tree: &[u8]) -> f64 {
    let mut page = Box::new([0; PAGE]);
    let mut text = Vec::new();
    row(
        what,
        &mut || {
            let _ = black_box(razhikum::report(black_box(tree), &mut page));
        },
        &mut || {
            let _ = black_box(peer::report::report(black_box(tree), &mut text));
        },
    )
}

/// A tree written back. Both read the tree in the call.
fn rewrite_row(what: &str, tree: &[u8]) -> f64 {
    let (mut ours, mut theirs) = ([0; TREE_TEXT], [0; TREE_TEXT]);
    let text = razhikum::rewrite(tree, &mut ours);
    assert!(text.is_ok(), "{text:?}");
    assert_eq!(text, peer::write::rewrite(tree, &mut theirs));
    row(
        what,
        &mut || {
            let _ = black_box(razhikum::rewrite(black_box(tree), &mut ours));
        },
        &mut || {
            let _ = black_box(peer::write::rewrite(black_box(tree), &mut theirs));
        },
    )
}

/// A burst of 256 beats cut. Both read the tree in the call, and write every entry of both arrays.
fn split_row(what: &str, tree: &[u8]) -> f64 {
    let burst = Burst { start: 8_193, beats: 256, size: 4 };
    let [[mut starts, mut beats], [mut other_starts, mut other_beats]] = [[[0; PIECES]; 2]; 2];
    let pieces = razhikum::split(tree, burst, &mut starts, &mut beats);
    assert!(pieces.is_ok(), "{pieces:?}");
    assert_eq!(pieces, peer::burst::split(tree, burst, &mut other_starts, &mut other_beats));
    row(
        what,
        &mut || {
            let _ = black_box(razhikum::split(black_box(tree), black_box(burst), &mut starts, &mut beats));
        },
        &mut || {
            let (tree, burst) = (black_box(tree), black_box(burst));
            let _ = black_box(peer::burst::split(tree, burst, &mut other_starts, &mut other_beats));
        },
    )
}

/// The answers of 256 pieces, one call for each.
fn join_row(what: &str) -> f64 {
    row(
        what,
        &mut || {
            let mut joiner = Joiner::of(256);
            for number in 1..=256 {
                let _ = black_box(joiner.join(black_box(number)));
            }
        },
        &mut || {
            let mut joiner = Joiner::of(256);
            for number in 1..=256 {
                let _ = black_box(peer::burst::join(&mut joiner, black_box(number)));
            }
        },
    )
}

/// What is timed, and on which channel.
fn on_channel(what: &str, channel: Channel) -> String {
    format!("{what}, {channel}")
}

/// A run of so many slots of a channel under a trace that keeps every accelerator with a job there busy. Both read the tree and the trace
/// in the call.
fn run_row(what: &str, tree: &[u8], channel: Channel, slots: u32) -> f64 {
    let trace = busy_trace(tree, channel, slots);
    let (mut ours, mut theirs) = (vec![0; slots as usize], vec![0; slots as usize]);
    let ending = razhikum::run(tree, channel, &trace, &mut ours).expect("a sound trace");
    assert_eq!(Ok(ending), peer::run::run(tree, channel, &trace, &mut theirs));
    assert_eq!(ours, theirs);
    assert!(!ours.contains(&255), "an idle slot");
    row(
        &on_channel(what, channel),
        &mut || {
            let _ = black_box(razhikum::run(black_box(tree), channel, black_box(&trace), &mut ours));
        },
        &mut || {
            let _ = black_box(peer::run::run(black_box(tree), channel, black_box(&trace), &mut theirs));
        },
    )
}

/// The same on both channels.
fn run_rows(what: &str, tree: &[u8]) -> [f64; 2] {
    Channel::BOTH.map(|channel| run_row(what, tree, channel, SLOTS))
}

/// The accelerator that the last slot of a run serves, and the number of the transaction.
fn last_served(tree: &[u8], channel: Channel, trace: &[u8]) -> (u8, u32) {
    let mut served = vec![0; SLOTS as usize];
    razhikum::run(tree, channel, trace, &mut served).expect("a sound trace");
    let last = *served.last().expect("a slot");
    (last, served.iter().filter(|&&b| b == last).count() as u32)
}

/// Why a transaction of a channel waited. Both read the tree and the trace in the call.
fn wait_row(what: &str, tree: &[u8], channel: Channel, trace: &[u8], (accelerator, number): (u8, u32)) -> f64 {
    let (mut ours, mut theirs) = (vec![0; SLOTS as usize], vec![0; SLOTS as usize]);
    let wait = razhikum::why(tree, channel, trace, accelerator, number, &mut ours);
    assert!(wait.is_ok(), "{wait:?}");
    assert_eq!(wait, peer::why::why(tree, channel, trace, accelerator, number, &mut theirs));
    row(
        &on_channel(what, channel),
        &mut || {
            let (tree, trace) = (black_box(tree), black_box(trace));
            let _ = black_box(razhikum::why(tree, channel, trace, accelerator, number, &mut ours));
        },
        &mut || {
            let (tree, trace) = (black_box(tree), black_box(trace));
            let _ = black_box(peer::why::why(tree, channel, trace, accelerator, number, &mut theirs));
        },
    )
}

fn heading(title: &str) {
    println!("\n{title:<44}{:>14}{:>14}{:>10}", "library", "peer", "ratio");
}

/// A program of the repository, timed from its start to its end.
fn program_row(program: &str, arguments: &[&str], input: Option<&str>) {
    let root = Path::new(env!("CARGO_MANIFEST_DIR")).join("..");
    let path = root.join("target/bin").join(program);
    if !path.exists() {
        println!("{program}: not there; `bash tools/build {program}` builds it");
        return;
    }
    let samples = (0..SAMPLES).map(|_| {
        let stdin = input.map_or(Stdio::null(), |name| std::fs::File::open(root.join(name)).expect("the input").into());
        let mut command = Command::new(&path);
        command.args(arguments).current_dir(&root).stdin(stdin);
        let start = Instant::now();
        let status = command.stdout(Stdio::null()).status().expect("the program runs");
        assert!(status.success());
        start.elapsed()
    });
    let time = median(samples.collect());
    let given = input.map_or(arguments.join(" "), |name| format!("< {name}"));
    println!("{:<58}{:>14}", format!("{program} {given}"), shown(time));
}

/// `cargo run --release -- examples` writes the full tree and its trace instead. Every job of it reads and writes, so that one trace does
/// for either channel.
fn write_examples() {
    let folder = Path::new(env!("CARGO_MANIFEST_DIR")).join("../examples");
    let tree = full_tree();
    let [reads, writes] = Channel::BOTH.map(|channel| busy_trace(&tree, channel, SLOTS));
    assert_eq!(reads, writes);
    std::fs::write(folder.join("full.trace"), reads).expect("written");
    std::fs::write(folder.join("full.tree"), tree).expect("written");
}

/// A ratio that the last lines repeat.
type Target = (String, f64);

/// The ratios of both channels.
fn on_both(what: &str, ratios: [f64; 2]) -> Vec<Target> {
    Channel::BOTH.into_iter().zip(ratios).map(|(channel, ratio)| (on_channel(what, channel), ratio)).collect()
}

fn time_reading(small: &[u8], middle: &[u8], full: &[u8]) -> Vec<Target> {
    let long_trace = b"o\t0\t0\t1\n".repeat(8_192);
    heading("reading and bounds");
    reading_row("small tree read", small);
    reading_row("middle tree read", middle);
    let reading = reading_row("full tree read", full);
    let trace = trace_row("trace of 65,536 bytes, 8,192 lines read", full, &long_trace);
    trace_row("trace of the full tree read", full, &busy_trace(full, Channel::Read, SLOTS));
    bounds_row("small tree, bounds of all", small);
    bounds_row("middle tree, bounds of all", middle);
    let bounds = bounds_row("full tree, bounds of all", full);
    report_row("small tree, report", small);
    report_row("middle tree, report", middle);
    let report = report_row("full tree, report", full);
    vec![
        ("full tree read".into(), reading),
        ("trace of 65,536 bytes read".into(), trace),
        ("full tree, bounds of all".into(), bounds),
        ("full tree, report".into(), report),
    ]
}

fn time_texts(small: &[u8], middle: &[u8], full: &[u8]) -> Vec<Target> {
    heading("a tree written back");
    rewrite_row("small tree", small);
    rewrite_row("middle tree", middle);
    let of_full = rewrite_row("full tree", full);
    rewrite_row("the longest text, 1,973 bytes", &longest_tree(Axi::Axi4));
    vec![("full tree, written back".into(), of_full)]
}

fn time_bursts(small: &[u8], middle: &[u8], full: &[u8]) -> Vec<Target> {
    heading("a burst of 256 beats cut");
    split_row("one accelerator, B 1, 256 pieces", &nominal_tree(Axi::Axi4, 1));
    split_row("one accelerator, B 256, 1 piece", &nominal_tree(Axi::Axi4, 256));
    split_row("small tree, B 16, 16 pieces", small);
    split_row("middle tree, B 16, 16 pieces", middle);
    let of_full = split_row("full tree, B 16, 16 pieces", full);
    join_row("answers of 256 pieces joined");
    vec![("full tree, a burst cut".into(), of_full)]
}

/// The ratios of the full tree on both channels, and those that the last lines repeat besides.
fn time_runs(small: &[u8], middle: &[u8], full: &[u8]) -> ([f64; 2], Vec<Target>) {
    heading("65,536 slots of a channel");
    let of_small = run_rows("small tree: 1 and 2", small);
    let of_middle = run_rows("middle tree: 4 and 12, 3 levels", middle);
    let of_full = run_rows("full tree: 15 and 32, 4 levels", full);
    let apart = run_rows("full tree, jobs apart", &jobs_apart(full));
    let at_once = run_rows("full tree, return delay 0", &delayed(full, 0));
    let late = run_rows("full tree, return delay 15", &delayed(full, 15));
    let rows = [
        ("small tree, 65,536 slots", of_small),
        ("middle tree, 65,536 slots", of_middle),
        ("full tree, jobs apart, 65,536 slots", apart),
        ("full tree, return delay 0, 65,536 slots", at_once),
        ("full tree, return delay 15, 65,536 slots", late),
        ("full tree, 65,536 slots", of_full),
    ];
    (of_full, rows.into_iter().flat_map(|(what, ratios)| on_both(what, ratios)).collect())
}

fn time_waits(small: &[u8], middle: &[u8], full: &[u8]) -> Vec<Target> {
    let last = |what: &str, tree: &[u8]| {
        Channel::BOTH.map(|channel| {
            let trace = busy_trace(tree, channel, SLOTS);
            wait_row(what, tree, channel, &trace, last_served(tree, channel, &trace))
        })
    };
    heading("why, 65,536 slots of a channel");
    last("small tree, of the last slot", small);
    last("middle tree, of the last slot", middle);
    let of_full = last("full tree, of the last slot", full);
    let trace = busy_trace(full, Channel::Read, SLOTS);
    wait_row("full tree, of the first slot", full, Channel::Read, &trace, (0, 1));
    on_both("full tree, why of the last slot", of_full)
}

fn time_growth(full: &[u8]) {
    heading("growth with slots, full tree");
    for slots in [8_192, 16_384, 32_768, 65_536] {
        run_row(&format!("{slots} slots"), full, Channel::Read, slots);
    }
    heading("growth with accelerators, 2 levels");
    for n in [4, 8, 16, 32] {
        run_row(&format!("{n} accelerators"), &wide_tree(n), Channel::Read, SLOTS);
    }
    heading("growth with levels, 8 accelerators");
    for levels in 1..=4 {
        run_row(&format!("level {levels}"), &deep_tree(levels), Channel::Read, SLOTS);
    }
}

fn main() {
    if std::env::args().nth(1).as_deref() == Some("examples") {
        return write_examples();
    }
    let (small, middle, full) = (small_tree(), middle_tree(), full_tree());
    println!("Processor time, median of {SAMPLES} samples each. A ratio above 1 says that the library takes longer.");
    let mut targets = time_reading(&small, &middle, &full);
    targets.extend(time_texts(&small, &middle, &full));
    targets.extend(time_bursts(&small, &middle, &full));
    let (ratios, of_runs) = time_runs(&small, &middle, &full);
    targets.extend(of_runs);
    targets.extend(time_waits(&small, &middle, &full));
    time_growth(&full);

    println!("\nprograms, from start to end by the wall clock");
    program_row("report", &[], Some("examples/full.tree"));
    program_row("rewrite", &[], Some("examples/full.tree"));
    program_row("split", &["examples/full.tree", "8193", "256", "4"], None);
    for channel in Channel::BOTH {
        program_row("simulate", &[&channel.to_string(), "examples/full.tree", "examples/full.trace"], None);
    }

    println!();
    for (what, ratio) in targets {
        println!("{what}: library/peer {ratio:.2}");
    }
    let [read, write] = ratios;
    let verdict = if read.max(write) <= MOST { "at most 1.3 on both channels" } else { "above 1.3" };
    println!("\nfull tree, 65,536 slots: read {read:.2}, write {write:.2}: {verdict}");
}
