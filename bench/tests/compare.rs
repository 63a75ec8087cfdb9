//! Compares the library with the peer on random and damaged files, tree files also with lists of lines, runs and waits of both channels
//! with the simple simulator, shares and responses with sums taken anew, and texts with lines put in order. The seed is fixed. A
//! difference prints the input and ends the test.
mod common;

use common::counts::{check, Counts};
use common::reading::{self, Reading};
use common::responses::{response, Responding};
use common::shares::{share, Sharing};
use common::simple::{self, Making, Rule, Service};
use common::written::{self, Writing};
use razhikum::{
    Bound, Cause, Channel, Ending, FileRefused, Refused, Wait, WaitRefused, IDLE, LIMIT, OWN, PAGE, TREE_TEXT,
};
use razhikum_bench::inputs::{
    another_file, damage_bytes, damage_lines, random_trace, random_tree, renamed, text, Random,
};
use razhikum_bench::peer;
use razhikum_bench::peer::read::{read_trace, read_tree, Axi, Interconnect, Port, Request, Tree};
use std::collections::BTreeMap;

const TREES: usize = 1_000_000;
const RUNS: usize = 300_000;
const WAITS: usize = 100_000;
const REWRITES: usize = 100_000;

/// A tree file, two in six sound. A few are too long, or as long as may be.
fn tree_file(random: &mut Random) -> Vec<u8> {
    let (ints, accs) = *random.pick(&[(1, 3), (4, 6), (8, 8), (15, 32)]);
    let mut lines = random_tree(random, ints, accs);
    let kind = random.below(6);
    if kind >= 4 {
        damage_lines(random, &mut lines);
    }
    let mut file = text(&lines);
    if kind == 2 || kind == 3 || kind == 5 {
        damage_bytes(random, &mut file);
    }
    if random.one_in(20_000) {
        file.resize(65_535 + random.below(3) as usize, b'\n');
    }
    file
}

/// Ways to read a tree file that the comparison must find wrong.
const WRONG_READINGS: [Reading; 12] = [
    Reading::NoBus3,
    Reading::ByBeginning,
    Reading::AnyCase,
    Reading::LongOnBus3,
    Reading::ShortOnBus,
    Reading::To15OnBus3,
    Reading::To17OnBus3,
    Reading::OverBy15,
    Reading::NoDelayOnBus3,
    Reading::SecondOfOther,
    Reading::SecondOfOtherBy1,
    Reading::PlaceFirst,
];

/// Shares that the comparison must find wrong.
const WRONG_SHARES: [Sharing; 7] = [
    Sharing::WholePhi,
    Sharing::OtherChannel,
    Sharing::JobOfEither,
    Sharing::OnOwnPort,
    Sharing::OnlyBeneath,
    Sharing::OneWithoutJob,
    Sharing::CutBelow,
];

/// Responses that the comparison must find wrong.
const WRONG_RESPONSES: [Responding; 9] = [
    Responding::WindowsLeftOut,
    Responding::RoundedDown,
    Responding::OneMore,
    Responding::WindowWithoutJob,
    Responding::WithoutP,
    Responding::OtherSlotTime,
    Responding::AloneTime,
    Responding::WindowForEach,
    Responding::LongerChannel,
];

/// The counts of a comparison of trees: the answers, what was met, for each wrong reading how many answers would differ, for each wrong
/// share how many rows, and for each wrong response how many rows and how many of their verdicts.
#[derive(Default)]
struct TreeCounts {
    answers: Counts,
    kinds: BTreeMap<&'static str, usize>,
    misread: [usize; WRONG_READINGS.len()],
    differing: [usize; WRONG_SHARES.len()],
    responses: [usize; WRONG_RESPONSES.len()],
    verdicts: [usize; WRONG_RESPONSES.len()],
}

/// What the comparison of readers must meet in the bus lines of a file, and whether this one does.
fn bus_kinds(file: &[u8], read: Result<(), Refused>) -> [(&'static str, bool); 17] {
    let fields = |line: u32| -> Vec<&[u8]> {
        let line = file.split(|&b| b == b'\n').nth(line as usize - 1).unwrap_or_default();
        line.split(|&b| b == b'\t').collect()
    };
    let bus = fields(1);
    let (number, line) = read.err().map_or((0, 0), |refused| (refused.cause.number(), refused.line));
    let first = |name: &[u8], by| bus[0] == name && (number, line) == (by, u32::from(by > 0));
    let with = |name: &[u8], by, beats: &[u8]| first(name, by) && bus.get(10) == Some(&beats);
    let later = if line > 1 { fields(line)[0] } else { b"" };
    let second = |name: &[u8], other: &[u8], by| bus[0] == name && later == other && number == by;
    [
        ("bus3 with B 15", with(b"bus3", 0, b"15")),
        ("bus3 with B 16", with(b"bus3", 0, b"16")),
        ("bus3 with a return delay", first(b"bus3", 0) && bus.len() == 12),
        ("bus3 with B 17 refused by 2", with(b"bus3", 2, b"17")),
        ("bus3 with B 256 refused by 2", with(b"bus3", 2, b"256")),
        ("bus3 with B 257 refused by 2", with(b"bus3", 2, b"257")),
        ("bus with B 16", with(b"bus", 0, b"16")),
        ("bus with B 17", with(b"bus", 0, b"17")),
        ("bus with B 256", with(b"bus", 0, b"256")),
        ("bus33 refused by 1", first(b"bus33", 1)),
        ("BUS3 refused by 1", first(b"BUS3", 1)),
        ("bus with a blank refused by 1", first(b"bus ", 1)),
        ("a line bus after a line bus refused by 3", second(b"bus", b"bus", 3)),
        ("a line bus3 after a line bus3 refused by 3", second(b"bus3", b"bus3", 3)),
        ("a line bus3 after a line bus refused by 3", second(b"bus", b"bus3", 3)),
        ("a line bus after a line bus3 refused by 3", second(b"bus3", b"bus", 3)),
        ("a line bus3 after a line bus refused by 2", second(b"bus", b"bus3", 2)),
    ]
}

/// The reader's answer against that from lists of lines; of one file in four also against the wrong ways.
fn compare_reading(file: &[u8], library: Result<(), Refused>, random: &mut Random, counts: &mut TreeCounts) {
    check("tree reader against lists", library, reading::read(file, Reading::AsWritten), &[file]);
    for (kind, met) in bus_kinds(file, library) {
        *counts.kinds.entry(kind).or_default() += usize::from(met);
    }
    if random.one_in(4) {
        for (count, reading) in counts.misread.iter_mut().zip(WRONG_READINGS) {
            *count += usize::from(reading::read(file, reading) != library);
        }
    }
}

/// What the comparison of bounds must meet in an accelerator, and whether this one does.
fn job_kinds(tree: &Tree, a: u8, bound: &Bound) -> [(&'static str, bool); 8] {
    let job = &tree.accelerators[a as usize];
    let no_other = |job_of: fn(&peer::read::Accelerator) -> u64| {
        let others = tree.accelerators.iter().enumerate().filter(|&(b, _)| b != a as usize);
        others.clone().count() > 0 && others.map(|(_, other)| job_of(other)).all(|n| n == 0)
    };
    [
        ("an accelerator that only reads", job.reads > 0 && job.writes == 0),
        ("an accelerator that only writes", job.reads == 0 && job.writes > 0),
        (
            "an accelerator that does neither, with a share of both",
            job.reads + job.writes == 0 && bound.sr > 1 && bound.sw > 1,
        ),
        ("a read share below the write share", bound.sr < bound.sw),
        ("a write share below the read share", bound.sw < bound.sr),
        ("a read share of 1 beside others", bound.sr == 1 && no_other(|other| other.reads)),
        ("a write share of 1 beside others", bound.sw == 1 && no_other(|other| other.writes)),
        ("interference on one channel alone", (bound.yr == 0) != (bound.yw == 0)),
    ]
}

/// What the comparison of responses must meet in an accelerator, and whether this one does.
fn response_kinds(tree: &Tree, a: u8, bound: &Bound) -> [(&'static str, bool); 9] {
    let job = &tree.accelerators[a as usize];
    let (b, jobs) = (u64::from(job.budget), [job.reads, job.writes]);
    let some = |is: &dyn Fn(u64) -> bool| jobs.into_iter().any(|n| n > 0 && is(n));
    let none = jobs == [0, 0];
    let without_windows = response(tree, a, Responding::WindowsLeftOut);
    [
        ("as many transactions as the budget", some(&|n| n == b)),
        ("fewer transactions than the budget", some(&|n| n < b)),
        ("one transaction more than the budget", some(&|n| n == b + 1)),
        ("a budget above 1 that divides the transactions of several windows", some(&|n| b > 1 && n > b && n % b == 0)),
        ("a budget that leaves some for the last of several windows", some(&|n| n > b && n % b > 0)),
        ("a response that is the computing alone", none && bound.response == job.computing),
        ("windows counted on one channel alone", (job.reads == 0) != (job.writes == 0)),
        ("meets with the windows counted", !none && bound.meets),
        ("late by the windows alone", !bound.meets && without_windows <= bound.period.into()),
    ]
}

/// The response of a bound and its verdict, against sums taken anew.
fn compare_response(file: &[u8], tree: &Tree, a: u8, bound: &Bound, counts: &mut TreeCounts) {
    let responded = |responding| {
        let response = response(tree, a, responding);
        (response, response <= bound.period.into())
    };
    let library = (u128::from(bound.response), bound.meets);
    check("response and verdict", library, responded(Responding::AsWritten), &[file]);
    for (i, responding) in WRONG_RESPONSES.into_iter().enumerate() {
        let wrong = responded(responding);
        counts.responses[i] += usize::from(wrong.0 != library.0);
        counts.verdicts[i] += usize::from(wrong.1 != library.1);
    }
    for (kind, met) in response_kinds(tree, a, bound) {
        *counts.kinds.entry(kind).or_default() += usize::from(met);
    }
}

/// The shares of a bound, against sums taken anew.
fn compare_shares(file: &[u8], tree: &Tree, a: u8, bound: &Bound, counts: &mut TreeCounts) {
    let shares = |sharing| Channel::BOTH.map(|channel| share(tree, channel, a, sharing));
    let library = [bound.sr, bound.sw];
    check("shares", library, shares(Sharing::AsWritten), &[file]);
    for (count, sharing) in counts.differing.iter_mut().zip(WRONG_SHARES) {
        *count += usize::from(shares(sharing) != library);
    }
    for (kind, met) in job_kinds(tree, a, bound) {
        *counts.kinds.entry(kind).or_default() += usize::from(met);
    }
}

fn compare_tree(file: &[u8], random: &mut Random, counts: &mut TreeCounts, page: &mut [u8; PAGE]) {
    let tree = read_tree(file);
    let read = tree.as_ref().map(|_| ()).map_err(|e| *e);
    let library = razhikum::read_tree(file);
    check("tree reader", library, read, &[file]);
    compare_reading(file, library, random, counts);
    check("count", razhikum::count(file), tree.map(|t| t.accelerators.len() as u8), &[file]);
    let a = if random.one_in(4) { random.below(256) } else { random.below(8) } as u8;
    let bound = razhikum::bound(file, a);
    check("bound", bound, peer::bounds::bound(file, a), &[file]);
    if let Ok(bound) = bound {
        let tree = read_tree(file).expect("read before");
        compare_shares(file, &tree, a, &bound, counts);
        compare_response(file, &tree, a, &bound, counts);
    }

    // The bytes past the text keep what was there: of most pages the next few thousand are compared, of some all.
    let filled = random.below(256) as u8;
    let room = if random.one_in(500) { PAGE } else { 4_096 };
    page[..room].fill(filled);
    let answer = razhikum::report(file, page).map(<[u8]>::len);
    let mut expected = Vec::new();
    let of_peer = peer::report::report(file, &mut expected);
    check("report", answer, of_peer.map(|()| expected.len()), &[file]);
    expected.resize(room, filled);
    check("report's text", &page[..room], &expected[..], &[file]);
    counts.answers.add(match read {
        Ok(()) => "accepted".into(),
        Err(refused) => format!("refused {}", refused.cause.number()),
    });
}

fn compare_trees() -> usize {
    let mut random = Random::new(1);
    let mut counts = TreeCounts::default();
    let mut page = Box::new([0; PAGE]);
    for _ in 0..TREES {
        let file = tree_file(&mut random);
        compare_tree(&file, &mut random, &mut counts, &mut page);
    }
    counts.answers.print("tree files: reader, count, a bound, the report");
    for (kind, count) in counts.kinds {
        println!("  {kind}: {count}");
        assert!(count > 0, "no input has {kind}");
    }
    for (reading, count) in WRONG_READINGS.iter().zip(counts.misread) {
        println!("  a tree read by {reading:?} would differ in {count} of them");
        assert!(count > 0, "the comparison does not find {reading:?}");
    }
    for (sharing, count) in WRONG_SHARES.iter().zip(counts.differing) {
        println!("  shares by {sharing:?} would differ in {count} of them");
        assert!(count > 0, "the comparison does not find {sharing:?}");
    }
    for (i, responding) in WRONG_RESPONSES.iter().enumerate() {
        let (count, verdicts) = (counts.responses[i], counts.verdicts[i]);
        println!("  a response by {responding:?} would differ in {count} of them, and the verdict in {verdicts}");
        assert!(count > 0 && verdicts > 0, "the comparison does not find {responding:?}");
    }
    TREES
}

/// Whom a trace of a channel asks for: mostly those with a job there, else any.
fn asked(random: &mut Random, tree: &[u8], channel: Channel) -> Vec<u64> {
    let tree = read_tree(tree).expect("a sound tree");
    let all = 0..tree.accelerators.len() as u64;
    let with_job: Vec<u64> = all.clone().filter(|&a| tree.accelerators[a as usize].job(channel) > 0).collect();
    if with_job.is_empty() || random.one_in(6) {
        return all.collect();
    }
    with_job
}

/// A tree, a trace of a channel and the length of a buffer, few of them damaged.
fn run_files(random: &mut Random, channel: Channel) -> (Vec<u8>, Vec<u8>, usize) {
    let (ints, accs) = *random.pick(&[(1, 3), (3, 5), (5, 12), (15, 32)]);
    let mut tree = text(&random_tree(random, ints, accs));
    let asked = asked(random, &tree, channel);
    let lines = *random.pick(&[4, 12, 12, 40]);
    let mut requests = random_trace(random, &asked, lines);
    if random.one_in(6) {
        damage_lines(random, &mut requests);
    }
    let mut trace = text(&requests);
    if random.one_in(12) {
        damage_bytes(random, &mut trace);
    }
    if random.one_in(40) {
        damage_bytes(random, &mut tree);
    }
    if random.one_in(5_000) {
        trace.resize(65_535 + random.below(3) as usize, b'\n');
    }
    let slots = match random.below(200) {
        0 => 65_535 + random.below(3),
        1..=20 => random.below(4),
        21..=40 => random.below(400),
        _ => random.below(60),
    };
    (tree, trace, slots as usize)
}

fn run_answer(answer: &Result<Ending, FileRefused>) -> String {
    match answer {
        Ok(Ending::Done(_)) => "done".into(),
        Ok(Ending::Stopped(_)) => "stopped".into(),
        Err(FileRefused::Tree(r)) => format!("tree refused {}", r.cause.number()),
        Err(FileRefused::Trace(r)) => format!("trace or buffer refused {}", r.cause.number()),
    }
}

/// Ways to make a run that the comparison must find wrong.
const WRONG_RUNS: [Making; 10] = [
    Making::BudgetOfWholeRun,
    Making::HomeAtOnce,
    Making::HomeOneSlotEarly,
    Making::HomeOneSlotLate,
    Making::HomeWithWindow,
    Making::DoneWhenHome,
    Making::AdmitsWithoutJob,
    Making::OtherChannel,
    Making::JobOfEither,
    Making::DropsWithoutJob,
];

/// The counts of a comparison of runs: the answers on each channel, what was met, for each wrong way how many runs would differ, and in how
/// many runs that admit what has no job on the channel a transaction waits longer than its share allows.
#[derive(Default)]
struct RunCounts {
    answers: [Counts; 2],
    kinds: BTreeMap<&'static str, usize>,
    differing: [usize; WRONG_RUNS.len()],
    too_late: usize,
}

/// Whether each transaction is served within its share of the channel, times one more than those of its own before it.
fn is_in_time(tree: &Tree, channel: Channel, services: &[Service]) -> bool {
    services.iter().all(|s| {
        let share = share(tree, channel, s.accelerator, Sharing::AsWritten);
        ((s.served - s.admitted) as u64) < (s.before as u64 + 1) * share
    })
}

/// What the comparison of runs must meet on a channel, and whether this one does.
fn run_kinds(tree: &Tree, channel: Channel, requests: &[Request], ending: Ending) -> [(&'static str, bool); 8] {
    let job = |request: &Request| {
        let job = &tree.accelerators[request.accelerator as usize];
        match channel {
            Channel::Read => (job.reads > 0, job.writes > 0),
            Channel::Write => (job.writes > 0, job.reads > 0),
        }
    };
    let asks = |which| requests.iter().any(|request| job(request) == which);
    let only_asks = |which| !requests.is_empty() && requests.iter().all(|request| job(request) == which);
    let stopped = matches!(ending, Ending::Stopped(_));
    let of_reads = channel == Channel::Read;
    [
        ("reads asked of one that only writes", of_reads && asks((false, true))),
        ("writes asked of one that only reads", !of_reads && asks((false, true))),
        ("reads of one that only reads", of_reads && asks((true, false)) && !stopped),
        ("writes of one that only writes", !of_reads && asks((true, false)) && !stopped),
        ("asked of one that does neither", asks((false, false))),
        ("nothing asked but of those that do neither", only_asks((false, false)) && stopped),
        ("a run done, all with jobs on this channel alone", only_asks((true, false)) && !stopped),
        ("a run stopped by what has no job, in no slot", asks((false, true)) && ending == Ending::Stopped(0)),
    ]
}

/// A run of one channel, with every byte of its buffer: the ending and the bytes.
type Run = (Result<Ending, FileRefused>, Vec<u8>);

/// A run against the simple one, and whether the wrong ways would differ.
fn compare_made(
    tree: &Tree,
    channel: Channel,
    requests: &[Request],
    filled: u8,
    library: &Run,
    counts: &mut RunCounts,
) {
    let made = |making| {
        let mut out = vec![filled; library.1.len()];
        let (ending, services) = simple::run(tree, channel, requests, &mut out, making);
        ((Ok(ending), out), services)
    };
    let (run, services) = made(Making::AsWritten);
    let what = format!("run on the {channel} channel against the simple one");
    check(&what, library, &run, &[&peer::write::tree_text(tree), format!("{requests:?}").as_bytes()]);
    assert!(is_in_time(tree, channel, &services), "the bound on waits: {tree:?} {requests:?}");
    for (count, making) in counts.differing.iter_mut().zip(WRONG_RUNS) {
        let (run, services) = made(making);
        *count += usize::from(run != *library);
        if making == Making::AdmitsWithoutJob {
            counts.too_late += usize::from(!is_in_time(tree, channel, &services));
        }
    }
}

/// Whether a trace is refused by 1 for a line that is named bus3.
fn is_bus3_in_trace(trace: &[u8], read: Result<(), FileRefused>) -> bool {
    let Err(FileRefused::Trace(Refused { cause: Cause::Shape, line })) = read else {
        return false;
    };
    trace.split(|&b| b == b'\n').nth(line as usize - 1).is_some_and(|line| line.starts_with(b"bus3\t"))
}

/// On both channels, whichever the trace was made for.
fn compare_run(tree: &[u8], trace: &[u8], slots: usize, counts: &mut RunCounts) {
    let read = read_tree(tree)
        .map_err(FileRefused::Tree)
        .and_then(|t| read_trace(t.accelerators.len(), trace).map_err(FileRefused::Trace));
    let files = [tree, trace];
    let reading = read.as_ref().map(|_| ()).map_err(|e| *e);
    check("trace reader", razhikum::read_trace(tree, trace), reading, &files);
    let kind = "a line bus3 in a trace refused by 1";
    *counts.kinds.entry(kind).or_default() += usize::from(is_bus3_in_trace(trace, reading));
    let filled = (slots % 256) as u8;
    let runs = Channel::BOTH.map(|channel| {
        let (mut ours, mut theirs) = (vec![filled; slots], vec![filled; slots]);
        let answer = razhikum::run(tree, channel, trace, &mut ours);
        let what = format!("run on the {channel} channel");
        check(&what, answer, peer::run::run(tree, channel, trace, &mut theirs), &files);
        check(&what, &ours, &theirs, &files);
        counts.answers[usize::from(channel.number())].add(run_answer(&answer));
        (answer, ours)
    });
    let served = runs.each_ref().map(|(_, out)| out.iter().any(|&b| b != filled && b != IDLE));
    let kind = "channels that serve differently, both some";
    *counts.kinds.entry(kind).or_default() += usize::from(served == [true; 2] && runs[0] != runs[1]);
    let (Ok(requests), Ok(tree)) = (read, read_tree(tree)) else {
        return;
    };
    for (channel, run) in Channel::BOTH.into_iter().zip(&runs) {
        let Ok(ending) = run.0 else { continue };
        for (kind, met) in run_kinds(&tree, channel, &requests, ending) {
            *counts.kinds.entry(kind).or_default() += usize::from(met);
        }
        if slots <= 400 {
            compare_made(&tree, channel, &requests, filled, run, counts);
        }
    }
}

fn compare_runs() -> usize {
    let mut random = Random::new(2);
    let mut counts = RunCounts::default();
    for _ in 0..RUNS {
        let channel = *random.pick(&Channel::BOTH);
        let (tree, trace, slots) = run_files(&mut random, channel);
        compare_run(&tree, &trace, slots, &mut counts);
    }
    for (channel, answers) in Channel::BOTH.iter().zip(&counts.answers) {
        answers.print(&format!("runs on the {channel} channel: trace reader, run with every byte of the buffer"));
    }
    for (kind, count) in counts.kinds {
        println!("  {kind}: {count}");
        assert!(count > 0, "no input has {kind}");
    }
    for (making, count) in WRONG_RUNS.iter().zip(counts.differing) {
        println!("  a run by {making:?} would differ in {count} of them");
        assert!(count > 0, "the comparison does not find {making:?}");
    }
    println!("  a run by AdmitsWithoutJob would break the bound on waits in {} of them", counts.too_late);
    assert!(counts.too_late > 0, "the smaller shares need no machine that admits less");
    RUNS
}

/// An accelerator, mostly one that the run serves, and the number of a transaction, mostly one of those served.
fn question(random: &mut Random, known: u64, served: &[u8]) -> (u8, u32) {
    let a = match random.below(12) {
        0 => random.below(256) as u8,
        1 => (known + random.below(2)) as u8,
        2 => random.below(known) as u8,
        _ if served.is_empty() => 0,
        _ => *random.pick(served),
    };
    let most = served.iter().filter(|&&b| b == a).count() as u32;
    let number = match random.below(10) {
        0 => *random.pick(&[0, 1, most + 1, most + 2, u32::MAX]),
        1 => random.number() as u32,
        2 => most,
        _ => 1 + random.below(most.max(1).into()) as u32,
    };
    (a, number)
}

/// The length of a buffer: about that of the list, about the limit, or short.
fn room(random: &mut Random, count: u32) -> usize {
    let bytes = match random.below(40) {
        0 => 65_534 + random.below(4),
        1..=20 => (2 * u64::from(count) + random.below(7)).saturating_sub(3),
        _ => random.below(40),
    };
    bytes as usize
}

/// What is answered to a wait.
type Told<'a> = Result<Wait<'a>, WaitRefused>;

fn wait_answer(answer: &Told) -> String {
    match answer {
        Ok(Wait { count: 0, .. }) => "told, no slot".into(),
        Ok(wait) if wait.pairs.len() < wait.count as usize => "told, longer than the buffer".into(),
        Ok(_) => "told, in the buffer".into(),
        Err(WaitRefused::Tree(r)) => format!("tree refused {}", r.cause.number()),
        Err(WaitRefused::Trace(r)) => format!("trace or buffer refused {}", r.cause.number()),
        Err(WaitRefused::Call(r)) => format!("call refused {}", r.cause.number()),
    }
}

/// Rules that the comparison must find wrong.
const WRONG: [Rule; 6] = [
    Rule::FromRequest,
    Rule::AfterAdmission,
    Rule::UntilService,
    Rule::MeetAtRoot,
    Rule::MeetAtOwnHome,
    Rule::OwnByInterconnect,
];

/// A wait against the simple simulator, where the run is done within 400 slots. Counts for each wrong rule whether it would differ.
fn compare_simple(files: [&[u8]; 2], channel: Channel, a: u8, number: u32, differing: &mut [usize; WRONG.len()]) {
    let mut short = [0; 400];
    if !matches!(razhikum::run(files[0], channel, files[1], &mut short), Ok(Ending::Done(_))) {
        return;
    }
    let tree = read_tree(files[0]).expect("read before");
    let requests = read_trace(tree.accelerators.len(), files[1]).expect("read before");
    let (_, services) = simple::run(&tree, channel, &requests, &mut short, Making::AsWritten);
    let mut list = [0; 800];
    let library = razhikum::why(files[0], channel, files[1], a, number, &mut list).ok();
    let library = library.map(|wait| (wait.slot as usize, wait.pairs.to_vec()));
    let told = |rule| simple::why(&tree, &services, a, number, rule);
    check("wait against the simple one", &library, &told(Rule::AsWritten), &files);
    for (count, rule) in differing.iter_mut().zip(WRONG) {
        *count += usize::from(told(rule) != library);
    }
}

/// A wait that is asked for: the channel, the number of the transaction and the length of the buffer; the tree's window and return delay,
/// the accelerator's job on this channel and on the other, how many of its transactions the run serves, and whether the run is stopped.
struct Asked {
    channel: Channel,
    number: u32,
    room: usize,
    window: u32,
    delay: u32,
    job: Option<(u64, u64)>,
    most: u32,
    stopped: bool,
}

/// What the comparison of waits must meet, and whether this one does.
fn kinds(asked: &Asked, answer: &Told) -> [(&'static str, bool); 27] {
    let &Asked { channel, number, room, window, delay, job, most, stopped } = asked;
    let refused = |by| matches!(answer, Err(WaitRefused::Call(r)) if r.cause.number() == by);
    let wait = answer.ok();
    let told = wait.is_some();
    let entry = |is: fn(u8) -> bool| wait.is_some_and(|w| w.pairs.iter().any(|pair| is(pair[1])));
    let list = wait.map_or(0, |w| 2 * w.count as usize);
    let windows = wait.map_or((0, 0), |w| (w.slot / window, (w.slot + w.count) / window));
    let of_reads = channel == Channel::Read;
    [
        ("a list of the read channel", list > 0 && of_reads),
        ("a list of the write channel", list > 0 && !of_reads),
        ("a list of a stopped run", list > 0 && stopped),
        ("a list of one that only reads", list > 0 && of_reads && job.is_some_and(|job| job.1 == 0)),
        ("a list of one that only writes", list > 0 && !of_reads && job.is_some_and(|job| job.1 == 0)),
        (
            "number 1 of one with a job on the other channel alone",
            refused(12) && number == 1 && matches!(job, Some((0, 1..))),
        ),
        ("number 1 of one without a job", refused(12) && number == 1 && job == Some((0, 0))),
        ("a slot of the same accelerator", entry(|met| met == OWN)),
        ("a meeting at the root", entry(|met| met == 0)),
        ("a meeting below the root", entry(|met| met != 0 && met != OWN)),
        ("admitted after the first window", windows.0 > 0),
        ("admitted in one window, served in a later one", windows.0 < windows.1),
        ("a list on a tree with a return delay", list > 0 && delay > 0),
        ("a list on a tree with a return delay of 15", list > 0 && delay == 15),
        ("served in the last slot that a run may have", wait.is_some_and(|w| w.slot + w.count == LIMIT as u32 - 1)),
        ("the last one served", told && number == most),
        ("an empty buffer for a list", room == 0 && list > 0),
        ("a short buffer of odd length", room % 2 == 1 && room < list),
        ("a buffer of one byte more than the list", told && room == list + 1),
        ("a buffer of 65,536 bytes", told && room == LIMIT),
        ("a buffer of 65,537 bytes", matches!(answer, Err(WaitRefused::Trace(_))) && room == LIMIT + 1),
        ("number 0", refused(12) && number == 0),
        ("one more than is served", refused(12) && number == most + 1 && most > 0),
        ("one more than a stopped run serves", refused(12) && number == most + 1 && stopped),
        ("the highest number", refused(12) && number == u32::MAX),
        ("an accelerator that is not there", refused(7) && number > 0),
        ("an accelerator that is not there, and number 0", refused(7) && number == 0),
    ]
}

/// The counts of a comparison of waits.
#[derive(Default)]
struct WaitCounts {
    answers: Counts,
    kinds: BTreeMap<&'static str, usize>,
    differing: [usize; WRONG.len()],
}

/// The reads and the writes of an accelerator's job, those of this channel first.
fn job(tree: &Tree, channel: Channel, a: u8) -> Option<(u64, u64)> {
    let job = tree.accelerators.get(usize::from(a))?;
    Some(match channel {
        Channel::Read => (job.reads, job.writes),
        Channel::Write => (job.writes, job.reads),
    })
}

/// A whole list is shorter than the share of the channel, times one more than the own ones in it, and has at most as many others.
fn is_within_share(tree: &[u8], channel: Channel, a: u8, wait: &Wait) -> bool {
    let bound = razhikum::bound(tree, a).expect("a bound");
    let share = match channel {
        Channel::Read => bound.sr,
        Channel::Write => bound.sw,
    };
    let own = wait.pairs.iter().filter(|pair| pair[1] == OWN).count() as u64;
    let others = wait.pairs.len() as u64 - own;
    u64::from(wait.count) < (own + 1) * share && others <= (own + 1) * (share - 1)
}

fn compare_wait(random: &mut Random, counts: &mut WaitCounts) {
    let channel = *random.pick(&Channel::BOTH);
    let (tree, trace, _) = run_files(random, channel);
    let files = [&tree[..], &trace[..]];
    let mut served = vec![255; LIMIT];
    let ending = razhikum::run(&tree, channel, &trace, &mut served);
    served.retain(|&b| b != 255);
    let read = read_tree(&tree).unwrap_or_default();
    let known = read.accelerators.len().max(1);
    let (a, number) = question(random, known as u64, &served);
    let count = peer::why::why(&tree, channel, &trace, a, number, &mut []).map_or(0, |wait| wait.count);
    let (room, filled) = (room(random, count), random.below(256) as u8);
    let (mut ours, mut theirs) = (vec![filled; room], vec![filled; room]);
    let answer = razhikum::why(&tree, channel, &trace, a, number, &mut ours);
    counts.answers.add(wait_answer(&answer));
    let most = served.iter().filter(|&&b| b == a).count() as u32;
    let stopped = matches!(ending, Ok(Ending::Stopped(_)));
    let (window, delay, job) = (read.bus.window.max(1), read.bus.delay, job(&read, channel, a));
    for (kind, met) in kinds(&Asked { channel, number, room, window, delay, job, most, stopped }, &answer) {
        *counts.kinds.entry(kind).or_default() += usize::from(met);
    }
    let what = format!("wait of accelerator {a} on the {channel} channel, number {number}, in {room} bytes");
    check(&what, answer, peer::why::why(&tree, channel, &trace, a, number, &mut theirs), &files);
    if let Some(wait) = answer.ok().filter(|wait| wait.pairs.len() == wait.count as usize) {
        check(&what, is_within_share(&tree, channel, a, &wait), true, &files);
    }
    check(&what, &ours, &theirs, &files);
    if ending.is_ok() && usize::from(a) < known {
        compare_simple(files, channel, a, number, &mut counts.differing);
    }
}

fn compare_waits() -> usize {
    let mut random = Random::new(3);
    let mut counts = WaitCounts::default();
    for _ in 0..WAITS {
        compare_wait(&mut random, &mut counts);
    }
    counts.answers.print("waits: answer, list, every byte of the buffer");
    for (kind, count) in counts.kinds {
        println!("  {kind}: {count}");
        assert!(count > 0, "no input has {kind}");
    }
    for (rule, count) in WRONG.iter().zip(counts.differing) {
        println!("  the rule {rule:?} would differ in {count} of them");
        assert!(count > 0, "the comparison does not find {rule:?}");
    }
    WAITS
}

/// The length of a buffer for a text of so many bytes: about that of the text, about the limits, or any.
fn text_room(random: &mut Random, bytes: usize) -> usize {
    match random.below(10) {
        0 => LIMIT - 1 + random.below(3) as usize,
        1 => random.below(LIMIT as u64 + 1) as usize,
        2 => TREE_TEXT - 1 + random.below(3) as usize,
        3 => random.below(2) as usize,
        4 => random.below(bytes as u64 + 40) as usize,
        _ => (bytes + random.below(3) as usize).saturating_sub(1),
    }
}

/// What the comparison of texts must meet in an accepted tree, and whether this one does.
fn tree_kinds(file: &[u8], tree: &Tree, text: &[u8]) -> [(&'static str, bool); 15] {
    let bus = |file: &[u8]| file.iter().position(|&b| b == b'\n').expect("a bus line");
    let place = |a: usize| (tree.accelerators[a].interconnect, tree.accelerators[a].port);
    let carries = |is: fn(&Port) -> bool| tree.interconnects.iter().any(|i| is(&i.ports[7]));
    let is_bare = |i: &Interconnect| i.ports.iter().all(|port| *port == Port::Empty);
    [
        ("a file that is the text", file == text),
        ("bus3", tree.bus.axi == Axi::Axi3),
        ("bus with B up to 16", tree.bus.axi == Axi::Axi4 && tree.bus.burst <= 16),
        ("bus with B over 16", tree.bus.burst > 16),
        ("a return delay of 0 in the file", file[..bus(file)] != text[..bus(text)]),
        ("a return delay of 15", tree.bus.delay == 15),
        ("acc lines in another order", file[bus(file)..] != text[bus(text)..]),
        ("an accelerator before one of a lower number", (1..tree.accelerators.len()).any(|a| place(a - 1) > place(a))),
        ("an accelerator on port 7", carries(|port| matches!(port, Port::Acc(_)))),
        ("an interconnect on port 7", carries(|port| matches!(port, Port::Int(_)))),
        ("an interconnect without anything", tree.interconnects.iter().any(is_bare)),
        ("15 interconnects", tree.interconnects.len() == 15),
        ("32 accelerators", tree.accelerators.len() == 32),
        ("a job without reads and writes", tree.accelerators.iter().any(|a| a.reads + a.writes == 0)),
        ("a period of ten digits", tree.accelerators.iter().any(|a| a.period >= 1_000_000_000)),
    ]
}

/// What it must meet in the length of a buffer; a text of no bytes is that of a refused tree.
fn room_kinds(room: usize, text: usize) -> [(&'static str, bool); 9] {
    let accepted = text > 0;
    [
        ("a buffer as long as the text", accepted && room == text),
        ("a buffer a byte shorter than the text", accepted && room == text - 1),
        ("a buffer a byte longer than the text", accepted && room == text + 1),
        ("a buffer for the longest text", accepted && room == TREE_TEXT),
        ("an empty buffer", accepted && room == 0),
        ("a buffer of 65,536 bytes", accepted && room == LIMIT),
        ("a buffer of 65,537 bytes", accepted && room == LIMIT + 1),
        ("a refused tree, an empty buffer", !accepted && room == 0),
        ("a refused tree, a buffer of 65,537 bytes", !accepted && room == LIMIT + 1),
    ]
}

/// Ways to write a tree back that the comparison must find wrong.
const WRONG_TEXTS: [Writing; 14] = [
    Writing::AsRead,
    Writing::ByNumber,
    Writing::PortFirst,
    Writing::ByDigits,
    Writing::DelayWritten,
    Writing::NoDelay,
    Writing::NameLost,
    Writing::NameByB,
    Writing::WithoutPort7,
    Writing::SizeBeforeTree,
    Writing::AnySize,
    Writing::RoomForMore,
    Writing::CutShort,
    Writing::Cleared,
];

/// The counts of a comparison of texts.
#[derive(Default)]
struct RewriteCounts {
    answers: Counts,
    kinds: BTreeMap<&'static str, usize>,
    differing: [usize; WRONG_TEXTS.len()],
}

impl RewriteCounts {
    fn add_kinds(&mut self, kinds: &[(&'static str, bool)]) {
        for &(kind, met) in kinds {
            *self.kinds.entry(kind).or_default() += usize::from(met);
        }
    }
}

/// The tree with the other name of its bus record: where B is over 16 it is refused by 2, else it has the same report, and the same text
/// but for the name.
fn compare_renamed(file: &[u8], tree: &Tree, text: &[u8]) {
    let other = renamed(file);
    let files = [file, &other];
    let (mut page, mut out) = (Box::new([0; PAGE]), [0; TREE_TEXT]);
    let report = razhikum::report(file, &mut page).map(<[u8]>::to_vec);
    let of_other = razhikum::report(&other, &mut page).map(<[u8]>::to_vec);
    let written = razhikum::rewrite(&other, &mut out);
    if tree.bus.axi == Axi::Axi4 && tree.bus.burst > 16 {
        let refused = Refused::by(2, 1);
        check("the report on bus3 with B over 16", of_other, Err(refused), &files);
        check("the text on bus3 with B over 16", written, Err(refused), &files);
    } else {
        check("the report under the other name", of_other, report, &files);
        check("the text under the other name", written, Ok(&renamed(text)[..]), &files);
    }
}

/// The text is a file of the same tree, with the same report. It is written as it is, and so is another file of the tree.
fn compare_again(file: &[u8], tree: &Tree, text: &[u8], random: &mut Random) {
    let files = [file, text];
    check("the tree read again", read_tree(text).as_ref(), Ok(tree), &files);
    let report = |file: &[u8]| {
        let mut page = Box::new([0; PAGE]);
        razhikum::report(file, &mut page).map(<[u8]>::to_vec)
    };
    check("the report of the text", report(text), report(file), &files);
    let another = another_file(random, file);
    for other in [text, &another] {
        let mut out = [0; TREE_TEXT];
        check("the text of the same tree", razhikum::rewrite(other, &mut out), Ok(text), &[file, other]);
    }
}

fn compare_rewrite(random: &mut Random, counts: &mut RewriteCounts) {
    let file = if random.one_in(4) { tree_file(random) } else { text(&random_tree(random, 15, 32)) };
    let tree = read_tree(&file);
    let text = tree.as_ref().map_or(vec![], peer::write::tree_text);
    let (room, filled) = (text_room(random, text.len()), random.below(256) as u8);
    let written = |write: &mut dyn FnMut(&mut [u8]) -> Result<usize, Refused>| {
        let mut out = vec![filled; room];
        (write(&mut out), out)
    };
    let library = written(&mut |out| razhikum::rewrite(&file, out).map(<[u8]>::len));
    let of_peer = written(&mut |out| peer::write::rewrite(&file, out).map(<[u8]>::len));
    let what = format!("text in a buffer of {room} bytes");
    check(&what, &library, &of_peer, &[&file]);
    let read = tree.as_ref().map(|_| ()).map_err(|e| *e);
    let simple = |writing| written(&mut |out| written::rewrite(&file, read, out, writing));
    check(&what, &library, &simple(Writing::AsWritten), &[&file]);
    for (count, writing) in counts.differing.iter_mut().zip(WRONG_TEXTS) {
        *count += usize::from(simple(writing) != library);
    }
    counts.answers.add(match library.0 {
        Ok(_) => "written".into(),
        Err(r) if read.is_ok() => format!("buffer refused {}", r.cause.number()),
        Err(r) => format!("tree refused {}", r.cause.number()),
    });
    counts.add_kinds(&room_kinds(room, text.len()));
    if let Ok(tree) = tree {
        counts.add_kinds(&tree_kinds(&file, &tree, &text));
        compare_again(&file, &tree, &text, random);
        compare_renamed(&file, &tree, &text);
    }
}

fn compare_rewrites() -> usize {
    let mut random = Random::new(4);
    let mut counts = RewriteCounts::default();
    for _ in 0..REWRITES {
        compare_rewrite(&mut random, &mut counts);
    }
    counts.answers.print("trees written back: answer, text, every byte of the buffer, the text read again");
    for (kind, count) in counts.kinds {
        println!("  {kind}: {count}");
        assert!(count > 0, "no input has {kind}");
    }
    for (writing, count) in WRONG_TEXTS.iter().zip(counts.differing) {
        println!("  a text by {writing:?} would differ in {count} of them");
        assert!(count > 0, "the comparison does not find {writing:?}");
    }
    REWRITES
}

fn main() {
    let total = compare_trees() + compare_runs() + compare_waits() + compare_rewrites();
    assert!(total >= 1_000_000);
    println!("{total} inputs, no difference");
}
