//! Jobs in runs (document 02, item 8). Without a return delay a job of N transactions that a block asks for in one slot, with none of its
//! own held or waiting before, takes at most N × share + ceil(N / b) × P slots, whatever the other blocks ask for: that is what the
//! response charges. With any return delay, refusals by 9 meet a job in at most ceil(N / b) windows until its last transaction is
//! admitted, where no other of the block is held before or among them. The seed is fixed. A job that breaks this prints its tree and its
//! trace and ends the test.
use razhikum::{Channel, IDLE, LIMIT};
use razhikum_bench::inputs::{random_trace, random_tree, requests_of, text, Lines, Random};
use razhikum_bench::peer;
use razhikum_bench::peer::calls::fresh;
use razhikum_bench::peer::read::{read_trace, read_tree, Tree};
use std::collections::{BTreeMap, BTreeSet};

const JOBS: usize = 200_000;
const HELD_JOBS: usize = 40_000;

/// The slots of a run that is made again as a list of calls.
const SLOTS: usize = 600;

/// A tree and a channel, the block that gets the job, and what is asked for before the job and beside it.
struct Setting {
    file: Vec<u8>,
    tree: Tree,
    channel: Channel,
    a: u8,
    /// The lines of the others, and of the block before its job.
    lines: Lines,
    /// How many of its own the block asks for before its job, and in which slot.
    earlier: usize,
    asked: usize,
}

/// A job: the slot of its first line, how many transactions it has, and its lines.
struct Job {
    first: usize,
    n: usize,
    lines: Lines,
}

/// Lines of the blocks beside the one with the job: a few of some in slots close together, or many of each in the first slot.
fn beside(random: &mut Random, others: &[u64]) -> Lines {
    if others.is_empty() {
        return Lines::new();
    }
    if random.one_in(2) {
        return random_trace(random, others, 40);
    }
    let most = *random.pick(&[20, 200, 800]);
    others.iter().flat_map(|&b| requests_of(0, b as u8, random.below(most) as usize)).collect()
}

/// None where no block has the channel in its job. Half of the trees have budgets of 1 to 4, so that jobs are held often. The earlier ones
/// often use the budget of a window up.
fn setting(random: &mut Random, with_delay: bool) -> Option<Setting> {
    let (ints, accs) = *random.pick(&[(1, 1), (1, 2), (1, 4), (3, 5), (5, 12)]);
    let mut lines = random_tree(random, ints, accs);
    if !with_delay {
        lines[0].truncate(11);
    }
    if random.one_in(2) {
        for line in lines.iter_mut().filter(|line| line[0] == "acc") {
            line[5] = (1 + random.below(4)).to_string();
        }
    }
    let file = text(&lines);
    let tree = read_tree(&file).expect("a sound tree");
    let channel = *random.pick(&Channel::BOTH);
    let all = 0..tree.accelerators.len() as u64;
    let mut others: Vec<u64> = all.filter(|&a| tree.accelerators[a as usize].job(channel) > 0).collect();
    if others.is_empty() {
        return None;
    }
    let a = others.swap_remove(random.below(others.len() as u64) as usize) as u8;
    let earlier = match random.below(4) {
        0 => 0,
        1 => random.below(40) as usize,
        _ => tree.accelerators[a as usize].budget.min(64).into(),
    };
    let asked = random.below(u64::from(tree.bus.window).min(30)) as usize;
    let mut lines = beside(random, &others);
    lines.extend(requests_of(asked as u32, a, earlier));
    Some(Setting { file, tree, channel, a, lines, earlier, asked })
}

impl Setting {
    fn budget(&self) -> usize {
        self.tree.accelerators[self.a as usize].budget.into()
    }

    fn window(&self) -> usize {
        self.tree.bus.window as usize
    }

    fn share(&self) -> usize {
        let bound = razhikum::bound(&self.file, self.a).expect("a bound");
        match self.channel {
            Channel::Read => bound.sr as usize,
            Channel::Write => bound.sw as usize,
        }
    }

    /// The trace with the lines of a job.
    fn trace(&self, job: &[Vec<String>]) -> Vec<u8> {
        let mut lines = [&self.lines[..], job].concat();
        lines.sort_by_key(|line| line[1].parse::<u32>().expect("a slot"));
        text(&lines)
    }

    /// From which slot on none of the earlier ones is held, and from which on none of them waits: none where a run does not serve them.
    fn earlier_gone(&self) -> Option<(usize, usize)> {
        if self.earlier == 0 {
            return Some((0, 0));
        }
        let (trace, last) = (self.trace(&[]), self.earlier as u32);
        let wait = razhikum::why(&self.file, self.channel, &trace, self.a, last, &mut []).ok()?;
        Some((wait.slot as usize + 1, (wait.slot + wait.count) as usize + 1))
    }

    /// What each of so many slots serves, by library and peer alike; nobody after the run is done.
    fn run(&self, trace: &[u8], slots: usize) -> Vec<u8> {
        let (mut out, mut other) = (vec![IDLE; slots], vec![IDLE; slots]);
        let ending = razhikum::run(&self.file, self.channel, trace, &mut out);
        let of_peer = peer::run::run(&self.file, self.channel, trace, &mut other);
        self.demand("library and peer agree", (ending, &out) == (of_peer, &other), trace);
        out
    }

    /// The slots in which the block is served.
    fn own(&self, out: &[u8]) -> Vec<usize> {
        (0..out.len()).filter(|&slot| out[slot] == self.a).collect()
    }

    /// Prints the input and ends the test where something does not hold.
    fn demand(&self, what: &str, holds: bool, trace: &[u8]) {
        if !holds {
            println!("{}{}", String::from_utf8_lossy(&self.file), String::from_utf8_lossy(trace));
            panic!("{what}: not so for accelerator {} on the {} channel", self.a, self.channel);
        }
    }

    /// How many transactions a job has: mostly about those of a few windows.
    fn transactions(&self, random: &mut Random) -> usize {
        let windows = 1 + random.below(6) as usize;
        let n = match random.below(6) {
            0 => 1,
            1 => windows * self.budget(),
            2 => windows * self.budget() + 1,
            _ => windows * self.budget() - random.below(self.budget() as u64) as usize,
        };
        n.min(2_000)
    }
}

/// How many slots a job is charged: as document 02 has it, or by a rule that some run must break.
#[derive(Clone, Copy, Debug)]
enum Charging {
    AsWritten,
    WindowsLeftOut,
    RoundedDown,
    WithoutP,
}

const TOO_LITTLE: [Charging; 3] = [Charging::WindowsLeftOut, Charging::RoundedDown, Charging::WithoutP];

/// What is charged for n transactions, with so many of its own waiting before: each of these costs a share too.
fn charged(setting: &Setting, n: usize, waiting: usize, charging: Charging) -> usize {
    let (b, p) = (setting.budget(), setting.window());
    let held = match charging {
        Charging::AsWritten => n.div_ceil(b) * p,
        Charging::WindowsLeftOut => 0,
        Charging::RoundedDown => n / b * p,
        Charging::WithoutP => n.div_ceil(b),
    };
    (n + waiting) * setting.share() + held
}

/// The counts of a comparison of jobs with what they are charged.
#[derive(Default)]
struct JobCounts {
    compared: usize,
    /// Blocks without a job, earlier ones that are not served, and jobs that are charged more slots than a run has.
    left_out: usize,
    kinds: BTreeMap<&'static str, usize>,
    broken: [usize; TOO_LITTLE.len()],
    /// Of each kind of job the slots taken and charged of the one that comes closest.
    closest: BTreeMap<&'static str, (usize, usize)>,
    with_delay: [usize; 2],
}

fn add_kinds(kinds: &mut BTreeMap<&'static str, usize>, met: &[(&'static str, bool)]) {
    for &(kind, met) in met {
        *kinds.entry(kind).or_default() += usize::from(met);
    }
}

/// How many slots after the first possible one a job comes: mostly none.
fn later(random: &mut Random) -> usize {
    match random.below(5) {
        0 => 1,
        1 => random.below(40) as usize,
        _ => 0,
    }
}

/// A job in one slot, from which on none of its block is held; in one of three, where it can be, some of its own still wait.
fn job_in_one_slot(random: &mut Random, setting: &Setting) -> Option<Job> {
    let (none_held, none_waits) = setting.earlier_gone()?;
    let first = if none_held < none_waits && random.one_in(3) {
        none_held + random.below((none_waits - none_held) as u64) as usize
    } else {
        none_waits + later(random)
    };
    let n = setting.transactions(random);
    Some(Job { first, n, lines: requests_of(first as u32, setting.a, n) })
}

fn compare_job(random: &mut Random, counts: &mut JobCounts) {
    let with_delay = random.one_in(8);
    let made = setting(random, with_delay).and_then(|setting| {
        let job = job_in_one_slot(random, &setting)?;
        // Before the job's slot the run is that without the job.
        let served = setting.own(&setting.run(&setting.trace(&[]), job.first.min(LIMIT))).len();
        let waiting = setting.earlier - served.min(setting.earlier);
        let most = charged(&setting, job.n, waiting, Charging::AsWritten);
        (job.first + most <= LIMIT).then_some((setting, job, waiting, most))
    });
    let Some((setting, job, waiting, most)) = made else {
        counts.left_out += 1;
        return;
    };
    let Job { first, n, lines } = job;
    let trace = setting.trace(&lines);
    let own = setting.own(&setting.run(&trace, first + most));
    let last = own.get(setting.earlier + n - 1).copied();
    if setting.tree.bus.delay > 0 {
        counts.with_delay[usize::from(last.is_none())] += 1;
        return;
    }
    setting.demand("a job is served in the slots that it is charged", last.is_some(), &trace);
    let taken = last.expect("served") + 1 - first;
    counts.compared += 1;
    let (b, p, share) = (setting.budget(), setting.window(), setting.share());
    let (windows, over) = (n.div_ceil(b), |charging| taken > charged(&setting, n, waiting, charging));
    // A window that holds the job has a slot before the job or one in which it waits, so that P - 1 would be enough.
    setting.demand("a job is served in all but a slot of each window", taken + windows <= most, &trace);
    for (count, charging) in counts.broken.iter_mut().zip(TOO_LITTLE) {
        *count += usize::from(over(charging));
    }
    let alone = waiting == 0;
    for (kind, met) in [
        ("all", true),
        ("a share above 1", share > 1),
        ("several windows", windows > 1),
        ("a share above 1 and several windows", share > 1 && windows > 1),
        ("a share above 1, and windows shorter than it", share > p),
        ("some of its own waiting before", !alone),
    ] {
        let closest = counts.closest.entry(kind).or_insert((0, 1));
        if met && taken * closest.1 > closest.0 * most {
            *closest = (taken, most);
        }
    }
    add_kinds(
        &mut counts.kinds,
        &[
            ("a job of reads", setting.channel == Channel::Read),
            ("a job of writes", setting.channel == Channel::Write),
            ("none of its own before", setting.earlier == 0),
            ("all of its own served before", setting.earlier > 0 && alone),
            ("some of its own waiting before", !alone),
            ("waiting ones that take it over what it is charged without them", {
                taken > charged(&setting, n, 0, Charging::AsWritten)
            }),
            ("asked for in the first slot of a window", first % p == 0 && p > 1),
            ("asked for in the last slot of a window", (first + 1) % p == 0 && p > 1),
            ("one transaction", n == 1),
            ("a job within one window's budget that waits for a new window", n <= b && taken > n * share),
            ("several windows", windows > 1),
            ("a budget above 1 that divides the job", b > 1 && n % b == 0),
            ("a budget that does not divide the job", n % b > 0),
            ("windows of one slot", p == 1),
            ("a share above 1", share > 1),
            ("as long as can be: N × share + ceil(N / b) × (P - 1)", alone && taken == most - windows && p > 1),
            ("the same over several windows", alone && taken == most - windows && p > 1 && windows > 1),
        ],
    );
}

fn compare_jobs() -> usize {
    let mut random = Random::new(8);
    let mut counts = JobCounts::default();
    for _ in 0..JOBS {
        compare_job(&mut random, &mut counts);
    }
    println!("jobs in runs without a return delay: {} compared with what they are charged", counts.compared);
    println!("  left out, no such job or more slots than a run has: {}", counts.left_out);
    for (kind, count) in counts.kinds {
        println!("  {kind}: {count}");
        assert!(count > 0, "no job has {kind}");
    }
    for (kind, (taken, most)) in counts.closest {
        println!("  closest of {kind}: {taken} of {most} slots, {:.5}", taken as f64 / most as f64);
    }
    for (charging, count) in TOO_LITTLE.iter().zip(counts.broken) {
        println!("  {count} take longer than they would be charged by {charging:?}");
        assert!(count > 0, "no job takes longer than {charging:?}");
    }
    let [within, over] = counts.with_delay;
    println!("  with a return delay, which is not charged: {within} take no longer, {over} do");
    assert!(within > 0 && over > 0, "a return delay is seen");
    counts.compared
}

/// A run made as calls from the fresh state: what each slot serves, and the windows with a refusal by 9 of the block with the job, from the
/// job's first slot on.
struct Calls {
    bytes: Vec<u8>,
    held_before: bool,
    windows: BTreeSet<usize>,
    /// Whether 8 was answered though the budget was used, too.
    hidden: bool,
    admitted: usize,
}

/// Before each slot each accelerator in turn offers what it holds until one is refused. With `never_returned` the admitted counts do not
/// return to 0, as in the planner that this one replaces.
fn calls(setting: &Setting, job: &Job, never_returned: bool) -> Calls {
    let (tree, a) = (&setting.tree, usize::from(setting.a));
    let trace = setting.trace(&job.lines);
    let requests = read_trace(tree.accelerators.len(), &trace).expect("a sound trace");
    let mut state = fresh(tree, setting.channel);
    let mut held = vec![0; tree.accelerators.len()];
    let mut left = requests.iter().peekable();
    let mut made =
        Calls { bytes: Vec::new(), held_before: false, windows: BTreeSet::new(), hidden: false, admitted: 0 };
    for slot in 0..SLOTS {
        if slot == job.first {
            made.held_before = held[a] > 0;
        }
        while let Some(request) = left.next_if(|request| request.slot as usize <= slot) {
            held[request.accelerator as usize] += u32::from(request.count);
        }
        for (b, held) in held.iter_mut().enumerate() {
            while *held > 0 {
                let Err(refusal) = state.offer(tree, b as u8) else {
                    *held -= 1;
                    made.admitted += usize::from(b == a);
                    continue;
                };
                if b == a && slot >= job.first {
                    let used = state.admitted[a] == tree.accelerators[a].budget;
                    made.hidden |= refusal == 8 && used;
                    if refusal == 9 {
                        made.windows.insert(slot / setting.window());
                    }
                }
                break;
            }
        }
        let admitted = state.admitted;
        made.bytes.push(state.serve(tree).expect("a sound state").unwrap_or(IDLE));
        if never_returned {
            state.admitted = admitted;
        }
    }
    made
}

/// A job in one slot or in several. In one of five, where it can be, it comes while some of its block are still held.
fn held_job(random: &mut Random, setting: &Setting) -> Option<Job> {
    let (none_held, _) = setting.earlier_gone()?;
    let after_asking = setting.asked + 1;
    let first = if after_asking < none_held && random.one_in(5) {
        after_asking + random.below((none_held - after_asking) as u64) as usize
    } else {
        none_held + later(random)
    };
    let n = setting.transactions(random);
    let mut lines = Lines::new();
    let (mut left, mut slot) = (n, first);
    let parts = *random.pick(&[1, 1, 2, 5]);
    for part in 1..=parts {
        let some = if part == parts { left } else { random.below(left as u64 + 1) as usize };
        lines.extend(requests_of(slot as u32, setting.a, some));
        left -= some;
        slot += random.below(2 * setting.window() as u64 + 1) as usize;
    }
    let first = lines[0][1].parse().expect("a slot");
    Some(Job { first, n, lines })
}

/// The counts of a comparison of jobs with the windows that hold them.
#[derive(Default)]
struct HeldCounts {
    compared: usize,
    left_out: usize,
    kinds: BTreeMap<&'static str, usize>,
    rounded_down: usize,
    never_returned: usize,
    with_others_held: [usize; 2],
}

fn compare_held(random: &mut Random, counts: &mut HeldCounts) {
    let made = setting(random, true).and_then(|setting| {
        let job = held_job(random, &setting)?;
        (job.first + setting.window() < SLOTS).then_some((setting, job))
    });
    let Some((setting, job)) = made else {
        counts.left_out += 1;
        return;
    };
    let trace = setting.trace(&job.lines);
    let run = calls(&setting, &job, false);
    setting.demand("a run is a list of calls", run.bytes == setting.run(&trace, SLOTS), &trace);
    let (b, met) = (setting.budget(), run.windows.len());
    let most = job.n.div_ceil(b);
    if run.held_before {
        counts.with_others_held[usize::from(met > most)] += 1;
        return;
    }
    setting.demand("refusals by 9 in at most ceil(N / b) windows", met <= most, &trace);
    counts.compared += 1;
    counts.rounded_down += usize::from(met > job.n / b);
    counts.never_returned += usize::from(calls(&setting, &job, true).windows.len() > most);
    let slots: BTreeSet<&String> = job.lines.iter().map(|line| &line[1]).collect();
    let (p, delay) = (setting.window(), setting.tree.bus.delay);
    let first_is_held = run.windows.contains(&(job.first / p));
    add_kinds(
        &mut counts.kinds,
        &[
            ("all admitted", run.admitted == setting.earlier + job.n),
            ("not all admitted in the slots of the run", run.admitted < setting.earlier + job.n),
            ("in one slot", slots.len() == 1),
            ("in several slots", slots.len() > 1),
            ("in several slots, each in a window with a refusal by 9", {
                slots.len() > 1
                    && slots.iter().all(|s| run.windows.contains(&(s.parse::<usize>().expect("a slot") / p)))
                    && met > 1
            }),
            ("no return delay", delay == 0),
            ("a return delay of 15", delay == 15),
            ("never refused by 9", met == 0),
            ("refused by 9 in the window of its first line, whose budget earlier ones used", {
                first_is_held && setting.earlier > 0 && job.n <= b
            }),
            ("refused by 9 in ceil(N / b) windows, one", met == most && met == 1),
            ("refused by 9 in ceil(N / b) windows, several", met == most && met > 1),
            ("refused by 9 in ceil(N / b) windows, with a return delay", met == most && delay > 0),
            ("a budget used up that 8 hides", run.hidden),
        ],
    );
}

fn compare_held_jobs() -> usize {
    let mut random = Random::new(9);
    let mut counts = HeldCounts::default();
    for _ in 0..HELD_JOBS {
        compare_held(&mut random, &mut counts);
    }
    println!("jobs in lists of calls: {} compared with the windows that may hold them", counts.compared);
    println!("  left out, no such job or too late for the run: {}", counts.left_out);
    for (kind, count) in counts.kinds {
        println!("  {kind}: {count}");
        assert!(count > 0, "no job is {kind}");
    }
    println!("  {} meet refusals by 9 in more windows than N / b rounded down", counts.rounded_down);
    assert!(counts.rounded_down > 0, "the comparison does not find N / b rounded down");
    println!("  {} meet them in more windows where admitted counts never return to 0", counts.never_returned);
    assert!(counts.never_returned > 0, "the comparison does not find admitted counts that never return to 0");
    let [within, over] = counts.with_others_held;
    println!("  with others of the block held before: {within} in no more windows, {over} in more");
    assert!(over > 0, "that no other is held before is not needed");
    counts.compared
}

fn main() {
    let total = compare_jobs() + compare_held_jobs();
    println!("{total} jobs, each within its bound");
}
