//! Random and damaged files for the comparison, and busy trees for the timing. All are made from a seed.
use crate::peer::machine::Machine;
use crate::peer::read::{read_tree, Axi, Tree};
use razhikum::{Burst, Channel};

/// A xorshift generator.
pub struct Random(u64);

impl Random {
    pub fn new(seed: u64) -> Random {
        Random(seed.wrapping_mul(0x9e37_79b9_7f4a_7c15) | 1)
    }

    pub fn number(&mut self) -> u64 {
        self.0 ^= self.0 >> 12;
        self.0 ^= self.0 << 25;
        self.0 ^= self.0 >> 27;
        self.0.wrapping_mul(0x2545_f491_4f6c_dd1d) >> 16
    }

    /// A number below n.
    pub fn below(&mut self, n: u64) -> u64 {
        self.number() % n
    }

    pub fn one_in(&mut self, n: u64) -> bool {
        self.below(n) == 0
    }

    pub fn pick<'a, T>(&mut self, from: &'a [T]) -> &'a T {
        &from[self.below(from.len() as u64) as usize]
    }

    /// A number of these limits: often an end, often near the lower end, else any.
    fn within(&mut self, low: u64, high: u64) -> u64 {
        match self.below(8) {
            0 => low,
            1 => high,
            2..=4 => low + self.below((high - low + 1).min(8)),
            _ => low + self.below(high - low + 1),
        }
    }
}

/// A file as its lines, each a list of fields.
pub type Lines = Vec<Vec<String>>;

pub fn text(lines: &Lines) -> Vec<u8> {
    let mut text = Vec::new();
    for line in lines {
        text.extend_from_slice(line.join("\t").as_bytes());
        text.push(b'\n');
    }
    text
}

fn fields(name: &str, numbers: &[u64]) -> Vec<String> {
    let mut line = vec![name.to_string()];
    line.extend(numbers.iter().map(u64::to_string));
    line
}

/// A nominal burst length of at most so many beats, also about 16, the most on AXI3.
fn random_nominal(random: &mut Random, most: u64) -> u64 {
    if random.one_in(4) {
        (15 + random.below(3)).min(most)
    } else {
        random.within(1, most)
    }
}

/// A sound bus line, one in three of AXI3. Most windows are short, so that a run sees many.
fn random_bus(random: &mut Random) -> Vec<String> {
    let axi = if random.one_in(3) { Axi::Axi3 } else { Axi::Axi4 };
    let window = match random.below(4) {
        0 => random.within(1, 65_535),
        _ => 1 + random.below(12),
    };
    let mut bus = vec![window];
    for (low, high) in [(1, 255), (0, 255), (0, 255), (0, 255), (0, 4_095), (0, 4_095), (1, 255), (1, 255)] {
        bus.push(random.within(low, high));
    }
    bus.push(random_nominal(random, axi.beats().into()));
    // The return delay: any, or absent.
    if random.one_in(2) {
        bus.push(random.within(0, 15));
    }
    fields(axi.name(), &bus)
}

/// A place for an accelerator or an interconnect: an interconnect and its port.
type Place = (u64, u64);

/// Takes one of the free places.
fn take_place(random: &mut Random, free: &mut Vec<Place>) -> Place {
    let at = random.below(free.len() as u64) as usize;
    free.swap_remove(at)
}

/// Sound int lines, at most so many, and the places that are left.
fn random_ints(random: &mut Random, most: u64, lines: &mut Lines) -> Vec<Place> {
    let mut free: Vec<Place> = (0..8).map(|port| (0, port)).collect();
    let mut levels = vec![1];
    let granularity = random.within(1, 16).to_string();
    lines.push(vec!["int".into(), "0".into(), "-".into(), "-".into(), granularity]);
    for number in 1..1 + random.below(most) {
        let (parent, port) = take_place(random, &mut free);
        if levels[parent as usize] == 4 {
            free.push((parent, port));
            break;
        }
        levels.push(levels[parent as usize] + 1);
        free.extend((0..8).map(|port| (number, port)));
        lines.push(fields("int", &[number, parent, port, random.within(1, 16)]));
    }
    free
}

/// Reads and writes of a job: often only one of them, or none.
fn random_job(random: &mut Random) -> [u64; 2] {
    let (reads, writes) = (random.within(0, 65_535), random.within(0, 65_535));
    match random.below(8) {
        0 => [reads, 0],
        1 => [0, writes],
        2 => [0, 0],
        _ => [reads, writes],
    }
}

/// A sound tree of at most so many interconnects and accelerators, whose lines come in any order.
pub fn random_tree(random: &mut Random, ints: u64, accs: u64) -> Lines {
    let mut lines = vec![random_bus(random)];
    let mut free = random_ints(random, ints, &mut lines);
    let count = 1 + random.below(accs.min(free.len() as u64));
    let mut numbers: Vec<u64> = (0..count).collect();
    while !numbers.is_empty() {
        let at = random.below(numbers.len() as u64) as usize;
        let number = numbers.swap_remove(at);
        let (interconnect, port) = take_place(random, &mut free);
        let mut acc = vec![number, interconnect, port, random.within(1, 16), random.within(1, 1_024)];
        acc.extend(random_job(random));
        acc.extend([random.within(0, U32), random.within(1, U32)]);
        lines.push(fields("acc", &acc));
    }
    lines
}

const U32: u64 = 4_294_967_295;

/// Another file of the same tree: the acc lines of a sound file in any order, and a return delay of 0 written or left out.
pub fn another_file(random: &mut Random, file: &[u8]) -> Vec<u8> {
    let mut lines: Vec<&[u8]> = file.split_inclusive(|&b| b == b'\n').collect();
    let first = lines.iter().position(|line| line.starts_with(b"acc")).expect("an acc line");
    for at in (first..lines.len()).rev() {
        lines.swap(at, first + random.below((at - first + 1) as u64) as usize);
    }
    let mut bus = lines[0].trim_ascii_end().to_vec();
    let fields = bus.split(|&b| b == b'\t').count();
    if fields == 11 && random.one_in(2) {
        bus.extend_from_slice(b"\t0");
    } else if bus.ends_with(b"\t0") && random.one_in(2) {
        bus.truncate(bus.len() - 2);
    }
    [&bus, &b"\n"[..], &lines[1..].concat()].concat()
}

/// A sound trace of at most so many lines that asks for these accelerators, with slots close together.
pub fn random_trace(random: &mut Random, accelerators: &[u64], lines: u64) -> Lines {
    let mut slot = 0;
    let step = 1 + random.below(6);
    let most = 1 + random.below(16);
    (0..random.below(lines + 1))
        .map(|_| {
            slot += random.below(step);
            let a = *random.pick(accelerators);
            let count = 1 + random.below(most);
            fields("o", &[slot, a, count])
        })
        .collect()
}

/// Beat sizes of bursts.
pub const SIZES: [u32; 8] = [1, 2, 4, 8, 16, 32, 64, 128];

/// What is no beat size.
const NO_SIZES: [u32; 20] =
    [0, 3, 5, 6, 7, 9, 12, 24, 96, 120, 127, 129, 192, 255, 256, 260, 512, 65_537, 1 << 31, u32::MAX];

/// What is no count of beats on either bus.
const NO_BEATS: [u32; 10] = [0, 257, 258, 272, 511, 512, 65_537, 1 << 24 | 1, 1 << 31, u32::MAX];

/// A burst, mostly of a sound size and as many beats as a page has room for, also about 16 of them, the most on AXI3: near the end of a
/// page, or so that it ends about there, or anywhere. One in four pages is the first, one the last of the addresses.
pub fn random_burst(random: &mut Random) -> Burst {
    let size = if random.one_in(12) { *random.pick(&NO_SIZES) } else { *random.pick(&SIZES) };
    let room = 4_096 / u64::from(size.clamp(1, 4_096));
    let beats = match random.below(12) {
        0 => *random.pick(&NO_BEATS),
        1 => 255 + random.below(3) as u32,
        2 => 1 + random.below(256) as u32,
        3 | 4 => 15 + random.below(3) as u32,
        _ => random.within(1, room.min(256)) as u32,
    };
    let page = match random.below(4) {
        0 => 0,
        1 => (1 << 20) - 1,
        _ => random.below(1 << 20),
    };
    let (bytes, few) = (u64::from(beats) * u64::from(size) % 4_097, u64::from(size) % 256 + 2);
    let back = match random.below(6) {
        0 => random.below(4_096),
        1 | 2 => random.below(few),
        _ => (bytes + random.below(2 * few)).saturating_sub(few),
    };
    Burst { start: ((page + 1) * 4_096).saturating_sub(back + 1) as u32, beats, size }
}

/// A tree of one accelerator whose nominal burst length is so many beats.
pub fn nominal_tree(axi: Axi, burst: u64) -> Vec<u8> {
    let mut lines = vec![fields(axi.name(), &[64, 1, 4, 2, 2, 30, 25, 1, 1, burst])];
    lines.push(vec!["int".into(), "0".into(), "-".into(), "-".into(), "4".into()]);
    lines.push(fields("acc", &[0, 0, 0, 4, 8, 1, 1, 0, 1]));
    text(&lines)
}

/// The lines of a trace for so many transactions of an accelerator in a slot: a line asks for at most 16.
pub fn requests_of(slot: u32, a: u8, count: usize) -> Lines {
    let lines = (0..count).step_by(16);
    lines.map(|before| fields("o", &[slot.into(), a.into(), (count - before).min(16) as u64])).collect()
}

/// What stands in a damaged field.
const FIELDS: [&str; 34] = [
    "",
    "-",
    "--",
    "+1",
    "-1",
    "00",
    "01",
    "0",
    "1",
    "7",
    "8",
    "14",
    "15",
    "16",
    "17",
    "31",
    "32",
    "255",
    "256",
    "257",
    "1024",
    "1025",
    "4095",
    "4096",
    "65535",
    "65536",
    "4294967294",
    "4294967295",
    "4294967296",
    "9999999999",
    "10000000000",
    "1 ",
    "a",
    "0x1",
];

/// What stands in the place of a record name, or as a line.
const NAMES: [&str; 24] = [
    "bus", "bus3", "int", "acc", "o", "", "Bus", "BUS3", "bu", "bu3", "buss", "bus ", "bus 3", "bus3 ", "bus33",
    "bus03", "bus4", "3bus", "int3", "ints", "oo", "o3", "\0", "-",
];

/// What is no name of a bus record.
const NO_BUSES: [&str; 12] =
    ["BUS", "BUS3", "Bus3", "bu3", "bus ", "bus 3", "bus3 ", "bus33", "bus03", "bus2", "bus4", "axi3"];

/// Lines with a few faults, of fields or of whole lines.
pub fn damage_lines(random: &mut Random, lines: &mut Lines) {
    for _ in 0..1 + random.below(2) {
        if lines.is_empty() {
            return;
        }
        let n = lines.len() as u64;
        let at = random.below(n) as usize;
        match random.below(16) {
            0 => drop(lines.remove(at)),
            1 => lines.insert(at, lines[random.below(n) as usize].clone()),
            2 => lines.swap(at, random.below(n) as usize),
            3 => lines[at][0] = random.pick(&NAMES).to_string(),
            4 => lines.insert(at, vec![random.pick(&NAMES).to_string()]),
            5 => lines[at].push(random.pick(&FIELDS).to_string()),
            6 => drop(lines[at].pop()),
            7 | 8 => copy_field(random, lines, at),
            9 => deepen(lines),
            10 => damage_delay(random, lines),
            11 => damage_bus(random, lines),
            12 => second_bus(random, lines, at),
            _ => {
                let k = random.below(lines[at].len() as u64) as usize;
                lines[at][k] = random.pick(&FIELDS).to_string();
            }
        }
        lines.retain(|line| !line.is_empty());
    }
}

/// A field takes the value of the same field of another line, as with a port that is taken.
fn copy_field(random: &mut Random, lines: &mut Lines, at: usize) {
    let other = random.below(lines.len() as u64) as usize;
    let k = random.below(lines[at].len() as u64) as usize;
    if let Some(value) = lines[other].get(k).cloned() {
        lines[at][k] = value;
    }
}

/// Each interconnect hangs on the one before it, so that the fifth has level 5.
fn deepen(lines: &mut Lines) {
    let is_child = |line: &&mut Vec<String>| line.len() == 5 && line[0] == "int" && line[2] != "-";
    for line in lines.iter_mut().filter(is_child) {
        if let Ok(number @ 1..) = line[1].parse::<u64>() {
            line[2] = (number - 1).to_string();
        }
    }
}

/// The first line gets another eleventh field, or a twelfth one.
fn damage_delay(random: &mut Random, lines: &mut Lines) {
    let delay = random.pick(&["0", "1", "15", "16", "17", "255", "256", "4294967296", "", "-", "00", "015", "a"]);
    let bus = &mut lines[0];
    bus.truncate(if random.one_in(3) { 12 } else { 11 });
    bus.push(delay.to_string());
}

/// The other of the two names of a bus record.
fn other_name(name: &str) -> &'static str {
    if name == "bus3" {
        "bus"
    } else {
        "bus3"
    }
}

/// The first line gets the other name or what is none, or another B about the limits of both: on AXI3 B is above 16 then, at times.
fn damage_bus(random: &mut Random, lines: &mut Lines) {
    let bus = &mut lines[0];
    match random.below(3) {
        0 => bus[0] = other_name(&bus[0]).into(),
        1 => bus[0] = random.pick(&NO_BUSES).to_string(),
        _ => {}
    }
    if bus.len() > 10 && random.one_in(2) {
        bus[10] = random.pick(&["0", "1", "15", "16", "17", "18", "32", "255", "256", "257"]).to_string();
    }
}

/// The first line once more, mostly with the other name: next to the first one, or anywhere.
fn second_bus(random: &mut Random, lines: &mut Lines, at: usize) {
    let mut bus = lines[0].clone();
    if !random.one_in(4) {
        bus[0] = other_name(&bus[0]).into();
    }
    lines.insert(if random.one_in(2) { 1 } else { at }, bus);
}

/// Bytes with a fault: one changed, put in or taken out, or the end cut off.
pub fn damage_bytes(random: &mut Random, text: &mut Vec<u8>) {
    if text.is_empty() {
        return;
    }
    let at = random.below(text.len() as u64) as usize;
    let byte = *random.pick(b"\t\n\r\0 0123456789-+oabusintc\x80\xff");
    match random.below(5) {
        0 => text.insert(at, byte),
        1 => drop(text.remove(at)),
        2 => text.truncate(at),
        3 => drop(text.pop()),
        _ => text[at] = byte,
    }
}

/// A tree for the timing, without a return delay: one bus line, interconnects as (parent, port), and the interconnect of each
/// accelerator, which takes the next free port there. Every job reads and writes.
pub fn tree_of(window: u64, parents: &[(u64, u64)], homes: &[u64]) -> Vec<u8> {
    let mut lines = vec![fields("bus", &[window, 1, 4, 2, 2, 30, 25, 1, 1, 16])];
    lines.push(vec!["int".into(), "0".into(), "-".into(), "-".into(), "4".into()]);
    let mut taken = vec![[false; 8]; parents.len() + 1];
    for (i, &(parent, port)) in parents.iter().enumerate() {
        taken[parent as usize][port as usize] = true;
        lines.push(fields("int", &[i as u64 + 1, parent, port, 1 + i as u64 % 4]));
    }
    for (a, &home) in homes.iter().enumerate() {
        let ports = &mut taken[home as usize];
        let port = ports.iter().position(|p| !p).expect("a free port");
        ports[port] = true;
        let budget = (2 * window).div_ceil(homes.len() as u64).min(1_024);
        let period = 1_000_000 * (a as u64 % 3 + 1);
        lines.push(fields("acc", &[a as u64, home, port as u64, 8, budget, 100, 50, 1_000, period]));
    }
    text(&lines)
}

/// 1 interconnect, 2 accelerators.
pub fn small_tree() -> Vec<u8> {
    tree_of(64, &[], &[0, 0])
}

/// 4 interconnects on 3 levels, 12 accelerators.
pub fn middle_tree() -> Vec<u8> {
    let homes = [0, 0, 0, 1, 1, 1, 2, 2, 2, 3, 3, 3];
    tree_of(64, &[(0, 1), (0, 5), (1, 2)], &homes)
}

/// 15 interconnects on 4 levels, a binary tree, 32 accelerators of which most are on the deepest level.
pub fn full_tree() -> Vec<u8> {
    let parents: Vec<(u64, u64)> = (1..15).map(|i| ((i - 1) / 2, 3 + i % 2)).collect();
    let homes: Vec<u64> = (0..32).map(|a| if a < 8 { a } else { 7 + a % 8 }).collect();
    tree_of(64, &parents, &homes)
}

/// The same tree with jobs apart: of eight accelerators in a row the second only reads, the fourth only writes, and the sixth does neither.
pub fn jobs_apart(tree: &[u8]) -> Vec<u8> {
    let tree = std::str::from_utf8(tree).expect("plain text");
    let mut lines: Lines = tree.lines().map(|line| line.split('\t').map(str::to_string).collect()).collect();
    for line in lines.iter_mut().filter(|line| line[0] == "acc") {
        match line[1].parse::<u64>().expect("a number") % 8 {
            1 => line[7] = "0".into(),
            3 => line[6] = "0".into(),
            5 => line[6..8].fill("0".into()),
            _ => {}
        }
    }
    text(&lines)
}

/// The same file with the other name of the bus record.
pub fn renamed(file: &[u8]) -> Vec<u8> {
    let end = file.iter().position(|&b| b == b'\t').expect("a bus line");
    let name = std::str::from_utf8(&file[..end]).expect("plain text");
    [other_name(name).as_bytes(), &file[end..]].concat()
}

/// The same tree with a return delay.
pub fn delayed(tree: &[u8], delay: u64) -> Vec<u8> {
    let end = tree.iter().position(|&b| b == b'\n').expect("a bus line");
    [&tree[..end], format!("\t{delay}").as_bytes(), &tree[end..]].concat()
}

/// The tree with the longest text: each field is as long as it can be, all accelerators are on interconnects of two digits, and so are
/// the interconnects that can be. Its acc lines are by number, and the places fall. On AXI3 the name is a byte longer, and B a byte
/// shorter.
pub fn longest_tree(axi: Axi) -> Vec<u8> {
    let burst = axi.beats().into();
    let mut lines = vec![fields(axi.name(), &[65_535, 255, 255, 255, 255, 4_095, 4_095, 255, 255, burst, 15])];
    lines.push(vec!["int".into(), "0".into(), "-".into(), "-".into(), "16".into()]);
    let at_root = (0..8).map(|port| (0, port));
    let parents = at_root.chain([(1, 0), (1, 1)]).chain((0..4).map(|port| (10, port)));
    for (i, (parent, port)) in parents.enumerate() {
        lines.push(fields("int", &[i as u64 + 1, parent, port, 16]));
    }
    for (a, place) in (0..32).zip((4..36).rev()) {
        lines.push(fields("acc", &[a, 10 + place / 8, place % 8, 16, 1_024, 65_535, 65_535, U32, U32]));
    }
    text(&lines)
}

/// Two levels and 5 interconnects, with so many accelerators on the lower level.
pub fn wide_tree(accelerators: u64) -> Vec<u8> {
    let homes: Vec<u64> = (0..accelerators).map(|a| 1 + a % 4).collect();
    tree_of(64, &[(0, 0), (0, 2), (0, 4), (0, 6)], &homes)
}

/// So many interconnects, each beneath the one before, with 8 accelerators on the last.
pub fn deep_tree(levels: u64) -> Vec<u8> {
    let parents: Vec<(u64, u64)> = (0..levels - 1).map(|i| (i, 3)).collect();
    tree_of(64, &parents, &[levels - 1; 8])
}

/// A trace under which every accelerator holds requests in each of so many slots of a channel: it is found by running the machine, with
/// 16 more requested where less than 24 are pending. Those without a job on the channel hold their first ones to the end.
pub fn busy_trace(tree: &[u8], channel: Channel, slots: u32) -> Vec<u8> {
    let tree: Tree = read_tree(tree).expect("a sound tree");
    let mut machine = Machine::fresh(&tree, channel);
    let mut lines = Lines::new();
    for slot in 0..slots {
        for a in 0..tree.accelerators.len() as u8 {
            while machine.pending(a) < 24 {
                machine.hold(a, 16);
                lines.push(fields("o", &[slot.into(), a.into(), 16]));
            }
        }
        machine.offer();
        machine.serve();
    }
    text(&lines)
}
