//! Figures of document 01 ("Figures to check by"), waits on them, responses with the wait for new windows, return delays, trees written
//! back, both channels, both names of the bus record, and the limits on sizes, by library and peer alike; and the peer's single calls.
use razhikum::{Bound, Channel, Ending, FileRefused, Refused, Wait, WaitRefused, IDLE, LIMIT, OWN, PAGE, TREE_TEXT};
use razhikum_bench::inputs::{longest_tree, nominal_tree, random_trace, random_tree, renamed, text, Random};
use razhikum_bench::peer;
use razhikum_bench::peer::calls::{fresh, State};
use razhikum_bench::peer::read::{read_trace, read_tree, Axi, Request, Tree};
use std::collections::BTreeSet;
use Channel::{Read, Write};

const BUS: &str = "bus 16 1 4 2 2 30 25 1 1 16\nint 0 - - 1\n";

fn file(spaced: &str) -> Vec<u8> {
    spaced.replace(' ', "\t").into_bytes()
}

fn bound(tree: &[u8], a: u8) -> Bound {
    let bound = razhikum::bound(tree, a).expect("a bound");
    assert_eq!(Ok(bound), peer::bounds::bound(tree, a));
    bound
}

/// The shares of each accelerator, reads first.
fn shares_apart(tree: &[u8], expected: &[(u64, u64)]) {
    for (a, shares) in (0..).zip(expected) {
        let bound = bound(tree, a);
        assert_eq!((bound.sr, bound.sw), *shares, "accelerator {a}");
    }
}

/// Where every job reads and writes, the share of each accelerator is the same on both channels.
fn shares(tree: &[u8], expected: &[u64]) {
    shares_apart(tree, &expected.iter().map(|&share| (share, share)).collect::<Vec<_>>());
}

/// The ending of a run and the bytes of its buffer.
type Run = (Result<Ending, FileRefused>, Vec<u8>);

fn run_on(tree: &[u8], channel: Channel, trace: &[u8], slots: usize) -> Run {
    let (mut out, mut other) = (vec![99; slots], vec![99; slots]);
    let ending = razhikum::run(tree, channel, trace, &mut out);
    assert_eq!(ending, peer::run::run(tree, channel, trace, &mut other));
    assert_eq!(out, other);
    (ending, out)
}

/// Where every job reads and writes, a run is the same on both channels.
fn run(tree: &[u8], trace: &[u8], slots: usize) -> Run {
    let [reads, writes] = Channel::BOTH.map(|channel| run_on(tree, channel, trace, slots));
    assert_eq!(reads, writes);
    reads
}

#[test]
fn cases_1_and_2() {
    let accs = "acc 0 0 0 4 8 1 1 0 1\nacc 1 1 0 4 8 1 1 0 1\nacc 2 2 0 4 8 1 1 0 1\nacc 3 2 1 4 8 1 1 0 1\n";
    let tree = file(&format!("{BUS}int 1 0 1 1\nint 2 1 1 1\n{accs}"));
    shares(&tree, &[2, 4, 8, 8]);
    let trace = file("o 0 0 4\no 0 1 2\no 0 2 1\no 0 3 1\n");
    let (ending, out) = run(&tree, &trace, 16);
    assert_eq!(ending, Ok(Ending::Done(8)));
    assert_eq!(out[..9], [0, 1, 0, 2, 0, 1, 0, 3, 99]);
}

/// The slot of admission, the count and the list of a wait, or its refusal.
type Told<'a> = Result<(u32, u32, &'a [[u8; 2]]), Refused>;

fn wait_on(tree: &[u8], channel: Channel, trace: &[u8], a: u8, number: u32, expected: Told) {
    let expected = expected.map(|(slot, count, pairs)| Wait { count, slot, pairs }).map_err(WaitRefused::Call);
    let (mut out, mut other) = (vec![99; LIMIT], vec![99; LIMIT]);
    assert_eq!(razhikum::why(tree, channel, trace, a, number, &mut out), expected);
    assert_eq!(peer::why::why(tree, channel, trace, a, number, &mut other), expected);
    assert_eq!(out, other);
}

/// Where every job reads and writes, a wait is the same on both channels.
fn wait(tree: &[u8], trace: &[u8], a: u8, number: u32, expected: Told) {
    for channel in Channel::BOTH {
        wait_on(tree, channel, trace, a, number, expected);
    }
}

#[test]
fn waits_in_case_2() {
    let accs = "acc 0 0 0 4 8 1 1 0 1\nacc 1 1 0 4 8 1 1 0 1\nacc 2 2 0 4 8 1 1 0 1\nacc 3 2 1 4 8 1 1 0 1\n";
    let tree = file(&format!("{BUS}int 1 0 1 1\nint 2 1 1 1\n{accs}"));
    let trace = file("o 0 0 4\no 0 1 2\no 0 2 1\no 0 3 1\n");
    wait(&tree, &trace, 3, 1, Ok((0, 7, &[[0, 0], [1, 1], [0, 0], [2, 2], [0, 0], [1, 1], [0, 0]])));
    wait(&tree, &trace, 0, 2, Ok((0, 2, &[[0, OWN], [1, 0]])));
    wait(&tree, &trace, 0, 1, Ok((0, 0, &[])));
    wait(&tree, &trace, 0, 5, Err(Refused::by(12, 0)));
    wait(&tree, &trace, 4, 0, Err(Refused::by(7, 0)));
}

/// A request that is held: its wait begins where it is admitted. With budget 1 in windows of 4 slots the second is admitted in
/// slot 4 and served there.
#[test]
fn a_wait_begins_with_the_admission() {
    let tree = file(&format!("{}acc 0 0 0 4 1 1 1 0 1\n", BUS.replace("bus 16", "bus 4")));
    wait(&tree, &file("o 0 0 2\n"), 0, 2, Ok((4, 0, &[])));
}

/// Four levels, seven accelerators and the next interconnect on each, eight on the last, g and phi 16, all busy from slot 0 on: the
/// transaction of the last accelerator waits longer than the largest buffer lists.
#[test]
fn a_list_longer_than_the_largest_buffer() {
    let mut tree = "bus 64 1 4 2 2 30 25 1 1 16\nint 0 - - 16\nint 1 0 7 16\nint 2 1 7 16\nint 3 2 7 16\n".to_string();
    let mut trace = String::new();
    for a in 0..29 {
        let (level, port) = if a == 28 { (3, 7) } else { (a / 7, a % 7) };
        tree += &format!("acc {a} {level} {port} 16 1024 1 1 0 1\n");
        trace += &format!("o 0 {a} 16\n").repeat([500, 60, 8, 1][level]);
    }
    let (tree, trace) = (file(&tree), file(&trace));
    let (mut out, mut other) = (vec![99; LIMIT], vec![99; LIMIT]);
    let wait = razhikum::why(&tree, Read, &trace, 28, 1, &mut out).expect("a wait");
    assert_eq!(Ok(wait), peer::why::why(&tree, Read, &trace, 28, 1, &mut other));
    let share = bound(&tree, 28).sr;
    assert!(wait.count > 32_768 && u64::from(wait.count) < share, "{} of {share}", wait.count);
    assert_eq!((wait.slot, wait.pairs.len()), (0, 32_768));
    assert_eq!(wait.pairs[..17], [&[[0, 0]; 16][..], &[[1, 0]]].concat());
    assert_eq!(out, other);
}

#[test]
fn cases_3_and_4() {
    let accs = "acc 0 0 0 3 8 1 1 0 1\nacc 1 0 1 1 8 1 1 0 1\n";
    let tree = file(&format!("{}{accs}", BUS.replace("- - 1", "- - 2")));
    shares(&tree, &[2, 3]);
    let (ending, out) = run(&tree, &file("o 0 0 3\no 0 1 1\n"), 16);
    assert_eq!(ending, Ok(Ending::Done(4)));
    assert_eq!(out[..5], [0, 0, 1, 0, 99]);
}

#[test]
fn the_report() {
    let tree = file("bus 8 1 4 2 2 30 25 1 1 16\nint 0 - - 1\nacc 0 0 0 4 2 10 5 1000 2000\nacc 1 0 3 4 2 1 0 0 100\n");
    let expected = file(
        "acc level sr sw yr yw resp period verdict\n0 1 2 1 10 0 5157 2000 late\n1 1 2 2 1 0 476 100 late\nall late\n",
    );
    let mut page = Box::new([0; PAGE]);
    assert_eq!(razhikum::report(&tree, &mut page), Ok(&expected[..]));
    assert_eq!(razhikum::count(&tree), Ok(2));
    let mut text = Vec::new();
    assert_eq!(peer::report::report(&tree, &mut text), Ok(()));
    assert_eq!(text, expected);
}

/// "Case 9 becomes 6,112": share 4 on level 2, 10 reads and 5 writes, C 1,000. With budget 8 and P 16 the reads are charged 2 windows and
/// the writes 1.
#[test]
fn case_9() {
    for (period, meets) in [(6_112, true), (6_111, false), (3_920, false)] {
        let accs = format!("acc 0 0 0 4 8 1 1 0 1\nacc 1 1 0 4 8 10 5 1000 {period}\nacc 2 1 1 4 8 1 1 0 1\n");
        let of_1 = bound(&file(&format!("{BUS}int 1 0 1 1\n{accs}")), 1);
        assert_eq!((of_1.level, of_1.sr, of_1.sw, of_1.yr, of_1.yw), (2, 4, 4, 30, 15));
        assert_eq!((of_1.response, of_1.meets), (3_920 + 2 * 16 * 47 + 16 * 43, meets));
        assert_eq!(of_1.response, 6_112);
    }
}

/// One block alone, P 16: what each count of reads and writes and each budget adds to the time of the transactions alone, 53 and 49.
#[test]
fn windows_in_the_response() {
    for (reads, writes, budget, windows) in [
        (0, 0, 1, [0, 0]),
        (0, 0, 1024, [0, 0]),
        (1, 0, 1, [1, 0]),
        (0, 1, 1024, [0, 1]),
        (7, 8, 8, [1, 1]),
        (9, 8, 8, [2, 1]),
        (16, 17, 8, [2, 3]),
        (65_535, 65_535, 1, [65_535, 65_535]),
        (65_535, 65_535, 2, [32_768, 32_768]),
        (65_535, 1_024, 1_024, [64, 1]),
        (65_535, 65_535, 255, [257, 257]),
    ] {
        let tree = file(&format!("{BUS}acc 0 0 0 4 {budget} {reads} {writes} 7 1\n"));
        let expected = 7 + reads * 53 + writes * 49 + windows[0] * 16 * 47 + windows[1] * 16 * 43;
        assert_eq!(bound(&tree, 0).response, expected, "{reads} reads, {writes} writes, budget {budget}");
    }
}

/// The greatest response over all accepted trees: every value is the greatest but the budget, which is 1, and the share is 113 to the
/// fourth power.
#[test]
fn the_greatest_response() {
    let mut tree = "bus 65535 255 255 255 255 4095 4095 255 255 256\nint 0 - - 16\n".to_string();
    tree += "int 1 0 7 16\nint 2 1 7 16\nint 3 2 7 16\n";
    for a in 0..29 {
        let (level, port) = if a == 28 { (3, 7) } else { (a / 7, a % 7) };
        tree += &format!("acc {a} {level} {port} 16 1 65535 65535 4294967295 4294967295\n");
    }
    let greatest = bound(&file(&tree), 28);
    assert_eq!((greatest.sr, greatest.sw), (163_047_361, 163_047_361));
    assert_eq!((greatest.response, greatest.meets), (1_491_360_056_307_660_495, false));
}

/// The slots in which a run serves accelerator 0.
fn slots_of_0(out: &[u8]) -> Vec<usize> {
    (0..out.len()).filter(|&slot| out[slot] == 0).collect()
}

/// One block with budget 1 in windows of 100 slots, and ten reads: one of them is admitted in each window. With a period of 40,000 cycles
/// the run is late, and so says the response, which was 530 without the wait for new windows.
#[test]
fn a_job_held_at_window_edges() {
    let tree = |period| file(&format!("bus 100 1 4 2 2 30 25 1 1 16\nint 0 - - 1\nacc 0 0 0 4 1 10 0 0 {period}\n"));
    for (period, meets) in [(529, false), (530, false), (40_000, false), (47_529, false), (47_530, true)] {
        let of_0 = bound(&tree(period), 0);
        assert_eq!((of_0.sr, of_0.yr, of_0.response, of_0.meets), (1, 0, 10 * 53 + 10 * 100 * 47, meets));
    }
    let period = 40_000;
    let tree = tree(period);
    // Asked in slot 0: the last is served in slot 900, in window 9, at the end of 901 slots of 47 cycles.
    let (ending, out) = run_on(&tree, Read, &file("o 0 0 10\n"), 1_000);
    assert_eq!(ending, Ok(Ending::Done(901)));
    let served = slots_of_0(&out);
    assert_eq!(served, (0..10).map(|window| 100 * window).collect::<Vec<_>>());
    // Each read takes 6 cycles more than a slot, on its way through the interconnect.
    let cycles = (served[9] as u64 + 1) * 47;
    assert!(cycles > period && cycles + 10 * 6 <= bound(&tree, 0).response);
    wait_on(&tree, Read, &file("o 0 0 10\n"), 0, 10, Ok((900, 0, &[])));
    // Asked in slot 1, with the budget of window 0 used: one window more. The 1,000 slots are all that can be: each of the 10 windows with
    // a refusal by 9 has 99 slots of waiting, and 10 are served.
    let (ending, out) = run_on(&tree, Read, &file("o 0 0 1\no 1 0 10\n"), 1_100);
    assert_eq!(ending, Ok(Ending::Done(1_001)));
    assert_eq!(slots_of_0(&out), (0..11).map(|window| 100 * window).collect::<Vec<_>>());
}

/// What the response does not count is the wait until an earlier answer is home: with phi 1 and a return delay of 15 a block alone is
/// served in every sixteenth slot, so that its job takes longer than the response.
#[test]
fn a_return_delay_is_not_in_the_response() {
    let tree = |delay| file(&format!("bus 1 1 4 2 2 30 25 1 1 16{delay}\nint 0 - - 1\nacc 0 0 0 1 8 10 0 0 1\n"));
    let response = 10 * 53 + 2 * 47;
    for delay in ["", " 0", " 15"] {
        assert_eq!(bound(&tree(delay), 0).response, response);
    }
    let (ending, out) = run_on(&tree(" 15"), Read, &file("o 0 0 10\n"), 200);
    assert_eq!(ending, Ok(Ending::Done(145)));
    let served = slots_of_0(&out);
    assert_eq!(served, (0..10).map(|n| 16 * n).collect::<Vec<_>>());
    assert!((served[9] as u64 + 1) * 47 > response);
    assert_eq!(run_on(&tree(""), Read, &file("o 0 0 10\n"), 200).0, Ok(Ending::Done(10)));
}

/// A tree file with this return delay at the end of its bus line; "" leaves it out.
fn with_delay(delay: &str, accs: &str) -> Vec<u8> {
    let bus = BUS.replacen(" 16\n", &format!(" 16{delay}\n"), 1);
    file(&format!("{bus}{accs}"))
}

/// A place is free again r slots after the service: with phi 1 and r 3 a block alone is served in every fourth slot, with phi 2 twice in
/// four slots, with phi 4 always. What is on its way does not keep a run from being done.
#[test]
fn a_block_alone_with_a_return_delay() {
    let served = |delay, phi, expected: &[u8]| {
        let tree = with_delay(delay, &format!("acc 0 0 0 {phi} 8 1 1 0 1\n"));
        let (ending, out) = run(&tree, &file("o 0 0 4\n"), 16);
        assert_eq!(ending, Ok(Ending::Done(expected.len() as u32)));
        assert_eq!(out[..expected.len()], *expected);
    };
    served(" 3", 1, &[0, 255, 255, 255, 0, 255, 255, 255, 0, 255, 255, 255, 0]);
    served(" 3", 2, &[0, 0, 255, 255, 0, 0]);
    served(" 3", 4, &[0; 4]);
    served(" 0", 1, &[0; 4]);
    served("", 1, &[0; 4]);
}

/// Two blocks on ports 0 and 1, three requests each, return delay 2. Block 0 has phi 1: served in slot 0, it is home at the start of
/// slot 3 and offers again there; its wait begins with that admission. Block 1 takes slot 2.
#[test]
fn two_blocks_with_a_return_delay() {
    let accs = "acc 0 0 0 1 8 1 1 0 1\nacc 1 0 1 4 8 1 1 0 1\n";
    let (tree, trace) = (with_delay(" 2", accs), file("o 0 0 3\no 0 1 3\n"));
    shares(&tree, &[2, 2]);
    let (ending, out) = run(&tree, &trace, 16);
    assert_eq!(ending, Ok(Ending::Done(7)));
    assert_eq!(out[..8], [0, 1, 1, 0, 1, 255, 0, 99]);
    wait(&tree, &trace, 0, 2, Ok((3, 0, &[])));
    wait(&tree, &trace, 1, 3, Ok((0, 4, &[[0, 0], [1, OWN], [1, OWN], [0, 0]])));
    shares(&with_delay("", accs), &[2, 2]);
    let (ending, out) = run(&with_delay("", accs), &trace, 16);
    assert_eq!(ending, Ok(Ending::Done(6)));
    assert_eq!(out[..7], [0, 1, 0, 1, 0, 1, 99]);
}

/// 15 is read, 16 is refused by 2; an empty eleventh field and a twelfth one by 1.
#[test]
fn limits_of_the_return_delay() {
    for (delay, refused) in [("", 0), (" 0", 0), (" 15", 0), (" 16", 2), (" ", 1), (" 1 1", 1), (" -", 1), (" 01", 1)] {
        let tree = with_delay(delay, "acc 0 0 0 4 8 1 1 0 1\n");
        let expected = if refused == 0 { Ok(()) } else { Err(Refused::by(refused, 1)) };
        assert_eq!(razhikum::read_tree(&tree), expected, "{delay:?}");
        assert_eq!(peer::read::read_tree(&tree).map(|_| ()), expected, "{delay:?}");
    }
}

/// "There B is at most 16": 17 is refused by 2 as 257 is on a bus line, where 17 is read. The peer holds what the record was named.
#[test]
fn limits_of_the_burst_length() {
    for (axi, most) in [(Axi::Axi3, 16), (Axi::Axi4, 256)] {
        for beats in (0..=258).chain([65_536, 9_999_999_999]) {
            let tree = nominal_tree(axi, beats);
            let expected = if (1..=most).contains(&beats) { Ok(()) } else { Err(Refused::by(2, 1)) };
            assert_eq!(razhikum::read_tree(&tree), expected, "B {beats}");
            let read = read_tree(&tree);
            assert_eq!(read.as_ref().map(|_| ()).map_err(|e| *e), expected, "B {beats}");
            if let Ok(tree) = read {
                assert_eq!((tree.bus.axi, tree.bus.burst), (axi, beats));
            }
        }
    }
}

/// Reports, runs, waits and bounds do not depend on the name of the bus record, and the peer's tree differs in nothing else.
#[test]
fn the_record_name_changes_no_figure() {
    let accs = "acc 0 0 0 4 8 1 1 0 1\nacc 1 1 0 4 8 1 1 0 1\nacc 2 2 0 4 8 1 1 0 1\nacc 3 2 1 4 8 1 1 0 1\n";
    let nested = file(&format!("{BUS}int 1 0 1 1\nint 2 1 1 1\n{accs}"));
    let trace = file("o 0 0 4\no 0 1 2\no 0 2 1\no 0 3 1\n");
    for tree in [nested, apart(""), apart(" 2"), apart(" 15")] {
        let other = renamed(&tree);
        assert!(tree.starts_with(b"bus\t") && other.starts_with(b"bus3\t"));
        for a in 0..4 {
            assert_eq!(bound(&tree, a), bound(&other, a));
        }
        let reports = [&tree, &other].map(|tree| {
            let (mut page, mut text) = (Box::new([0; PAGE]), Vec::new());
            assert_eq!(peer::report::report(tree, &mut text), Ok(()));
            assert_eq!(razhikum::report(tree, &mut page), Ok(&text[..]));
            text
        });
        assert_eq!(reports[0], reports[1]);
        for channel in Channel::BOTH {
            assert_eq!(run_on(&tree, channel, &trace, 16), run_on(&other, channel, &trace, 16));
            for (a, number) in [(0, 1), (0, 2), (1, 2), (2, 1), (3, 1), (4, 1)] {
                let mut rooms = [[99; 64]; 2];
                let [ours, theirs] = &mut rooms;
                let wait = razhikum::why(&tree, channel, &trace, a, number, ours);
                assert_eq!(wait, razhikum::why(&other, channel, &trace, a, number, theirs));
                assert_eq!(rooms[0], rooms[1]);
            }
        }
        let [tree, other] = [tree, other].map(|tree| read_tree(&tree).expect("a sound tree"));
        assert_ne!(tree, other);
        let bus = peer::read::Bus { axi: Axi::Axi3, ..tree.bus };
        assert_eq!(Tree { bus, ..tree }, other);
    }
}

fn is_written_in(tree: &[u8], room: usize, expected: Result<&[u8], Refused>) {
    let (mut out, mut other) = (vec![99; room], vec![99; room]);
    assert_eq!(razhikum::rewrite(tree, &mut out), expected);
    assert_eq!(peer::write::rewrite(tree, &mut other), expected);
    let written = expected.map_or(0, <[u8]>::len);
    assert!(out[written..].iter().all(|&b| b == 99));
    assert_eq!(out, other);
}

/// By library and peer, in buffers of every length about that of the text and about the limit. The text is written as it is.
fn is_written(tree: &[u8], text: &[u8]) {
    for tree in [tree, text] {
        for room in (0..text.len() + 3).chain([TREE_TEXT, LIMIT - 1, LIMIT, LIMIT + 1]) {
            let expected = match room {
                _ if room < text.len() => Err(Refused::by(13, 0)),
                _ if room > LIMIT => Err(Refused::by(2, 0)),
                _ => Ok(text),
            };
            is_written_in(tree, room, expected);
        }
    }
}

/// Interconnect before port, and neither the accelerator's number nor the order of the file.
#[test]
fn a_tree_written_back() {
    let ints = "int 1 0 7 16\nint 2 0 0 3\n";
    let [a, b, c, d] =
        ["acc 0 1 7 1 1 0 0 0 1\n", "acc 1 2 3 4 8 1 1 0 1\n", "acc 2 1 0 4 8 1 1 0 1\n", "acc 3 0 1 4 8 1 1 0 1\n"];
    let by_place = format!("{ints}{d}{c}{a}{b}");
    for accs in [[a, b, c, d], [d, c, b, a], [b, a, d, c], [d, c, a, b]] {
        let accs = format!("{ints}{}", accs.concat());
        for (delay, kept) in [("", ""), (" 0", ""), (" 1", " 1"), (" 15", " 15")] {
            is_written(&with_delay(delay, &accs), &with_delay(kept, &by_place));
            // "The writer keeps the record name."
            is_written(&renamed(&with_delay(delay, &accs)), &renamed(&with_delay(kept, &by_place)));
        }
    }
}

/// No text is longer than `TREE_TEXT` bytes, and one of each name of the bus record has as many.
#[test]
fn the_longest_text() {
    for axi in Axi::BOTH {
        let tree = longest_tree(axi);
        let text = peer::write::tree_text(&peer::read::read_tree(&tree).expect("a sound tree"));
        assert_eq!(text.len(), TREE_TEXT);
        assert_ne!(text, tree);
        is_written(&tree, &text);
    }
}

/// A refused tree comes before the size of the buffer, and a buffer of any size stays as it was.
#[test]
fn refused_trees_are_not_written() {
    let tree = file(&format!("{BUS}acc 0 0 0 17 8 1 1 0 1\n"));
    for room in [0, 1, TREE_TEXT, LIMIT, LIMIT + 1] {
        is_written_in(&tree, room, Err(Refused::by(2, 3)));
        is_written_in(b"", room, Err(Refused::by(3, 1)));
    }
}

/// One interconnect, g 2: accelerator 0 reads and writes, 1 only reads, 2 only writes, 3 does neither. Capacities are 4, 4, 0, 0 for reads and
/// 4, 0, 1, 0 for writes.
fn apart(delay: &str) -> Vec<u8> {
    let accs = "acc 0 0 0 4 8 10 5 0 2000\nacc 1 0 1 4 8 1 0 0 100\nacc 2 0 2 1 8 0 3 0 1000\nacc 3 0 3 4 8 0 0 0 1\n";
    file(&format!("bus 16 1 4 2 2 30 25 1 1 16{delay}\nint 0 - - 2\n{accs}"))
}

#[test]
fn channels_apart() {
    let tree = apart("");
    shares_apart(&tree, &[(3, 2), (3, 4), (5, 3), (5, 4)]);
    let of_0 = bound(&tree, 0);
    assert_eq!((of_0.yr, of_0.yw, of_0.response, of_0.meets), (20, 5, 4_122, false));
    let trace = file("o 0 0 2\no 0 1 2\no 0 2 1\no 0 3 1\n");
    let idle = [IDLE; 4];
    let (ending, out) = run_on(&tree, Read, &trace, 8);
    assert_eq!((ending, &out[..]), (Ok(Ending::Stopped(8)), &[&[0, 0, 1, 1], &idle[..]].concat()[..]));
    let (ending, out) = run_on(&tree, Write, &trace, 7);
    assert_eq!((ending, &out[..]), (Ok(Ending::Stopped(7)), &[&[0, 0, 2], &idle[..]].concat()[..]));
    wait_on(&tree, Read, &trace, 1, 2, Ok((0, 3, &[[0, 0], [0, 0], [1, OWN]])));
    wait_on(&tree, Write, &trace, 2, 1, Ok((0, 2, &[[0, 0], [0, 0]])));
    for (channel, a) in [(Write, 1), (Read, 2), (Read, 3), (Write, 3)] {
        wait_on(&tree, channel, &trace, a, 1, Err(Refused::by(12, 0)));
    }
    let of_reads = file("o 0 0 2\no 0 1 2\n");
    assert_eq!(run_on(&tree, Read, &of_reads, 8).0, Ok(Ending::Done(4)));
    assert_eq!(run_on(&tree, Write, &of_reads, 8).0, Ok(Ending::Stopped(8)));
    // In a buffer of 0 bytes, and where the slot of the line does not come.
    assert_eq!(run_on(&tree, Write, &of_reads, 0).0, Ok(Ending::Stopped(0)));
    assert_eq!(run_on(&tree, Read, &file("o 9 3 1\n"), 8), (Ok(Ending::Stopped(8)), vec![IDLE; 8]));
}

/// Two levels: the port of interconnect 1 counts for those beneath it that have the channel in their jobs. Accelerator 0 is on the root, 1
/// (phi 3, only writes) and 2 (phi 2, reads and writes) are beneath; g is 4 and 16.
#[test]
fn shares_beneath_an_interconnect() {
    let ints = BUS.replace("- - 1", "- - 4");
    let accs = "acc 0 0 0 4 8 1 1 0 1\nacc 1 1 0 3 8 0 1 0 1\nacc 2 1 1 2 8 1 1 0 1\n";
    // 0: 1 + min(4, 2), 1 + min(4, 5). 1: (1 + 2) * (1 + 4) on both. 2: (1 + 0) * (1 + 4), (1 + 3) * (1 + 4).
    shares_apart(&file(&format!("{ints}int 1 0 1 16\n{accs}")), &[(3, 5), (15, 15), (5, 20)]);
    // Nobody beneath reads: for the reads of 0 the port counts 0.
    let accs = accs.replace("acc 2 1 1 2 8 1 1", "acc 2 1 1 2 8 0 1");
    shares_apart(&file(&format!("{ints}int 1 0 1 16\n{accs}")), &[(1, 5), (5, 15), (5, 20)]);
}

/// The peer's answer to an offer and to a slot, on a state that stays as it was where it is refused.
fn refused_call(tree: &Tree, state: &State, a: u8) -> [Option<u8>; 2] {
    let (mut offered, mut served) = (state.clone(), state.clone());
    let refusals = [offered.offer(tree, a).err(), served.serve(tree).err()];
    for (refusal, after) in refusals.iter().zip([&offered, &served]) {
        assert!(refusal.is_none() || after == state);
    }
    refusals
}

/// "14 for an offer on a channel where the accelerator has 0 transactions, after 7 and before 8." A state in which such a one has waiting or
/// returning transactions is 11, so that 8 cannot be due there; 9 can, since what was admitted is not looked at.
#[test]
fn refusals_of_single_calls() {
    let tree = read_tree(&apart(" 2")).expect("a sound tree");
    for channel in Channel::BOTH {
        let sound = fresh(&tree, channel);
        assert!(sound.keeps_rules(&tree));
        let without = if channel == Read { 2 } else { 1 };
        let with = 3 - without;
        for (a, refusal) in [(0, None), (with, None), (without, Some(14)), (3, Some(14)), (4, Some(7)), (255, Some(7))]
        {
            assert_eq!(refused_call(&tree, &sound, a), [refusal, None], "accelerator {a} on the {channel} channel");
        }
        let mut used = sound.clone();
        used.admitted[..4].fill(8);
        assert!(used.keeps_rules(&tree));
        for (a, refusal) in [(0, 9), (with, 9), (without, 14), (3, 14), (4, 7)] {
            assert_eq!(refused_call(&tree, &used, a), [Some(refusal), None]);
        }
        let mut over = sound.clone();
        over.admitted[without as usize] = 9;
        assert_eq!(refused_call(&tree, &over, 4), [Some(11); 2]);
        for a in [without, 3] {
            let (mut waiting, mut returning) = (sound.clone(), sound.clone());
            waiting.waiting[a as usize] = 1;
            returning.returning[a as usize] = 2;
            for broken in [waiting, returning] {
                assert!(!broken.keeps_rules(&tree));
                assert_eq!([a, 0, 4].map(|a| refused_call(&tree, &broken, a)), [[Some(11); 2]; 3]);
                // On the other channel it is sound for the one that has a job there, and broken for 3.
                let other = State { channel: if channel == Read { Write } else { Read }, ..broken };
                assert_eq!(other.keeps_rules(&tree), a == without);
            }
        }
        let mut full = sound.clone();
        (full.waiting[0], full.returning[0]) = (2, 6);
        assert_eq!(refused_call(&tree, &full, 0), [Some(8), None]);
        full.admitted[0] = 8;
        assert_eq!(refused_call(&tree, &full, 0), [Some(8), None]);
        let last = State { slot: u32::MAX, ..sound };
        assert_eq!(refused_call(&tree, &last, without), [Some(14), Some(10)]);
    }
}

/// Makes a run as calls from the fresh state: before each slot each accelerator in turn offers what it holds until one is refused. The
/// slots serve what the run says, it is done exactly if nothing is left, and each number by which an offer was refused is added.
fn is_list_of_calls(tree: &Tree, channel: Channel, requests: &[Request], run: &Run, refusals: &mut BTreeSet<u8>) {
    let (Ok(Ending::Done(slots)) | Ok(Ending::Stopped(slots))) = run.0 else {
        panic!("a sound run: {run:?}");
    };
    let mut state = fresh(tree, channel);
    let mut held = vec![0; tree.accelerators.len()];
    let mut left = requests.iter().peekable();
    for &byte in &run.1[..slots as usize] {
        while let Some(request) = left.next_if(|request| request.slot <= state.slot) {
            held[request.accelerator as usize] += u32::from(request.count);
        }
        for (a, held) in (0..).zip(&mut held) {
            while *held > 0 {
                if let Err(refusal) = state.offer(tree, a) {
                    refusals.insert(refusal);
                    break;
                }
                *held -= 1;
            }
        }
        assert_eq!(state.serve(tree).map(|served| served.unwrap_or(IDLE)), Ok(byte));
    }
    let is_done = left.next().is_none() && held.iter().all(|&n| n == 0) && state.waiting == [0; 32];
    assert_eq!(run.0 == Ok(Ending::Done(slots)), is_done);
}

#[test]
fn runs_are_lists_of_calls() {
    let mut random = Random::new(5);
    let mut refusals = BTreeSet::new();
    for _ in 0..4_000 {
        let file = text(&random_tree(&mut random, 6, 12));
        let tree = read_tree(&file).expect("a sound tree");
        let all: Vec<u64> = (0..tree.accelerators.len() as u64).collect();
        let trace = text(&random_trace(&mut random, &all, 20));
        let requests = read_trace(all.len(), &trace).expect("a sound trace");
        for channel in Channel::BOTH {
            let run = run_on(&file, channel, &trace, 60);
            is_list_of_calls(&tree, channel, &requests, &run, &mut refusals);
        }
    }
    assert_eq!(refusals, BTreeSet::from([8, 9, 14]));
}

/// 65,536 bytes are read, one more is refused by 2 with line 0; the 65,536th transaction of one accelerator by 2.
#[test]
fn sizes_and_totals() {
    let tree = file(&format!("{BUS}acc 0 0 0 4 8 1 1 0 1\n"));
    let too_large = Err(FileRefused::Trace(Refused::by(2, 0)));
    let full = file("o 0 0 1\n").repeat(8_192);
    assert_eq!(full.len(), 65_536);
    assert_eq!(run(&tree, &full, 4).0, Ok(Ending::Stopped(4)));
    assert_eq!(run(&tree, &[&full[..], b"\n"].concat(), 4).0, too_large);
    assert_eq!(run(&tree, b"", 65_536).0, Ok(Ending::Done(0)));
    assert_eq!(run(&tree, b"x", 65_537).0, too_large);
    let total = file("o 0 0 16\n").repeat(4_096);
    let over = Refused::by(2, 4_096);
    assert_eq!(run(&tree, &total, 4).0, Err(FileRefused::Trace(over)));
}
