//! Each function on accepted and refused files, with figures worked out by hand from `docs/MODEL.md`.
use razhikum::{
    bound, count, read_trace, read_tree, report, rewrite, run, split, why, Bound, Burst, Cause, Channel, Ending,
    FileRefused, Joiner, Joining, Refused, Wait, WaitRefused, IDLE, LIMIT, OWN, PAGE, PIECES, TREE_TEXT,
};
use Channel::{Read, Write};

const SMALL: &str = "bus 8 1 4 2 2 30 25 1 1 16\nint 0 - - 1\nacc 0 0 0 4 2 10 5 1000 2000\nacc 1 0 3 4 2 1 0 0 100\n";

/// A file with spaces for tabs.
fn file(spaced: &str) -> Vec<u8> {
    spaced.replace(' ', "\t").into_bytes()
}

fn example(name: &str) -> Vec<u8> {
    std::fs::read(format!("{}/../examples/{name}", env!("CARGO_MANIFEST_DIR"))).expect(name)
}

#[test]
fn bounds_of_an_example() {
    let tree = example("scanner30.tree");
    assert_eq!(count(&tree), Ok(3));
    let camera = Bound { level: 2, sr: 3, sw: 5, yr: 160, yw: 0, response: 26_272, period: 30_000, meets: true };
    let laser = Bound { level: 1, sr: 3, sw: 3, yr: 16, yw: 0, response: 7_692, period: 20_000, meets: true };
    let map = Bound { level: 2, sr: 15, sw: 1, yr: 0, yw: 0, response: 7_824, period: 100_000, meets: true };
    assert_eq!([bound(&tree, 0), bound(&tree, 1), bound(&tree, 2)], [Ok(camera), Ok(laser), Ok(map)]);
    assert_eq!(bound(&tree, 3), Err(Refused { cause: Cause::Unknown, line: 0 }));
}

/// The same scanner with a map that also reads: it counts in the read shares of the others, and the camera is late.
#[test]
fn bounds_with_a_map_that_reads() {
    let tree = example("scanner30-readback.tree");
    let camera = Bound { level: 2, sr: 15, sw: 5, yr: 1120, yw: 0, response: 71_392, period: 30_000, meets: false };
    let laser = Bound { level: 1, sr: 3, sw: 3, yr: 16, yw: 0, response: 7_692, period: 20_000, meets: true };
    let map = Bound { level: 2, sr: 15, sw: 1, yr: 336, yw: 0, response: 31_048, period: 100_000, meets: true };
    assert_eq!([bound(&tree, 0), bound(&tree, 1), bound(&tree, 2)], [Ok(camera), Ok(laser), Ok(map)]);
}

/// The wait for new windows: one block with budget 1 in windows of 100 slots is served once in each of ten, so that its ten reads take 901
/// slots of 47 cycles. The response was 10 x 53 before it counted the windows, which said that a period of 40,000 is met.
#[test]
fn a_job_held_at_window_edges() {
    let tree = |period| file(&format!("bus 100 1 4 2 2 30 25 1 1 16\nint 0 - - 1\nacc 0 0 0 4 1 10 0 0 {period}\n"));
    for (period, meets) in [(530, false), (40_000, false), (47_529, false), (47_530, true)] {
        let expected = Bound { level: 1, sr: 1, sw: 1, yr: 0, yw: 0, response: 47_530, period, meets };
        assert_eq!(bound(&tree(period), 0), Ok(expected));
    }
    let (mut out, period) = ([99; 1_000], 40_000);
    assert_eq!(run(&tree(period), Read, &file("o 0 0 10\n"), &mut out), Ok(Ending::Done(901)));
    let served: Vec<u64> = (0..1_000).filter(|&slot| out[slot as usize] == 0).collect();
    assert_eq!(served, (0..10).map(|window| 100 * window).collect::<Vec<_>>());
    assert!((served[9] + 1) * 47 > period);
}

/// What a job of so many reads and writes adds for windows of 8 slots: by each budget, none where it has none. The block is alone, so that
/// each read takes 53 cycles and each write 49.
#[test]
fn windows_in_the_response() {
    for (reads, writes, budget, windows) in [
        (0, 0, 1, (0, 0)),
        (1, 0, 1_024, (1, 0)),
        (0, 1, 1, (0, 1)),
        (7, 8, 8, (1, 1)),
        (9, 16, 8, (2, 2)),
        (17, 5, 8, (3, 1)),
        (65_535, 65_535, 1_024, (64, 64)),
        (65_535, 65_535, 1, (65_535, 65_535)),
    ] {
        let acc = format!("acc 0 0 0 4 {budget} {reads} {writes} 7 1\n");
        let tree = file(&format!("bus 8 1 4 2 2 30 25 1 1 16\nint 0 - - 1\n{acc}"));
        let expected = 7 + 53 * reads + 49 * writes + windows.0 * 8 * 47 + windows.1 * 8 * 43;
        assert_eq!(bound(&tree, 0).map(|b| b.response), Ok(expected), "{acc}");
    }
}

/// Share 4 on level 2, 10 reads, 5 writes, C 1,000 (`docs/MODEL.md`, M80).
#[test]
fn a_response_of_two_channels() {
    for (period, meets) in [(6_112, true), (6_111, false)] {
        let tree = file(&format!(
            "bus 16 1 4 2 2 30 25 1 1 16\nint 0 - - 1\nint 1 0 1 1\nacc 0 0 0 4 8 1 1 0 1\n\
             acc 1 1 0 4 8 10 5 1000 {period}\nacc 2 1 1 4 8 1 1 0 1\n"
        ));
        let expected = Bound { level: 2, sr: 4, sw: 4, yr: 30, yw: 15, response: 6_112, period, meets };
        assert_eq!(bound(&tree, 1), Ok(expected));
    }
}

#[test]
fn a_report_and_the_bytes_past_it() {
    let mut page = Box::new([99; PAGE]);
    let text = file(
        "acc level sr sw yr yw resp period verdict\n0 1 2 1 10 0 5157 2000 late\n1 1 2 2 1 0 476 100 late\nall late\n",
    );
    assert_eq!(report(&file(SMALL), &mut page), Ok(&text[..]));
    assert!(page[text.len()..].iter().all(|&b| b == 99));
}

#[test]
fn a_refused_report_leaves_the_page() {
    let mut page = Box::new([99; PAGE]);
    let refused = Refused { cause: Cause::Order, line: 1 };
    assert_eq!(report(b"", &mut page), Err(refused));
    assert!(page.iter().all(|&b| b == 99));
    assert_eq!((read_tree(b""), count(b""), bound(b"", 0)), (Err(refused), Err(refused), Err(refused)));
}

/// The tree is written back as `text`, in buffers of its own length and longer, and so is the text itself. A byte less is too short.
fn is_written(tree: &[u8], text: &[u8]) {
    for tree in [tree, text] {
        for room in [text.len(), text.len() + 1, TREE_TEXT, LIMIT] {
            let mut out = vec![99; room];
            assert_eq!(rewrite(tree, &mut out), Ok(text));
            assert!(out[text.len()..].iter().all(|&b| b == 99));
        }
        for (room, cause) in [(text.len() - 1, Cause::TooShort), (0, Cause::TooShort), (LIMIT + 1, Cause::Range)] {
            let mut out = vec![99; room];
            assert_eq!(rewrite(tree, &mut out), Err(Refused { cause, line: 0 }));
            assert!(out.iter().all(|&b| b == 99));
        }
    }
}

/// By interconnect, then by port, and not by number; an interconnect or an accelerator on port 7; a return delay of 0 goes.
#[test]
fn trees_written_back() {
    let tree = |delay, accs: [&str; 4]| {
        let ints = "int 0 - - 1\nint 1 0 7 16\nint 2 0 0 3\n";
        file(&format!("bus 8 1 4 2 2 30 25 1 1 16{delay}\n{ints}{}", accs.concat()))
    };
    let accs = [
        "acc 0 1 7 1 1 0 0 0 1\n",
        "acc 1 2 3 4 2 10 5 1000 2000\n",
        "acc 2 1 0 16 1024 65535 65535 4294967295 4294967295\n",
        "acc 3 0 1 4 2 1 0 0 100\n",
    ];
    let by_place = [accs[3], accs[2], accs[0], accs[1]];
    is_written(&tree(" 0", accs), &tree("", by_place));
    is_written(&tree("", [accs[1], accs[0], accs[3], accs[2]]), &tree("", by_place));
    is_written(&tree(" 15", accs), &tree(" 15", by_place));
    is_written(&example("layout.tree"), &example("layout.written"));
    is_written(&example("scanner30.tree"), &example("layout.written"));
}

#[test]
fn a_refused_tree_is_not_written() {
    for room in [0, TREE_TEXT, LIMIT + 1] {
        let mut out = vec![99; room];
        assert_eq!(rewrite(b"", &mut out), Err(Refused { cause: Cause::Order, line: 1 }));
        assert!(out.iter().all(|&b| b == 99));
    }
}

#[test]
fn runs() {
    let (tree, trace) = (file(SMALL), file("o 0 0 2\no 0 1 1\n"));
    assert_eq!(read_trace(&tree, &trace), Ok(()));
    let mut out = [99; 4];
    assert_eq!(run(&tree, Read, &trace, &mut out), Ok(Ending::Done(3)));
    assert_eq!(out, [0, 1, 0, 99]);
    assert_eq!(run(&tree, Read, &trace, &mut out[..2]), Ok(Ending::Stopped(2)));
    for channel in Channel::BOTH {
        let falling = FileRefused::Trace(Refused { cause: Cause::Falling, line: 2 });
        assert_eq!(run(&tree, channel, &file("o 5 0 1\no 4 0 1\n"), &mut out), Err(falling));
        let too_large = FileRefused::Trace(Refused { cause: Cause::Range, line: 0 });
        assert_eq!(run(&tree, channel, &trace, &mut vec![0; LIMIT + 1]), Err(too_large));
        let no_tree = FileRefused::Tree(Refused { cause: Cause::Order, line: 1 });
        assert_eq!((read_trace(b"", &trace), run(b"", channel, &trace, &mut out)), (Err(no_tree), Err(no_tree)));
    }
    assert_eq!(out, [0, 1, 0, 99]);
}

/// Four accelerators on one interconnect with g 2: 0 reads and writes, 1 only reads, 2 only writes, 3 does neither. Of those without a
/// job on the channel nothing is admitted, and the others are served as if they were not there.
#[test]
fn channels() {
    let tree = file(
        "bus 8 1 4 2 2 30 25 1 1 16\nint 0 - - 2\nacc 0 0 0 4 8 10 5 0 2000\nacc 1 0 1 4 8 1 0 0 100\n\
         acc 2 0 2 1 8 0 3 0 1000\nacc 3 0 3 4 8 0 0 0 1\n",
    );
    let shares = [0, 1, 2, 3].map(|a| bound(&tree, a).map(|b| (b.sr, b.sw)));
    assert_eq!(shares, [Ok((3, 2)), Ok((3, 4)), Ok((5, 3)), Ok((5, 4))]);
    let served = |channel, trace: &str| {
        let mut out = [99; 6];
        (run(&tree, channel, &file(trace), &mut out), out)
    };
    let of_1 = "o 0 0 2\no 0 1 2\n";
    assert_eq!(served(Read, of_1), (Ok(Ending::Done(4)), [0, 0, 1, 1, 99, 99]));
    assert_eq!(served(Write, of_1), (Ok(Ending::Stopped(6)), [0, 0, IDLE, IDLE, IDLE, IDLE]));
    let of_2 = "o 0 0 2\no 0 2 1\n";
    assert_eq!(served(Read, of_2), (Ok(Ending::Stopped(6)), [0, 0, IDLE, IDLE, IDLE, IDLE]));
    assert_eq!(served(Write, of_2), (Ok(Ending::Done(3)), [0, 0, 2, 99, 99, 99]));
    let of_all = "o 0 0 2\no 0 1 2\no 0 2 1\no 0 3 1\n";
    assert_eq!(read_trace(&tree, &file(of_all)), Ok(()));
    assert_eq!(served(Read, of_all), (Ok(Ending::Stopped(6)), [0, 0, 1, 1, IDLE, IDLE]));
    assert_eq!(served(Write, of_all), (Ok(Ending::Stopped(6)), [0, 0, 2, IDLE, IDLE, IDLE]));

    let mut out = [99; 8];
    let not_served = Err(WaitRefused::Call(Refused { cause: Cause::NotServed, line: 0 }));
    for (channel, a) in [(Write, 1), (Read, 2), (Read, 3), (Write, 3)] {
        assert_eq!(why(&tree, channel, &file(of_all), a, 1, &mut out), not_served);
    }
    assert_eq!(out, [99; 8]);
    let waited = Wait { count: 2, slot: 0, pairs: &[[0, 0], [0, 0]] };
    for (channel, a) in [(Read, 1), (Write, 2)] {
        assert_eq!(why(&tree, channel, &file(of_all), a, 1, &mut out), Ok(waited));
    }
}

/// The map of an example never reads, so a trace of reads that asks for it is stopped; where it does read, the same trace is done.
#[test]
fn a_map_that_does_not_read() {
    let ended = |tree, channel, trace| {
        let mut out = vec![99; LIMIT];
        (run(&example(tree), channel, &example(trace), &mut out), out.iter().filter(|&&b| b == 2).count())
    };
    let stopped = Ok(Ending::Stopped(LIMIT as u32));
    assert_eq!(ended("scanner30.tree", Read, "scanner30-readback-read.trace"), (stopped, 0));
    assert_eq!(ended("scanner30-readback.tree", Read, "scanner30-readback-read.trace"), (Ok(Ending::Done(432)), 72));
    assert_eq!(ended("scanner30.tree", Write, "scanner30-write.trace"), (Ok(Ending::Done(344)), 72));
    assert_eq!(ended("scanner30-readback.tree", Write, "scanner30-write.trace"), (Ok(Ending::Done(344)), 72));
    assert_eq!(ended("scanner30.tree", Write, "scanner30-read.trace"), (stopped, 0));
}

/// Two accelerators with phi 1 and 4 (`docs/MODEL.md`, M95): with a return delay of 2 the first offers again in slots 3 and 6.
#[test]
fn runs_with_a_return_delay() {
    let tree = |delay| {
        file(&format!(
            "bus 16 1 4 2 2 30 25 1 1 16{delay}\nint 0 - - 1\nacc 0 0 0 1 8 1 1 0 1\nacc 1 0 1 4 8 1 1 0 1\n"
        ))
    };
    let trace = file("o 0 0 3\no 0 1 3\n");
    let served = |delay| {
        let mut out = [99; 8];
        (run(&tree(delay), Read, &trace, &mut out), out)
    };
    assert_eq!(served(" 2"), (Ok(Ending::Done(7)), [0, 1, 1, 0, 1, IDLE, 0, 99]));
    assert_eq!(served(" 0"), (Ok(Ending::Done(6)), [0, 1, 0, 1, 0, 1, 99, 99]));
    assert_eq!(served(""), served(" 0"));
    assert_eq!(why(&tree(" 2"), Write, &trace, 0, 2, &mut []), Ok(Wait { count: 0, slot: 3, pairs: &[] }));
    assert_eq!([bound(&tree(" 2"), 0), bound(&tree(" 2"), 1)], [bound(&tree(""), 0), bound(&tree(""), 1)]);
    let refused = |delay| read_tree(&tree(delay)).unwrap_err();
    assert_eq!(refused(" 16"), Refused { cause: Cause::Range, line: 1 });
    assert_eq!([refused(" "), refused(" 1 1")], [Refused { cause: Cause::Shape, line: 1 }; 2]);
}

/// The scanner of the examples on a port with a return delay of 15: the camera's frames end later, and with phi 4 each later than the
/// one before.
#[test]
fn an_example_with_a_return_delay() {
    let trace = example("scanner15-read.trace");
    let frames = |tree: &[u8]| {
        let mut out = vec![99; LIMIT];
        let ending = run(tree, Read, &trace, &mut out);
        let camera: Vec<usize> = (0..LIMIT).filter(|&slot| out[slot] == 0).collect();
        (ending, [camera[39], camera[79], camera[119]])
    };
    assert_eq!(frames(&example("scanner15.tree")), (Ok(Ending::Done(354)), [43, 171, 299]));
    assert_eq!(frames(&example("scanner15-delay15.tree")), (Ok(Ending::Done(354)), [73, 201, 329]));
    assert_eq!(frames(&example("scanner15-delay15-phi4.tree")), (Ok(Ending::Done(470)), [149, 309, 469]));
}

/// Three interconnects beneath each other, four accelerators (`docs/MODEL.md`, M73 and M74): served 0 1 0 2 0 1 0 3.
fn nested() -> (Vec<u8>, Vec<u8>) {
    let tree = "bus 16 1 4 2 2 30 25 1 1 16\nint 0 - - 1\nint 1 0 1 1\nint 2 1 1 1\nacc 0 0 0 4 8 1 1 0 1\n\
                acc 1 1 0 4 8 1 1 0 1\nacc 2 2 0 4 8 1 1 0 1\nacc 3 2 1 4 8 1 1 0 1\n";
    (file(tree), file("o 0 0 4\no 0 1 2\no 0 2 1\no 0 3 1\n"))
}

#[test]
fn waits() {
    let (tree, trace) = nested();
    let last = [[0, 0], [1, 1], [0, 0], [2, 2], [0, 0], [1, 1], [0, 0]];
    let mut out = [99; 20];
    assert_eq!(why(&tree, Read, &trace, 3, 1, &mut out), Ok(Wait { count: 7, slot: 0, pairs: &last }));
    assert_eq!((&out[..14], &out[14..]), (last.as_flattened(), &[99; 6][..]));
    assert_eq!(why(&tree, Read, &trace, 0, 2, &mut out), Ok(Wait { count: 2, slot: 0, pairs: &[[0, OWN], [1, 0]] }));
    assert_eq!(why(&tree, Read, &trace, 0, 1, &mut out), Ok(Wait { count: 0, slot: 0, pairs: &[] }));
    for (room, channel) in (0..=16).flat_map(|room| Channel::BOTH.map(|channel| (room, channel))) {
        let mut out = vec![99; room];
        let listed = (room / 2).min(7);
        let wait = Wait { count: 7, slot: 0, pairs: &last[..listed] };
        assert_eq!(why(&tree, channel, &trace, 3, 1, &mut out), Ok(wait));
        assert!(out[2 * listed..].iter().all(|&b| b == 99));
    }
}

/// The laser's tenth burst of an example waits for two of the camera's and for its own ninth; the camera's 65th is held until the
/// second window, and served in the slot of its admission.
#[test]
fn waits_of_an_example() {
    let (tree, trace) = (example("scanner30.tree"), example("scanner30-read.trace"));
    let mut out = vec![99; LIMIT];
    let laser = Wait { count: 3, slot: 128, pairs: &[[0, 0], [0, 0], [1, OWN]] };
    assert_eq!(why(&tree, Read, &trace, 1, 10, &mut out), Ok(laser));
    assert_eq!(why(&tree, Read, &trace, 0, 65, &mut out), Ok(Wait { count: 0, slot: 128, pairs: &[] }));
    let too_many = WaitRefused::Call(Refused { cause: Cause::NotServed, line: 0 });
    assert_eq!(why(&tree, Read, &trace, 1, 25, &mut out), Err(too_many));
    assert_eq!(why(&tree, Write, &trace, 1, 10, &mut out), Err(too_many));
    assert!(out[6..].iter().all(|&b| b == 99));
}

#[test]
fn refused_waits_leave_the_buffer() {
    let (tree, trace) = nested();
    for channel in Channel::BOTH {
        let mut out = [99; 20];
        let call = |cause| Err(WaitRefused::Call(Refused { cause, line: 0 }));
        for number in [0, 5, u32::MAX] {
            assert_eq!(why(&tree, channel, &trace, 0, number, &mut out), call(Cause::NotServed));
        }
        for accelerator in [4, 32, 255] {
            assert_eq!(why(&tree, channel, &trace, accelerator, 0, &mut out), call(Cause::Unknown));
        }
        let falling = Err(WaitRefused::Trace(Refused { cause: Cause::Falling, line: 2 }));
        assert_eq!(why(&tree, channel, &file("o 5 0 1\no 4 0 1\n"), 4, 0, &mut out), falling);
        let no_tree = Err(WaitRefused::Tree(Refused { cause: Cause::Order, line: 1 }));
        assert_eq!(why(b"", channel, &trace, 4, 0, &mut out), no_tree);
        assert_eq!(out, [99; 20]);
        let mut large = vec![99; LIMIT + 1];
        let too_large = Err(WaitRefused::Trace(Refused { cause: Cause::Range, line: 0 }));
        assert_eq!(why(&tree, channel, b"x", 4, 0, &mut large), too_large);
        assert!(large.iter().all(|&b| b == 99));
    }
}

/// A tree whose nominal burst length is so many beats.
fn nominal(beats: u32) -> Vec<u8> {
    file(&format!("bus 8 1 4 2 2 30 25 1 1 {beats}\nint 0 - - 1\nacc 0 0 0 4 2 1 1 0 1\n"))
}

/// What [`split`] answers, start address and beats of each piece; after them the arrays are 0, and on a refusal as they were.
fn cut(tree: &[u8], start: u32, beats: u32, size: u32) -> Result<Vec<(u32, u32)>, Refused> {
    let (mut starts, mut lengths) = ([99; PIECES], [99; PIECES]);
    let answer = split(tree, Burst { start, beats, size }, &mut starts, &mut lengths).map(|pieces| {
        assert!(pieces.iter().all(|piece| piece.size == size));
        assert_eq!(pieces.iter().len(), pieces.count() as usize);
        assert_eq!(pieces.joiner(), Joiner { pieces: pieces.count(), answered: 0 });
        pieces.iter().map(|piece| (piece.start, piece.beats)).collect::<Vec<_>>()
    });
    let (used, rest) = answer.as_ref().map_or((0, 99), |pieces| (pieces.len(), 0));
    assert!(starts[used..].iter().chain(&lengths[used..]).all(|&entry| entry == rest));
    answer
}

#[test]
fn bursts() {
    let tree = nominal(16);
    assert_eq!(cut(&tree, 5, 40, 4), Ok(vec![(5, 16), (68, 16), (132, 8)]));
    assert_eq!(cut(&tree, 4_096, 32, 1), Ok(vec![(4_096, 16), (4_112, 16)]));
    assert_eq!(cut(&tree, 4_096, 17, 1), Ok(vec![(4_096, 16), (4_112, 1)]));
    assert_eq!(cut(&example("scanner30.tree"), 5, 40, 4), cut(&tree, 5, 40, 4));
    // Source document 004: 256 beats cut to the nominal 16.
    assert_eq!(cut(&tree, 8_192, 256, 4), Ok((0..16).map(|i| (8_192 + 64 * i, 16)).collect()));
    let each = (1..256).map(|i| (4_096 + 16 * i, 1));
    assert_eq!(cut(&nominal(1), 4_097, 256, 16), Ok([(4_097, 1)].into_iter().chain(each).collect()));
    assert_eq!(cut(&nominal(256), 4_097, 256, 8), Ok(vec![(4_097, 256)]));
}

#[test]
fn bursts_at_page_ends() {
    let tree = nominal(256);
    let crosses = Err(Refused { cause: Cause::Page, line: 0 });
    assert_eq!(cut(&tree, 4_090, 3, 2), Ok(vec![(4_090, 3)]));
    assert_eq!(cut(&tree, 4_091, 3, 2), Ok(vec![(4_091, 3)]));
    assert_eq!(cut(&tree, 4_092, 3, 2), crosses);
    assert_eq!(cut(&tree, u32::MAX, 1, 1), Ok(vec![(u32::MAX, 1)]));
    assert_eq!(cut(&tree, u32::MAX, 2, 1), crosses);
    assert_eq!(cut(&tree, u32::MAX - 127, 1, 128), Ok(vec![(u32::MAX - 127, 1)]));
    for size in [1, 2, 4, 8, 16, 32, 64, 128] {
        for page in [0, 0x8000_0000, 0xffff_f000] {
            let most = (4_096 / size).min(256);
            let first = page + (4_096 - most * size);
            for start in [first, first + size - 1] {
                assert_eq!(cut(&tree, start, most, size), Ok(vec![(start, most)]));
                assert_eq!(cut(&tree, start + 1, most, size).is_err(), start + 1 == first + size);
            }
            assert_eq!(cut(&tree, first + size, most, size), crosses);
        }
    }
}

/// The tree comes first, then 15, then 16.
#[test]
fn refused_bursts() {
    let tree = nominal(16);
    let no_burst = Err(Refused { cause: Cause::Burst, line: 0 });
    for (beats, size) in [(0, 1), (257, 1), (u32::MAX, 1), (1, 0), (1, 3), (1, 129), (1, 256), (256, u32::MAX), (0, 0)]
    {
        for start in [0, 4_095, u32::MAX] {
            assert_eq!(cut(&tree, start, beats, size), no_burst);
        }
    }
    for (beats, size) in [(16, 4), (0, 4), (256, 128)] {
        assert_eq!(cut(b"", 4_095, beats, size), Err(Refused { cause: Cause::Order, line: 1 }));
        assert_eq!(cut(&nominal(257), 4_095, beats, size), Err(Refused { cause: Cause::Range, line: 1 }));
    }
}

/// AXI3: the tree of [`nominal`] with the record name bus3.
fn nominal3(beats: u32) -> Vec<u8> {
    [b"bus3", &nominal(beats)[3..]].concat()
}

/// B is at most 16 on a bus3 line: 17 is refused by 2, as 257 is on a bus line. No other name is one, and a second line of either name is
/// out of order.
#[test]
fn trees_of_axi3() {
    let out_of_range = Err(Refused { cause: Cause::Range, line: 1 });
    for beats in 0..=257 {
        let expected = if (1..=16).contains(&beats) { Ok(()) } else { out_of_range };
        assert_eq!(read_tree(&nominal3(beats)), expected);
        assert_eq!(read_tree(&nominal(beats)), if (1..=256).contains(&beats) { Ok(()) } else { out_of_range });
    }
    let read = |tree: &str| read_tree(&file(tree)).map_err(|refused| (refused.cause, refused.line));
    let rest = "8 1 4 2 2 30 25 1 1 16";
    let ends = "int 0 - - 1\nacc 0 0 0 4 2 1 1 0 1\n";
    assert_eq!(read(&format!("bus3 {rest} 15\n{ends}")), Ok(()));
    assert_eq!(read(&format!("bus3 {rest} 16\n{ends}")), Err((Cause::Range, 1)));
    for name in ["bus33", "BUS3", "Bus3", "bus03", "bus4", "bu3", "3"] {
        assert_eq!(read(&format!("{name} {rest}\n{ends}")), Err((Cause::Shape, 1)), "{name}");
    }
    for (one, other) in [("bus", "bus3"), ("bus3", "bus"), ("bus3", "bus3")] {
        assert_eq!(read(&format!("{one} {rest}\n{other} {rest}\n{ends}")), Err((Cause::Order, 2)));
        assert_eq!(read(&format!("{one} {rest}\n{ends}{other} {rest}\n")), Err((Cause::Order, 4)));
    }
    let in_a_trace = read_trace(&nominal3(16), &file("o 0 0 1\nbus3 0 0 1\n"));
    assert_eq!(in_a_trace, Err(FileRefused::Trace(Refused { cause: Cause::Shape, line: 2 })));
}

/// The name is written back as it was read, and nothing else depends on it.
#[test]
fn the_name_bus3_is_kept() {
    let ints = "int 0 - - 1\nint 1 0 7 16\n";
    let (at_0, at_1) = ("acc 1 0 3 4 2 1 0 0 100\n", "acc 0 1 7 4 2 10 5 1000 2000\n");
    let trace = file("o 0 0 2\no 0 1 1\n");
    for (delay, kept) in [("", ""), (" 0", ""), (" 15", " 15")] {
        let tree = |name: &str, delay: &str, accs: [&str; 2]| {
            file(&format!("{name} 8 1 4 2 2 30 25 1 1 16{delay}\n{ints}{}", accs.concat()))
        };
        for name in ["bus", "bus3"] {
            is_written(&tree(name, delay, [at_1, at_0]), &tree(name, kept, [at_0, at_1]));
        }
        let answers = ["bus", "bus3"].map(|name| {
            let tree = tree(name, delay, [at_1, at_0]);
            let (mut page, mut out, mut list) = (Box::new([0; PAGE]), [99; 40], [99; 40]);
            let text = report(&tree, &mut page).expect("a report").to_vec();
            let ending = run(&tree, Read, &trace, &mut out).expect("a run");
            let wait = why(&tree, Read, &trace, 0, 2, &mut list).map(|wait| (wait.count, wait.slot)).expect("a wait");
            (count(&tree), [0, 1, 2].map(|a| bound(&tree, a)), text, ending, out, wait, list)
        });
        assert_eq!(answers[0], answers[1]);
    }
}

/// On bus3 a burst of 16 beats is cut, to any B, and one of 17 is refused by 15, also where it crosses; a joiner knows no tree.
#[test]
fn bursts_of_axi3() {
    let no_burst = Err(Refused { cause: Cause::Burst, line: 0 });
    let crosses = Err(Refused { cause: Cause::Page, line: 0 });
    assert_eq!(cut(&nominal3(16), 5, 16, 4), Ok(vec![(5, 16)]));
    assert_eq!(cut(&nominal3(6), 5, 16, 4), Ok(vec![(5, 6), (28, 6), (52, 4)]));
    assert_eq!(cut(&nominal3(1), 4_080, 16, 1), Ok((0..16).map(|i| (4_080 + i, 1)).collect()));
    for b in 1..=16 {
        let tree = nominal3(b);
        for beats in 1..=16 {
            for start in [0, 5, 4_000, 4_080, 4_096, u32::MAX - 63, u32::MAX] {
                assert_eq!(cut(&tree, start, beats, 4), cut(&nominal(b), start, beats, 4));
            }
        }
        for beats in (17..=257).chain([0, u32::MAX]) {
            for start in [0, 4_090, u32::MAX] {
                assert_eq!(cut(&tree, start, beats, 4), no_burst);
            }
        }
        assert_eq!(
            (cut(&tree, 4_081, 16, 1), cut(&tree, 4_081, 17, 1), cut(&tree, 0, 16, 3)),
            (crosses.clone(), no_burst.clone(), no_burst.clone())
        );
        assert_eq!(cut(&nominal(b), 4_081, 17, 1), crosses);
    }
    assert_eq!(cut(&nominal3(17), 0, 17, 4), Err(Refused { cause: Cause::Range, line: 1 }));
    let mut joiner = Joiner::of(17);
    assert!((1..17).all(|number| joiner.join(number) == Ok(Joining::Taken)));
    assert_eq!(joiner.join(17), Ok(Joining::Done));
}

#[test]
fn joiners() {
    let refused = Err(Refused { cause: Cause::Broken, line: 0 });
    for pieces in 1..=PIECES as u32 {
        let mut joiner = Joiner::of(pieces);
        for number in 1..=pieces {
            for other in (0..=pieces + 1).chain([u32::MAX]).filter(|&other| other != number) {
                let before = joiner;
                assert_eq!((joiner.join(other), joiner), (refused, before));
            }
            let expected = if number == pieces { Joining::Done } else { Joining::Taken };
            assert_eq!((joiner.join(number), joiner), (Ok(expected), Joiner { pieces, answered: number }));
        }
        for number in (0..=pieces + 2).chain([u32::MAX]) {
            assert_eq!((joiner.join(number), joiner.answered), (refused, pieces));
        }
    }
    for (pieces, answered) in [(0, 0), (0, 1), (1, 2), (257, 0), (257, 256), (256, u32::MAX), (u32::MAX, u32::MAX - 1)]
    {
        let broken = Joiner { pieces, answered };
        for number in [0, 1, answered, answered.wrapping_add(1), u32::MAX] {
            let mut joiner = broken;
            assert_eq!((joiner.join(number), joiner), (refused, broken));
        }
    }
}

#[test]
fn refusals_in_words() {
    let refused = bound(&file(SMALL), 2).unwrap_err();
    assert_eq!(refused.to_string(), "refused by 7: no such accelerator");
    let of_trace = read_trace(&file(SMALL), &file("o 0 0 17\n")).unwrap_err();
    assert_eq!(of_trace.to_string(), "trace refused by 2 at line 1: a value, a total or a size outside its limits");
    let of_wait = why(&file(SMALL), Read, b"", 0, 1, &mut []).unwrap_err();
    assert_eq!(of_wait.to_string(), "refused by 12: the run serves no transaction of this number");
    let of_text = rewrite(&file(SMALL), &mut []).unwrap_err();
    assert_eq!(of_text.to_string(), "refused by 13: a buffer shorter than the text");
    let no_job = Refused { cause: Cause::NoJob, line: 0 };
    assert_eq!(no_job.to_string(), "refused by 14: no transactions on this channel in the accelerator's job");
    let of_burst = |beats| {
        let burst = Burst { start: 4_095, beats, size: 1 };
        split(&file(SMALL), burst, &mut [0; PIECES], &mut [0; PIECES]).unwrap_err().to_string()
    };
    let words = "no count of beats from 1 to 256 (on bus3 from 1 to 16), or no beat size of 1, 2, 4 up to 128";
    assert_eq!(of_burst(0), format!("refused by 15: {words}"));
    assert_eq!(of_burst(2), "refused by 16: a burst that crosses a multiple of 4,096 bytes");
    let of_piece = Joiner::of(2).join(2).unwrap_err().to_string();
    let words = "a configuration, a state or a joiner that breaks its rules, or a piece out of turn";
    assert_eq!(of_piece, format!("refused by 11: {words}"));
    assert_eq!(Channel::BOTH.map(|channel| channel.to_string()), ["read", "write"]);
}

/// Threads that run different files at the same time get the answers that each file gets alone.
#[test]
fn threads() {
    let files = ["scanner15", "scanner30", "full"].map(|name| {
        let trace = if name == "full" { "full.trace".into() } else { format!("{name}-read.trace") };
        (example(&format!("{name}.tree")), example(&trace))
    });
    let answers = |(tree, trace): &(Vec<u8>, Vec<u8>)| {
        let mut page = Box::new([0; PAGE]);
        let mut out = vec![0; LIMIT];
        let mut room = [0; TREE_TEXT];
        let written = rewrite(tree, &mut room).expect("a text").to_vec();
        let text = report(tree, &mut page).expect("a report").to_vec();
        let mut list = vec![0; LIMIT];
        let mut wait = |channel, number| why(tree, channel, trace, 1, number, &mut list).map(|w| (w.count, w.slot));
        let waits = Channel::BOTH.map(|channel| [1, 2].map(|number| wait(channel, number)));
        let bounds: Vec<_> = (0..=32).map(|a| bound(tree, a)).collect();
        let runs = Channel::BOTH.map(|channel| (run(tree, channel, trace, &mut out), out.clone()));
        let cuts: Vec<_> = (0..=257).map(|beats| cut(tree, 8_195, beats, 8)).collect();
        (text, written, runs, waits, list, bounds, cuts)
    };
    let alone = files.each_ref().map(answers);
    std::thread::scope(|scope| {
        for _ in 0..4 {
            for (files, alone) in files.iter().zip(&alone) {
                scope.spawn(move || (0..10).for_each(|_| assert!(answers(files) == *alone)));
            }
        }
    });
}
