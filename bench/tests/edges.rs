//! The edge files of crates/readcheck, whose answers the proved program is held to, read by the peer and by the library; and files about
//! the record name bus3.
use razhikum::{FileRefused, Refused, TREE_TEXT};
use razhikum_bench::peer;
use razhikum_bench::peer::read::{read_trace, read_tree, Axi, Request, Tree};

/// A trace is read on the tree of document 01's report, which is the first file.
const TREE: &[u8] = b"bus\t8\t1\t4\t2\t2\t30\t25\t1\t1\t16\nint\t0\t-\t-\t1\n\
acc\t0\t0\t0\t4\t2\t10\t5\t1000\t2000\nacc\t1\t0\t3\t4\t2\t1\t0\t0\t100\n";

fn answer<T>(name: &str, read: Result<T, Refused>, figures: impl Fn(T) -> String) -> String {
    match read.map(figures) {
        Ok(figures) => format!("{name}\taccepted\t{figures}"),
        Err(r) => format!("{name}\trefused\t{}\t{}", r.cause.number(), r.line),
    }
}

/// The interconnects, the accelerators and the return delay of a tree, and its record name where that is bus3.
fn of_tree(tree: Tree) -> String {
    let name = if tree.bus.axi == Axi::Axi3 { "\tbus3" } else { "" };
    format!("{}\t{}\t{}{name}", tree.interconnects.len(), tree.accelerators.len(), tree.bus.delay)
}

/// The requests of a trace and the sum of their counts.
fn of_trace(requests: Vec<Request>) -> String {
    format!("{}\t{}", requests.len(), requests.iter().map(|r| u64::from(r.count)).sum::<u64>())
}

#[test]
fn edge_files() {
    let folder = concat!(env!("CARGO_MANIFEST_DIR"), "/../crates/readcheck");
    let input = std::fs::read(format!("{folder}/stdin")).expect("the edge files");
    let expected = std::fs::read_to_string(format!("{folder}/stdout")).expect("their answers");
    let mut expected = expected.lines();
    let mut rest = &input[..];
    let mut files = 0;
    while !rest.is_empty() {
        let end = rest.iter().position(|&b| b == b'\n').expect("a line");
        let head = std::str::from_utf8(&rest[..end]).expect("plain text");
        let [kind, name, bytes] = head.split('\t').collect::<Vec<_>>()[..] else {
            panic!("three fields: {head}");
        };
        let (file, after) = rest[end + 1..].split_at(bytes.parse().expect("a number"));
        rest = after;
        let line = expected.next().expect("an answer for each file");
        let peer = if kind == "t" {
            assert_eq!(razhikum::read_tree(file), read_tree(file).map(|_| ()), "{name}");
            let (mut out, mut other) = ([99; TREE_TEXT], [99; TREE_TEXT]);
            assert_eq!(razhikum::rewrite(file, &mut out), peer::write::rewrite(file, &mut other), "{name}");
            answer(name, read_tree(file), of_tree)
        } else {
            let read = read_trace(2, file);
            let peer = read.as_ref().map(|_| ()).map_err(|r| FileRefused::Trace(*r));
            assert_eq!(razhikum::read_trace(TREE, file), peer, "{name}");
            answer(name, read, of_trace)
        };
        assert_eq!(peer, line);
        files += 1;
    }
    assert!(files > 90, "only {files} files");
}

/// The answer of both readers of trees: the number and the line of a refusal, or 0 and 0. An accepted file, whose lines are in order here,
/// is written back as it is.
fn answered(file: &[u8]) -> (u8, u32) {
    let read = razhikum::read_tree(file);
    assert_eq!(read, read_tree(file).map(|_| ()));
    let (mut out, mut other) = ([99; TREE_TEXT], [99; TREE_TEXT]);
    assert_eq!(razhikum::rewrite(file, &mut out), read.map(|()| file));
    assert_eq!(peer::write::rewrite(file, &mut other), read.map(|()| file));
    read.err().map_or((0, 0), |refused| (refused.cause.number(), refused.line))
}

/// "bus3 is a record name beside bus, with its fields and its place": names that are neither, B about both limits, the return delay, a
/// second bus line of either name, a bus line in another place.
#[test]
fn files_about_bus3() {
    const INT: &str = "int 0 - - 1\n";
    const REST: &str = "int 0 - - 1\nacc 0 0 0 4 2 10 5 1000 2000\n";
    let line = |name: &str, end: &str| format!("{name}\t8\t1\t4\t2\t2\t30\t25\t1\t1\t{end}\n");
    let answer = |spaced: &[&str]| {
        let lines: Vec<String> = spaced.iter().map(|part| part.replace(' ', "\t")).collect();
        answered(lines.concat().as_bytes())
    };
    let first = |name, end| answered(format!("{}{}", line(name, end), REST.replace(' ', "\t")).as_bytes());

    let names =
        ["bus33", "bus30", "bus03", "bus2", "bus4", "bus ", "bus 3", "bus3 ", " bus3", "BUS3", "Bus3", "bus\r3"];
    for name in names.into_iter().chain(["bus3\0", "bu3", "3bus", "bus-3", "3", "buss", "axi3", ""]) {
        for end in ["16", "16\t0", "17", "257"] {
            assert_eq!(first(name, end), (1, 1), "{name:?} with {end}");
        }
    }
    for (end, on_bus3, on_bus) in [
        ("0", 2, 2),
        ("1", 0, 0),
        ("15", 0, 0),
        ("16", 0, 0),
        ("17", 2, 0),
        ("255", 2, 0),
        ("256", 2, 0),
        ("257", 2, 2),
        ("9999999999", 2, 2),
        ("016", 1, 1),
        ("-", 1, 1),
        ("", 1, 1),
        ("16\t1", 0, 0),
        ("16\t15", 0, 0),
        ("16\t16", 2, 2),
        ("17\t15", 2, 0),
        ("16\t", 1, 1),
        ("17\t", 1, 1),
        ("17\t01", 1, 1),
        ("16\t1\t1", 1, 1),
        ("17\t1\t1", 1, 1),
        ("16\r", 1, 1),
    ] {
        let at = |number| (number, u32::from(number > 0));
        assert_eq!([first("bus3", end), first("bus", end)], [at(on_bus3), at(on_bus)], "{end:?}");
    }
    // Nine fields, none, and no LF; a missing LF comes before the limit.
    assert_eq!(answer(&["bus3 8 1 4 2 2 30 25 1 1\n", REST]), (1, 1));
    assert_eq!(answer(&["bus3\n", REST]), (1, 1));
    assert_eq!([answer(&["bus3"]), answer(&["bus3 8 1 4 2 2 30 25 1 1 17"])], [(1, 1); 2]);
    assert_eq!(answer(&[&line("bus3", "16")]), (3, 2));
    assert_eq!(answer(&[&line("bus3", "16"), INT]), (3, 3));

    // A second bus line of either name is 3, wherever it comes; its shape and its limits come before.
    for (one, other) in [("bus", "bus"), ("bus", "bus3"), ("bus3", "bus"), ("bus3", "bus3")] {
        let (one, other) = (|end| line(one, end), |end| line(other, end));
        assert_eq!(answer(&[&one("16"), &other("16"), REST]), (3, 2));
        assert_eq!(answer(&[&one("16"), &other("16\t15"), REST]), (3, 2));
        assert_eq!(answer(&[&one("16"), &other("1"), REST]), (3, 2));
        assert_eq!(answer(&[&one("16"), INT, &other("16"), REST]), (3, 3));
        assert_eq!(answer(&[&one("16"), REST, &other("16")]), (3, 4));
        assert_eq!(answer(&[&one("16"), &other("257"), REST]), (2, 2));
        assert_eq!(answer(&[&one("16"), &other("16\t"), REST]), (1, 2));
        // Before any bus line nothing may come.
        assert_eq!(answer(&[REST, &other("16")]), (3, 1));
    }
    let second = |end| answer(&[&line("bus", "256"), &line("bus3", end), REST]);
    assert_eq!([second("16"), second("17"), second("256")], [(3, 2), (2, 2), (2, 2)]);
    let second = |end| answer(&[&line("bus3", "16"), &line("bus", end), REST]);
    assert_eq!([second("16"), second("17"), second("256"), second("257")], [(3, 2), (3, 2), (3, 2), (2, 2)]);
    assert_eq!(answer(&[&line("bus3", "16"), &line("bus33", "16"), REST]), (1, 2));
    assert_eq!(answer(&[&line("bus3", "17"), &line("bus33", "16"), REST]), (2, 1));
}

/// A trace has no bus line of either name; on a tree that begins with bus3 it is read as on another.
#[test]
fn traces_and_bus3() {
    let tree3 = [b"bus3", &TREE[3..]].concat();
    for (trace, refused) in [
        ("", None),
        ("o\t0\t0\t1\n", None),
        ("bus3\t0\t0\t1\n", Some((1, 1))),
        ("bus\t0\t0\t1\n", Some((1, 1))),
        ("o3\t0\t0\t1\n", Some((1, 1))),
        ("o\t0\t0\t1\nbus3\t8\t1\t4\t2\t2\t30\t25\t1\t1\t16\n", Some((1, 2))),
        ("o\t0\t0\t17\nbus3\t0\t0\t1\n", Some((2, 1))),
        ("o\t0\t2\t1\n", Some((7, 1))),
    ] {
        let refused = refused.map_or(Ok(()), |(number, line)| Err(Refused::by(number, line)));
        assert_eq!(read_trace(2, trace.as_bytes()).map(|_| ()), refused);
        for tree in [TREE, &tree3] {
            assert_eq!(razhikum::read_trace(tree, trace.as_bytes()), refused.map_err(FileRefused::Trace));
        }
    }
}
