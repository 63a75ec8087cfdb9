//! The header `include/razhikum.h`, the archive and this wrapper say the same.
use razhikum::{Cause, Channel, IDLE, LIMIT, OWN, PAGE, PIECES, TREE_TEXT, VERSION};
use std::process::Command;

const HEADER: &str = include_str!("../../include/razhikum.h");

/// The number that the header gives a name, by `#define NAME n` or `NAME = n`.
fn of_header(name: &str) -> u64 {
    let words: Vec<&str> = HEADER.split(|c: char| !c.is_alphanumeric() && c != '_').filter(|w| !w.is_empty()).collect();
    let numbers: Vec<u64> =
        words.windows(2).filter(|pair| pair[0] == name).filter_map(|pair| pair[1].parse().ok()).collect();
    assert_eq!(numbers.len(), 1, "{name} in the header");
    numbers[0]
}

#[test]
fn versions() {
    assert_eq!(razhikum::version(), VERSION);
    assert_eq!(of_header("RAZHIKUM_VERSION"), u64::from(VERSION));
    let [first, second, third] =
        env!("CARGO_PKG_VERSION").split('.').map(|n| n.parse::<u32>().expect("a number")).collect::<Vec<_>>()[..]
    else {
        panic!("three figures");
    };
    assert_eq!(VERSION, 10_000 * first + 100 * second + third);
}

#[test]
fn sizes() {
    assert_eq!(of_header("RAZHIKUM_PAGE"), PAGE as u64);
    assert_eq!(of_header("RAZHIKUM_LIMIT"), LIMIT as u64);
    assert_eq!(of_header("RAZHIKUM_SLOTS"), LIMIT as u64);
    assert_eq!(of_header("RAZHIKUM_TREE_TEXT"), TREE_TEXT as u64);
    assert_eq!(of_header("RAZHIKUM_PIECES"), PIECES as u64);
    assert_eq!(of_header("RAZHIKUM_IDLE"), u64::from(IDLE));
    assert_eq!(of_header("RAZHIKUM_OWN"), u64::from(OWN));
}

#[test]
fn channels() {
    assert_eq!(of_header("RAZHIKUM_READ"), u64::from(Channel::Read.number()));
    assert_eq!(of_header("RAZHIKUM_WRITE"), u64::from(Channel::Write.number()));
}

#[test]
fn causes() {
    let named = [
        ("RAZHIKUM_SHAPE", Cause::Shape),
        ("RAZHIKUM_RANGE", Cause::Range),
        ("RAZHIKUM_ORDER", Cause::Order),
        ("RAZHIKUM_PORT_TAKEN", Cause::PortTaken),
        ("RAZHIKUM_LEVEL", Cause::Level),
        ("RAZHIKUM_FALLING", Cause::Falling),
        ("RAZHIKUM_UNKNOWN", Cause::Unknown),
        ("RAZHIKUM_OUTSTANDING", Cause::Outstanding),
        ("RAZHIKUM_BUDGET", Cause::Budget),
        ("RAZHIKUM_LAST_SLOT", Cause::LastSlot),
        ("RAZHIKUM_BROKEN", Cause::Broken),
        ("RAZHIKUM_NOT_SERVED", Cause::NotServed),
        ("RAZHIKUM_TOO_SHORT", Cause::TooShort),
        ("RAZHIKUM_NO_JOB", Cause::NoJob),
        ("RAZHIKUM_BURST", Cause::Burst),
        // RAZHIKUM_PAGE is the size of a page.
        ("RAZHIKUM_PAGE_CROSSED", Cause::Page),
    ];
    for (number, (name, cause)) in (1..).zip(named) {
        assert_eq!(of_header(name), u64::from(number));
        assert_eq!(Cause::from(number), cause);
    }
    for number in 0..=255 {
        assert_eq!(Cause::from(number).number(), number);
    }
}

/// `bash include/test.sh`: the header as C and C++, the layout, the values, threads, stack, the example.
#[test]
fn from_c() {
    let script = concat!(env!("CARGO_MANIFEST_DIR"), "/../include/test.sh");
    let run = Command::new("bash").args([script, env!("RAZHIKUM_ARCHIVE")]).output().expect("bash");
    assert!(run.status.success(), "{}{}", String::from_utf8_lossy(&run.stdout), String::from_utf8_lossy(&run.stderr));
}
