//! A tree written back without reading it: the lines of an accepted file are put in order. A number is written in one way, so they
//! need no other change.
use razhikum::{Refused, LIMIT};

/// How a tree is written back: as document 02 has it, or by a rule that is wrong.
#[derive(Clone, Copy, Debug, PartialEq)]
pub enum Writing {
    AsWritten,
    /// The acc lines stay in the order of the file.
    AsRead,
    ByNumber,
    /// By port, then by interconnect.
    PortFirst,
    /// By the digits of an interconnect: 10 comes before 2.
    ByDigits,
    /// A return delay of 0 is written.
    DelayWritten,
    /// No return delay is written.
    NoDelay,
    /// bus3 is written as bus, as before document 02's item 7.
    NameLost,
    /// The name is bus3 exactly if B is at most 16.
    NameByB,
    WithoutPort7,
    /// The size of the buffer is tested before the tree.
    SizeBeforeTree,
    /// A buffer may have any size.
    AnySize,
    /// A buffer as long as the text is too short.
    RoomForMore,
    /// What fits is written before the buffer is found to be too short.
    CutShort,
    /// The bytes past the text are cleared.
    Cleared,
}

/// The number in this field, from 1, of a line.
fn number(line: &str, field: usize) -> u32 {
    line.split('\t').nth(field).and_then(|digits| digits.parse().ok()).expect("a number")
}

/// What the acc lines are sorted by. Number, interconnect and port are fields 1, 2 and 3.
fn rank(line: &str, writing: Writing) -> (u32, u32) {
    let (a, interconnect, port) = (number(line, 1), number(line, 2), number(line, 3));
    match writing {
        Writing::AsRead => (0, 0),
        Writing::ByNumber => (0, a),
        Writing::PortFirst => (port, interconnect),
        Writing::ByDigits if interconnect > 9 => (1, 100 * interconnect + port),
        _ => (interconnect, port),
    }
}

/// The bus line, with the name that it has. It ends in a 0 only where that is a return delay, since the field before it, B, is at least 1.
fn bus(line: &str, writing: Writing) -> String {
    let short = line.strip_suffix("\t0").unwrap_or(line);
    let (_, rest) = short.split_once('\t').expect("fields");
    let fields: Vec<&str> = short.split('\t').collect();
    match writing {
        Writing::DelayWritten if fields.len() == 11 => format!("{short}\t0"),
        Writing::NoDelay => fields[..11].join("\t"),
        Writing::NameLost => format!("bus\t{rest}"),
        Writing::NameByB if number(line, 10) <= 16 => format!("bus3\t{rest}"),
        Writing::NameByB => format!("bus\t{rest}"),
        _ => short.into(),
    }
}

fn text(file: &[u8], writing: Writing) -> Vec<u8> {
    let file = std::str::from_utf8(file).expect("an accepted file");
    let (mut accs, others): (Vec<&str>, Vec<&str>) = file.lines().partition(|line| line.starts_with("acc"));
    accs.sort_by_key(|line| rank(line, writing));
    accs.retain(|line| writing != Writing::WithoutPort7 || number(line, 3) != 7);
    let mut lines = vec![bus(others[0], writing)];
    lines.extend(others[1..].iter().chain(&accs).map(ToString::to_string));
    (lines.join("\n") + "\n").into_bytes()
}

/// Writes the tree of a file that was read with this answer.
pub fn rewrite(file: &[u8], read: Result<(), Refused>, out: &mut [u8], writing: Writing) -> Result<usize, Refused> {
    let too_long = Err(Refused::by(2, 0));
    let is_too_long = out.len() > LIMIT && writing != Writing::AnySize;
    if is_too_long && writing == Writing::SizeBeforeTree {
        return too_long;
    }
    read?;
    if is_too_long {
        return too_long;
    }
    let text = text(file, writing);
    let written = text.len().min(out.len());
    if out.len() < text.len() + usize::from(writing == Writing::RoomForMore) {
        if writing == Writing::CutShort {
            out.copy_from_slice(&text[..written]);
        }
        return Err(Refused::by(13, 0));
    }
    out[..written].copy_from_slice(&text);
    if writing == Writing::Cleared {
        out[written..].fill(0);
    }
    Ok(written)
}
