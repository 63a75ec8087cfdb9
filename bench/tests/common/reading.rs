//! A tree file read as a list of lines, each a list of fields, and each line held against all those before it: plain to see to be right,
//! and slow.
use razhikum::{Refused, LIMIT};

/// How a tree file is read: as the documents have it, or by a rule that is wrong.
#[derive(Clone, Copy, Debug, PartialEq)]
pub enum Reading {
    AsWritten,
    /// bus3 is no record name, as before document 02's item 7.
    NoBus3,
    /// Whatever begins with bus3 is bus3.
    ByBeginning,
    /// BUS3 is bus3.
    AnyCase,
    /// On bus3 B may be 17 and more too, as on bus.
    LongOnBus3,
    /// 16 is the limit of B on every tree: 17 is refused.
    ShortOnBus,
    /// On bus3 a B of 16 is refused.
    To15OnBus3,
    /// On bus3 a B of 17 is let in.
    To17OnBus3,
    /// On bus3 a B over 16 is refused as a burst of so many beats is.
    OverBy15,
    /// A bus3 line has no return delay.
    NoDelayOnBus3,
    /// A second bus line of the other name is let in.
    SecondOfOther,
    /// A second bus line of the other name has the wrong shape.
    SecondOfOtherBy1,
    /// Whether a bus line is the first comes before its limits.
    PlaceFirst,
}

#[derive(Clone, Copy, Debug, PartialEq)]
enum Name {
    Bus,
    Bus3,
    Int,
    Acc,
}

/// A line: its name and its values. "-" is none, and so is what the line has not.
#[derive(Clone, Copy)]
struct Line {
    name: Name,
    values: [Option<u64>; 11],
}

impl Line {
    fn is_bus(&self) -> bool {
        matches!(self.name, Name::Bus | Name::Bus3)
    }

    /// The value of this field, from 1.
    fn field(&self, at: usize) -> Option<u64> {
        self.values[at - 1]
    }

    /// The interconnect and the port that an int or an acc line takes.
    fn place(&self) -> Option<(u64, u64)> {
        (!self.is_bus()).then(|| self.field(2).zip(self.field(3))).flatten()
    }
}

const BUS: [(u64, u64); 11] = [
    (1, 65_535),
    (1, 255),
    (0, 255),
    (0, 255),
    (0, 255),
    (0, 4_095),
    (0, 4_095),
    (1, 255),
    (1, 255),
    (1, 256),
    (0, 15),
];
const INT: [(u64, u64); 4] = [(0, 14), (0, 14), (0, 7), (1, 16)];
const ACC: [(u64, u64); 9] =
    [(0, 31), (0, 14), (0, 7), (1, 16), (1, 1_024), (0, 65_535), (0, 65_535), (0, 4_294_967_295), (1, 4_294_967_295)];

fn name_of(name: &[u8], reading: Reading) -> Option<Name> {
    let is_bus3 = match reading {
        Reading::NoBus3 => false,
        Reading::ByBeginning => name.starts_with(b"bus3"),
        Reading::AnyCase => name.eq_ignore_ascii_case(b"bus3"),
        _ => name == b"bus3",
    };
    match name {
        _ if is_bus3 => Some(Name::Bus3),
        b"bus" => Some(Name::Bus),
        b"int" => Some(Name::Int),
        b"acc" => Some(Name::Acc),
        _ => None,
    }
}

fn number(field: &[u8]) -> Option<u64> {
    let is_sound = (1..=10).contains(&field.len()) && field.iter().all(u8::is_ascii_digit);
    if !is_sound || (field.len() > 1 && field[0] == b'0') {
        return None;
    }
    std::str::from_utf8(field).ok()?.parse().ok()
}

/// The line of these bytes, its LF included; none where the shape is wrong.
fn shaped(bytes: &[u8], reading: Reading) -> Option<Line> {
    let mut fields = bytes.strip_suffix(b"\n")?.split(|&b| b == b'\t');
    let name = name_of(fields.next()?, reading)?;
    let mut line = Line { name, values: [None; 11] };
    let mut count = 0;
    for field in fields {
        let is_dash = field == b"-" && name == Name::Int && (count == 1 || count == 2);
        *line.values.get_mut(count)? = if is_dash { None } else { Some(number(field)?) };
        count += 1;
    }
    let is_whole = match name {
        Name::Bus3 if reading == Reading::NoDelayOnBus3 => count == 10,
        Name::Bus | Name::Bus3 => count == 10 || count == 11,
        Name::Int => count == 4,
        Name::Acc => count == 9,
    };
    is_whole.then_some(line)
}

/// The most that B may be.
fn most_beats(name: Name, reading: Reading) -> u64 {
    match (name, reading) {
        (Name::Bus3, Reading::LongOnBus3) => 256,
        (Name::Bus3, Reading::To15OnBus3) => 15,
        (Name::Bus3, Reading::To17OnBus3) => 17,
        (Name::Bus3, _) | (_, Reading::ShortOnBus) => 16,
        _ => 256,
    }
}

/// What a value outside its limits refuses the line by.
fn outside(line: &Line, reading: Reading) -> Option<u8> {
    let limits: &[(u64, u64)] = match line.name {
        Name::Bus | Name::Bus3 => &BUS,
        Name::Int => &INT,
        Name::Acc => &ACC,
    };
    let is_in = |(value, &(low, high)): (&Option<u64>, &(u64, u64))| value.is_none_or(|v| low <= v && v <= high);
    if !line.values.iter().zip(limits).all(is_in) {
        return Some(2);
    }
    let is_over = line.is_bus() && line.field(10) > Some(most_beats(line.name, reading));
    is_over.then_some(if reading == Reading::OverBy15 { 15 } else { 2 })
}

/// What refuses a bus line that comes after these.
fn misplaced_bus(line: &Line, before: &[Line], reading: Reading) -> Option<u8> {
    let is_second = !before.is_empty();
    let is_other = is_second && before[0].name != line.name;
    match reading {
        Reading::SecondOfOther if is_other => None,
        Reading::SecondOfOtherBy1 if is_other => Some(1),
        _ => is_second.then_some(3),
    }
}

/// How many interconnects there are from the root down to the one of this number.
fn level(interconnect: u64, lines: &[Line]) -> u64 {
    let is_it = |line: &&Line| line.name == Name::Int && line.field(1) == Some(interconnect);
    let parent = lines.iter().find(is_it).and_then(|line| line.field(2));
    1 + parent.map_or(0, |parent| level(parent, lines))
}

/// What refuses an int or an acc line that comes after these, for its order, its port and its level.
fn misplaced(line: &Line, before: &[Line]) -> Option<u8> {
    let count = |name| before.iter().filter(|line| line.name == name).count() as u64;
    let (number, interconnect, port) = (line.field(1)?, line.field(2), line.field(3));
    let is_root = line.name == Name::Int && number == 0;
    let in_order = match line.name {
        Name::Acc => {
            let is_new = !before.iter().any(|other| other.name == Name::Acc && other.field(1) == line.field(1));
            interconnect < Some(count(Name::Int)) && is_new
        }
        _ => {
            let dashes = if is_root { (true, true) } else { (false, false) };
            let comes_next = !before.is_empty() && count(Name::Acc) == 0 && number == count(Name::Int);
            comes_next && (interconnect.is_none(), port.is_none()) == dashes && (is_root || interconnect < Some(number))
        }
    };
    if !in_order {
        return Some(3);
    }
    if !is_root && before.iter().any(|other| other.place() == line.place()) {
        return Some(4);
    }
    let is_too_deep = line.name == Name::Int && !is_root && level(interconnect?, before) == 4;
    is_too_deep.then_some(5)
}

/// What refuses a line that comes after these: "1, then 2 field by field, 3, 4, 5".
fn refusal(line: &Line, before: &[Line], reading: Reading) -> Option<u8> {
    let limits = || outside(line, reading);
    let place = || if line.is_bus() { misplaced_bus(line, before, reading) } else { misplaced(line, before) };
    match reading {
        Reading::PlaceFirst if line.is_bus() => place().or_else(limits),
        _ => limits().or_else(place),
    }
}

/// Whether a record is missing at the end: an accelerator number in a gap too.
fn is_unfinished(lines: &[Line]) -> bool {
    let numbers = || lines.iter().filter(|line| line.name == Name::Acc).filter_map(|line| line.field(1));
    let count = numbers().count() as u64;
    count == 0 || numbers().any(|number| number >= count)
}

/// Whether a tree file is accepted.
pub fn read(file: &[u8], reading: Reading) -> Result<(), Refused> {
    if file.len() > LIMIT {
        return Err(Refused::by(2, 0));
    }
    let mut lines = Vec::new();
    let mut at = 1;
    for bytes in file.split_inclusive(|&b| b == b'\n') {
        let line = shaped(bytes, reading).ok_or(Refused::by(1, at))?;
        if let Some(number) = refusal(&line, &lines, reading) {
            return Err(Refused::by(number, at));
        }
        lines.push(line);
        at += 1;
    }
    if is_unfinished(&lines) {
        return Err(Refused::by(3, at));
    }
    Ok(())
}
