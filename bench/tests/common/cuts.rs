//! A burst cut by listing its beats with their bytes, what document 02 asks of the pieces, and a joiner by listing the numbers to come:
//! plain to see to be right, and slow.
use razhikum::{Burst, Joiner, Joining, Refused, PIECES};
use std::ops::Range;

/// How a burst is cut: as document 02 has it, or by a rule that is wrong.
#[derive(Clone, Copy, Debug, PartialEq)]
pub enum Cutting {
    AsWritten,
    /// The last piece has B beats too.
    AllFull,
    /// The beats that do not fill a piece come first.
    ShortFirst,
    /// The beats that do not fill a piece are left out, if there are others.
    WithoutRest,
    /// A piece without beats comes after beats that fill their pieces.
    EmptyLast,
    /// A later piece starts at so many beats from the start address itself.
    NotRounded,
    /// The first piece starts at the rounded address too.
    FirstRounded,
    /// Pieces end at the addresses that are multiples of their bytes, so the first may be short.
    AtMultiples,
    /// 16 is never given.
    NoPages,
    /// The last byte is counted from the start address itself.
    PageFromStart,
    /// 16 is for more bytes than a page has.
    PageBySize,
    /// A burst that ends with its page crosses.
    PageAtItsEnd,
    /// The addresses after the last one count as the last one.
    PageCutToLast,
    /// A page has 1,024 bytes.
    SmallPages,
    /// 16 comes before 15.
    PageFirst,
    /// Every size from 1 to 128 is one.
    AnySize,
    /// Every power of two is a size.
    LargeSizes,
    /// 128 bytes are no size.
    SizesTo64,
    /// 256 beats are too many.
    BeatsTo255,
    /// 257 beats are not too many.
    BeatsTo257,
    /// Beats are counted in a byte.
    BeatsInByte,
    /// bus3 takes 17 beats and more too, as bus does.
    LongOnBus3,
    /// 16 is the limit on every tree.
    ShortOnBus,
    /// On bus3 16 beats are too many.
    To15OnBus3,
    /// On bus3 17 beats are not too many.
    To17OnBus3,
    /// A burst has at most as many beats as a piece.
    BeatsToB,
    /// More beats than bus3 takes are refused after 16.
    LateOnBus3,
    /// No beats are a burst of one piece without any.
    NoBeats,
    /// 15 and 16 come before the tree's refusals.
    TreeLast,
    /// The entries after the pieces keep their contents.
    RestKept,
    /// A refusal makes every entry 0.
    RefusalClears,
}

/// What a tree says of bursts: the beats of a piece, B, and the most beats of a burst, by the name of its bus record.
#[derive(Clone, Copy, Debug)]
pub struct Lengths {
    pub nominal: u32,
    pub most: u32,
}

impl Lengths {
    pub fn is_bus3(self) -> bool {
        self.most == 16
    }
}

/// The bytes of each beat: of the first from the start address on, of the others all.
pub fn beats_of(burst: Burst) -> Vec<Range<u64>> {
    let (start, size) = (u64::from(burst.start), u64::from(burst.size));
    let low = start - start % size;
    let beat = |j: u64| (low + j * size).max(start)..low + (j + 1) * size;
    (0..burst.beats.into()).map(beat).collect()
}

/// Whether some byte is in another page than the first one.
fn is_on_two_pages(beats: &[Range<u64>], page: u64) -> bool {
    let of = |byte: u64| byte / page;
    beats.iter().any(|beat| of(beat.start) != of(beats[0].start) || of(beat.end - 1) != of(beats[0].start))
}

/// Whether a burst of sound beats and size is refused by 16.
fn crosses(burst: Burst, cutting: Cutting) -> bool {
    let (start, bytes) = (u64::from(burst.start), u64::from(burst.beats) * u64::from(burst.size));
    let last = start - start % u64::from(burst.size) + bytes - 1;
    match cutting {
        Cutting::NoPages => false,
        Cutting::PageFromStart => start / 4_096 != (start + bytes - 1) / 4_096,
        Cutting::PageBySize => bytes > 4_096,
        Cutting::PageAtItsEnd => start / 4_096 != (last + 1) / 4_096,
        Cutting::PageCutToLast => start / 4_096 != last.min(u32::MAX.into()) / 4_096,
        Cutting::SmallPages => is_on_two_pages(&beats_of(burst), 1_024),
        _ => is_on_two_pages(&beats_of(burst), 4_096),
    }
}

/// Whether the bytes that the numbers give, also those of no burst, are on two pages.
pub fn would_cross(burst: Burst) -> bool {
    let [start, beats, size] = [burst.start, burst.beats, burst.size].map(u64::from);
    let end = start - start % size.max(1) + beats * size;
    end.saturating_sub(1).max(start) / 4_096 != start / 4_096
}

fn is_size(size: u32, cutting: Cutting) -> bool {
    match cutting {
        Cutting::AnySize => (1..=128).contains(&size),
        Cutting::LargeSizes => (0..32).any(|k| size == 1 << k),
        Cutting::SizesTo64 => (0..7).any(|k| size == 1 << k),
        _ => (0..8).any(|k| size == 1 << k),
    }
}

fn is_count(beats: u32, lengths: Lengths, cutting: Cutting) -> bool {
    let most = match (cutting, lengths.is_bus3()) {
        (Cutting::BeatsTo255, false) => 255,
        (Cutting::BeatsTo257, false) => 257,
        (Cutting::ShortOnBus, false) => 16,
        (Cutting::To15OnBus3, true) => 15,
        (Cutting::To17OnBus3, true) => 17,
        (Cutting::LongOnBus3 | Cutting::LateOnBus3, true) => 256,
        (Cutting::BeatsToB, _) => lengths.nominal,
        _ => lengths.most,
    };
    (u32::from(cutting != Cutting::NoBeats)..=most).contains(&beats)
}

/// Of how many beats each piece is.
fn lengths(burst: Burst, nominal: u32, cutting: Cutting) -> Vec<u32> {
    let beats: Vec<u32> = (0..burst.beats).collect();
    let mut lengths: Vec<u32> = beats.chunks(nominal as usize).map(|piece| piece.len() as u32).collect();
    let rest = burst.beats % nominal;
    match cutting {
        Cutting::AllFull => lengths.fill(nominal),
        Cutting::ShortFirst => lengths.reverse(),
        Cutting::WithoutRest if lengths.len() > 1 && rest > 0 => drop(lengths.pop()),
        Cutting::EmptyLast if rest == 0 && lengths.len() < PIECES => lengths.push(0),
        Cutting::NoBeats if lengths.is_empty() => lengths.push(0),
        Cutting::AtMultiples => {
            let first = nominal - burst.start / burst.size % nominal;
            let rest = burst.beats.saturating_sub(first);
            lengths = vec![burst.beats - rest];
            lengths.extend((0..rest.div_ceil(nominal)).map(|i| nominal.min(rest - i * nominal)));
        }
        _ => {}
    }
    lengths
}

/// The pieces of a burst that is cut to so many beats.
pub fn pieces(burst: Burst, nominal: u32, cutting: Cutting) -> Vec<Burst> {
    let Burst { start, size, .. } = burst;
    let low = start - start % size;
    let mut before = 0;
    let piece = |beats: u32| {
        let from = if cutting == Cutting::NotRounded { start } else { low };
        let first = before == 0 && cutting != Cutting::FirstRounded;
        let start = if first { start } else { from.wrapping_add(before * size) };
        before += beats;
        Burst { start, beats, size }
    };
    lengths(burst, nominal, cutting).into_iter().map(piece).collect()
}

/// What the splitter answers on a tree that was read with this answer.
fn cut(burst: Burst, tree: Result<Lengths, Refused>, cutting: Cutting) -> Result<Vec<Burst>, Refused> {
    let by = |number| Err(Refused::by(number, 0));
    let lengths = match tree {
        Err(_) if cutting == Cutting::TreeLast => Lengths { nominal: 256, most: 256 },
        _ => tree?,
    };
    let burst = match cutting {
        Cutting::BeatsInByte => Burst { beats: burst.beats % 256, ..burst },
        _ => burst,
    };
    if cutting == Cutting::PageFirst && would_cross(burst) {
        return by(16);
    }
    if !is_count(burst.beats, lengths, cutting) || !is_size(burst.size, cutting) {
        return by(15);
    }
    if burst.beats > 0 && crosses(burst, cutting) {
        return by(16);
    }
    if cutting == Cutting::LateOnBus3 && burst.beats > lengths.most {
        return by(15);
    }
    Ok(pieces(burst, tree?.nominal, cutting))
}

/// An answer with every entry of both arrays: the count of pieces, their start addresses and their beats.
pub type Answer = (Result<u32, Refused>, Vec<u32>, Vec<u32>);

/// The answer where every entry was `filled` before.
pub fn split(burst: Burst, tree: Result<Lengths, Refused>, filled: u32, cutting: Cutting) -> Answer {
    match cut(burst, tree, cutting) {
        Ok(pieces) => {
            let rest = if cutting == Cutting::RestKept { filled } else { 0 };
            let entries = |of: fn(&Burst) -> u32| {
                let mut entries: Vec<u32> = pieces.iter().map(of).collect();
                entries.resize(PIECES, rest);
                entries
            };
            (Ok(pieces.len() as u32), entries(|piece| piece.start), entries(|piece| piece.beats))
        }
        Err(refused) => {
            let left = if cutting == Cutting::RefusalClears { 0 } else { filled };
            (Err(refused), vec![left; PIECES], vec![left; PIECES])
        }
    }
}

/// What document 02 asks of the pieces of a burst that is cut to so many beats, and they do not keep. Each piece is read as a burst of its
/// own.
pub fn broken_demand(burst: Burst, nominal: u32, pieces: &[Burst]) -> Option<&'static str> {
    let whole = beats_of(burst);
    let of_pieces: Vec<Vec<Range<u64>>> = pieces.iter().map(|&piece| beats_of(piece)).collect();
    let Some((last, others)) = pieces.split_last() else {
        return Some("there is a piece");
    };
    let demands = [
        ("each piece but the last has B beats", others.iter().all(|piece| piece.beats == nominal)),
        ("the last has 1 to B", (1..=nominal).contains(&last.beats)),
        ("ceil(beats / B) pieces", pieces.len() == whole.chunks(nominal as usize).count()),
        ("the beats total those of the burst", of_pieces.iter().map(Vec::len).sum::<usize>() == whole.len()),
        ("the first piece keeps the start address", pieces[0].start == burst.start),
        ("each beat, with its bytes, in exactly one piece", of_pieces.concat() == whole),
        ("no piece crosses a multiple of 4,096", !of_pieces.iter().any(|beats| is_on_two_pages(beats, 4_096))),
        ("the beat size of the burst", pieces.iter().all(|piece| piece.size == burst.size)),
    ];
    demands.into_iter().find(|demand| !demand.1).map(|demand| demand.0)
}

/// Whether each byte of the burst is in exactly one piece and no other byte of its page in any: every byte is counted.
pub fn has_each_byte_once(burst: Burst, pieces: &[Burst]) -> bool {
    let page = u64::from(burst.start) / 4_096 * 4_096;
    let mut counts = [0; 4_096];
    for byte in pieces.iter().flat_map(|&piece| beats_of(piece)).flatten() {
        counts[(byte - page) as usize] += 1;
    }
    let whole = beats_of(burst);
    let bytes = whole[0].start..whole[whole.len() - 1].end;
    (page..).zip(counts).all(|(byte, count)| count == i32::from(bytes.contains(&byte)))
}

/// How answers of pieces are taken: as document 02 has it, or by a rule that is wrong.
#[derive(Clone, Copy, Debug, PartialEq)]
pub enum Taking {
    AsWritten,
    /// Done at the last but one.
    DoneBeforeLast,
    /// Done at the last and from then on.
    DoneAgain,
    /// One more than there are is taken.
    OneMore,
    /// The first has the number 0.
    FromZero,
    /// Pieces may be left out.
    Ahead,
    /// A piece that is answered may be answered again.
    Again,
    /// What is refused counts as answered.
    RefusalCounts,
    /// A burst may have any count of pieces.
    AnyCount,
    /// What is answered is not looked at, and its numbers start again at 0 after the last one.
    Unlooked,
}

/// The answer of the piece of this number, and the joiner then.
pub fn join(joiner: Joiner, number: u32, taking: Taking) -> (Result<Joining, Refused>, Joiner) {
    let Joiner { pieces, answered } = joiner;
    let refused = Err(Refused::by(11, 0));
    let most = if taking == Taking::AnyCount { u32::MAX } else { 256 };
    let last = if taking == Taking::OneMore { pieces.saturating_add(1) } else { pieces };
    if pieces == 0 || pieces > most || (answered > last && taking != Taking::Unlooked) {
        return (refused, joiner);
    }
    // The numbers of the pieces, without those that are answered.
    let next = (1..=last).nth(answered as usize);
    let taken = match taking {
        Taking::FromZero => next.is_some_and(|next| number == next - 1),
        Taking::Ahead => next.is_some_and(|next| (next..=last).contains(&number)),
        Taking::Again => (1..=answered).contains(&number) || next == Some(number),
        Taking::Unlooked => number == answered.wrapping_add(1) && number <= last,
        Taking::DoneAgain if answered == pieces && number == pieces => return (Ok(Joining::Done), joiner),
        _ => next == Some(number),
    };
    if !taken {
        let moves = taking == Taking::RefusalCounts && answered < pieces;
        return (refused, Joiner { pieces, answered: answered + u32::from(moves) });
    }
    let now = if taking == Taking::FromZero { number + 1 } else { number.max(answered) };
    let done_at = if taking == Taking::DoneBeforeLast { pieces - 1 } else { pieces };
    let answer = if now == done_at { Joining::Done } else { Joining::Taken };
    (Ok(answer), Joiner { pieces, answered: now })
}
