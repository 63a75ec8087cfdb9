//! Compares the library's splitter and joiner with the peer's and with lists of beats and of numbers, checks on the pieces what document 02
//! asks of them, and makes runs whose requests are pieces of bursts again as lists of the peer's calls. The seed is fixed. A difference
//! prints the input and ends the test.
#[path = "common/counts.rs"]
mod counts;
#[path = "common/cuts.rs"]
mod cuts;

use counts::{check, Counts};
use cuts::{beats_of, broken_demand, has_each_byte_once, would_cross, Answer, Cutting, Lengths, Taking};
use razhikum::{Burst, Channel, Ending, Joiner, Joining, Refused, IDLE, PIECES};
use razhikum_bench::inputs::{
    damage_bytes, damage_lines, nominal_tree, random_burst, random_tree, requests_of, text, Random, SIZES,
};
use razhikum_bench::peer;
use razhikum_bench::peer::calls::{fresh, State};
use razhikum_bench::peer::read::{read_tree, Axi, Tree};
use std::collections::{BTreeMap, VecDeque};

const BURSTS: usize = 300_000;
const LISTS: usize = 100_000;
const RUNS: usize = 20_000;

/// How many inputs met each thing that some input must meet.
#[derive(Default)]
struct Kinds(BTreeMap<String, usize>);

impl Kinds {
    fn add<T: ToString>(&mut self, kinds: impl IntoIterator<Item = (T, bool)>) {
        for (kind, met) in kinds {
            *self.0.entry(kind.to_string()).or_default() += usize::from(met);
        }
    }

    fn print(&self) {
        for (kind, count) in &self.0 {
            println!("  {kind}: {count}");
            assert!(*count > 0, "no input has {kind}");
        }
    }
}

/// Prints for each wrong rule how many inputs would differ: some must.
fn print_wrong<R: std::fmt::Debug>(what: &str, rules: &[R], differing: &[usize]) {
    for (rule, count) in rules.iter().zip(differing) {
        println!("  {what} by {rule:?} would differ in {count} of them");
        assert!(*count > 0, "the comparison does not find {rule:?}");
    }
}

/// Both arrays of a call.
#[derive(Clone, Debug, PartialEq)]
struct Room {
    starts: [u32; PIECES],
    beats: [u32; PIECES],
}

impl Room {
    fn filled(entry: u32) -> Room {
        Room { starts: [entry; PIECES], beats: [entry; PIECES] }
    }

    fn split(&mut self, tree: &[u8], burst: Burst) -> Result<u32, Refused> {
        razhikum::split(tree, burst, &mut self.starts, &mut self.beats).map(|pieces| pieces.count())
    }

    fn split_by_peer(&mut self, tree: &[u8], burst: Burst) -> Result<u32, Refused> {
        peer::burst::split(tree, burst, &mut self.starts, &mut self.beats).map(|pieces| pieces.count())
    }

    /// The first so many pieces.
    fn pieces(&self, count: u32, size: u32) -> Vec<Burst> {
        let pieces = self.starts.iter().zip(&self.beats).map(|(&start, &beats)| Burst { start, beats, size });
        pieces.take(count as usize).collect()
    }
}

/// The rooms of library and peer, which keep what the last bursts left there: after a refusal they must be as before.
struct Rooms {
    ours: Room,
    theirs: Room,
    answers: [usize; 3],
}

impl Rooms {
    fn new() -> Rooms {
        Rooms { ours: Room::filled(99), theirs: Room::filled(99), answers: [0; 3] }
    }

    /// Answer and every entry, by both.
    fn compare(&mut self, tree: &[u8], burst: Burst) -> Option<u32> {
        let answer = self.ours.split(tree, burst);
        let what = format!("{burst:?}");
        check(&what, answer, self.theirs.split_by_peer(tree, burst), &[tree]);
        check(&what, &self.ours, &self.theirs, &[tree]);
        let place = match answer.map_err(|refused| refused.cause.number()) {
            Ok(_) => 0,
            Err(15) => 1,
            Err(16) => 2,
            Err(other) => panic!("{what} is refused by {other}"),
        };
        self.answers[place] += 1;
        answer.ok()
    }

    fn print(&self, what: &str) -> usize {
        let [cut, no_burst, crossing] = self.answers;
        let total = self.answers.iter().sum();
        println!("{what}: {total} inputs\n  cut: {cut}\n  refused 15: {no_burst}\n  refused 16: {crossing}");
        assert!(self.answers.iter().all(|&count| count > 0));
        total
    }
}

fn check_demands(tree: &[u8], nominal: u32, burst: Burst, pieces: &[Burst]) {
    check(&format!("a demand on the pieces of {burst:?}"), broken_demand(burst, nominal, pieces), None, &[tree]);
}

/// Every size with 0 to 257 beats; on bus3 with 0 to 20, and with those about the limit of bus.
fn sizes_and_beats(axi: Axi) -> impl Iterator<Item = (u32, u32)> {
    let is_tried = move |beats: &u32| axi == Axi::Axi4 || *beats <= 20 || *beats >= 255;
    SIZES.into_iter().flat_map(move |size| (0..=257).filter(is_tried).map(move |beats| (size, beats)))
}

/// What they are, in words.
fn tried(axi: Axi) -> &'static str {
    match axi {
        Axi::Axi3 => "every size, 0 to 20 and 255 to 257 beats, bus3",
        Axi::Axi4 => "every size, 0 to 257 beats",
    }
}

/// Every start in a page, with B 16. Every count of beats over 16 on bus3, and over 256 on bus, is refused by 15, and so is none.
fn compare_whole_page(axi: Axi) -> usize {
    let tree = nominal_tree(axi, 16);
    let mut rooms = Rooms::new();
    for (size, beats) in sizes_and_beats(axi) {
        for start in 0x1234_5000..0x1234_6000 {
            rooms.compare(&tree, Burst { start, beats, size });
        }
    }
    let counts_refused = if axi == Axi::Axi3 { 8 } else { 2 };
    assert_eq!(rooms.answers[1], 4_096 * SIZES.len() * counts_refused);
    rooms.print(&format!("every start in a page, {}", tried(axi)))
}

/// The starts within a beat of the page's end, and of where a burst ends with the page.
fn starts_about(end: u64, beats: u32, size: u32) -> impl Iterator<Item = u32> {
    let reach = i64::from(size) + 1;
    let centres = [end as i64, end as i64 - i64::from(beats * size)];
    let starts = centres.into_iter().flat_map(move |centre| centre - reach..=centre + reach);
    starts.filter_map(|start| u32::try_from(start).ok())
}

/// At the ends of the first page, of one in the middle and of the last, for several B: and on the pieces what is asked of them.
fn compare_page_ends(axi: Axi, nominals: [u32; 7]) -> usize {
    let mut rooms = Rooms::new();
    for nominal in nominals {
        let tree = nominal_tree(axi, nominal.into());
        for end in [4_096, 0x8000_1000, 1 << 32] {
            for (size, beats) in sizes_and_beats(axi) {
                for start in starts_about(end, beats, size) {
                    let burst = Burst { start, beats, size };
                    if let Some(count) = rooms.compare(&tree, burst) {
                        check_demands(&tree, nominal, burst, &rooms.ours.pieces(count, size));
                    }
                }
            }
        }
    }
    rooms.print(&format!("starts near page ends, seven B, {}", tried(axi)))
}

/// Ways to cut a burst that the comparison must find wrong.
const WRONG_CUTS: [Cutting; 30] = [
    Cutting::AllFull,
    Cutting::ShortFirst,
    Cutting::WithoutRest,
    Cutting::EmptyLast,
    Cutting::NotRounded,
    Cutting::FirstRounded,
    Cutting::AtMultiples,
    Cutting::NoPages,
    Cutting::PageFromStart,
    Cutting::PageBySize,
    Cutting::PageAtItsEnd,
    Cutting::PageCutToLast,
    Cutting::SmallPages,
    Cutting::PageFirst,
    Cutting::AnySize,
    Cutting::LargeSizes,
    Cutting::SizesTo64,
    Cutting::BeatsTo255,
    Cutting::BeatsTo257,
    Cutting::BeatsInByte,
    Cutting::LongOnBus3,
    Cutting::ShortOnBus,
    Cutting::To15OnBus3,
    Cutting::To17OnBus3,
    Cutting::BeatsToB,
    Cutting::LateOnBus3,
    Cutting::NoBeats,
    Cutting::TreeLast,
    Cutting::RestKept,
    Cutting::RefusalClears,
];

/// The first of them cut a burst into other pieces: these must break a demand.
const WRONG_PIECES: usize = 7;

/// The counts of a comparison of bursts.
#[derive(Default)]
struct BurstCounts {
    answers: Counts,
    kinds: Kinds,
    differing: [usize; WRONG_CUTS.len()],
    breaking: [usize; WRONG_PIECES],
}

/// What the comparison must meet in a burst that is cut, and whether this one does.
fn cut_kinds(burst: Burst, lengths: Lengths, pieces: &[Burst]) -> [(&'static str, bool); 19] {
    let (nominal, is_bus3) = (lengths.nominal, lengths.is_bus3());
    let whole = beats_of(burst);
    let end = whole[whole.len() - 1].end;
    let (several, last) = (pieces.len() > 1, pieces[pieces.len() - 1].beats);
    let is_aligned = burst.start.is_multiple_of(burst.size);
    [
        ("a start within a beat, several pieces", !is_aligned && several),
        ("a start within a beat, one piece", !is_aligned && !several),
        ("a start at a multiple of the size, several pieces", is_aligned && several),
        ("a last piece of fewer beats", several && last < nominal),
        ("a last piece of B beats", several && last == nominal),
        ("one piece of fewer than B beats", !several && last < nominal),
        ("one piece of B beats", !several && last == nominal),
        ("256 pieces", pieces.len() == PIECES),
        ("256 beats in one piece", !several && burst.beats == 256),
        ("a burst that ends with its page, several pieces", end.is_multiple_of(4_096) && several),
        ("a burst that ends with the addresses", end == 1 << 32),
        (
            "a burst that ends with the addresses, within a beat, several pieces",
            end == 1 << 32 && several && !is_aligned,
        ),
        ("bus3: 16 beats in one piece", is_bus3 && !several && burst.beats == 16),
        ("bus3: 16 beats in several pieces", is_bus3 && several && burst.beats == 16),
        ("bus3: 16 pieces", is_bus3 && pieces.len() == 16),
        ("bus: 17 beats in one piece", !is_bus3 && !several && burst.beats == 17),
        ("bus: 17 beats in pieces of up to 16", !is_bus3 && several && burst.beats == 17),
        ("a whole page", end - whole[0].start == 4_096),
        ("a start at a multiple of 4,096", burst.start.is_multiple_of(4_096)),
    ]
}

/// What it must meet in one that is refused by 15 or 16, or whose tree is refused.
fn refused_kinds(burst: Burst, tree: Result<Lengths, Refused>, refused: Refused) -> [(&'static str, bool); 23] {
    let Burst { start, beats, size } = burst;
    let is = |number| tree.is_ok() && refused.cause.number() == number;
    let is_on3 = |number| is(number) && tree.is_ok_and(Lengths::is_bus3);
    let is_size = SIZES.contains(&size);
    let end = u64::from(start - start % size.max(1)) + u64::from(beats) * u64::from(size);
    let (bytes_over, crosses) = (end % 4_096, would_cross(burst));
    [
        ("0 beats", is(15) && beats == 0 && is_size),
        ("257 beats", is(15) && beats == 257 && is_size),
        ("258 beats and more", is(15) && beats > 257 && is_size),
        ("the most beats", is(15) && beats == u32::MAX && is_size),
        ("size 0", is(15) && size == 0),
        ("size 3", is(15) && size == 3 && beats <= 256),
        ("size 256", is(15) && size == 256 && beats <= 256),
        ("the greatest size", is(15) && size == u32::MAX),
        ("15 for one that crosses", is(15) && crosses),
        ("15 for one that does not cross", is(15) && !crosses && beats > 0),
        ("bus3: 17 beats", is_on3(15) && beats == 17 && is_size && !crosses),
        ("bus3: 18 to 255 beats", is_on3(15) && (18..=255).contains(&beats) && is_size && !crosses),
        ("bus3: 256 beats", is_on3(15) && beats == 256 && is_size && !crosses),
        ("bus3: 257 beats", is_on3(15) && beats == 257 && is_size),
        ("bus3: no beats", is_on3(15) && beats == 0 && is_size),
        ("bus3: 15 for up to 256 beats that cross", is_on3(15) && (17..=256).contains(&beats) && is_size && crosses),
        ("bus3: 15 for a size", is_on3(15) && (1..=16).contains(&beats) && !is_size),
        ("bus3: 16 for 16 beats", is_on3(16) && beats == 16),
        ("16 by the bytes of one beat", is(16) && bytes_over == u64::from(size)),
        ("16 past the addresses", is(16) && end > 1 << 32),
        ("16 with two beats", is(16) && beats == 2),
        ("a refused tree, and 15", tree.is_err() && (beats == 0 || !is_size)),
        ("a refused tree, and 16", tree.is_err() && (1..=256).contains(&beats) && is_size && crosses),
    ]
}

/// A tree file, one in ten damaged.
fn tree_file(random: &mut Random) -> Vec<u8> {
    let mut lines = random_tree(random, 4, 6);
    if random.one_in(20) {
        damage_lines(random, &mut lines);
    }
    let mut file = text(&lines);
    if random.one_in(20) {
        damage_bytes(random, &mut file);
    }
    file
}

/// The library's answer against the wrong ways; where they cut, whether their pieces break a demand.
fn count_wrong(burst: Burst, tree: Result<Lengths, Refused>, filled: u32, library: &Answer, counts: &mut BurstCounts) {
    for (i, cutting) in WRONG_CUTS.into_iter().enumerate() {
        let wrong = cuts::split(burst, tree, filled, cutting);
        counts.differing[i] += usize::from(wrong != *library);
        if let (Ok(_), Ok(Lengths { nominal, .. }), true) = (&library.0, tree, i < WRONG_PIECES) {
            let pieces = cuts::pieces(burst, nominal, cutting);
            counts.breaking[i] += usize::from(broken_demand(burst, nominal, &pieces).is_some());
        }
    }
}

fn compare_burst(random: &mut Random, counts: &mut BurstCounts) {
    let (file, burst) = (tree_file(random), random_burst(random));
    let filled = random.number() as u32;
    let (mut ours, mut theirs) = (Room::filled(filled), Room::filled(filled));
    let answer = ours.split(&file, burst);
    let what = format!("{burst:?}");
    check(&what, answer, theirs.split_by_peer(&file, burst), &[&file]);
    check(&what, &ours, &theirs, &[&file]);
    let most = if file.starts_with(b"bus3") { 16 } else { 256 };
    let tree = read_tree(&file).map(|tree| Lengths { nominal: tree.bus.burst as u32, most });
    let library = (answer, ours.starts.to_vec(), ours.beats.to_vec());
    check(&what, &library, &cuts::split(burst, tree, filled, Cutting::AsWritten), &[&file]);
    count_wrong(burst, tree, filled, &library, counts);
    counts.answers.add(match (answer, tree) {
        (Ok(1), _) => "one piece".into(),
        (Ok(_), _) => "several pieces".into(),
        (Err(r), Ok(_)) => format!("burst refused {}", r.cause.number()),
        (Err(r), Err(_)) => format!("tree refused {}", r.cause.number()),
    });
    match (answer, tree) {
        (Ok(count), Ok(lengths)) => {
            let pieces = ours.pieces(count, burst.size);
            check_demands(&file, lengths.nominal, burst, &pieces);
            check(&format!("bytes of {burst:?}"), has_each_byte_once(burst, &pieces), true, &[&file]);
            counts.kinds.add(cut_kinds(burst, lengths, &pieces));
            counts.kinds.add(SIZES.map(|size| (format!("a burst of size {size}"), burst.size == size)));
        }
        (answer, tree) => counts.kinds.add(refused_kinds(burst, tree, answer.expect_err("a refusal"))),
    }
}

fn compare_bursts() -> usize {
    let mut random = Random::new(6);
    let mut counts = BurstCounts::default();
    for _ in 0..BURSTS {
        compare_burst(&mut random, &mut counts);
    }
    counts.answers.print("bursts: answer, every entry of both arrays, every demand, every byte");
    counts.kinds.print();
    print_wrong("pieces", &WRONG_CUTS, &counts.differing);
    for (cutting, count) in WRONG_CUTS.iter().zip(counts.breaking) {
        println!("  pieces by {cutting:?} would break a demand in {count} of them");
        assert!(count > 0, "the demands do not find {cutting:?}");
    }
    BURSTS
}

/// Ways to take answers that the comparison must find wrong.
const WRONG_JOINS: [Taking; 9] = [
    Taking::DoneBeforeLast,
    Taking::DoneAgain,
    Taking::OneMore,
    Taking::FromZero,
    Taking::Ahead,
    Taking::Again,
    Taking::RefusalCounts,
    Taking::AnyCount,
    Taking::Unlooked,
];

fn compare_join(joiner: Joiner, number: u32, differing: &mut [usize; WRONG_JOINS.len()]) -> Option<Joining> {
    let (mut ours, mut theirs) = (joiner, joiner);
    let answer = ours.join(number);
    let library = (answer, ours);
    if library != (peer::burst::join(&mut theirs, number), theirs)
        || library != cuts::join(joiner, number, Taking::AsWritten)
    {
        panic!("number {number} to {joiner:?}: the library gives {library:?}");
    }
    for (count, taking) in differing.iter_mut().zip(WRONG_JOINS) {
        *count += usize::from(cuts::join(joiner, number, taking) != library);
    }
    answer.ok()
}

/// Every joiner of up to 258 pieces, 259 of them answered, with every number up to 260; and numbers far beyond.
fn compare_joins() -> usize {
    let far = [65_537, 1 << 31, u32::MAX - 1, u32::MAX];
    let upto = |most: u32| (0..=most).chain(far);
    let (mut inputs, mut taken, mut done) = (0, 0, 0);
    let mut differing = [0; WRONG_JOINS.len()];
    for pieces in upto(258) {
        for answered in upto(259) {
            for number in upto(260) {
                let answer = compare_join(Joiner { pieces, answered }, number, &mut differing);
                inputs += 1;
                taken += usize::from(answer == Some(Joining::Taken));
                done += usize::from(answer == Some(Joining::Done));
            }
        }
    }
    println!("answers of pieces: {inputs} inputs\n  taken: {taken}\n  done: {done}");
    assert_eq!((taken, done), ((1..=256).map(|pieces| pieces - 1).sum(), 256));
    print_wrong("joins", &WRONG_JOINS, &differing);
    inputs
}

/// A list of answers, mostly in order, from a joiner without answers: those taken are 1, 2, 3 .. up to the count of pieces, and done is
/// said once, at the last.
fn compare_list(random: &mut Random, kinds: &mut Kinds) {
    let pieces = 1 + if random.one_in(4) { random.below(256) } else { random.below(8) } as u32;
    let mut joiner = Joiner::of(pieces);
    let (mut taken, mut done) = (vec![], vec![]);
    let steps = random.below(u64::from(2 * pieces + 8));
    for step in 0..steps {
        let next = joiner.answered + 1;
        let number = match random.below(8) {
            0 => random.below(u64::from(pieces) + 3) as u32,
            1 => next + 1,
            2 => next - 1,
            _ => next,
        };
        let Ok(answer) = joiner.join(number) else { continue };
        taken.push(number);
        if answer == Joining::Done {
            done.push(step);
            assert_eq!(number, pieces);
        }
    }
    assert!(taken.iter().copied().eq(1..=taken.len() as u32), "{taken:?}");
    assert_eq!(done.len(), usize::from(taken.len() == pieces as usize));
    assert!(taken.len() <= pieces as usize);
    kinds.add([
        ("a list that is done", !done.is_empty()),
        ("a list that is not done", done.is_empty()),
        ("answers after the last", done.first().is_some_and(|&step| step + 1 < steps)),
        ("a list of 256 pieces", pieces == 256),
    ]);
}

fn compare_lists() -> usize {
    let mut random = Random::new(7);
    let mut kinds = Kinds::default();
    for _ in 0..LISTS {
        compare_list(&mut random, &mut kinds);
    }
    println!("lists of answers: {LISTS} inputs");
    kinds.print();
    LISTS
}

/// How the held bursts of an accelerator are offered: as document 02 has it, or by a rule that is wrong.
#[derive(Clone, Copy, Debug, PartialEq)]
enum Offering {
    AsWritten,
    /// A burst is one transaction, whatever its pieces.
    AsOne,
    /// A burst is admitted as a whole or not at all.
    AllOrNone,
    /// After a refusal the burst is offered from its first piece again.
    FromFirst,
    /// The piece that was refused is left out.
    WithoutRefused,
    /// The budget counts bursts.
    BudgetByBursts,
}

const WRONG_OFFERS: [Offering; 5] =
    [Offering::AsOne, Offering::AllOrNone, Offering::FromFirst, Offering::WithoutRefused, Offering::BudgetByBursts];

/// A burst that an accelerator asks for in a slot.
#[derive(Clone, Copy, Debug)]
struct Asked {
    slot: u32,
    a: u8,
    burst: Burst,
}

/// Offers what is left of the oldest burst: whether all of it is admitted now. `from` counts the pieces that were admitted before.
fn offer(state: &mut State, tree: &Tree, asked: Asked, from: &mut u32, offering: Offering) -> Result<(), u8> {
    let before = state.clone();
    if offering == Offering::AsOne {
        return state.offer(tree, asked.a);
    }
    let first = if offering == Offering::FromFirst { 0 } else { *from };
    let (admitted, answer) = state.offer_burst(tree, asked.a, asked.burst, first);
    *from += admitted;
    match (offering, answer) {
        (Offering::AllOrNone, Err(_)) => {
            (*state, *from) = (before, 0);
        }
        (Offering::WithoutRefused, Err(_)) => *from += 1,
        (Offering::BudgetByBursts, _) if admitted > 0 => {
            let at = usize::from(asked.a);
            state.admitted[at] = before.admitted[at] + u16::from(first == 0);
        }
        _ => {}
    }
    answer
}

/// What the machine made of the bursts.
struct Made {
    /// Of each slot who was served, or 255.
    bytes: Vec<u8>,
    /// Of each accelerator's pieces, in order, the slot of admission and how many waited before it.
    admissions: Vec<Vec<(u32, u64)>>,
    /// Whether something is left to ask for, held or waiting.
    left: bool,
    /// The numbers by which offers were refused.
    refusals: Vec<u8>,
}

/// Makes a run of so many slots as calls from the fresh state: before each slot each accelerator in turn offers the pieces of its bursts,
/// oldest first, until one is refused.
fn made(tree: &Tree, channel: Channel, asked: &[Asked], slots: usize, offering: Offering) -> Made {
    let n = tree.accelerators.len();
    let mut state = fresh(tree, channel);
    let mut held = vec![VecDeque::new(); n];
    let mut made = Made { bytes: vec![], admissions: vec![vec![]; n], left: true, refusals: vec![] };
    let mut to_come = asked.iter().copied().peekable();
    for _ in 0..slots {
        while let Some(asked) = to_come.next_if(|asked| asked.slot <= state.slot) {
            held[usize::from(asked.a)].push_back((asked, 0));
        }
        for (held, admissions) in held.iter_mut().zip(&mut made.admissions) {
            while let Some((asked, from)) = held.front_mut() {
                let at = usize::from(asked.a);
                let waiting = u64::from(state.waiting[at]);
                let answer = offer(&mut state, tree, *asked, from, offering);
                admissions.extend((waiting..state.waiting[at].into()).map(|before| (state.slot, before)));
                if let Err(refusal) = answer {
                    made.refusals.push(refusal);
                    break;
                }
                held.pop_front();
            }
        }
        made.bytes.push(state.serve(tree).expect("a sound state").unwrap_or(IDLE));
    }
    made.left = to_come.next().is_some() || held.iter().any(|held| !held.is_empty()) || state.waiting != [0; 32];
    made
}

/// Each service answers the next piece of the accelerator's oldest burst: how many bursts are done, and whether each piece was served
/// within its share of the channel, times one more than the pieces that waited before it.
fn joined(tree: &[u8], channel: Channel, asked: &[Asked], made: &Made) -> (usize, bool) {
    let shares: Vec<u64> = (0..made.admissions.len() as u8)
        .map(|a| razhikum::bound(tree, a).expect("a bound"))
        .map(|bound| if channel == Channel::Read { bound.sr } else { bound.sw })
        .collect();
    let mut joiners = vec![VecDeque::new(); made.admissions.len()];
    let mut room = Room::filled(0);
    for asked in asked {
        let pieces = room.split(tree, asked.burst).expect("a sound burst");
        joiners[usize::from(asked.a)].push_back(Joiner::of(pieces));
    }
    let (mut done, mut in_time, mut served) = (0, true, vec![0; joiners.len()]);
    for (slot, &a) in (0..).zip(&made.bytes).filter(|(_, &a)| a != IDLE) {
        let a = usize::from(a);
        let joiner: &mut Joiner = joiners[a].front_mut().expect("a piece of a burst");
        if joiner.join(joiner.answered + 1) == Ok(Joining::Done) {
            joiners[a].pop_front();
            done += 1;
        }
        let (admitted, before) = made.admissions[a][served[a]];
        in_time &= u64::from(slot - admitted) < (before + 1) * shares[a];
        served[a] += 1;
    }
    (done, in_time)
}

/// Bursts of a tree's accelerators, in rising slots, of at most 64 pieces, so that a run gets past some of them.
fn random_bursts(random: &mut Random, tree: &Tree) -> Vec<Asked> {
    let mut slot = 0;
    let step = 1 + random.below(8);
    let mut asked = vec![];
    for _ in 0..1 + random.below(8) {
        slot += random.below(step) as u32;
        let a = random.below(tree.accelerators.len() as u64) as u8;
        let burst = random_burst(random);
        let pieces = peer::burst::cut(burst, &tree.bus).map_or(0, Iterator::count);
        if (1..=64).contains(&pieces) {
            asked.push(Asked { slot, a, burst });
        }
    }
    asked
}

/// A run of the library, whose trace asks for as many transactions as there are pieces, against the calls with bursts.
fn compare_run(random: &mut Random, counts: &mut RunCounts) {
    let file = text(&random_tree(random, 5, 6));
    let tree = read_tree(&file).expect("a sound tree");
    let channel = *random.pick(&Channel::BOTH);
    let asked = random_bursts(random, &tree);
    let pieces = |burst| peer::burst::cut(burst, &tree.bus).map_or(0, Iterator::count);
    let trace = text(&asked.iter().flat_map(|x| requests_of(x.slot, x.a, pieces(x.burst))).collect());
    let mut out = vec![99; random.below(200) as usize];
    let ending = razhikum::run(&file, channel, &trace, &mut out).expect("a sound trace");
    let (Ending::Done(slots) | Ending::Stopped(slots)) = ending;
    let slots = slots as usize;
    let made_by = |offering| made(&tree, channel, &asked, slots, offering);
    let run = made_by(Offering::AsWritten);
    let files = [&file[..], &trace[..]];
    check("a run of bursts", &out[..slots], &run.bytes, &files);
    check("its ending", ending == Ending::Stopped(slots as u32), run.left, &files);
    for (count, offering) in counts.differing.iter_mut().zip(WRONG_OFFERS) {
        let wrong = made_by(offering);
        *count += usize::from((wrong.bytes, wrong.left) != (run.bytes.clone(), run.left));
    }
    let (done, in_time) = joined(&file, channel, &asked, &run);
    check("the bound on the waits of pieces", in_time, true, &files);
    let is_done = matches!(ending, Ending::Done(_));
    let is_longest = |x: &Asked| tree.bus.axi == Axi::Axi3 && x.burst.beats == 16 && pieces(x.burst) > 1;
    check("the bursts that are done", !is_done || done == asked.len(), true, &files);
    counts.kinds.add([
        ("a run done, with a burst of several pieces", is_done && asked.iter().any(|x| pieces(x.burst) > 1)),
        ("a run stopped after some bursts are done", !is_done && done > 0),
        ("a run stopped within a burst", !is_done && done < asked.len()),
        ("a burst of more pieces than phi", asked.iter().any(|x| pieces(x.burst) > 16)),
        ("bus3, a run done with 16 beats in several pieces", is_done && asked.iter().any(is_longest)),
        ("a piece refused by 8", run.refusals.contains(&8)),
        ("a piece refused by 9", run.refusals.contains(&9)),
        ("a piece refused by 14", run.refusals.contains(&14)),
        ("two bursts of one accelerator", asked.iter().any(|x| asked.iter().filter(|y| x.a == y.a).count() > 1)),
    ]);
}

/// The counts of a comparison of runs.
#[derive(Default)]
struct RunCounts {
    kinds: Kinds,
    differing: [usize; WRONG_OFFERS.len()],
}

fn compare_runs() -> usize {
    let mut random = Random::new(8);
    let mut counts = RunCounts::default();
    for _ in 0..RUNS {
        compare_run(&mut random, &mut counts);
    }
    println!("runs of bursts: {RUNS} inputs");
    counts.kinds.print();
    print_wrong("a run", &WRONG_OFFERS, &counts.differing);
    RUNS
}

fn main() {
    let pages = compare_whole_page(Axi::Axi4) + compare_whole_page(Axi::Axi3);
    let ends = compare_page_ends(Axi::Axi4, [1, 2, 3, 16, 100, 255, 256])
        + compare_page_ends(Axi::Axi3, [1, 2, 3, 5, 8, 15, 16]);
    let cuts = pages + ends + compare_bursts();
    let joins = compare_joins() + compare_lists();
    let total = cuts + joins + compare_runs();
    println!("{total} inputs, no difference");
}
