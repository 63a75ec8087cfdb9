//! Figures of the burst splitter and the joiner, worked out by hand from document 02's items 6 and 7 and from source document 004, by
//! library and peer alike; bursts at page ends with every size; and the peer's offers of bursts.
use razhikum::{Burst, Channel, Ending, Joiner, Joining, Refused, IDLE, PIECES};
use razhikum_bench::inputs::{nominal_tree, requests_of, text, SIZES};
use razhikum_bench::peer;
use razhikum_bench::peer::calls::fresh;
use razhikum_bench::peer::read::{read_tree, Axi};
use Channel::{Read, Write};

fn file(spaced: &str) -> Vec<u8> {
    spaced.replace(' ', "\t").into_bytes()
}

/// Start address and beats of each piece, by library and peer; the arrays, filled before, are the same.
fn cut(tree: &[u8], burst: Burst) -> Result<Vec<(u32, u32)>, Refused> {
    let mut rooms = [[[99; PIECES]; 2]; 2];
    let [[starts, beats], [other_starts, other_beats]] = &mut rooms;
    let pieces = razhikum::split(tree, burst, starts, beats);
    assert_eq!(pieces, peer::burst::split(tree, burst, other_starts, other_beats));
    let pieces = pieces.map(|pieces| pieces.iter().map(|piece| (piece.start, piece.beats)).collect::<Vec<_>>());
    assert_eq!(rooms[0], rooms[1]);
    let (used, rest) = pieces.as_ref().map_or((0, 99), |pieces| (pieces.len(), 0));
    assert!(rooms[0].iter().all(|entries| entries[used..].iter().all(|&entry| entry == rest)));
    pieces
}

fn on_nominal(nominal: u64, start: u32, beats: u32, size: u32) -> Result<Vec<(u32, u32)>, Refused> {
    cut(&nominal_tree(Axi::Axi4, nominal), Burst { start, beats, size })
}

/// The same where the bus record is named bus3.
fn on_bus3(nominal: u64, start: u32, beats: u32, size: u32) -> Result<Vec<(u32, u32)>, Refused> {
    cut(&nominal_tree(Axi::Axi3, nominal), Burst { start, beats, size })
}

const NO_BURST: Result<Vec<(u32, u32)>, Refused> = Err(Refused { cause: razhikum::Cause::Burst, line: 0 });
const CROSSES: Result<Vec<(u32, u32)>, Refused> = Err(Refused { cause: razhikum::Cause::Page, line: 0 });

/// "Its bytes run from the start address to the start address rounded down to the beat size, plus beats × beat size, less 1."
#[test]
fn figures_by_hand() {
    assert_eq!(on_nominal(16, 4_090, 3, 2), Ok(vec![(4_090, 3)]));
    assert_eq!(on_nominal(16, 4_091, 3, 2), Ok(vec![(4_091, 3)]));
    assert_eq!(on_nominal(16, 4_092, 3, 2), CROSSES);
    assert_eq!(on_nominal(16, 5, 40, 4), Ok(vec![(5, 16), (68, 16), (132, 8)]));
    assert_eq!(on_nominal(16, 7, 40, 4), Ok(vec![(7, 16), (68, 16), (132, 8)]));
    assert_eq!(on_nominal(16, 8, 40, 4), Ok(vec![(8, 16), (72, 16), (136, 8)]));
    assert_eq!(on_nominal(16, u32::MAX, 1, 1), Ok(vec![(u32::MAX, 1)]));
    assert_eq!(on_nominal(16, u32::MAX, 2, 1), CROSSES);
    assert_eq!(on_nominal(16, 4_294_967_168, 1, 128), Ok(vec![(4_294_967_168, 1)]));
    assert_eq!(on_nominal(16, 4_294_967_168, 2, 128), CROSSES);
    assert_eq!(
        on_nominal(100, 4_294_966_299, 250, 4),
        Ok(vec![(4_294_966_299, 100), (4_294_966_696, 100), (4_294_967_096, 50)])
    );
}

/// "after 11, 15 for 0 or over 256 beats or a bad beat size, then 16": a tree that is refused comes before both.
#[test]
fn order_of_refusals() {
    for (beats, size) in [(0, 1), (257, 1), (1, 0), (1, 3), (1, 129), (1, 256), (u32::MAX, u32::MAX)] {
        for start in [0, 4_095, u32::MAX] {
            assert_eq!(on_nominal(16, start, beats, size), NO_BURST);
        }
    }
    for (beats, size) in [(0, 1), (16, 3), (2, 1), (1, 1)] {
        let burst = Burst { start: 4_095, beats, size };
        assert_eq!(cut(&nominal_tree(Axi::Axi4, 257), burst), Err(Refused::by(2, 1)));
        assert_eq!(cut(&nominal_tree(Axi::Axi3, 17), burst), Err(Refused::by(2, 1)));
        assert_eq!(cut(b"", burst), Err(Refused::by(3, 1)));
    }
}

/// "There B is at most 16, and the splitter takes at most 16 beats": 17 beats and more are 15, also where they cross, which 16 beats may. A
/// burst may have more beats than B.
#[test]
fn bursts_on_bus3() {
    assert_eq!(on_bus3(16, 5, 16, 4), Ok(vec![(5, 16)]));
    assert_eq!(on_bus3(6, 5, 16, 4), Ok(vec![(5, 6), (28, 6), (52, 4)]));
    assert_eq!(on_bus3(15, 8, 16, 4), Ok(vec![(8, 15), (68, 1)]));
    assert_eq!(on_bus3(1, 4_081, 16, 1).map(|pieces| pieces.len()), CROSSES.map(|_| 0));
    let single: Vec<(u32, u32)> = (0..16).map(|i| (4_080 + i, 1)).collect();
    assert_eq!(on_bus3(1, 4_080, 16, 1), Ok(single));
    assert_eq!(on_bus3(16, 4_294_965_248, 16, 128), Ok(vec![(4_294_965_248, 16)]));
    for nominal in [1, 8, 15, 16] {
        for (start, size) in [(0, 1), (5, 4), (4_080, 1), (4_096, 128), (u32::MAX, 1), (u32::MAX, 128)] {
            for beats in [17, 18, 32, 128, 255, 256, 257, u32::MAX, 0] {
                assert_eq!(on_bus3(nominal, start, beats, size), NO_BURST, "{beats} beats at {start}");
            }
            for size in [0, 3, 256] {
                assert_eq!(on_bus3(nominal, start, 16, size), NO_BURST);
            }
        }
        // 17 beats on a bus of the other name are cut, or cross.
        assert!(on_nominal(nominal, 5, 17, 4).is_ok());
        assert_eq!(on_nominal(nominal, 4_080, 17, 1), CROSSES);
        assert_eq!(on_bus3(nominal, 4_081, 16, 1), CROSSES);
    }
}

/// Up to 16 beats the name of the record makes no difference: with every size and B, at the end of a page and before it.
#[test]
fn up_to_16_beats_both_are_cut_alike() {
    for (size, nominal) in SIZES.into_iter().flat_map(|size| (1..=16).map(move |nominal| (size, nominal))) {
        for beats in 0..=16 {
            for start in (4_096 - (beats + 1) * size..=4_097).chain([0, 3, u32::MAX - beats * size, u32::MAX]) {
                let pieces = on_bus3(nominal, start, beats, size);
                assert_eq!(pieces, on_nominal(nominal, start, beats, size));
                assert_eq!(pieces == NO_BURST, beats == 0);
            }
        }
    }
}

/// A joiner knows no tree: one of 17 pieces is answered, which no burst on bus3 has.
#[test]
fn a_joiner_of_more_pieces_than_bus3_has() {
    for pieces in [16, 17, 255, 256] {
        let (mut joiner, mut other) = (Joiner::of(pieces), Joiner::of(pieces));
        for number in 1..=pieces {
            let expected = Ok(if number == pieces { Joining::Done } else { Joining::Taken });
            assert_eq!(joiner.join(number), expected);
            assert_eq!(peer::burst::join(&mut other, number), expected);
        }
    }
}

/// Every size at the end of a page: what ends there is cut, of every start within the first beat alike; one beat more crosses.
#[test]
fn page_ends_with_every_size() {
    for (size, page) in SIZES.into_iter().flat_map(|size| [0, 4_096, 0x7fff_f000, 0xffff_f000].map(|page| (size, page)))
    {
        let most = (4_096 / size).min(256);
        for beats in 1..=most {
            let low = page + (4_096 - beats * size);
            for start in low..low + size {
                let later = (1..beats.div_ceil(16)).map(|i| (low + 16 * i * size, (beats - 16 * i).min(16)));
                let expected: Vec<(u32, u32)> = [(start, beats.min(16))].into_iter().chain(later).collect();
                assert_eq!(on_nominal(16, start, beats, size), Ok(expected));
                if beats < 256 {
                    assert_eq!(on_nominal(16, start, beats + 1, size), CROSSES);
                }
            }
        }
        // 4,096 bytes and no more, from the beginning of the page.
        if most * size == 4_096 {
            assert!(on_nominal(16, page, most, size).is_ok());
            assert!(most == 256 || on_nominal(16, page, most + 1, size) == CROSSES);
        }
    }
}

/// Source document 004: "splits read requests into sub-requests with nominal burst size and merges incoming data". A burst of 256 beats
/// with the nominal 16 gives 16 pieces of 16, and so for every nominal size; its answer is whole with that of the last piece.
#[test]
fn a_long_burst_cut_to_the_nominal_size() {
    for nominal in [1, 2, 4, 8, 16, 32, 64, 128, 256] {
        let expected: Vec<(u32, u32)> = (0..256 / nominal).map(|i| (8_192 + 4 * nominal * i, nominal)).collect();
        assert_eq!(on_nominal(nominal.into(), 8_192, 256, 4).as_ref(), Ok(&expected));
        let (mut joiner, mut other) = (Joiner::of(256 / nominal), Joiner::of(256 / nominal));
        let merged: Vec<_> = (1..=256 / nominal).map(|number| joiner.join(number)).collect();
        assert_eq!(merged, (1..=256 / nominal).map(|number| peer::burst::join(&mut other, number)).collect::<Vec<_>>());
        let (last, others) = merged.split_last().expect("a piece");
        assert_eq!(*last, Ok(Joining::Done));
        assert!(others.iter().all(|answer| *answer == Ok(Joining::Taken)));
    }
}

/// Source document 004: "16 KB of data (corresponding to 256 bursts of 16-word transactions) and 4 MB of data (corresponding to 65536
/// bursts of 16-word transactions)": words of 4 bytes. Asked for in bursts of 256 words, they are cut to as many.
#[test]
fn sixteen_kilobytes_and_four_megabytes() {
    let tree = nominal_tree(Axi::Axi4, 16);
    for (bytes, bursts) in [(16 << 10, 256), (4 << 20, 65_536)] {
        let mut next = 0;
        let mut count = 0;
        for start in (0..bytes).step_by(1_024) {
            for (start, beats) in cut(&tree, Burst { start, beats: 256, size: 4 }).expect("a burst") {
                assert_eq!((start, beats), (next, 16));
                next += 64;
                count += 1;
            }
        }
        assert_eq!((next, count), (bytes, bursts));
    }
}

/// Source document 004: bursts of different sizes "may lead to a complete unfair bandwidth distribution", and with a nominal size and turns
/// of one transaction they do not. One accelerator asks for a burst of 256 beats, the other for 16 of 16 beats: they are served in turn.
#[test]
fn bursts_of_different_sizes_are_served_alike() {
    let accs = "acc 0 0 0 16 1024 1 1 0 1\nacc 1 0 1 16 1024 1 1 0 1\n";
    let tree = file(&format!("bus 64 1 4 2 2 30 25 1 1 16\nint 0 - - 1\n{accs}"));
    let pieces = |beats| cut(&tree, Burst { start: 0, beats, size: 4 }).expect("a burst").len();
    let mut lines = requests_of(0, 0, pieces(256));
    (0..16).for_each(|_| lines.extend(requests_of(0, 1, pieces(16))));
    for channel in Channel::BOTH {
        let mut out = [99; 33];
        assert_eq!(razhikum::run(&tree, channel, &text(&lines), &mut out), Ok(Ending::Done(32)));
        assert_eq!(out[..32], [0, 1].repeat(16));
    }
}

/// "Each piece is one transaction for phi and for the budget." With phi 4 and budget 6 in windows of 8 slots, 10 pieces: four are admitted,
/// one in each of the next two slots, and the others in the next window. The library's run serves them so.
#[test]
fn pieces_count_for_phi_and_budget() {
    let tree = file("bus 8 1 4 2 2 30 25 1 1 16\nint 0 - - 1\nacc 0 0 0 4 6 1 1 0 1\n");
    let burst = Burst { start: 0, beats: 160, size: 4 };
    assert_eq!(cut(&tree, burst).map(|pieces| pieces.len()), Ok(10));
    let mut out = [99; 16];
    assert_eq!(razhikum::run(&tree, Read, &text(&requests_of(0, 0, 10)), &mut out), Ok(Ending::Done(12)));
    assert_eq!(out[..12], [0, 0, 0, 0, 0, 0, IDLE, IDLE, 0, 0, 0, 0]);

    let tree = read_tree(&tree).expect("a sound tree");
    let mut state = fresh(&tree, Read);
    let mut joiner = Joiner::of(10);
    let mut from = 0;
    let expected =
        [(4, Err(8)), (1, Err(8)), (1, Err(8)), (0, Err(9)), (0, Err(9)), (0, Err(9)), (0, Err(9)), (0, Err(9))];
    for (slot, answer) in expected.into_iter().chain([(4, Ok(())), (0, Ok(())), (0, Ok(())), (0, Ok(()))]).enumerate() {
        assert_eq!(state.offer_burst(&tree, 0, burst, from), answer, "slot {slot}");
        from += answer.0;
        let served = state.serve(&tree).expect("a sound state").unwrap_or(IDLE);
        assert_eq!(served, out[slot]);
        if served == 0 {
            let done = if slot == 11 { Joining::Done } else { Joining::Taken };
            assert_eq!(joiner.join(joiner.answered + 1), Ok(done));
        }
    }
    assert_eq!((from, joiner), (10, Joiner { pieces: 10, answered: 10 }));
}

/// 11 before 15, 15 before 16, 16 before what refuses an offer: 7, 14, 8, 9. A refusal of the burst moves nothing. Where no piece is left
/// nothing is offered.
#[test]
fn refusals_of_offered_bursts() {
    let accs = "acc 0 0 0 4 8 1 1 0 1\nacc 1 0 1 4 8 1 0 0 1\n";
    let tree = read_tree(&file(&format!("bus 8 1 4 2 2 30 25 1 1 16\nint 0 - - 1\n{accs}"))).expect("a sound tree");
    let (sound, crossing) = (Burst { start: 0, beats: 40, size: 4 }, Burst { start: 4_092, beats: 3, size: 2 });
    let none = Burst { start: 4_092, beats: 3, size: 3 };
    let state = fresh(&tree, Write);
    let mut broken = state.clone();
    broken.admitted[0] = 9;
    let mut full = state.clone();
    (full.waiting[0], full.admitted[0]) = (4, 8);
    let mut used = state.clone();
    used.admitted[0] = 6;
    for (state, a, burst, from, expected) in [
        (&broken, 2, none, 0, (0, Err(11))),
        (&broken, 0, sound, 3, (0, Err(11))),
        (&state, 2, none, 0, (0, Err(15))),
        (&state, 2, none, 9, (0, Err(15))),
        (&state, 2, crossing, 0, (0, Err(16))),
        (&state, 2, crossing, 9, (0, Err(16))),
        (&state, 2, sound, 0, (0, Err(7))),
        (&state, 255, sound, 2, (0, Err(7))),
        (&state, 1, sound, 0, (0, Err(14))),
        (&full, 0, sound, 0, (0, Err(8))),
        (&used, 0, sound, 0, (2, Err(9))),
        (&used, 0, sound, 1, (2, Ok(()))),
        (&state, 0, sound, 0, (3, Ok(()))),
        (&state, 0, sound, 2, (1, Ok(()))),
        (&state, 0, sound, 3, (0, Ok(()))),
        (&state, 255, sound, u32::MAX, (0, Ok(()))),
    ] {
        let mut after = state.clone();
        assert_eq!(after.offer_burst(&tree, a, burst, from), expected, "{burst:?} of {a} from {from}");
        let mut by_offers = state.clone();
        (0..expected.0).for_each(|_| assert_eq!(by_offers.offer(&tree, a), Ok(())));
        assert_eq!(after, by_offers);
    }
}

/// Offered bursts keep to the limit of the tree: 17 beats on bus3 are 15, before 16 and what refuses an offer; 16 beats are offered.
#[test]
fn offered_bursts_on_bus3() {
    let accs = "acc 0 0 0 4 8 1 1 0 1\nacc 1 0 1 16 8 1 0 0 1\n";
    let [tree, other] = ["bus3", "bus"].map(|name| {
        read_tree(&file(&format!("{name} 8 1 4 2 2 30 25 1 1 4\nint 0 - - 1\n{accs}"))).expect("a sound tree")
    });
    let state = fresh(&tree, Write);
    let offered = |tree, a, start, beats, from| {
        let mut after = state.clone();
        let answer = after.offer_burst(tree, a, Burst { start, beats, size: 4 }, from);
        let mut by_offers = state.clone();
        (0..answer.0).for_each(|_| assert_eq!(by_offers.offer(tree, a), Ok(())));
        assert_eq!(after, by_offers);
        answer
    };
    assert_eq!(offered(&tree, 0, 5, 16, 0), (4, Ok(())));
    assert_eq!(offered(&tree, 0, 5, 16, 3), (1, Ok(())));
    assert_eq!(offered(&tree, 0, 5, 17, 0), (0, Err(15)));
    assert_eq!(offered(&tree, 0, 5, 17, 5), (0, Err(15)));
    assert_eq!(offered(&tree, 0, 5, 256, 0), (0, Err(15)));
    assert_eq!(offered(&tree, 2, 4_092, 17, 0), (0, Err(15)));
    assert_eq!(offered(&tree, 2, 4_092, 16, 0), (0, Err(16)));
    assert_eq!(offered(&tree, 2, 0, 16, 0), (0, Err(7)));
    assert_eq!(offered(&tree, 1, 0, 16, 0), (0, Err(14)));
    assert_eq!(offered(&other, 0, 5, 16, 0), (4, Ok(())));
    assert_eq!(offered(&other, 0, 5, 17, 0), (4, Err(8)));
    assert_eq!(offered(&other, 0, 5, 17, 4), (1, Ok(())));
    assert_eq!(offered(&other, 1, 0, 256, 0), (0, Err(14)));
    // The rules of the state come first.
    let mut broken = state.clone();
    broken.admitted[0] = 9;
    assert_eq!(broken.offer_burst(&tree, 0, Burst { start: 0, beats: 17, size: 4 }, 0), (0, Err(11)));
}
