//! Prints the pieces that a burst is cut into on a tree file, and at which answer the joiner says done:
//! `cargo run --release --example split -- ../examples/scanner30.tree 5 40 4`
use razhikum::{split, Burst, Joining, PIECES};
use std::error::Error;

fn main() -> Result<(), Box<dyn Error>> {
    let words: Vec<String> = std::env::args().skip(1).collect();
    let [tree, start, beats, size] = &words[..] else {
        return Err("usage: split TREE ADDRESS BEATS SIZE".into());
    };
    let burst = Burst { start: start.parse()?, beats: beats.parse()?, size: size.parse()? };
    let (mut starts, mut lengths) = ([0; PIECES], [0; PIECES]);
    let pieces =
        split(&std::fs::read(tree)?, burst, &mut starts, &mut lengths).map_err(|refused| refused.to_string())?;
    let mut joiner = pieces.joiner();
    for (number, piece) in (1..).zip(pieces.iter()) {
        let last = if joiner.join(number)? == Joining::Done { ", the last" } else { "" };
        println!("piece {number}: {} beats of {} bytes at address {}{last}", piece.beats, piece.size, piece.start);
    }
    Ok(())
}
