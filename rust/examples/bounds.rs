//! Prints which accelerators of a tree file are late, and by how many clock cycles:
//! `cargo run --release --example bounds -- ../examples/scanner30-readback.tree`
use std::error::Error;

fn main() -> Result<(), Box<dyn Error>> {
    let name = std::env::args().nth(1).ok_or("usage: bounds TREE")?;
    let tree = std::fs::read(&name)?;
    let accelerators = razhikum::count(&tree).map_err(|refused| format!("{name}: {refused}"))?;
    for a in 0..accelerators {
        let bound = razhikum::bound(&tree, a)?;
        match bound.response.checked_sub(bound.period) {
            None | Some(0) => println!("accelerator {a}: meets, {} of {} cycles", bound.response, bound.period),
            Some(over) => println!("accelerator {a}: late by {over} of {} cycles", bound.period),
        }
    }
    Ok(())
}
