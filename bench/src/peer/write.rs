//! A tree written back as text (document 02, items 4 and 7).
use crate::peer::read::{read_tree, Interconnect, Tree};
use crate::peer::report::put_number;
use razhikum::{Refused, LIMIT, TREE_TEXT};

fn put_line(out: &mut Vec<u8>, name: &[u8], numbers: &[u64]) {
    out.extend_from_slice(name);
    for &n in numbers {
        out.push(b'\t');
        put_number(out, n);
    }
    out.push(b'\n');
}

/// The bus line. "It leaves out a return delay of 0", and "keeps the record name".
fn put_bus(out: &mut Vec<u8>, tree: &Tree) {
    let bus = &tree.bus;
    let (window, delay) = (bus.window.into(), bus.delay.into());
    let all = [window, bus.ta, bus.da, bus.dd, bus.db, bus.pr, bus.pw, bus.td, bus.tb, bus.burst, delay];
    put_line(out, bus.axi.name().as_bytes(), &all[..if delay == 0 { 10 } else { 11 }]);
}

fn put_int(out: &mut Vec<u8>, number: usize, interconnect: &Interconnect) {
    let &Interconnect { parent, port, granularity, .. } = interconnect;
    if number == 0 {
        put_line(out, b"int\t0\t-\t-", &[granularity.into()]);
    } else {
        put_line(out, b"int", &[number as u64, parent.into(), port.into(), granularity.into()]);
    }
}

fn put_acc(out: &mut Vec<u8>, tree: &Tree, a: u8) {
    let x = &tree.accelerators[usize::from(a)];
    let [number, interconnect, port, phi] = [a, x.interconnect, x.port, x.phi].map(u64::from);
    let numbers = [number, interconnect, port, phi, x.budget.into(), x.reads, x.writes, x.computing, x.period];
    put_line(out, b"acc", &numbers);
}

/// "By interconnect, then by port, both rising": the accelerators sorted by their place.
fn by_place(tree: &Tree) -> Vec<u8> {
    let mut order: Vec<u8> = (0..tree.accelerators.len() as u8).collect();
    order.sort_unstable_by_key(|&a| {
        let x = &tree.accelerators[usize::from(a)];
        (x.interconnect, x.port)
    });
    order
}

/// The text of a tree.
pub fn tree_text(tree: &Tree) -> Vec<u8> {
    let mut text = Vec::with_capacity(TREE_TEXT);
    put_bus(&mut text, tree);
    for (i, interconnect) in tree.interconnects.iter().enumerate() {
        put_int(&mut text, i, interconnect);
    }
    for a in by_place(tree) {
        put_acc(&mut text, tree, a);
    }
    text
}

/// Writes the tree of a tree file into `out` and gives the text there. "13 if the buffer is shorter than the text, after 11 and 2": a
/// tree that is read keeps its rules.
pub fn rewrite<'a>(file: &[u8], out: &'a mut [u8]) -> Result<&'a [u8], Refused> {
    let tree = read_tree(file)?;
    if out.len() > LIMIT {
        return Err(Refused::by(2, 0));
    }
    let text = tree_text(&tree);
    let written = out.get_mut(..text.len()).ok_or(Refused::by(13, 0))?;
    written.copy_from_slice(&text);
    Ok(written)
}
