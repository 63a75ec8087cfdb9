//! What the comparisons share: counts of answers, of what was met and of what would differ, and what is printed where two answers differ.
use std::collections::BTreeMap;

/// How many inputs got each answer.
#[derive(Default)]
pub struct Counts(BTreeMap<String, usize>);

impl Counts {
    pub fn add(&mut self, answer: String) {
        *self.0.entry(answer).or_default() += 1;
    }

    pub fn print(&self, what: &str) {
        println!("{what}: {} inputs", self.0.values().sum::<usize>());
        for (answer, count) in &self.0 {
            println!("  {answer}: {count}");
        }
    }
}

pub fn check<T: PartialEq + std::fmt::Debug>(what: &str, library: T, peer: T, files: &[&[u8]]) {
    if library == peer {
        return;
    }
    for file in files {
        println!("{:?}", String::from_utf8_lossy(file));
    }
    panic!("{what}: the library gives {library:?}, the peer {peer:?}");
}
