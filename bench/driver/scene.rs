//! Two lists that differ, and letters of one of them.

use crate::random::Random;
use std::collections::BTreeSet;

pub const P: u64 = 65537;

/// A list in words: its count and its numbers, with room for some more.
pub fn words(list: &BTreeSet<u64>, room: usize) -> Vec<u64> {
    let mut words = vec![list.len() as u64];
    words.extend(list);
    words.resize(1 + list.len() + room, 0);
    words
}

/// The list here, the list there, and what differs.
pub struct Scene {
    pub here: BTreeSet<u64>,
    pub there: BTreeSet<u64>,
    pub gone: BTreeSet<u64>,
    pub come: BTreeSet<u64>,
}

impl Scene {
    /// A list here of so many numbers, of which some are gone there, where others have come.
    pub fn new(random: &mut Random, m: u64, cards: usize, gone: usize, come: usize) -> Scene {
        let here = random.numbers(cards, P - m, &BTreeSet::new());
        let ordered: Vec<u64> = here.iter().copied().collect();
        let mut lost = BTreeSet::new();
        while lost.len() < gone.min(cards) {
            lost.insert(random.pick(&ordered));
        }
        let won = random.numbers(come, P - m, &here);
        let there = here.difference(&lost).chain(&won).copied().collect();
        Scene {
            here,
            there,
            gone: lost,
            come: won,
        }
    }

    /// What is to be told, the numbers gone first.
    pub fn told(&self) -> Vec<u64> {
        self.gone.iter().chain(&self.come).copied().collect()
    }

    pub fn differences(&self) -> usize {
        self.gone.len() + self.come.len()
    }
}

/// The letter of a list, number by number.
pub fn letter(list: &BTreeSet<u64>, m: u64) -> Vec<u64> {
    let mut note = vec![m, list.len() as u64];
    for i in 1..=m {
        note.push(list.iter().fold(1, |value, n| value * (P - i + P - n) % P));
    }
    note
}
