//! What a node had before its text was set, kept beside the arena.
use crate::{Arena, Before};
use std::collections::HashMap;

/// An arena with what its nodes had before their texts were set, by the first set of each.
pub struct Draft {
    pub arena: Arena,
    noted: Vec<(usize, Before)>,
    known: HashMap<usize, usize>,
}

impl Draft {
    pub fn new(arena: Arena) -> Self {
        Draft { arena, noted: Vec::new(), known: HashMap::new() }
    }

    pub fn set_text(&mut self, node: usize, text: &str) {
        let before = self.arena.set_text(node, text);
        if self.known.contains_key(&node) {
            self.arena.give_up(before);
            return;
        }
        self.known.insert(node, self.noted.len());
        self.noted.push((node, before));
    }

    /// Keeps the texts as they stand.
    pub fn commit(&mut self) {
        for (_, before) in self.noted.drain(..) {
            self.arena.give_up(before);
        }
        self.known.clear();
    }

    /// Gives the first texts back, from the last one back.
    pub fn roll_back(&mut self) {
        while let Some((node, before)) = self.noted.pop() {
            self.arena.put_back(node, before);
        }
        self.known.clear();
    }
}
