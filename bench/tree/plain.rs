//! A plain arena of linked nodes, std only, that does what the forest does in main.rt.txt, with the same calls.
mod draft;
mod growth;

use draft::Draft;
use std::collections::HashSet;
use std::env;

const NONE: usize = usize::MAX;

#[derive(Clone, Copy, PartialEq)]
enum Kind {
    Root,
    Element,
    Attribute,
    Text,
}

struct Node {
    number: u128,
    kind: Kind,
    name: String,
    text: String,
    parent: usize,
    first: usize,
    last: usize,
    before: usize,
    after: usize,
    // The attributes of an element, linked as children are.
    attribute: usize,
}

enum Lit {
    Text(String),
    Element(String, Vec<(String, String)>, Vec<Lit>),
}

#[derive(Default)]
struct Arena {
    nodes: Vec<Node>,
    free: Vec<usize>,
    next: u128,
    count: usize,
    bytes: usize,
    detached: HashSet<usize>,
}

enum Before {
    Attribute(String),
    Texts(Vec<usize>),
}

impl Arena {
    fn add(&mut self, kind: Kind, name: &str, text: &str, parent: usize) -> usize {
        let node = Node {
            number: self.next,
            kind,
            name: name.to_string(),
            text: text.to_string(),
            parent,
            first: NONE,
            last: NONE,
            before: NONE,
            after: NONE,
            attribute: NONE,
        };
        self.next += 1;
        self.count += 1;
        self.bytes += name.len() + text.len();
        match self.free.pop() {
            Some(at) => {
                self.nodes[at] = node;
                at
            }
            None => {
                self.nodes.push(node);
                self.nodes.len() - 1
            }
        }
    }

    fn plant_at(&mut self, lit: &Lit, parent: usize) -> usize {
        match lit {
            Lit::Text(text) => self.add(Kind::Text, "", text, parent),
            Lit::Element(name, attributes, children) => {
                let at = self.add(Kind::Element, name, "", parent);
                let mut sorted: Vec<&(String, String)> = attributes.iter().collect();
                sorted.sort();
                let mut last = NONE;
                for (name, text) in sorted {
                    let attribute = self.add(Kind::Attribute, name, text, at);
                    self.nodes[attribute].before = last;
                    match last {
                        NONE => self.nodes[at].attribute = attribute,
                        last => self.nodes[last].after = attribute,
                    }
                    last = attribute;
                }
                for child in children {
                    let child = self.plant_at(child, at);
                    self.link_last(child, at);
                }
                at
            }
        }
    }

    fn plant(&mut self, lit: &Lit) -> usize {
        let top = self.plant_at(lit, NONE);
        self.detached.insert(top);
        top
    }

    fn link_last(&mut self, node: usize, parent: usize) {
        let last = self.nodes[parent].last;
        self.nodes[node].before = last;
        self.nodes[node].after = NONE;
        self.nodes[node].parent = parent;
        self.nodes[parent].last = node;
        match last {
            NONE => self.nodes[parent].first = node,
            last => self.nodes[last].after = node,
        }
    }

    fn copy_at(&mut self, node: usize, parent: usize) -> usize {
        let (kind, name, text) = {
            let old = &self.nodes[node];
            (old.kind, old.name.clone(), old.text.clone())
        };
        let at = self.add(kind, &name, &text, parent);
        let mut attribute = self.nodes[node].attribute;
        let mut last = NONE;
        while attribute != NONE {
            let copied = self.copy_at(attribute, at);
            self.nodes[copied].before = last;
            match last {
                NONE => self.nodes[at].attribute = copied,
                last => self.nodes[last].after = copied,
            }
            last = copied;
            attribute = self.nodes[attribute].after;
        }
        let mut child = self.nodes[node].first;
        while child != NONE {
            let copied = self.copy_at(child, at);
            self.link_last(copied, at);
            child = self.nodes[child].after;
        }
        at
    }

    fn copy(&mut self, node: usize) -> usize {
        let top = self.copy_at(node, NONE);
        self.detached.insert(top);
        top
    }

    /// Before the child with this place, or behind them all.
    fn attach(&mut self, node: usize, parent: usize, place: u32) {
        self.detached.remove(&node);
        let mut next = self.nodes[parent].first;
        for _ in 0..place {
            next = self.nodes[next].after;
        }
        if next == NONE {
            self.link_last(node, parent);
            return;
        }
        let before = self.nodes[next].before;
        self.nodes[node].parent = parent;
        self.nodes[node].before = before;
        self.nodes[node].after = next;
        self.nodes[next].before = node;
        match before {
            NONE => self.nodes[parent].first = node,
            before => self.nodes[before].after = node,
        }
    }

    fn may_attach(&self, node: usize, parent: usize, place: u32) -> bool {
        if !self.detached.contains(&node) || self.nodes[parent].kind != Kind::Element {
            return false;
        }
        let mut above = parent;
        while above != NONE {
            if above == node {
                return false;
            }
            above = self.nodes[above].parent;
        }
        let mut left = place;
        let mut child = self.nodes[parent].first;
        while left > 0 && child != NONE {
            left -= 1;
            child = self.nodes[child].after;
        }
        left == 0
    }

    fn print(&self, node: usize, kept: &HashSet<u128>) -> Lit {
        let here = &self.nodes[node];
        if here.kind == Kind::Text {
            return Lit::Text(here.text.clone());
        }
        let mut attributes = Vec::new();
        let mut at = here.attribute;
        while at != NONE {
            let attribute = &self.nodes[at];
            if kept.contains(&attribute.number) {
                attributes.push((attribute.name.clone(), attribute.text.clone()));
            }
            at = attribute.after;
        }
        let mut children = Vec::new();
        let mut at = here.first;
        while at != NONE {
            let child = &self.nodes[at];
            if child.kind == Kind::Text || kept.contains(&child.number) {
                children.push(self.print(at, kept));
            }
            at = child.after;
        }
        Lit::Element(here.name.clone(), attributes, children)
    }

    fn set_text(&mut self, node: usize, text: &str) -> Before {
        if self.nodes[node].kind == Kind::Attribute {
            let old = std::mem::replace(&mut self.nodes[node].text, text.to_string());
            self.bytes = self.bytes - old.len() + text.len();
            return Before::Attribute(old);
        }
        let mut texts = Vec::new();
        let mut child = self.nodes[node].first;
        while child != NONE {
            texts.push(child);
            self.count -= 1;
            self.bytes -= self.nodes[child].text.len();
            child = self.nodes[child].after;
        }
        self.nodes[node].first = NONE;
        self.nodes[node].last = NONE;
        if !text.is_empty() {
            let made = self.add(Kind::Text, "", text, node);
            self.link_last(made, node);
        }
        Before::Texts(texts)
    }

    /// Frees the texts that a node had.
    fn give_up(&mut self, before: Before) {
        if let Before::Texts(texts) = before {
            for text in texts {
                self.nodes[text].text = String::new();
                self.free.push(text);
            }
        }
    }

    fn put_back(&mut self, node: usize, before: Before) {
        match before {
            Before::Attribute(text) => {
                let old = std::mem::replace(&mut self.nodes[node].text, text);
                self.bytes = self.bytes + self.nodes[node].text.len() - old.len();
            }
            Before::Texts(texts) => {
                let mut child = self.nodes[node].first;
                while child != NONE {
                    self.count -= 1;
                    self.bytes -= self.nodes[child].text.len();
                    self.nodes[child].text = String::new();
                    self.free.push(child);
                    child = self.nodes[child].after;
                }
                self.nodes[node].first = NONE;
                self.nodes[node].last = NONE;
                for text in texts {
                    self.count += 1;
                    self.bytes += self.nodes[text].text.len();
                    self.link_last(text, node);
                }
            }
        }
    }

    fn next_in(&self, node: usize, top: usize) -> usize {
        if self.nodes[node].first != NONE {
            return self.nodes[node].first;
        }
        let mut at = node;
        while at != top {
            if self.nodes[at].after != NONE {
                return self.nodes[at].after;
            }
            at = self.nodes[at].parent;
        }
        NONE
    }

    /// How many bytes of text are below a node.
    fn text_size(&self, top: usize) -> u64 {
        let mut size = 0;
        let mut at = top;
        while at != NONE {
            size += self.nodes[at].text.len() as u64;
            at = self.next_in(at, top);
        }
        size
    }

    fn number(&self, node: usize) -> u64 {
        self.nodes[node].number as u64
    }

    /// The sum of the numbers on an axis, each times its place.
    fn axis(&self, node: usize, axis: usize) -> u64 {
        let is_attribute = self.nodes[node].kind == Kind::Attribute;
        let mut sum = Sum::default();
        match axis {
            0 | 5 => {
                let mut at = if axis == 0 { self.nodes[node].first } else { self.nodes[node].attribute };
                while at != NONE {
                    sum.add(self.number(at));
                    at = self.nodes[at].after;
                }
            }
            1 => sum.add(self.number(node)),
            2 => {
                if self.nodes[node].parent != NONE {
                    sum.add(self.number(self.nodes[node].parent));
                }
            }
            3 | 4 => {
                let mut at = if axis == 3 { self.nodes[node].parent } else { node };
                while at != NONE {
                    sum.add(self.number(at));
                    at = self.nodes[at].parent;
                }
            }
            6 | 7 => {
                if axis == 7 {
                    sum.add(self.number(node));
                }
                let mut at = self.next_in(node, node);
                while at != NONE && !is_attribute {
                    sum.add(self.number(at));
                    at = self.next_in(at, node);
                }
            }
            _ => {
                let mut at = node;
                while !is_attribute {
                    at = if axis == 8 { self.nodes[at].after } else { self.nodes[at].before };
                    if at == NONE {
                        break;
                    }
                    sum.add(self.number(at));
                }
            }
        }
        sum.value
    }
}

#[derive(Default)]
struct Sum {
    value: u64,
    place: u64,
}

impl Sum {
    fn add(&mut self, number: u64) {
        self.place += 1;
        self.value = self.value.wrapping_add(number.wrapping_mul(self.place));
    }
}

/// An element with so many rows, each with an attribute, an element and its text.
fn list(name: &str, count: usize) -> Lit {
    let mut children = Vec::new();
    for row in 0..count {
        let text = Lit::Text(format!("{row}"));
        let cell = Lit::Element("a".to_string(), Vec::new(), vec![text]);
        children.push(Lit::Element("row".to_string(), vec![("k".to_string(), "x".to_string())], vec![cell]));
    }
    Lit::Element(name.to_string(), Vec::new(), children)
}

fn rows(count: usize) -> Lit {
    list("d", count)
}

/// `d` with so many groups of rows.
fn groups(count: usize, rows: usize) -> Lit {
    Lit::Element("d".to_string(), Vec::new(), (0..count).map(|_| list("g", rows)).collect())
}

fn size(lit: &Lit) -> u64 {
    match lit {
        Lit::Text(text) => text.len() as u64,
        Lit::Element(name, attributes, children) => {
            let own = name.len() + attributes.iter().map(|a| a.0.len() + a.1.len()).sum::<usize>();
            own as u64 + children.iter().map(size).sum::<u64>()
        }
    }
}

/// Plants a tree of 65,533 nodes and prints it.
fn print_all() -> u64 {
    let lit = rows(16383);
    let mut arena = Arena::default();
    let top = arena.plant(&lit);
    let kept: HashSet<u128> = (0..arena.next).collect();
    size(&arena.print(top, &kept)).wrapping_add(arena.count as u64)
}

/// Walks every axis from every node of a tree.
fn walk_all(lit: &Lit) -> u64 {
    let mut arena = Arena::default();
    arena.plant(lit);
    let mut sum = 0u64;
    for node in 0..arena.nodes.len() {
        for axis in 0..10 {
            sum = sum.wrapping_mul(31).wrapping_add(arena.axis(node, axis));
        }
    }
    sum
}

/// The sum of all below each node of a tree of 65,533 nodes, forty times for the top.
fn descend() -> u64 {
    let mut arena = Arena::default();
    let top = arena.plant(&rows(16383));
    let mut sum = 0u64;
    for _ in 0..40 {
        sum = sum.wrapping_mul(31).wrapping_add(arena.axis(top, 6));
    }
    sum
}

/// Doubles rows to the limit of nodes, each copy behind all others.
fn double() -> u64 {
    let mut arena = Arena::default();
    let top = arena.plant(&rows(1));
    let mut all = vec![arena.nodes[top].first];
    while all.len() < 8192 {
        for at in 0..all.len() {
            let copy = arena.copy(all[at]);
            if !arena.may_attach(copy, top, all.len() as u32) {
                return 0;
            }
            arena.attach(copy, top, all.len() as u32);
            all.push(copy);
        }
    }
    arena.next as u64 + arena.axis(top, 6)
}

/// Sets 100,000 texts, each third of them to this one, and gives the first ones back.
fn set_and_undo(third: &str) -> u64 {
    let mut draft = Draft::new(Arena::default());
    draft.arena.plant(&rows(10000));
    for change in 0..100_000 {
        draft.set_text((change * 7 % 10000) * 4 + 3, if change % 3 == 0 { third } else { "changed" });
    }
    let changed = draft.arena.text_size(0);
    draft.roll_back();
    changed.wrapping_mul(31).wrapping_add(draft.arena.text_size(0))
}

fn main() {
    let name = env::args().nth(1).unwrap_or_default();
    let number = |at| env::args().nth(at).and_then(|word| word.parse().ok()).unwrap_or(0);
    let size = number(2);
    let answer = match name.as_str() {
        name if size > 0 => growth::done(name, size, number(3)),
        "print" => print_all(),
        "walk" => walk_all(&groups(20, 25)),
        "rows" => walk_all(&rows(500)),
        "descend" => descend(),
        "double" => double(),
        "undo" => set_and_undo("other"),
        _ => set_and_undo(""),
    };
    println!("{answer}");
}
