//! The works of growth.mod.txt over the plain arena.
use crate::draft::Draft;
use crate::{Arena, Kind, Lit, NONE, rows};
use std::collections::HashMap;
use std::fmt::Write;

/// Does the work of a name so often.
pub fn done(name: &str, size: usize, times: usize) -> u64 {
    match name {
        "paths" => paths(size, times),
        "next" => neighbours(size, times, |arena, node| arena.nodes[node].after),
        "previous" => neighbours(size, times, |arena, node| arena.nodes[node].before),
        "named" => named(size, times),
        "sets" => events(size, times),
        "leaves" => leaves(size, times, "", None, false),
        "fill" => leaves(size, times, "", Some("filled"), false),
        "fill-back" => leaves(size, times, "", Some("filled"), true),
        "texts" => leaves(size, times, "emptied", None, false),
        "clear" => leaves(size, times, "emptied", Some(""), false),
        _ => leaves(size, times, "emptied", Some(""), true),
    }
}

impl Arena {
    /// Puts a root over the top of a tree.
    fn add_root(&mut self, top: usize) -> usize {
        self.detached.remove(&top);
        let root = self.add(Kind::Root, "", "", NONE);
        // A root is none of the nodes that are counted.
        self.count -= 1;
        self.link_last(top, root);
        root
    }

    /// Tells the path of each node from this one down, in document order. `path` is that of this node, empty for a root.
    fn each_path(&self, node: usize, path: &mut String, told: &mut impl FnMut(&str)) {
        told(if path.is_empty() { "/" } else { path });
        let length = path.len();
        let mut at = self.nodes[node].attribute;
        while at != NONE {
            path.push_str("/@");
            path.push_str(&self.nodes[at].name);
            told(path);
            path.truncate(length);
            at = self.nodes[at].after;
        }
        let mut names = self.names_below(node);
        let mut texts = 0;
        let mut at = self.nodes[node].first;
        while at != NONE {
            if self.nodes[at].kind == Kind::Text {
                texts += 1;
                write!(path, "/text()[{texts}]").unwrap();
                told(path);
            } else {
                let (count, seen) = names.get_mut(self.nodes[at].name.as_str()).unwrap();
                *seen += 1;
                path.push('/');
                path.push_str(&self.nodes[at].name);
                if *count > 1 {
                    write!(path, "[{seen}]").unwrap();
                }
                self.each_path(at, path, told);
            }
            path.truncate(length);
            at = self.nodes[at].after;
        }
    }

    /// How often each name is there among the children, and none of them seen.
    fn names_below(&self, node: usize) -> HashMap<&str, (usize, usize)> {
        let mut names = HashMap::new();
        let mut at = self.nodes[node].first;
        while at != NONE {
            if self.nodes[at].kind == Kind::Element {
                names.entry(self.nodes[at].name.as_str()).or_insert((0, 0)).0 += 1;
            }
            at = self.nodes[at].after;
        }
        names
    }

    /// The children that are elements of this name.
    fn named(&self, node: usize, name: &str) -> Vec<usize> {
        let mut found = Vec::new();
        let mut at = self.nodes[node].first;
        while at != NONE {
            if self.is_named(at, name) {
                found.push(at);
            }
            at = self.nodes[at].after;
        }
        found
    }

    fn is_named(&self, node: usize, name: &str) -> bool {
        self.nodes[node].kind == Kind::Element && self.nodes[node].name == name
    }
}

/// An arena with one tree under a root: the top is the first node.
fn rooted(lit: &Lit) -> (Arena, usize) {
    let mut arena = Arena::default();
    let top = arena.plant(lit);
    let root = arena.add_root(top);
    (arena, root)
}

/// The paths of all nodes of rows in document order.
fn paths(size: usize, times: usize) -> u64 {
    let (arena, root) = rooted(&rows(size / 4));
    let mut sum = 0u64;
    for round in 0..times {
        let mut text = String::new();
        arena.each_path(root, &mut String::new(), &mut |path| {
            text.clear();
            text.push_str(path);
            let told = if round == 0 { sum_of_bytes(&text) } else { text.len() as u64 };
            sum = sum.wrapping_mul(31).wrapping_add(told);
        });
    }
    sum
}

fn sum_of_bytes(text: &str) -> u64 {
    text.bytes().fold(0, |sum, byte| sum.wrapping_mul(31).wrapping_add(u64::from(byte)))
}

/// From each of the rows the nearest one in a direction.
fn neighbours(size: usize, times: usize, step: impl Fn(&Arena, usize) -> usize) -> u64 {
    let (arena, _) = rooted(&rows(size / 4));
    let children = arena.named(0, "row");
    let mut sum = 0u64;
    for _ in 0..times {
        for &child in &children {
            let mut near = step(&arena, child);
            while near != NONE && !arena.is_named(near, "row") {
                near = step(&arena, near);
            }
            if near != NONE {
                sum = sum.wrapping_mul(31).wrapping_add(arena.number(near));
            }
        }
    }
    sum
}

/// The rows by their name.
fn named(size: usize, times: usize) -> u64 {
    let (arena, _) = rooted(&rows(size / 4));
    let mut sum = 0u64;
    for _ in 0..times {
        for node in arena.named(0, "row") {
            sum = sum.wrapping_mul(31).wrapping_add(arena.number(node));
        }
    }
    sum
}

/// An element with so many leaves, each with this text, or with none where it is empty.
fn leaf_list(count: usize, text: &str) -> Lit {
    let leaf = || {
        let texts = if text.is_empty() { Vec::new() } else { vec![Lit::Text(text.to_string())] };
        Lit::Element("a".to_string(), Vec::new(), texts)
    };
    Lit::Element("d".to_string(), Vec::new(), (0..count).map(|_| leaf()).collect())
}

/// Sets each of so many leaves to a text, from the last one on where `is_back`. The places of two of them differ by `step`.
fn set_all(draft: &mut Draft, count: usize, step: usize, text: &str, is_back: bool) {
    for at in 0..count {
        let at = if is_back { count - 1 - at } else { at };
        draft.set_text(at * step + 1, text);
    }
}

/// What stands below the top: its numbers, and how many bytes of text.
fn checked(arena: &Arena) -> u64 {
    arena.axis(0, 6).wrapping_mul(31).wrapping_add(arena.text_size(0))
}

/// Plants leaves with a text and gives them another, where one is given, as one event.
fn leaves(size: usize, times: usize, had: &str, text: Option<&str>, is_back: bool) -> u64 {
    let lit = leaf_list(size / 2, had);
    let step = if had.is_empty() { 1 } else { 2 };
    let mut sum = 0u64;
    for _ in 0..times {
        let (arena, _) = rooted(&lit);
        let mut draft = Draft::new(arena);
        if let Some(text) = text {
            set_all(&mut draft, size / 2, step, text, is_back);
            draft.commit();
        }
        sum = sum.wrapping_mul(31).wrapping_add(checked(&draft.arena));
    }
    sum
}

/// So many events, each of which sets all texts of leaves in document order.
fn events(size: usize, times: usize) -> u64 {
    let (arena, _) = rooted(&leaf_list(size / 2, "first"));
    let mut draft = Draft::new(arena);
    for round in 0..times {
        let text = if round % 2 == 0 { "changed" } else { "other" };
        set_all(&mut draft, size / 2, 2, text, false);
        draft.commit();
    }
    checked(&draft.arena)
}
