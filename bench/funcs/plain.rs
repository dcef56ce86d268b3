//! The same as main.rt.txt by plain loops over characters, with std alone.

const PIECE: &str = "The quick brown  fox\tjumps over 13 lazy dogs; d\u{e9}j\u{e0} vu,\n  \u{1f600} said he.  ";
const LETTERS: &str = "abcdefghijklmnopqrstuvwxyz;,";
const IMAGES: &str = "ABCDEFGHIJKLMNOPQRSTUVWXYZ";

fn translate(text: &str, from: &str, to: &str) -> String {
    let from: Vec<char> = from.chars().collect();
    let to: Vec<char> = to.chars().collect();
    let mut made = String::with_capacity(text.len());
    for c in text.chars() {
        match from.iter().position(|f| *f == c) {
            None => made.push(c),
            Some(place) => {
                if let Some(image) = to.get(place) {
                    made.push(*image);
                }
            }
        }
    }
    made
}

fn normalize_space(text: &str) -> String {
    let mut made = String::with_capacity(text.len());
    let mut space_due = false;
    for c in text.chars() {
        if matches!(c, ' ' | '\t' | '\n' | '\r') {
            space_due = !made.is_empty();
            continue;
        }
        if space_due {
            made.push(' ');
        }
        made.push(c);
        space_due = false;
    }
    made
}

fn mixed(check: u64, bytes: &[u8]) -> u64 {
    let start = check.wrapping_mul(31).wrapping_add(bytes.len() as u64);
    bytes.iter().rev().take(100).fold(start, |mixed, byte| mixed.wrapping_mul(31).wrapping_add(u64::from(*byte)))
}

fn main() {
    let name = std::env::args().nth(1).unwrap_or_default();
    let text = PIECE.repeat(14_200);
    let mut check = 0u64;
    for _ in 0..40 {
        let made = match name.as_str() {
            "translate" => translate(&text, LETTERS, IMAGES),
            _ => normalize_space(&text),
        };
        check = mixed(check, made.as_bytes());
    }
    println!("{check}");
}
