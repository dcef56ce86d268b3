//! The same as main.rt.txt over plain i128, with std alone.

const TEXTS: [&str; 8] = ["0", "12.5", "-3.75", "0.000001", "1234.5678", "-99999.999999", " 7 ", "250000"];
const LIMIT: i128 = 1_000_000_000_000_000_000;

fn in_range(units: i128) -> Option<i128> {
    if -LIMIT < units && units < LIMIT { Some(units) } else { None }
}

fn read(text: &str) -> Option<i128> {
    let text = text.trim_matches([' ', '\t', '\r', '\n']);
    let (minus, digits) = match text.strip_prefix('-') {
        Some(rest) => (true, rest),
        None => (false, text),
    };
    let (whole, decimals) = digits.split_once('.').unwrap_or((digits, ""));
    if whole.is_empty() && decimals.is_empty() {
        return None;
    }
    let mut units: i128 = 0;
    for byte in whole.bytes() {
        if !byte.is_ascii_digit() {
            return None;
        }
        units = (units * 10 + i128::from(byte - b'0')).min(LIMIT);
    }
    let mut places = 0;
    for byte in decimals.bytes() {
        if !byte.is_ascii_digit() {
            return None;
        }
        if places < 6 {
            units = (units * 10 + i128::from(byte - b'0')).min(LIMIT);
            places += 1;
        }
    }
    units *= 10i128.pow(6 - places);
    in_range(if minus { -units } else { units })
}

fn print(number: Option<i128>) -> String {
    let Some(units) = number else {
        return "NaN".to_string();
    };
    let size = units.unsigned_abs();
    let sign = if units < 0 { "-" } else { "" };
    let mut text = format!("{sign}{}.{:06}", size / 1_000_000, size % 1_000_000);
    let kept = text.trim_end_matches('0').trim_end_matches('.').len();
    text.truncate(kept);
    text
}

fn mixed(check: u64, bytes: &[u8]) -> u64 {
    bytes.iter().fold(check, |mixed, byte| mixed.wrapping_mul(31).wrapping_add(u64::from(*byte)))
}

fn main() {
    let mut check = 0u64;
    for i in 0..1_000_000usize {
        let a = read(TEXTS[i % 8]);
        let b = read(TEXTS[i / 8 % 8]);
        let sum = a.zip(b).and_then(|(a, b)| in_range(a + b));
        check = mixed(check, print(sum).as_bytes());
        let product = a.zip(b).and_then(|(a, b)| in_range(a * b / 1_000_000));
        check = mixed(check, print(product).as_bytes());
    }
    println!("{check}");
}
