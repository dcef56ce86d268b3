// Rows of quantities, prices and sums in vectors: each line sets the first quantity, and all sums and their total are made anew.
use std::io::{BufRead, Write};

fn main() {
    let count: usize = std::env::args().nth(1).unwrap().parse().unwrap();
    let mut quantities = vec![2.0f64; count];
    let prices = vec![3.5f64; count];
    let mut sums = vec![0.0f64; count];
    let mut total = 0.0;
    let (input, output) = (std::io::stdin(), std::io::stdout());
    let mut output = output.lock();
    for (at, line) in input.lock().lines().enumerate() {
        let line = line.unwrap();
        let text = line.rsplit('"').nth(1).unwrap();
        quantities[0] = text.parse().unwrap();
        for row in 0..count {
            sums[row] = quantities[row] * prices[row];
        }
        total = sums.iter().sum();
        writeln!(output, "ok {}", at + 1).unwrap();
        output.flush().unwrap();
    }
    eprintln!("{total}");
}
