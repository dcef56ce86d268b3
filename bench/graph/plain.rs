// The same work on plain lists of readers, with the standard library alone.
use std::time::Instant;

struct Graph {
    readers: Vec<Vec<u32>>,
    stamps: Vec<u32>,
    stamp: u32,
}

fn next(draw: &mut u64) -> u32 {
    *draw = draw.wrapping_mul(6_364_136_223_846_793_005).wrapping_add(1);
    (*draw >> 33) as u32
}

fn build(size: u32, edges: u32) -> Graph {
    let mut readers = vec![Vec::new(); size as usize];
    let part = size.saturating_sub(11).max(1);
    let mut draw = 1u64;
    for _ in 0..edges {
        let one = next(&mut draw) % part;
        let other = next(&mut draw) % part;
        let (from, to) = (one.min(other), one.max(other));
        if one != other && !readers[from as usize].contains(&to) {
            readers[from as usize].push(to);
        }
    }
    for reader in 1..11 {
        readers[part as usize].push(part + reader);
    }
    Graph { readers, stamps: vec![0; size as usize], stamp: 0 }
}

fn order(graph: &Graph) -> Vec<u32> {
    let size = graph.readers.len();
    let mut sources = vec![0u32; size];
    for readers in &graph.readers {
        for reader in readers {
            sources[*reader as usize] += 1;
        }
    }
    let mut order: Vec<u32> = (0..size as u32).filter(|v| sources[*v as usize] == 0).collect();
    let mut at = 0;
    while at < order.len() {
        for reader in &graph.readers[order[at] as usize] {
            sources[*reader as usize] -= 1;
            if sources[*reader as usize] == 0 {
                order.push(*reader);
            }
        }
        at += 1;
    }
    order
}

fn pertinent(graph: &mut Graph, changed: u32) -> Vec<u32> {
    graph.stamp += 1;
    let mut left = Vec::new();
    let mut steps = vec![(changed, false)];
    while let Some((vertex, leaves)) = steps.pop() {
        if leaves {
            left.push(vertex);
        } else if graph.stamps[vertex as usize] != graph.stamp {
            graph.stamps[vertex as usize] = graph.stamp;
            steps.push((vertex, true));
            for reader in &graph.readers[vertex as usize] {
                steps.push((*reader, false));
            }
        }
    }
    left.reverse();
    left
}

fn main() {
    let start = Instant::now();
    let large = build(100_000, 1_000_000);
    println!("build of 10^5 vertices and 10^6 edges, microseconds: {}", start.elapsed().as_micros());
    for _ in 0..5 {
        let start = Instant::now();
        let vertices = order(&large);
        let taken = start.elapsed().as_micros();
        println!("order of {}, microseconds: {taken}", vertices.len());
    }
    for size in [1_000, 10_000, 100_000] {
        let mut graph = build(size, size * 10);
        let vertex = size - 11;
        for _ in 0..3 {
            let mut reached = 0;
            let start = Instant::now();
            for _ in 0..100_000 {
                reached = pertinent(&mut graph, vertex).len();
            }
            println!("pertinent of {reached} among {size}, 10^5 times, microseconds: {}", start.elapsed().as_micros());
        }
    }
}
