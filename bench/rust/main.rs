//! The work of the crate `bench` in plain Rust: the same inputs from the same generator, the same checksums on standard
//! output, and times on standard error, each the least of five.

use std::hint::black_box;
use std::time::Instant;

const ROWS: u64 = 10_000_000;
const PATCHES: usize = 1_000_000;
const LOOKUPS: usize = 1_000_000;
const REPEATS: usize = 5;

/// Pseudo-random numbers: a linear congruential generator over 64 bits, of which the upper 31 are given out.
struct Generator {
    state: u64,
}

impl Generator {
    fn new(seed: u64) -> Self {
        Generator { state: seed }
    }

    fn next(&mut self) -> u64 {
        self.state = self
            .state
            .wrapping_mul(6364136223846793005)
            .wrapping_add(1442695040888963407);
        self.state >> 33
    }

    fn below(&mut self, bound: u64) -> u64 {
        self.next() % bound
    }
}

/// Rising indices, each 1 to 18 above the one before.
fn make_indices() -> Vec<u32> {
    let mut generator = Generator::new(1);
    let mut index = 0u32;
    let mut indices = Vec::with_capacity(PATCHES);
    for _ in 0..PATCHES {
        index = index.wrapping_add(generator.below(18) as u32 + 1);
        indices.push(index);
    }
    indices
}

fn make_values() -> Vec<i64> {
    let mut generator = Generator::new(2);
    (0..PATCHES).map(|_| generator.next() as i64).collect()
}

fn make_rows() -> Vec<u64> {
    let mut generator = Generator::new(3);
    (0..LOOKUPS).map(|_| generator.below(ROWS)).collect()
}

/// Whether the indices rise.
#[inline(never)]
fn is_rising(indices: &[u32]) -> bool {
    indices.windows(2).all(|pair| pair[0] < pair[1])
}

/// The sum of the values of the rows that have one, added to a sum.
#[inline(never)]
fn add_lookups(indices: &[u32], values: &[i64], rows: &[u64], sum: i64) -> i64 {
    let mut sum = sum;
    for &row in rows {
        if let Ok(place) = indices.binary_search(&(row as u32)) {
            if let Some(&value) = values.get(place) {
                sum = sum.wrapping_add(value);
            }
        }
    }
    sum
}

/// Writes every value to the cell of its index.
#[inline(never)]
fn patch_all(indices: &[u32], values: &[i64], cells: &mut [i64]) {
    for (&index, &value) in indices.iter().zip(values) {
        cells[index as usize] = value;
    }
}

/// A sum of the cells in which each place counts.
fn mixed(cells: &[i64]) -> i64 {
    let mut sum = 0i64;
    for &cell in cells {
        sum = sum.wrapping_mul(31).wrapping_add(cell);
    }
    sum
}

/// Prints the least time of a piece of work that is done again and again.
fn time(name: &str, mut work: impl FnMut()) {
    let mut least = u128::MAX;
    for _ in 0..REPEATS {
        let start = Instant::now();
        work();
        least = least.min(start.elapsed().as_nanos());
    }
    eprintln!("{name} {least}");
}

/// Looks all rows up, and prints the sum of all repeats.
fn run_lookups(name: &str, indices: &[u32], values: &[i64], rows: &[u64]) {
    let mut sum = 0;
    time(name, || sum = add_lookups(black_box(indices), values, rows, sum));
    println!("{name} {sum}");
}

fn main() {
    let indices = make_indices();
    let values = make_values();
    let rows = make_rows();
    for name in ["load", "load_with_chunks"] {
        let mut loaded = 0;
        time(name, || loaded += is_rising(black_box(&indices)) as u64);
        println!("{name} {loaded}");
    }
    run_lookups("lookup", &indices, &values, &rows);
    run_lookups("lookup_with_chunks", &indices, &values, &rows);
    let mut cells = vec![0i64; ROWS as usize];
    time("patch_chunk", || patch_all(black_box(&indices), &values, &mut cells));
    println!("patch_chunk {}", mixed(&cells));
}
