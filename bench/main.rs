//! Times the proved roundings against two programs in Rust, on the same operands in one run.
mod inputs;
mod plain;
mod words;

use inputs::{Kind, Pair, Random, KINDS, KINDS_OF_SUMS};
use std::time::Instant;

/// Rows of a column. They are timed in blocks, short enough that some round is not interrupted.
const ROWS: usize = 1_000_000;
const BLOCK: usize = 25_000;

/// How often each block is timed. The shortest time counts.
const ROUNDS: usize = 15;
const SEED: u64 = 0x2545_f491_4f6c_dd1d;

/// The numbers of an accepted call, and of one that is refused for the operands of some row.
const ACCEPTED: u32 = 0;
const BAD_OPERANDS: u32 = 5;

// A slice is passed as a pointer and a length.
extern "C" {
    fn rounding_exports_sums(
        a: *const u64,
        m: usize,
        b: *const u64,
        n: usize,
        out: *mut u64,
        k: usize,
    ) -> u32;
    fn rounding_exports_products(
        a: *const u64,
        m: usize,
        b: *const u64,
        n: usize,
        out: *mut u64,
        k: usize,
    ) -> u32;
    fn rounding_exports_quotients(
        a: *const u64,
        m: usize,
        b: *const u64,
        n: usize,
        out: *mut u64,
        k: usize,
    ) -> u32;
}

type Exported = unsafe extern "C" fn(*const u64, usize, *const u64, usize, *mut u64, usize) -> u32;
type Columns = fn(&[u64], &[u64], &mut [u64]);

struct Operation {
    name: &'static str,
    kinds: &'static [Kind],
    plain: Columns,
    words: Columns,
    proved: Exported,
}

const OPERATIONS: [Operation; 3] = [
    Operation {
        name: "sums",
        kinds: &KINDS_OF_SUMS,
        plain: |a, b, out| fill(plain::add_ru, a, b, out),
        words: |a, b, out| fill(words::add_ru, a, b, out),
        proved: rounding_exports_sums,
    },
    Operation {
        name: "products",
        kinds: &KINDS,
        plain: |a, b, out| fill(plain::mul_ru, a, b, out),
        words: |a, b, out| fill(words::mul_ru, a, b, out),
        proved: rounding_exports_products,
    },
    Operation {
        name: "quotients",
        kinds: &KINDS,
        plain: |a, b, out| fill(plain::div_ru, a, b, out),
        words: |a, b, out| fill(words::div_ru, a, b, out),
        proved: rounding_exports_quotients,
    },
];

fn fill(round: impl Fn(u64, u64) -> u64, a: &[u64], b: &[u64], out: &mut [u64]) {
    for ((x, y), r) in a.iter().zip(b).zip(out) {
        *r = round(*x, *y);
    }
}

/// Keeps the shorter time, in nanoseconds.
fn time(least: &mut f64, run: impl FnOnce()) {
    let start = Instant::now();
    run();
    *least = least.min(start.elapsed().as_nanos() as f64);
}

/// Calls a proved function on columns of one length, and gives back its number.
fn call(proved: Exported, a: &[u64], b: &[u64], out: &mut [u64]) -> u32 {
    let (p, q, r) = (a.as_ptr(), b.as_ptr(), out.as_mut_ptr());
    // Each pointer goes with its own column's length.
    unsafe { proved(p, a.len(), q, b.len(), r, out.len()) }
}

/// The times of a row by the three programs, on operands of one kind.
/// A proved function judges all rows before it writes one, as the Rust programs do not. A call that it
/// refuses for its last row judges them all and writes none, so that its time is taken off.
fn measure(operation: &Operation, pair: Pair) -> [f64; 3] {
    let mut random = Random(SEED);
    let (a, b): (Vec<u64>, Vec<u64>) = (0..ROWS).map(|_| pair(&mut random)).unzip();
    let mut total = [0.0; 3];
    let mut out = [[0; BLOCK]; 3];
    for (a, b) in a.chunks(BLOCK).zip(b.chunks(BLOCK)) {
        let mut refused = a.to_vec();
        refused[BLOCK - 1] = plain::INFINITY;
        let mut least = [f64::INFINITY; 3];
        let mut judging = f64::INFINITY;
        let (mut number, mut refusal) = (ACCEPTED, BAD_OPERANDS);
        for _ in 0..ROUNDS {
            time(&mut least[0], || (operation.plain)(a, b, &mut out[0]));
            time(&mut least[1], || (operation.words)(a, b, &mut out[1]));
            time(&mut least[2], || {
                number = call(operation.proved, a, b, &mut out[2])
            });
            time(&mut judging, || {
                refusal = call(operation.proved, &refused, b, &mut out[2])
            });
            assert!(
                number == ACCEPTED && refusal == BAD_OPERANDS,
                "{}: the numbers are {number} and {refusal}",
                operation.name
            );
        }
        assert!(
            out[0] == out[2] && out[1] == out[2],
            "{}: the programs differ",
            operation.name
        );
        least[2] -= judging;
        for (sum, one) in total.iter_mut().zip(least) {
            *sum += one / ROWS as f64;
        }
    }
    total
}

fn report(name: &str, kind: &str, [plain, words, proved]: [f64; 3]) {
    println!(
        "{name:<10}{kind:<15}{plain:>9.2}{words:>9.2}{proved:>9.2}{:>9.2}{:>9.2}",
        proved / plain,
        proved / words
    );
}

fn main() {
    println!(
        "{:<25}{:>9}{:>9}{:>9}{:>9}{:>9}",
        "nanoseconds", "plain", "words", "Rattle", "/ plain", "/ words"
    );
    for operation in &OPERATIONS {
        let mut together = [0.0; 3];
        for &(kind, pair) in operation.kinds {
            let times = measure(operation, pair);
            report(operation.name, kind, times);
            for (mean, one) in together.iter_mut().zip(times) {
                *mean += one / operation.kinds.len() as f64;
            }
        }
        report(operation.name, "all of these", together);
    }
}
