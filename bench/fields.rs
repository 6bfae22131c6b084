// The loops of crates/field_bench in Rust: `fields FORM` reads lines `CALL P ROUNDS`, and prints the sum of
// what the rounds leave. FORM is `quotient`, the same algorithm, or `remainder`, the plain one by `%`.
use std::io::BufRead;

const WIDTH: usize = 4096;

fn residues<const P: u32>(seed: u32) -> Vec<u32> {
    let mut state = seed as u64;
    (0..WIDTH)
        .map(|_| {
            state = 16807 * state % 2147483647;
            (state % P as u64) as u32
        })
        .collect()
}

#[derive(Clone, Copy)]
struct Multiple<const P: u32> {
    factor: u32,
    ratio: u32,
}

impl<const P: u32> Multiple<P> {
    fn of(factor: u32) -> Self {
        let ratio = if P <= 65536 {
            (factor << 16) / P
        } else {
            (((factor as u64) << 32) / P as u64) as u32
        };
        Multiple { factor, ratio }
    }

    fn times(self, b: u32) -> u32 {
        let quotient = if P <= 65536 {
            self.ratio.wrapping_mul(b) >> 16
        } else {
            ((self.ratio as u64 * b as u64) >> 32) as u32
        };
        let rest = self.factor.wrapping_mul(b).wrapping_sub(quotient.wrapping_mul(P));
        rest.min(rest.wrapping_sub(P))
    }

    fn added(self, a: u32, b: u32) -> u32 {
        let sum = a + self.times(b);
        sum.min(sum.wrapping_sub(P))
    }
}

#[inline(never)]
fn axpy_quotient<const P: u32>(sum: &mut [u32], c: u32, row: &[u32]) {
    let multiple = Multiple::<P>::of(c);
    for (a, b) in sum.iter_mut().zip(row) {
        *a = multiple.added(*a, *b);
    }
}

#[inline(never)]
fn axpy_remainder<const P: u32>(sum: &mut [u32], c: u32, row: &[u32]) {
    for (a, b) in sum.iter_mut().zip(row) {
        *a = ((*a as u64 + c as u64 * *b as u64) % P as u64) as u32;
    }
}

#[inline(never)]
fn scale_quotient<const P: u32>(sum: &mut [u32], c: u32) {
    let multiple = Multiple::<P>::of(c);
    for a in sum.iter_mut() {
        *a = multiple.times(*a);
    }
}

#[inline(never)]
fn scale_remainder<const P: u32>(sum: &mut [u32], c: u32) {
    for a in sum.iter_mut() {
        *a = (*a as u64 * c as u64 % P as u64) as u32;
    }
}

#[inline(never)]
fn dot_quotient<const P: u32>(x: &[u32], y: &[u32]) -> u32 {
    let mut total = 0;
    for (x, y) in x.chunks(1 << 15).zip(y.chunks(1 << 15)) {
        let sum: u64 = x.iter().zip(y).map(|(a, b)| *a as u64 * *b as u64).sum();
        total = (total + sum) % P as u64;
    }
    total as u32
}

#[inline(never)]
fn dot_remainder<const P: u32>(x: &[u32], y: &[u32]) -> u32 {
    let mut total = 0;
    for (a, b) in x.iter().zip(y) {
        total = (total + *a as u64 * *b as u64) % P as u64;
    }
    total as u32
}

fn measured<const P: u32>(quotient: bool, call: &str, rounds: u32) -> u64 {
    let row = residues::<P>(1);
    let mut sum = residues::<P>(2);
    for round in 0..rounds {
        match (call, quotient) {
            ("axpy", true) => axpy_quotient::<P>(&mut sum, round % P, &row),
            ("axpy", false) => axpy_remainder::<P>(&mut sum, round % P, &row),
            ("scale", true) => scale_quotient::<P>(&mut sum, (2 * P - round % 2 - 1) % P),
            ("scale", false) => scale_remainder::<P>(&mut sum, (2 * P - round % 2 - 1) % P),
            ("dot", true) => sum[round as usize % WIDTH] = dot_quotient::<P>(&sum, &row),
            ("dot", false) => sum[round as usize % WIDTH] = dot_remainder::<P>(&sum, &row),
            _ => panic!("no call of that name"),
        }
    }
    sum.iter().map(|number| *number as u64).sum()
}

fn main() {
    let quotient = std::env::args().nth(1).as_deref() == Some("quotient");
    for line in std::io::stdin().lock().lines() {
        let line = line.unwrap();
        let words: Vec<&str> = line.split(' ').collect();
        let rounds = words[2].parse().unwrap();
        let sum = match words[1] {
            "3" => measured::<3>(quotient, words[0], rounds),
            "65521" => measured::<65521>(quotient, words[0], rounds),
            _ => panic!("no arm for that characteristic"),
        };
        println!("{sum}");
    }
}
