//! Times a function beside another on the same arguments: in a slow sweep, as levels and phases move, and in no order, where
//! branches are guessed wrong.

use std::hint::black_box;
use std::time::Instant;

const ARGUMENTS: usize = 4096;
const BATCHES: usize = 400;

fn sweep(lo: f32, hi: f32) -> Vec<f32> {
    (0..ARGUMENTS).map(|i| lo + (hi - lo) * (i as f32 + 0.5) / ARGUMENTS as f32).collect()
}

/// The same arguments in no order.
fn shuffled(mut xs: Vec<f32>) -> Vec<f32> {
    let mut s = 0x2545_f491u32;
    for i in (1..xs.len()).rev() {
        s ^= s << 13;
        s ^= s >> 17;
        s ^= s << 5;
        xs.swap(i, s as usize % (i + 1));
    }
    xs
}

/// Nanoseconds a call, the best of the batches. The answers are joined in a register: through one place in memory a call would wait for the one before.
fn best(xs: &[f32], f: impl Fn(f32) -> f32) -> f64 {
    let batch = || {
        let start = Instant::now();
        let all = black_box(xs).iter().fold(0, |all, &x| all ^ f(x).to_bits());
        black_box(all);
        start.elapsed().as_nanos() as f64 / xs.len() as f64
    };
    (0..BATCHES).map(|_| batch()).fold(f64::INFINITY, f64::min)
}

/// One line: both times and their ratio, for each order.
pub fn compare(name: &str, (lo, hi): (f32, f32), port: unsafe extern "C" fn(f32) -> f32, rust: fn(f32) -> f32) {
    // unknown to the compiler, so that neither is put into the loop
    let (port, rust) = black_box((port, rust));
    let told = |xs: Vec<f32>| {
        let (p, r) = (best(&xs, |x| unsafe { port(x) }), best(&xs, rust));
        format!("{p:5.1} ns, Rust's {r:5.1} ns, ratio {:5.2}", p / r)
    };
    let (slow, any) = (told(sweep(lo, hi)), told(shuffled(sweep(lo, hi))));
    println!("{name:6} sweep {slow}; in no order {any}; {lo} to {hi}");
}
