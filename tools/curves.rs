//! Measures the port's curves on every f32 against Rust's f64 functions: the worst distance in the scope's terms, the
//! worst error in units of the last place, and the answers outside a curve's range. sqrt must equal Rust's outright.
//!
//!     --every N   only every Nth bit pattern (default 1)
//!     --time      times each curve beside Rust's library instead
//!     --against F compares each curve's answers, bit for bit, with those of another build instead: F is a shared library of it
//!     CURVE...    only these
//!
//! Links curves_c.

#[path = "curves/builds.rs"]
mod builds;
#[path = "curves/timing.rs"]
mod timing;

use std::sync::atomic::{AtomicU64, Ordering};
use std::sync::Mutex;

extern "C" {
    fn rytm_exp2(x: f32) -> f32;
    fn rytm_exp(x: f32) -> f32;
    fn rytm_pow10(x: f32) -> f32;
    fn rytm_sin(x: f32) -> f32;
    fn rytm_cos(x: f32) -> f32;
    fn rytm_tan(x: f32) -> f32;
    fn rytm_tanh(x: f32) -> f32;
    fn rytm_log10(x: f32) -> f32;
    fn rytm_sqrt(x: f32) -> f32;
}

const THREADS: usize = 2;
const NAN: f32 = f32::NAN;
const INF: f32 = f32::INFINITY;

struct Curve {
    name: &'static str,
    port: builds::Port,
    exact: fn(f64) -> f64,
    range: &'static str,
    inside: fn(f32) -> bool,
    /// The answer where the argument is not inside.
    outside: fn(f32) -> f32,
    relative: bool,
    /// The distance allowed is two to this.
    bound: i32,
    /// Rust's own, and the arguments on which both are timed.
    rust: fn(f32) -> f32,
    timed: (f32, f32),
    specials: &'static [f32],
}

const CURVES: [Curve; 8] = [
    Curve {
        name: "exp2",
        port: rytm_exp2,
        exact: f64::exp2,
        range: "-126 to below 127",
        inside: |x| (-126.0..127.0).contains(&x),
        outside: |x| if x < -126.0 { 0.0 } else if x >= 127.0 { INF } else { NAN },
        relative: true,
        bound: -18,
        rust: f32::exp2,
        timed: (-8.0, 1.0),
        specials: &[-INF, -1000.0, -126.00001, -126.0, -1.0, -0.0, 0.0, 1e-45, 1.0, 126.0, 126.99999, 127.0, 128.0, INF, NAN],
    },
    Curve {
        name: "exp",
        port: rytm_exp,
        exact: f64::exp,
        range: "-3 to 0",
        inside: |x| (-3.0..=0.0).contains(&x),
        outside: |_| NAN,
        relative: true,
        bound: -18,
        rust: f32::exp,
        timed: (-3.0, 0.0),
        specials: &[-INF, -3.0000002, -3.0, -1.0, -1e-45, -0.0, 0.0, 1e-45, 1.0, INF, NAN],
    },
    Curve {
        name: "pow10",
        port: rytm_pow10,
        exact: |x| 10f64.powf(x),
        range: "-37 to 37",
        inside: |x| (-37.0..=37.0).contains(&x),
        outside: |x| if x < -37.0 { 0.0 } else if x > 37.0 { INF } else { NAN },
        relative: true,
        bound: -14,
        rust: |x| 10f32.powf(x),
        timed: (-3.0, 3.0),
        specials: &[-INF, -37.000004, -37.0, -1.0, -0.0, 0.0, 1.0, 37.0, 37.000004, INF, NAN],
    },
    Curve {
        name: "sin",
        port: rytm_sin,
        exact: f64::sin,
        range: "0 to 8",
        inside: |x| (0.0..=8.0).contains(&x),
        outside: |_| NAN,
        relative: false,
        bound: -20,
        rust: f32::sin,
        timed: (0.0, 6.2831855),
        specials: &[-INF, -1.0, -1e-45, -0.0, 0.0, 1e-45, 1.5707964, 3.1415927, 6.2831855, 8.0, 8.000001, INF, NAN],
    },
    Curve {
        name: "cos",
        port: rytm_cos,
        exact: f64::cos,
        range: "0 to 8",
        inside: |x| (0.0..=8.0).contains(&x),
        outside: |_| NAN,
        relative: false,
        bound: -20,
        rust: f32::cos,
        timed: (0.0, 6.2831855),
        specials: &[-INF, -1.0, -1e-45, -0.0, 0.0, 1e-45, 1.5707964, 3.1415927, 6.2831855, 8.0, 8.000001, INF, NAN],
    },
    Curve {
        name: "tan",
        port: rytm_tan,
        exact: f64::tan,
        range: "0 to 1.5",
        inside: |x| (0.0..=1.5).contains(&x),
        outside: |_| NAN,
        relative: true,
        bound: -16,
        rust: f32::tan,
        timed: (0.0, 1.5),
        specials: &[-INF, -1.0, -1e-45, -0.0, 0.0, 1e-45, 1e-38, 0.7853982, 1.5, 1.5000001, INF, NAN],
    },
    Curve {
        name: "tanh",
        port: rytm_tanh,
        exact: f64::tanh,
        range: "every number",
        inside: |x| x.is_finite(),
        outside: |x| if x.is_nan() { NAN } else { x.signum() },
        relative: false,
        bound: -18,
        rust: f32::tanh,
        timed: (-4.0, 4.0),
        specials: &[-INF, -100.0, -1.0, -1e-45, -0.0, 0.0, 1e-45, 1.0, 9.0, 100.0, INF, NAN],
    },
    Curve {
        name: "log10",
        port: rytm_log10,
        exact: f64::log10,
        range: "1e-6 (as f32) and above",
        inside: |x| x >= 1e-6 && x < INF,
        outside: |x| if x == INF { INF } else { NAN },
        relative: false,
        bound: -16,
        rust: f32::log10,
        timed: (0.000001, 2.0),
        specials: &[-INF, -1.0, -0.0, 0.0, 1e-45, 9.999999e-7, 1e-6, 0.1, 1.0, 10.0, f32::MAX, INF, NAN],
    },
];

fn same(a: f32, b: f32) -> bool {
    a.to_bits() == b.to_bits() || a.is_nan() && b.is_nan()
}

/// What was seen of a curve.
#[derive(Default)]
struct Seen {
    inside: u64,
    outside: u64,
    worst: f64,
    worst_at: f32,
    ulp: f64,
    ulp_at: f32,
    bad: u64,
    first_bad: Option<String>,
}

impl Seen {
    fn wrong(&mut self, show: impl FnOnce() -> String) {
        self.bad += 1;
        self.first_bad.get_or_insert_with(show);
    }

    fn join(&mut self, o: Seen) {
        self.inside += o.inside;
        self.outside += o.outside;
        if o.worst > self.worst {
            (self.worst, self.worst_at) = (o.worst, o.worst_at);
        }
        if o.ulp > self.ulp {
            (self.ulp, self.ulp_at) = (o.ulp, o.ulp_at);
        }
        self.bad += o.bad;
        if self.first_bad.is_none() {
            self.first_bad = o.first_bad;
        }
    }

    fn curve(&mut self, c: &Curve, x: f32) {
        let y = unsafe { (c.port)(x) };
        if !(c.inside)(x) {
            self.outside += 1;
            let want = (c.outside)(x);
            if !same(y, want) {
                self.wrong(|| format!("{x:e} ({:08x}) gives {y:e}, expected {want:e}", x.to_bits()));
            }
            return;
        }
        self.inside += 1;
        let exact = (c.exact)(x as f64);
        let apart = (y as f64 - exact).abs();
        let allowed = (c.bound as f64).exp2() * if c.relative { exact.abs() } else { 1.0 };
        if !(apart <= allowed) {
            self.wrong(|| format!("{x:e} ({:08x}) gives {y:e}, exactly {exact:e}", x.to_bits()));
        }
        let distance = if c.relative && exact != 0.0 { apart / exact.abs() } else { apart };
        if distance > self.worst {
            (self.worst, self.worst_at) = (distance, x);
        }
        let ulps = apart / last_place(exact as f32);
        if ulps > self.ulp {
            (self.ulp, self.ulp_at) = (ulps, x);
        }
        if c.name == "tanh" && !same(unsafe { (c.port)(-x) }, -y) {
            self.wrong(|| format!("not odd at {x:e} ({:08x})", x.to_bits()));
        }
        if c.name == "exp2" && x.fract() == 0.0 && y as f64 != exact {
            self.wrong(|| format!("exp2 of {x} is {y:e}, not exact"));
        }
    }

    fn root(&mut self, x: f32) {
        self.inside += 1;
        let (y, want) = (unsafe { rytm_sqrt(x) }, x.sqrt());
        if !same(y, want) {
            self.wrong(|| format!("{x:e} ({:08x}) gives {:08x}, Rust {:08x}", x.to_bits(), y.to_bits(), want.to_bits()));
        }
    }
}

/// Answers of this build beside another's on the same bits. A value that is no number has no bits to keep: those of another pattern are counted apart.
fn against(name: &str, now: builds::Port, before: builds::Port, every: u64) -> u64 {
    let seen = sweep(every, |seen, x| {
        seen.inside += 1;
        let (y, was) = unsafe { (now(x), before(x)) };
        if !same(y, was) {
            seen.wrong(|| format!("{x:e} ({:08x}) gives {:08x}, before {:08x}", x.to_bits(), y.to_bits(), was.to_bits()));
        } else if y.to_bits() != was.to_bits() {
            seen.outside += 1;
        }
    });
    println!("{name}: {} bit patterns, {} differences, {} values that are no number with another pattern", seen.inside, seen.bad, seen.outside);
    report(&seen)
}

/// The unit in the last place at y.
fn last_place(y: f32) -> f64 {
    let e = ((y.to_bits() >> 23 & 0xff) as i32).clamp(1, 254);
    ((e - 150) as f64).exp2()
}

/// Runs over every bit pattern (or every Nth), shared among the threads.
fn sweep(every: u64, one: impl Fn(&mut Seen, f32) + Sync) -> Seen {
    const BLOCK: u64 = 1 << 22;
    let (next, all) = (AtomicU64::new(0), Mutex::new(Seen::default()));
    std::thread::scope(|s| {
        for _ in 0..THREADS {
            s.spawn(|| {
                let mut seen = Seen::default();
                loop {
                    let from = next.fetch_add(BLOCK, Ordering::Relaxed);
                    if from >= 1 << 32 {
                        break;
                    }
                    let mut p = from.next_multiple_of(every);
                    while p < from + BLOCK {
                        one(&mut seen, f32::from_bits(p as u32));
                        p += every;
                    }
                }
                all.lock().unwrap().join(seen);
            });
        }
    });
    all.into_inner().unwrap()
}

fn report(seen: &Seen) -> u64 {
    if let Some(show) = &seen.first_bad {
        println!("  WRONG at {} arguments, one of them: {show}", seen.bad);
    }
    seen.bad
}

fn measure(c: &Curve, every: u64) -> u64 {
    let mut seen = sweep(every, |seen, x| seen.curve(c, x));
    let mut always = Seen::default();
    c.specials.iter().for_each(|&x| always.curve(c, x));
    if c.name == "exp2" {
        (-126..127).for_each(|n| always.curve(c, n as f32));
    }
    if every > 1 {
        seen.join(always);
    }
    let kind = if c.relative { "relative" } else { "absolute" };
    println!("{}: {}; {} arguments inside, {} outside", c.name, c.range, seen.inside, seen.outside);
    println!("  worst {kind} distance 2^{:.2} at {:e} ({:08x}); allowed 2^{}", seen.worst.log2(), seen.worst_at, seen.worst_at.to_bits(), c.bound);
    println!("  worst error {:.3} units of the last place at {:e} ({:08x})", seen.ulp, seen.ulp_at, seen.ulp_at.to_bits());
    let answers: Vec<String> = c.specials.iter().map(|&x| format!("{x:?}: {:?}", unsafe { (c.port)(x) })).collect();
    println!("  {}", answers.join(", "));
    report(&seen)
}

/// The arguments that the program has first, then the patterns.
fn root(every: u64) -> u64 {
    let mut used = Seen::default();
    (0..=65535u16).for_each(|w| used.root(2048.0 * w as f32));
    used.root(3.0);
    used.root(2.0 * (32.0 / 48000.0 / 0.5));
    let all = sweep(every, |seen, x| seen.root(x));
    println!("sqrt: {} arguments of the program, {} bit patterns; {} unlike Rust's", used.inside, all.inside, used.bad + all.bad);
    report(&used) + report(&all)
}

fn stop(why: &str) -> ! {
    eprintln!("measure-curves: {why}");
    std::process::exit(2);
}

fn main() {
    let mut words: Vec<String> = std::env::args().skip(1).collect();
    let mut every = 1;
    if let Some(i) = words.iter().position(|w| w == "--every") {
        every = words.get(i + 1).and_then(|w| w.parse().ok()).filter(|&n| n > 0).expect("--every takes a number");
        words.drain(i..i + 2);
    }
    let mut other = None;
    if let Some(i) = words.iter().position(|w| w == "--against") {
        let path = words.get(i + 1).unwrap_or_else(|| stop("--against takes a shared library"));
        other = Some(builds::Build::open(path).unwrap_or_else(|e| stop(&e)));
        words.drain(i..i + 2);
    }
    let time = words.iter().any(|w| w == "--time");
    words.retain(|w| w != "--time");
    if let Some(w) = words.iter().find(|w| *w != "sqrt" && CURVES.iter().all(|c| c.name != **w)) {
        panic!("no curve {w}");
    }
    let chosen = |name: &str| words.is_empty() || words.iter().any(|w| w == name);
    if time {
        for c in CURVES.iter().filter(|c| chosen(c.name)) {
            timing::compare(c.name, c.timed, c.port, c.rust);
        }
        if chosen("sqrt") {
            timing::compare("sqrt", (0.0, 134215680.0), rytm_sqrt, f32::sqrt);
        }
        return;
    }
    if let Some(build) = other {
        let ports = CURVES.iter().map(|c| (c.name, c.port)).chain([("sqrt", rytm_sqrt as builds::Port)]);
        let bad: u64 = ports.filter(|p| chosen(p.0)).map(|(name, port)| against(name, port, build.curve(name).unwrap_or_else(|e| stop(&e)), every)).sum();
        println!("{bad} differences");
        std::process::exit((bad != 0) as i32);
    }
    let mut bad = 0;
    for c in CURVES.iter().filter(|c| chosen(c.name)) {
        bad += measure(c, every);
    }
    if chosen("sqrt") {
        bad += root(every);
    }
    println!("{bad} arguments with a wrong answer");
    std::process::exit((bad != 0) as i32);
}
