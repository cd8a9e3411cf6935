//! Compares the port's float functions with Rust's own: on the edge values, on all pairs of special values, and on random
//! bit patterns (`--all`: the functions of one argument on every pattern). Two values that are not numbers count as equal.
//!
//! Links float_c.

extern "C" {
    fn rytm_abs(x: f32) -> f32;
    fn rytm_signum(x: f32) -> f32;
    fn rytm_min(a: f32, b: f32) -> f32;
    fn rytm_max(a: f32, b: f32) -> f32;
    fn rytm_clamp(x: f32, lo: f32, hi: f32) -> f32;
    fn rytm_is_finite(x: f32) -> bool;
    fn rytm_fract(x: f32) -> f32;
    fn rytm_rem_euclid_one(x: f32) -> f32;
    fn rytm_from_u32(n: u32) -> f32;
    fn rytm_from_i32(n: i32) -> f32;
    fn rytm_to_i32(y: f32) -> i32;
    fn rytm_to24(x: f32) -> i32;
    fn rytm_saturating_add(a: u32, b: u32) -> u32;
    fn rytm_same_bits(a: f32, b: f32) -> bool;
}

fn to24(x: f32) -> i32 {
    (x.clamp(-1.0, 1.0) * 8_388_607.0) as i32
}

fn same(a: f32, b: f32) -> bool {
    a.to_bits() == b.to_bits() || a.is_nan() && b.is_nan()
}

/// One function's count and its differences.
struct Row {
    name: &'static str,
    compared: u64,
    open: u64,
    differ: u64,
}

impl Row {
    fn new(name: &'static str) -> Row {
        Row { name, compared: 0, open: 0, differ: 0 }
    }

    fn note(&mut self, ok: bool, show: impl FnOnce() -> String) {
        self.compared += 1;
        if !ok {
            if self.differ < 5 {
                println!("{}: {}", self.name, show());
            }
            self.differ += 1;
        }
    }

    fn floats(&mut self, ours: f32, theirs: f32, args: &[f32]) {
        self.note(same(ours, theirs), || {
            format!("{:x?} gives {:08x}, Rust {:08x}", args.iter().map(|x| x.to_bits()).collect::<Vec<_>>(), ours.to_bits(), theirs.to_bits())
        });
    }

    fn words(&mut self, ours: i64, theirs: i64, arg: u32) {
        self.note(ours == theirs, || format!("{arg:08x} gives {ours}, Rust {theirs}"));
    }
}

const UNARY: [&str; 9] = ["abs", "signum", "fract", "rem_euclid by 1", "is_finite", "to_i32", "to24", "from_u32", "from_i32"];

fn unary(rows: &mut [Row; 9], bits: u32) {
    let x = f32::from_bits(bits);
    unsafe {
        rows[0].floats(rytm_abs(x), x.abs(), &[x]);
        rows[1].floats(rytm_signum(x), x.signum(), &[x]);
        rows[2].floats(rytm_fract(x), x.fract(), &[x]);
        rows[3].floats(rytm_rem_euclid_one(x), x.rem_euclid(1.0), &[x]);
        rows[4].words(rytm_is_finite(x) as i64, x.is_finite() as i64, bits);
        rows[5].words(rytm_to_i32(x) as i64, x as i32 as i64, bits);
        rows[6].words(rytm_to24(x) as i64, to24(x) as i64, bits);
        rows[7].floats(rytm_from_u32(bits), bits as f32, &[x]);
        rows[8].floats(rytm_from_i32(bits as i32), bits as i32 as f32, &[x]);
    }
}

const BINARY: [&str; 5] = ["min", "max", "clamp", "saturating_add", "same_bits"];

fn binary(rows: &mut [Row; 5], p: u32, q: u32) {
    let (a, b) = (f32::from_bits(p), f32::from_bits(q));
    unsafe {
        let open = a == 0.0 && b == 0.0 && p != q;
        for (i, (ours, theirs)) in [(rytm_min(a, b), a.min(b)), (rytm_max(a, b), a.max(b))].into_iter().enumerate() {
            if open {
                // Rust leaves the sign of the zero open.
                rows[i].open += 1;
                rows[i].note(ours == 0.0 && theirs == 0.0, || "a zero was expected".into());
            } else {
                rows[i].floats(ours, theirs, &[a, b]);
            }
        }
        if a <= b {
            for x in [a, b, -a, -b, 0.5 * a + 0.5 * b, f32::NAN, 0.0, -0.0] {
                rows[2].floats(rytm_clamp(x, a, b), x.clamp(a, b), &[x, a, b]);
            }
        }
        rows[3].words(rytm_saturating_add(p, q) as i64, p.saturating_add(q) as i64, p);
    }
    bits(&mut rows[4], p, q);
}

fn bits(row: &mut Row, p: u32, q: u32) {
    let (a, b) = (f32::from_bits(p), f32::from_bits(q));
    let (ours, theirs) = (unsafe { rytm_same_bits(a, b) }, same(a, b));
    row.note(ours == theirs, || format!("{p:08x} and {q:08x} give {ours}, Rust {theirs}"));
}

/// Zeros, ends of ranges, powers of two and their neighbours, whole numbers and halves, infinities and NaNs; both signs.
fn specials() -> Vec<u32> {
    let mut v: Vec<u32> = vec![0x7f80_0000, 0x7f80_0001, 0x7fc0_0000, 0x7fff_ffff, 0x7f7f_ffff, 0, 1, 2, 0x007f_ffff, 0x0080_0000];
    for x in [0.001f32, 0.1, 0.3, 0.45, 0.5, 0.99, 1.0, 1.5, 2.5, 3.0, 7.25, 10.0, 100.0, 127.0, 127.5, 128.0, 255.5, 1e-6, 1e-5, 21600.0, 48000.0, 65535.0, 8388607.0, 8388607.5, 8388608.0, 16777215.0, 16777216.0, 2147483648.0, 4294967296.0, 9.2e18, 1e-30, 1e-38, 1e30, 3e38] {
        v.push(x.to_bits());
    }
    for e in (-149..=127).step_by(7).chain([-126, -24, -23, -1, 0, 1, 22, 23, 24, 30, 31, 32, 62, 63, 64, 127]) {
        let b = if e < -126 { 1u32 << (e + 149) } else { ((e + 127) as u32) << 23 };
        v.extend([b.wrapping_sub(1) & 0x7fff_ffff, b, b + 1]);
    }
    v.extend(v.clone().iter().map(|b| b ^ 0x8000_0000));
    v.sort_unstable();
    v.dedup();
    v
}

fn main() {
    let all = std::env::args().any(|a| a == "--all");
    let special = specials();
    let mut one = UNARY.map(Row::new);
    let mut two = BINARY.map(Row::new);
    for &p in &special {
        unary(&mut one, p);
        for &q in &special {
            binary(&mut two, p, q);
        }
    }
    let mut s = 0x9e37_79b9_7f4a_7c15u64;
    for _ in 0..10_000_000 {
        s ^= s << 13;
        s ^= s >> 7;
        s ^= s << 17;
        unary(&mut one, s as u32);
        binary(&mut two, s as u32, (s >> 32) as u32);
        // Rarely equal by chance: the pattern beside itself, and with one bit turned.
        bits(&mut two[4], s as u32, s as u32);
        bits(&mut two[4], s as u32, s as u32 ^ 1 << (s >> 59));
    }
    if all {
        for b in 0..=u32::MAX {
            unary(&mut one, b);
        }
    }
    println!("{} special values, all pairs; 10000000 random patterns{}", special.len(), if all { "; every pattern" } else { "" });
    let mut differ = 0;
    for r in one.iter().chain(&two) {
        let open = if r.open > 0 { format!(" ({} of unlike zeros: a zero, its sign open)", r.open) } else { String::new() };
        println!("{:16} {:>12} compared, {} differences{open}", r.name, r.compared, r.differ);
        differ += r.differ;
    }
    println!("{differ} differences");
    std::process::exit((differ != 0) as i32);
}
