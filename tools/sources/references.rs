//! `Record::parse`, `Wave::from_bits`, `Wave::at` and `Pair::sample`, each by itself, as the port and the Rust have them.

use crate::fields::bits;
use crate::oracle::analog::Record as RustRecord;
use crate::oracle::fm_ones;
use crate::oracle::vco::{Osc2Set as RustSet, Pair as RustPair, Wave};
use crate::rng::Rng;
use crate::states::Wild;

/// In the order of their numbers.
const WAVES: [(Wave, &str); 7] = [
    (Wave::Off, "off"),
    (Wave::Sine, "sine"),
    (Wave::AsymSine, "asymmetric sine"),
    (Wave::Triangle, "triangle"),
    (Wave::SineSaw, "sinesaw"),
    (Wave::Saw, "saw"),
    (Wave::Square, "square"),
];

#[repr(C)]
struct RecordBytes {
    b: [u8; 8],
}

#[repr(C)]
struct Record {
    start_cmd: bool,
    start: f32,
    target: f32,
    step: f32,
}

#[repr(C)]
#[derive(Clone, Copy)]
struct Pair {
    ph1: f32,
    ph2: f32,
}

/// The port's `Osc2Set`, its waveforms by number.
#[repr(C)]
struct NumberedSet {
    hz1: f32,
    hz2: f32,
    stopped1: bool,
    stopped2: bool,
    wave1: u32,
    wave2: u32,
    level1: f32,
    level2: f32,
    depth_word: f32,
    fm: bool,
    ring: bool,
}

#[repr(C)]
struct PairOut {
    pair: Pair,
    y: f32,
}

extern "C" {
    fn rytm_record_parse(r: RecordBytes) -> Record;
    fn rytm_wave_from_bits(a: bool, b: bool, c: bool) -> u32;
    fn rytm_wave_at(wave: u32, ph: f32) -> f32;
    fn rytm_pair_sample(p: Pair, s: NumberedSet, fs: f32) -> PairOut;
}

fn number(wave: Wave) -> u32 {
    WAVES.iter().position(|(w, _)| *w == wave).unwrap() as u32
}

/// What was compared under one name, and how much of it differs.
struct Tally {
    name: &'static str,
    compared: u64,
    differ: u64,
}

impl Tally {
    fn new(name: &'static str) -> Tally {
        Tally { name, compared: 0, differ: 0 }
    }

    /// One case on both sides; the first that differs is printed.
    fn note<const N: usize>(&mut self, ours: [u32; N], theirs: [u32; N], case: impl Fn() -> String) {
        self.compared += 1;
        if ours != theirs {
            if self.differ == 0 {
                println!("{} of {}: port {ours:08x?}, Rust {theirs:08x?}", self.name, case());
            }
            self.differ += 1;
        }
    }

    fn print(&self, covered: &str) -> u64 {
        println!("{:16}{:>10} cases, {} differences: {covered}", self.name, self.compared, self.differ);
        self.differ
    }
}

/// Every rate with every mode, and every pair of the command's bytes and of the levels; all other bits at random.
fn parse(rng: &mut Rng) -> u64 {
    let mut tally = Tally::new("Record::parse");
    let mut case = |b: [u8; 8]| {
        let (r, m) = (unsafe { rytm_record_parse(RecordBytes { b }) }, RustRecord::parse(&b));
        let theirs = [m.start_cmd as u32, bits(m.start), bits(m.target), bits(m.step)];
        tally.note([r.start_cmd as u32, bits(r.start), bits(r.target), bits(r.step)], theirs, || format!("{b:02x?}"));
    };
    for rate in 0..1 << 20 {
        for mode in 0..16 {
            let mut b = rng.next().to_be_bytes();
            b[4] = mode << 4 | b[4] & 15;
            b[5] = b[5] & 0xf0 | (rate >> 16) as u8;
            b[6..].copy_from_slice(&(rate as u16).to_be_bytes());
            case(b);
        }
    }
    for pair in 0..=u16::MAX {
        for at in [0, 2] {
            let mut b = rng.next().to_be_bytes();
            b[at..at + 2].copy_from_slice(&pair.to_be_bytes());
            case(b);
        }
    }
    tally.print("all 2^20 rates with all 16 modes, all pairs of bytes 0 and 1, all pairs of bytes 2 and 3")
}

fn from_bits() -> u64 {
    let mut tally = Tally::new("Wave::from_bits");
    for code in 0..8 {
        let (a, b, c) = (code & 4 != 0, code & 2 != 0, code & 1 != 0);
        let ours = unsafe { rytm_wave_from_bits(a, b, c) };
        tally.note([ours], [number(Wave::from_bits(a, b, c))], || format!("{code:03b}"));
    }
    tally.print("all codes")
}

/// Where a waveform turns, and the ends of a phase.
const TURNS: [f32; 7] = [0.0, 0.25, 0.35, 0.5, 0.675, 0.75, 1.0];
/// Floats on either side of a turn.
const AROUND: i32 = 1000;

fn at(rng: &mut Rng, steps: u64) -> u64 {
    let mut tally = Tally::new("Wave::at");
    for (wave, name) in WAVES {
        let mut case = |ph: f32| {
            let ours = unsafe { rytm_wave_at(number(wave), ph) };
            tally.note([bits(ours)], [bits(wave.at(ph))], || format!("{name} at {ph:e}"));
        };
        for turn in TURNS {
            for near in -AROUND..=AROUND {
                // Below zero: the negative floats next to it.
                let at = turn.to_bits() as i32 + near;
                case(if at < 0 { -f32::from_bits(-at as u32) } else { f32::from_bits(at as u32) });
            }
        }
        for _ in 0..steps {
            let ph = rng.unit();
            case(ph);
            case(Wild { rng, of8: 8 }.phase());
        }
    }
    tally.print(&format!(
        "each of 7 waveforms at {AROUND} floats on either side of {}, at {steps} phases from 0 to 1 and at {steps} edges and bit patterns",
        TURNS.map(|t| t.to_string()).join(", ")
    ))
}

/// How often the settings of `Pair::sample` had what.
#[derive(Default)]
struct Met {
    waves: [[u64; 7]; 2],
    stopped: [u64; 2],
    fm: u64,
    ring: u64,
    rates: [u64; 4],
    backwards: u64,
    one: u64,
    nan: u64,
}

const RATES: [f32; 3] = [44_100.0, 48_000.0, 96_000.0];

impl Wild<'_> {
    fn rate(&mut self) -> f32 {
        let any = 8000.0 + 184_000.0 * self.rng.unit();
        let usual = self.rng.pick(&[RATES[0], RATES[1], RATES[2], any]);
        self.float(usual, &[1.0, 0.0, -48_000.0, 1e-30, 1e30])
    }

    fn hz(&mut self, fs: f32) -> f32 {
        let (low, any, top) = (100.0 * self.rng.unit(), fs * self.rng.unit(), fs * 0.45);
        let usual = self.rng.pick(&[low, any, 0.45 * any, top]);
        self.float(usual, &[0.0, -0.0, -100.0, top, f32::from_bits(top.to_bits() ^ 1), 1e9])
    }

    /// A level word's part of 32767, or the word itself.
    fn word(&mut self, per: f32) -> f32 {
        let any = (self.rng.word() >> 16) as f32;
        let part = any * self.rng.unit();
        let usual = self.rng.pick(&[0.0, 4096.0, 65535.0, any, part]) / per;
        self.float(usual, &[-1.0, -0.0, 1e-40, 1e30])
    }

    fn set(&mut self, fs: f32) -> RustSet {
        let (wave1, wave2) = (self.rng.pick(&WAVES).0, self.rng.pick(&WAVES).0);
        RustSet {
            hz: [self.hz(fs), self.hz(fs)],
            stopped: [self.rng.one_in(6), self.rng.one_in(6)],
            wave: [wave1, wave2],
            level: [self.word(32767.0), self.word(32767.0)],
            depth_word: self.word(1.0),
            fm: self.rng.one_in(2),
            ring: self.rng.one_in(2),
        }
    }
}

fn numbered(s: &RustSet) -> NumberedSet {
    NumberedSet {
        hz1: s.hz[0],
        hz2: s.hz[1],
        stopped1: s.stopped[0],
        stopped2: s.stopped[1],
        wave1: number(s.wave[0]),
        wave2: number(s.wave[1]),
        level1: s.level[0],
        level2: s.level[1],
        depth_word: s.depth_word,
        fm: s.fm,
        ring: s.ring,
    }
}

/// Settings held for a few samples, from phases at random or where the last settings left them.
fn sample(rng: &mut Rng, steps: u64) -> u64 {
    let mut tally = Tally::new("Pair::sample");
    let mut met = Met::default();
    let mut pair = RustPair { ph: [0.0; 2] };
    while tally.compared < steps {
        let of8 = rng.pick(&[0, 0, 1, 3]);
        let mut x = Wild { rng, of8 };
        let fs = x.rate();
        let set = x.set(fs);
        if x.rng.one_in(2) || !(pair.ph[0] + pair.ph[1]).is_finite() {
            pair.ph = [x.phase(), x.phase()];
        }
        for _ in 0..(1 + rng.below(64) as u64).min(steps - tally.compared) {
            let before = pair;
            let o = unsafe { rytm_pair_sample(Pair { ph1: before.ph[0], ph2: before.ph[1] }, numbered(&set), fs) };
            let y = pair.sample(&set, fs);
            let ours = [bits(o.pair.ph1), bits(o.pair.ph2), bits(o.y)];
            tally.note(ours, [bits(pair.ph[0]), bits(pair.ph[1]), bits(y)], || format!("{before:?}, {set:?} at {fs:e}"));
            for k in 0..2 {
                met.waves[k][number(set.wave[k]) as usize] += 1;
                met.stopped[k] += set.stopped[k] as u64;
            }
            met.fm += set.fm as u64;
            met.ring += set.ring as u64;
            met.rates[RATES.iter().position(|r| *r == fs).unwrap_or(3)] += 1;
            met.backwards += (set.fm && pair.ph[0] < before.ph[0] && before.ph[0] - pair.ph[0] < 0.2) as u64;
            met.one += fm_ones();
            met.nan += (pair.ph[0] + pair.ph[1] + y).is_nan() as u64;
        }
    }
    let differ = tally.print("settings at random");
    for k in 0..2 {
        let waves: Vec<String> = WAVES.iter().zip(met.waves[k]).map(|((_, name), n)| format!("{name} {n}")).collect();
        println!("  oscillator {}: {}; stopped {}", k + 1, waves.join(", "), met.stopped[k]);
    }
    let rates: Vec<String> = RATES.iter().zip(met.rates).map(|(r, n)| format!("{r} {n}")).collect();
    println!("  samples at rate {}, others {}; FM {}, ring {}", rates.join(", "), met.rates[3], met.fm, met.ring);
    println!("  FM phase falls by less than 0.2: {}, has a remainder that rounds to 1: {}; not a number {}", met.backwards, met.one, met.nan);
    differ
}

/// Compares the four; how many cases differ.
pub fn compare(seed: u64, steps: u64) -> u64 {
    let mut rng = Rng::new(seed);
    parse(&mut rng) + from_bits() + at(&mut rng, steps) + sample(&mut rng, steps)
}
