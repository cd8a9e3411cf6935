//! What the cases met, read off the Rust's states before and after a sample.

use crate::oracle::{analog as rust, fm_ones};
use crate::rytm::Env;
use crate::state::{State, DUALS, SOURCES};
use rust::{bit, word, Record};

macro_rules! counts {
    ($($id:ident $name:literal,)*) => {
        #[derive(Clone, Copy)]
        enum Count { $($id,)* }
        const NAMES: &[&str] = &[$($name,)*];
    };
}

counts! {
    Trig "dual: trig rises, detunes drawn",
    PitchStart "dual: pitch restarts",
    AmpStart "dual: amp restarts",
    Amp2Start "dual: modulator restarts",
    CommandAgain "dual: amp command seen again, no restart",
    Moves "dual: amp on its way",
    Kick "dual: drift kicks",
    Stop1 "dual: core 1 stopped, FM or ring",
    Stop2 "dual: core 2 stopped, FM or ring",
    Backwards "dual: FM phase falls by less than 0.2",
    One "dual: FM phase's remainder rounds to 1",
    Silent "dual: silent at the floor",
    DualNan "dual: a phase or level not a number",
    HatHit "hat: hits",
    HatDraw "hat: hits after silence, phases drawn",
    HatPark "hat: parked while sounding",
    HatHitParked "hat: hit and parked at once",
    HatSounds "hat: sounding",
    HatDark "hat: colour below 0",
    HatNan "hat: filter not finite",
    CymHit "cymbal: hits",
    CymDraw "cymbal: hits after silence, phases drawn",
    CymSounds "cymbal: sounding with three or more oscillators",
    Cowbell "cymbal: sounding with one or two oscillators",
    NoBank "cymbal: sounding with none",
    CymNan "cymbal: filter not finite",
    TomDraw "tom: redraws",
    Rest62 "tom: word after 62 zeros",
    Rest63 "tom: word after 63 zeros, no redraw",
    Rest64 "tom: word after 64 zeros, redraw",
    Rest65 "tom: word after 65 zeros, redraw",
    RestMost "tom: zero word at the counter's end",
    TomRings "tom: rings",
    LongDecay "tom: rings, decay above 0",
    NegativeDecay "tom: rings, decay below 0",
    Parked "tom: tune 65535",
    NoPitch "tom: pitch under 10 Hz",
    TomNan "tom: sample not finite",
    Ideal "random depth 0",
}

const CODES: [&str; 8] = ["000 off", "001 asymmetric sine", "010 off", "011 square", "100 sinesaw", "101 sine", "110 saw", "111 triangle"];

pub struct Coverage {
    count: [u64; NAMES.len()],
    /// By code and by plain, FM, ring, both.
    osc1: [[u64; 4]; 2],
    osc2: [[u64; 4]; 8],
    /// The cymbal's records: restarts, parks while sounding, samples above the floor.
    cym: [[u64; 3]; 8],
    /// Each source's first level: samples on its way without a restart, now and at most.
    way: [Way; 8],
}

#[derive(Clone, Copy, Default)]
struct Way {
    level: f32,
    now: u64,
    most: u64,
}

impl Way {
    fn note(&mut self, before: Env, after: Env, restarted: bool) {
        let goes_on = !restarted && before.level == self.level && after.level != before.level;
        self.now = if goes_on { self.now + 1 } else { 0 };
        self.most = self.most.max(self.now);
        self.level = after.level;
    }
}

impl Coverage {
    pub fn new() -> Coverage {
        Coverage { count: [0; NAMES.len()], osc1: [[0; 4]; 2], osc2: [[0; 4]; 8], cym: [[0; 3]; 8], way: [Way::default(); 8] }
    }

    fn add(&mut self, c: Count, met: bool) {
        self.count[c as usize] += met as u64;
    }

    /// How many FM phases had a remainder that rounds to 1.
    #[allow(dead_code)]
    pub fn fm_ones(&self) -> u64 {
        self.count[Count::One as usize]
    }

    pub fn note(&mut self, before: &State, after: &State, f: &[u8], dac: &[i32; 16], depth: f32) {
        use Count::*;
        self.add(Ideal, depth == 0.0);
        match (before, after) {
            (State::Dual(i, b), State::Dual(_, a)) => {
                let s = DUALS[*i];
                self.add(Trig, bit(f, s.sw[0]) && !b.trig);
                for (c, last, o) in [(PitchStart, b.last_p, 0), (AmpStart, b.last_a, 16), (Amp2Start, b.last_m, 24)] {
                    let r = &f[s.env + o..s.env + o + 8];
                    self.add(c, r != last && r[0] | r[1] != 0);
                }
                let amp = Record::parse(&f[s.env + 16..]);
                self.add(CommandAgain, amp.start_cmd && f[s.env + 16..s.env + 24] == b.last_a);
                self.add(Moves, a.amp.level != amp.target && a.amp.level != b.amp.level);
                self.way[*i].note(b.amp, a.amp, amp.start_cmd);
                self.add(Kick, b.drift[0].n >= 31);
                self.add(Kick, b.drift[1].n >= 31);
                let (fm, ring) = (bit(f, s.sw[4]), !bit(f, s.sw[5]));
                let kind = fm as usize + 2 * ring as usize;
                self.osc1[bit(f, s.sw[1]) as usize][kind] += 1;
                self.osc2[4 * bit(f, s.sw[6]) as usize + 2 * bit(f, s.sw[3]) as usize + bit(f, s.sw[2]) as usize][kind] += 1;
                self.add(Stop1, (fm || ring) && word(f, s.cv) == 0);
                self.add(Stop2, (fm || ring) && word(f, s.cv + 2) == 0);
                self.add(Backwards, fm && bit(f, s.sw[0]) <= b.trig && a.ph1 < b.ph1 && b.ph1 - a.ph1 < 0.2);
                self.count[One as usize] += fm_ones();
                self.add(Silent, a.amp.level <= -127.5);
                self.add(DualNan, (a.ph1 + a.ph2 + a.amp.level).is_nan());
            }
            (State::Hat(b), State::Hat(a)) => {
                let hit = f[492] >> 4 == 0xF && b.mode != 0xF;
                let parked = word(f, 488) == 0;
                self.add(HatHit, hit);
                self.add(HatDraw, hit && b.env.level <= -127.5);
                self.add(HatPark, parked && b.env.level > -127.5);
                self.add(HatHitParked, parked && hit);
                self.way[7].note(b.env, a.env, hit);
                self.add(HatSounds, a.env.level > -127.5);
                self.add(HatDark, a.env.level > -127.5 && f[130] >= 0x80);
                self.add(HatNan, !(a.hp.low + a.hp.band).is_finite());
            }
            (State::Cym(b), State::Cym(a)) => {
                let mut hit = false;
                for r in 0..8 {
                    let starts = f[500 + 8 * r] >> 4 == 0xF && b.mode[r] != 0xF;
                    hit |= starts;
                    self.cym[r][0] += starts as u64;
                    self.cym[r][1] += (word(f, 496 + 8 * r) == 0 && b.env[r].level > -127.5) as u64;
                    self.cym[r][2] += (a.env[r].level > -127.5) as u64;
                    if r == 7 {
                        self.way[6].note(b.env[r], a.env[r], starts);
                    }
                }
                self.add(CymHit, hit);
                self.add(CymDraw, hit && b.env.iter().all(|e| e.level <= -127.5));
                if a.env.iter().any(|e| e.level > -127.5) {
                    let running = (0..6).filter(|k| u32::from_be_bytes(f[640 + 4 * k..644 + 4 * k].try_into().unwrap()) & 0x3f_ffff != 0).count();
                    self.add([NoBank, Cowbell, CymSounds][running.div_ceil(2).min(2)], true);
                }
                self.add(CymNan, a.svf.iter().any(|s| !(s.low + s.band).is_finite()));
            }
            (State::Tom(i, b), State::Tom(_, a)) => {
                let moved = dac[8 + i] != 0;
                self.add(TomDraw, moved && b.quiet >= 64);
                for (c, n) in [(Rest62, 62), (Rest63, 63), (Rest64, 64), (Rest65, 65)] {
                    self.add(c, moved && b.quiet == n);
                }
                self.add(RestMost, !moved && b.quiet == u32::MAX);
                let tune = word(f, 118 + 4 * i) as f32;
                let hz = 0.1 * (2048.0 * tune).sqrt() * a.det;
                let rings = tune < 65535.0 && hz >= 10.0;
                let decay = word(f, 120 + 4 * i) as i16;
                self.add(TomRings, rings);
                self.add(LongDecay, rings && decay > 0);
                self.add(NegativeDecay, rings && decay < 0);
                self.add(Parked, tune == 65535.0);
                self.add(NoPitch, hz < 10.0);
                self.add(TomNan, !a.y1.is_finite());
            }
            _ => unreachable!(),
        }
    }

    pub fn print(&self) {
        println!("{:26}{:>12}{:>12}{:>12}{:>12}", "samples by waveform", "plain", "FM", "ring", "FM and ring");
        let row = |name: String, n: &[u64; 4]| println!("{name:26}{:>12}{:>12}{:>12}{:>12}", n[0], n[1], n[2], n[3]);
        for c in 0..2 {
            row(format!("osc 1: {}", CODES[4 + c]), &self.osc1[c]);
        }
        for c in 0..8 {
            row(format!("osc 2: {}", CODES[c]), &self.osc2[c]);
        }
        println!("{:26}{:>12}{:>12}{:>12}", "cymbal's records", "restarts", "parks", "sounding");
        for (r, n) in self.cym.iter().enumerate() {
            println!("record {r:<19}{:>12}{:>12}{:>12}", n[0], n[1], n[2]);
        }
        for (name, n) in NAMES.iter().zip(&self.count) {
            println!("{name:50}{n:>12}");
        }
        let ways: Vec<String> = [0, 1, 2, 6, 7].iter().map(|&i| format!("{} {}", SOURCES[i].1, self.way[i].most)).collect();
        println!("longest way of a level in samples: {}", ways.join(", "));
        let mut never: Vec<String> = NAMES.iter().zip(&self.count).filter(|(_, n)| **n == 0).map(|(name, _)| name.to_string()).collect();
        let kinds = ["plain", "FM", "ring", "FM and ring"];
        for (table, osc) in [(&self.osc1[..], 1), (&self.osc2[..], 2)] {
            for (c, ns) in table.iter().enumerate() {
                let code = if osc == 1 { CODES[4 + c] } else { CODES[c] };
                never.extend((0..4).filter(|&k| ns[k] == 0).map(|k| format!("osc {osc}: {code}, {}", kinds[k])));
            }
        }
        never.extend((0..8).filter(|&r| self.cym[r].contains(&0)).map(|r| format!("cymbal's record {r}")));
        if !never.is_empty() {
            println!("never met: {}", never.join("; "));
        }
    }
}
