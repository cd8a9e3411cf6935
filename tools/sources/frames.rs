//! Control frames as the firmware sends them, in blocks of 32 samples, and what can go wrong with them.

use crate::fields::concerned;
use crate::oracle::analog as rust;
use crate::rng::Rng;
use crate::state::{Source, DUALS};

#[derive(Clone, Copy, PartialEq)]
pub enum Style {
    Firmware,
    Fast,
    Damaged,
    Noise,
    States,
}

pub const STYLES: [(Style, &str); 5] = [
    (Style::Firmware, "firmware-like"),
    (Style::Fast, "fast changes"),
    (Style::Damaged, "damaged frames"),
    (Style::Noise, "random frames"),
    (Style::States, "random states"),
];

/// The metal bank's six frequencies in Hz.
const METAL: [f32; 6] = [205.3, 304.4, 369.6, 522.7, 540.0, 800.0];

/// One episode: a frame and the DAC words, moved on from sample to sample.
pub struct Frames {
    pub frame: Vec<u8>,
    pub dac: [i32; 16],
    /// The frame before what goes wrong with it.
    pub clean: Vec<u8>,
    style: Style,
    voices: Vec<Voice>,
    left: u32,
}

/// What the firmware does with one source.
struct Voice {
    source: Source,
    /// Blocks from hit to hit, at most; those until the next and since the last.
    tempo: u32,
    wait: u32,
    since: u32,
    /// Blocks that a hit's commands last.
    command: u32,
    /// Of a tom's exciter: words of its burst and of the rest after it still to come.
    burst: u32,
    gap: u32,
}

pub fn put(f: &mut [u8], o: usize, w: u32) {
    f[o..o + 2].copy_from_slice(&(w as u16).to_be_bytes());
}

pub fn switch(f: &mut [u8], n: usize, on: bool) {
    f[160 + n / 8] = f[160 + n / 8] & !(1 << (n % 8)) | (on as u8) << (n % 8);
}

/// An envelope record that moves at a rate within the given exponents.
pub fn record(rng: &mut Rng, f: &mut [u8], o: usize, first: u32, start: i32, target: i32, mode: u8, exps: (i32, i32)) {
    put(f, o, first);
    f[o + 2] = start as u8;
    f[o + 3] = target as u8;
    f[o + 4] = mode << 4 | rng.pick(&[0, 0, 0, 5]);
    f[o + 5] = rng.range(exps.0, exps.1) as u8 | rng.pick(&[0, 0x10, 0xf0]);
    let any = rng.word();
    let mant = rng.pick(&[0, 1, 0xffff, any, any]);
    put(f, o + 6, mant);
}

fn tune(rng: &mut Rng) -> u32 {
    let (low, usual) = (rng.below(20), 100 + rng.below(4000));
    rng.pick(&[678, usual, usual, usual, usual, low, 0, 0, 1, 65535])
}

fn level(rng: &mut Rng) -> u32 {
    let any = rng.below(32768);
    rng.pick(&[0, 1, 0x0a0b, 0x0cc5, 20000, 32767, 65535, any, any])
}

fn hit_dual(rng: &mut Rng, f: &mut [u8], s: &rust::DualSpec, exps: (i32, i32)) {
    for k in 0..2 {
        let (t, l) = (tune(rng), level(rng));
        put(f, s.cv + 2 * k, t);
        put(f, s.cv + 4 + 2 * k, l);
    }
    waves(rng, f, s);
    switch(f, s.sw[0], !rng.one_in(8));
    let first = rng.pick(&[0x4000, 0x4000, 0x4000, 0x0001, 0]);
    let (start, target) = (rng.range(-2, 100), rng.pick(&[0, 0, -1, 15, -128]));
    record(rng, f, s.env, first, start, target, 0xF, exps);
    let (start, target) = (rng.pick(&[127, 127, 100, 0]), rng.pick(&[-128, -128, 0, 127]));
    record(rng, f, s.env + 16, first, start, target, 0xF, exps);
    let (start, target) = (rng.pick(&[127, 127, 60, -128]), rng.pick(&[0, 0, 127, -128]));
    record(rng, f, s.env + 24, first, start, target, 0xF, exps);
    if rng.one_in(16) {
        creep(rng, f, s);
    }
}

/// FM that all but stands still and goes a little backwards: oscillator 2 is a sinesaw, -0.3 at its start, and a level word just above
/// 4096 / 0.3 makes the advance a tiny negative number. A phase of 0 then has a remainder that rounds to 1.
fn creep(rng: &mut Rng, f: &mut [u8], s: &rust::DualSpec) {
    for (o, low, count) in [(0, 1, 3), (2, 1, 4), (6, 13_654, 64)] {
        let w = low + rng.below(count);
        put(f, s.cv + o, w);
    }
    for (k, on) in [(0, true), (2, false), (3, false), (4, true), (6, true)] {
        switch(f, s.sw[k], on);
    }
    record(rng, f, s.env, 0x4000, 0, 0, 0xF, (6, 12));
    record(rng, f, s.env + 24, 0x4000, 127, 127, 0xF, (6, 12));
}

/// A tom's tune and decay; the exciter is the DAC's.
fn hit_tom(rng: &mut Rng, f: &mut [u8], o: usize) {
    let (usual, low, any) = (100 + rng.below(3000), rng.below(8), rng.word());
    let t = rng.pick(&[488, usual, usual, usual, low, 0, 4, 5, 65534, 65535]);
    put(f, o, t);
    let d = rng.pick(&[0, 1, 0x7fff, 0x8000, 0xffff, any & 0x7fff, any & 0x7fff, any]);
    put(f, o + 2, d);
}

/// The cymbal starts records 2, 3, 4 and 7 with six oscillators, the cowbell 6 and 7 with two.
fn hit_cym(rng: &mut Rng, f: &mut [u8], exps: (i32, i32)) {
    let bell = rng.one_in(2);
    let hits: &[usize] = if bell { &[6, 7] } else { &[2, 3, 4, 7] };
    for r in 0..8 {
        let any = rng.range(-128, 127);
        let start = rng.pick(&[66, -93, 115, 20, 127, any]);
        if hits.contains(&r) || rng.one_in(16) {
            let first = if rng.one_in(16) { 0 } else { 0x4000 };
            record(rng, f, 496 + 8 * r, first, start, -128, 0xF, exps);
        } else {
            record(rng, f, 496 + 8 * r, 0, start, -128, 0, exps);
        }
    }
    bank(rng, f, 640, if bell { 2 } else { 6 });
    colour(rng, f, 142, 158);
}

fn hit_hat(rng: &mut Rng, f: &mut [u8], exps: (i32, i32)) {
    let any = rng.range(-128, 127);
    let start = rng.pick(&[127, 127, 100, any]);
    let first = if rng.one_in(16) { 0 } else { 0x4000 };
    record(rng, f, 488, first, start, -128, 0xF, exps);
    bank(rng, f, 616, 6);
    colour(rng, f, 130, 140);
}

impl Voice {
    /// Long gaps from hit to hit: slow records, left to run.
    fn calm(&self) -> bool {
        self.tempo > 2000
    }

    fn hit(&mut self, rng: &mut Rng, f: &mut [u8]) {
        self.wait = 1 + rng.below(self.tempo);
        self.since = 0;
        self.command = 1 + rng.below(2);
        let slow = self.calm() || rng.one_in(4);
        let exps = if slow { (12, 15) } else { (6, 12) };
        match self.source {
            Source::Dual(i) => hit_dual(rng, f, &DUALS[i], exps),
            Source::Tom(i) => hit_tom(rng, f, 118 + 4 * i),
            Source::Cym => hit_cym(rng, f, exps),
            Source::Hat => hit_hat(rng, f, exps),
        }
    }

    /// One block: a hit when its time has come, then the commands withdrawn, and now and then a change.
    fn block(&mut self, rng: &mut Rng, f: &mut [u8]) {
        if self.wait == 0 {
            return self.hit(rng, f);
        }
        self.wait -= 1;
        self.since += 1;
        let ends = self.since == self.command;
        let change = !self.calm() || rng.one_in(200);
        match self.source {
            Source::Dual(i) => {
                let s = DUALS[i];
                if self.since >= self.command {
                    switch(f, s.sw[0], false);
                    for o in [0, 16, 24] {
                        put(f, s.env + o, 0);
                        f[s.env + o + 4] &= 0x0F;
                    }
                }
                match rng.below(64) {
                    _ if !change => {}
                    0..=3 => {
                        let (k, t) = (rng.below(4) as usize, tune(rng));
                        put(f, s.cv + 2 * k, t);
                    }
                    4 => waves(rng, f, &s),
                    5 => {
                        let (o, start, target) = (rng.pick(&[0, 16, 24]), rng.range(-128, 127), rng.range(-128, 127));
                        let first = rng.pick(&[0, 0, 0x4000]);
                        record(rng, f, s.env + o, first, start, target, 0xB, (6, 12));
                    }
                    6 => put(f, s.env + rng.pick(&[0, 16, 24]), 0x4000),
                    _ => {}
                }
            }
            Source::Tom(i) => {
                if rng.one_in(4) {
                    // The pitch sweep.
                    let o = 118 + 4 * i;
                    let t = rust::word(f, o) as u32;
                    put(f, o, t - t / 32);
                }
            }
            Source::Cym => {
                for r in 0..8 {
                    metal(rng, f, 496 + 8 * r, ends, change);
                }
            }
            Source::Hat => metal(rng, f, 488, ends, change),
        }
    }

    /// The exciter's word: bursts with rests of every telling length between them.
    fn exciter(&mut self, rng: &mut Rng, style: Style) -> i32 {
        if self.burst == 0 && self.gap == 0 {
            let (some, long) = (1 + rng.below(60), 60 + rng.below(3000));
            self.burst = rng.pick(&[1, 1, 2, 20, some]);
            self.gap = rng.pick(&[1, 10, 62, 63, 63, 64, 64, 65, some, long]);
        }
        if self.burst > 0 {
            self.burst -= 1;
            let any = rng.word() as i32;
            let wide = if matches!(style, Style::Noise | Style::States) { any } else { any >> 8 };
            return rng.pick(&[1, -1, 8_388_607, -8_388_608, any >> 8, any >> 8, any >> 14, wide]);
        }
        self.gap -= 1;
        0
    }
}

/// A hat's or cymbal's record after the hit: mode F goes; a choke; a new rate.
fn metal(rng: &mut Rng, f: &mut [u8], o: usize, ends: bool, change: bool) {
    if ends {
        f[o + 4] &= 0x0F;
        f[o + 4] |= rng.pick(&[0, 0, 0, 0x30, 0xb0]);
    }
    match rng.below(256) {
        _ if !change => {}
        0 | 1 => put(f, o, 0),
        2 => put(f, o, 0x4000),
        3 => f[o + 5] = rng.range(6, 15) as u8,
        4 => f[o + 4] ^= 0xF0,
        _ => {}
    }
}

fn waves(rng: &mut Rng, f: &mut [u8], s: &rust::DualSpec) {
    for k in 1..7 {
        switch(f, s.sw[k], rng.one_in(2));
    }
}

fn bank(rng: &mut Rng, f: &mut [u8], o: usize, running: usize) {
    let scale = rng.pick(&[1.0, 1.0, 0.5, 2.6, 20.0]);
    for (k, hz) in METAL.iter().enumerate() {
        let v = if k < running && !rng.one_in(32) { (hz * 43.62 * scale) as u32 & 0x3f_ffff } else { 0 };
        let above = if rng.one_in(4) { rng.word() << 22 } else { 0 };
        f[o + 4 * k..o + 4 * k + 4].copy_from_slice(&(v | above).to_be_bytes());
    }
}

fn colour(rng: &mut Rng, f: &mut [u8], colour: usize, vca: usize) {
    let any = rng.word();
    let c = rng.pick(&[0, 0, 0xe000, 0x2000, 0x7fff, 0x8000, 0xffff, any]);
    put(f, colour, c);
    let l = level(rng);
    put(f, vca, l);
}

impl Frames {
    /// An episode for these sources, all read from one frame.
    pub fn new(rng: &mut Rng, style: Style, sources: &[Source], tempo: u32) -> Frames {
        let len = if rng.one_in(2) { 664 } else { rng.pick(&[665, 700, 984, 1000]) };
        let mut clean = vec![0; len];
        if rng.one_in(2) {
            clean.iter_mut().for_each(|b| *b = rng.word() as u8);
        }
        let voice = |&source| Voice { source, tempo, wait: 0, since: 0, command: 1, burst: 0, gap: 0 };
        let mut voices: Vec<Voice> = sources.iter().map(voice).collect();
        for v in voices.iter_mut() {
            v.wait = rng.below(4);
            v.gap = rng.below(100);
        }
        Frames { frame: clean.clone(), dac: [0; 16], clean, style, voices, left: 0 }
    }

    /// Moves the exciters on; whether a block begins.
    pub fn due(&mut self, rng: &mut Rng) -> bool {
        for v in self.voices.iter_mut() {
            if let Source::Tom(i) = v.source {
                self.dac[8 + i] = v.exciter(rng, self.style);
            }
        }
        if self.left > 0 {
            self.left -= 1;
            return false;
        }
        self.left = match self.style {
            Style::Firmware | Style::Damaged => 31,
            Style::Fast => rng.pick(&[0, 0, 0, 1, 5]),
            Style::Noise | Style::States => rng.pick(&[0, 0, 3, 40]),
        };
        true
    }

    /// The block's frame.
    pub fn write(&mut self, rng: &mut Rng) {
        for v in self.voices.iter_mut() {
            v.block(rng, &mut self.clean);
        }
        self.frame.copy_from_slice(&self.clean);
        match self.style {
            Style::Damaged if rng.one_in(2) => {
                for v in &self.voices {
                    for _ in 0..rng.below(6) {
                        let parts = concerned(v.source);
                        let part = &parts[rng.below(parts.len() as u32) as usize];
                        let at = part.start + rng.below(part.len() as u32) as usize;
                        self.frame[at] ^= 1 << rng.below(8);
                    }
                }
            }
            Style::Noise => self.noise(rng),
            Style::States if rng.one_in(4) => self.noise(rng),
            _ => {}
        }
    }

    /// Random bytes; often with a first word of zero, mode F or the record's own rate kept.
    fn noise(&mut self, rng: &mut Rng) {
        for chunk in self.frame.chunks_mut(8) {
            let bytes = rng.next().to_be_bytes();
            chunk.copy_from_slice(&bytes[..chunk.len()]);
        }
        for o in (360..560).step_by(8) {
            match rng.below(8) {
                0 => put(&mut self.frame, o, 0),
                1 | 2 => self.frame[o + 4] |= 0xF0,
                3 => self.frame[o + 5] |= 0x0F,
                4 => self.frame[o..o + 8].copy_from_slice(&self.clean[o..o + 8]),
                _ => {}
            }
        }
        for o in (90..160).step_by(2) {
            if rng.one_in(8) {
                let w = rng.pick(&[0, 1, 0x7fff, 0x8000, 0xffff]);
                put(&mut self.frame, o, w);
            }
        }
        for k in 0..6 {
            if rng.one_in(4) {
                let o = 640 + 4 * k;
                self.frame[o..o + 4].copy_from_slice(&(rng.word() << 22).to_be_bytes());
            }
        }
    }
}
