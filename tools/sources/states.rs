//! Random states: every field within its usual range, at its edges, or any bit pattern.

use crate::oracle::analog::Record;
use crate::rng::Rng;
use crate::rytm::{Cym, Drift, DualOsc, Env, Hat, Svf, Tom, Wobble};
use crate::state::{Source, State};

const SPECIAL: [u32; 22] = [
    0, 0x8000_0000, 1, 0x8000_0001, 0x007f_ffff, 0x0080_0000, 0x807f_ffff, 0x3f80_0000, 0xbf80_0000, 0x3f7f_ffff, 0x3f00_0000, 0x7f7f_ffff, 0xff7f_ffff,
    0x7f80_0000, 0xff80_0000, 0x7fc0_0000, 0xffc0_0001, 0x7f80_0001, 0x4b00_0000, 0x4b80_0000, 0xcf00_0000, 0x0d00_0000,
];

/// How far a state strays: of eight fields, so many are wild.
pub struct Wild<'a> {
    pub rng: &'a mut Rng,
    pub of8: u32,
}

impl Wild<'_> {
    /// The usual value, or an edge of it, or any float.
    pub fn float(&mut self, usual: f32, edges: &[f32]) -> f32 {
        if self.rng.below(8) >= self.of8 {
            return usual;
        }
        match self.rng.below(3) {
            0 => self.rng.pick(edges),
            1 => f32::from_bits(self.rng.pick(&SPECIAL)),
            _ => f32::from_bits(self.rng.word()),
        }
    }

    pub fn phase(&mut self) -> f32 {
        let usual = self.rng.unit();
        self.float(usual, &[0.0, 1.0, 0.99999994, 0.5, 0.49999997, 0.35, 0.34999999, 0.75, 0.25, -1e-9, -2.9802322e-8, -2.980233e-8, -0.3, 1.5, 1e6])
    }

    /// The level of an envelope that follows the record: anywhere, or a step from its target but for a rounding.
    pub fn level(&mut self, record: &[u8]) -> f32 {
        let whole = self.rng.range(-128, 127) as f32;
        let r = Record::parse(record);
        let rounding = (2.0 * self.rng.unit() - 1.0) * r.step * f32::EPSILON;
        let usual = match self.rng.below(4) {
            0 | 1 => whole,
            2 => (whole + self.rng.unit()).min(127.0),
            _ => (r.target + if self.rng.one_in(2) { r.step } else { -r.step } + rounding).clamp(-128.0, 127.0),
        };
        self.float(usual, &[-128.0, -127.5, -127.49999, -127.50001, 0.0, -0.0, 127.0, 127.5, 128.0, 1e9])
    }

    fn env(&mut self, record: &[u8]) -> Env {
        Env { level: self.level(record) }
    }

    fn detune(&mut self) -> f32 {
        let usual = 0.998 + 0.004 * self.rng.unit();
        self.float(usual, &[0.0, 1.0, 1e-7, -1e-7, -1.0, 2.0, 1000.0])
    }

    pub fn filter(&mut self) -> f32 {
        let usual = 2.0 * self.rng.unit() - 1.0;
        self.float(usual, &[0.0, 1.0, 1e-40, 1e30, 3e38])
    }

    fn drift(&mut self) -> Drift {
        let usual = 6.0 * self.rng.unit() - 3.0;
        let cents = self.float(usual, &[0.0, 128.0, -128.0, 152_400.0, -151_200.0]);
        let any = self.rng.word().min(u32::MAX - 1);
        let small = self.rng.below(32);
        let n = if self.rng.below(8) < self.of8 { self.rng.pick(&[31, 32, 33, 0x7fff_ffff, u32::MAX - 1, any]) } else { self.rng.pick(&[0, 30, 31, small]) };
        Drift { cents, ratio: self.detune(), n }
    }

    fn mode(&mut self) -> u8 {
        let any = self.rng.word() as u8;
        self.rng.pick(&[0, 0, 0xF, 0x3, 0xB, any])
    }

    /// The frame's record as it is, with another first word, or anything.
    fn seen(&mut self, f: &[u8], o: usize) -> [u8; 8] {
        let mut r: [u8; 8] = f[o..o + 8].try_into().unwrap();
        match self.rng.below(4) {
            0 => r[0] ^= 0x40,
            1 => r = self.rng.next().to_be_bytes(),
            _ => {}
        }
        r
    }
}

pub fn random(rng: &mut Rng, source: Source, f: &[u8]) -> State {
    let of8 = rng.pick(&[0, 1, 1, 3, 8]);
    let mut x = Wild { rng, of8 };
    match source {
        Source::Dual(i) => {
            let o = 360 + 32 * i;
            let (last_p, last_a, last_m) = (x.seen(f, o), x.seen(f, o + 16), x.seen(f, o + 24));
            State::Dual(
                i,
                DualOsc {
                    last_p,
                    last_a,
                    ph1: x.phase(),
                    ph2: x.phase(),
                    pitch: x.env(&f[o..]),
                    amp: x.env(&f[o + 16..]),
                    last_m,
                    amp2: x.env(&f[o + 24..]),
                    trig: x.rng.one_in(2),
                    det: [x.detune(), x.detune()],
                    drift: [x.drift(), x.drift()],
                },
            )
        }
        Source::Tom(i) => {
            let any = x.rng.word();
            let quiet = x.rng.pick(&[0, 1, 62, 63, 64, 65, u32::MAX - 1, u32::MAX, any]);
            State::Tom(i, Tom { y1: x.filter(), y2: x.filter(), det: x.detune(), quiet })
        }
        Source::Cym => {
            let silent = x.rng.one_in(3);
            let mut c = Cym { ph: [0.0; 6], det: [0.0; 6], env: [Env { level: -128.0 }; 8], mode: [0; 8], svf: [Svf { low: 0.0, band: 0.0 }; 5] };
            c.ph.iter_mut().for_each(|p| *p = x.phase());
            c.det.iter_mut().for_each(|d| *d = x.detune());
            if !silent {
                c.env.iter_mut().enumerate().for_each(|(r, e)| *e = x.env(&f[496 + 8 * r..]));
            }
            c.mode.iter_mut().for_each(|m| *m = x.mode());
            c.svf.iter_mut().for_each(|s| *s = Svf { low: x.filter(), band: x.filter() });
            State::Cym(c)
        }
        Source::Hat => {
            let mut h = Hat { ph: [0.0; 6], det: [0.0; 6], env: x.env(&f[488..]), mode: x.mode(), hp: Svf { low: x.filter(), band: x.filter() } };
            h.ph.iter_mut().for_each(|p| *p = x.phase());
            h.det.iter_mut().for_each(|d| *d = x.detune());
            if x.rng.one_in(3) {
                h.env.level = -128.0;
            }
            State::Hat(h)
        }
    }
}

/// A random sequence's state: usually depth 0 or 1.
pub fn wobble(rng: &mut Rng, wild: bool) -> Wobble {
    let any = rng.word();
    let s = rng.pick(&[any, any, any, 1, crate::rytm::DEFAULT_SEED, u32::MAX]);
    if wild && rng.one_in(4) {
        let depth = if rng.one_in(2) { rng.word() } else { rng.pick(&SPECIAL) };
        return Wobble { s: rng.pick(&[s, 0]), depth: f32::from_bits(depth) };
    }
    Wobble { s, depth: if rng.one_in(4) { 0.0 } else { 1.0 } }
}
