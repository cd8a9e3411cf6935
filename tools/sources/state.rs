//! The sources' states as the port has them, and the same on the Rust side.

use crate::oracle::analog as rust;
use crate::rytm::{Cym, Drift, DualOsc, Env, Hat, Svf, Tom};

#[derive(Clone, Copy)]
pub enum Source {
    Dual(usize),
    Tom(usize),
    Cym,
    Hat,
}

/// The sources in the board's order.
pub const SOURCES: [(Source, &str); 8] = [
    (Source::Dual(0), "BD"),
    (Source::Dual(1), "SD"),
    (Source::Dual(2), "RS"),
    (Source::Tom(0), "tom 0"),
    (Source::Tom(1), "tom 1"),
    (Source::Tom(2), "tom 2"),
    (Source::Cym, "cymbal"),
    (Source::Hat, "hat"),
];

pub const DUALS: [rust::DualSpec; 3] = [rust::BD, rust::SD, rust::RS];

/// A source's state as the port has it.
#[derive(Clone, Copy)]
pub enum State {
    Dual(usize, DualOsc),
    Tom(usize, Tom),
    Cym(Cym),
    Hat(Hat),
}

fn env(e: rust::Env) -> Env {
    Env { level: e.level }
}

fn rust_env(e: Env) -> rust::Env {
    rust::Env { level: e.level }
}

impl DualOsc {
    pub fn of(d: &rust::DualOsc) -> DualOsc {
        DualOsc {
            last_p: d.last_p,
            last_a: d.last_a,
            ph1: d.ph1,
            ph2: d.ph2,
            pitch: env(d.pitch),
            amp: env(d.amp),
            last_m: d.last_m,
            amp2: env(d.amp2),
            trig: d.trig,
            det: d.det,
            drift: d.drift.map(|x| Drift { cents: x.cents, ratio: x.ratio, n: x.n }),
        }
    }

    pub fn rust(&self, which: usize) -> rust::DualOsc {
        rust::DualOsc {
            spec: DUALS[which],
            last_p: self.last_p,
            last_a: self.last_a,
            ph1: self.ph1,
            ph2: self.ph2,
            pitch: rust_env(self.pitch),
            amp: rust_env(self.amp),
            last_m: self.last_m,
            amp2: rust_env(self.amp2),
            trig: self.trig,
            det: self.det,
            drift: self.drift.map(|x| rust::Drift { cents: x.cents, ratio: x.ratio, n: x.n }),
        }
    }
}

impl Tom {
    pub fn of(t: &rust::Tom) -> Tom {
        Tom { y1: t.y1, y2: t.y2, det: t.det, quiet: t.quiet }
    }

    pub fn rust(&self, which: usize) -> rust::Tom {
        rust::Tom { spec: rust::TOMS[which], y1: self.y1, y2: self.y2, det: self.det, quiet: self.quiet }
    }
}

impl Cym {
    pub fn of(c: &rust::Cym) -> Cym {
        Cym { ph: c.ph, det: c.det, env: c.env.map(env), mode: c.mode, svf: c.svf.map(|(low, band)| Svf { low, band }) }
    }

    pub fn rust(&self) -> rust::Cym {
        rust::Cym { ph: self.ph, det: self.det, env: self.env.map(rust_env), mode: self.mode, svf: self.svf.map(|s| (s.low, s.band)) }
    }
}

impl Hat {
    pub fn of(h: &rust::Hat) -> Hat {
        Hat { ph: h.ph, det: h.det, env: env(h.env), mode: h.mode, hp: Svf { low: h.hp.0, band: h.hp.1 } }
    }

    pub fn rust(&self) -> rust::Hat {
        rust::Hat { ph: self.ph, det: self.det, env: rust_env(self.env), mode: self.mode, hp: (self.hp.low, self.hp.band) }
    }
}
