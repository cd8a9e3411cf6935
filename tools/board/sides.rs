//! The board on the two sides: a step's answer by the Rust with document 01's refusals before it, and by the port. The coefficients that the port's chains
//! keep are no part of the Rust's board: `fields` leaves them out, and `stored` has them beside those that the Rust worked out.

use crate::case::Case;
use crate::fields::{Fields, Names, Row};
use crate::oracle::analog as rust;
use crate::rytm::{Analog, Answer, Board, Chain, Coefs, Comp, Cym, DualOsc, Hat, Key, Mix, Sc, SegEnv, Step, Tom, Wobble};

fn seg(e: &rust::SegEnv) -> SegEnv {
    let (start, target, rate) = e.key;
    SegEnv { key: Key { start, target, rate }, level: e.level, hold: e.hold, cmd: e.cmd }
}

fn rust_seg(e: &SegEnv) -> rust::SegEnv {
    rust::SegEnv { key: (e.key.start, e.key.target, e.key.rate), level: e.level, hold: e.hold, cmd: e.cmd }
}

impl Chain {
    pub fn rust(&self) -> rust::Chain {
        let (amp, flt, amp_r) = (rust_seg(&self.amp), rust_seg(&self.flt), rust_seg(&self.amp_r));
        rust::Chain { amp, flt, low: self.low, band: self.band, lp1: self.lp1, amp_r }
    }
}

impl Analog {
    /// The Rust's board, with these coefficients in its chains.
    pub fn of(b: &rust::Analog, coefs: &[Coefs; 8]) -> Analog {
        let chain = |i: usize| {
            let c = &b.chains[i];
            Chain { amp: seg(&c.amp), flt: seg(&c.flt), low: c.low, band: c.band, lp1: c.lp1, amp_r: seg(&c.amp_r), coefs: coefs[i] }
        };
        Analog {
            duals: std::array::from_fn(|i| DualOsc::of(&b.duals[i])),
            hat: Hat::of(&b.hat),
            toms: std::array::from_fn(|i| Tom::of(&b.toms[i])),
            cym: Cym::of(&b.cym),
            chains: std::array::from_fn(chain),
            comp: Comp { env: b.comp.env, sc: Sc { lo: b.comp.sc.0, hi: b.comp.sc.1 } },
            wobble: Wobble { s: b.wobble.s, depth: b.wobble.depth },
        }
    }

    pub fn rust(&self) -> rust::Analog {
        rust::Analog {
            duals: std::array::from_fn(|i| self.duals[i].rust(i)),
            hat: self.hat.rust(),
            toms: std::array::from_fn(|i| self.toms[i].rust(i)),
            cym: self.cym.rust(),
            chains: std::array::from_fn(|i| self.chains[i].rust()),
            comp: rust::Comp { env: self.comp.env, sc: (self.comp.sc.lo, self.comp.sc.hi) },
            wobble: rust::Wobble { s: self.wobble.s, depth: self.wobble.depth },
            ..rust::Analog::fresh(1, false)
        }
    }
}

/// One step by the Rust, or a refusal.
pub fn rust_step(board: &mut rust::Analog, case: &Case) -> Step {
    let number = case.number();
    if number != 0 {
        return Step { number, rx: [0; 12], mix: Mix { l: 0.0, r: 0.0 } };
    }
    let dac: &[i32; 16] = case.dac.try_into().unwrap();
    let inputs = rust::Inputs { audio: case.audio.into(), ext: case.ext.into() };
    let out = board.frame(case.frame, dac, case.fx, inputs);
    Step { number, rx: out.rx, mix: Mix { l: out.mix.0, r: out.mix.1 } }
}

/// One step by the port, through the wrapper.
pub fn port_step(board: &mut Board, case: &Case) -> Answer {
    let step = board.step(case.frame, case.dac, case.fx, case.audio, case.ext);
    Answer { number: step.number, rx: step.rx, mix: step.mix, board: *board.state() }
}

fn seg_fields<F: Fields>(f: &mut F, name: &'static str, e: &SegEnv) {
    f.enter(name, None);
    f.word("key.start", e.key.start as u32);
    f.word("key.target", e.key.target as u32);
    f.word("key.rate", e.key.rate);
    f.float("level", e.level);
    f.word("hold", e.hold as u32);
    f.word("cmd", e.cmd as u32);
    f.leave();
}

fn fields<F: Fields>(f: &mut F, a: &Answer) {
    f.word("number", a.number);
    for (v, &w) in a.rx.iter().enumerate() {
        f.put("rx", Some(v), w as u32, false);
    }
    f.float("mix.l", a.mix.l);
    f.float("mix.r", a.mix.r);
    let b = &a.board;
    b.duals.iter().enumerate().for_each(|(i, d)| part(f, "duals", Some(i), |f| f.dual(d)));
    part(f, "hat", None, |f| f.hat(&b.hat));
    b.toms.iter().enumerate().for_each(|(i, t)| part(f, "toms", Some(i), |f| f.tom(t)));
    part(f, "cym", None, |f| f.cym(&b.cym));
    for (v, c) in b.chains.iter().enumerate() {
        part(f, "chains", Some(v), |f| {
            seg_fields(f, "amp", &c.amp);
            seg_fields(f, "flt", &c.flt);
            f.float("low", c.low);
            f.float("band", c.band);
            f.float("lp1", c.lp1);
            seg_fields(f, "amp_r", &c.amp_r);
        });
    }
    part(f, "comp", None, |f| {
        f.float("env", b.comp.env);
        f.float("sc.lo", b.comp.sc.lo);
        f.float("sc.hi", b.comp.sc.hi);
    });
    f.wobble(&b.wobble);
}

/// The coefficients of every chain.
fn stored<F: Fields>(f: &mut F, b: &Analog) {
    for (v, c) in b.chains.iter().enumerate() {
        part(f, "chains", Some(v), |f| {
            part(f, "coefs", None, |f| {
                let c = &c.coefs;
                for (name, x) in [("fc", c.fc), ("res", c.res), ("g", c.g), ("k", c.k), ("a1", c.a1), ("a2", c.a2), ("a3", c.a3), ("a", c.a)] {
                    f.float(name, x);
                }
            })
        });
    }
}

fn part<F: Fields>(f: &mut F, name: &'static str, index: Option<usize>, inside: impl FnOnce(&mut F)) {
    f.enter(name, index);
    inside(f);
    f.leave();
}

pub fn row(a: &Answer) -> Row {
    let mut row = Row::new();
    fields(&mut row, a);
    stored(&mut row, &a.board);
    row
}

pub fn names(a: &Answer) -> Names {
    let mut names = Names::new();
    fields(&mut names, a);
    stored(&mut names, &a.board);
    names
}
