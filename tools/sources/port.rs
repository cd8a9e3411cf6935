//! The port's sources under their C names, and the Rust's beside them.

use crate::fields::{Fields, Names, Row};
use crate::oracle::analog as rust;
use crate::rytm::{Cym, DualOsc, Hat, Tom, Wobble};
use crate::state::{Source, State};

#[repr(C)]
pub struct DualOut {
    dual: DualOsc,
    w: Wobble,
    y: f32,
}

#[repr(C)]
pub struct HatOut {
    hat: Hat,
    w: Wobble,
    y: f32,
}

#[repr(C)]
pub struct CymOut {
    cym: Cym,
    w: Wobble,
    y: f32,
}

#[repr(C)]
pub struct TomOut {
    tom: Tom,
    w: Wobble,
    y: f32,
}

extern "C" {
    fn rytm_dual_new() -> DualOsc;
    fn rytm_hat_new() -> Hat;
    fn rytm_cym_new() -> Cym;
    fn rytm_tom_new() -> Tom;
    fn rytm_dual_sample(d: DualOsc, f: *const u8, len: usize, which: usize, w: Wobble) -> DualOut;
    fn rytm_hat_sample(h: Hat, f: *const u8, len: usize, w: Wobble) -> HatOut;
    fn rytm_cym_sample(c: Cym, f: *const u8, len: usize, w: Wobble) -> CymOut;
    fn rytm_tom_sample(t: Tom, f: *const u8, len: usize, which: usize, dac_word: i32, w: Wobble) -> TomOut;
}

impl State {
    pub fn fresh(source: Source) -> State {
        unsafe {
            match source {
                Source::Dual(i) => State::Dual(i, rytm_dual_new()),
                Source::Tom(i) => State::Tom(i, rytm_tom_new()),
                Source::Cym => State::Cym(rytm_cym_new()),
                Source::Hat => State::Hat(rytm_hat_new()),
            }
        }
    }

    /// One sample by the port.
    pub fn sample(self, f: &[u8], dac: &[i32; 16], w: Wobble) -> (State, Wobble, f32) {
        let (p, len) = (f.as_ptr(), f.len());
        unsafe {
            match self {
                State::Dual(i, d) => {
                    let o = rytm_dual_sample(d, p, len, i, w);
                    (State::Dual(i, o.dual), o.w, o.y)
                }
                State::Tom(i, t) => {
                    let o = rytm_tom_sample(t, p, len, i, dac[8 + i], w);
                    (State::Tom(i, o.tom), o.w, o.y)
                }
                State::Cym(c) => {
                    let o = rytm_cym_sample(c, p, len, w);
                    (State::Cym(o.cym), o.w, o.y)
                }
                State::Hat(h) => {
                    let o = rytm_hat_sample(h, p, len, w);
                    (State::Hat(o.hat), o.w, o.y)
                }
            }
        }
    }
}

/// A source as the Rust has it.
pub enum Model {
    Dual(usize, rust::DualOsc),
    Tom(usize, rust::Tom),
    Cym(rust::Cym),
    Hat(rust::Hat),
}

impl Model {
    /// The source of a fresh board.
    pub fn fresh(source: Source) -> Model {
        let board = rust::Analog::fresh(1, false);
        match source {
            Source::Dual(i) => Model::Dual(i, board.duals.into_iter().nth(i).unwrap()),
            Source::Tom(i) => Model::Tom(i, board.toms.into_iter().nth(i).unwrap()),
            Source::Cym => Model::Cym(board.cym),
            Source::Hat => Model::Hat(board.hat),
        }
    }

    pub fn of(state: &State) -> Model {
        match state {
            State::Dual(i, d) => Model::Dual(*i, d.rust(*i)),
            State::Tom(i, t) => Model::Tom(*i, t.rust(*i)),
            State::Cym(c) => Model::Cym(c.rust()),
            State::Hat(h) => Model::Hat(h.rust()),
        }
    }

    /// One sample by the Rust.
    pub fn sample(&mut self, f: &[u8], dac: &[i32; 16], w: &mut rust::Wobble) -> f32 {
        match self {
            Model::Dual(_, d) => d.sample(f, w),
            Model::Tom(_, t) => t.sample(f, dac, w),
            Model::Cym(c) => c.sample(f, w),
            Model::Hat(h) => h.sample(f, w),
        }
    }

    /// Its state in the port's form.
    pub fn state(&self) -> State {
        match self {
            Model::Dual(i, d) => State::Dual(*i, DualOsc::of(d)),
            Model::Tom(i, t) => State::Tom(*i, Tom::of(t)),
            Model::Cym(c) => State::Cym(Cym::of(c)),
            Model::Hat(h) => State::Hat(Hat::of(h)),
        }
    }
}

/// A source's sample, the random sequence and the source's state.
fn fields<F: Fields>(f: &mut F, state: &State, w: &Wobble, y: f32) {
    f.float("sample", y);
    f.wobble(w);
    match state {
        State::Dual(_, d) => f.dual(d),
        State::Tom(_, t) => f.tom(t),
        State::Cym(c) => f.cym(c),
        State::Hat(h) => f.hat(h),
    }
}

pub fn row(state: &State, w: &Wobble, y: f32) -> Row {
    let mut row = Row::new();
    fields(&mut row, state, w, y);
    row
}

pub fn names(state: &State, w: &Wobble) -> Names {
    let mut names = Names::new();
    fields(&mut names, state, w, 0.0);
    names
}
