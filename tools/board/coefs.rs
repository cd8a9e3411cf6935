//! The coefficients that the port's chains keep. The Rust's board has none: beside the port's stand those that the Rust worked out in the step, as it
//! told them (tools/oracle), after a refusal those of before, and on a fresh board those of 440 Hz and resonance 0.

use crate::case::Case;
use crate::fields::bits;
use crate::frames::put;
use crate::oracle::{self, analog as rust, counted, sides_apart, told};
use crate::rng::Rng;
use crate::rytm::{Analog, Answer, Chain, Coefs};
use crate::sides;

impl Coefs {
    fn of(c: &oracle::Coefs) -> Coefs {
        Coefs { fc: c.fc, res: c.res, g: c.g, k: c.k, a1: c.a1, a2: c.a2, a3: c.a3, a: c.a }
    }

    fn told(&self) -> oracle::Coefs {
        oracle::Coefs { fc: self.fc, res: self.res, g: self.g, k: self.k, a1: self.a1, a2: self.a2, a3: self.a3, a: self.a }
    }

    fn numbers(&self) -> [u32; 6] {
        [self.g, self.k, self.a1, self.a2, self.a3, self.a].map(bits)
    }
}

/// One step by the Rust. Its answer's board has the coefficients that the chains went by in this step, or of a refusal those of before.
pub fn rust_step(rust: &mut rust::Analog, before: &Analog, case: &Case) -> Answer {
    let step = sides::rust_step(rust, case);
    let coefs = match step.number {
        0 => told::went().map(|went| Coefs::of(&went.by)),
        _ => before.chains.map(|c| c.coefs),
    };
    Answer { number: step.number, rx: step.rx, mix: step.mix, board: Analog::of(rust, &coefs) }
}

/// In the steps to come the Rust keeps what this board has stored.
pub fn arm(board: &Analog) {
    told::arm(Some(board.chains.map(|c| c.coefs.told())));
}

/// What the Rust works out for this chain as voice `v` of a frame. The chain steps apart from a board, and what it counts is let go.
fn worked_out(mut chain: rust::Chain, f: &[u8], v: usize) -> Coefs {
    told::arm(None);
    chain.process(f, v, 0.0);
    let _ = (sides_apart(), counted::take());
    Coefs::of(&told::went()[v].fresh)
}

/// A fresh chain's: FRQ at 60 is 440 Hz.
pub fn fresh() -> Coefs {
    let mut f = [0; 664];
    put(&mut f, rust::FRQ, 0xf800);
    worked_out(rust::Chain::default(), &f, 0)
}

/// Those of a random pair; the cutoff is no number where an infinite level meets depth 0.
fn any(rng: &mut Rng) -> Coefs {
    let mut f = [0; 664];
    let mut chain = rust::Chain::default();
    let (frq, res, depth) = (rng.word(), rng.word(), rng.word());
    put(&mut f, rust::FRQ, frq);
    put(&mut f, rust::RES, rng.pick(&[0, 0x7f00, 0xffff, res, res]));
    put(&mut f, rust::FLT_ENV, rng.pick(&[0, depth]));
    let level = 127.0 * rng.unit();
    chain.flt.level = rng.pick(&[0.0, level, level, f32::INFINITY]);
    worked_out(chain, &f, 0)
}

/// The coefficients of the pair that the step will have, where it has one.
fn next(chain: &Chain, case: &Case, v: usize) -> Option<Coefs> {
    (case.frame.len() >= 664).then(|| worked_out(chain.rust(), case.frame, v))
}

/// Gives a random board's chains right coefficients: of a random pair, or of the one that the step will have.
pub fn right(rng: &mut Rng, board: &mut Analog, case: &Case) {
    for (v, c) in board.chains.iter_mut().enumerate() {
        let of_step = if rng.one_in(2) { next(c, case, v) } else { None };
        c.coefs = of_step.unwrap_or_else(|| any(rng));
    }
}

/// Gives a chain coefficients that are not their pair's: the pair is the one that the step will have, or differs from it in one thing.
fn spoil(rng: &mut Rng, c: &mut Chain, case: &Case, v: usize) {
    if rng.one_in(32) {
        // With depth 0 the cutoff is no number.
        c.flt.level = f32::INFINITY;
    }
    let Coefs { mut fc, mut res, .. } = next(c, case, v).unwrap_or_else(|| any(rng));
    let flipped = |x: f32, bit: u32| f32::from_bits(x.to_bits() ^ 1 << bit);
    match rng.below(10) {
        0 => fc = flipped(fc, rng.pick(&[0, 0, 1, 22, 23, 31])),
        1 => res = flipped(res, rng.pick(&[0, 0, 1, 22, 23])),
        2 => res = -res,
        3 if rng.one_in(2) => fc = f32::NAN,
        3 => res = f32::NAN,
        4 if rng.one_in(2) => fc = any(rng).fc,
        4 => res = any(rng).res,
        _ => {}
    }
    c.coefs = Coefs { fc, res, ..wrong(rng) };
}

/// Coefficients of another pair, one of them a bit off, or any.
fn wrong(rng: &mut Rng) -> Coefs {
    let mut c = any(rng);
    let Coefs { g, k, a1, a2, a3, a, .. } = &mut c;
    let numbers = [g, k, a1, a2, a3, a];
    match rng.below(4) {
        0 => {
            let [one, bit] = [6, 23].map(|n| rng.below(n));
            let number = numbers.into_iter().nth(one as usize).unwrap();
            *number = f32::from_bits(number.to_bits() ^ 1 << bit);
        }
        1 => numbers.into_iter().for_each(|x| *x = f32::from_bits(rng.word())),
        _ => {}
    }
    c
}

/// What a step did with coefficients that were not those of their pair.
#[derive(Clone, Copy)]
enum Kind {
    Kept,
    KeptNan,
    CutoffBit,
    Cutoff,
    ResonanceBit,
    Resonance,
    Zero,
    Nan,
    Both,
}

const KINDS: [&str; 9] = [
    "kept: cutoff and resonance the step's",
    "kept: the same, the cutoff no number",
    "renewed: the cutoff alone differed, by a bit",
    "renewed: the cutoff alone differed, by more",
    "renewed: the resonance alone differed, by a bit",
    "renewed: the resonance alone differed, by more",
    "renewed: the resonance alone differed, -0",
    "renewed: one of them alone differed, no number",
    "renewed: both differed",
];

/// In so many steps each kind has to be met so often.
const ENOUGH: (u64, u64) = (500_000, 100);

/// Runs with wrong coefficients stored: the Rust goes by these too where a step's pair is the stored one.
pub struct Stale {
    pub rng: Rng,
    /// The chains whose coefficients are wrong.
    wrong: [bool; 8],
    kinds: [u64; KINDS.len()],
    boards: u64,
}

impl Stale {
    pub fn new(rng: Rng) -> Stale {
        Stale { rng, wrong: [false; 8], kinds: [0; KINDS.len()], boards: 0 }
    }

    /// Another board, whose coefficients are right.
    pub fn begin(&mut self) {
        self.wrong = [false; 8];
    }

    /// Gives most of the board's chains wrong coefficients.
    pub fn spoil(&mut self, board: &mut Analog, case: &Case) {
        for (v, c) in board.chains.iter_mut().enumerate() {
            if !self.rng.one_in(8) {
                spoil(&mut self.rng, c, case, v);
                self.wrong[v] = true;
            }
        }
        self.boards += 1;
    }

    /// After an accepted step on this board: what became of wrong coefficients.
    pub fn note(&mut self, before: &Analog) {
        for ((c, went), wrong) in before.chains.iter().zip(told::went()).zip(&mut self.wrong) {
            let (was, fresh) = (c.coefs, Coefs::of(&went.fresh));
            let pairs = [(was.fc, fresh.fc), (was.res, fresh.res)];
            let same = pairs.map(|(a, b)| bits(a) == bits(b));
            let nan = pairs.iter().any(|(a, b)| a.is_nan() || b.is_nan());
            let one_bit = pairs.map(|(a, b)| (a.to_bits() ^ b.to_bits()).count_ones() == 1);
            let kind = match same {
                [true, true] if nan => Kind::KeptNan,
                [true, true] => Kind::Kept,
                [false, false] => Kind::Both,
                _ if nan => Kind::Nan,
                [false, _] if one_bit[0] => Kind::CutoffBit,
                [false, _] => Kind::Cutoff,
                _ if was.res == fresh.res => Kind::Zero,
                _ if one_bit[1] => Kind::ResonanceBit,
                _ => Kind::Resonance,
            };
            self.kinds[kind as usize] += (*wrong && was.numbers() != fresh.numbers()) as u64;
            *wrong &= same == [true, true];
        }
    }

    /// The end of the run: whether it was long enough to meet more than it did.
    pub fn end(&self, steps: u64) -> bool {
        println!("wrong coefficients stored, on {} boards:", self.boards);
        for (name, n) in KINDS.iter().zip(&self.kinds) {
            println!("  {name:48}{n:>12}");
        }
        let (enough, least) = ENOUGH;
        let few: Vec<&str> = KINDS.iter().zip(&self.kinds).filter(|(_, n)| **n < least).map(|(name, _)| *name).collect();
        if !few.is_empty() {
            println!("met under {least} times: {}", few.join("; "));
        }
        steps >= enough && !few.is_empty()
    }
}
