//! Seconds of sound a second: the port, the Rust of tools/oracle with the port's curves, and the same with its own library's.
//! The same steps for each, one thread, turn by turn; the best of each counts. First firmware-like steps, then noise: every byte of frame and FX, every
//! DAC word and every input is new in each step. Of both it is told in how many chain samples the filter's cutoff or resonance changed.
//!
//!     --seconds N    sound in each turn (default 2)
//!     --only NAME    firmware or noise alone
//!     --boards N     also so many boards of the port in turn, a step each going round, each with firmware-like steps of its own
//!
//! Links board_c curves_c.

#[path = "../target/oracle/mod.rs"]
mod oracle;
#[path = "../target/oracle_own/mod.rs"]
mod own;
#[allow(dead_code)]
#[path = "../examples/rytm.rs"]
mod rytm;

#[allow(dead_code)]
#[path = "board/case.rs"]
mod case;
#[allow(dead_code)]
#[path = "board/desk.rs"]
mod desk;
#[allow(dead_code)]
#[path = "sources/fields.rs"]
mod fields;
#[allow(dead_code)]
#[path = "sources/frames.rs"]
mod frames;
#[path = "sources/rng.rs"]
mod rng;
#[allow(dead_code)]
#[path = "board/sides.rs"]
mod sides;
#[allow(dead_code)]
#[path = "sources/state.rs"]
mod state;
#[path = "board/strips.rs"]
mod strips;

use case::Case;
use desk::Desk;
use frames::Style;
use rng::Rng;
use rytm::{Board, Chain};
use std::time::Instant;

const SEED: u32 = rytm::DEFAULT_SEED;
const TURNS: usize = 5;
const PATTERNS: usize = 10;

/// A step's inputs; the frame by its place among the frames.
struct Given {
    frame: usize,
    dac: [i32; 16],
    fx: [u8; 24],
    audio: [f32; 2],
    ext: [f32; 2],
}

#[derive(Default)]
struct Tape {
    frames: Vec<Vec<u8>>,
    steps: Vec<Given>,
}

impl Tape {
    /// Accepted firmware-like steps of several patterns.
    fn firmware(rng: &mut Rng, steps: usize, patterns: usize) -> Tape {
        let mut tape = Tape::default();
        for pattern in 1..=patterns {
            let mut desk = Desk::new(rng, Style::Firmware, 200);
            while tape.steps.len() < steps * pattern / patterns {
                desk.step(rng);
                tape.take(&desk.case());
            }
        }
        tape
    }

    fn noise(rng: &mut Rng, steps: usize) -> Tape {
        let mut tape = Tape::default();
        for _ in 0..steps {
            let frame: Vec<u8> = (0..664 / 8).flat_map(|_| rng.next().to_be_bytes()).collect();
            let fx: [u8; 24] = std::array::from_fn(|_| rng.word() as u8);
            let dac: [i32; 16] = std::array::from_fn(|_| rng.word() as i32 >> 8);
            let [al, ar, el, er] = std::array::from_fn(|_| 2.0 * rng.unit() - 1.0);
            tape.take(&Case { frame: &frame, dac: &dac, fx: &fx, audio: [al, ar], ext: [el, er] });
        }
        tape
    }

    fn take(&mut self, case: &Case) {
        if case.number() != 0 {
            return;
        }
        if self.frames.last().is_none_or(|f| f != case.frame) {
            self.frames.push(case.frame.to_vec());
        }
        let (dac, fx) = (case.dac.try_into().unwrap(), case.fx[..24].try_into().unwrap());
        self.steps.push(Given { frame: self.frames.len() - 1, dac, fx, audio: case.audio, ext: case.ext });
    }

    /// Runs all steps; the time in seconds, and the sum of the words given.
    fn run(&self, mut step: impl FnMut(&[u8], &Given) -> [i32; 12]) -> (f64, i64) {
        let from = Instant::now();
        let mut sum = 0;
        for g in &self.steps {
            sum += step(&self.frames[g.frame], g).iter().map(|&w| w as i64).sum::<i64>();
        }
        (from.elapsed().as_secs_f64(), sum)
    }
}

/// A turn on a board of the Rust, with either library.
macro_rules! rust_turn {
    ($tape:expr, $module:ident) => {{
        let mut board = $module::analog::Analog::fresh(SEED, false);
        $tape.run(|f, g| {
            let inputs = $module::analog::Inputs { audio: g.audio.into(), ext: g.ext.into() };
            board.frame(f, &g.dac, &g.fx, inputs).rx
        })
    }};
}

fn step(board: &mut Board, f: &[u8], g: &Given) -> [i32; 12] {
    board.step(f, &g.dac, &g.fx, g.audio, g.ext).rx
}

fn port_turn(tape: &Tape) -> (f64, i64) {
    let mut board = Board::fresh(SEED, false);
    tape.run(|f, g| step(&mut board, f, g))
}

/// In how many of the chain samples the cutoff or the resonance changed, by what the port's chains store.
fn changed(tape: &Tape) -> u64 {
    let mut board = Board::fresh(SEED, false);
    let mut changed = 0;
    tape.run(|f, g| {
        let before = board.state().chains;
        let rx = step(&mut board, f, g);
        let pair = |c: &Chain| [c.coefs.fc.to_bits(), c.coefs.res.to_bits()];
        changed += before.iter().zip(&board.state().chains).filter(|(b, a)| pair(b) != pair(a)).count() as u64;
        rx
    });
    changed
}

/// The three rows of one tape; whether the port and the Rust with its curves gave the same words.
fn timed(name: &str, tape: &Tape) -> bool {
    let mut best = [f64::INFINITY; 3];
    let mut sums = [0; 3];
    for _ in 0..TURNS {
        let turns = [rust_turn!(tape, own), rust_turn!(tape, oracle), port_turn(tape)];
        for (i, (time, sum)) in turns.into_iter().enumerate() {
            best[i] = best[i].min(time);
            sums[i] = sum;
        }
    }
    let steps = tape.steps.len() as f64;
    let part = changed(tape) as f64 / (8.0 * steps) * 100.0;
    println!("{name}: {steps} steps, cutoff or resonance changed in {part:.1} % of the chain samples");
    for (name, time) in ["the Rust, its own curves", "the Rust, the port's curves", "the port"].iter().zip(best) {
        println!("  {name:30}{:>20.1}{:>12.0}{:>12.2}", steps / 48_000.0 / time, time / steps * 1e9, time / best[0]);
    }
    sums[1] == sums[2]
}

/// Boards of the port in turn, a step each going round.
fn many(boards: usize, steps: usize) {
    let mut rng = Rng::new(2);
    let tapes: Vec<Tape> = (0..boards).map(|_| Tape::firmware(&mut rng, steps, 1)).collect();
    let mut best = f64::INFINITY;
    let mut sum = 0;
    for _ in 0..TURNS {
        let mut all: Vec<Board> = (0..boards).map(|i| Board::fresh(SEED ^ i as u32, false)).collect();
        let from = Instant::now();
        for i in 0..steps {
            for (board, tape) in all.iter_mut().zip(&tapes) {
                let g = &tape.steps[i];
                sum += step(board, &tape.frames[g.frame], g)[0] as i64;
            }
        }
        best = best.min(from.elapsed().as_secs_f64());
    }
    std::hint::black_box(sum);
    let each = best / (boards * steps) as f64;
    println!("{boards} boards in turn, {steps} firmware-like steps each: {:.0} ns a step, {:.1} boards in real time on one core", each * 1e9, 1.0 / (48_000.0 * each));
}

fn main() {
    let (mut seconds, mut boards, mut only) = (2, 0, None);
    let words: Vec<String> = std::env::args().skip(1).collect();
    for pair in words.chunks(2) {
        let value = pair.get(1).map_or("", String::as_str);
        match (pair[0].as_str(), value.parse::<usize>().ok().filter(|&n| n > 0)) {
            ("--seconds", Some(n)) => seconds = n,
            ("--boards", Some(n)) => boards = n,
            ("--only", _) if matches!(value, "firmware" | "noise") => only = Some(value),
            _ => {
                eprintln!("options: --seconds N --only firmware|noise --boards N");
                std::process::exit(2);
            }
        }
    }
    let wanted = |name: &str| only.is_none_or(|only| only == name);
    println!("{}\n{}", oracle::ABOUT, own::ABOUT);
    println!("{seconds} s of sound in each turn, best of {TURNS}; a board of {} bytes", std::mem::size_of::<rytm::Analog>());
    println!("{:32}{:>20}{:>12}{:>12}", "", "sound per second", "ns a step", "against own");
    let mut same = true;
    if wanted("firmware") {
        same &= timed("firmware-like", &Tape::firmware(&mut Rng::new(1), 48_000 * seconds, PATTERNS));
    }
    if wanted("noise") {
        same &= timed("noise", &Tape::noise(&mut Rng::new(1), 48_000 * seconds));
    }
    if boards > 0 {
        many(boards, 48_000 * seconds / PATTERNS);
    }
    if !same {
        println!("the words of the port and of the Rust with its curves differ: see tools/compare");
        std::process::exit(1);
    }
}
